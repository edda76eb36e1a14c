#!/usr/bin/env python3
"""Surveys the example heap twice, before and after a part of it was taken away, and looks at the change.

    tests/later_heap.py

The later pair is made by examples/stockpile/make_later.py. The reports of both surveys and the volumes of the change
have to be those of examples/stockpile/expected, which the separate implementation has made; the difference has to
be, cell by cell, what the two grids say; and what is gone has to be measured within two percent of the truth. The
program is the one that the variable SGM names (./sgm of this repository without it). Needs numpy.
"""

import argparse
import os
import subprocess
import sys
import tempfile

TOP = os.path.realpath(os.path.join(os.path.dirname(os.path.abspath(__file__)), ".."))
HEAP = os.path.join(TOP, "examples", "stockpile")
sys.path[:0] = [os.path.join(TOP, "tools"), HEAP]

import compare_change
import make_later
from sgm_tools import files, grids, running
from sgm_tools.running import Wrong, numpy


def run_program(*words):
    program = os.path.realpath(os.environ.get("SGM", os.path.join(TOP, "sgm")))
    done = subprocess.run([program, *words], stdin=subprocess.DEVNULL, capture_output=True, text=True)
    if done.returncode:
        raise Wrong(f"sgm {words[0]} ends with {done.returncode}: {done.stderr.strip()}")
    return done.stdout


def same(name, expected):
    if files.read_bytes(name) != files.read_bytes(os.path.join(HEAP, "expected", expected)):
        raise Wrong(f"{os.path.basename(name)} isn't expected/{expected}")


def check_difference(earlier, later, change, said):
    """The difference cell by cell, and what the program printed of it."""
    before, after, made = (grids.read_grid(name + ".asc") for name in (earlier, later, change))
    both = before.filled & after.filled
    if not (both == made.filled).all() or not (made.heights[both] == after.heights[both] - before.heights[both]).all():
        raise Wrong("the difference isn't that of the two grids")
    wanted = f"compared {int(both.sum())} of {both.size}\n"
    if said != wanted:
        raise Wrong(f"{said!r} was printed, not {wanted!r}")


def main():
    argparse.ArgumentParser(description=__doc__.split("\n\n")[0], epilog="Example: tests/later_heap.py").parse_args()
    running.need(numpy=numpy)
    with tempfile.TemporaryDirectory(prefix="sgm-later_heap.") as folder:
        pairs = {"earlier": HEAP, "later": os.path.join(folder, "pictures")}
        make_later.write_pair(pairs["later"])
        outs = {name: os.path.join(folder, name) for name in ("earlier", "later", "change")}
        for name, pair in pairs.items():
            words = [os.path.join(pair, side) for side in ("left.pgm", "right.pgm")]
            run_program("match", *words, os.path.join(HEAP, "calibration.json"), outs[name])
        said = run_program("change", *(outs[name] + ".asc" for name in pairs), outs["change"])
        for name, expected in (("earlier", "out.csv"), ("later", "later.csv"), ("change", "change.csv")):
            same(outs[name] + ".csv", expected)
        check_difference(*outs.values(), said)
        measured, true = compare_change.compare(outs["change"])
    if abs(measured / true - 1) > 0.02:
        raise Wrong(f"{measured:.3f} cubic metres are gone, and {true:.3f} in truth")
    print(f"later_heap: {measured:.3f} cubic metres of change measured, {true:.3f} in truth")


if __name__ == "__main__":
    running.run(main)
