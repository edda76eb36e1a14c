#!/usr/bin/env python3
"""Surveys the quarry of examples/quarry from nothing to its volumes, by the command of docs/MANY.md as it stands there.

    tests/quarry.py

Each volume has to be within 2 percent of the true one and all together within 1 percent, the check points within half a
depth step, and the pose by the control points of three pairs within a quarter of one of the known pose. The parts of
each error have to add up to it. tools/merge_check.py may mark no pair, and has to mark one that is lifted by half a
depth step, and no other. All of it, from the drawing of the pictures on, has to take less than three minutes where
there are four processors. The programs are those that the variables SGM and SGM_SERIES name (./sgm and ./sgm_series of
this repository without them).
"""

import argparse
import contextlib
import csv
import io
import os
import subprocess
import sys
import tempfile

HERE = os.path.dirname(os.path.abspath(__file__))
TOP = os.path.dirname(HERE)
sys.path[:0] = [os.path.join(TOP, "tools"), os.path.join(TOP, "examples", "quarry")]

import reference_inputs
import survey_quarry
from sgm_tools import grids, running
from sgm_tools.running import Wrong, numpy

MOST, MOST_TOGETHER, MOST_SECONDS, PROCESSORS = 2.0, 1.0, 180, 4
COMMAND = "examples/quarry/survey_quarry.py /tmp/quarry"
# The pair that is lifted.
LIFTED = 9


def check(holds, text):
    if not holds:
        raise Wrong(text)


def check_found(found):
    for it in found.volumes:
        check(abs(it.error()) <= MOST, f"{it.name}: the volume is {it.error():+.2f} % off, {MOST} at most")
        left = it.measured - it.true - sum(it.causes.values())
        # The table has three decimals.
        check(abs(left) < 0.002, f"{it.name}: {left:.4f} m3 of the error have no cause")
        # The shape's volume in closed form is that of its cells.
        check(abs(it.causes["cells"]) < it.true / 10000, f"{it.name}: its cells miss {it.causes['cells']:+.4f} m3")
    check(abs(found.all_error()) <= MOST_TOGETHER, f"all volumes together are {found.all_error():+.2f} % off")
    for name, off, half in found.checks:
        check(abs(off) <= half, f"{name} is {1000 * off:+.0f} mm off, half a depth step is {1000 * half:.0f} mm")
    quarter = survey_quarry.depth_step(0, 0, survey_quarry.made.ground_at(0, 0)) / 4
    for number, away in found.controls:
        check(away <= quarter, f"pair {number}: both poses lie {1000 * away:.0f} mm apart, {1000 * quarter:.0f} at most")
    if (os.cpu_count() or 1) >= PROCESSORS:
        check(found.seconds < MOST_SECONDS, f"it took {found.seconds:.0f} seconds, {MOST_SECONDS} at most")


def marked(folder, listed):
    """The numbers of the grids that tools/merge_check.py marks."""
    tool = os.path.join(TOP, "tools", "merge_check.py")
    words = [listed, "quarry.asc", "--picture", "check.png"]
    done = subprocess.run([sys.executable, tool, *words], cwd=folder, capture_output=True, text=True, check=True)
    return [int(line["grid"]) for line in csv.DictReader(io.StringIO(done.stdout)) if line["mark"]]


def lift(folder):
    """Writes the list with one of the grids lifted by half a depth step."""
    with open(os.path.join(folder, "heights.txt"), encoding="utf-8") as file:
        names = file.read().split()
    grid = grids.read_grid(os.path.join(folder, names[LIFTED]))
    step = survey_quarry.depth_step(0, 0, survey_quarry.made.ground_at(0, 0))
    heights = numpy.where(grid.filled, grid.heights + round(step * 500_000), grid.heights)
    with open(os.path.join(folder, names[LIFTED]), encoding="ascii") as file:
        head = "".join(file.readline() for _ in range(6))
    names[LIFTED] = "lifted.asc"
    with open(os.path.join(folder, "lifted.asc"), "w", encoding="ascii") as file:
        file.write(head + "".join(" ".join(map(str, row)) + "\n" for row in heights.tolist()))
    with open(os.path.join(folder, "lifted.txt"), "w", encoding="utf-8") as file:
        file.write("".join(name + "\n" for name in names))
    return "lifted.txt"


def check_page():
    with open(os.path.join(TOP, "docs", "MANY.md"), encoding="utf-8") as file:
        check(f"```sh\n{COMMAND}\n```\n" in file.read(), f"docs/MANY.md doesn't have the command {COMMAND}")


def main():
    epilog = "Example: tests/quarry.py"
    argparse.ArgumentParser(description=__doc__.split("\n\n")[0], epilog=epilog).parse_args()
    running.need(numpy=numpy, PIL=running.Image)
    if not reference_inputs.HAS_MERGE:
        print("quarry: skipped: the program has no merge yet")
        return
    check_page()
    with tempfile.TemporaryDirectory(prefix="sgm-quarry.") as folder:
        with contextlib.redirect_stdout(io.StringIO()) as said:
            found = survey_quarry.survey(folder)
        print(said.getvalue()[said.getvalue().rindex("\n\n") :].strip())
        check_found(found)
        check(marked(folder, "heights.txt") == [], f"merge_check marks {marked(folder, 'heights.txt')}")
        listed = lift(folder)
        check(marked(folder, listed) == [LIFTED], f"merge_check marks {marked(folder, listed)}, not {LIFTED}")
    print(f"quarry: near the truth, {found.all_error():+.2f} % off")


if __name__ == "__main__":
    running.run(main)
