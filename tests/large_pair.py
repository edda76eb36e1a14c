#!/usr/bin/env python3
"""Holds the answers of the tests that match the large generated pair against the reference.

    tests/large_pair.py

The pair has 640 x 480 pixels and the number 7; its calibration is the worked example's with the plain settings. Works
out, for a plain match and for one with `peak=20 fill=1`, the summary and the sum (FNV-1a over 64 bits) of what o.pgm,
o.asc and o.csv hold one after the other, and looks whether they stand in crates/sgm_app_tests/src/tests/pairs.rt. Takes
five processor minutes for each and two GB.

Status: 0 where all stand there, 1 else.
"""

import argparse
import json
import os
import sys

import reference
from reference_inputs import read_calibration

HERE = os.path.dirname(os.path.abspath(__file__))
TESTS = os.path.join(HERE, "..", "crates", "sgm_app_tests", "src", "tests", "pairs.rt")
# The worked example's calibration, with the plain settings in place of its own.
EXAMPLE = os.path.join(HERE, "..", "crates", "sgm_cli", "data", "c.json")
SETTINGS = {
    "disparities": {"first": 0, "count": 64},
    "census": {"width": 9, "height": 7},
    "penalties": {"p1": 10, "p2": 120},
}
RUNS = (("plain", {}), ("refined", {"peak": 20, "fill": 1}))


def sum_of(data):
    """FNV-1a over 64 bits."""
    found = 0xCBF29CE484222325
    for byte in data:
        found = (found ^ byte) * 0x100000001B3 % 2**64
    return found


def calibration():
    with open(EXAMPLE, encoding="utf-8") as file:
        return read_calibration(json.dumps({**json.load(file), **SETTINGS}).encode())


def answer(refine):
    """The summary of a match, and the sum of its files."""
    outputs, summary = reference.match_texts(*reference.generated_pair(640, 480, 7), calibration(), **refine)
    return summary.strip(), f"{sum_of(b''.join(text for _, text, _ in outputs)):016x}"


def main():
    parser = argparse.ArgumentParser(description=__doc__.split("\n\n")[0], epilog="Example: tests/large_pair.py")
    parser.parse_args()
    with open(TESTS, encoding="utf-8") as file:
        tests = file.read().replace("_", "")
    missing = []
    for name, refine in RUNS:
        summary, found = answer(refine)
        print(f"large_pair: {name}: {summary}, 0x{found}", flush=True)
        missing += [text for text in (summary, found) if text not in tests]
    print(f"large_pair: {len(missing)} of {2 * len(RUNS)} answers are not those of the tests")
    return 1 if missing else 0


if __name__ == "__main__":
    try:
        sys.exit(main())
    except OSError as error:
        sys.exit(f"large_pair: {error}")
