#!/usr/bin/env python3
"""Measures the heap of examples/stockpile through two cameras as they are, from their OpenCV calibration on.

    tests/unrectified_heap.py

The heap is photographed anew by the two made-up cameras of examples/photographs, of unequal focal lengths,
whose lenses bend and which are turned a little out of level; here they hang straight above it and have no pose. tools/opencv_calibration.py makes meshes of their
calibration, the program rectifies and measures, and the volume and the height have to be near those of the cone.
So a mesh that led the wrong way, exchanged cameras or a wrong unit would show. The program is the one that the
variable SGM names (./sgm of this repository without it). Takes a minute.
"""

import argparse
import json
import os
import subprocess
import sys
import tempfile

HERE = os.path.dirname(os.path.abspath(__file__))
TOP = os.path.dirname(HERE)
SGM = os.path.realpath(os.environ.get("SGM", os.path.join(TOP, "sgm")))
sys.path[:0] = [os.path.join(TOP, "examples", "photographs"), os.path.join(TOP, "examples", "stockpile")]

import compare_truth
import make_photographs
import make_stockpile as heap
from sgm_tools import files, running

TOOL = os.path.join(TOP, "tools", "opencv_calibration.py")
LIMITS = "--unit m --near 4000000 --far 9000000 --mount 8000000 --grid -6400000 -6000000 125000 115 96"
REGIONS = " --region pile 15 18 77 78 0 --region ground 95 24 17 48 0"


def survey(folder):
    """The report's line of the pile, after the tool and the program have run in the folder."""
    rig, scene = make_photographs.hanging(), make_photographs.Scene(has_targets=False)
    left, right = map(files.pgm_bytes, make_photographs.photographs(rig, scene))
    cameras = json.dumps(make_photographs.calibration()).encode()
    for name, data in (("l.pgm", left), ("r.pgm", right), ("cameras.json", cameras)):
        with open(os.path.join(folder, name), "wb") as file:
            file.write(data)
    command = [TOOL, "cameras.json", *(LIMITS + REGIONS).split(), "--out", "c.json"]
    subprocess.run(command, cwd=folder, check=True)
    subprocess.run([SGM, "match", "l.pgm", "r.pgm", "c.json", "o"], cwd=folder, check=True)
    with open(os.path.join(folder, "o.csv")) as file:
        return file.read().splitlines()[1].split(",")


def main():
    epilog = "Example: tests/unrectified_heap.py"
    argparse.ArgumentParser(description=__doc__.split("\n\n")[0], epilog=epilog).parse_args()
    running.need(numpy=running.numpy, PIL=running.Image, cv2=make_photographs.cv2)
    with tempfile.TemporaryDirectory(prefix="sgm-unrectified_heap.") as folder:
        try:
            _, cells, empty, *_ = survey(folder)
            # Prints the comparison, and stops where the report isn't the sum of the cells.
            measured, highest = compare_truth.compare(os.path.join(folder, "o"))
        except (OSError, subprocess.CalledProcessError, compare_truth.NotASurvey) as error:
            sys.exit(f"unrectified_heap: {error}")
    # The ground has the disparity 30.35, from where values are drawn the farthest towards a whole one: it is measured
    # about as much too low as noise lifts the heap, and the volume comes out 4 % too large.
    volume = compare_truth.true_volume()
    is_near = abs(measured - volume) < volume / 20 and abs(highest - heap.CONE_HEIGHT) < 100_000
    is_filled = int(empty) < int(cells) // 20
    print("unrectified_heap: " + ("near the truth" if is_near and is_filled else "NOT near the truth"))
    return 0 if is_near and is_filled else 1


if __name__ == "__main__":
    running.run(main)
