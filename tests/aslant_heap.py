#!/usr/bin/env python3
"""Surveys the heap by the photographs of examples/photographs, whose cameras look aslant, from the chessboard on.

    tests/aslant_heap.py [--more]

The photographs and the chessboard's pictures are made anew, tools/calibrate_pair.py calibrates the cameras, and
examples/photographs/compare_photographs.py surveys the heap by three ways, two of them with the pose that
tools/site_pose.py makes of the targets. By the cameras as they are the volume has to be within 0.7 percent of the
true one, by the chessboard's calibration within 1 percent, and the heights of places on ground, heap and crate
within a quarter of a depth step.

With --more the same is asked of eight other places of the cameras, which tests/camera_places.py draws, each with noise
of its own, but for the height on the crate, and 1.5 percent by the chessboard. One height by the chessboard was
13 percent beyond that when this was written, so with --more the status is 1. The settings are the guide's, which were
chosen when its own place alone had been tried, but for `far`, which goes by the place: with the guide's 11 m for all,
one volume was 0.88 percent off by the cameras as they are. The program is the one that the variable SGM names (./sgm of this
repository without it). Takes a minute, with --more some minutes.
"""

import argparse
import os
import sys
import tempfile

HERE = os.path.dirname(os.path.abspath(__file__))
TOP = os.path.dirname(HERE)
sys.path[:0] = [os.path.join(TOP, "examples", "photographs")]

import camera_places
import compare_photographs
import make_photographs as made
from sgm_tools import files, running
from sgm_tools.running import Wrong

# The most that the volume may be off, in percent, by each of the three ways, from the guide's place and from others.
MOST = (0.7, 0.7, 1.0)
MOST_ELSEWHERE = (0.7, 0.7, 1.5)
# The last of the places whose heights are looked at is the crate's middle. From other places than the guide's it is
# told and not asked for: the plate there is plain, and covers most of the crate's top.
ON_GROUND_AND_HEAP = len(compare_photographs.PLACES) - 1
# What the other places are drawn by, how many they are, and where the noise of their pictures begins.
DRAWN, COUNT, NOISE = 2, 8, 2000


def calibrate(folder):
    words = ["--left", "boards/left", "--right", "boards/right", "--board", "9x6", "--square", "250"]
    compare_photographs.run_tool("calibrate_pair.py", *words, "--out", "cameras.json", folder=folder)


def found_from(folder, rig, number):
    """What the three surveys find from another place, in a folder of its own."""
    other = os.path.join(folder, f"place{number}")
    made.write_heap(other, rig, seeds=(NOISE + 2 * number, NOISE + 1 + 2 * number))
    with open(os.path.join(other, "cameras.json"), "wb") as file:
        file.write(files.read_bytes(os.path.join(folder, "cameras.json")))
    print(f"place {number}: {rig}")
    return compare_photographs.compare(other, rig)


def misses(place, found, bounds, count):
    """Lines about what isn't near enough to the truth; of the heights so many are asked for."""
    for name, it, most in zip(compare_photographs.NAMES, found, bounds):
        if abs(it.error) > most:
            yield f"{place}, {name}: the volume is {it.error:+.2f} % off, {most} at most"
        if max(it.parts[:count]) > 1:
            worst = max(it.heights[:count]) / 1000
            yield f"{place}, {name}: a height is {worst:.0f} mm off, more than a quarter of a depth step"


def summary(every):
    """For each way the least and the greatest error of the volume, and the worst heights."""
    for name, *found in zip(compare_photographs.NAMES, *every):
        errors = [it.error for it in found]
        part, crate = max(max(it.parts[:-1]) for it in found), max(it.parts[-1] for it in found)
        heights = f"heights to {part:.2f} of a quarter of a depth step, on the crate to {crate:.2f}"
        print(f"{name}: {min(errors):+.2f} to {max(errors):+.2f} %, {heights}")


def main():
    epilog = "Example: tests/aslant_heap.py"
    parser = argparse.ArgumentParser(description=__doc__.split("\n\n")[0], epilog=epilog)
    parser.add_argument("--more", action="store_true", help="from eight other places too")
    is_more = parser.parse_args().more
    running.need(numpy=running.numpy, PIL=running.Image, cv2=made.cv2)
    with tempfile.TemporaryDirectory(prefix="sgm-aslant_heap.") as folder:
        made.write(folder)
        calibrate(folder)
        every = {"the guide's place": compare_photographs.compare(folder)}
        for number, rig in enumerate(camera_places.drawn(DRAWN, COUNT) if is_more else []):
            every[f"place {number}"] = found_from(folder, rig, number)
    missed = []
    for number, (place, found) in enumerate(every.items()):
        bounds, count = (MOST_ELSEWHERE, ON_GROUND_AND_HEAP) if number else (MOST, len(compare_photographs.PLACES))
        missed += misses(place, found, bounds, count)
    summary(every.values())
    if missed:
        raise Wrong("\n".join(missed))
    print(f"aslant_heap: near the truth from {len(every)} places")


if __name__ == "__main__":
    running.run(main)
