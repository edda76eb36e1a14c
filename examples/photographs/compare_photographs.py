#!/usr/bin/env python3
"""Compares surveys of the photographs with the truth, and tells apart where the error of the volume comes from.

    examples/photographs/compare_photographs.py FOLDER

FOLDER is that of make_photographs.py, with cameras.json of tools/calibrate_pair.py in it. The pair is surveyed three
times, as docs/GUIDE.md does it: by the cameras as they are and where they are; by the cameras as they are, with the
pose that tools/site_pose.py makes of four of the targets; and by the chessboard's calibration with a pose from the
same targets. The first one's error is what the matching, by its definitions, makes of these two pictures; what the
second one adds comes from the pose, and what the third one adds from the calibration. The volume is that above the
plane of the ground on four sides of the heap. The heights of places on ground, heap and crate are held against a
quarter of a depth step, which is how far a surface moves along the cameras' axis when its disparity changes by a
pixel. The program is the one that the variable SGM names (./sgm of this repository without it). These numbers are for
people, and use floating point. Needs numpy, Pillow and OpenCV's package (cv2).
"""

import argparse
import dataclasses
import json
import math
import os
import shutil
import subprocess
import sys
import tempfile

HERE = os.path.dirname(os.path.abspath(__file__))
TOP = os.path.realpath(os.path.join(HERE, "..", ".."))
TOOLS = os.path.join(TOP, "tools")
sys.path[:0] = [TOOLS, os.path.join(TOP, "examples", "stockpile")]

import compare_truth
import make_photographs as made
import make_stockpile as heap
from sgm_tools import calibrations, files, grids, opencv, running
from sgm_tools import regions as sgm_regions
from sgm_tools.running import Wrong, numpy

METRE = 1_000_000
MOUNT = 8_000_000
# The words that docs/GUIDE.md has for the pair: a grid in the site's frame, the heap, and ground on all sides of it.
WEST, SOUTH, CELL, COLS, ROWS = -6_400_000, -7_000_000, 125_000, 115, 104
LIMITS = f"--version 3 --near 4000000 --mount {MOUNT} --grid {WEST} {SOUTH} {CELL} {COLS} {ROWS}"
REGIONS = (
    " --region pile 15 19 77 76 0 --region ground-east 95 24 17 48 0 --region ground-west 3 36 10 22 0"
    " --region ground-north 57 0 24 18 0 --region ground-south 43 95 16 9 0"
)
# The target that has no part in the pose, and the window of disparities around each in pixels: the others lie flat on
# flat ground, so it may be larger than a plate.
CHECK, WINDOW = "T5", 15
# Places whose heights are looked at: eight around the heap at half its radius, four on the ground, and the middle of
# the crate.
AROUND = [math.radians(angle) for angle in range(0, 360, 45)]
PLACES = [
    (heap.CONE_X + heap.CONE_RADIUS / 2 * math.cos(it), heap.CONE_Y + heap.CONE_RADIUS / 2 * math.sin(it))
    for it in AROUND
]
PLACES += [(6_500_000, 0), (-5_500_000, -300_000), (2_300_000, 4_800_000), (0, -6_300_000)]
PLACES += [made.TARGETS["T5"][0][:2]]


def run(*words, folder):
    """What a command prints; stops where it doesn't end with 0."""
    done = subprocess.run(words, cwd=folder, stdin=subprocess.DEVNULL, capture_output=True, text=True)
    if done.returncode:
        raise Wrong(done.stderr.strip() or f"{os.path.basename(words[0])} ends with {done.returncode}")
    return done.stdout


def run_tool(name, *words, folder):
    return run(sys.executable, os.path.join(TOOLS, name), *words, folder=folder)


def program():
    """The program that the variable SGM names, that of this repository, or the one that is installed."""
    own = os.path.join(TOP, "sgm")
    return os.path.realpath(os.environ.get("SGM") or (own if os.path.exists(own) else shutil.which("sgm") or own))


def exact_pose(rig, cameras):
    """The section `pose` of a pair that hangs so, for the rectification that its exact calibration leads to."""
    parts = opencv.read_calibration([cameras], None)
    turn = opencv.rectification(parts, False, None)[0]
    # Of the rectified left camera: its right, its top and what is behind it, in the site's frame.
    axes = rig.axes @ made.FLIP @ made.turned(made.LEFT).T @ turn.T @ made.FLIP
    shift = rig.camera(False) - axes @ [0, 0, MOUNT]
    matrix = numpy.rint(axes * 2**30).astype(int).ravel().tolist()
    return {"matrix": matrix, **dict(zip(("east", "north", "up"), numpy.rint(shift).astype(int).tolist()))}


def limits_of(rig):
    """The words for a pair that hangs so. What is farther away than `far` has no disparity, so it is half a metre or
    more beyond the grid's farthest corner, in whole metres."""
    corners = [(WEST + col * CELL, SOUTH + row * CELL, 0) for col in (0, COLS) for row in (0, ROWS)]
    farthest = ((numpy.array(corners) - rig.place) @ -rig.axes[:, 2]).max()
    return f"{LIMITS} --far {math.ceil(farthest / METRE + 0.5) * METRE}{REGIONS}"


@dataclasses.dataclass
class Survey:
    """A survey of the pair in a folder: the first letters of its files, the calibration of the cameras, the unit of its
    baseline, the exact pose or None, where it is made of targets.csv, and the words for tools/opencv_calibration.py."""

    folder: str
    name: str
    cameras: str
    unit: str
    pose: "dict | None"
    limits: str

    def path(self, ending):
        return os.path.join(self.folder, self.name + ending)

    def match(self, calibration):
        run(program(), "match", "left.pgm", "right.pgm", calibration, self.name, folder=self.folder)

    def measured(self):
        """Runs the tools and the program; gives what site_pose.py printed, or None."""
        words = [self.cameras, "--unit", self.unit, *self.limits.split(), "--out", self.name + ".first.json"]
        run_tool("opencv_calibration.py", *words, folder=self.folder)
        said = None
        if self.pose is None:
            self.match(self.name + ".first.json")
            words = [self.name + ".first.json", self.name + ".pgm", "targets.csv"]
            words += ["--photograph", "--check", CHECK, "--window", str(WINDOW), "--write", self.name + ".json"]
            said = run_tool("site_pose.py", *words, folder=self.folder)
        else:
            calibration = files.read_json(self.path(".first.json"))
            with open(self.path(".json"), "w", encoding="utf-8") as file:
                file.write(json.dumps({**calibration, "pose": self.pose}) + "\n")
        self.match(self.name + ".json")
        return said


def volume_of(survey):
    """The volume of the pile above the plane of the ground, in cubic metres."""
    calibration, heights = files.read_json(survey.path(".json")), grids.read_grid(survey.path(".asc"))
    plane = sgm_regions.Plane(sgm_regions.ground_cells(calibration, heights)).fitted(heights.cell)
    region = dict(calibrations.regions_in(calibration)[0])
    region |= dict(zip(("base", "rise_east", "rise_north"), plane))
    grid = sgm_regions.grid_in(calibration)
    found, bases = sgm_regions.found_in(region, grid, heights.heights, heights.filled)
    return float((found - bases).sum()) * heights.cell**2 / METRE**3


def true_height(x, y):
    is_crate = heap.CRATE_WEST <= x <= heap.CRATE_EAST and heap.CRATE_SOUTH <= y <= heap.CRATE_NORTH
    return heap.CRATE_HEIGHT if is_crate else compare_truth.true_height(x, y)


def height_errors(survey, rig):
    """For each of the places how far its cell lies from the true height there, and a quarter of a depth step."""
    camera, heights = files.read_json(survey.path(".json"))["camera"], grids.read_grid(survey.path(".asc"))
    rows = heights.heights.shape[0]
    for x, y in PLACES:
        col, row = int((x - heights.west) // heights.cell), rows - 1 - int((y - heights.south) // heights.cell)
        if not heights.filled[row, col]:
            raise Wrong(f"{survey.name}: the cell at {x / METRE:g} {y / METRE:g} has no height")
        # The true height is that of the cell's middle.
        middle = [heights.west + heights.cell * (col + 0.5), heights.south + heights.cell * (rows - row - 0.5)]
        true = true_height(*middle)
        away = (numpy.array([*middle, true]) - rig.camera(False)) @ -rig.axes[:, 2]
        step = away**2 / (camera["focal"] / 256 * camera["baseline"])
        yield heights.heights[row, col] - true, step / 4


@dataclasses.dataclass
class Found:
    """What a survey has found: the error of its volume in percent, and how far each of PLACES is from its true height,
    in micrometres and as a part of a quarter of a depth step."""

    survey: Survey
    volume: float
    error: float
    heights: list
    parts: list
    said: "str | None"


def found_by(survey, rig):
    running.progress(f"surveying: {survey.name}")
    said = survey.measured()
    volume, true = volume_of(survey), compare_truth.true_volume() / METRE**3
    errors = [(abs(error), abs(error) / quarter) for error, quarter in height_errors(survey, rig)]
    return Found(survey, volume, 100 * (volume / true - 1), *map(list, zip(*errors)), said)


def take_pair(source, work):
    """Makes left.pgm and right.pgm of the photographs of another folder."""
    for side in ("left", "right"):
        words = [os.path.join(source, f"{side}.png"), "--out", f"{side}.pgm"]
        run_tool("photo_to_pgm.py", *words, folder=work)


def surveys(source, work, rig):
    """The three surveys of a folder of make_photographs.py, whose pair hangs so, made in another one."""
    take_pair(source, work)
    with open(os.path.join(work, "targets.csv"), "wb") as file:
        file.write(files.read_bytes(os.path.join(source, "targets.csv")))
    true, board = (os.path.join(source, name) for name in ("true.json", "cameras.json"))
    limits = limits_of(rig)
    return [
        found_by(Survey(work, "exact", true, "m", exact_pose(rig, true), limits), rig),
        found_by(Survey(work, "posed", true, "m", None, limits), rig),
        found_by(Survey(work, "board", board, "mm", None, limits), rig),
    ]


NAMES = (
    "cameras and pose as they are",
    f"cameras as they are, pose by targets without {CHECK}",
    "cameras by the chessboard, the same pose",
)


def compare(source, rig=None):
    """Prints the comparison, and gives what the three surveys have found."""
    with tempfile.TemporaryDirectory(prefix="sgm-compare_photographs.") as work:
        found = surveys(os.path.abspath(source), work, rig or made.aslant())
    print(f"true volume {compare_truth.true_volume() / METRE**3:.3f} m3")
    for name, it in zip(NAMES, found):
        print(f"{name}: {it.volume:.3f} m3, {it.error:+.2f} %")
        worst = f"worst of {len(PLACES)} heights {max(it.heights) / 1000:.0f} mm off"
        print(f"    {worst}, at most {max(it.parts):.2f} of a quarter of a depth step")
        for line in (it.said or "").splitlines():
            if line.split(" ")[0] in (CHECK, "root", "the", "WARNING:"):
                print(f"    {line}")
    exact, targets, board = (it.error for it in found)
    parts = f"{exact:+.2f} % definition, {targets - exact:+.2f} % pose, {board - targets:+.2f} % calibration"
    print(f"of the last one's error: {parts}")
    return found


def main():
    epilog = "Example, after the chessboard of docs/GUIDE.md: examples/photographs/compare_photographs.py /tmp/survey"
    parser = argparse.ArgumentParser(description=__doc__.split("\n\n")[0], epilog=epilog)
    parser.add_argument("folder", metavar="FOLDER", help="of make_photographs.py, with cameras.json in it")
    words = parser.parse_args()
    running.need(numpy=numpy, PIL=running.Image, cv2=made.cv2)
    compare(words.folder)


if __name__ == "__main__":
    running.run(main)
