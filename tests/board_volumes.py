#!/usr/bin/env python3
"""Calibrates made-up pairs of cameras by made-up boards, and bounds what that makes of the volume of a heap.

    tests/board_volumes.py [--seeds FIRST LAST]

Each seed stands for two cameras and twelve boards (tests/board_sets.py), whose pictures are made and calibrated by.
Then the surface of examples/stockpile, seen from where the pair of examples/photographs hangs, is measured by the
calibration in place of the true cameras: each cell's middle is seen by the true ones and lies where the calibrated
ones say. So no matching has a part in it. The volume above the plane of the ground on four sides has to be within one
percent of the true one for every seed. The standard error that tools/calibrate_pair.py reckons from boards that are
left out has to be about what the errors are, all seeds together; and with the further boards that it asks for the
volume has to stay within one percent, and all errors together to be less; nobody holds a board exactly as asked, so
here it is some degrees and some hundredths of the distance off. Without words the seeds are 21 to 30, which were fixed
before anything was tried on them; 1 to 20 were looked at while the method was made. Needs numpy, Pillow and OpenCV.
Takes three minutes.
"""

import argparse
import math
import os
import sys

sys.path.insert(0, os.path.dirname(os.path.abspath(__file__)))

import board_sets
import compare_photographs
import compare_truth
import make_photographs as made
from sgm_tools import boards, further_boards, running, spreads
from sgm_tools.pairs import Cameras
from sgm_tools.running import Wrong, numpy

METRE = 1_000_000
BOARDS = 12
# About how far the heap is from the cameras, in metres, and how many numbers of a lens are found.
DISTANCE, LENS = 8.0, 4
# The most that a volume may be off, in percent; and between what the root of the mean square of all errors, each in its
# own standard error, has to lie. Of ten independent normal ones it lies between 0.5 and 1.5 for 98 of 100.
MOST = 1.0
LIKELY = (0.4, 1.8)
# The part of the errors that may remain with the boards that are asked for, which are to halve them.
REMAINS = 0.8


def cells():
    """The places of the cells' middles in the site's frame, in metres, as rows of columns, and the regions."""
    west, south, cell, cols, rows = map(int, compare_photographs.LIMITS.split("--grid")[1].split()[:5])
    x = west + cell * (numpy.arange(cols) + 0.5)
    y = south + cell * (rows - 0.5 - numpy.arange(rows))
    heights = [[compare_truth.true_height(*at) for at in zip(x.tolist(), [row] * cols)] for row in y.tolist()]
    points = numpy.stack([*numpy.meshgrid(x, y), numpy.array(heights)], axis=-1) / METRE
    regions = {}
    for words in compare_photographs.REGIONS.split("--region")[1:]:
        name, col, row, across, down, _ = words.split()
        regions[name] = numpy.s_[int(row) : int(row) + int(down), int(col) : int(col) + int(across)]
    return points, regions


def volume_above_ground(points, regions):
    """The volume of the pile above the plane of all grounds: each square of four points by two triangles."""
    grounds = numpy.concatenate([points[at].reshape(-1, 3) for name, at in regions.items() if name != "pile"])
    flat = numpy.column_stack([grounds[:, :2], numpy.ones(len(grounds))])
    east, north, base = numpy.linalg.lstsq(flat, grounds[:, 2], rcond=None)[0]
    pile = points[regions["pile"]]
    x, y = pile[..., 0], pile[..., 1]
    rise = pile[..., 2] - east * x - north * y - base
    total = 0
    for third in (numpy.s_[:-1, 1:], numpy.s_[1:, :-1]):
        here, other = numpy.s_[:-1, :-1], numpy.s_[1:, 1:]
        area = (x[third] - x[here]) * (y[other] - y[here]) - (x[other] - x[here]) * (y[third] - y[here])
        total += (abs(area) * (rise[here] + rise[third] + rise[other])).sum() / 6
    return float(total)


def laid_upon(points, wanted):
    """The turn and the shift that lay points as near to those wanted as can be."""
    u, _, v = numpy.linalg.svd((points - points.mean(axis=0)).T @ (wanted - wanted.mean(axis=0)))
    turn = (u @ numpy.diag([1, 1, numpy.sign(numpy.linalg.det(u @ v))]) @ v).T
    return turn, wanted.mean(axis=0) - turn @ points.mean(axis=0)


def volume_error(pair, cameras):
    """By how many percent the heap's volume is off by these cameras, with a pose by targets."""
    points, regions = cells()
    true, rig = board_sets.true_cameras(pair), made.aslant()
    into_camera = made.turned(pair[0]) @ made.FLIP @ rig.axes.T
    lie = lambda places: cameras.points(*true.seen((places - rig.place / METRE) @ into_camera.T))
    targets = [place for name, (place, _) in made.TARGETS.items() if name != compare_photographs.CHECK]
    targets = numpy.array(targets) / METRE
    turn, shift = laid_upon(lie(targets), targets)
    found = (lie(points.reshape(-1, 3)) @ turn.T + shift).reshape(points.shape)
    return 100 * (volume_above_ground(found, regions) / volume_above_ground(points, regions) - 1)


def tried(pair, found):
    """The cameras, the volume's error and its standard error by these boards, in percent."""
    parts, _ = boards.calibrate(found, False)
    cameras = Cameras.of(parts, found.size)
    spread = spreads.spread_of(found, parts, False, [DISTANCE])
    return cameras, volume_error(pair, cameras), 100 * spread.volumes[DISTANCE]


def try_seed(seed):
    """Prints what a seed gives; the error and the standard error before, and both with the boards that are asked for."""
    pair = board_sets.cameras_of(seed)
    found = board_sets.boards_of(pair, board_sets.poses_of(seed, BOARDS, pair))
    cameras, error, expected = tried(pair, found)
    asked = further_boards.further_boards(cameras, found, DISTANCE, LENS)
    more = board_sets.boards_of(pair, board_sets.held_by_hand(seed, [board_sets.pose_of(pair, it.lying) for it in asked]))
    both = boards.Boards(found.names + more.names, found.left + more.left, found.right + more.right, found.places, found.size)
    _, later, then = tried(pair, both)
    running.progress("")
    line = f"seed {seed}: {len(found.left)} boards {error:+.2f} %, standard error {expected:.2f}"
    further = f"{len(more.left)} of {len(asked)} further boards"
    print(f"{line}; with {further} {later:+.2f} %, {then:.2f}", flush=True)
    return error, expected, later, then


def root_mean_square(numbers):
    return math.sqrt(float((numbers**2).mean()))


def fault_of(found):
    """What is wrong with what all seeds gave, or None."""
    errors, expected, later, then = (numpy.array(it) for it in zip(*found))
    worst = float(abs(numpy.concatenate([errors, later])).max())
    ratio = root_mean_square(errors / expected)
    remains = root_mean_square(later) / root_mean_square(errors)
    print(f"worst {worst:.2f} %; errors are {ratio:.2f} standard errors, {root_mean_square(errors):.2f} % before further boards")
    print(f"of the errors {remains:.2f} remain with these, of the standard errors {then.mean() / expected.mean():.2f}")
    if worst > MOST:
        return f"a volume is {worst:.2f} % off, {MOST:g} at most"
    if not LIKELY[0] <= ratio <= LIKELY[1]:
        return f"errors are {ratio:.2f} standard errors, not {LIKELY[0]:g} to {LIKELY[1]:g}"
    return None if remains < REMAINS else f"{remains:.2f} of the errors remain with the boards that were asked for"


def main():
    parser = argparse.ArgumentParser(description=__doc__.split("\n\n")[0], epilog="Example: tests/board_volumes.py")
    parser.add_argument("--seeds", type=int, nargs=2, default=[21, 30], metavar=("FIRST", "LAST"), help="21 30 if not given")
    words = parser.parse_args()
    running.need(numpy=numpy, PIL=running.Image, cv2=board_sets.cv2)
    fault = fault_of([try_seed(seed) for seed in range(words.seeds[0], words.seeds[1] + 1)])
    if fault:
        raise Wrong(fault)
    print("board_volumes: near the truth")


if __name__ == "__main__":
    running.run(main)
