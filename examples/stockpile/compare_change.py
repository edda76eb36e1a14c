#!/usr/bin/env python3
"""Compares the change between the stockpile's two surveys with the truth.

    examples/stockpile/compare_change.py OUT

reads OUT.asc and OUT.csv of `sgm change` between a survey of this example's pair and one of the pair that
make_later.py makes. The truth is what lay between the old surface and the cut, added up over the cone on squares of
20 mm. The measured volume is the net change of the region `pile`; the region `ground`, where nothing has changed,
says what is noise, as tools/change_volumes.py --still does. Fails where OUT.csv isn't the sum of the cells of
OUT.asc. These numbers are for people, and use floating point. Needs numpy.
"""

import argparse
import json
import math
import os
import sys

HERE = os.path.dirname(os.path.abspath(__file__))
sys.path.insert(0, os.path.join(HERE, "..", "..", "tools"))

import compare_truth
import make_later
import make_stockpile as truth
from sgm_tools import changes, grids, running

METRE = 1_000_000
SQUARE = 20_000


def true_change(x, y):
    """How much lower the later surface is at a place, as a number below 0; 0 where it isn't."""
    earlier = compare_truth.true_height(x, y)
    cut = make_later.CUT_HEIGHT - (x - truth.CONE_X) / make_later.CUT_LENGTH
    return min(0, max(0, cut) - earlier)


def true_volume():
    """What is gone, in cubic metres, as a number below 0."""
    ends = range(-truth.CONE_RADIUS + SQUARE // 2, truth.CONE_RADIUS, SQUARE)
    total = math.fsum(true_change(truth.CONE_X + x, truth.CONE_Y + y) for y in ends for x in ends)
    return total * SQUARE**2 / METRE**3


def print_cells(out, calibration, noise):
    """How far the cells of the pile are from what has changed there."""
    grid = grids.read_grid(out + ".asc")
    (_, at, _), _ = changes.regions_of(calibration, grid)
    errors = []
    for row in range(at[0].start, at[0].stop):
        for col in range(at[1].start, at[1].stop):
            if grid.filled[row, col]:
                x = grid.west + grid.cell * col + grid.cell / 2
                y = grid.south + grid.cell * (grid.heights.shape[0] - 1 - row) + grid.cell / 2
                errors.append(int(grid.heights[row, col]) - true_change(x, y))
    mean = math.fsum(errors) / len(errors)
    root = math.sqrt(math.fsum(it * it for it in errors) / len(errors))
    print(f"cells   of the pile off by {mean / METRE:+.3f} m in the mean, ", end="")
    print(f"{root / METRE:.3f} m by the root of the mean square")
    print(f"        of the ground, where nothing has changed, {noise / METRE:.3f} m by the root of the mean square")


def compare(out):
    """Prints the comparison, and gives the measured and the true volume."""
    with open(os.path.join(HERE, "calibration.json"), encoding="utf-8") as file:
        calibration = json.load(file)
    (_, pile), (_, ground), _ = changes.tallies(out, calibration)
    if not ground.cells or not pile.cells:
        raise running.Wrong(f"{out}.asc: a region has no cell with a height in both surveys")
    measured, true = (pile.fill - pile.cut) / METRE**3, true_volume()
    least = ground.root() * pile.cells * pile.area / METRE**3
    print(f"change  true {true:.3f} m3   measured {measured:.3f} m3   {100 * (measured / true - 1):+.2f} %")
    print(f"        noise of the ground comes to {least:.3f} m3 over the pile: below that nothing would be certain")
    print_cells(out, calibration, ground.root())
    return measured, true


def main():
    epilog = "Example, after `sgm change` into /tmp/change: examples/stockpile/compare_change.py /tmp/change"
    parser = argparse.ArgumentParser(description=__doc__.split("\n\n")[0], epilog=epilog)
    parser.add_argument("out", metavar="OUT", help="the last word of the change")
    words = parser.parse_args()
    running.need(numpy=running.numpy)
    compare(words.out)
    return 0


if __name__ == "__main__":
    running.run(main)
