#!/usr/bin/env python3
"""Compares a survey of the stockpile with the truth.

    examples/stockpile/compare_truth.py OUT

reads OUT.asc and OUT.csv. The truth is the cone of make_stockpile.py: its volume is pi * radius * radius *
height / 3, and the height of a place is the height of the tip less its distance from the axis times the
slope. The measured volume is that above the mean height of the ground region, as tools/cubic_metres.py
--ground says it. Prints the true and the measured numbers with their errors, and fails where OUT.csv isn't
the sum of the cells of OUT.asc. The program decides nothing here: these numbers are for people, and use
floating point.
"""

import argparse
import csv
import json
import math
import os
import sys

HERE = os.path.dirname(os.path.abspath(__file__))
sys.path.insert(0, os.path.join(HERE, "..", "..", "tools"))

import make_stockpile as truth
from sgm_tools.volumes import mean_height, net_above

METRE = 1_000_000


class NotASurvey(Exception):
    """What is wrong with the files, in words."""


def read_heights(name):
    """The grid's head as numbers, and its rows of heights from the north, None where a cell is empty."""
    with open(name, encoding="ascii") as file:
        words = file.read().split()
    if words[0:12:2] != ["ncols", "nrows", "xllcorner", "yllcorner", "cellsize", "NODATA_value"] or len(words) < 13:
        raise NotASurvey(f"{name}: not a height grid of sgm")
    head = dict(zip(words[0:12:2], map(int, words[1:12:2])))
    cells = [None if word == words[11] else int(word) for word in words[12:]]
    cols = head["ncols"]
    if cols < 1 or len(cells) != cols * head["nrows"]:
        raise NotASurvey(f"{name}: {len(cells)} heights, {cols} x {head['nrows']} needed")
    return head, [cells[at : at + cols] for at in range(0, len(cells), cols)]


def read_report(name):
    """The lines of a report, without how many cells are bridged, which version 3 says."""
    with open(name, encoding="ascii", newline="") as file:
        lines = list(csv.DictReader(file))
    return [{key: word for key, word in line.items() if key != "bridged"} for line in lines]


def true_height(x, y):
    away = math.hypot(x - truth.CONE_X, y - truth.CONE_Y)
    return max(0, truth.CONE_HEIGHT * (1 - away / truth.CONE_RADIUS))


def true_volume():
    return math.pi * truth.CONE_RADIUS**2 * truth.CONE_HEIGHT / 3


def cells_of(region, head, rows):
    """The true height at each cell's middle, and the measured one, of the region's cells."""
    size = head["cellsize"]
    for row in range(region["row"], region["row"] + region["rows"]):
        for col in range(region["col"], region["col"] + region["cols"]):
            x = head["xllcorner"] + size * col + size / 2
            y = head["yllcorner"] + size * (head["nrows"] - 1 - row) + size / 2
            yield true_height(x, y), rows[row][col]


def is_sum_of_cells(line, region, heights, size):
    """Whether the report's line is what the region's heights come to."""
    filled = [height for height in heights if height is not None]
    above = sum(max(0, height - region["base"]) for height in filled) * size * size
    below = sum(max(0, region["base"] - height) for height in filled) * size * size
    ends = [min(filled), max(filled)] if filled else ["", ""]
    made = [region["name"], len(filled), len(heights) - len(filled), above, below, *ends]
    return list(line.values()) == [str(it) for it in made]


def print_parts(pairs, size, base):
    """Where the error of the volume comes from: cells that are too high or too low, and cells that are empty."""
    errors = [height - base - true for true, height in pairs if height is not None]
    missing = [true for true, height in pairs if height is None]
    cube = METRE**3 / size**2
    print(f"of the volume's error: {sum(errors) / cube:+.3f} m3 from {len(errors)} measured cells, ", end="")
    print(f"{-sum(missing) / cube:+.3f} m3 from {len(missing)} empty ones")


def percent(measured, true):
    return f"{100 * (measured / true - 1):+.2f} %"


def whole_numbers(line):
    """A line of the report with its numbers, None for a height that isn't there."""
    name, *numbers = line.values()
    return [name, *(int(word) if word else None for word in numbers)]


def compare(out):
    """Prints the comparison of OUT.asc and OUT.csv, and gives the pile's volume and its greatest height."""
    with open(os.path.join(HERE, "calibration.json"), encoding="utf-8") as file:
        calibration = json.load(file)
    regions, grid = calibration["regions"], calibration["grid"]
    head, rows = read_heights(out + ".asc")
    if (head["ncols"], head["nrows"]) != (grid["cols"], grid["rows"]):
        raise NotASurvey(f"{out}.asc: not a survey of this example, whose grid is {grid['cols']} x {grid['rows']}")
    lines = read_report(out + ".csv")
    if len(lines) != len(regions):
        raise NotASurvey(f"{out}.csv: {len(lines)} regions, {len(regions)} needed")
    for region, line in zip(regions, lines):
        pairs = list(cells_of(region, head, rows))
        if not is_sum_of_cells(line, region, [height for _, height in pairs], head["cellsize"]):
            raise NotASurvey(f"{out}.csv: region {region['name']}: the report isn't the sum of the cells")

    (pile, ground), (pile_base, ground_base) = map(whole_numbers, lines), (region["base"] for region in regions)
    if ground[1] == 0 or pile[1] == 0:
        raise NotASurvey(f"{out}.csv: a region has no cell with a height")
    base = mean_height(ground, ground_base, head["cellsize"])
    volume, measured = true_volume(), net_above(pile, pile_base, head["cellsize"], base)
    height, highest = truth.CONE_HEIGHT, pile[-1]
    low, high = (end / METRE for end in ground[-2:])
    print(f"ground  true 0.000 m     measured {base / METRE:.3f} m, its cells {low:.3f} to {high:.3f} m")
    print(f"volume  true {volume / METRE**3:.3f} m3   measured {measured / METRE**3:.3f} m3   ", end="")
    print(f"{percent(measured, volume)}, above the measured ground")
    print(f"height  true {height / METRE:.3f} m     measured {highest / METRE:.3f} m     {percent(highest, height)}")
    print_parts(list(cells_of(regions[0], head, rows)), head["cellsize"], base)
    return measured, highest


def main():
    epilog = "Example, after the match of the example into /tmp/heap: examples/stockpile/compare_truth.py /tmp/heap"
    parser = argparse.ArgumentParser(description=__doc__.split("\n\n")[0], epilog=epilog)
    parser.add_argument("out", metavar="OUT", help="the last word of the match")
    words = parser.parse_args()
    try:
        compare(words.out)
    except (OSError, ValueError, NotASurvey) as error:
        sys.exit(f"compare_truth: {error}")


if __name__ == "__main__":
    main()
