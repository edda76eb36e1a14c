#!/usr/bin/env python3
"""Compares a survey of the heap on sloping ground with the truth.

    examples/slope/compare_slope.py OUT

reads OUT.asc and OUT.csv, a match by calibration.json beside this file. Prints the plane of the
ground, measured and true; the heap's volume above the ground's plane with plus or minus, as
tools/cubic_metres.py --ground --heights has it, the true one of make_slope.py, and what lies
between them. Fails where OUT.csv isn't the tally of OUT.asc. """

import argparse
import os
import sys

HERE = os.path.dirname(os.path.abspath(__file__))
sys.path.insert(0, os.path.join(HERE, "..", "..", "tools"))

import make_slope as truth
from sgm_tools import calibrations, files, grids, reports, running
from sgm_tools import regions as sgm_regions
from sgm_tools.running import Wrong
from sgm_tools.volumes import mean_height, net_above

CUBE = 10**18


def tally(region, grid, found, side):
    """A region's line of the report by the heights, without the cells that are bridged."""
    heights, bases = found
    above = [int(height) - int(base) for height, base in zip(heights, bases)]
    volumes = [sum(max(0, sign * it) for it in above) * side * side for sign in (1, -1)]
    ends = [int(heights.min()), int(heights.max())] if len(heights) else [None, None]
    empty = sgm_regions.number_of_cells(region, grid) - len(heights)
    return dict(zip(reports.REPORT_NAMES, [region["name"], len(heights), empty, *volumes, *ends]))


def compare(out):
    """Prints the comparison, and gives the measured volume, the true one and plus or minus, in
    cubic metres."""
    calibration = files.read_json(os.path.join(HERE, "calibration.json"))
    heights, report = grids.read_grid(out + ".asc"), reports.read_report(out + ".csv")
    calibrations.check_grid(calibration, heights)
    regions, grid = calibrations.regions_in(calibration), sgm_regions.grid_in(calibration)
    found = [sgm_regions.found_in(it, grid, heights.heights, heights.filled) for it in regions]
    lines = [tally(it, grid, cells, heights.cell) for it, cells in zip(regions, found)]
    if [{key: it[key] for key in reports.REPORT_NAMES} for it in report] != lines:
        raise Wrong(f"{out}.csv: the report isn't the tally of the cells")
    heap, ground = ([line[key] for key in reports.REPORT_NAMES] for line in lines[:2])
    if not heap[1] or not ground[1]:
        raise Wrong(f"{out}.csv: a region has no cell with a height")

    base, east, north = sgm_regions.Plane(sgm_regions.ground_cells(calibration, heights)).fitted(
        heights.cell
    )
    true = truth.ground_at(grid["west"], grid["south"]) / 100
    print(
        f"ground  true {true / 1e6:.3f} m at the south-west corner, "
        f"rising {truth.GROUND_EAST / 100:.4f} to the east"
    )
    print(
        f"        and {truth.GROUND_NORTH / 100:.4f} to the north; measured {base / 1e6:.3f} m, ",
        end="",
    )
    print(f"{east / 1e6:.4f} and {north / 1e6:.4f}")

    height = mean_height(ground, regions[1]["base"], heights.cell)
    measured = net_above(heap, regions[0]["base"], heights.cell, height) / CUBE
    mean, spread = sgm_regions.ground_spread(*found[1])
    sixteenth = sgm_regions.sixteenth_at(mean, calibration["camera"])
    sure = sgm_regions.plus_minus(heap[1], heights.cell, sixteenth, spread) / CUBE
    volume = truth.true_volume() / 6 / CUBE
    print(
        f"volume  true {volume:.3f} m3   measured {measured:.3f} m3 plus or minus {sure:.3f}   ",
        end="",
    )
    print(f"{100 * (measured / volume - 1):+.2f} %, {measured - volume:+.3f} m3")
    print(f"        from {heap[1]} cells inside the outline, {heap[2]} of it empty")
    return measured, volume, sure


def main():
    epilog = (
        "Example, after the match of the example into /tmp/slope:"
        " examples/slope/compare_slope.py /tmp/slope"
    )
    parser = argparse.ArgumentParser(description=__doc__.split("\n\n")[0], epilog=epilog)
    parser.add_argument("out", metavar="OUT", help="the last word of the match")
    compare(parser.parse_args().out)


if __name__ == "__main__":
    running.run(main)
