#!/usr/bin/env python3
"""Measures what a grid of heights and its regions take: runs without and with them, in turns.

    bench/ground_time.py [--turns 9] [--size 1280x720] [--count 64] [--grid 1200x800]
                         [--cell 10000] [--corners 1000] [--strips 16] [--workers 1 4]
                         [--only disparities grid]

In each turn the program runs once for each number of workers with the disparities alone, with a
grid of so many columns and rows besides, and with one region of the whole grid: with a level base,
with one that slopes, and with an outline of so many corners, which go in and out. The calibration is
of version 3, with cells by their mean and no bridges. A grid of few, wide cells, as --grid 24x16
--cell 10000000, shows what the points alone take: its text is short. The table has the median
seconds of each, and how much more each takes than the one before it; for the three regions, than
the grid alone. The program is the one that the variable SGM names (./sgm without it).
"""

import argparse
import json
import math
import os
import statistics
import sys
import tempfile

import bench

BASELINE = 100000
SLOPE = {"rise_east": 40000, "rise_north": -30000}
LEVEL = {"rise_east": 0, "rise_north": 0}


def outline(cols, rows, cell, corners):
    """Corners that go in and out around the middle of the grid."""
    east, north = cols * cell / 2, rows * cell / 2
    found = []
    for at in range(corners):
        turn, far = 2 * math.pi * at / corners, 0.98 if at % 2 else 0.3
        found += [round(east + far * east * math.cos(turn))]
        found += [round(north + far * north * math.sin(turn))]
    return found


def settings_of(folder, words):
    """The names of the calibrations, by what they ask for."""
    with open(bench.write_calibration(folder, words.count, 3)) as file:
        plain = json.load(file)
    (cols, rows), cell = words.grid, words.cell
    camera = {"focal": 256 * 1000, "baseline": BASELINE, "cx": 128 * words.width}
    camera |= {"cy": 128 * words.height, "doffs": 256, "mount": 0, "near": 1, "far": 2000000000}
    grid = {"west": -cols * cell // 2, "south": -rows * cell // 2, "cell": cell}
    grid |= {"cols": cols, "rows": rows, "keep": "mean", "bridge": 0}
    whole = {"name": "all", "col": 0, "row": 0, "cols": cols, "rows": rows, "base": 0}
    around = outline(cols, rows, cell, words.corners)
    around = [it + (grid["south"] if at % 2 else grid["west"]) for at, it in enumerate(around)]
    over = {**plain, "camera": camera, "grid": grid}
    made = {
        "disparities": plain,
        "grid": over,
        "level region": {**over, "regions": [{**whole, **LEVEL}]},
        "sloping region": {**over, "regions": [{**whole, **SLOPE}]},
        "outline": {**over, "regions": [{**whole, **LEVEL, "outline": around}]},
    }
    names = {}
    for what in words.only or made:
        names[what] = os.path.join(folder, what.replace(" ", "-") + ".json")
        with open(names[what], "w") as file:
            json.dump(made[what], file)
    return names


def seconds(pair, settings, workers, words, folder):
    out = os.path.join(folder, "out")
    shared = [f"strips={words.strips}", f"workers={workers}"]
    return bench.measured([bench.SGM, "match", *pair, settings, out, *shared])[0]


def print_table(words, names, turns):
    bench.row("Workers", "What", "Seconds", "More, s")
    bench.row(*["---"] * 4)
    for workers in words.workers:
        before = None
        for what in names:
            found, more = statistics.median(it[workers, what] for it in turns), ""
            if before is not None:
                apart = (it[workers, what] - it[workers, before] for it in turns)
                more = f"{statistics.median(apart):.3f}"
            bench.row(str(workers), what, f"{found:.3f}", more)
            before = what if what in ("disparities", "grid") else "grid"


def sides(text):
    return tuple(int(side) for side in text.split("x"))


def words_of():
    shown = argparse.RawDescriptionHelpFormatter
    parser = argparse.ArgumentParser(description=__doc__, formatter_class=shown)
    parser.add_argument("--turns", type=int, default=9)
    parser.add_argument("--size", type=sides, default=(1280, 720))
    parser.add_argument("--count", type=int, default=64)
    parser.add_argument("--grid", type=sides, default=(1200, 800))
    parser.add_argument("--cell", type=int, default=10000, help="its side, in micrometres")
    parser.add_argument("--corners", type=int, default=1000)
    parser.add_argument("--strips", type=int, default=16)
    parser.add_argument("--workers", type=int, nargs="+", default=[1, 4])
    parser.add_argument("--only", nargs="+", help="what is measured, by the table's names")
    words = parser.parse_args()
    words.width, words.height = words.size
    return words


def main():
    words = words_of()
    os.environ.setdefault("GLIBC_TUNABLES", bench.TUNABLES)
    with tempfile.TemporaryDirectory() as folder:
        pair = bench.write_pair(folder, words.width, words.height)
        names, turns = settings_of(folder, words), []
        for _ in range(words.turns):
            turns.append({
                (workers, what): seconds(pair, name, workers, words, folder)
                for workers in words.workers
                for what, name in names.items()
            })
    size, grid = (f"{it[0]} x {it[1]}" for it in (words.size, words.grid))
    print(f"{size}, {words.count} disparities, {grid} cells, {words.corners} corners")
    print(f"{words.turns} turns, {bench.processor()}\n")
    print_table(words, names, turns)
    return 0


if __name__ == "__main__":
    sys.exit(main())
