#!/usr/bin/env python3
"""Measures the time of a merge beside what reading its grids takes, and the memory of a long one.

    bench/merge_time.py [--turns 5] [--entries 100] [--size 1000x1000] [--site 3000x3000]
    bench/merge_time.py --long [--entries 1000] [--long-text]

In each turn the program merges so many grids over a site, in which they lie at random, by the mean
and by the highest; and over a grid of one cell that none of them reaches, so that their bytes and
words are read and judged and nothing is added. That is what reading takes, and the table has the
medians, with how many times as much the merges took. Besides there is `change` of each second grid
with itself, which reads as many bytes and writes half as many grids. Each grid is a file of its
own, with heights of seven digits, and each tenth cell is empty.

With --long one merge is made of as many entries of 4096 x 4096 cells over a site of 4096 x 4096.
They are one file under one name, whose heights have one digit each, 34 megabytes, so the program
reads 34 gigabytes. With --long-text the last entry is a text of 268,435,456 bytes instead, which
is the longest that is read. Seconds and the greatest memory are printed.

The program is the one that the variable SGM names (./sgm without it). Needs numpy.
"""

import argparse
import json
import os
import statistics
import sys
import tempfile

import bench

sys.path.insert(0, os.path.join(bench.HERE, "..", "tools"))

from sgm_tools import running
from sgm_tools.running import numpy

CELL, EMPTY, LONGEST = 100000, -2147483648, 268435456
LONG_SIDE = 4096
# One seed, so that the grids are the same each time.
SEED = 55


def head(cols, rows, west=0, south=0):
    lines = [f"ncols {cols}", f"nrows {rows}", f"xllcorner {west}", f"yllcorner {south}"]
    return "".join(line + "\n" for line in [*lines, f"cellsize {CELL}", f"NODATA_value {EMPTY}"])


def write_entry(folder, number, size, site):
    """A grid somewhere in the site."""
    cols, rows = size
    draw = numpy.random.default_rng([SEED, number])
    west, south = (int(draw.integers(0, max(1, whole - own + 1))) * CELL for whole, own in zip(site, size))
    heights = draw.integers(1000000, 9999999, (rows, cols))
    heights[draw.random((rows, cols)) < 0.1] = EMPTY
    name = os.path.join(folder, f"{number}.asc")
    with open(name, "w") as file:
        file.write(head(cols, rows, west, south))
        for row in heights.tolist():
            file.write(" ".join(map(str, row)) + "\n")
    return name


def write_site(folder, name, size, keep, west=0):
    """The calibration of a site of that size."""
    with open(bench.write_calibration(folder, 64, 3)) as file:
        plain = json.load(file)
    camera = {"focal": 256000, "baseline": 100000, "cx": 0, "cy": 0, "doffs": 0}
    camera |= {"mount": 0, "near": 1, "far": 2000000000}
    grid = {"west": west, "south": 0, "cell": CELL, "cols": size[0], "rows": size[1]}
    path = os.path.join(folder, name)
    with open(path, "w") as file:
        json.dump({**plain, "camera": camera, "grid": {**grid, "keep": keep, "bridge": 0}}, file)
    return path


def write_list(folder, names):
    path = os.path.join(folder, "list.txt")
    with open(path, "w") as file:
        file.write("".join(name + "\n" for name in names))
    return path


# Time


def change_seconds(names, out):
    """What `change` takes for each second grid and itself."""
    return sum(bench.measured([bench.SGM, "change", name, name, out])[0] for name in names[::2])


def time_merges(words, folder):
    names = []
    for number in range(words.entries):
        running.progress(f"writing grid {number + 1} of {words.entries}")
        names.append(write_entry(folder, number, words.size, words.site))
    running.progress("")
    listed = write_list(folder, names)
    away = -10000 * CELL
    sites = {
        "reading": write_site(folder, "away.json", (1, 1), "mean", away),
        "merge, mean": write_site(folder, "mean.json", words.site, "mean"),
        "merge, highest": write_site(folder, "highest.json", words.site, "highest"),
    }
    out, turns = os.path.join(folder, "out"), []
    for _ in range(words.turns):
        turns.append({it: bench.measured([bench.SGM, "merge", listed, sites[it], out]) for it in sites})
        turns[-1]["change"] = (change_seconds(names, out), 0.0)
    size, site = (f"{it[0]} x {it[1]}" for it in (words.size, words.site))
    length = sum(map(os.path.getsize, names)) / 1e6
    print(f"{words.entries} grids of {size} cells, {length:.0f} megabytes, over {site} cells")
    print(f"{words.turns} turns, {bench.processor()}\n")
    print_table(turns)


def print_table(turns):
    bench.row("What", "Seconds", "Times reading", "Memory, MB")
    bench.row(*["---"] * 4)
    for what in turns[0]:
        seconds, memory = (statistics.median(turn[what][at] for turn in turns) for at in (0, 1))
        times = statistics.median(turn[what][0] / turn["reading"][0] for turn in turns)
        bench.row(what, f"{seconds:.2f}", f"{times:.2f}", f"{memory:.0f}" if memory else "")


# Memory


def write_long(folder, name, length=None):
    """A grid of the greatest size, whose text has as many bytes, or is as short as can be."""
    row = (" ".join(["7"] * LONG_SIDE) + "\n").encode()
    begin = head(LONG_SIDE, LONG_SIDE).encode()
    path = os.path.join(folder, name)
    with open(path, "wb") as file:
        file.write(begin + row * LONG_SIDE)
        if length is not None:
            left = length - file.tell()
            for size in [1 << 20] * (left >> 20) + [left & ((1 << 20) - 1)]:
                file.write(b" " * size)
    return path


def merge_long(words, folder):
    names = [write_long(folder, "long.asc")] * words.entries
    if words.long_text:
        names[-1] = write_long(folder, "longest.asc", LONGEST)
    site = write_site(folder, "site.json", (LONG_SIDE, LONG_SIDE), "mean")
    command = [bench.SGM, "merge", write_list(folder, names), site, os.path.join(folder, "out")]
    seconds, memory, said, processor = bench.measured(command)
    length = sum(os.path.getsize(name) for name in names) / 1e9
    print(f"{words.entries} entries of {LONG_SIDE} x {LONG_SIDE} cells, {length:.1f} GB: {said.strip()}")
    print(f"{seconds:.1f} s, {processor:.1f} s of processors, {memory:.0f} MB; {bench.processor()}")


def sides(text):
    return tuple(int(side) for side in text.split("x"))


def words_of():
    shown = argparse.RawDescriptionHelpFormatter
    parser = argparse.ArgumentParser(description=__doc__, formatter_class=shown)
    parser.add_argument("--turns", type=int, default=5)
    parser.add_argument("--entries", type=int, help="100, with --long 1000")
    parser.add_argument("--size", type=sides, default=(1000, 1000))
    parser.add_argument("--site", type=sides, default=(3000, 3000))
    parser.add_argument("--long", action="store_true")
    parser.add_argument("--long-text", action="store_true")
    words = parser.parse_args()
    words.entries = words.entries or (1000 if words.long else 100)
    return words


def main():
    words = words_of()
    running.need(numpy=numpy)
    os.environ.setdefault("GLIBC_TUNABLES", bench.TUNABLES)
    with tempfile.TemporaryDirectory(prefix="sgm-merge_time.") as folder:
        (merge_long if words.long else time_merges)(words, folder)
    return 0


if __name__ == "__main__":
    running.run(main)
