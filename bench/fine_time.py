#!/usr/bin/env python3
"""Measures what finer disparities take: the difference of runs with and without them, in turns.

    bench/fine_time.py [--turns 9] [--size 1280x720] [--count 64] [--strips 16] [--workers 1 4]
                       [--beside OTHER_SGM]

Each turn runs the program once with `fine` false and once with `fine` true for each number of workers, on the pair of
bench.py, version 3 of the calibration. The table has, for each number of workers, the median seconds of both, the
median of the turns' differences, that difference for each pixel that has a value, in microseconds, and how many times
as fast that is as with the first number of workers. The last column is what the machine gives: in the same turns as
many runs of one worker each as there are workers, which share nothing, are started at once without and with finer
disparities, and by the difference of the seconds until the last of them has ended they do so many times as much as
one run alone. The program is the one that the variable SGM names (./sgm without it); with --beside another one runs in
each turn too.
"""

import argparse
import json
import os
import re
import statistics
import subprocess
import sys
import tempfile
import time

import bench


def calibration(folder, count, fine):
    """The name of a calibration of version 3, with finer disparities or without."""
    with open(bench.write_calibration(folder, count, 3)) as file:
        settings = json.load(file)
    settings["disparities"]["fine"] = fine
    name = os.path.join(folder, f"fine-{fine}.json")
    with open(name, "w") as file:
        json.dump(settings, file)
    return name


def command(program, pair, settings, workers, strips, out):
    return [program, "match", *pair, settings, out, f"strips={strips}", f"workers={workers}"]


def run(program, pair, settings, workers, strips, folder):
    """The seconds of a run, and how many pixels have a value."""
    words = command(program, pair, settings, workers, strips, os.path.join(folder, "out"))
    seconds, _, said, _ = bench.measured(words)
    return seconds, int(re.fullmatch(r"valid (\d+) of \d+\n", said)[1])


def apart(program, pair, settings, runs, strips, folder):
    """The seconds until so many runs of one worker each, which are started at once, have all ended."""
    words = [command(program, pair, settings, 1, strips, os.path.join(folder, f"out-{at}")) for at in range(runs)]
    begin = time.perf_counter()
    started = [subprocess.Popen(it, stdout=subprocess.DEVNULL) for it in words]
    statuses = [it.wait() for it in started]
    if any(statuses):
        sys.exit(f"fine_time: runs at once ended with {statuses}")
    return time.perf_counter() - begin


def turn(program, pair, settings, words, folder):
    """The seconds without and with finer disparities of each number of workers, those of as many runs, and the values.

    A single worker needs no runs at once.
    """
    found = []
    for workers in words.workers:
        plain, _ = run(program, pair, settings[False], workers, words.strips, folder)
        fine, values = run(program, pair, settings[True], workers, words.strips, folder)
        both = (plain, fine)
        if workers > 1:
            both = tuple(apart(program, pair, settings[it], workers, words.strips, folder) for it in (False, True))
        found.append((plain, fine, values, *both))
    return found


def more_of(turns, at, side):
    """The median of what finer disparities take more; the seconds without them stand at the side."""
    return statistics.median(it[at][side + 1] - it[at][side] for it in turns)


def print_table(name, words, turns):
    first = None
    for at, workers in enumerate(words.workers):
        plain, fine = (statistics.median(it[at][side] for it in turns) for side in (0, 1))
        more = more_of(turns, at, 0)
        each = more / turns[0][at][2] * 1e6
        first = first or (each, more, workers)
        gain, of_runs = f"{first[0] / each:.1f}", workers * first[1] / more_of(turns, at, 3)
        runs = f"{of_runs:.1f}" if first[2] == 1 else ""
        bench.row(name, str(workers), *(f"{it:.3f}" for it in (plain, fine, more, each)), gain, runs)


def words_of():
    parser = argparse.ArgumentParser(description=__doc__, formatter_class=argparse.RawDescriptionHelpFormatter)
    parser.add_argument("--turns", type=int, default=9)
    parser.add_argument("--size", default="1280x720")
    parser.add_argument("--count", type=int, default=64)
    parser.add_argument("--strips", type=int, default=16)
    parser.add_argument("--workers", type=int, nargs="+", default=[1, 4])
    parser.add_argument("--beside")
    return parser.parse_args()


def main():
    words = words_of()
    os.environ.setdefault("GLIBC_TUNABLES", bench.TUNABLES)
    programs = [bench.SGM, *([os.path.realpath(words.beside)] if words.beside else [])]
    width, height = (int(side) for side in words.size.split("x"))
    with tempfile.TemporaryDirectory() as folder:
        pair = bench.write_pair(folder, width, height)
        settings = {fine: calibration(folder, words.count, fine) for fine in (False, True)}
        turns = {program: [] for program in programs}
        for _ in range(words.turns):
            for program in programs:
                turns[program].append(turn(program, pair, settings, words, folder))
    print(f"{words.size}, {words.count} disparities, {words.strips} strips, {words.turns} turns, {bench.processor()}\n")
    bench.row("Program", "Workers", "Plain, s", "Fine, s", "More, s", "More a value, us", "Times as fast", "Runs at once")
    bench.row(*["---"] * 8)
    for program in programs:
        print_table(os.path.basename(program), words, turns[program])
    return 0


if __name__ == "__main__":
    sys.exit(main())
