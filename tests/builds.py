#!/usr/bin/env python3
"""Holds builds of the program to the same bytes, with everything that version 3 of the calibration has.

    tests/builds.py [PROGRAM..]

The PROGRAMs are builds of one state: by LLVM for one processor or another (as `packaging/first_build.py --cpu
x86-64-v2 --into FILE` makes them) and by Rattle's own compiler (`rt run --backend rattle`). Without any it is the one
that the variable SGM names (./sgm of this repository without it), and beside it the build that the gate has left, where
there is one.

Each matches small pairs with bent warps, penalties that follow the picture, finer disparities, peaks and filling, a
pose, cells by their means, bridges, and regions with rises and outlines: with each number of strips from 1 to 64 and
of workers from 1 to 16, of the smallest pair every two of them, under one. Then come certificates in each direction, a
merge, a change, `demo`, and one refusal of each part. All that is written, printed and left has to be what the separate
implementation gives (reference.py), so it is the same of all builds.

For example: tests/builds.py /tmp/v2/sgm_cli /tmp/v3/sgm_cli /tmp/sgm_cli.by-rattle
"""

import argparse
import itertools
import json
import os
import sys
import tempfile

import calibration_cases
import hostile_calibrations as worked
import make_cases
import random_cases
import random_inputs
import reference_matching as matching
from random_inputs import Case
from reference_inputs import DIRECTIONS, read_calibration

BUILT = os.path.join(random_cases.HERE, "..", "crates", "sgm_cli", "out", "sgm_cli")
# The pairs, each with its sides and its greatest sample: one with more rows than there are strips, one with two bytes.
# The smallest pair is the worked one.
PAIRS = {"wide": (97, 23, 255), "high": (19, 101, 255), "deep": (40, 30, 65535), "middle": (64, 48, 255)}
SMALL = {**worked.FILES, "c.json": json.dumps(worked.ALL).encode()}
FIRST, COUNT = 2, 8
MATCH = ["match", "l.pgm", "r.pgm", "c.json", "o"]


def places_of(settings, width, height):
    """The places in the site that such a picture shows."""
    points = random_inputs.seen(settings["camera"], width, height, (FIRST, COUNT))
    return [it for it in (matching.in_site(settings["pose"], point) for point in points) if it is not None]


def grid_over(places, cells):
    """A grid over these places, so many cells wide, with some cells around it."""
    sides = [[place[axis] for place in places] for axis in (0, 1)]
    cell = max(max(side) - min(side) for side in sides) // cells + 1
    counts = [(max(side) - min(side)) // cell + 3 for side in sides]
    corner = [min(side) - cell for side in sides]
    numbers = dict(zip(("west", "south", "cell", "cols", "rows"), (*corner, cell, *counts)))
    return {**numbers, "keep": "mean", "bridge": 2}


def regions_over(grid, base):
    """The whole of it, a part with a slope, and one within an outline that crosses itself."""
    whole = {"col": 0, "row": 0, "cols": grid["cols"], "rows": grid["rows"], "base": base}
    whole |= {"rise_east": 0, "rise_north": 0}
    west, south = grid["west"], grid["south"]
    east, north = west + grid["cell"] * grid["cols"], south + grid["cell"] * grid["rows"]
    outline = [west, south, east, north, east, south, west, north]
    slope = {**whole, "col": 1, "cols": grid["cols"] - 1, "rise_east": 20001, "rise_north": -30003}
    return [{"name": "all", **whole}, {"name": "slope", **slope}, {"name": "outline", **slope, "outline": outline}]


def settings_of(width, height):
    """A calibration with everything for pictures of that size."""
    made = make_cases.third(True, first=FIRST, count=COUNT, window=(5, 3), penalties=(5, 90))
    made["warp"] = {
        "left": make_cases.tilted(width, height, 6, 7),
        "right": make_cases.projective(1000, 3, -900, -2, 1001, 700, 0, 1, 990),
    }
    made["camera"] = make_cases.camera(focal=192 * width, cx=128 * width, cy=128 * height, doffs=-9)
    made["pose"] = {"matrix": calibration_cases.TILT, "east": 1, "north": -2, "up": 3}
    places = places_of(made, width, height)
    made["grid"] = grid_over(places, max(width, height))
    made["regions"] = regions_over(made["grid"], sorted(place[2] for place in places)[len(places) // 2])
    return make_cases.finer(made)


def pair_of(width, height, maxval):
    left, right = make_cases.shapes(width, height, maxval, FIRST, COUNT, width)
    return {"l.pgm": left, "r.pgm": right, "c.json": json.dumps(settings_of(width, height)).encode()}


def shows_everything(files, pair):
    """Whether some of the pair's cells are bridged, some aren't, some are empty, and the outline leaves some out."""
    lines = files["o.csv"].decode().split("\n")[1:4]
    cells, bridged, empty = zip(*(map(int, line.split(",")[1:4]) for line in lines))
    is_mixed = 0 < bridged[0] < cells[0] and empty[0] > 0 and 0 < cells[2] < cells[1] and 0 < bridged[2]
    return pair == "small" or is_mixed


def splits(pair):
    """Numbers of strips and of workers."""
    if pair == "small":
        return list(itertools.product(range(1, 65), range(1, 17)))
    return [(strips, 1 + 7 * strips % 16) for strips in range(1, 65)]


def others(files):
    """Cases of the other commands, and of one refusal of each part."""
    small, entry = files["deep"], {"e.asc": worked.ENTRY, "m.txt": b"e.asc\nl.asc\n"}
    over = {**entry, "l.asc": worked.asc(west=worked.SIDES["west"] + 800), "c.json": SMALL["c.json"]}
    for direction, (x, y, d) in itertools.product(DIRECTIONS, ((20, 15, 3), (39, 0, 7), (0, 29, 0))):
        yield Case("trace", ["trace", *MATCH[1:4], direction, str(x), str(y), str(d)], small)
    yield Case("merge", ["merge", "m.txt", "c.json", "o"], over)
    yield Case("change", ["change", "e.asc", "l.asc", "o"], {**over, "l.asc": worked.asc([[7] * 5] * 3)})
    yield Case("demo", ["demo", "7", "strips=5", "workers=3", "peak=9", "fill=1"], {})
    yield Case("refusal", MATCH + ["strips=65"], small)
    yield Case("refusal", ["trace", *MATCH[1:4], "up", "40", "0", "0"], small)
    yield Case("refusal", ["merge", "m.txt", "c.json", "o"], {**over, "l.asc": worked.ENTRY[:-3]})
    yield Case("refusal", ["merge", "none", "c.json", "o"], over)
    for name, data in (("l.pgm", b"P5 5 3 255 "), ("c.json", b"{}"), ("r.pgm", files["small"]["r.pgm"])):
        yield Case("refusal", MATCH, {**small, name: data})


def ended(of, folder, case):
    """The status, both streams and the files of a case's run in a new folder."""
    with tempfile.TemporaryDirectory(dir=folder) as made:
        place = os.path.join(made, "case")
        random_cases.write_case(place, case)
        return of(place, case.words), random_cases.standing(place)


def try_case(programs, case, more, work):
    """How many runs of these programs with those further words aren't as the reference's, and that one's files."""
    wanted = ended(random_cases.run_reference, work, case)
    wrong = 0
    for path, words in itertools.product(programs, more):
        run = Case(case.kind, [*case.words, *words], case.files)
        made = ended(lambda place, all_words: random_cases.run_program(path, place, all_words), work, run)
        if made != wanted:
            wrong += 1
            told = [name for name in {**made[1], **wanted[1]} if made[1].get(name) != wanted[1].get(name)]
            said = f"{case.kind} {' '.join(run.words)}: {made[0]}, not {wanted[0]}; files that differ: {told}"
            print(f"builds: {path}: {said}", flush=True)
    return wrong, wanted[1]


def try_all(programs, work):
    """How many runs each program had, and how many were wrong."""
    runs = wrong = 0
    files = {"small": SMALL, **{name: pair_of(*sides) for name, sides in PAIRS.items()}}
    for pair, given in files.items():
        read_calibration(given["c.json"])
        more = [[f"strips={strips}", f"workers={workers}"] for strips, workers in splits(pair)]
        faults, made = try_case(programs, Case(pair, MATCH + ["peak=6", "fill=1"], given), more, work)
        runs, wrong = runs + len(more), wrong + faults
        if not shows_everything(made, pair):
            sys.exit(f"builds: the pair {pair} doesn't show everything")
    for case in others(files):
        runs, wrong = runs + 1, wrong + try_case(programs, case, [[]], work)[0]
    return runs, wrong


def programs_of(words):
    named = [os.path.realpath(word) for word in words] or [random_cases.Single.path]
    left = BUILT + ".by-rattle"
    return named if words or not os.path.exists(left) else [*named, left]


def main():
    epilog = "Example: tests/builds.py /tmp/v2/sgm_cli /tmp/v3/sgm_cli"
    parser = argparse.ArgumentParser(description=__doc__.split("\n\n")[0], epilog=epilog)
    parser.add_argument("programs", metavar="PROGRAM", nargs="*", help="a build of the program")
    programs = programs_of(parser.parse_args().programs)
    for path in programs:
        random_cases.Single.path = path
        if not os.access(path, os.X_OK) or not random_cases.runs(random_cases.Single):
            sys.exit(f"builds: {path} doesn't run")
    with tempfile.TemporaryDirectory(prefix="sgm-builds.") as work:
        runs, wrong = try_all(programs, work)
    print(f"builds: {len(programs)} programs, {runs} runs of each, {wrong} wrong")
    return 1 if wrong else 0


if __name__ == "__main__":
    sys.exit(main())
