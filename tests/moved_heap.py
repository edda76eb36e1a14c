#!/usr/bin/env python3
"""Surveys the example heap from two places, before and after a part of it was taken away, and looks at the change.

    tests/moved_heap.py [--more]

The heap of examples/stockpile is photographed by the two made-up cameras of examples/photographs, which look aslant,
and later, when a loader has eaten into it, by the same cameras from another place, turned and tilted otherwise, by
another light. Both surveys have one grid. The earlier one has the pose that tools/site_pose.py makes of the targets in
its left picture. So has the later one at first, and then the pose that site_pose.py --earlier makes of it by the ground
around the heap. What is gone has to be measured within two percent of the truth, over the region `pile`, which is that
of tests/later_heap.py, and in a region that is little larger than what has changed. It is told what the targets alone
would have given, and what the true poses would, which is what the matching makes of the pictures.

This is asked of eight pairs of places, which tests/camera_places.py draws, with --more of eight others too. The program
is the one that the variable SGM names (./sgm of this repository without it). Takes some minutes.
"""

import argparse
import concurrent.futures
import json
import math
import os
import sys
import tempfile

HERE = os.path.dirname(os.path.abspath(__file__))
TOP = os.path.dirname(HERE)
sys.path[:0] = [os.path.join(TOP, name) for name in ("tools", "examples/photographs", "examples/stockpile")]

import camera_places
import compare_change
import compare_photographs
import make_later
import make_photographs as made
import make_stockpile as heap
from sgm_tools import changes, files, running
from sgm_tools.running import Wrong

# The grid and the heap's region of examples/stockpile, the grid with a metre more to the south; the part of the heap
# from which something was taken, with two cells around it; and the ground, in an outline.
WEST, SOUTH, CELL, COLS, ROWS = -6_400_000, -7_000_000, 125_000, 115, 104
LIMITS = f"--version 3 --near 4000000 --far 12000000 --mount 8000000 --grid {WEST} {SOUTH} {CELL} {COLS} {ROWS}"
LIMITS += " --region pile 15 18 77 78 0 --region taken 42 35 50 44 0 --outline ground=ground.geojson"
# How far the ground keeps away from the heap's toe and from the crate: two cells, about half a window.
AWAY = 2 * CELL
METRE = 1_000_000
# The most that the change may be off, in percent.
MOST = 2
# What the places are drawn by, where the noise of their pictures begins, and how many pairs there are of each.
DRAWN = ((1, 1000), (3, 3000))
COUNT = 8


def ground():
    """All of the grid but the heap and the crate, as GeoJSON: an outer ring and two holes, in metres."""
    east, north = WEST + COLS * CELL, SOUTH + ROWS * CELL
    whole = [(WEST, SOUTH), (east, SOUTH), (east, north), (WEST, north)]
    reach, angles = heap.CONE_RADIUS + AWAY, [math.radians(it) for it in range(0, 360, 5)]
    toe = [(heap.CONE_X + reach * math.cos(it), heap.CONE_Y + reach * math.sin(it)) for it in angles]
    west, east = heap.CRATE_WEST - AWAY, heap.CRATE_EAST + AWAY
    south, north = heap.CRATE_SOUTH - AWAY, heap.CRATE_NORTH + AWAY
    crate = [(west, south), (east, south), (east, north), (west, north)]
    metres = lambda ring: [[x / METRE, y / METRE] for x, y in (*ring, ring[0])]
    return {"type": "Polygon", "coordinates": [metres(ring) for ring in (whole, toe, crate)]}


def photograph(folder, rig, is_later, seeds):
    """Puts a pair, its targets, its cameras and the outline of the ground into a folder of its own."""
    made.write_heap(folder, rig, made.Scene(make_later) if is_later else made.Scene(), seeds)
    compare_photographs.take_pair(folder, folder)
    with open(os.path.join(folder, "ground.geojson"), "w", encoding="utf-8") as file:
        json.dump(ground(), file)


def photograph_all(folder, drawn, noise):
    """Photographs pairs of places, each before and after; gives for each its two folders, and says what they are."""
    rigs, jobs = camera_places.drawn(drawn, 2 * COUNT), []
    for number, rig in enumerate(rigs):
        name = os.path.join(folder, f"{drawn}-{number // 2}-{'later' if number % 2 else 'earlier'}")
        jobs.append((name, rig, number % 2 == 1, (noise + 2 * number, noise + 2 * number + 1)))
    running.progress("photographing")
    with concurrent.futures.ProcessPoolExecutor() as pool:
        list(pool.map(photograph, *zip(*jobs)))
    for at in range(0, len(jobs), 2):
        yield [(name, rig) for name, rig, *_ in jobs[at : at + 2]]


def survey(place, name, is_posed):
    """A survey of a pair that has been photographed, by its targets or by its true pose."""
    folder, rig = place
    pose = compare_photographs.exact_pose(rig, os.path.join(folder, "true.json")) if is_posed else None
    return compare_photographs.Survey(folder, name, "true.json", "m", pose, LIMITS)


def changed(earlier, later):
    """By how many percent the change between two surveys is off in each of the two regions."""
    words = ["change", earlier.path(".asc"), later.path(".asc"), "change"]
    compare_photographs.run(compare_photographs.program(), *words, folder=later.folder)
    calibration, out = files.read_json(later.path(".json")), os.path.join(later.folder, "change")
    tallies, true = dict(changes.tallies(out, calibration)), compare_change.true_volume()
    net = {name: (tallies[name].fill - tallies[name].cut) / METRE**3 for name in ("pile", "taken")}
    return {name: 100 * (volume / true - 1) for name, volume in net.items()}


def told(errors):
    return ", ".join(f"{name} {error:+.2f} %" for name, error in errors.items())


def errors_of(places):
    """The errors of the change from a pair of places, by the pose that the still ground makes."""
    exact = [survey(place, "exact", True) for place in places]
    earlier, later = (survey(place, "s", False) for place in places)
    for it in exact:
        it.measured()
    for it, (_, rig) in zip((earlier, later), places):
        root = next(line for line in it.measured().splitlines() if line.startswith("root mean square"))
        print(f"{rig}: targets {root.split()[-1]} mm off")
    print(f"    by the true poses: {told(changed(*exact))}")
    print(f"    by the targets alone: {told(changed(earlier, later))}")
    words = ["s.json", "--earlier", earlier.path(".asc"), "s.asc", "--write", "still.json"]
    for line in compare_photographs.run_tool("site_pose.py", *words, folder=later.folder).splitlines()[:-1]:
        print(f"    {line}")
    later.match("still.json")
    errors = changed(earlier, later)
    print(f"    by the still ground: {told(errors)}", flush=True)
    return errors


def main():
    epilog = "Example: tests/moved_heap.py"
    parser = argparse.ArgumentParser(description=__doc__.split("\n\n")[0], epilog=epilog)
    parser.add_argument("--more", action="store_true", help="from eight more pairs of places")
    sets = DRAWN if parser.parse_args().more else DRAWN[:1]
    running.need(numpy=running.numpy, PIL=running.Image, cv2=made.cv2)
    with tempfile.TemporaryDirectory(prefix="sgm-moved_heap.") as folder:
        pairs = [pair for drawn in sets for pair in photograph_all(folder, *drawn)]
        every = [errors_of(pair) for pair in pairs]
    said = []
    for name in ("pile", "taken"):
        found = [errors[name] for errors in every]
        said.append(f"{name} {min(found):+.2f} to {max(found):+.2f} %")
    if max(abs(error) for errors in every for error in errors.values()) > MOST:
        raise Wrong(f"the change is {', '.join(said)} off, {MOST} at most")
    print(f"moved_heap: {len(every)} changes, off by {', '.join(said)}")


if __name__ == "__main__":
    running.run(main)
