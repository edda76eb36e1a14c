#!/usr/bin/env python3
"""Surveys the quarry of make_quarry.py from nothing to the table of its volumes, and holds it against the truth.

    examples/quarry/survey_quarry.py FOLDER

Each command is printed before it runs in FOLDER: the pairs are drawn, tools/site_pose.py gives each its pose from what
was measured of its cameras, sgm_series matches all of them, and `sgm merge` puts their grids into one over the site.
tools/merge_check.py says whether they fit one another. The ground of the first merge gives the plane above which the
volumes are tallied in the second one. Then come the
table in cubic metres, a picture and, where GDAL's package for Python is there, a GeoTIFF with a hillshade.

What is left of the error of each volume is told apart: the ground's plane; hidden ground, which no pair measured, so
that cells are empty there or bridged; steep walls, with what lies within three cells of them; noise, which is all
other cells; and what cells as such can't show of a shape. The poses of three pairs are held against their control
points, and the heights of check points against half a depth step, which is by how much a surface rises when its
disparity changes by half a pixel.

The programs are those that the variables SGM and SGM_SERIES name, those of this repository, or those of the PATH.
Needs numpy and Pillow.
"""

import argparse
import csv
import dataclasses
import json
import math
import multiprocessing.pool
import os
import shlex
import subprocess
import sys
import time

HERE = os.path.dirname(os.path.abspath(__file__))
TOP = os.path.realpath(os.path.join(HERE, "..", ".."))
TOOLS = os.path.join(TOP, "tools")
sys.path[:0] = [TOOLS]

import make_quarry as made
from make_quarry import METRE
from sgm_tools import calibrations, files, grids, outlines, running
from sgm_tools import regions as sgm_regions
from sgm_tools.points import Pose
from sgm_tools.running import Wrong, numpy

osgeo = running.package("osgeo")

CELL = 100_000
SITE = {"west": 0, "south": 0, "cell": CELL, "cols": made.WIDE * METRE // CELL, "rows": made.LONG * METRE // CELL}
# The grid of a pair reaches so many cells from its camera in each direction.
REACH = 100
# An outline lies so many metres around its shape, and has so many corners.
MARGIN, CORNERS = 0.5, 60
# West and south sides, and width and length, in metres, of pieces of bare ground.
GROUNDS = [(1.5, 17.5, 4, 5), (24, 2, 8, 6), (51, 8, 6, 6), (24, 31, 8, 6), (51, 31, 6, 6), (2, 36, 5, 3)]
# Walls are steep from so many degrees on, and so many cells around them are taken as part of them.
STEEP, AROUND = 40, 3
SETTINGS = {
    "version": 3,
    "disparities": {"first": 32, "count": 48, "fine": True},
    "census": {"width": 9, "height": 7},
    "penalties": {"p1": 25, "p2": 100, "adapt": False},
}
CAMERA = {
    "focal": 256 * made.FOCAL,
    "baseline": made.BASELINE,
    "cx": 256 * made.AXIS[0],
    "cy": 256 * made.AXIS[1],
    "doffs": 0,
    "mount": made.MOUNT,
    "near": 8 * METRE,
    "far": 22 * METRE,
}


# Commands


def program(name):
    """The program that the variable names, that of this repository, or the one of the PATH."""
    own = os.path.join(TOP, name)
    return os.environ.get(name.upper()) or (own if os.path.exists(own) else name)


def run(folder, *words, is_shown=True):
    """What a command prints; stops where it doesn't end with 0."""
    if is_shown:
        shown = [os.path.basename(words[0]), *words[1:]] if words[0] != sys.executable else words[1:]
        print("$ " + shlex.join(os.path.relpath(it, TOP) if it.startswith(TOP) else it for it in shown), flush=True)
    done = subprocess.run(words, cwd=folder, stdin=subprocess.DEVNULL, capture_output=True, text=True, check=False)
    if done.returncode:
        raise Wrong(f"{os.path.basename(words[0])} ends with {done.returncode}: {done.stderr.strip()}")
    return done.stdout


def run_tool(folder, name, *words, is_shown=True):
    return run(folder, sys.executable, os.path.join(TOOLS, name), *words, is_shown=is_shown)


def write_text(folder, name, text):
    with open(os.path.join(folder, name), "w", encoding="utf-8") as file:
        file.write(text)


def rows_of(folder, name):
    with open(os.path.join(folder, name), encoding="utf-8", newline="") as file:
        return list(csv.DictReader(file))


# The series


def pair_grid(camera_east, camera_north):
    """The grid of a pair: on the site's cells, about what it sees."""
    west, south = (math.floor(float(it) * METRE / CELL) - REACH for it in (camera_east, camera_north))
    return {"west": west * CELL, "south": south * CELL, "cell": CELL, "cols": 2 * REACH, "rows": 2 * REACH}


def pose_pair(folder, row, is_shown):
    """Writes the calibration of a pair with its pose, from what cameras.csv says of it."""
    grid = {**pair_grid(row["camera_east"], row["camera_north"]), "keep": "mean", "bridge": 0}
    name = f"pairs/{row['pair']}"
    text = calibrations.calibration_text({**SETTINGS, "camera": CAMERA, "grid": grid})
    write_text(folder, name + ".first.json", text)
    words = [name + ".first.json", "--write", name + ".json"]
    for option in ("camera", "look"):
        words += [f"--{option}", *(row[f"{option}_{axis}"] for axis in ("east", "north", "up"))]
    run_tool(folder, "site_pose.py", *words, "--roll", row["roll"], is_shown=is_shown)


def match_pairs(folder):
    """Matches all pairs; the last words of the list are the first letters of what comes of them."""
    rows = rows_of(folder, "cameras.csv")
    with multiprocessing.pool.ThreadPool(4) as pool:
        pool.starmap(pose_pair, [(folder, row, at == 0) for at, row in enumerate(rows)])
    print(f"    and so for the other {len(rows) - 1} pairs", flush=True)
    names = [f"pairs/{row['pair']}" for row in rows]
    write_text(folder, "list.txt", "".join(f"{it}_left.pgm {it}_right.pgm {it}.json {it}\n" for it in names))
    write_text(folder, "heights.txt", "".join(f"{it}.asc\n" for it in names))
    run(folder, program("sgm_series"), "list.txt", "workers=2")


# The merge


def outline_of(shape):
    """Corners around a shape, in micrometres."""
    corners = []
    for number in range(CORNERS):
        angle = 2 * math.pi * number / CORNERS
        corners.append(round(METRE * (shape.east + (shape.wide + MARGIN) * math.cos(angle))))
        corners.append(round(METRE * (shape.north + (shape.long + MARGIN) * math.sin(angle))))
    return corners


def regions(base=0, rises=(0, 0)):
    """The regions of the site: the shapes in their outlines, and the pieces of ground."""
    plane = {"base": base, "rise_east": rises[0], "rise_north": rises[1]}
    for shape in made.SHAPES:
        outline = outline_of(shape)
        sides = dict(zip(("col", "row", "cols", "rows"), sgm_regions.least_rectangle(outline, SITE)))
        yield {"name": shape.name, **sides, **plane, "outline": outline}
    for number, place in enumerate(GROUNDS, 1):
        col, south, cols, rows = (round(it * METRE) // CELL for it in place)
        sides = {"col": col, "row": SITE["rows"] - south - rows, "cols": cols, "rows": rows}
        yield {"name": f"ground-{number}", **sides, **plane}


def site_calibration(bridge, *plane):
    grid = {**SITE, "keep": "mean", "bridge": bridge}
    return {**SETTINGS, "camera": CAMERA, "grid": grid, "regions": list(regions(*plane))}


def merge(folder, name, calibration):
    write_text(folder, name + ".json", calibrations.calibration_text(calibration))
    print(run(folder, program("sgm"), "merge", "heights.txt", name + ".json", name), end="", flush=True)


def merge_all(folder):
    """Merges without bridges for the plane of the ground, and with them for the volumes."""
    merge(folder, "measured", site_calibration(0))
    words = ["heights.txt", "measured.asc", "--out", "check.csv", "--picture", "check.png"]
    run_tool(folder, "merge_check.py", *words)
    marked = [row["name"] for row in rows_of(folder, "check.csv") if row["mark"]]
    print(f"    grids that are off: {', '.join(marked) or 'none'}", flush=True)
    paths = [os.path.join(folder, "measured" + ending) for ending in (".asc", ".json")]
    (base, *rises), said = outlines.base_from(*paths, SITE)
    print(f"    {said}", flush=True)
    merge(folder, "quarry", site_calibration(2, base, rises))


def export(folder):
    run_tool(folder, "cubic_metres.py", "quarry.csv", "--digits", "3", "--out", "volumes.csv")
    run_tool(folder, "heights_picture.py", "quarry.asc", "--out", "quarry.png", "--zoom", "2")
    if osgeo is None:
        print("    no GeoTIFF: GDAL's package for Python isn't there")
        return
    run_tool(folder, "export_grid.py", "quarry.asc", "--out", "quarry.tif", "--hillshade", "hillshade.tif")


# The truth


def cell_means():
    """The mean height of the true surface over each cell of the site, in micrometres, rows from the north."""
    parts = 4
    at = lambda count: (numpy.arange(count * parts) + 0.5) / parts * CELL / METRE
    east, north = numpy.meshgrid(at(SITE["cols"]), at(SITE["rows"])[::-1])
    fine = made.height_at(east, north).reshape(SITE["rows"], parts, SITE["cols"], parts)
    return METRE * fine.mean(axis=(1, 3))


def ground_means():
    """The same of the ground's plane."""
    at = lambda count: (numpy.arange(count) + 0.5) * CELL / METRE
    east, north = numpy.meshgrid(at(SITE["cols"]), at(SITE["rows"])[::-1])
    return METRE * made.ground_at(east, north)


def near_steep(true):
    """The cells of steep walls, and those around them."""
    along_north, along_east = numpy.gradient(true, CELL)
    steep = numpy.hypot(along_north, along_east) > math.tan(math.radians(STEEP))
    for axis in (0, 1):
        steep = numpy.any([numpy.roll(steep, away, axis) for away in range(-AROUND, AROUND + 1)], axis=0)
    return steep


@dataclasses.dataclass(frozen=True)
class Volume:
    """A volume in cubic metres, measured and true, and by how much each of the causes makes it greater."""

    name: str
    measured: float
    true: float
    causes: dict

    def error(self):
        """In percent."""
        return 100 * (self.measured / self.true - 1)


CAUSES = ("plane", "hidden", "steep", "noise", "cells")


def told_apart(folder):
    """The volumes of all shapes, with the causes of their errors."""
    calibration = files.read_json(os.path.join(folder, "quarry.json"))
    found, points = (grids.read_grid(os.path.join(folder, name)) for name in ("quarry.asc", "measured.asc"))
    true, ground = cell_means(), ground_means()
    steep, listed = near_steep(true), rows_of(folder, "volumes.csv")
    for shape, region in zip(made.SHAPES, calibrations.regions_in(calibration)):
        place, mask = sgm_regions.place_of(region), sgm_regions.mask_of(region, SITE)
        here = lambda it: it[place][mask]
        filled, measured, walls = here(found.filled), here(points.filled), here(steep)
        off, above = here(found.heights) - here(true), here(true) - here(ground)
        bases = sgm_regions.bases_of(region, SITE)[mask]
        sums = {
            "plane": (here(ground) - bases)[filled].sum(),
            "hidden": off[filled & ~measured].sum() - above[~filled].sum(),
            "steep": off[measured & walls].sum(),
            "noise": off[measured & ~walls].sum(),
        }
        sign, unit = math.copysign(1, shape.high), CELL**2 / METRE**3
        causes = {name: float(sign * unit * it) for name, it in sums.items()}
        causes["cells"] = float(sign * unit * above.sum()) - shape.volume()
        [line] = [it for it in listed if it["region"] == shape.name]
        yield Volume(shape.name, sign * float(line["net_m3"]), shape.volume(), causes)


def at_cell(east, north):
    """The column, and the row from the north, of a place in metres."""
    return int(east * METRE // CELL), SITE["rows"] - 1 - int(north * METRE // CELL)


def depth_step(east, north, up):
    """By how much a place's height changes with its disparity by a pixel, seen from straight above, in metres."""
    away = made.OVER + made.ground_at(east, north) - up
    return away**2 / (made.FOCAL * made.BASELINE / METRE)


def check_points(folder):
    """For each check point its name, how far off its height is in metres, and half a depth step."""
    found = grids.read_grid(os.path.join(folder, "quarry.asc"))
    for row in rows_of(folder, "checks.csv"):
        east, north, up = (float(row[axis]) for axis in ("east", "north", "up"))
        col, line = at_cell(east, north)
        if not found.filled[line, col]:
            raise Wrong(f"the cell of the check point {row['name']} has no height")
        yield row["name"], float(found.heights[line, col]) / METRE - up, depth_step(east, north, up) / 2


def control_points(folder, number):
    """Of a pair with control points what site_pose.py prints, and how far its pose leads from the known one on the
    ground below it, in metres."""
    name = f"{number:02}"
    words = [f"pairs/{name}.json", f"pairs/{name}.pgm", f"targets_{name}.csv", "--check", "T5,T8", "--worst", "150"]
    said = run_tool(folder, "site_pose.py", *words).splitlines()
    known, own = files.read_json(os.path.join(folder, f"pairs/{name}.json"))["pose"], json.loads(said[-1])
    places = [(x, y, 0) for x in (-4 * METRE, 0, 4 * METRE) for y in (-4 * METRE, 0, 4 * METRE)]
    ends = [[Pose(**it).of(*place) for place in places] for it in (known, own)]
    return said[:-1], max(math.dist(*both) for both in zip(*ends)) / METRE


# All of it


@dataclasses.dataclass
class Found:
    volumes: list
    checks: list
    controls: list
    seconds: float

    def all_error(self):
        """How far all volumes together are off, in percent."""
        return 100 * (sum(it.measured for it in self.volumes) / sum(it.true for it in self.volumes) - 1)


def tell(found):
    print(f"\n{'':12}{'true m3':>10}{'measured':>10}{'error':>9}   of it by {', '.join(CAUSES)} (m3)")
    for it in found.volumes:
        causes = "".join(f"{it.causes[name]:+8.2f}" for name in CAUSES)
        print(f"{it.name:12}{it.true:10.2f}{it.measured:10.2f}{it.error():+8.2f} %  {causes}")
    print(f"all together {found.all_error():+.2f} %")
    name, off, half = max(found.checks, key=lambda it: abs(it[1]) / it[2])
    worst = f"the worst of {len(found.checks)} is {name}, {1000 * off:+.0f} mm off"
    print(f"check points: {worst}, half a depth step is {1000 * half:.0f} mm")
    for number, away in found.controls:
        print(f"pair {number:02}: its pose by control points leads {1000 * away:.0f} mm from the known one at most")
    print(f"{found.seconds:.0f} seconds")


def survey(folder):
    begin, folder = time.monotonic(), os.path.abspath(folder)
    os.makedirs(folder, exist_ok=True)
    run(folder, sys.executable, os.path.join(HERE, "make_quarry.py"), ".")
    match_pairs(folder)
    controls = []
    for number in made.CONTROLLED:
        said, away = control_points(folder, number)
        print("".join(f"    {line}\n" for line in said), end="", flush=True)
        controls.append((number, away))
    merge_all(folder)
    export(folder)
    print(run(folder, "cat", "volumes.csv"), end="")
    found = Found(list(told_apart(folder)), list(check_points(folder)), controls, time.monotonic() - begin)
    tell(found)
    return found


def main():
    epilog = "Example: examples/quarry/survey_quarry.py /tmp/quarry"
    parser = argparse.ArgumentParser(description=__doc__.split("\n\n")[0], epilog=epilog)
    parser.add_argument("folder", metavar="FOLDER", help="is made where it isn't there")
    words = parser.parse_args()
    running.need(numpy=numpy, PIL=running.Image)
    survey(words.folder)


if __name__ == "__main__":
    running.run(main)
