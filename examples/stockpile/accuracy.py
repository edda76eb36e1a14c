#!/usr/bin/env python3
"""Measures how exact a survey is: the heap's volume over sizes of cells, and the disparities pixel by pixel.

    examples/stockpile/accuracy.py [TABLE..]

prints tables in Markdown, all of them where none is named:

    steps    what a step of the disparity is worth in height;
    pixels   the error of the disparity on the cone and on the ground;
    cells    the heap's volume above the measured ground, and how many cells are empty, over sizes of cells;
    heights  the same for cells of 100 and 125 mm, from four heights of the cameras;
    volumes  the heap's volume above the measured ground by calibration_3.json, which has finer disparities, cells by
             their mean and bridges, from eight heights of the cameras and over sizes of cells;
    cameras  the same at 8.00 m, where baseline, focal length or disparities are a little off;
    settings the error of the disparity on the cone and the heap's volume, over windows and penalties;
    tilt     values that gather at whole disparities, on ground that rises by 1 in 8;
    texture  level ground that has less and less texture.

The pictures are those of make_stockpile.py, with the cameras at 8.00 m, where the ground has exactly the
disparity 32, and at 8.13 m, where it lies between two whole ones, at 31.49; for the table of heights also at
8.06 and 8.20 m (31.76 and 31.22); tilt and texture have ground of the same grains and nothing on it. Each pair
is measured twice from the same sums: in sixteenths, as the program does, and in whole disparities, as it would
be without them. What is true is computed for each pixel from the ray that goes through it. The disparities,
points and cells are those of the definitions (tests/reference_matching.py); tests/compare.sh shows that the
program's are the same. These numbers are for people, and use floating point. Takes half a minute to a minute of
a processor for each pair and setting, of which there are fifteen; volumes takes some seconds for each of its eight
pairs, as cameras does for its one, and both need numpy (tests/quick_reference.py).
"""

import argparse
import functools
import math
import os
import statistics
import sys

HERE = os.path.dirname(os.path.abspath(__file__))
sys.path[:0] = [os.path.join(HERE, "..", "..", "tests"), os.path.join(HERE, "..", "..", "tools")]

import compare_truth
import make_stockpile as heap
import reference_inputs as inputs
import reference_matching as matching
from sgm_tools.volumes import mean_height, net_above

HEIGHTS = (8_000_000, 8_130_000)
# Over these the ground's disparity goes through one pixel, by about a quarter each.
MORE_HEIGHTS = (8_000_000, 8_060_000, 8_130_000, 8_200_000)
CELLS = (50_000, 100_000, 125_000, 150_000, 250_000)
ALL_HEIGHTS = (8_000_000, 8_030_000, 8_060_000, 8_090_000, 8_130_000, 8_160_000, 8_200_000, 8_250_000)
ALL_CELLS = (50_000, 75_000, 100_000, 125_000, 150_000, 250_000)
METRE = 1_000_000
# Windows and first penalties beside the example's own. Its second penalty is kept.
SETTINGS = (((7, 7), 24), ((7, 5), 10), ((7, 5), 17), ((5, 5), 14))
# In 128ths, from that of the example's ground on, for bands of rows.
CONTRASTS = (80, 40, 20, 10, 5, 0)
# West, east, south and north ends of the example's two regions: a box that holds the cone, and flat ground.
PILE = (-4_500_000, 5_100_000, -5_900_000, 3_700_000)
GROUND = (5_475_000, 7_600_000, -3_000_000, 3_000_000)
# A point is wrong, and not inexact, where its disparity is off by more than this. It isn't measured with the others.
WRONG = 1.5


def calibration(name="calibration.json"):
    with open(os.path.join(HERE, name), "rb") as file:
        return inputs.read_calibration(file.read())


def disparity_at(depth):
    return heap.FOCAL * heap.BASELINE / depth


# Scenes: what a ray meets first, as the depth below the cameras and the surface's name, and its grey value there.


class Heap:
    def __init__(self, mount):
        self.mount = mount

    def meets(self, ray):
        return heap.first_surface(ray, self.mount)

    def grey(self, ray, _):
        return heap.surface(ray, self.mount)


class Ground:
    """Ground with nothing on it, `mount` below the left camera, that rises by 1 in 8 to the east or the north.

    The contrast of its grains, in 128ths, is that of the row. The example's ground has 80.
    """

    def __init__(self, mount, to_east=0, to_north=0, contrast=lambda y: 80):
        self.mount, self.to_east, self.to_north, self.contrast = mount, to_east, to_north, contrast

    def meets(self, ray):
        above = ray.focal * (8 * self.mount - self.to_east * ray.camera_x)
        return above // (8 * ray.focal + self.to_east * ray.right + self.to_north * ray.up), "ground"

    def grey(self, ray, y):
        grains = heap.texture(*ray.place(self.meets(ray)[0]), 1)
        return 120 + (grains - 128) * self.contrast(y) // 128


def pictures(scene):
    """The left and the right picture as planes, with the noise and the darker right picture of the example."""
    size = range(heap.HEIGHT), range(heap.WIDTH)

    def plane(camera_x, sample):
        grey = lambda x, y: scene.grey(heap.through_pixel(camera_x, x, y), y)
        return [[sample(grey(x, y), x, y) for x in size[1]] for y in size[0]]

    left = plane(0, lambda grey, x, y: grey + heap.noise(x, y, 31) % 5)
    right = plane(heap.BASELINE, lambda grey, x, y: grey * 4 // 5 + 6 + heap.noise(x, y, 32) % 5)
    return left, right


def matched(scene, window=None, p1=None):
    """The disparities in sixteenths and the whole ones in sixteenths, less the first; None where there is none.

    The window and the first penalty are the example's where none are given.
    """
    settings, (left, right) = calibration(), pictures(scene)
    window = window or settings.window
    codes = [matching.census_codes(plane, window) for plane in (left, right)]
    greatest = window[0] * window[1] - 1
    costs = matching.costs_of(*codes, settings.first, settings.count, greatest)
    sums = matching.sums_of(costs, p1 or settings.p1, settings.p2)
    fine = matching.disparities(sums, left, right, settings.first)
    whole = [
        [None if value is None else 16 * matching.least_index(pixel) for value, pixel in zip(*rows)]
        for rows in zip(fine, sums)
    ]
    return {"whole": whole, "fine": fine}


@functools.cache
def heap_from(mount, window=None, p1=None):
    return matched(Heap(mount), window, p1)


def errors_of(scene, found):
    """For each pixel with a disparity its place, the surface, the true disparity, and the measured one less that."""
    first = calibration().first
    for y, row in enumerate(found):
        for x, value in enumerate(row):
            if value is not None:
                depth, name = scene.meets(heap.through_pixel(0, x, y))
                true = disparity_at(depth)
                yield (x, y), name, true, first + value / 16 - true


def mean_square_root(errors):
    return math.sqrt(statistics.fmean(error * error for error in errors))


# Tables


def print_table(head, lines):
    print("| " + " | ".join(head) + " |")
    print("|" + "---|" * len(head))
    for line in lines:
        print("| " + " | ".join(map(str, line)) + " |")
    print()


def steps():
    """What a step is worth: the distance squared over focal length and baseline, and a sixteenth of it."""
    tip = heap.CONE_HEIGHT
    rigs = [("the example's ground", heap.FOCAL, mount, heap.BASELINE) for mount in HEIGHTS]
    rigs += [("the example's tip", heap.FOCAL, mount - tip, heap.BASELINE) for mount in HEIGHTS]
    rigs += [("", 500, 10_000_000, 1_600_000), ("", 1500, 10_000_000, 1_600_000), ("", 3000, 30_000_000, 2_000_000)]
    lines = []
    for name, focal, away, baseline in rigs:
        step = away * away / (focal * baseline) / 1000
        lines.append([
            f"{focal} ({name})" if name else focal,
            f"{away / METRE:.2f} m",
            f"{baseline / METRE:.1f} m",
            f"{focal * baseline / away:.1f}",
            f"{step:.0f} mm",
            f"{step / 16:.1f} mm",
            f"{away / focal / 1000:.1f} mm",
        ])
    kinds = ["Disparity f * B / Z", "Depth step", "A sixteenth of it", "A pixel on the ground"]
    print_table(["f, pixels", "Z", "B", *kinds], lines)


def pixels():
    lines = []
    for mount in HEIGHTS:
        scene = Heap(mount)
        for surface in ("cone", "ground"):
            line = [f"{mount / METRE:.2f} m", surface]
            for found in heap_from(mount).values():
                errors = [error for _, name, _, error in errors_of(scene, found) if name == surface]
                near = [error for error in errors if abs(error) <= WRONG]
                line += [f"{statistics.fmean(map(abs, near)):.3f}", f"{mean_square_root(near):.3f}"]
            # The pixels are the same for both kinds, but for those near the bound.
            lines.append([*line, len(near), len(errors) - len(near)])
    kinds = ["whole: mean error", "root of mean square", "sixteenths: mean error", "root of mean square"]
    print_table(["Cameras", "Surface", *kinds, "pixels", f"off by more than {WRONG}, left out"], lines)


def near_errors(mount, found):
    """The sizes of the errors on the cone, without those of points that are wrong and not inexact."""
    errors = [abs(error) for _, name, _, error in errors_of(Heap(mount), found) if name == "cone"]
    return [error for error in errors if error <= WRONG]


def settings():
    """What windows and penalties do to the error of the disparity on the cone, and to the heap's volume."""
    example, lines = calibration(), []
    for window, p1 in ((None, None), *SETTINGS):
        name = "%dx%d, %d" % (*(window or example.window), p1 or example.p1)
        for mount in HEIGHTS:
            kinds = heap_from(mount, window, p1)
            whole, fine = (near_errors(mount, kinds[kind]) for kind in ("whole", "fine"))
            fall = lambda mean: f"{100 * (1 - mean(fine) / mean(whole)):.1f} %"
            means = [f"{statistics.fmean(errors):.3f}" for errors in (whole, fine)]
            line = [name, f"{mount / METRE:.2f} m", *means, fall(statistics.fmean), fall(statistics.median)]
            line.append(fall(lambda errors: statistics.fmean(error * error for error in errors)))
            for cell in (100_000, 125_000):
                line.append(f"{100 * heap_volume(kinds['fine'], mount, cell)[3]:+.1f} %")
            lines.append(line)
    falls = ["the mean falls by", "the median", "the mean square"]
    volumes = ["volume, cells of 100 mm", "of 125 mm"]
    print_table(["Window, P1", "Cameras", "whole: mean error", "sixteenths", *falls, *volumes], lines)


def grid_of(cell):
    """The example's grid with cells of another size."""
    grid = calibration().grid
    sides = {name: -(-grid[name] * grid["cell"] // cell) for name in ("cols", "rows")}
    return {**grid, **sides, "cell": cell}


def region(grid, west, south, east, north):
    """The region between these columns and rows, counted from the west and from the south."""
    return {"col": west, "cols": east - west, "row": grid["rows"] - north, "rows": north - south, "base": 0}


def regions(grid):
    """The cells that touch the box of the pile, and those that lie as a whole in that of the ground."""

    def down(x, y):
        return (x - grid["west"]) // grid["cell"], (y - grid["south"]) // grid["cell"]

    def up(x, y):
        return -((grid["west"] - x) // grid["cell"]), -((grid["south"] - y) // grid["cell"])

    (west, east, south, north), (left, right, below, above) = PILE, GROUND
    pile = region(grid, *down(west, south), *up(east, north))
    return pile, region(grid, *up(left, below), *down(right, above))


def points_of(found, settings, mount):
    """The points that a map of disparities shows from cameras at that height."""
    camera = {**settings.camera, "mount": mount}
    points = [
        matching.point(camera, x, y, 16 * settings.first + value)
        for y, row in enumerate(found)
        for x, value in enumerate(row)
        if value is not None
    ]
    return [it for it in points if it is not None]


def heap_volume(found, mount, cell, settings=None):
    """Empty cells, cells in all, the ground's height, and the errors of the volume above it and above 0."""
    settings, grid = settings or calibration(), grid_of(cell)
    cells = matching.heights(points_of(found, settings, mount), grid, settings.keep)
    cells = matching.bridged(cells, cell, settings.bridge)
    pile, ground = (["", *matching.tally(cells, cell, it)] for it in regions(grid))
    base = mean_height(ground, 0, cell)
    error = lambda height: net_above(pile, 0, cell, height) / compare_truth.true_volume() - 1
    return pile[2], pile[1] + pile[2], base, error(base), error(0)


def cells():
    for mount in HEIGHTS:
        print(f"Cameras at {mount / METRE:.2f} m:\n")
        lines = []
        for cell in CELLS:
            line = [f"{cell // 1000} mm, {cell * heap.FOCAL / HEIGHTS[0]:g} pixels"]
            for found in heap_from(mount).values():
                empty, every, base, above, datum = heap_volume(found, mount, cell)
                line += [f"{empty} of {every}", f"{base / 1000:.0f} mm"]
                line += [f"{100 * above:+.1f} %", f"{100 * datum:+.1f} %"]
            lines.append(line)
        parts = ("empty", "ground", "volume", "above 0")
        kinds = [f"{kind}: {part}" for kind in ("whole", "sixteenths") for part in parts]
        print_table(["Cell", *kinds], lines)


def heights():
    lines = []
    for mount in MORE_HEIGHTS:
        for cell in (100_000, 125_000):
            line = [f"{mount / METRE:.2f} m", f"{disparity_at(mount):.2f}", f"{cell // 1000} mm"]
            for found in heap_from(mount).values():
                _, _, base, above, _ = heap_volume(found, mount, cell)
                line += [f"{base / 1000:.0f} mm", f"{100 * above:+.1f} %"]
            lines.append(line)
    kinds = ["whole: ground", "volume", "sixteenths: ground", "volume"]
    print_table(["Cameras", "Ground's disparity", "Cell", *kinds], lines)


def volumes():
    import quick_reference

    settings, lines = calibration("calibration_3.json"), []
    for mount in ALL_HEIGHTS:
        found, _ = quick_reference.match_planes(*pictures(Heap(mount)), None, settings)
        above = [heap_volume(found, mount, cell, settings)[3] for cell in ALL_CELLS]
        lines.append([f"{mount / METRE:.2f} m", f"{disparity_at(mount):.2f}", *(f"{100 * it:+.2f} %" for it in above)])
    print_table(["Cameras", "Ground's disparity", *(f"{cell // 1000} mm" for cell in ALL_CELLS)], lines)


def is_inner(x, y):
    """Whether a pixel's window lies in both pictures, with room, whatever its disparity is."""
    return 10 <= y < heap.HEIGHT - 10 and 70 <= x < heap.WIDTH - 10


def errors_by_place(scene, found):
    """Lists of errors by where the true disparity lies beyond a whole one, in eighths."""
    lists = [[] for _ in range(8)]
    for place, _, true, error in errors_of(scene, found):
        if is_inner(*place) and abs(error) <= WRONG:
            lists[round(8 * true) % 8].append(error)
    return lists


def cameras():
    """What a camera that isn't quite as its calibration says makes of the volume, beside the same by the right one."""
    import quick_reference

    settings, lines = calibration("calibration_3.json"), []
    found, _ = quick_reference.match_planes(*pictures(Heap(HEIGHTS[0])), None, settings)
    true = settings.camera
    kinds = {
        "baseline 1 % too long": {"baseline": true["baseline"] * 101 // 100},
        "focal length 1 % too long": {"focal": true["focal"] * 101 // 100},
        "disparities a tenth of a pixel too large": {"doffs": 26},
    }

    def volume(change):
        settings.camera = {**true, **change}
        return 1 + heap_volume(found, HEIGHTS[0], 125_000, settings)[3]

    for name, change in kinds.items():
        lines.append([name, f"{100 * (volume(change) / volume({}) - 1):+.2f} %"])
    print_table(["Calibration", "Volume"], lines)


def mean_and_deviation(errors):
    return f"{statistics.fmean(errors):+.3f}", f"{statistics.pstdev(errors):.3f}"


def tilt():
    """The mean error by where the true disparity lies between two whole ones, and what lies around it."""
    for name, scene in (("east", Ground(HEIGHTS[0], to_east=1)), ("north", Ground(HEIGHTS[0], to_north=1))):
        kinds = [errors_by_place(scene, found) for found in matched(scene).values()]
        lines = [
            [f"{place}/8", *(text for kind in kinds for text in mean_and_deviation(kind[place]))] for place in range(8)
        ]
        largest = max(abs(statistics.fmean(errors)) for errors in kinds[-1])
        step = HEIGHTS[0] ** 2 / heap.FOCAL / heap.BASELINE / 1000
        print(f"Ground that rises to the {name}; the largest mean error is {largest * step:.0f} mm of height at 8 m:\n")
        heads = ["whole: mean error", "around it", "sixteenths: mean error", "around it"]
        print_table(["Beyond a whole disparity", *heads], lines)


def texture():
    """Bands of rows, each with half the contrast of the one above."""
    band = heap.HEIGHT // len(CONTRASTS)
    scene = Ground(HEIGHTS[1], contrast=lambda y: CONTRASTS[y // band])
    found, lines = matched(scene), []
    step = HEIGHTS[1] ** 2 / heap.FOCAL / heap.BASELINE / 1000
    # A band's edges are left out too.
    in_band = lambda x, y: is_inner(x, y) and band // 5 <= y % band < band - band // 5
    errors = {kind: list(errors_of(scene, values)) for kind, values in found.items()}
    for number, contrast in enumerate(CONTRASTS):
        line = [f"{100 * contrast / CONTRASTS[0]:.0f} %"]
        for kind in found:
            here = [error for (x, y), _, _, error in errors[kind] if y // band == number and in_band(x, y)]
            near = [error for error in here if abs(error) <= WRONG]
            mean = statistics.fmean(map(abs, near)) if near else math.nan
            line += [f"{mean:.2f}", f"{mean * step:.0f} mm"]
        inner = sum(in_band(x, y) for y in range(number * band, number * band + band) for x in range(heap.WIDTH))
        line += [f"{100 * len(here) / inner:.0f} %", f"{100 * (len(here) - len(near)) / max(1, len(here)):.0f} %"]
        lines.append(line)
    kinds = ["whole: mean error", "in height", "sixteenths: mean error", "in height"]
    print_table(["Contrast", *kinds, "pixels with a disparity", f"of these off by more than {WRONG}"], lines)


TABLES = {
    "steps": steps,
    "pixels": pixels,
    "cells": cells,
    "heights": heights,
    "volumes": volumes,
    "cameras": cameras,
    "settings": settings,
    "tilt": tilt,
    "texture": texture,
}


def main():
    epilog = "Example: examples/stockpile/accuracy.py cells"
    parser = argparse.ArgumentParser(description=__doc__.split("\n\n")[0], epilog=epilog)
    parser.add_argument("tables", metavar="TABLE", nargs="*", help=f"{', '.join(TABLES)} (all if none is named)")
    words = parser.parse_args()
    for name in words.tables:
        if name not in TABLES:
            parser.error(f"no table is named {name}")
    try:
        for name, make in TABLES.items():
            if not words.tables or name in words.tables:
                print(f"### {name}\n", flush=True)
                make()
    except OSError as error:
        sys.exit(f"accuracy: {error}")


if __name__ == "__main__":
    main()
