#!/usr/bin/env python3
"""Prints cases of regions with sloping bases and outlines, with answers, for the stored runs of
crates/sgm_cases.

    tests/regions_cases.py [--kinds | --check | --write]

A case is two lines. The reference works the answers out:

    regions CALIBRATION | X,Y,H X,Y,H ..
    the report

CALIBRATION is one of version 3. The points, at most 1000, are added to its grid in their order, and
its cells are bridged as it says; without points the line ends behind CALIBRATION. The report is the
text of OUT.csv in one line, with \\n for its line feeds. The worked rows come first, then grids
that look random and are the same at each run. Together they have regions of all the kinds that
KINDS names; where one has none that is said, and the status is 1.

Besides there are cases `calib` of calibrations that are read: those of calibration_cases.py that
have to do with rises and outlines, and some over grids too large for a match.

With --kinds the number of regions of each kind is printed. --check says whether these cases stand
in crates/sgm_cases/stdin, and no other ones of the kind `regions`, and --write puts them there, in
front of all others.
"""

import argparse
import collections
import functools
import itertools
import json
import math
import re
import sys
from typing import NamedTuple
from unittest import mock

import calibration_cases
import random_inputs
import reference
import reference_inputs as inputs
import reference_matching as matching
import stored_runs
from random_inputs import Draw
from test_reference_regions import BASES, OUTLINES, WIDE, numbers_in

SEED, RANDOM_CASES = 59, 90
HIGHEST, MOST_POINTS = inputs.HIGHEST, 1000


class Case(NamedTuple):
    grid: dict
    keep: str
    bridge: int
    points: list
    regions: list

    def calibration(self):
        grid = {**self.grid, "keep": self.keep, "bridge": self.bridge}
        return calibration_cases.third(("grid", grid), ("regions", self.regions))

    def tallies(self):
        side, corner = self.grid["cell"], (self.grid["west"], self.grid["south"])
        before = matching.heights(self.points, self.grid, self.keep)
        cells = matching.bridged(before, side, self.bridge)
        tally = lambda it: matching.tally_with_bridges(before, cells, side, it, corner)
        return [tally(region) for region in self.regions]


# Kinds of regions


def on_the_edge(edge_at, counting):
    """Whether a place is enclosed where `counting` says which crossings of its level line count."""

    def enclosed(outline, east, north):
        met = [edge_at(*edge, north) for edge in edges_of(outline)]
        return sum(it is not None and counting(it, east) for it in met) % 2 == 1

    return enclosed


def edges_of(outline):
    corners = list(zip(outline[::2], outline[1::2]))
    return list(zip(corners, corners[1:] + corners[:1]))


def level_from_above(a, b, north):
    """As the definition, with the level line's own corners to its north."""
    return MET(a, b, north) if (a[1] < north) != (b[1] < north) and a[1] != b[1] else None


def crossed_from_above(a, b, north):
    """Where an edge crosses the level line just to the south of that one."""
    if (a[1] < north) == (b[1] < north):
        return None
    return a[0] + (b[0] - a[0]) * matching.Fraction(north - a[1]) / (b[1] - a[1])


def winding(outline, east, north):
    """Inside wherever the outline goes around a place, however often."""
    rounds = 0
    for a, b in edges_of(outline):
        met = MET(a, b, north)
        if met is not None and met > east:
            rounds += 1 if b[1] > a[1] else -1
    return rounds != 0


def open_outline(outline, east, north):
    """Without the edge from the last corner to the first one."""
    met = [MET(*edge, north) for edge in edges_of(outline)[:-1]]
    return sum(it is not None and it > east for it in met) % 2 == 1


def products_of(outline, east, north, number):
    """By products of doubled places, each made by `number`."""
    inside, (e, n) = False, (int(2 * east), int(2 * north))
    for (a_e, a_n), (b_e, b_n) in edges_of(outline):
        a_e, a_n, b_e, b_n = 2 * a_e, 2 * a_n, 2 * b_e, 2 * b_n
        if (a_n <= n) != (b_n <= n):
            both = number(number((a_e - e) * (b_n - a_n)) + number((n - a_n) * (b_e - a_e)))
            inside ^= (both > 0) == (b_n > a_n) and both != 0
    return inside


def of_64_bits(number):
    return (number + 2**63) % 2**64 - 2**63


def base_by(place, rounding=None):
    """Bases in which the place of a cell is told otherwise, or the rounding."""
    rounding = rounding or matching.rounded

    def base(region, cell, col, row):
        (east, north), twice = place(col, row, region), 2000000
        rises = region["rise_east"] * east * cell, region["rise_north"] * north * cell
        return region["base"] + rounding(rises[0] + rises[1], twice)

    return base


def apart(region, cell, col, row):
    """A base for which each rise is rounded by itself."""
    rises = region["rise_east"] * (2 * col + 1), region["rise_north"] * (2 * row + 1)
    return region["base"] + sum(matching.rounded(rise * cell, 2000000) for rise in rises)


MET = matching.met_at
MIDDLE = lambda col, row, region: (2 * col + 1, 2 * row + 1)
HALVES_DOWN = lambda a, b: -((b - 2 * a) // (2 * b))
AWAY = lambda a, b: matching.rounded(a, b) if a > 0 else -matching.rounded(-a, b)


def middle_by(half_col, half_row):
    def middle(cell, corner, col, row):
        halves = (2 * col + half_col) * cell, (2 * row + half_row) * cell
        return [begin + matching.Fraction(half, 2) for begin, half in zip(corner, halves)]

    return middle


def rounded_middle(cell, corner, col, row):
    return [begin + at * cell + cell // 2 for begin, at in zip(corner, (col, row))]


# Definitions next to the right ones: a part's name, and another one in its place.
NEIGHBOURS = {
    "an edge counts for the place on it": (
        "is_enclosed",
        on_the_edge(MET, lambda met, east: met >= east),
    ),
    "edges count to the west": ("is_enclosed", on_the_edge(MET, lambda met, east: met < east)),
    "corners to the north of their line": ("met_at", crossed_from_above),
    "corners pass for nothing": ("met_at", level_from_above),
    "rounds are counted": ("is_enclosed", winding),
    "outlines stay open": ("is_enclosed", open_outline),
    "products of 64 bits": (
        "is_enclosed",
        lambda *it: products_of(*it, of_64_bits),
    ),
    "products of floats": ("is_enclosed", lambda *it: products_of(*it, float)),
    "west sides for middles": ("middle", middle_by(0, 1)),
    "south sides for middles": ("middle", middle_by(1, 0)),
    "middles rounded": ("middle", rounded_middle),
    "the grid's corner left out": (
        "middle",
        lambda cell, _, col, row: MIDDLE_OF(cell, (0, 0), col, row),
    ),
    "outlines left out": ("counts", lambda *it: True),
    "bases halved down": ("base_at", base_by(MIDDLE, HALVES_DOWN)),
    "bases away from 0": ("base_at", base_by(MIDDLE, AWAY)),
    "bases rounded down": ("base_at", base_by(MIDDLE, lambda a, b: a // b)),
    "each rise rounded": ("base_at", apart),
    "bases at south-west corners": (
        "base_at",
        base_by(lambda col, row, _: (2 * col, 2 * row)),
    ),
    "rises exchanged": ("base_at", base_by(lambda col, row, _: (2 * row + 1, 2 * col + 1))),
    "columns of the region": (
        "base_at",
        base_by(lambda col, row, it: (2 * (col - it["col"]) + 1, 2 * row + 1)),
    ),
    "level bases": ("base_at", lambda region, *_: region["base"]),
}
MIDDLE_OF = matching.middle


def some(**kinds):
    """The names of those that hold, with spaces in them."""
    return [name.replace("_", " ") for name, holds in kinds.items() if holds]


def kinds_of(case):
    """The kinds of all regions, one after the other."""
    made = case.tallies()
    # Where there is much to compute the neighbours are left out.
    corners = sum(len(region.get("outline", [])) for region in case.regions)
    is_short = case.grid["cols"] * case.grid["rows"] <= 100 and corners <= 200
    for name, (part, other) in NEIGHBOURS.items() if is_short else ():
        with mock.patch.object(matching, part, other):
            changed = sum(old != new for old, new in zip(made, case.tallies()))
        yield from changed * [f"not {name}"]
    yield from some(no_points=not case.points, no_regions=not case.regions)
    yield from some(one_cell=case.grid["cols"] * case.grid["rows"] == 1)
    for region, tally in zip(case.regions, made):
        yield from kinds_of_region(case.grid, region, tally)


def kinds_of_region(grid, region, tally):
    filled, bridged, empty, fill, cut = tally[:5]
    size = region["cols"] * region["rows"]
    rises = region["rise_east"], region["rise_north"]
    bases = inputs.corner_bases(region, grid)
    yield from some(level=rises == (0, 0), rises_both_ways=rises[0] * rises[1] < 0)
    yield from some(steepest=1000000 in map(abs, rises), fill_and_cut=fill > 0 and cut > 0)
    yield from some(base_at_the_top=max(bases) == HIGHEST > region["base"])
    yield from some(base_at_the_bottom=min(bases) == -HIGHEST < region["base"])
    yield from some(sum_above_64_bits=max(fill, cut) >= 2**64, bridged=bridged > 0, empty=empty > 0)
    if "outline" in region:
        outline = region["outline"]
        yield from some(all_inside=filled + empty == size, none_inside=filled + empty == 0)
        yield from some(some_inside=0 < filled + empty < size, all_empty=filled == 0 < empty)
        yield from some(part_bridged=0 < bridged and filled + empty < size)
        yield from some(many_corners=len(outline) > 100, most_corners=len(outline) == 2000)
        yield from some(as_far_as_can_be=HIGHEST in map(abs, outline))
        yield from kinds_of_outline(grid, region)


def kinds_of_outline(grid, region):
    """How the middles of the region's cells lie to the edges."""
    rows = range(grid["rows"] - region["row"] - region["rows"], grid["rows"] - region["row"])
    cols = range(region["col"], region["col"] + region["cols"])
    corner = grid["west"], grid["south"]
    edges, places = edges_of(region["outline"]), [(col, row) for row in rows for col in cols]
    for place in places if len(places) < 100 else places[:8]:
        east, north = matching.middle(grid["cell"], corner, *place)
        met = [matching.met_at(*edge, north) for edge in edges]
        yield from some(middle_on_an_edge=east in met)
        yield from some(middle_on_a_corner=any(edge[0] == (east, north) for edge in edges))
        level = [edge for edge in edges if edge[0][1] == edge[1][1] == north]
        on_level = any(min(a[0], b[0]) < east < max(a[0], b[0]) for a, b in level)
        yield from some(middle_on_a_level_edge=on_level)
        times = [it for it in met if it is not None and it > east]
        yield from some(edges_run_twice=len(set(times)) < len(times))
        yield from some(three_edges=len(times) == 3, four_edges=len(times) == 4)


# Each has to be there.
KINDS = [f"not {name}" for name in NEIGHBOURS]
KINDS += ["no points", "no regions", "one cell", "level", "rises both ways", "steepest"]
KINDS += ["fill and cut", "base at the top", "base at the bottom", "sum above 64 bits", "bridged"]
KINDS += ["empty", "all inside", "none inside", "some inside", "all empty", "part bridged"]
KINDS += ["many corners", "most corners", "as far as can be", "middle on an edge"]
KINDS += ["middle on a corner", "middle on a level edge", "edges run twice", "three edges"]
KINDS += ["four edges"]


# Cases


def points_of(grid, cells):
    return list(matching.points_in(grid, cells))


def region_of(name, place, base=0, rises=(0, 0), outline=None):
    region = {"name": name, **dict(zip(("col", "row", "cols", "rows"), place)), "base": base}
    region |= {"rise_east": rises[0], "rise_north": rises[1]}
    return region if outline is None else {**region, "outline": outline}


def worked_cases():
    """The rows that were worked out by hand. Fill and cut tell which cells are inside there,
    and how high each base is."""
    grid = {"west": 0, "south": 0, "cell": 2, "cols": 4, "rows": 4}
    cells = [[2 ** (4 * row + col) for col in range(4)] for row in range(4)]
    for line in OUTLINES.splitlines():
        outline = numbers_in(line[line.index("[") : line.index("]: ")])
        regions = [region_of("a", (0, 0, 4, 4), outline=outline)]
        regions.append(region_of("part", (1, 1, 2, 3), 9, (250000, -750000), outline))
        yield Case(grid, "highest", 0, points_of(grid, cells), regions)
    grid = {"west": 5, "south": -5, "cell": 1000, "cols": 4, "rows": 3}
    for line in BASES.splitlines():
        *_, base, east, north = numbers_in(line.split(": ")[0])
        places = itertools.product(range(4), range(3))
        regions = [region_of(f"{c}_{r}", (c, r, 1, 1), base, (east, north)) for c, r in places]
        yield Case(grid, "mean", 1, points_of(grid, [[0] * 4] * 3), regions)
    yield Case(grid, "mean", 8, [], [region_of("none", (0, 0, 4, 3), 7, (1, 1), [0] * 6)])
    yield Case(grid, "mean", 8, [], [region_of("all", (0, 0, 4, 3), 7, (1, 1))])
    yield Case(grid, "highest", 0, points_of(grid, [[0] * 4] * 3), [])


def far_cases():
    """Long rows of the widest cells, far beyond all that an outline can reach."""
    most = HIGHEST
    outlines = [
        [-most, -most, most, -most, most, most, -most, most],
        [-most, -most, most, most, -most, most],
        [-most, most - 1, most, most, -most, -most],
        [most, -most, -most, most, most, most, -most, -most, 0, most],
    ]
    for number, outline in enumerate(outlines):
        sides = [(4096, 1), (1, 4096), (600, 2), (2, 600)][number]
        grid = {"west": -most, "south": -most, "cell": 10**9, "cols": sides[0], "rows": sides[1]}
        ends = [(0, 0, most), (-most, -most, -most), (most, most, 5), (4094 * 10**9, -most, most)]
        points = [*ends, (-(10**9), -(10**9), -most), (0, -most, 1), (0, -(10**9), 2)]
        regions = [region_of("all", (0, 0, *sides), 7, outline=outline)]
        last, rises = (sides[0] - 1, sides[1] - 1, 1, 1), [(244, 0), (0, 488), (1000, 9), (9, 1000)]
        regions.append(region_of("end", last, 0, rises[number], outline))
        yield Case(grid, "mean", 1, points, [it for it in regions if is_in_range(it, grid)])


def is_in_range(region, grid):
    return max(map(abs, inputs.corner_bases(region, grid))) <= HIGHEST


def grid_of(draw):
    """A small grid, around which outlines fit."""
    cols, rows = draw.between(1, 7), draw.between(1, 6)
    cell = draw.of([1, 2, 2, 6, 7, 1000, 125000, 50000000])
    far = lambda: draw.between(-min(99, HIGHEST // cell), min(99, HIGHEST // cell)) * cell
    place = lambda count: draw.of([0, draw.between(-9, 9), -count * cell // 2, far()])
    return {"west": place(cols), "south": place(rows), "cell": cell, "cols": cols, "rows": rows}


def regions_of(draw, grid, count):
    made = []
    for number in range(count):
        whole = draw.chance(50)
        col, row = (0, 0) if whole else (draw.below(grid["cols"]), draw.below(grid["rows"]))
        rest = grid["cols"] - col, grid["rows"] - row
        sides = rest if whole else [draw.between(1, most) for most in rest]
        base = draw.of([0, draw.between(-9, 9), draw.between(-3, 3) * grid["cell"]])
        region = region_of(f"r{number}", (col, row, *sides), base)
        region |= dict(random_inputs.rises_of(draw, region, grid))
        if draw.chance(85):
            region["outline"] = random_inputs.outline_of(draw, region, grid)
        made.append(region)
    return made


def ground_case(draw):
    """A ground with holes about the base of the first region."""
    grid = grid_of(draw)
    regions = regions_of(draw, grid, draw.between(1, 4))
    rough, empty = draw.of([1, 3, grid["cell"], 5 * grid["cell"]]), draw.of([0, 20, 50])

    def height(col, line):
        row = grid["rows"] - 1 - line
        around = matching.base_at(regions[0], grid["cell"], col, row) + draw.between(-rough, rough)
        return None if draw.chance(empty) else max(-HIGHEST, min(HIGHEST, around))

    cells = [[height(col, line) for col in range(grid["cols"])] for line in range(grid["rows"])]
    points = draw.shuffled(points_of(grid, cells))
    return Case(grid, draw.of(["mean", "highest"]), draw.of([0, 1, 2, 8]), points, regions)


def marked_case(draw):
    """Heights of which each has a bit of its own, so that a fill tells which cells count."""
    grid = {**grid_of(draw), "cell": draw.of([2, 3, 1000])}
    grid["cols"], grid["rows"] = cols, rows = draw.between(3, 7), draw.between(3, 4)
    cells = [[2 ** (col + cols * line) for col in range(cols)] for line in range(rows)]
    regions = regions_of(draw, grid, 4)
    for region in regions:
        region |= {"base": 0, "rise_east": 0, "rise_north": 0}
    return Case(grid, "highest", 0, points_of(grid, cells), regions)


def lattice_case(draw):
    """Outlines whose corners all lie on middles, or halfway between, of few lines."""
    cols, rows, cell = draw.between(2, 6), draw.between(2, 6), 2
    grid = {"west": -3, "south": 11, "cell": cell, "cols": cols, "rows": rows}
    cells = [[5 * col * col - 7 * line + 3 for col in range(cols)] for line in range(rows)]
    regions = []
    for number in range(5):
        place = lambda most: draw.between(-1, 2 * most + 1)
        corners = [(-3 + place(cols), 11 + place(rows)) for _ in range(draw.between(3, 7))]
        if number == 0:
            # Upright and level edges alone.
            steps = itertools.pairwise(corners)
            corners = [it for (e, n), (f, _) in steps for it in ((e, n), (f, n))]
        outline = [part for it in corners for part in it] * draw.of([1, 1, 1, 1, 3])
        rises = draw.of([(0, 0), (1000000, -500000), (-250000, 1000000)])
        regions.append(region_of(f"r{number}", (0, 0, cols, rows), 3, rises, outline))
    return Case(grid, "highest", draw.of([0, 1]), points_of(grid, cells), regions)


def rounding_case(draw):
    """Bases that end in a half, or beside one."""
    cell, cols, rows = draw.of([1, 5, 1000]), draw.between(1, 5), draw.between(1, 4)
    grid = {"west": 0, "south": 0, "cell": cell, "cols": cols, "rows": rows}
    half = 1000000 // cell
    steep = lambda: draw.of([half, half - 1, half + 1, half // 2, 3 * half])
    rise = lambda: draw.of([-1, 1]) * min(1000000, steep())
    rises = [(rise(), 0), (0, rise()), (rise(), rise()), (rise(), rise())]
    regions = [
        region_of(f"r{number}", (0, 0, cols, rows), draw.between(-9, 9), it)
        for number, it in enumerate(rises)
    ]
    cells = [[draw.between(-9, 9) for _ in range(cols)] for _ in range(rows)]
    return Case(grid, "mean", 0, points_of(grid, cells), regions)


def great_case(draw):
    """Wide cells, heights and bases at both ends of the range, and edges from end to end."""
    cell, most = draw.of([10**9, 10**9, 999999999, 500000000]), HIGHEST
    cols, rows = draw.between(1, 5), draw.between(1, 5)
    grid = {"west": draw.of([-most, -most + 1, 0]), "south": draw.of([-most, -1, 0]), "cell": cell}
    grid |= {"cols": cols, "rows": rows}
    regions = []
    for number in range(3):
        end = lambda: draw.of([-most, most, -most + draw.below(3), most - draw.below(3), 0])
        outline = [end() for _ in range(2 * draw.of([3, 3, 4, 5]))]
        region = region_of(f"r{number}", (0, 0, cols, rows), draw.of([most, -most, 0]))
        for _ in range(20):
            rise = lambda: draw.of([0, 1, 1000000, 250000, draw.between(0, 1000000)])
            sloping = {**region, "rise_east": -rise(), "rise_north": rise()}
            bases = inputs.corner_bases({**sloping, "base": 0}, grid)
            shift = draw.of([most - max(bases), -most - min(bases)])
            if abs(shift) <= most and is_in_range({**sloping, "base": shift}, grid):
                region = {**sloping, "base": shift}
                break
        regions.append({**region, "outline": outline} if draw.chance(70) else region)
    cells = [[draw.of([most, -most, 0, None]) for _ in range(cols)] for _ in range(rows)]
    return Case(grid, "mean", draw.of([0, 1, 8]), points_of(grid, cells), regions)


def edge_beside(draw, east, north):
    """A long edge that passes a place as closely as one can without meeting it."""
    while True:
        u, v = (draw.between(HIGHEST // 2, HIGHEST - 100) for _ in range(2))
        if math.gcd(u, v) == 1:
            break
    # p * v - q * u is 1, or -1 from the other end.
    p = pow(v, -1, u)
    q = (p * v - 1) // u
    if draw.chance(50):
        p, q = u - p, v - q
    a = east - p, north - q
    return draw.shuffled([a, (a[0] + u, a[1] + v)])


def edge_case(draw):
    """Great places at which an edge passes a middle by less than a float can tell."""
    grid = {"west": draw.between(-9, 9), "south": draw.between(-9, 9), "cell": draw.of([2, 4])}
    grid |= {"cols": 5, "rows": 4}
    regions = []
    for number in range(4):
        corner = grid["west"], grid["south"]
        middle = matching.middle(grid["cell"], corner, draw.below(5), draw.below(4))
        (a_e, a_n), (b_e, b_n) = edge_beside(draw, *map(int, middle))
        outline = [a_e, a_n, b_e, b_n, draw.of([a_e, b_e]), draw.of([a_n, b_n])]
        regions.append(region_of(f"r{number}", (0, 0, 5, 4), 0, (0, 0), outline))
    cells = [[2 ** (5 * line + col) for col in range(5)] for line in range(4)]
    return Case(grid, "highest", 0, points_of(grid, cells), regions)


def long_case(draw):
    """Outlines of many corners, and one of as many as there may be."""
    grid = {"west": -50, "south": -50, "cell": 10, "cols": 10, "rows": 10}
    count = draw.of([60, 200, 1000])
    place = lambda: draw.of([5 * draw.between(-12, 12), draw.between(-60, 60)])
    outline = [place() for _ in range(2 * count)]
    regions = [region_of("r0", (0, 0, 10, 10), 3, (5000, -5000), outline)]
    cells = [[col * line - 20 for col in range(10)] for line in range(10)]
    return Case(grid, "mean", 0, points_of(grid, cells), regions)


MAKERS = [ground_case, lattice_case, marked_case, great_case, rounding_case, ground_case]
MAKERS += [lattice_case, edge_case, ground_case]


def random_case(number):
    """A case that its number alone makes."""
    return MAKERS[number % len(MAKERS)](Draw(SEED, number))


@functools.cache
def cases():
    made = [*worked_cases(), *far_cases(), *map(random_case, range(1, RANDOM_CASES + 1))]
    return [*made, *(long_case(Draw(SEED, 1000 + number)) for number in range(3))]


# Calibrations

# The numbers of the keys, as the program's faults have them.
KEYS = {"top": 1, "warp": 12, "camera": 27, "pose": 54, "pose.matrix": 55, "grid": 36}
KEYS |= {"grid.keep": 52, "grid.bridge": 53, "regions": 42, "regions[]": 43}
for section, number in (("camera", 28), ("pose", 56), ("grid", 37)):
    for name in inputs.keys_of(section):
        KEYS[f"{section}.{name}"], number = number, number + 1
KEYS |= dict(zip(("name", "col", "row", "cols", "rows", "base"), range(44, 50)))
KEYS |= {"rise_east": 59, "rise_north": 60, "outline": 61}
WORDS = {"is missing": "missing", "has the wrong type": "type", "is out of range": "range"}
WORDS |= {"has an unknown name": "unknown"}


def fault_told(line):
    """A fault's line as an answer of the kind `calib` tells it."""
    path, what = re.fullmatch(r"sgm: calibration: (\S+) (.*)", line).groups()
    region = re.fullmatch(r"regions\[(\d+)\](?:\.(\w+))?", path)
    index, key = (region[1], region[2] or "regions[]") if region else (0, path)
    return f"{WORDS[what]} {KEYS[key]} {index} {path}"


def shown(values):
    """Of more than eight the last alone."""
    return values if len(values) <= 8 else values[-1:]


def told(section):
    return ", ".join(f"{name}: {value}" for name, value in section.items())


def region_told(region):
    numbers = " ".join(str(region[key]) for key in ("col", "row", "cols", "rows", "base"))
    text = f" [{region['name']}] {numbers}"
    rises = region.get("rise_east", 0), region.get("rise_north", 0)
    if rises != (0, 0):
        text += f" rises {rises[0]} {rises[1]}"
    if "outline" in region:
        corners = list(zip(region["outline"][::2], region["outline"][1::2]))
        places = "".join(f" {east},{north}" for east, north in shown(corners))
        text += f" outline {len(corners)}{places}"
    return text


def camera_told(made):
    """What a calibration has of the ground, up to its grid."""
    text = f" Camera {{ {told(made.camera)} }}"
    if made.pose is not None:
        shift = (made.pose[name] for name in ("east", "north", "up"))
        text += " pose " + " ".join(map(str, [*made.pose["matrix"], *shift]))
    if made.grid is not None:
        text += f" GridSpec {{ {told(made.grid)} }} keep {made.keep} bridge {made.bridge}"
    return text


def calibration_told(made):
    """A calibration of version 3 with a camera and without warps as an answer of the kind `calib`
    tells it."""
    window, penalties = f"{made.window[0]} {made.window[1]}", f"{made.p1} {made.p2}"
    fine, adapt = " fine" * made.is_fine, " adapt" * made.is_adaptive
    text = f"ok {made.first} {made.count} {window}{fine} smoothed {penalties}{adapt}"
    text += " identity identity" + camera_told(made)
    if made.regions is not None:
        text += f" regions {len(made.regions)}" + "".join(map(region_told, shown(made.regions)))
    return text


def wide_calibrations():
    """Regions of the widest grid whose bases are in range, at the ends of the calculation."""
    wide = [("grid." + name, value) for name, value in WIDE.items()]
    for base, rises, place in [
        (1500000000, (1000000, 0), (0, 4095, 1, 1)),
        (1000000000, (1000000, -1000000), (0, 4095, 2, 1)),
        (0, (1000000, -1000000), (4095, 0, 1, 1)),
        (0, (-1000000, 1000000), (4095, 0, 1, 1)),
        (1395000, (244, 244), (4095, 0, 1, 1)),
        (1396000, (244, 244), (4095, 0, 1, 1)),
        (1396001, (244, 244), (4095, 0, 1, 1)),
        (-1396000, (-244, -244), (4095, 0, 1, 1)),
        (-1396001, (-244, -244), (4095, 0, 1, 1)),
        (0, (244, 244), (0, 0, 4096, 4096)),
        (0, (999999, -1000000), (4095, 0, 1, 1)),
        (2000000000, (999512, -1000000), (4095, 0, 1, 1)),
        (2000000000, (1000000, 1000000), (4095, 0, 1, 1)),
        (-2000000000, (-1000000, -1000000), (4095, 0, 1, 1)),
        (2000000000, (0, 0), (0, 0, 4096, 4096)),
        (2000000000, (-1, -1), (0, 0, 4096, 4096)),
    ]:
        yield calibration_cases.third(*wide, *calibration_cases.sloping(base, rises, place))


def calibrations():
    for part in ("rise_faults", "base_faults", "outline_faults"):
        yield from (made for _, made, _ in getattr(calibration_cases, part)())
    yield from (made for _, made in calibration_cases.area_bounds())
    yield from wide_calibrations()


def calibration_answer(text):
    try:
        return calibration_told(inputs.read_calibration(text.encode()))
    except inputs.Ended as end:
        return fault_told(end.line)


# Lines


def compact(value):
    return json.dumps(value, separators=(",", ":"))


def shortened(text):
    """The text with long rows of zeros as copies of one."""
    return re.sub("(?:0,){20,}", lambda found: f"\\*{len(found[0]) // 2}:0,\\.", text)


def pairs():
    """All cases, each with its answer, and after them the calibrations; no case comes twice."""
    made = {}
    for case in cases():
        points = " ".join(",".join(map(str, point)) for point in case.points)
        text = f"regions {compact(case.calibration())}" + (f" | {points}" if points else "")
        table = reference.table_text(case.regions, case.tallies(), 3).decode()
        made[text] = table.replace("\n", "\\n")
    for whole in calibrations():
        text = compact(whole)
        made[f"calib {shortened(text)}"] = calibration_answer(text)
    return [list(pair) for pair in made.items()]


def is_possible(case):
    """Whether the calibration can be read and there aren't too many points."""
    inputs.read_calibration(compact(case.calibration()).encode())
    return len(case.points) <= MOST_POINTS


def main():
    epilog = "Example: tests/regions_cases.py > /tmp/regions"
    parser = argparse.ArgumentParser(description=__doc__.split("\n\n")[0], epilog=epilog)
    way = parser.add_mutually_exclusive_group()
    way.add_argument("--kinds", action="store_true", help="print how many regions are of each kind")
    way.add_argument("--check", action="store_true", help="compare with the stored cases")
    way.add_argument("--write", action="store_true", help="write the stored cases anew")
    words = parser.parse_args()
    assert all(map(is_possible, cases()))
    counted = collections.Counter(kind for case in cases() for kind in kinds_of(case))
    missing = [kind for kind in KINDS if not counted[kind]]
    if missing:
        print(f"regions_cases: no region of these kinds: {', '.join(missing)}", file=sys.stderr)
    if words.kinds:
        print("\n".join(f"{counted[kind]} {kind}" for kind in KINDS))
    elif words.check or words.write:
        return stored_runs.hold_cases("regions_cases", pairs(), "regions ", words.write) or bool(missing)
    else:
        print("\n".join(line for pair in pairs() for line in pair))
    return 1 if missing else 0


if __name__ == "__main__":
    try:
        sys.exit(main())
    except OSError as error:
        sys.exit(f"regions_cases: {error}")
