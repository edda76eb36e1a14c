#!/usr/bin/env python3
"""Calibrations with one fault each and the line that the program owes for it, written out by hand.

    tests/calibration_cases.py FOLDER

writes NAME.json and NAME.line for each. They go over the keys of all objects: each one missing, of a wrong type,
just outside its range on either side, and beside a name that isn't known; over the keys that only some versions have;
and over the order of the faults where several stand together. `bounds` are calibrations at
the very ends of the ranges, which have no fault. The pictures are those of 5 x 3 pixels of ends.sh.
"""

import argparse
import copy
import functools
import itertools
import json
import os
import sys

import reference_inputs
from reference_inputs import LATER, RANGES

MISSING = object()
WRONG_TYPES = itertools.cycle([1.5, "1", None, True, [1], {"a": 1}, 1.0])

# The calibration of the worked example, and what of it has to be there.
EXAMPLE = os.path.join(os.path.dirname(os.path.abspath(__file__)), "..", "crates", "sgm_cli", "data", "c.json")
with open(EXAMPLE, encoding="utf-8") as file:
    WHOLE = json.load(file)
PLAIN = {name: value for name, value in WHOLE.items() if name not in ("camera", "grid", "regions")}
IDENTITY = {"kind": "identity"}
PROJECTIVE = {"kind": "projective", "matrix": [1, 0, 0, 0, 1, 0, 0, 0, 1]}
# A picture of 5 x 3 needs (5 - 1) div 2 + 2 columns and (3 - 1) div 2 + 2 rows of nodes.
MESH = {
    "kind": "mesh",
    "step": 2,
    "cols": 4,
    "rows": 3,
    "nodes": [part for y in (0, 512, 1024) for x in (0, 512, 1024, 1536) for part in (x, y)],
}

# The whole numbers, with the least and the greatest value that is accepted where all else is as in WHOLE: the ends of
# their ranges, but for these.
ENDS = {
    "penalties.p1": (1, 3),
    "camera.near": (1, 1000000),
    "grid.cols": (4, 4096),
    "grid.rows": (3, 4096),
    "regions.0.base": RANGES["region.base"],
    "regions.0.col": (0, 0),
    "regions.0.row": (0, 0),
    "regions.0.cols": (1, 4),
    "regions.0.rows": (1, 3),
    "regions.1.col": (0, 3),
    "regions.1.row": (0, 2),
    "regions.1.cols": (1, 1),
    "regions.1.rows": (1, 3),
    "regions.1.base": RANGES["region.base"],
}
SECTIONS = ("disparities", "census", "penalties", "camera", "grid")
PATHS = [path for path in RANGES if path.startswith(SECTIONS) and path not in LATER]
PATHS += [path for path in ENDS if path.startswith("regions")]
NUMBERS = [(path, *ENDS.get(path, RANGES.get(path))) for path in PATHS]
# Where the first value outside is another key's fault, or that of the one before, it stands here.
OUTSIDE = {
    ("penalties.p1", 4): "penalties.p2 is out of range",
    ("camera.near", 1000001): "camera.far is out of range",
    ("grid.cols", 3): "regions[0].cols is out of range",
    ("grid.rows", 2): "regions[0].rows is out of range",
    ("regions.0.col", 1): "regions[0].cols is out of range",
    ("regions.0.row", 1): "regions[0].rows is out of range",
}


def changed(base, *changes):
    """The calibration with each (path, value) put in, or taken out where the value is MISSING."""
    made = copy.deepcopy(base)
    for path, value in changes:
        *way, last = [int(word) if word.isdigit() else word for word in path.split(".")]
        part = made
        for word in way:
            part = part[word]
        if value is MISSING:
            del part[last]
        else:
            part[last] = copy.deepcopy(value)
    return made


def first(*changes):
    """The calibration of the worked example."""
    return changed(WHOLE, *changes)


def second(*changes):
    """The same in version 2, with its key."""
    return changed(WHOLE, ("version", 2), ("penalties.adapt", True), *changes)


def level(regions):
    """Regions with what version 3 asks for: their bases don't rise."""
    return [{**region, "rise_east": 0, "rise_north": 0} for region in regions]


def third(*changes):
    """The same in version 3, with its keys."""
    made = second(("version", 3), ("disparities.fine", False), ("regions", level(WHOLE["regions"])))
    return changed(made, ("grid.keep", "highest"), ("grid.bridge", 0), *changes)


def printed(path):
    """The path as the program prints it: an element of a list by its index in brackets."""
    return "".join(f"[{word}]" if word.isdigit() else "." + word for word in path.split("."))[1:]


def warped(side, kind):
    other = {"left": "right", "right": "left"}[side]
    return {**PLAIN, "warp": {side: kind, other: IDENTITY}}


def number_faults():
    for path, low, high in NUMBERS:
        yield path, changed(WHOLE, (path, MISSING)), printed(path) + " is missing"
        yield path, changed(WHOLE, (path, next(WRONG_TYPES))), printed(path) + " has the wrong type"
        for value in (low - 1, high + 1):
            line = OUTSIDE.get((path, value), printed(path) + " is out of range")
            yield path, changed(WHOLE, (path, value)), line


def version_faults():
    yield "version", changed(WHOLE, ("version", MISSING)), "version is missing"
    for wrong in ("1", 1.0, None, True, [2], 2.0):
        yield "version", changed(WHOLE, ("version", wrong)), "version has the wrong type"
    for wrong in (0, 4, -1, -2, -3, 258, 259, 4294967297, 4294967298, 4294967299):
        yield "version", changed(WHOLE, ("version", wrong)), "unknown version"
    # The version comes before the names that aren't known.
    yield "version", changed(WHOLE, ("version", 4), ("a", 0)), "unknown version"
    yield "version", third(("version", 4)), "unknown version"
    for made in (second, third):
        yield "version", made(("a", 0)), "top has an unknown name"
        yield "version", made(("adapt", True)), "top has an unknown name"
        yield "version", made(("census.adapt", True)), "census has an unknown name"
    yield "version", third(("fine", False)), "top has an unknown name"
    yield "version", third(("census.fine", False)), "census has an unknown name"
    yield "version", third(("penalties.fine", False)), "penalties has an unknown name"
    yield "version", third(("disparities.adapt", False)), "disparities has an unknown name"
    # Names that belong elsewhere.
    for name, value in (("keep", "mean"), ("bridge", 0)):
        yield "version", third((name, value)), "top has an unknown name"
        yield "version", third((f"camera.{name}", value)), "camera has an unknown name"
        yield "version", third((f"regions.0.{name}", value)), "regions[0] has an unknown name"


def adapt_faults():
    unknown, missing = "penalties has an unknown name", "penalties.adapt is missing"
    wrong_type = "penalties.adapt has the wrong type"
    yield "adapt", second(("penalties.adapt", MISSING)), missing
    for wrong in (0, 1, 0.0, "true", "", None, [True], {}, {"adapt": True}):
        yield "adapt", second(("penalties.adapt", wrong)), wrong_type
    for value in (True, False, 0, None):
        yield "adapt", changed(WHOLE, ("penalties.adapt", value)), unknown
    yield "adapt", second(("version", 1), ("penalties.p1", 0)), unknown
    yield "adapt", second(("penalties.Adapt", True)), unknown
    yield "adapt", second(("penalties.adapts", True), ("penalties.adapt", MISSING)), unknown
    # It stands behind the two penalties and before all sections that come later.
    for changes, line in [
        ((("penalties.p1", MISSING),), "penalties.p1 is missing"),
        ((("penalties.p2", MISSING),), "penalties.p2 is missing"),
        ((("penalties.p2", True),), "penalties.p2 has the wrong type"),
        ((("penalties.p1", 0),), "penalties.p1 is out of range"),
        ((("penalties.p2", 4001),), "penalties.p2 is out of range"),
        ((("penalties.p1", 4),), "penalties.p2 is out of range"),
    ]:
        yield "adapt", second(*changes), line
        for wrong in (0, MISSING):
            yield "adapt", second(*changes, ("penalties.adapt", wrong)), line
    yield "adapt", second(("penalties", {})), "penalties.p1 is missing"
    yield "adapt", second(("penalties", {"adapt": True})), "penalties.p1 is missing"
    yield "adapt", second(("penalties", [])), "penalties has the wrong type"
    yield "adapt", second(("census.height", 4), ("penalties.adapt", 0)), "census.height is out of range"
    for path, wrong in (("warp", 0), ("camera", 0), ("grid.west", 0.5), ("regions", {}), ("camera", MISSING)):
        yield "adapt", second(("penalties.adapt", MISSING), (path, wrong)), missing
        yield "adapt", second(("penalties.adapt", 1), (path, wrong)), wrong_type


def fine_faults():
    unknown, missing = "disparities has an unknown name", "disparities.fine is missing"
    wrong_type, outside = "disparities.fine has the wrong type", "disparities.fine is out of range"
    yield "fine", third(("disparities.fine", MISSING)), missing
    for wrong in (0, 1, 0.0, "false", "", None, [False], {}, {"fine": False}):
        yield "fine", third(("disparities.fine", wrong)), wrong_type
    if not reference_inputs.TAKES_FINE:
        yield "fine", third(("disparities.fine", True)), outside
    for made in (first, second):
        for value in (True, False, 0, None):
            yield "fine", made(("disparities.fine", value)), unknown
    yield "fine", third(("version", 1)), unknown
    yield "fine", third(("version", 2)), unknown
    yield "fine", third(("version", 2), ("disparities.count", 0)), unknown
    yield "fine", third(("disparities.Fine", False)), unknown
    yield "fine", third(("disparities.fines", False), ("disparities.fine", MISSING)), unknown
    # It stands behind the count and before the census.
    for changes, line in [
        ((("disparities.first", MISSING),), "disparities.first is missing"),
        ((("disparities.count", MISSING),), "disparities.count is missing"),
        ((("disparities.count", False),), "disparities.count has the wrong type"),
        ((("disparities.first", 1025),), "disparities.first is out of range"),
        ((("disparities.count", 257),), "disparities.count is out of range"),
    ]:
        yield "fine", third(*changes), line
        for wrong in (0, True, MISSING):
            yield "fine", third(*changes, ("disparities.fine", wrong)), line
    yield "fine", third(("disparities", {})), "disparities.first is missing"
    yield "fine", third(("disparities", {"fine": False})), "disparities.first is missing"
    yield "fine", third(("disparities", [])), "disparities has the wrong type"
    later = (("census", 0), ("census.width", 4), ("penalties.p1", 0), ("penalties.adapt", MISSING), ("warp", 0), ("camera", MISSING))
    for path, wrong in later:
        yield "fine", third(("disparities.fine", MISSING), (path, wrong)), missing
        yield "fine", third(("disparities.fine", 1), (path, wrong)), wrong_type
        if not reference_inputs.TAKES_FINE:
            yield "fine", third(("disparities.fine", True), (path, wrong)), outside
    # The penalties are checked as in version 2.
    yield "fine", third(("penalties.adapt", MISSING)), "penalties.adapt is missing"
    yield "fine", third(("penalties.adapt", MISSING), ("warp", 0)), "penalties.adapt is missing"
    yield "fine", third(("penalties.adapt", 0)), "penalties.adapt has the wrong type"
    yield "fine", third(("penalties.p2", 0), ("penalties.adapt", 0)), "penalties.p2 is out of range"
    yield "fine", third(("penalties.adapts", True)), "penalties has an unknown name"
    # So is all else.
    yield "fine", third(("census.height", 9)), "census.height is out of range"
    yield "fine", third(("camera.a", 0)), "camera has an unknown name"
    yield "fine", third(("grid.rows", MISSING)), "grid.rows is missing"
    yield "fine", third(("regions.1.base", 0.5)), "regions[1].base has the wrong type"


def cells_faults():
    """The two keys that say how points become cells."""
    unknown, later = "grid has an unknown name", (("regions", 0), ("regions.1", 0), ("regions", MISSING))
    for name, wrong_types, outside in [
        ("keep", (0, 1.5, True, None, ["mean"], {"keep": "mean"}), ("", "Mean", "HIGHEST", "highest ", "lowest", "means", "mea")),
        ("bridge", (0.0, "0", "", False, None, [1], {}), (-1, 9, 256, -(2**32), 2**32, 2**32 + 1)),
    ]:
        path = f"grid.{name}"
        yield "cells", third((path, MISSING)), f"{path} is missing"
        for wrong in wrong_types:
            yield "cells", third((path, wrong)), f"{path} has the wrong type"
        for wrong in outside:
            yield "cells", third((path, wrong)), f"{path} is out of range"
        # They come before the regions and behind all else of the grid.
        for more in later:
            yield "cells", third((path, MISSING), more), f"{path} is missing"
            yield "cells", third((path, wrong_types[0]), more), f"{path} has the wrong type"
            yield "cells", third((path, outside[0]), more), f"{path} is out of range"
        for wrong in (MISSING, wrong_types[0], outside[0]):
            yield "cells", third((path, wrong), ("grid.rows", MISSING)), "grid.rows is missing"
            yield "cells", third((path, wrong), ("grid.rows", 0)), "grid.rows is out of range"
            yield "cells", third((path, wrong), ("grid.west", "0")), "grid.west has the wrong type"
            yield "cells", third((path, wrong), ("camera.far", 0)), "camera.far is out of range"
        yield "cells", third((path + "s", 0)), unknown
        for made in (first, second):
            for value in ("highest", "mean", 0, 8, None):
                yield "cells", made((path, value)), unknown
    # `keep` comes before `bridge`.
    for wrong in (MISSING, 0.5, -1, 9):
        yield "cells", third(("grid.keep", MISSING), ("grid.bridge", wrong)), "grid.keep is missing"
        yield "cells", third(("grid.keep", 0), ("grid.bridge", wrong)), "grid.keep has the wrong type"
        yield "cells", third(("grid.keep", "most"), ("grid.bridge", wrong)), "grid.keep is out of range"
    yield "cells", third(("grid.Keep", "mean"), ("grid.keep", MISSING)), unknown
    yield "cells", third(("version", 2), ("disparities.fine", MISSING)), unknown
    yield "cells", third(("version", 2), ("disparities.fine", MISSING), ("grid.keep", MISSING)), unknown
    yield "cells", third(("grid", {})), "grid.west is missing"
    yield "cells", third(("grid", {"keep": "mean", "bridge": 2})), "grid.west is missing"
    yield "cells", third(("grid", "mean")), "grid has the wrong type"
    # A grid that isn't there has none.
    yield "cells", third(("grid", MISSING)), "grid is missing"
    yield "cells", third(("grid.keep", MISSING), ("camera", MISSING)), "camera is missing"


def rise_faults():
    """The two keys that say how a region's base rises."""
    later = (("regions.1", 0), ("regions.1.name", 7), ("regions.0.outline", 0))
    for name in ("rise_east", "rise_north"):
        path, shown = f"regions.0.{name}", f"regions[0].{name}"
        yield "rise", third((path, MISSING)), f"{shown} is missing"
        yield "rise", third((f"regions.1.{name}", MISSING)), f"regions[1].{name} is missing"
        for wrong in (0.0, 1.5, "0", "", None, True, [0], {}, 2**63):
            yield "rise", third((path, wrong)), f"{shown} has the wrong type"
        for wrong in (-1000001, 1000001, -(2**32), 2**32, 2**63 - 1, -(2**63)):
            yield "rise", third((path, wrong)), f"{shown} is out of range"
        for more in later:
            yield "rise", third((path, MISSING), more), f"{shown} is missing"
            yield "rise", third((path, None), more), f"{shown} has the wrong type"
            yield "rise", third((path, 1000001), more), f"{shown} is out of range"
        # All other keys of the region come before them.
        for wrong in (MISSING, None, 1000001):
            made = functools.partial(third, (path, wrong))
            yield "rise", made(("regions.0.base", MISSING)), "regions[0].base is missing"
            yield "rise", made(("regions.0.name", "")), "regions[0].name is out of range"
            yield "rise", made(("regions.0.rows", 4)), "regions[0].rows is out of range"
            yield "rise", made(("grid.bridge", 9)), "grid.bridge is out of range"
        yield "rise", third((path + "s", 0)), "regions[0] has an unknown name"
        for made in (first, second):
            for value in (0, 1, None):
                yield "rise", made((path, value)), "regions[0] has an unknown name"
        yield "rise", third((f"grid.{name}", 0)), "grid has an unknown name"
        yield "rise", third((name, 0)), "top has an unknown name"
    for wrong in (MISSING, "0", 1000001):
        both = ("regions.0.rise_east", MISSING), ("regions.0.rise_north", wrong)
        yield "rise", third(*both), "regions[0].rise_east is missing"
        both = ("regions.0.rise_east", None), ("regions.0.rise_north", wrong)
        yield "rise", third(*both), "regions[0].rise_east has the wrong type"
        both = ("regions.0.rise_east", -1000001), ("regions.0.rise_north", wrong)
        yield "rise", third(*both), "regions[0].rise_east is out of range"
    yield "rise", third(("regions.1", {"rise_east": 0})), "regions[1].name is missing"


# Bases that are just in range at all corner cells of a region and, with one more or less, at one of
# them out of it: what is added then, the rises, and the region's place in the grid of WHOLE.
WHOLE_GRID, SOUTH_WEST, NORTH_EAST = (0, 0, 4, 3), (0, 2, 1, 1), (3, 0, 1, 1)
EDGE_BASES = [
    (1999994000, 1, (1000000, 1000000), WHOLE_GRID),
    (1999997000, 1, (1000000, -1000000), WHOLE_GRID),
    (1999998000, 1, (-1000000, 1000000), WHOLE_GRID),
    (-1999994000, -1, (-1000000, -1000000), WHOLE_GRID),
    (-1999998000, -1, (1000000, -1000000), WHOLE_GRID),
    (-1999997000, -1, (-1000000, 1000000), WHOLE_GRID),
    (1999999996, 1, (1000, 0), WHOLE_GRID),
    (1999999997, 1, (999, 0), WHOLE_GRID),
    (-1999999997, -1, (-1000, 0), WHOLE_GRID),
    (-1999999996, -1, (-1001, 0), WHOLE_GRID),
    (1999999997, 1, (0, 1000), WHOLE_GRID),
    (-1999999998, -1, (0, -1000), WHOLE_GRID),
    (1999999000, 1, (1000000, 1000000), SOUTH_WEST),
    (-1999999000, -1, (-1000000, -1000000), SOUTH_WEST),
    (1999999500, 1, (0, 1000000), SOUTH_WEST),
    (1999994000, 1, (1000000, 1000000), NORTH_EAST),
    (-1999994000, -1, (-1000000, -1000000), NORTH_EAST),
    (1999997500, 1, (0, 1000000), NORTH_EAST),
]
# What lies wholly beside the region, so that no cell of it counts.
ELSEWHERE = [-5000, -5000, -4000, -5000, -4000, -4000]


def sloping(base, rises, place, **more):
    """The changes that give the first region that base, those rises and that place."""
    numbers = {**dict(zip(("col", "row", "cols", "rows"), place)), "base": base}
    numbers |= {**dict(zip(("rise_east", "rise_north"), rises)), **more}
    return [(f"regions.0.{name}", value) for name, value in numbers.items()]


def base_faults():
    """Bases that leave the range of heights at a corner cell of their region."""
    line = "regions[0].rise_north is out of range"
    for base, step, rises, place in EDGE_BASES:
        yield "base", third(*sloping(base + step, rises, place)), line
    base, step, rises, place = EDGE_BASES[0]
    # It counts whatever the outline leaves out, and comes before anything of it.
    for outline in (ELSEWHERE, None, [0.5], [1, 2, 3]):
        yield "base", third(*sloping(base + step, rises, place, outline=outline)), line
    yield "base", third(*sloping(base + step, rises, place), ("regions.1", 0)), line
    other = sloping(base + step, rises, place)
    yield "base", third(*other, ("regions.0.rise_north", 1000001)), line
    wrong_type = "regions[0].rise_north has the wrong type"
    yield "base", third(*other, ("regions.0.rise_north", "0")), wrong_type
    yield "base", third(*other, ("regions.0.base", 2000000001)), "regions[0].base is out of range"
    # Far from the grid's corner a base goes far beyond.
    wide = [("grid.cell", 1000000000), ("grid.cols", 4096), ("grid.rows", 4096)]
    for rises in ((0, 1000000), (1000000, 1000000), (-1000000, -1000000), (245, 245)):
        yield "base", third(*wide, *sloping(0, rises, (4095, 0, 1, 1))), line
        yield "base", third(*wide, *sloping(0, rises, (0, 0, 4096, 4096))), line
    yield "base", third(*wide, *sloping(1500000001, (1000000, 0), (0, 4095, 1, 1))), line
    yield "base", third(*wide, *sloping(500000001, (0, 1000000), (0, 4094, 1, 2))), line
    yield "base", third(*wide, *sloping(0, (1000000, -1000000), (0, 0, 4096, 4096))), line


def outlined(*numbers, more=()):
    return third(("regions.0.outline", list(numbers)), *more)


def outline_faults():
    path, most = "regions[0].outline", 2000000000
    wrong_type, outside = f"{path} has the wrong type", f"{path} is out of range"
    triangle = [2000, -2000, 6000, -2000, 6000, 1000]
    for wrong in (None, 0, 1.5, "", "0 0 8 0 8 8", True, {}, {"0": 0}):
        yield "outline", third(("regions.0.outline", wrong)), wrong_type
    for wrong in (0.5, 1.0, "0", None, False, [], [0, 0], {}, 2**63):
        yield "outline", outlined(*triangle[:-1], wrong), wrong_type
        yield "outline", outlined(wrong, *triangle[1:]), wrong_type
        # A wrong element comes before a wrong number of them and before what is out of range.
        yield "outline", outlined(wrong), wrong_type
        yield "outline", outlined(most + 1, *triangle, wrong), wrong_type
    yield "outline", outlined(*[0] * 2001, None), wrong_type
    for length in (0, 1, 2, 3, 4, 5, 7, 9, 1999, 2001, 2002, 4000):
        yield "outline", outlined(*[0] * length), outside
    for wrong in (most + 1, -most - 1, 2**32, -(2**32), 2**63 - 1, -(2**63)):
        for at in (0, 1, 4, 5):
            yield "outline", outlined(*triangle[:at], wrong, *triangle[at + 1 :]), outside
    # The region after it comes later, and all else of its own region earlier.
    for wrong in (None, [0], [0] * 6 + [most + 1, 0]):
        line = wrong_type if wrong is None else outside
        made = functools.partial(third, ("regions.0.outline", wrong))
        for name, other in (("rise_east", MISSING), ("outline", None), ("name", 7)):
            yield "outline", made((f"regions.1.{name}", other)), line
        for name in ("name", "base", "rise_east", "rise_north"):
            yield "outline", made((f"regions.0.{name}", MISSING)), f"regions[0].{name} is missing"
        yield "outline", third(("regions.1.outline", wrong)), line.replace("[0]", "[1]")
    two = third(("regions.1.outline", None), ("regions.0.rise_north", MISSING))
    yield "outline", two, "regions[0].rise_north is missing"
    for name in ("Outline", "outlines"):
        yield "outline", third((f"regions.0.{name}", triangle)), "regions[0] has an unknown name"
    for made in (first, second):
        for value in (triangle, [], None):
            yield "outline", made(("regions.1.outline", value)), "regions[1] has an unknown name"
    yield "outline", third(("outline", triangle)), "top has an unknown name"
    yield "outline", third(("grid.outline", triangle)), "grid has an unknown name"


# Matrices of a pose

ONE = 2**30
UPRIGHT = [ONE, 0, 0, 0, ONE, 0, 0, 0, ONE]
QUARTER_TURN = [0, -ONE, 0, ONE, 0, 0, 0, 0, ONE]
# The north of a site for a camera whose picture's upper side leans towards it: by 3, 4 and 5.
TILT = [ONE, 0, 0, 0, 858993459, -644245094, 0, 644245094, 858993459]
MIRRORED = [ONE, 0, 0, 0, -ONE, 0, 0, 0, ONE]
POSE = {"matrix": TILT, "east": 3, "north": -1, "up": 7}


def with_numbers(matrix, **numbers):
    """The matrix with other numbers in some places, which are named m0 to m8."""
    return [numbers.get(f"m{at}", number) for at, number in enumerate(matrix)]


def upright(**numbers):
    return with_numbers(UPRIGHT, **numbers)


def cycled(matrix, times):
    """The same for the axes in another order: the rows and the columns go round together."""
    order = [(at - times) % 3 for at in range(3)]
    return [matrix[3 * row + col] for row in order for col in order]


def axes_at(at, number):
    """A matrix in which each axis lies along another one, with that number in one place."""
    row, col = at // 3, at % 3
    made = [0] * 9
    for other in range(3):
        made[3 * other + (col - row + other) % 3] = ONE
    made[at] = number
    return made


# The square of the first row's length is that of 1 and 2^45 more, and that of 1 less 2^45.
LONG = [ONE, 2**22, 2**22, -(2**22), ONE, 0, -(2**22), 0, ONE]
SHORT = [255 * 2**22, 22 * 2**22, 5 * 2**22, -92293702, 1069767908, 0, -20894223, -1802639, 1073536998]
# An eighth of a turn whose rows are near enough to those of a rotation and whose columns aren't, and
# the other way round.
BY_ROWS = [759270978, -759250125, 0, 759270978, 759250125, 0, 0, 0, ONE]
BY_COLUMNS = [759250125, -759250125, 0, 759270978, 759270978, 0, 0, 0, ONE]
# Those that are nearly rotations and those that aren't: the worked rows, and for each length and
# each product the very ends of what is accepted, and the next numbers beyond them.
ROTATIONS = [UPRIGHT, QUARTER_TURN, TILT, MIRRORED, upright(m0=ONE - 16384), upright(m8=ONE - 16384)]
ROTATIONS += [upright(m1=32768), upright(m5=-32768), upright(m1=5931641, m3=-5931641)]
NO_ROTATIONS = [[0] * 9, upright(m0=ONE - 16385), upright(m8=ONE - 16385), upright(m1=32769)]
NO_ROTATIONS += [upright(m5=-32769), upright(m1=2**23, m3=-(2**23))]
NO_ROTATIONS += [upright(m1=5931642, m3=-5931642), upright(m0=ONE + 1)]
ROTATIONS += [upright(**{f"m{at}": way * 32768}) for at in (1, 2, 5, 7) for way in (1, -1)]
NO_ROTATIONS += [upright(**{f"m{at}": way * 32769}) for at in (2, 3, 5, 6) for way in (1, -1)]
for way_round in range(3):
    ROTATIONS += [cycled(LONG, way_round), cycled(SHORT, way_round)]
    NO_ROTATIONS.append(cycled(with_numbers(LONG, m1=2**22 + 1), way_round))
    NO_ROTATIONS.append(cycled(with_numbers(SHORT, m2=5 * 2**22 - 1), way_round))
ROTATIONS += [BY_ROWS, [0, 0, ONE, ONE, 0, 0, 0, ONE, 0], [-ONE, 0, 0, 0, -ONE, 0, 0, 0, -ONE]]
NO_ROTATIONS += [BY_COLUMNS, [ONE] * 9, [-ONE] * 9, [ONE, 0, 0, ONE, 0, 0, 0, 0, ONE]]
NO_ROTATIONS += [[0, 0, 0, *UPRIGHT[3:]], [*UPRIGHT[:6], 0, 0, 0], [2 * it for it in UPRIGHT]]
NO_ROTATIONS += [[it // 2 for it in UPRIGHT], [*UPRIGHT[:3], *UPRIGHT[:3], *UPRIGHT[6:]]]


def posed(*changes):
    """The example in version 3, with a pose."""
    return third(("pose", POSE), *changes)


def pose_faults():
    """The pose, and what stands before and behind it."""
    yield "pose", third(("pose", None)), "pose has the wrong type"
    for wrong in ([], 0, 1.5, "", True, UPRIGHT, [POSE]):
        yield "pose", third(("pose", wrong)), "pose has the wrong type"
    yield "pose", third(("pose", {})), "pose.matrix is missing"
    unknown = "pose has an unknown name"
    for name in ("Matrix", "matrices", "mount", "rows", "pose", "grid", "east ", ""):
        yield "pose", posed((f"pose.{name}", 0)), unknown
    # An unknown name comes before the pose's own keys.
    yield "pose", third(("pose", {"a": 0})), unknown
    yield "pose", posed(("pose.a", 0), ("pose.matrix", None)), unknown
    yield "pose", posed(("pose.a", 0), ("pose.east", MISSING)), unknown
    for made in (first, second):
        for value in (POSE, {}, None):
            yield "pose", made(("pose", value)), "top has an unknown name"
    yield "pose", second(("pose", POSE), ("camera", MISSING)), "top has an unknown name"
    yield "pose", third(("Pose", POSE)), "top has an unknown name"
    for name in ("matrix", "east", "north", "up"):
        yield "pose", posed((name, POSE[name])), "top has an unknown name"
    yield "pose", posed(("camera.up", 7)), "camera has an unknown name"
    yield "pose", posed(("camera.pose", POSE)), "camera has an unknown name"
    yield "pose", posed(("grid.east", 3)), "grid has an unknown name"


def shift_faults():
    """The three numbers by which a pose shifts, and the keys of a pose in their order."""
    names = ("matrix", "east", "north", "up")
    for at, name in enumerate(names):
        path, wrong_type = f"pose.{name}", f"pose.{name} has the wrong type"
        yield "shift", posed((path, MISSING)), f"{path} is missing"
        faults = {MISSING: f"{path} is missing", None: wrong_type}
        if name != "matrix":
            for wrong in (0.0, 1.5, "0", None, False, [0], {}, 2**63):
                yield "shift", posed((path, wrong)), wrong_type
            for wrong in (-2000000001, 2000000001, 2**32, 2**63 - 1, -(2**63)):
                yield "shift", posed((path, wrong)), f"{path} is out of range"
            faults[2000000001] = f"{path} is out of range"
        # Of two keys the one that comes first tells, whatever is wrong with the other.
        for later in names[at + 1 :]:
            for wrong, line in faults.items():
                yield "shift", posed((path, wrong), (f"pose.{later}", None)), line
    # A pose comes before the grid and the regions, and behind all of the camera and the warp.
    for name, wrong, line in (
        ("matrix", MISSING, "pose.matrix is missing"),
        ("matrix", [0] * 9, "pose.matrix is out of range"),
        ("up", None, "pose.up has the wrong type"),
        ("up", 2000000001, "pose.up is out of range"),
    ):
        made = functools.partial(posed, (f"pose.{name}", wrong))
        for more in (("grid", 0), ("grid.west", None), ("grid.keep", MISSING), ("regions", 0), ("grid", MISSING)):
            yield "shift", made(more), line
        yield "shift", made(("grid", MISSING), ("regions", MISSING)), line
        yield "shift", made(("camera", MISSING)), "camera is missing"
        yield "shift", made(("camera.far", 0)), "camera.far is out of range"
        yield "shift", made(("camera.a", 0)), "camera has an unknown name"
        yield "shift", made(("warp", 0)), "warp has the wrong type"


def matrix_faults():
    """The nine numbers of a pose, and whether they are nearly a rotation."""
    wrong_type, outside = "pose.matrix has the wrong type", "pose.matrix is out of range"
    for wrong in (None, 0, 1.5, "", "1", True, {}, {"0": ONE}):
        yield "pose-matrix", posed(("pose.matrix", wrong)), wrong_type
    for at, wrong in enumerate((0.5, 1073741824.0, "0", None, False, [], {}, 2**63, -(2**63) - 1)):
        yield "pose-matrix", posed(("pose.matrix", [*TILT[:at], wrong, *TILT[at + 1 :]])), wrong_type
    # A wrong element comes before a wrong number of them and before what is out of range.
    for wrong in (0.5, None):
        yield "pose-matrix", posed(("pose.matrix", [wrong])), wrong_type
        yield "pose-matrix", posed(("pose.matrix", [*TILT, wrong])), wrong_type
        yield "pose-matrix", posed(("pose.matrix", [ONE + 1, *TILT[1:8], wrong])), wrong_type
    yield "pose-matrix", posed(("pose.matrix", [TILT[:3], TILT[3:6], TILT[6:]])), wrong_type
    for wrong in ([], TILT[:1], TILT[:8], [*TILT, 0], [*TILT, ONE], TILT + TILT):
        yield "pose-matrix", posed(("pose.matrix", wrong)), outside
    for at in range(9):
        # One of them is out of range by itself, though nearly a rotation.
        for wrong in (ONE + 1, -ONE - 1):
            yield "pose-matrix", posed(("pose.matrix", axes_at(at, wrong))), outside
    for wrong in (2**32 + ONE, 2**33, 2**63 - 1, -(2**63)):
        yield "pose-matrix", posed(("pose.matrix", upright(m0=wrong))), outside
    for matrix in NO_ROTATIONS:
        yield "pose-matrix", posed(("pose.matrix", matrix)), outside


def missing_cameras():
    """A pose needs a camera; where both a pose and a grid want it, it is missed once."""
    line, both = "camera is missing", (("camera", MISSING), ("regions", MISSING))
    yield "pose-camera", posed(("camera", MISSING)), line
    yield "pose-camera", posed(*both), line
    for pose in (POSE, None, {}, {"a": 0}, {**POSE, "matrix": [0] * 9}):
        yield "pose-camera", third(*both, ("grid", MISSING), ("pose", pose)), line
    yield "pose-camera", third(("camera", None), ("pose", POSE)), "camera has the wrong type"
    yield "pose-camera", posed(("camera", None), ("pose", None)), "camera has the wrong type"
    yield "pose-camera", posed(("camera", {}), ("pose", None)), "camera.focal is missing"
    # Regions still need a grid, once the pose is found to be right.
    yield "pose-camera", posed(("grid", MISSING)), "grid is missing"


def warp_faults():
    yield "warp", changed(WHOLE, ("warp", [])), "warp has the wrong type"
    yield "warp", changed(WHOLE, ("warp", {})), "warp.left is missing"
    yield "warp", changed(WHOLE, ("warp", {"left": IDENTITY})), "warp.right is missing"
    yield "warp", changed(WHOLE, ("warp", {"middle": 0})), "warp has an unknown name"
    yield "warp", changed(WHOLE, ("warp", {"right": 0})), "warp.left is missing"
    yield "warp", changed(WHOLE, ("warp", {"left": IDENTITY, "right": None})), "warp.right has the wrong type"
    for side in ("left", "right"):
        at, name = f"warp.{side}", f"warp-{side}"
        yield name, warped(side, []), f"{at} has the wrong type"
        yield name, warped(side, {}), f"{at}.kind is missing"
        yield name, warped(side, {"kind": 1}), f"{at}.kind has the wrong type"
        yield name, warped(side, {"kind": "Mesh"}), f"{at}.kind is out of range"
        # The kind comes before names that aren't known; which names are known hangs on it.
        yield name, warped(side, {"kind": "", "a": 0}), f"{at}.kind is out of range"
        yield name, warped(side, {"a": 0}), f"{at}.kind is missing"
        yield name, warped(side, {**IDENTITY, "matrix": PROJECTIVE["matrix"]}), f"{at} has an unknown name"
        yield name, warped(side, {**PROJECTIVE, "step": 2}), f"{at} has an unknown name"
        yield name, warped(side, {**MESH, "matrix": 0}), f"{at} has an unknown name"
        for key in ("step", "cols", "rows", "nodes"):
            yield name, warped(side, changed(MESH, (key, MISSING))), f"{at}.{key} is missing"
            yield name, warped(side, changed(MESH, (key, "4"))), f"{at}.{key} has the wrong type"
        for key, low, high in (("step", 2, 1024), ("cols", 2, 2049), ("rows", 2, 2049)):
            for value in (low - 1, high + 1):
                yield name, warped(side, changed(MESH, (key, value))), f"{at}.{key} is out of range"
        yield name, warped(side, {"kind": "projective"}), f"{at}.matrix is missing"
        yield name, warped(side, {**PROJECTIVE, "matrix": {}}), f"{at}.matrix has the wrong type"
        for key, base, most in (("matrix", PROJECTIVE, 1099511627776), ("nodes", MESH, 16777216)):
            numbers = base[key]
            for wrong in (numbers[:-1], numbers + [0], [], [most + 1] + numbers[1:], numbers[:-1] + [-most - 1]):
                yield name, warped(side, {**base, key: wrong}), f"{at}.{key} is out of range"
            # A wrong element comes before a wrong count and before what is out of range.
            for wrong in (numbers[:-1] + [0.5], [None], [most + 1, "0"], numbers + [[]]):
                yield name, warped(side, {**base, key: wrong}), f"{at}.{key} has the wrong type"


def section_faults():
    for key, wrong in (("camera", 0), ("grid", []), ("regions", {})):
        yield key, changed(WHOLE, (key, wrong)), f"{key} has the wrong type"
    for key in ("camera", "grid"):
        yield key, changed(WHOLE, (key + ".a", 0)), f"{key} has an unknown name"
        # An unknown name comes before the object's own keys.
        yield key, changed(WHOLE, (key, {"a": 0})), f"{key} has an unknown name"
    yield "camera", changed(WHOLE, ("camera", MISSING)), "camera is missing"
    yield "camera", changed(WHOLE, ("camera", MISSING), ("regions", MISSING)), "camera is missing"
    yield "camera", changed(WHOLE, ("camera", {})), "camera.focal is missing"
    yield "camera", changed(WHOLE, ("camera.near", 1000), ("camera.far", 999)), "camera.far is out of range"
    yield "camera", changed(WHOLE, ("camera.near", 2000000001)), "camera.near is out of range"
    yield "camera", changed(WHOLE, ("camera.near", 0), ("camera.far", -1)), "camera.near is out of range"
    yield "grid", changed(WHOLE, ("grid", MISSING)), "grid is missing"
    yield "grid", changed(PLAIN, ("regions", [])), "grid is missing"
    yield "grid", changed(WHOLE, ("grid", {})), "grid.west is missing"
    yield "grid", changed(WHOLE, ("grid.cols", 0)), "grid.cols is out of range"
    yield "grid", changed(WHOLE, ("grid.rows", 0)), "grid.rows is out of range"


def region_faults():
    region = WHOLE["regions"][0]
    yield "regions", changed(WHOLE, ("regions", [region] * 1001)), "regions is out of range"
    yield "regions", changed(WHOLE, ("regions", [0] * 1001)), "regions is out of range"
    yield "regions", changed(WHOLE, ("regions.0", [])), "regions[0] has the wrong type"
    yield "regions", changed(WHOLE, ("regions.1", "all")), "regions[1] has the wrong type"
    yield "regions", changed(WHOLE, ("regions.0.a", 0)), "regions[0] has an unknown name"
    yield "regions", changed(WHOLE, ("regions.1", {"a": 0})), "regions[1] has an unknown name"
    yield "regions", changed(WHOLE, ("regions.0", {})), "regions[0].name is missing"
    yield "regions", changed(WHOLE, ("regions.1.name", MISSING)), "regions[1].name is missing"
    yield "regions", changed(WHOLE, ("regions.1.name", 7)), "regions[1].name has the wrong type"
    for wrong in ("", "a" * 65, "a,b", 'a"b', "a\nb", "a/b", "h\u00f6he", "a\u0000", "a\tb"):
        yield "regions", changed(WHOLE, ("regions.1.name", wrong)), "regions[1].name is out of range"
    # Regions are checked by index, each whole.
    both = (("regions.0.base", 0.5), ("regions.1", 0))
    yield "regions", changed(WHOLE, *both), "regions[0].base has the wrong type"
    many = [region] * 999 + [{key: value for key, value in region.items() if key != "base"}]
    yield "regions", changed(WHOLE, ("regions", many)), "regions[999].base is missing"


def order_faults():
    """Two faults each: that of the lower number is named, and all of a part before the next part."""
    yield "order", changed(WHOLE, ("warp", 0), ("camera", 0)), "warp has the wrong type"
    yield "order", changed(WHOLE, ("penalties", 0), ("warp", 0)), "penalties has the wrong type"
    yield "order", changed(WHOLE, ("camera.far", 0), ("grid", 0)), "camera.far is out of range"
    yield "order", changed(WHOLE, ("camera", MISSING), ("grid", 0)), "camera is missing"
    yield "order", changed(WHOLE, ("grid.rows", 0), ("regions", 0)), "grid.rows is out of range"
    yield "order", changed(WHOLE, ("grids", 0), ("camera", 0)), "top has an unknown name"
    yield "order", changed(WHOLE, ("warp", {"left": MESH, "right": {}}), ("camera", 0)), "warp.right.kind is missing"
    both = {"left": {**MESH, "nodes": [0]}, "right": {"kind": 0}}
    yield "order", changed(WHOLE, ("warp", both)), "warp.left.nodes is out of range"


def faults():
    """Triples of a name, a calibration and its line."""
    parts = (version_faults, adapt_faults, fine_faults, cells_faults, warp_faults, section_faults)
    parts += (number_faults, region_faults, order_faults, rise_faults, base_faults, outline_faults)
    parts += (pose_faults, shift_faults, matrix_faults, missing_cameras)
    numbered = {}
    for name, made, line in itertools.chain.from_iterable(part() for part in parts):
        name = name.replace(".", "-")
        numbered[name] = numbered.get(name, 0) + 1
        yield f"{name}-{numbered[name]}", made, f"sgm: calibration: {line}"


def bounds():
    """Pairs of a name and a calibration without a fault, at an end of a range."""
    for path, low, high in NUMBERS:
        for value in sorted({low, high}):
            # The least grid here has 4 x 3 cells, which is WHOLE itself, and the greatest would be long.
            if path not in ("grid.cols", "grid.rows"):
                yield f"bound-{path.replace('.', '-')}-{value}", changed(WHOLE, (path, value))
    for is_adaptive in (True, False):
        for p1, p2 in ((1, 1), (1, 4000), (4000, 4000), (10, 400)):
            changes = (("penalties.p1", p1), ("penalties.p2", p2), ("penalties.adapt", is_adaptive))
            yield f"bound-adapt-{'yes' if is_adaptive else 'no'}-{p1}-{p2}", second(*changes)
            yield f"bound-third-{'yes' if is_adaptive else 'no'}-{p1}-{p2}", third(*changes)
            if reference_inputs.TAKES_FINE:
                fine = third(("disparities.fine", True), *changes)
                yield f"bound-fine-{'yes' if is_adaptive else 'no'}-{p1}-{p2}", fine
    yield "bound-adapt-alone", {**PLAIN, "version": 2, "penalties": {**PLAIN["penalties"], "adapt": True}}
    third_alone = {**PLAIN, "version": 3, "disparities": {**PLAIN["disparities"], "fine": False}}
    yield "bound-third-alone", {**third_alone, "penalties": {**PLAIN["penalties"], "adapt": False}}
    for first_one, count in ((-1024, 256), (1024, 1)):
        yield f"bound-third-span-{first_one}", third(("disparities.first", first_one), ("disparities.count", count))
    for width, height in ((3, 3), (9, 7), (3, 7), (9, 3)):
        yield f"bound-third-window-{width}-{height}", third(("census.width", width), ("census.height", height))
    for keep in ("highest", "mean"):
        for bridge in (0, 1, 2, 8):
            cells = (("grid.keep", keep), ("grid.bridge", bridge))
            yield f"bound-cells-{keep}-{bridge}", third(*cells)
            yield f"bound-cells-{keep}-{bridge}-alone", third(*cells, ("regions", MISSING))
    yield from area_bounds()
    yield from pose_bounds()
    yield "bound-near-and-far", changed(WHOLE, ("camera.near", 2000000000), ("camera.far", 2000000000))
    yield "bound-grid-long", changed(WHOLE, ("grid.cols", 4096))
    yield "bound-grid-one", changed(WHOLE, ("grid.cols", 1), ("grid.rows", 1), ("regions", MISSING))
    names = ["a" * 64, "0", " ", "_-.", "Pile no. 7_b-C"]
    regions = [{**WHOLE["regions"][1], "name": name} for name in names]
    yield "bound-names", changed(WHOLE, ("regions", regions))
    yield "bound-no-regions", changed(WHOLE, ("regions", []))
    many = [{**WHOLE["regions"][1], "name": f"r{index}", "base": index * 100} for index in range(1000)]
    yield "bound-many-regions", changed(WHOLE, ("regions", many))
    most = 1099511627776
    matrices = [[most, 0, 0, 0, most, 0, 0, 0, most], [-most, most, -most, most, -most, most, most, most, most]]
    for number, matrix in enumerate(matrices):
        yield f"bound-matrix-{number}", warped("right", {"kind": "projective", "matrix": matrix})
    for number, node in enumerate((16777216, -16777216)):
        yield f"bound-nodes-{number}", warped("left", {**MESH, "nodes": MESH["nodes"][:-1] + [node]})
    large = {"kind": "mesh", "step": 1024, "cols": 2, "rows": 2, "nodes": [0, 0, 262144, 0, 0, 262144, 262144, 262144]}
    yield "bound-step", warped("left", large)


def pose_bounds():
    """The same with a pose."""
    for number, matrix in enumerate(ROTATIONS):
        yield f"bound-pose-{number}", posed(("pose.matrix", matrix))
    for name in ("east", "north", "up"):
        for end in (-2000000000, 2000000000, 0):
            yield f"bound-pose-{name}-{end}", posed((f"pose.{name}", end))
    bare = (("grid", MISSING), ("regions", MISSING))
    yield "bound-pose-without-regions", posed(("regions", MISSING))
    yield "bound-pose-alone", posed(*bare)
    yield "bound-pose-alone-upright", posed(*bare, ("pose.matrix", UPRIGHT))
    yield "bound-pose-first", {"pose": POSE, **third()}
    yield "bound-pose-backwards", {**third(), "pose": dict(reversed(POSE.items()))}


def area_bounds():
    """The same with regions whose bases rise and that have an outline."""
    for number, (base, _, rises, place) in enumerate(EDGE_BASES):
        yield f"bound-base-{number}", third(*sloping(base, rises, place))
    for rises in ((1000000, 0), (-1000000, 0), (0, 1000000), (0, -1000000)):
        yield f"bound-rises-{rises[0]}-{rises[1]}", third(*sloping(0, rises, WHOLE_GRID))
    most = 2000000000
    for name, outline in {
        "least": [2000, -2000, 6000, -2000, 6000, 1000],
        "point": [0] * 6,
        "most": [1000 * (at * at % 11 - 2) for at in range(2000)],
        "all": [-most, -most, most, -most, most, most, -most, most],
        "elsewhere": ELSEWHERE,
        "centres": [2500, -1500, 5500, -1500, 4500, 500, 2500, 500],
        "crossing": [2000, -2000, 6000, 1000, 6000, -2000, 2000, 1000],
        "twice": [2000, -2000, 6000, -2000, 6000, 1000, 2000, 1000] * 2,
        "extreme": [-most, most, most, most, -most, -most],
    }.items():
        yield f"bound-outline-{name}", outlined(*outline)
        slope = sloping(49000, (300001, -200001), WHOLE_GRID)
        yield f"bound-outline-{name}-sloping", outlined(*outline, more=slope)
    rises = {"rise_east": -1000000, "rise_north": 1000000}
    outline = [0, 0, 9000, -9000, 9000, 9000]
    regions = [{**region, **rises, "outline": outline} for region in WHOLE["regions"]]
    yield "bound-outlines", third(("regions", regions))


def write_cases(folder):
    os.makedirs(folder)
    for name, made, line in faults():
        for ending, text in (("json", json.dumps(made)), ("line", line)):
            with open(os.path.join(folder, f"{name}.{ending}"), "w") as file:
                file.write(text)


def main():
    epilog = "Example: tests/calibration_cases.py /tmp/calibrations"
    parser = argparse.ArgumentParser(description=__doc__.split("\n\n")[0], epilog=epilog)
    parser.add_argument("folder", metavar="FOLDER", help="where the files go; it must not be there")
    words = parser.parse_args()
    try:
        write_cases(words.folder)
    except OSError as error:
        sys.exit(f"calibration_cases: {error}")


if __name__ == "__main__":
    main()
