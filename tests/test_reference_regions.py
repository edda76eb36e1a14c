#!/usr/bin/env python3
"""Checks sloping bases and outlines of the reference: rows worked out by hand, a whole match, and
what has to hold of all of them."""

import ast
import json
import re
import unittest

import calibration_cases
import random_inputs
import reference
import reference_inputs as inputs
import reference_matching as matching
import test_reference_cells
from random_inputs import Draw

# Bases over a whole grid.
BASES = """\
grid of 4 x 3 cells of 1000, base -7, rises 1000000 and 0, rows from the north: \
[[493, 1493, 2493, 3493], [493, 1493, 2493, 3493], [493, 1493, 2493, 3493]]
grid of 4 x 3 cells of 1000, base -7, rises 0 and 1000000, rows from the north: \
[[2493, 2493, 2493, 2493], [1493, 1493, 1493, 1493], [493, 493, 493, 493]]
grid of 4 x 3 cells of 1000, base -7, rises -1000 and 1000, rows from the north: \
[[-5, -6, -7, -8], [-6, -7, -8, -9], [-7, -8, -9, -10]]
grid of 4 x 3 cells of 1000, base -7, rises -1001 and 0, rows from the north: \
[[-8, -9, -10, -11], [-8, -9, -10, -11], [-8, -9, -10, -11]]
grid of 4 x 3 cells of 1000, base -7, rises 1 and 0, rows from the north: \
[[-7, -7, -7, -7], [-7, -7, -7, -7], [-7, -7, -7, -7]]
grid of 4 x 3 cells of 1000, base -7, rises -1 and 0, rows from the north: \
[[-7, -7, -7, -7], [-7, -7, -7, -7], [-7, -7, -7, -7]]
grid of 4 x 3 cells of 1000, base -7, rises 1000 and -3000, rows from the north: \
[[-14, -13, -12, -11], [-11, -10, -9, -8], [-8, -7, -6, -5]]
"""
# Bases at the corner cells of a region: north-west, north-east, south-west and south-east.
CORNERS = """\
region at column 0, row 4095, 1 x 1, base 1500000000, rises 1000000 and 0: \
corners [2000000000, 2000000000, 2000000000, 2000000000], good
region at column 0, row 4095, 1 x 1, base 1500000001, rises 1000000 and 0: \
corners [2000000001, 2000000001, 2000000001, 2000000001], out of range
region at column 0, row 4095, 2 x 1, base 1000000000, rises 1000000 and -1000000: \
corners [1000000000, 2000000000, 1000000000, 2000000000], good
region at column 0, row 4095, 2 x 1, base 500000000, rises 1000000 and 0: \
corners [1000000000, 2000000000, 1000000000, 2000000000], good
region at column 0, row 4094, 1 x 2, base 500000001, rises 0 and 1000000: \
corners [2000000001, 2000000001, 1000000001, 1000000001], out of range
region at column 0, row 0, 1 x 1, base 0, rises 0 and 1000000: \
corners [4095500000000, 4095500000000, 4095500000000, 4095500000000], out of range
region at column 4095, row 0, 1 x 1, base 0, rises 1000000 and -1000000: \
corners [0, 0, 0, 0], good
region at column 0, row 0, 4096 x 4096, base 0, rises 1000000 and -1000000: \
corners [-4095000000000, 0, 0, 4095000000000], out of range
region at column 4095, row 0, 1 x 1, base 0, rises 244 and 244: \
corners [1998604000, 1998604000, 1998604000, 1998604000], good
region at column 4095, row 0, 1 x 1, base 1000000, rises 244 and 244: \
corners [1999604000, 1999604000, 1999604000, 1999604000], good
"""
# Outlines over a grid of 4 x 4 cells of 2 whose corner is at 0: rows from the north, # inside.
OUTLINES = """\
a triangle, centres on its edges and corners, [1, 1, 7, 1, 1, 7]: .... / #... / ##.. / ###.
its other half, [7, 7, 1, 7, 7, 1]: .... / .##. / ..#. / ....
the first, backwards, [1, 7, 7, 1, 1, 1]: .... / #... / ##.. / ###.
a square with its corners on centres, [1, 1, 5, 1, 5, 5, 1, 5]: .... / .... / ##.. / ##..
its neighbour to the east, [5, 1, 7, 1, 7, 5, 5, 5]: .... / .... / ..#. / ..#.
all centres' sides, [0, 0, 8, 0, 8, 8, 0, 8]: #### / #### / #### / ####
a bow that crosses itself, [0, 0, 8, 8, 8, 0, 0, 8]: ...# / #.## / #.## / ...#
a square in a square, joined by a seam that is run twice, \
[0, 0, 8, 0, 8, 8, 0, 8, 0, 0, 2, 2, 6, 2, 6, 6, 2, 6, 2, 2]: #### / #..# / #..# / ####
a square that is run twice, [0, 0, 8, 0, 8, 8, 0, 8, 0, 0, 8, 0, 8, 8, 0, 8]: \
.... / .... / .... / ....
run three times, \
[0, 0, 8, 0, 8, 8, 0, 8, 0, 0, 8, 0, 8, 8, 0, 8, 0, 0, 8, 0, 8, 8, 0, 8]: \
#### / #### / #### / ####
a line, [0, 0, 8, 8, 4, 4]: .... / .... / .... / ....
one place, [3, 3, 3, 3, 3, 3]: .... / .... / .... / ....
beyond the grid, [-2000000000, -2000000000, 2000000000, -2000000000, 2000000000, 2000000000, \
-2000000000, 2000000000]: #### / #### / #### / ####
a steep edge through a centre, [0, 0, 6, 8, 0, 8]: ###. / ##.. / #... / ....
beside it, [0, 0, 7, 8, 0, 8]: ###. / ##.. / #... / ....
"""
WIDE = {"west": 0, "south": 0, "cell": 10**9, "cols": 4096, "rows": 4096}


def numbers_in(text):
    return [int(word) for word in re.findall(r"-?\d+", text)]


def bases_over(region, cell, cols, rows):
    """A region's bases at all cells of a grid, rows from the north."""
    south = range(rows - 1, -1, -1)
    return [[matching.base_at(region, cell, col, row) for col in range(cols)] for row in south]


def marks(outline, cell=2, cols=4, rows=4, corner=(0, 0)):
    """The cells of a grid that lie inside an outline."""
    region = {"outline": outline}
    mark = lambda col, row: ".#"[matching.counts(region, cell, corner, col, row)]
    south = range(rows - 1, -1, -1)
    return " / ".join("".join(mark(col, row) for col in range(cols)) for row in south)


def level(cells, cell, region):
    """The tally of a region with a level base and without an outline."""
    rows = cells[region["row"] : region["row"] + region["rows"]]
    within = sum((row[region["col"] : region["col"] + region["cols"]] for row in rows), [])
    some = [height for height in within if height is not None]
    rises = [height - region["base"] for height in some]
    fill, cut = sum(it for it in rises if it > 0), -sum(it for it in rises if it < 0)
    ends = (min(some), max(some)) if some else ("", "")
    return len(some), within.count(None), fill * cell**2, cut * cell**2, *ends


class Worked(unittest.TestCase):
    def test_bases(self):
        for line in BASES.splitlines():
            given, bases = line.split(": ")
            cols, rows, cell, base, east, north = numbers_in(given)
            region = {"base": base, "rise_east": east, "rise_north": north}
            self.assertEqual(str(bases_over(region, cell, cols, rows)), bases, line)

    def test_corners(self):
        names = ("col", "row", "cols", "rows", "base", "rise_east", "rise_north")
        for line in CORNERS.splitlines():
            given, found = line.split(": corners ")
            region = {"name": "a", **dict(zip(names, numbers_in(given)))}
            bases = inputs.corner_bases(region, WIDE)
            whole = calibration_cases.third(*(("grid." + name, it) for name, it in WIDE.items()))
            whole["regions"] = [region]
            try:
                read = inputs.read_calibration(json.dumps(whole).encode())
                self.assertEqual(read.regions, [region])
                ending = "good"
            except inputs.Ended as end:
                path, _, ending = end.line.partition(" is ")
                self.assertEqual(path, "sgm: calibration: regions[0].rise_north")
            self.assertEqual(f"{bases}, {ending}", found, line)

    def test_outlines(self):
        for line in OUTLINES.splitlines():
            given, found = line.split("]: ")
            outline = ast.literal_eval(given[given.index("[") :] + "]")
            self.assertEqual(marks(outline), found, line)

    def test_far_off(self):
        """The farthest cells of the widest grid lie outside of anything, whatever the products."""
        most, corner = 2 * 10**9, (-2 * 10**9, -2 * 10**9)
        around = [-most, -most, most, -most, most, most, -most, most]
        for outline in (around, [-most, -most, most, most, -most, most - 1]):
            for col, row in ((4095, 0), (4095, 1), (4095, 3), (0, 4095), (4095, 4095), (4, 2)):
                self.assertFalse(matching.counts({"outline": outline}, 10**9, corner, col, row))

    def test_great_numbers(self):
        """An edge from end to end, and centres on it and a half to both sides of it."""
        most = 2 * 10**9
        outline = [-most, -most, most, most, -most, most]
        around = lambda east, north: matching.is_enclosed(outline, east, north)
        half = matching.Fraction(1, 2)
        for place in (-most, -1, 0, 1, most - 1):
            self.assertEqual(around(place, place), False, place)
            self.assertEqual(around(place - half, place), place > -most, place)
            self.assertFalse(around(place + half, place))
        shallow = [-most, 0, most, 1, most, 2, -most, 2]
        for east, north, is_inside in [
            (0, half, False),
            (-half, half, True),
            (half, half, False),
            (-most, half, True),
            (-most - half, half, False),
            (most - 1, 1, True),
            (most - 1, 1 + half, True),
            (most, 1 + half, False),
        ]:
            self.assertEqual(matching.is_enclosed(shallow, east, north), is_inside, east)

    def test_region_within_its_rectangle(self):
        cells = [[1, 2, 4, 8], [16, 32, None, 128], [256, None, 1024, 2048]]
        region = {"col": 1, "row": 1, "cols": 3, "rows": 2, "base": 0}
        outline = [-9, -9, 5, -9, 5, 99, -9, 99]
        tally = lambda **more: matching.tally(cells, 2, {**region, **more})
        self.assertEqual(tally(), (4, 2, 4 * (32 + 128 + 1024 + 2048), 0, 32, 2048))
        self.assertEqual(tally(outline=outline), (1, 1, 4 * 32, 0, 32, 32))
        moved = [at + 100 for at in outline]
        self.assertEqual(tally(outline=moved), (0, 0, 0, 0, "", ""))
        here = matching.tally(cells, 2, {**region, "outline": moved}, (100, 100))
        self.assertEqual(here, (1, 1, 4 * 32, 0, 32, 32))
        # Bases in the row in the middle are 3, 5 and 7, and in the south 1, 3 and 5.
        rises = {"rise_east": 1000000, "rise_north": 1000000, "base": -3}
        fill = 32 - 3 + 128 - 7 + 1024 - 3 + 2048 - 5
        self.assertEqual(tally(**rises), (4, 2, 4 * fill, 0, 32, 2048))
        cut = 1003 - 32 + 1007 - 128
        self.assertEqual(tally(**{**rises, "base": 997})[2:4], (4 * (21 + 1043), 4 * cut))

    def test_bridges(self):
        """Bridges are counted where they are inside; they reach beyond all the same."""
        before = [[1, None, 3, None, 5]]
        after = matching.bridged(before, 2, 1)
        region = {"col": 0, "row": 0, "cols": 5, "rows": 1, "base": 0}
        whole = matching.tally_with_bridges(before, after, 2, region)
        self.assertEqual(whole, (5, 2, 0, 60, 0, 1, 5))
        part = {**region, "outline": [2, 0, 6, 0, 6, 2, 2, 2]}
        found = matching.tally_with_bridges(before, after, 2, part)
        self.assertEqual(found, (2, 1, 0, 20, 0, 2, 3))
        found = matching.tally_with_bridges(before, before, 2, part)
        self.assertEqual(found, (1, 0, 1, 12, 0, 3, 3))


class Matched(test_reference_cells.Whole):
    """The worked pair of version 3: points 1000 apart over cells of 500, and bridges between."""

    REGIONS = [
        {"name": "slope", "col": 0, "row": 0, "cols": 7, "rows": 1, "base": 48000},
        {"name": "square", "col": 0, "row": 0, "cols": 7, "rows": 5, "base": 40000},
        {"name": "beside", "col": 0, "row": 0, "cols": 3, "rows": 5, "base": 0},
    ]
    REGIONS = calibration_cases.level(REGIONS)
    # In the northernmost row, 2250 above the corner in the south, the base is 250, 750, .. higher.
    REGIONS[0] |= {"rise_east": 1000000, "rise_north": 1000000}
    REGIONS[1]["outline"] = [1000, -2000, 2500, -2000, 2500, -1000, 1000, -1000]
    REGIONS[2]["outline"] = [2500, -2000, 4500, -2000, 4500, 500, 2500, 500]

    def test_bridged(self):
        point, between = " ".join(7 * ["50000"]) + "\n", "50000 - 50000 - 50000 - 50000\n"
        heights = point + between + point + between + point
        # The bases of the slope are 50500, 51000, .. 53500.
        table = "slope,7,3,0,0,3500000000,50000,50000\n"
        table += "square,5,3,1,12500000000,0,50000,50000\nbeside,0,0,0,0,0,,\n"
        self.ends("mean", 2, heights, table)

    def test_without_bridges(self):
        point, between = "50000 - 50000 - 50000 - 50000\n", "- - - - - - -\n"
        heights = point + between + point + between + point
        table = "slope,4,0,3,0,2000000000,50000,50000\n"
        table += "square,2,0,4,5000000000,0,50000,50000\nbeside,0,0,0,0,0,,\n"
        self.ends("highest", 0, heights, table)


class Laws(unittest.TestCase):
    GRID = {"west": -7, "south": 4, "cell": 6, "cols": 6, "rows": 5}
    WHERE = (6, 6, 5, (-7, 4))

    def outlines(self):
        region = {"col": 0, "row": 0, "cols": 6, "rows": 5}
        for number in range(150):
            draw = Draw(61, number)
            yield draw, random_inputs.outline_of(draw, region, self.GRID)

    def inside(self, outline):
        return [mark == "#" for mark in marks(outline, *self.WHERE) if mark in "#."]

    def test_ways_round(self):
        """Neither the direction nor the corner that comes first matters."""
        for draw, outline in self.outlines():
            corners = list(zip(outline[::2], outline[1::2]))
            made, begin = self.inside(outline), draw.below(len(corners))
            for other in (corners[::-1], corners[begin:] + corners[:begin]):
                self.assertEqual(self.inside([part for it in other for part in it]), made)

    def test_twice(self):
        for _, outline in self.outlines():
            self.assertEqual(self.inside(2 * outline), [False] * 30)
            self.assertEqual(self.inside(3 * outline), self.inside(outline))

    def test_moved_and_scaled(self):
        for draw, outline in self.outlines():
            if max(map(abs, outline)) < 10**9:
                by = draw.between(-(10**8), 10**8), draw.between(-(10**8), 10**8)
                moved = [part + by[at % 2] for at, part in enumerate(outline)]
                corner = -7 + by[0], 4 + by[1]
                self.assertEqual(marks(moved, 6, 6, 5, corner), marks(outline, *self.WHERE))
                scaled = [9 * part for part in outline]
                self.assertEqual(marks(scaled, 54, 6, 5, (-63, 36)), marks(outline, *self.WHERE))

    def test_shared_edges(self):
        """Where a line from the south to the north parts a box, each centre lies on one side."""
        for number in range(100):
            draw = Draw(62, number)
            across = lambda: draw.between(-7, 29)
            up = sorted(draw.between(4, 34) for _ in range(draw.below(6)))
            line = [(across(), 4), *((across(), at) for at in up), (across(), 34)]
            west, east = [*line, (-7, 34), (-7, 4)], [*line, (29, 34), (29, 4)]
            both = [self.inside([part for it in side for part in it]) for side in (west, east)]
            self.assertEqual([one + other for one, other in zip(*both)], [1] * 30)

    def test_parted(self):
        """Any outline is made up of the two that a chord makes of it: where a centre lies inside of
        one of them alone it lies inside of the whole."""
        for draw, outline in self.outlines():
            at = 2 * draw.between(1, len(outline) // 2 - 1)
            parts = outline[: at + 2], outline[at:] + outline[:2]
            one, other = map(self.inside, parts)
            self.assertEqual([a != b for a, b in zip(one, other)], self.inside(outline))

    def test_signs(self):
        """By products alone, as whole numbers, over doubled places."""
        for _, outline in self.outlines():
            corners = [(2 * e, 2 * n) for e, n in zip(outline[::2], outline[1::2])]
            made = []
            for row in range(4, -1, -1):
                for col in range(6):
                    e, n = 2 * -7 + (2 * col + 1) * 6, 2 * 4 + (2 * row + 1) * 6
                    passing = 0
                    for a, b in zip(corners, corners[1:] + corners[:1]):
                        up = b[1] - a[1]
                        sum_of_both = (a[0] - e) * up + (n - a[1]) * (b[0] - a[0])
                        passing += (a[1] <= n) != (b[1] <= n) and sum_of_both * up > 0
                    made.append(passing % 2 == 1)
            self.assertEqual(self.inside(outline), made)

    def test_level(self):
        """Level bases count as ever, and so does an outline around everything."""
        around = [-20, -20, 50, -20, 50, 50, -20, 50]
        for number in range(80):
            draw = Draw(63, number)
            height = lambda: None if draw.chance(30) else draw.between(-9, 9)
            cells = [[height() for _ in range(6)] for _ in range(5)]
            col, row = draw.below(6), draw.below(5)
            sides = {"cols": draw.between(1, 6 - col), "rows": draw.between(1, 5 - row)}
            region = {"col": col, "row": row, **sides, "base": draw.between(-9, 9)}
            wanted = level(cells, 6, region)
            flat = {**region, "rise_east": 0, "rise_north": 0}
            for it in (region, flat, {**flat, "outline": around}):
                self.assertEqual(matching.tally(cells, 6, it, (-7, 4)), wanted)
            self.assertEqual(inputs.corner_bases(flat, self.GRID), [region["base"]] * 4)

    def test_between_the_corners(self):
        for number in range(80):
            draw = Draw(64, number)
            rise = lambda: draw.between(-1000000, 1000000)
            region = {"col": 0, "row": 0, "cols": 6, "rows": 5, "base": draw.between(-99, 99)}
            region |= {"rise_east": rise(), "rise_north": rise()}
            bases = sum(bases_over(region, 6, 6, 5), [])
            corners = inputs.corner_bases(region, self.GRID)
            self.assertEqual((min(bases), max(bases)), (min(corners), max(corners)))


class Keys(unittest.TestCase):
    def test_read(self):
        """Versions 1 and 2 know none of the keys; in version 3 an outline may be absent."""
        read = lambda whole: inputs.read_calibration(json.dumps(whole).encode()).regions
        for made in (calibration_cases.first, calibration_cases.second):
            self.assertEqual(read(made()), calibration_cases.WHOLE["regions"])
        third = calibration_cases.third(("regions.1.outline", [0, 0, 4, 0, 4, 4]))
        self.assertEqual(read(third), third["regions"])
        self.assertNotIn("outline", read(third)[0])

    def test_report(self):
        """A region of which nothing counts has the line of one without heights."""
        region = {"name": "a", "col": 0, "row": 0, "cols": 1, "rows": 1, "base": 0}
        region["outline"] = [5, 5, 5, 5, 5, 5]
        tally = matching.tally_with_bridges([[7]], [[7]], 2, region)
        text = reference.table_text([region], [tally], 3)
        self.assertEqual(text.splitlines()[1], b"a,0,0,0,0,0,,")


if __name__ == "__main__":
    unittest.main()
