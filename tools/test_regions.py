#!/usr/bin/env python3
"""Tries the regions of the package: bases and outlines whose answers were worked out elsewhere, the same drawn
at random from the definitions' own words, planes, and what plus or minus comes to."""

import random
import unittest
from fractions import Fraction

from sgm_tools import grids, running
from sgm_tools import regions as tool
from sgm_tools.running import Wrong, numpy

SMALL = {"west": 0, "south": 0, "cell": 1000, "cols": 4, "rows": 3}
SQUARE = {"west": 0, "south": 0, "cell": 2, "cols": 4, "rows": 4}
GREATEST = {"west": 0, "south": 0, "cell": 10**9, "cols": 4096, "rows": 4096}

# A base of -7 on SMALL: both rises, and the bases of its cells row by row from the north.
BASES = [
    (1000000, 0, [[493, 1493, 2493, 3493], [493, 1493, 2493, 3493], [493, 1493, 2493, 3493]]),
    (0, 1000000, [[2493, 2493, 2493, 2493], [1493, 1493, 1493, 1493], [493, 493, 493, 493]]),
    (-1000, 1000, [[-5, -6, -7, -8], [-6, -7, -8, -9], [-7, -8, -9, -10]]),
    (-1001, 0, [[-8, -9, -10, -11], [-8, -9, -10, -11], [-8, -9, -10, -11]]),
    (1, 0, [[-7, -7, -7, -7], [-7, -7, -7, -7], [-7, -7, -7, -7]]),
    (-1, 0, [[-7, -7, -7, -7], [-7, -7, -7, -7], [-7, -7, -7, -7]]),
    (1000, -3000, [[-14, -13, -12, -11], [-11, -10, -9, -8], [-8, -7, -6, -5]]),
]
# On GREATEST: column, row, columns, rows, base, both rises, the bases at the corners, and whether
# they are in range.
CORNERS = [
    ((0, 4095, 1, 1), 1500000000, (1000000, 0), 4 * [2000000000], True),
    ((0, 4095, 1, 1), 1500000001, (1000000, 0), 4 * [2000000001], False),
    ((0, 4095, 2, 1), 1000000000, (1000000, -1000000), 2 * [1000000000, 2000000000], True),
    ((0, 4095, 2, 1), 500000000, (1000000, 0), 2 * [1000000000, 2000000000], True),
    (
        (0, 4094, 1, 2),
        500000001,
        (0, 1000000),
        [2000000001, 2000000001, 1000000001, 1000000001],
        False,
    ),
    ((0, 0, 1, 1), 0, (0, 1000000), 4 * [4095500000000], False),
    ((4095, 0, 1, 1), 0, (1000000, -1000000), 4 * [0], True),
    ((0, 0, 4096, 4096), 0, (1000000, -1000000), [-4095000000000, 0, 0, 4095000000000], False),
    ((4095, 0, 1, 1), 0, (244, 244), 4 * [1998604000], True),
    ((4095, 0, 1, 1), 1000000, (244, 244), 4 * [1999604000], True),
]
FAR = 2000000000
AROUND = [0, 0, 8, 0, 8, 8, 0, 8]
# On SQUARE: the rows from the north, # inside.
OUTLINES = [
    ([1, 1, 7, 1, 1, 7], ".... / #... / ##.. / ###."),
    ([7, 7, 1, 7, 7, 1], ".... / .##. / ..#. / ...."),
    ([1, 7, 7, 1, 1, 1], ".... / #... / ##.. / ###."),
    ([1, 1, 5, 1, 5, 5, 1, 5], ".... / .... / ##.. / ##.."),
    ([5, 1, 7, 1, 7, 5, 5, 5], ".... / .... / ..#. / ..#."),
    (AROUND, "#### / #### / #### / ####"),
    ([0, 0, 8, 8, 8, 0, 0, 8], "...# / #.## / #.## / ...#"),
    ([*AROUND, 0, 0, 2, 2, 6, 2, 6, 6, 2, 6, 2, 2], "#### / #..# / #..# / ####"),
    (2 * AROUND, ".... / .... / .... / ...."),
    (3 * AROUND, "#### / #### / #### / ####"),
    ([0, 0, 8, 8, 4, 4], ".... / .... / .... / ...."),
    ([3, 3, 3, 3, 3, 3], ".... / .... / .... / ...."),
    ([-FAR, -FAR, FAR, -FAR, FAR, FAR, -FAR, FAR], "#### / #### / #### / ####"),
    ([0, 0, 6, 8, 0, 8], "###. / ##.. / #... / ...."),
    ([0, 0, 7, 8, 0, 8], "###. / ##.. / #... / ...."),
]


def setUpModule():
    running.need_for_tests(numpy=numpy)


def region(grid, base=0, rises=(0, 0), outline=None, place=None):
    col, row, cols, rows = place or (0, 0, grid["cols"], grid["rows"])
    made = {"name": "a", "col": col, "row": row, "cols": cols, "rows": rows, "base": base}
    made |= dict(zip(("rise_east", "rise_north"), rises))
    return made if outline is None else {**made, "outline": outline}


def drawn(lines):
    return " / ".join("".join(".#"[bool(it)] for it in line) for line in lines)


class Bases(unittest.TestCase):
    def test_worked_rows(self):
        for *rises, wanted in BASES:
            it = region(SMALL, -7, rises)
            made = [[tool.base_at(it, SMALL, col, 2 - row) for col in range(4)] for row in range(3)]
            self.assertEqual(made, wanted)
            self.assertEqual(tool.bases_of(it, SMALL).tolist(), wanted)

    def test_corners(self):
        for place, base, rises, wanted, is_good in CORNERS:
            it = region(GREATEST, base, rises, place=place)
            self.assertEqual(
                (tool.corner_bases(it, GREATEST), tool.is_in_range(it, GREATEST)), (wanted, is_good)
            )
            if place[2] * place[3] <= 2:
                ends = [wanted[0], wanted[-1]][: place[2] * place[3]]
                self.assertEqual(tool.bases_of(it, GREATEST).ravel().tolist(), ends)

    def test_in_fractions(self):
        """The definition, drawn at random."""
        draw = random.Random(31)
        for _ in range(100):
            cell = draw.choice([1, 7, 125000, 10**9])
            grid = {
                "west": 3,
                "south": -5,
                "cell": cell,
                "cols": draw.randint(1, 5),
                "rows": draw.randint(1, 5),
            }
            rises = [draw.choice([0, draw.randint(-1000000, 1000000)]) for _ in range(2)]
            it = region(grid, draw.randint(-(10**6), 10**6), rises)
            found = tool.bases_of(it, grid)
            for col in range(grid["cols"]):
                for row in range(grid["rows"]):
                    south = grid["rows"] - 1 - row
                    rise = Fraction(
                        rises[0] * (2 * col + 1) * cell + rises[1] * (2 * south + 1) * cell, 2000000
                    )
                    wanted = it["base"] + (rise + Fraction(1, 2)).__floor__()
                    self.assertEqual(
                        (tool.base_at(it, grid, col, south), int(found[row, col])), (wanted, wanted)
                    )

    def test_versions_without(self):
        it = {key: value for key, value in region(SMALL, -7).items() if not key.startswith("rise")}
        self.assertEqual(tool.bases_of(it, SMALL).tolist(), 3 * [4 * [-7]])
        for wrong in (0.5, True, "1", 1000001, None):
            with self.assertRaises(Wrong):
                tool.rises_of({**it, "rise_north": wrong})


class Outlines(unittest.TestCase):
    def test_worked_rows(self):
        for outline, wanted in OUTLINES:
            it = region(SQUARE, outline=outline)
            self.assertEqual(drawn(tool.rows_inside(it, SQUARE)), wanted)
            self.assertEqual(drawn(tool.mask_of(it, SQUARE)), wanted)
            one_by_one = [
                [tool.is_inside(outline, SQUARE, col, 3 - row) for col in range(4)]
                for row in range(4)
            ]
            self.assertEqual(drawn(one_by_one), wanted)
            self.assertEqual(tool.number_of_cells(it, SQUARE), wanted.count("#"))

    def test_at_random(self):
        """Row by row it is what it is cell by cell; the least rectangle holds all cells, and a
        lesser one doesn't hold the outline."""
        draw = random.Random(32)
        for _ in range(400):
            most = draw.choice([9, 10**9])
            grid = {
                "west": draw.randint(-most, most),
                "south": draw.randint(-most, most),
                "cell": draw.randint(1, most),
            }
            grid |= {"cols": draw.randint(1, 6), "rows": draw.randint(1, 6)}
            outline = [draw.randint(-2 * most, 2 * most) for _ in range(2 * draw.randint(3, 7))]
            every = [(col, row) for row in range(grid["rows"]) for col in range(grid["cols"])]
            wanted = [
                it for it in every if tool.is_inside(outline, grid, it[0], grid["rows"] - 1 - it[1])
            ]
            self.assertEqual(list(tool.cells_of(region(grid, outline=outline), grid)), wanted)
            least = tool.least_rectangle(outline, grid)
            if least is None:
                self.assertEqual(wanted, [])
                continue
            self.assertEqual(
                list(tool.cells_of(region(grid, outline=outline, place=least), grid)), wanted
            )
            col, row, cols, rows = least
            west, east = (grid["west"] + grid["cell"] * it for it in (col, col + cols))
            self.assertTrue(col == 0 or west <= min(outline[::2]) < west + grid["cell"])
            self.assertTrue(
                col + cols == grid["cols"]
                or cols == 1
                or east - grid["cell"] < max(outline[::2]) <= east
            )
            self.assertTrue(0 <= row and rows >= 1 and row + rows <= grid["rows"])

    def test_refused(self):
        for wrong in (
            [],
            5,
            [1, 1, 7, 1, 1],
            [1, 1, 7, 1],
            [1, 1, 7, 1, 1, 7.5],
            [1, 1, 7, 1, 1, True],
            [1, 1, 7, 1, 1, FAR + 1],
            1001 * [1, 2],
        ):
            with self.assertRaises(Wrong):
                tool.outline_of({"name": "a", "outline": wrong})


class Planes(unittest.TestCase):
    def test_a_plane_comes_back(self):
        draw = random.Random(33)
        for _ in range(50):
            grid = {
                "west": 0,
                "south": 0,
                "cell": 2 * draw.randint(500, 90000),
                "cols": 6,
                "rows": 5,
            }
            it = region(
                grid,
                draw.randint(-(10**6), 10**6),
                [draw.randint(-100, 100) * 1000 for _ in range(2)],
            )
            cells = [
                (col, 4 - row, tool.base_at(it, grid, col, 4 - row))
                for col, row in tool.cells_of(it, grid)
            ]
            base, east, north = tool.Plane(cells).fitted(grid["cell"])
            # The bases are rounded to a micrometre, over cells of at least a millimetre.
            for found, wanted in (
                (base, it["base"]),
                (east, it["rise_east"]),
                (north, it["rise_north"]),
            ):
                self.assertLess(abs(found - wanted), 1000 if found != base else 3)

    def test_by_hand(self):
        # Four cells of a metre, level but for one that stands 4 um higher: 2 um a metre to either
        # side, and in the middle, a metre from the corner, 1 um, so -3 at the corner.
        cells = [(0, 0, 0), (1, 0, 0), (0, 1, 0), (1, 1, 4)]
        self.assertEqual(tool.Plane(cells).fitted(1000000), (-3, 2, 2))
        for line in ([], cells[:1], cells[:2], [(0, 0, 1), (2, 2, 5), (3, 3, 7)]):
            self.assertIsNone(tool.Plane(line).fitted(1000000))

    def test_ground_cells(self):
        heights = numpy.arange(12).reshape(3, 4)
        filled = heights != 5
        regions = [
            {**region(SMALL, place=(0, 0, 2, 2)), "name": "ground east"},
            {**region(SMALL, place=(1, 1, 2, 1)), "name": "Ground"},
            {**region(SMALL), "name": "pile"},
        ]
        calibration, grid = {"grid": SMALL, "regions": regions}, grids.Grid(0, 0, 1000, heights, filled)
        found = tool.ground_cells(calibration, grid)
        self.assertEqual(sorted(found), [(0, 1, 4), (0, 2, 0), (1, 2, 1), (2, 1, 6)])
        # Those that are named, whatever their names are.
        self.assertEqual(sorted(tool.ground_cells(calibration, grid, ["Ground"])), [(2, 1, 6)])
        self.assertEqual(len(list(tool.ground_cells(calibration, grid, ["Ground", "pile"]))), 11)
        with self.assertRaisesRegex(tool.Wrong, "no region of the calibration has the name field"):
            list(tool.ground_cells(calibration, grid, ["pile", "field"]))


class PlusMinus(unittest.TestCase):
    def test_a_slope_has_no_part_in_it(self):
        """What lies on a slope is as far from its base as the same on level ground."""
        draw = random.Random(34)
        level, sloping = region(SMALL, 100), region(SMALL, -50, (20000, -90000))
        errors = numpy.array([[draw.randint(-9, 9) for _ in range(4)] for _ in range(3)])
        spreads = []
        for it in (level, sloping):
            bases = tool.bases_of(it, SMALL)
            spreads.append(tool.ground_spread((bases + errors).ravel(), bases.ravel())[1])
        self.assertEqual(*spreads)
        middle = tool.rounded(int(errors.sum()), 12)
        self.assertEqual(spreads[0], tool.rounded(int(abs(errors - middle).sum()), 12))


if __name__ == "__main__":
    unittest.main()
