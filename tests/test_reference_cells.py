#!/usr/bin/env python3
"""Checks cells and bridges of the reference: rows worked out by hand, a whole match, and what has
to hold of all of them."""

import json
import unittest

import calibration_cases
import reference_inputs as inputs
import reference_matching as matching
import test_reference
from random_inputs import Draw

# Heights that fall into a cell, and their mean.
MEANS = [
    ([7], 7),
    ([3, 4], 4),
    ([-3, -4], -3),
    ([-1, 0], 0),
    ([-1, 0, 0], 0),
    ([-1, -1, 0], -1),
    ([5, -6], 0),
    ([-5, 6], 1),
    ([-2000000000, -1999999999], -1999999999),
]


def row(*cells):
    return [list(cells)]


# The side of a cell, over how many are bridged, the cells, and the cells with their bridges.
BRIDGES = [
    (6, 1, row(10, None, 21), row(10, 16, 21)),
    (4, 2, row(0, None, None, 10), row(0, 3, 7, 10)),
    (4, 1, row(0, None, None, 10), row(0, None, None, 10)),
    (
        100,
        2,
        [[None, 7, None], [-10, None, -15], [None, 8, None]],
        [[None, 7, None], [-10, -2, -15], [None, 8, None]],
    ),
    (
        100,
        2,
        [[None, 0, None], [-10, None, -15], [None, 201, None]],
        [[None, 0, None], [-10, -12, -15], [None, 201, None]],
    ),
    (100, 2, row(0, None, 200), row(0, 100, 200)),
    (100, 2, row(0, None, 201), row(0, None, 201)),
    (100, 8, row(None, 5, 6), row(None, 5, 6)),
    (100, 0, row(5, None, 5), row(5, None, 5)),
    (100, 2, row(1, None, None, None, 1), row(1, None, 1, None, 1)),
]


def turned(cells):
    """The columns as rows."""
    return [list(line) for line in zip(*cells)]


class Worked(unittest.TestCase):
    def test_means(self):
        grid = {"west": -5, "south": -5, "cell": 10, "cols": 1, "rows": 1}
        for some, mean in MEANS:
            points = [(number - 5, 4 - number, height) for number, height in enumerate(some)]
            self.assertEqual(matching.heights(points, grid, "mean"), [[mean]], some)
            self.assertEqual(matching.heights(points, grid), [[max(some)]], some)

    def test_bridges(self):
        for side, most, cells, made in BRIDGES:
            self.assertEqual(matching.bridged(cells, side, most), made, cells)
            self.assertEqual(matching.bridged(turned(cells), side, most), turned(made), cells)

    def test_cells(self):
        """A point on a west or a south side falls into the cell; one beside the grid into none."""
        grid = {"west": 0, "south": 0, "cell": 10, "cols": 2, "rows": 2}
        points = [(0, 0, 1), (9, 9, 4), (10, 0, 5), (0, 10, -3), (0, 19, -4)]
        points += [(-1, 0, 99), (0, -1, 99), (20, 0, 99), (0, 20, 99)]
        self.assertEqual(matching.heights(points, grid, "mean"), [[-3, None], [3, 5]])
        self.assertEqual(matching.heights(points, grid, "highest"), [[-3, None], [4, 5]])
        self.assertEqual(matching.heights([], grid, "mean"), [[None, None], [None, None]])

    def test_bridged_of_a_region(self):
        before = [[1, None, 3], [None, None, None]]
        after = matching.bridged(before, 2, 1)
        self.assertEqual(after, [[1, 2, 3], [None, None, None]])
        region = {"col": 0, "row": 0, "cols": 3, "rows": 2, "base": 2}
        tally = matching.tally_with_bridges(before, after, 2, region)
        self.assertEqual(tally, (3, 1, 3, 4, 4, 1, 3))
        tally = matching.tally_with_bridges(before, after, 2, {**region, "cols": 1})
        self.assertEqual(tally, (1, 0, 1, 0, 4, 1, 1))


class Whole(unittest.TestCase):
    """The worked pair of version 3 has the disparity 0 at the columns 1 to 4, so its points are
    1000 apart, from 1000 to 4000 and from -2000 to 0, and 50000 high. Over cells of 500 every
    second column and row is empty."""

    CAMERA = {"focal": 25600, "baseline": 1000, "cx": 0, "cy": 0, "doffs": 256}
    CAMERA |= {"mount": 150000, "near": 1, "far": 1000000}
    REGIONS = calibration_cases.level(
        [
            {"name": "all", "col": 0, "row": 0, "cols": 7, "rows": 5, "base": 40000},
            {"name": "gap", "col": 1, "row": 1, "cols": 1, "rows": 1, "base": 0},
            {"name": "bridge", "col": 1, "row": 0, "cols": 1, "rows": 1, "base": 60000},
        ]
    )

    HEAD = "ncols 7\nnrows 5\nxllcorner 1000\nyllcorner -2000\ncellsize 500\n"
    HEAD += "NODATA_value -2147483648\n"
    COLUMNS = "region,cells,bridged,empty,fill,cut,lowest,highest\n"

    def ends(self, keep, bridge, heights, table):
        grid = {"west": 1000, "south": -2000, "cell": 500, "cols": 7, "rows": 5}
        sections = {"camera": self.CAMERA, "grid": {**grid, "keep": keep, "bridge": bridge}}
        files = dict(test_reference.WorkedThirdVersion.FILES)
        whole = {**json.loads(files["c.json"]), **sections, "regions": self.REGIONS}
        files["c.json"] = json.dumps(whole).encode()
        status, out, err, made = test_reference.run(files, "match l.pgm r.pgm c.json o")
        self.assertEqual((status, out, err), (0, "valid 12 of 15\n", ""))
        heights = heights.replace("-", "-2147483648")
        self.assertEqual(made["o.asc"].decode(), self.HEAD + heights)
        self.assertEqual(made["o.csv"].decode(), self.COLUMNS + table)

    def test_bridged(self):
        point, between = " ".join(7 * ["50000"]) + "\n", "50000 - 50000 - 50000 - 50000\n"
        heights = point + between + point + between + point
        table = "all,29,17,6,72500000000,0,50000,50000\ngap,0,0,1,0,0,,\n"
        table += "bridge,1,1,0,0,2500000000,50000,50000\n"
        for keep in ("highest", "mean"):
            for bridge in (1, 2, 8):
                self.ends(keep, bridge, heights, table)

    def test_without_bridges(self):
        point, between = "50000 - 50000 - 50000 - 50000\n", "- - - - - - -\n"
        heights = point + between + point + between + point
        table = "all,12,0,23,30000000000,0,50000,50000\ngap,0,0,1,0,0,,\nbridge,0,0,1,0,0,,\n"
        for keep in ("highest", "mean"):
            self.ends(keep, 0, heights, table)


class Laws(unittest.TestCase):
    def grids(self):
        """Cells, their side, and over how many of them is bridged at most."""
        for number in range(150):
            draw = Draw(52, number)
            most = draw.of([3, 30, 1000, inputs.HIGHEST])
            height = lambda: draw.between(-most, most)
            empty, cols, rows = draw.of([20, 50, 80]), draw.between(1, 9), draw.between(1, 9)
            cell = lambda: None if draw.chance(empty) else height()
            cells = [[cell() for _ in range(cols)] for _ in range(rows)]
            yield cells, draw.of([1, most // 4 + 1, most // 2 + 1, 10**9]), draw.between(0, 8)

    def test_bridges(self):
        for cells, side, most in self.grids():
            made = matching.bridged(cells, side, most)
            ends = [height for line in cells for height in line if height is not None]
            for before, after in zip(sum(cells, []), sum(made, [])):
                if before is not None:
                    self.assertEqual(after, before)
                elif after is not None:
                    self.assertTrue(min(ends) <= after <= max(ends))
            # Directions have no part in it.
            backwards = lambda rows: [line[::-1] for line in rows]
            for way in (turned, lambda rows: rows[::-1], backwards):
                self.assertEqual(matching.bridged(way(cells), side, most), way(made))
            self.assertEqual(matching.bridged(cells, side, 0), cells)

    def test_more(self):
        """A longer reach and a larger cell leave no cell empty that was bridged."""
        for cells, side, most in self.grids():
            made = matching.bridged(cells, side, most)
            for more in ((side, most + 1), (side + 1, most)):
                pairs = zip(sum(made, []), sum(matching.bridged(cells, *more), []))
                self.assertNotIn(None, [after for before, after in pairs if before is not None])

    def test_order_of_points(self):
        grid = {"west": -20, "south": -20, "cell": 13, "cols": 3, "rows": 3}
        for number in range(40):
            draw = Draw(53, number)
            place = lambda: draw.between(-25, 25)
            points = [(place(), place(), draw.between(-9, 9)) for _ in range(draw.below(40))]
            for keep in ("highest", "mean"):
                made = matching.heights(points, grid, keep)
                self.assertEqual(matching.heights(draw.shuffled(points), grid, keep), made)
            both = (sum(matching.heights(points, grid, keep), []) for keep in ("mean", "highest"))
            for mean, most in zip(*both):
                self.assertEqual(mean is None, most is None)
                self.assertTrue(mean is None or mean <= most)


class Keys(unittest.TestCase):
    def test_read(self):
        third = calibration_cases.third(("grid.keep", "mean"), ("grid.bridge", 8))
        made = inputs.read_calibration(json.dumps(third).encode())
        self.assertEqual((made.keep, made.bridge), ("mean", 8))
        self.assertEqual(made.grid, calibration_cases.WHOLE["grid"])
        for version in (calibration_cases.first, calibration_cases.second, calibration_cases.third):
            whole = version()
            made = inputs.read_calibration(json.dumps(whole).encode())
            self.assertEqual((made.keep, made.bridge), ("highest", 0))
        self.assertEqual((inputs.Calibration().keep, inputs.Calibration().bridge), ("highest", 0))


if __name__ == "__main__":
    unittest.main()
