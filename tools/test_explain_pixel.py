#!/usr/bin/env python3
"""Tries cell_pixels.py, explain_pixel.py and what they rest on: with the worked example, whose sums were
added up by hand, and the separate implementation (tests/reference.py) as the program; with programs
that say something wrong; and with the worked rows of finer disparities."""

import argparse
import os
import subprocess
import sys
import tempfile
import unittest

HERE = os.path.dirname(os.path.abspath(__file__))
TOP = os.path.dirname(HERE)
REFERENCE = os.path.join(TOP, "tests", "reference.py")

from sgm_tools import cells, files, fine_steps, grids, running
from sgm_tools import explanations as tool
from sgm_tools import points as sgm_points

CALIBRATION = """{"version":1,"disparities":{"first":0,"count":2},
 "census":{"width":3,"height":3},"penalties":{"p1":1,"p2":3},
 "camera":{"focal":25600,"baseline":1000,"cx":0,"cy":0,"doffs":0,
           "mount":150000,"near":1,"far":1000000},
 "grid":{"west":2000,"south":-2000,"cell":1000,"cols":4,"rows":3}}
"""
# A pair of version 3 whose costs were computed by hand; its left column 0 is void.
THIRD = {
    "l.pgm": bytes([90, 10, 50, 20, 40, 15, 70, 30, 60, 25, 80, 35, 55, 45, 65]),
    "r.pgm": bytes([12, 52, 22, 42, 30, 68, 33, 58, 27, 40, 37, 54, 47, 63, 20]),
    "c.json": b"""{"version":3,"disparities":{"first":0,"count":2,"fine":false},
 "census":{"width":3,"height":3},"penalties":{"p1":1,"p2":3,"adapt":false},
 "warp":{"left":{"kind":"projective","matrix":[1,0,-1,0,1,0,0,0,1]},"right":{"kind":"identity"}}}
""",
}
FINE = """{"version":3,"disparities":{"first":0,"count":3,"fine":true},
 "census":{"width":3,"height":3},"penalties":{"p1":1,"p2":3,"adapt":false}}
"""
# A program that hands on what the reference says, changed by a command of sed.
FAKE = """#!/usr/bin/env bash
if [ "$1" = {command} ]; then {reference} "$@" | sed '{change}'; else {reference} "$@"; fi
"""


# A program that is the reference with finer disparities, in which a part may be changed.
WITH_FINE = """#!/usr/bin/env python3
import sys
sys.path.insert(0, {tests!r})
import reference, reference_inputs, reference_matching
reference_inputs.TAKES_FINE = True
{change}
sys.exit(reference.main(sys.argv[1:]))
"""


def setUpModule():
    running.need_for_tests(numpy=running.numpy)


class Tool(unittest.TestCase):
    def setUp(self):
        folder = tempfile.TemporaryDirectory()
        self.addCleanup(folder.cleanup)
        self.folder = folder.name
        for name, row in (("l.pgm", "5A0A321428"), ("r.pgm", "0A3214281E")):
            with open(self.path(name), "wb") as file:
                file.write(b"P5\n5 3\n255\n" + 3 * bytes.fromhex(row))
        with open(self.path("c.json"), "w") as file:
            file.write(CALIBRATION)

    def path(self, name):
        return os.path.join(self.folder, name)

    def run_tool(self, name, *words):
        command = [sys.executable, os.path.join(HERE, name), *words]
        done = subprocess.run(command, cwd=self.folder, capture_output=True, text=True)
        return done.returncode, done.stdout, done.stderr

    def explain(self, x, y, program=REFERENCE):
        return self.run_tool("explain_pixel.py", "l.pgm", "r.pgm", "c.json", str(x), str(y), "--sgm", program)


class Explained(Tool):
    def test_by_hand(self):
        status, out, err = self.explain(2, 1)
        self.assertEqual((status, err), (0, ""))
        lines = out.split("\n")
        # The path values of the pixel (2, 1) and their sums.
        self.assertIn("right           3        6        1     14       1       0", lines)
        self.assertIn("left            3        7        0      8       0       0", lines)
        self.assertIn("sum                     49        1", lines)
        self.assertIn("Index 1, disparity 1, has the least sum, 1.", lines)
        self.assertIn("The one before it, disparity 0, comes to 49: 48 more.", lines)
        self.assertIn("So the disparity is 1, in pixels, and that is what the program's picture has here.", lines)
        self.assertIn("Its point lies 0.002 m to the east and -0.001 m to the north of the left camera, 0.05 m high.", lines)

    def test_third_version(self):
        """The pixel (4, 1) has the single costs 3 and 2 of index 0 and the end of the row beside it: (3 + 2 * 2 + 2) div 4."""
        for name, data in THIRD.items():
            with open(self.path(name), "wb") as file:
                file.write((b"" if name == "c.json" else b"P5\n5 3\n255\n") + data)
        status, out, err = self.explain(4, 1)
        self.assertEqual((status, err), (0, ""))
        lines = out.split("\n")
        at = lines.index("The cost of index 0 at this pixel is 2: in version 3 it is a mean along the row, of the single costs")
        self.assertEqual(lines[at + 1], "3, 2 and 2 at the columns 3, 4 and 4,")
        self.assertEqual(lines[at + 3], "missing it is 3.")
        # The pixel beside the void column: 3, which is void's, 2 and 2 of index 0.
        lines = self.explain(1, 1)[1].split("\n")
        self.assertIn("3, 2 and 2 at the columns 0, 1 and 2,", lines)
        # Nothing of that in the versions whose costs are single ones.
        self.setUp()
        self.assertNotIn("single", self.explain(2, 1)[1])

    def test_without_a_disparity(self):
        """A first of 3 leads the pixel (2, 1) out of the right picture."""
        with open(self.path("c.json"), "w") as file:
            file.write(CALIBRATION.replace('"first":0', '"first":3'))
        status, out, _ = self.explain(2, 1)
        self.assertEqual(status, 0)
        self.assertIn("The program's picture has no disparity here: its partner would be column -1 of the right picture", out)

    def test_programs_that_are_wrong(self):
        for command, change, said in (
            ("trace", "1s/$/0/", "the certificate of right and index 0 doesn't hold: line 1: the least energy is 20, not 200"),
            ("trace", "2,$d", "doesn't hold: line 2: not five numbers"),
        ):
            fake = self.path("fake")
            with open(fake, "w") as file:
                file.write(FAKE.format(command=command, reference=REFERENCE, change=change))
            os.chmod(fake, 0o755)
            status, out, err = self.explain(2, 1, fake)
            self.assertEqual((status, out, err.count("\n")), (1, "", 1))
            self.assertIn(said, err)
        # A match in which every pixel has the disparity 0.
        with open(self.path("fake"), "w") as file:
            file.write(f'#!/usr/bin/env bash\n{REFERENCE} "$@" || exit\n')
            file.write("if [ $1 = match ]; then { printf 'P5\\n5 3\\n65535\\n'; printf '\\0\\020%.0s' {1..15}; } > $5.pgm; fi\n")
        status, out, err = self.explain(2, 1, self.path("fake"))
        line = "explain_pixel: the program's picture has disparity 0 here, the sums ask for 1\n"
        self.assertEqual((status, out, err), (1, "", line))

    def test_refused(self):
        self.assertEqual(self.explain(5, 1), (1, "", "explain_pixel: there is no pixel 5 1\n"))
        self.assertEqual(self.explain(2, 1, "none")[2], "explain_pixel: none: No such file or directory\n")
        os.remove(self.path("r.pgm"))
        self.assertEqual(self.explain(2, 1)[2], "explain_pixel: r.pgm: No such file or directory\n")


class Plane:
    def __init__(self, rows):
        self.rows = rows

    def value(self, x, y):
        return self.rows[y][x] if 0 <= y < len(self.rows) and 0 <= x < len(self.rows[0]) else None


class Pair:
    """Two planes and the disparities that are tried, from 0 on."""

    first = 0

    def __init__(self, left, right, count):
        self.left, self.right, self.count = Plane(left), Plane(right), count

    def finer(self, found, x, y):
        return fine_steps.Finer(self, Plane(found).value, x, y)


SLOPE = Pair(
    left=[
        [37, 37, 98, 80, 40, 34, 93, 135, 97, 54, 58, 113],
        [80, 73, 26, 78, 116, 103, 48, 18, 88, 94, 67, 62],
        [14, 37, 102, 56, 79, 113, 113, 64, 24, 92, 98, 65],
        [121, 97, 52, 26, 85, 65, 85, 124, 79, 20, 69, 111],
        [66, 98, 117, 79, 24, 86, 77, 84, 124, 63, 35, 67],
    ],
    right=[
        [37, 112, 60, 15, 90, 141, 77, 30, 120, 66, 101, 48],
        [80, 22, 97, 131, 55, 18, 104, 88, 40, 129, 71, 25],
        [14, 105, 49, 92, 133, 70, 21, 116, 84, 33, 109, 62],
        [121, 58, 26, 99, 44, 137, 83, 11, 95, 127, 36, 74],
        [66, 130, 87, 20, 108, 52, 138, 63, 28, 91, 117, 45],
    ],
    count=4,
)
SLOPE_FOUND = [
    [10, 13, 16, 19, 22, 25, 28, 31, 34, 37, 40, 43],
    [8, 11, 14, 17, 20, None, 26, 29, 32, 35, 38, 41],
    [6, 9, 12, 15, 18, 21, 24, 27, 30, 33, 36, 39],
    [4, 7, 10, 13, 16, 19, 22, 60, 28, 31, 34, 37],
    [2, 5, 8, 11, 14, 17, 20, 23, 26, 29, 32, 35],
]
TIE = Pair(
    left=[
        [42, 42, 53, 65, 78, 63, 51, 66, 66],
        [60, 65, 56, 56, 71, 87, 66, 45, 56],
        [51, 42, 36, 62, 85, 62, 36, 38, 49],
        [41, 36, 66, 87, 71, 56, 56, 67, 57],
        [61, 66, 51, 63, 78, 65, 53, 41, 49],
    ],
    right=[
        [20, 80, 35, 110, 60, 25, 95, 50, 70],
        [90, 30, 75, 45, 120, 65, 15, 85, 40],
        [55, 10, 70, 100, 70, 10, 55, 33, 77],
        [15, 65, 120, 45, 75, 30, 90, 61, 19],
        [95, 25, 60, 110, 35, 80, 20, 44, 88],
    ],
    count=3,
)


class Fine(Tool):
    """The worked rows, which three separate writings of the definition worked out."""

    def test_slope(self):
        step = SLOPE.finer(SLOPE_FOUND, 6, 2)
        self.assertEqual((step.rise.across, step.rise.down), ((148, 48), (-102, 48)))
        self.assertEqual(step.rise.columns, [-6, -3, 0, 3, 6])
        self.assertEqual(step.rise.rows, [4, 2, 0, -2, -4])
        self.assertEqual((step.v, step.best, step.value, step.stays), (671796, 3, 27, None))
        self.assertEqual(step.scores[-8], (28539736, 10289608576, 20264739))
        self.assertEqual(step.scores[0], (78043472, 10406555904, 149832528))
        self.assertEqual(step.scores[3], (75669647, 8605392954, 170338444))
        self.assertEqual(step.scores[8], (71713272, 11012600704, 119549882))

    def test_tie(self):
        step = TIE.finer([9 * [16]] * 5, 4, 2)
        self.assertEqual((step.v, step.best, step.value, step.stays), (109596, -5, 11, None))
        for c in (-5, 5):
            self.assertEqual(step.scores[c], (18729000, 4469600000, 20090950))

    def test_values_that_stay(self):
        flat, other = [9 * [50]] * 5, [row[1:10] for row in SLOPE.right.rows]
        no_score, little = "no score is above 0", "that is less than a third"
        no_left = "the left picture has nothing at column"
        no_right = no_left.replace("left", "right")
        left, right = TIE.left.rows, TIE.right.rows
        at_six = [*left[:4], [*left[4][:6], None, *left[4][7:]]]
        at_zero = [[None, *right[0][1:]], *right[1:]]
        for own, theirs, value, x, why in [
            (left, right, 16, 1, f"{no_left} -1 of row 0"),
            (at_six, right, 16, 4, f"{no_left} 6 of row 4"),
            (left, at_zero, 16, 4, f"{no_right} 0 of row 0"),
            (left, right, 20, 3, f"{no_right} -1 of row 0"),
            (flat, right, 16, 4, no_score),
            (left, flat, 16, 4, no_score),
            (left, other, 16, 4, little),
        ]:
            step = Pair(own, theirs, 3).finer([9 * [value]] * 5, x, 2)
            self.assertEqual((step.value, step.stays), (value, why))

    def test_mean(self):
        for found, near, mean in [
            ([[10, 20, 26], [None, 10, 27], [9, 0, 11]], [10, 20, 26, 10, 9, 0, 11], 12),
            ([[0, 1, None], [None, 0, None], [None, None, 400]], [0, 1, 0], 0),
            ([[5, None, None], [None, 4, None], [None, None, None]], [5, 4], 5),
        ]:
            it = fine_steps.Mean(Plane(found).value, 1, 1)
            self.assertEqual((it.near, it.value), (near, mean))

    def write_pair(self):
        """A right picture, and a left one that shows it moved by half a pixel."""
        row = [70, 20, 180, 90, 30, 210, 120, 60, 240, 10, 150]
        rows = [row[3 * y % 11 :] + row[: 3 * y % 11] for y in range(7)]
        shown = [[(one + other) // 2 for one, other in zip([77, *row], row)] for row in rows]
        for name, samples in (("l.pgm", shown), ("r.pgm", rows)):
            with open(self.path(name), "wb") as file:
                file.write(b"P5\n11 7\n255\n" + bytes(sum(samples, [])))
        with open(self.path("c.json"), "w") as file:
            file.write(FINE)

    def program(self, change=""):
        with open(self.path("program"), "w") as file:
            file.write(WITH_FINE.format(tests=os.path.join(TOP, "tests"), change=change))
        os.chmod(self.path("program"), 0o755)
        return self.path("program")

    def test_program(self):
        self.write_pair()
        status, out, err = self.explain(5, 3, self.program())
        self.assertEqual((status, err), (0, ""))
        lines = out.split("\n")
        has = "in pixels, and that is what the program's picture has here"
        self.assertEqual(sum(line.endswith(f"{has} without `fine`.") for line in lines), 1)
        at = lines.index("change         A            B      score")
        changes = [int(line.split()[0]) for line in lines[at + 1 : at + 18]]
        self.assertEqual(changes, list(range(-8, 9)))
        self.assertIn("So it becomes 0.5.", lines)
        self.assertIn(f"Their mean is 0.5, {has}.", lines)
        # A pixel whose window sticks out of the picture.
        status, out, err = self.explain(1, 3, self.program())
        self.assertEqual((status, err), (0, ""))
        self.assertIn(": the left picture has nothing at column -1 of row 1.", out)
        self.assertNotIn("change ", out)

    def test_programs_that_make_it_otherwise(self):
        self.write_pair()
        one_more = "lambda found: [[value and value + 1 for value in row] for row in found]"
        nothing = "lambda found: [[None] * len(row) for row in found]"
        either = "has a disparity here with `fine` or without it alone"
        for part, other, line in (
            ("finer_values", "lambda found, *_: found", "here, the mean is 0.5"),
            ("means", one_more, "has disparity 0.5625 here, the mean is 0.5"),
            ("means", nothing, either),
        ):
            program = self.program(f"reference_matching.{part} = {other}")
            status, out, err = self.explain(5, 3, program)
            self.assertEqual((status, out, err.count("\n")), (1, "", 1))
            self.assertTrue(err.endswith(line + "\n"), err)

    def test_without_fine(self):
        """Nothing of that where the calibration doesn't ask for it."""
        self.write_pair()
        with open(self.path("c.json"), "w") as file:
            file.write(FINE.replace("true", "false", 1))
        status, out, err = self.explain(5, 3)
        self.assertEqual((status, err), (0, ""))
        self.assertNotIn("finer", out)
        self.assertNotIn("`fine`", out)


class Cells(Tool):
    def test_by_hand(self):
        done = subprocess.run([REFERENCE, "match", "l.pgm", "r.pgm", "c.json", "o"], cwd=self.folder, capture_output=True)
        self.assertEqual(done.returncode, 0)
        found = self.run_tool("cell_pixels.py", "o", "1", "1", "--calib", "c.json")
        wanted = "cell 1 1: 0.05 m, from 1 pixels\npixel 3 1: disparity 1, at 0.003, -0.001, height 0.05 m\n"
        self.assertEqual(found, (0, wanted, ""))
        self.assertEqual(self.run_tool("cell_pixels.py", "o", "3", "0", "--calib", "c.json"), (0, "cell 3 0: empty\n", ""))
        status, _, err = self.run_tool("cell_pixels.py", "o", "4", "0", "--calib", "c.json")
        self.assertEqual((status, err), (1, "cell_pixels: no cell 4 0: the grid has 4 columns and 3 rows\n"))
        with open(self.path("o.asc")) as file:
            text = file.read()
        with open(self.path("o.asc"), "w") as file:
            file.write(text.replace("50000", "50001"))
        status, _, err = self.run_tool("cell_pixels.py", "o", "1", "1", "--calib", "c.json")
        self.assertEqual((status, err), (1, "cell_pixels: o.pgm and o.asc aren't of one survey by c.json\n"))

    def test_third_version(self):
        """The pair has the disparity 0 at the columns 1 to 4: over cells of 500 every second column and row is bridged
        or empty, and a cell of 2000 has two columns of two rows."""
        camera = b'"camera":{"focal":25600,"baseline":1000,"cx":0,"cy":0,"doffs":256,"mount":150000,"near":1,"far":1000000}'
        fine = b',"grid":{"west":1000,"south":-2000,"cell":500,"cols":7,"rows":5,"keep":"mean","bridge":1}}'
        wide = fine.replace(b"500,", b"2000,").replace(b":7", b":2").replace(b":5,", b":2,")
        pixels = [f"pixel {x} {y}: disparity 0, at 0.00{x}, {f'-0.00{y}' if y else '0'}, height 0.05 m\n" for y in (1, 2) for x in (1, 2)]
        files = {name: b"P5\n5 3\n255\n" + THIRD[name] for name in ("l.pgm", "r.pgm")}
        for grid, place, wanted in [
            (fine, "0 0", "cell 0 0: 0.05 m, the mean of 1 pixels\npixel 1 0: disparity 0, at 0.001, 0, height 0.05 m\n"),
            (fine, "1 0", "cell 1 0: 0.05 m, a bridge from cells around it\n"),
            (fine, "0 1", "cell 0 1: 0.05 m, a bridge from cells around it\n"),
            (fine, "1 1", "cell 1 1: empty\n"),
            (wide, "0 1", "cell 0 1: 0.05 m, the mean of 4 pixels\n" + "".join(pixels)),
        ]:
            calibration = THIRD["c.json"].strip()[:-1] + b"," + camera + grid
            for name, data in {**files, "c.json": calibration}.items():
                with open(self.path(name), "wb") as file:
                    file.write(data)
            words = [REFERENCE, "match", "l.pgm", "r.pgm", "c.json", "o"]
            done = subprocess.run(words, cwd=self.folder, capture_output=True)
            self.assertEqual((done.returncode, done.stderr), (0, b""))
            found = self.run_tool("cell_pixels.py", "o", *place.split(), "--calib", "c.json")
            self.assertEqual(found, (0, wanted, ""))

    def test_told(self):
        pixels = [(7,), (5,), (-3,)]
        for height, found, is_mean, is_bridged, told in [
            (7, pixels, False, False, "0.000007 m, from 3 pixels"),
            (3, pixels, True, False, "0.000003 m, the mean of 3 pixels"),
            (6, pixels[:2], True, True, "0.000006 m, the mean of 2 pixels"),
            # Halves go up.
            (0, [(3,), (-4,)], True, False, "0 m, the mean of 2 pixels"),
            (-1, [(3,), (-4,)], True, False, None),
            (3, pixels, False, True, None),
            (None, pixels, False, False, None),
            (None, [], True, True, "empty"),
            (4, [], True, True, "0.000004 m, a bridge from cells around it"),
            (4, [], True, False, None),
        ]:
            self.assertEqual(cells.told(height, found, is_mean, is_bridged), told)

    def test_heap(self):
        """Every hundredth cell of the example: the highest point is the cell, and each point lies in it."""
        heap = os.path.join(TOP, "examples", "stockpile")
        grid = grids.read_grid(os.path.join(heap, "expected", "out.asc"))
        values, filled = files.read_disparities(os.path.join(heap, "expected", "out.pgm"))
        points = sgm_points.Points(files.read_json(os.path.join(heap, "calibration.json")))
        rows, cols = grid.heights.shape
        for at in range(0, rows * cols, 100):
            row, col = divmod(at, cols)
            found = cells.pixels_in(values, filled, points, grid, col, row)
            height = int(grid.heights[row, col]) if grid.filled[row, col] else None
            self.assertEqual(found[0][0] if found else None, height)
            for high, x, y, value, east, north in found:
                self.assertEqual(points.of(x, y, value), (east, north, high))
                self.assertEqual((east - grid.west) // grid.cell, col)
                self.assertEqual((north - grid.south) // grid.cell, rows - 1 - row)


class Poses(unittest.TestCase):
    """The point of a pixel in the site's frame: a tilt of three, four, five."""

    TILT = [1 << 30, 0, 0, 0, 858993459, -644245094, 0, 644245094, 858993459]

    def line(self, up, value=0):
        camera = {"focal": 25600, "baseline": 1000, "cx": 0, "cy": 0, "doffs": 256}
        whole = {"version": 3, "disparities": {"first": 0, "count": 2}}
        whole["camera"] = {**camera, "mount": 150000, "near": 1, "far": 1000000}
        whole["pose"] = {"matrix": self.TILT, "east": 0, "north": -1, "up": up}
        words = argparse.Namespace(x=3, y=1)
        return list(tool.point_line(whole, words, value))

    def test_point(self):
        said = "Its point lies 0.003 m to the east and -0.030801 m to the north of the site's origin,"
        self.assertEqual(self.line(7), [f"{said} 0.039407 m high."])

    def test_no_point(self):
        said = "It has no point: its distance is below `near` or above `far`, or none, or its height is out of range."
        self.assertEqual(self.line(1999960601), [said])
        self.assertEqual(self.line(7, None), [])


if __name__ == "__main__":
    unittest.main()
