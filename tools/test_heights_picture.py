#!/usr/bin/env python3
"""Tries heights_picture.py on grids of a few cells, whose colours were worked out by hand."""

import os
import subprocess
import sys
import tempfile
import unittest

from sgm_tools import grids, running
from sgm_tools.pictures import colours_of, drawn, shaded, zoom_of
from sgm_tools.running import numpy

TOOL = os.path.join(os.path.dirname(os.path.abspath(__file__)), "heights_picture.py")
HEAD = "ncols {}\nnrows {}\nxllcorner 0\nyllcorner 0\ncellsize 1000\nNODATA_value -2147483648\n"
RAMP = HEAD.format(3, 1) + "0 1000 2000\n"
EMPTY = HEAD.format(2, 1) + "-2147483648 -2147483648\n"


def setUpModule():
    running.need_for_tests(numpy=numpy, PIL=running.Image)


def picture(name):
    """The rows of colours of a PNG."""
    with running.Image.open(name) as image:
        return [[tuple(colour) for colour in row] for row in numpy.array(image.convert("RGB")).tolist()]


def run(text, *options):
    """The status, both streams, and the picture, if there is one."""
    with tempfile.TemporaryDirectory() as folder:
        name, out = os.path.join(folder, "o.asc"), os.path.join(folder, "o.png")
        with open(name, "w") as file:
            file.write(text)
        done = subprocess.run([sys.executable, TOOL, name, "--out", out, *options], capture_output=True, text=True)
        made = None
        if os.path.exists(out):
            made = picture(out)
    return done.returncode, done.stdout, done.stderr.replace(name, "o.asc"), made


def grid(rows, size=1000):
    """A grid of these heights, None for an empty cell."""
    filled = numpy.array([[height is not None for height in row] for row in rows])
    heights = numpy.array([[-(2**31) if height is None else height for height in row] for row in rows], numpy.int64)
    return grids.Grid(0, 0, size, heights, filled)


def colours(rows):
    return [[tuple(colour) for colour in row] for row in shaded(grid(rows))[0].tolist()]


class Colours(unittest.TestCase):
    def test_scale(self):
        for height, colour in [
            (0, (70, 130, 80)),
            (-5, (70, 130, 80)),
            (1000, (200, 162, 100)),
            (1600, (150, 100, 85)),
            (2000, (250, 250, 250)),
            (9000, (250, 250, 250)),
        ]:
            self.assertEqual(tuple(colours_of(numpy.array([height]), 0, 2000)[0]), colour, height)
        self.assertEqual(tuple(colours_of(numpy.array([7]), 7, 7)[0]), (70, 130, 80))

    def test_slopes(self):
        # A rise of one cell's side from west to east makes a cell in the middle lighter by a quarter.
        self.assertEqual(colours([[0, 1000, 2000]]), [[(78, 145, 89), (250, 202, 125), (255, 255, 255)]])
        self.assertEqual(colours([[2000], [1000], [0]])[1], [(150, 121, 75)])
        # An empty cell is black, and no slope goes to it.
        self.assertEqual(colours([[None, 0]]), [[(0, 0, 0), (70, 130, 80)]])

    def test_bands(self):
        """A grid of more rows than are drawn at once falls evenly to the south: all rows but the ends are alike."""
        rows = 300
        falls = grid([[0] for _ in range(rows)])
        falls.heights[:, 0] = [1000 * (rows - row) for row in range(rows)]
        made, (low, high) = shaded(falls)
        plain = colours_of(falls.heights, low, high)
        for row in range(1, rows - 1):
            self.assertEqual(made[row, 0].tolist(), (plain[row, 0] * 75 // 100).tolist(), row)

    def test_changes(self):
        """What rose is red, what fell blue, by the larger of both; no change is white, no difference black."""
        changes = grid([[-500, 0, 250, 1000, None]])
        changes.nothing = grids.NO_DIFFERENCE
        made, ends = drawn(changes)
        self.assertEqual(ends, (-1000, 1000))
        wanted = [(129, 159, 199), (250, 250, 250), (228, 191, 192), (165, 15, 21), (0, 0, 0)]
        self.assertEqual([tuple(colour) for colour in made[0].tolist()], wanted)
        changes.filled[:] = False
        self.assertEqual((drawn(changes)[0].any(), drawn(changes)[1]), (False, None))

    def test_zoom(self):
        self.assertEqual([zoom_of(96, 115), zoom_of(2000, 10), zoom_of(4096, 4096)], [4, 2, 1])


class Refused(unittest.TestCase):
    def test_refused(self):
        for text, line in [
            ("P5 1 1 255", "not a height grid of sgm"),
            (HEAD.format(2, 2) + "1 2 3\n", "3 heights, 4 needed"),
            (HEAD.format(0, 0), "not a height grid of sgm"),
            (HEAD.format(-1, -1) + "5\n", "not a height grid of sgm"),
            (HEAD.format(1, 1).replace("cellsize 1000", "cellsize 0") + "5\n", "not a height grid of sgm"),
            (HEAD.format(1, 1) + "5.0\n", "not a height grid of sgm"),
            (HEAD.format(1, 1), "0 heights, 1 needed"),
            (HEAD.format(1, 1)[: -len(" -2147483648\n")], "not a height grid of sgm"),
            ("", "not a height grid of sgm"),
            ("\x00\u00ff", "not a height grid of sgm"),
        ]:
            self.assertEqual(run(text), (1, "", f"heights_picture: o.asc: {line}\n", None))


class Pictures(unittest.TestCase):
    def test_ramp(self):
        status, out, err, made = run(RAMP, "--zoom", "2")
        self.assertEqual((status, out, err), (0, "0 (green) to 2000 (white) micrometres of height\n", ""))
        row = [(78, 145, 89)] * 2 + [(250, 202, 125)] * 2 + [(255, 255, 255)] * 2
        self.assertEqual(made, [row, row])

    def test_empty(self):
        self.assertEqual(run(EMPTY, "--zoom", "1"), (0, "every cell is empty\n", "", [[(0, 0, 0)] * 2]))


if __name__ == "__main__":
    unittest.main()
