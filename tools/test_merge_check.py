#!/usr/bin/env python3
"""Tries merge_check.py on grids worked out by hand and drawn at random, against plain sums, and on files that it has to
refuse."""

import csv
import io
import os
import random
import statistics
import subprocess
import sys
import tempfile
import unittest

HERE = os.path.dirname(os.path.abspath(__file__))
TOOL = os.path.join(HERE, "merge_check.py")

from sgm_tools import files, merges, running
from sgm_tools.merges import BETWEEN, FRAME, SIDE

NO_HEIGHT = -(2**31)
HEAD = "grid,name,cells,shared,mean_mm,spread_mm,others_mm,width_mm,mark"


def setUpModule():
    running.need_for_tests(numpy=running.numpy, PIL=running.Image)


def text_of(rows, west=0, south=0, cell=10):
    head = f"ncols {len(rows[0])}\nnrows {len(rows)}\nxllcorner {west}\nyllcorner {south}\n"
    head += f"cellsize {cell}\nNODATA_value {NO_HEIGHT}\n"
    return head + "".join(" ".join(str(NO_HEIGHT if it is None else it) for it in row) + "\n" for row in rows)


def level(height, cols=10, rows=10):
    return [[height] * cols for _ in range(rows)]


class Checks(unittest.TestCase):
    def setUp(self):
        folder = tempfile.TemporaryDirectory()
        self.addCleanup(folder.cleanup)
        self.folder = folder.name

    def write(self, name, text):
        with open(os.path.join(self.folder, name), "w") as file:
            file.write(text)

    def put(self, merged, *entries):
        """Writes the merged grid, the entries, each as rows and the words of its place, and their list."""
        self.write("m.asc", text_of(merged))
        for number, (rows, *place) in enumerate(entries):
            self.write(f"e{number}.asc", text_of(rows, *place))
        self.write("l.txt", "".join(f"e{number}.asc\n" for number in range(len(entries))))

    def run_tool(self, *options):
        command = [sys.executable, TOOL, "l.txt", "m.asc", *options]
        done = subprocess.run(command, cwd=self.folder, capture_output=True, text=True)
        return done.returncode, done.stdout, done.stderr

    def lines(self, *options):
        status, out, err = self.run_tool(*options)
        self.assertEqual(status, 0, err)
        return list(csv.DictReader(io.StringIO(out)))

    def marks(self, *options):
        return [int(line["grid"]) for line in self.lines(*options) if line["mark"]]


class Tables(Checks):
    def test_by_hand(self):
        """Two level grids that share five columns; the merged one is their mean there."""
        merged = [[1000] * 5 + [2000] * 5 + [3000] * 5 for _ in range(10)]
        self.put(merged, (level(1000),), (level(3000), 50))
        status, out, err = self.run_tool()
        lines = [HEAD, "0,e0.asc,100,50,-1.0,0.0,-2.0,0.0,", "1,e1.asc,100,50,1.0,0.0,2.0,0.0,"]
        self.assertEqual((status, out, err), (0, "\n".join(lines) + "\n", "merge_check: 0 of 2 grids are off\n"))
        # A line about the merged grid has no part in the last three columns.
        self.put(level(None, 15), (level(1000),), (level(3000), 50))
        self.assertEqual(self.lines()[0]["mean_mm"], "")
        self.assertEqual(self.lines()[0]["others_mm"], "-2.0")

    def test_rows_from_the_north(self):
        """The northernmost row of the one lies on the southernmost of the other."""
        north, south = level(7), level(9)
        north[9] = [1000 * it for it in range(10)]
        south[0] = [0] * 10
        self.put(level(0, 40, 19), (north, 0, 90), (south, 0, 0))
        self.assertEqual([line["shared"] for line in self.lines()], ["10", "10"])
        south[1] = north[8] = [5000] * 10
        self.put(level(0, 40, 18), (north, 0, 80), (south, 0, 0))
        line = self.lines()[0]
        # 5000 above a row of 0, and a row of 0 to 9000 above one of 5000: so 4000 and 5000 are in the middle.
        self.assertEqual((line["shared"], line["others_mm"]), ("20", "4.5"))

    def test_outside(self):
        """What isn't over the merged grid isn't shared."""
        self.put(level(0, 5, 5), (level(1), -100, -100), (level(2), -50, -50), (level(3), 200, 0), (level(4), -50, -50))
        self.assertEqual([line["shared"] for line in self.lines()], ["0", "25", "0", "25"])
        self.assertEqual([line["cells"] for line in self.lines()], ["100"] * 4)

    def test_few(self):
        """Of fewer than 20 shared cells nothing is said."""
        for cols, said in ((1, ""), (2, "1.0")):
            self.put(level(0, 30), (level(1000),), (level(0), 100 - 10 * cols))
            self.assertEqual(self.lines()[0]["others_mm"], said)

    def test_random(self):
        """Against plain sums, cell by cell, of grids with gaps."""
        for seed in range(8):
            draw = random.Random(seed)
            entries = []
            for _ in range(4):
                gap = lambda: draw.random() < 0.2
                rows = [[None if gap() else draw.randint(-9999, 9999) for _ in range(9)] for _ in range(8)]
                entries.append((rows, 10 * draw.randint(-3, 6), 10 * draw.randint(-3, 6)))
            merged = [[draw.randint(-9999, 9999) for _ in range(12)] for _ in range(12)]
            self.put(merged, *entries)
            found = self.lines("--least", "999999")
            for number, line in enumerate(found):
                self.assertEqual(line, plain_line(number, entries, merged), seed)

    def test_files(self):
        self.put(level(1000, 15), (level(1000),), (level(3000), 50))
        said = self.run_tool()[1]
        self.assertEqual(self.run_tool("--out", "t.csv")[1], "")
        with open(os.path.join(self.folder, "t.csv")) as file:
            self.assertEqual(file.read(), said)


def held(entry, east, north):
    """The height of an entry's cell at a place, or None."""
    rows, west, south = entry
    col, row = (east - west) // 10, len(rows) - 1 - (north - south) // 10
    return rows[row][col] if 0 <= col < len(rows[0]) and 0 <= row < len(rows) else None


def plain_line(number, entries, merged):
    off, away = [], []
    for row in range(len(merged)):
        for col in range(len(merged[0])):
            east, north = 10 * col, 10 * (len(merged) - 1 - row)
            own = held(entries[number], east, north)
            others = [held(it, east, north) for at, it in enumerate(entries) if at != number]
            others = [it for it in others if it is not None]
            if own is not None and others:
                off.append(own - merged[row][col])
                away.append(own - sum(others) / len(others))
    cells = sum(it is not None for row in entries[number][0] for it in row)
    line = dict(zip(HEAD.split(","), [str(number), f"e{number}.asc", str(cells), str(len(off)), "", "", "", "", ""]))
    if len(off) >= 20:
        middle = statistics.median(away)
        width = 1.4826 * statistics.median(abs(it - middle) for it in away)
        made = statistics.mean(off), statistics.pstdev(off), middle, width
        line |= dict(zip(HEAD.split(",")[4:8], (f"{it / 1000:.1f}" for it in made)))
    return line


def raster(draw, off=(), tilted=()):
    """A raster of 5 x 4 grids, each of which shares half of itself with its neighbours, with noise of 10 mm; some lie
    higher or are tilted."""
    for number in range(20):
        row, col = divmod(number, 5)
        rise, slope = dict(off).get(number, 0), dict(tilted).get(number, 0)
        rows = [[round(draw.gauss(rise + slope * (at - 9.5), 10000)) for at in range(20)] for _ in range(20)]
        yield rows, 100 * col, 100 * row


class Marks(Checks):
    def marked(self, seed, *options, **kinds):
        self.put(level(0, 60, 50), *raster(random.Random(seed), **kinds))
        return self.marks(*options)

    def test_none(self):
        for seed in range(5):
            self.assertEqual(self.marked(seed), [])

    def test_one_that_lies_higher_or_lower(self):
        for seed, number in enumerate((0, 7, 12, 19)):
            for rise in (40000, -40000):
                self.assertEqual(self.marked(seed, off={number: rise}.items()), [number])

    def test_one_that_is_tilted(self):
        for seed, number in enumerate((0, 7, 12, 19)):
            self.assertEqual(self.marked(seed, tilted={number: 6000}.items()), [number])

    def test_two(self):
        """Neighbours of those that are off aren't marked, however far these are off."""
        for rise in (40000, 10**6, 10**8):
            self.assertEqual(self.marked(3, off={6: rise, 13: -rise}.items()), [6, 13])

    def test_three_grids(self):
        self.put(level(0), (level(0),), (level(90000),), (level(0),))
        self.assertEqual(self.marks(), [1])
        self.put(level(0), (level(0),), (level(90000),))
        self.assertEqual(self.marks(), [])

    def test_least(self):
        self.put(level(0), *((level(rise),) for rise in (0, 0, 4000, 0, 0)))
        self.assertEqual(self.marks(), [])
        # It lies 4 mm above the others, and these lie 1 mm below their others.
        self.assertEqual(self.marks("--least", "4.9"), [2])
        self.assertEqual(self.marks("--least", "5.1"), [])


class Pictures(Checks):
    def pixels(self, *options):
        status, _, err = self.run_tool("--picture", "p.png", *options)
        self.assertEqual(status, 0, err)
        with running.Image.open(os.path.join(self.folder, "p.png")) as image:
            return running.numpy.array(image.convert("RGB")).astype(int)

    def test_squares(self):
        """Three grids side by side in the picture: the one that is off is red and has a frame."""
        self.put(level(0, 12, 10), (level(0),), (level(90000), 20), (level(0),), (level(0),))
        pixels = self.pixels("--darkest", "90")
        step = SIDE + BETWEEN
        self.assertEqual(pixels.shape, (2 * step + BETWEEN, 2 * step + BETWEEN, 3))
        middle = lambda number, part=SIDE // 2: pixels[
            BETWEEN + number // 2 * step + part, BETWEEN + number % 2 * step + part
        ].tolist()
        self.assertEqual(middle(1), [165, 15, 21])
        self.assertEqual([middle(it) for it in (0, 2, 3)], [[250] * 3] * 3)
        self.assertEqual(pixels[BETWEEN - 2, BETWEEN + step].tolist(), list(FRAME))
        self.assertEqual(pixels[BETWEEN - 2, BETWEEN].tolist(), [255] * 3)
        # Of the second one two columns lie beside the others.
        self.assertEqual(pixels[BETWEEN + 9, BETWEEN + step + SIDE - 9].tolist(), [0] * 3)

    def test_north_is_up(self):
        rows = level(0)
        rows[0] = [50000] * 10
        self.put(level(0), (rows,), (level(0),))
        pixels = self.pixels()
        self.assertEqual(pixels[BETWEEN + 2, BETWEEN + 50].tolist(), [165, 15, 21])
        self.assertEqual(pixels[BETWEEN + SIDE - 3, BETWEEN + 50].tolist(), [250] * 3)

    def test_shapes(self):
        numpy = running.numpy
        for rows, cols in ((1, 300), (300, 1), (3, 2), (0, 5), (240, 120)):
            made = merges.in_square(numpy.zeros((rows, cols, 3), numpy.uint8))
            longest = max(rows, cols, 1)
            black = [max(1, SIDE * it // longest) if rows * cols else 0 for it in (rows, cols)]
            self.assertEqual(int((made == 0).all(axis=2).sum()), black[0] * black[1])


class Refused(Checks):
    def refused(self, line):
        status, out, err = self.run_tool()
        self.assertEqual((status, out, err), (1, "", f"merge_check: {line}\n"))

    def test_files(self):
        self.put(level(0), (level(0),), (level(0), 5))
        self.refused("e1.asc: not on the merged grid's cells")
        self.put(level(0), (level(0),), (level(0), 0, 0, 20))
        self.refused("e1.asc: not on the merged grid's cells")
        self.put(level(0), (level(0),), (level(0),))
        os.remove(os.path.join(self.folder, "e1.asc"))
        self.refused("e1.asc: No such file or directory")
        self.write("e1.asc", "ncols")
        self.refused("e1.asc: not a height grid of sgm")
        self.write("l.txt", "e0.asc\n\ne0.asc e1.asc\n")
        self.refused("l.txt: line 3 does not have one word")
        for text, count in (("\n", 0), ("e0.asc\n" * 1001, 1001)):
            self.write("l.txt", text)
            self.refused(f"l.txt: {count} entries, 1 to 1000 needed")
        with open(os.path.join(self.folder, "l.txt"), "wb") as file:
            file.write(b"\xff")
        self.refused("list is not text")
        files.write_pgm(os.path.join(self.folder, "m.asc"), running.numpy.zeros((2, 2), running.numpy.uint8))
        self.refused("m.asc: not a height grid of sgm")

    def test_words(self):
        self.put(level(0), (level(0),))
        for words in (["--least", "-1"], ["--darkest", "0"], ["--least", "x"]):
            self.assertEqual(self.run_tool(*words)[0], 2)


if __name__ == "__main__":
    unittest.main()
