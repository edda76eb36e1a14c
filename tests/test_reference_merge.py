#!/usr/bin/env python3
"""Checks the merge of the reference: lists, grids and whole runs worked out by hand, and what has to
hold of all of them."""

import ast
import itertools
import json
import re
import unittest
from unittest import mock

import calibration_cases
import random_lists
import reference
import reference_inputs as inputs
import reference_matching as matching
from random_inputs import Draw
from reference_lists import read_names
from test_reference import TABLE_TEXT, WORKED, asc, line_of, run
from test_reference_lists import is_utf8

# Over a grid of 3 x 2 cells of 10 whose west and south sides are 0; rows from the north.
ROWS = """\
mean, a b: merged 5 of 6, [[1, -3, 7], [4, None, 6]]
mean, b a: merged 5 of 6, [[1, -3, 7], [4, None, 6]]
highest, a b: merged 5 of 6, [[1, -3, 7], [4, None, 6]]
mean, a a b: merged 5 of 6, [[1, -3, 7], [4, None, 5]]
mean, c: merged 3 of 6, [[100, 100, None], [3, None, None]]
highest, a c: merged 4 of 6, [[100, 100, None], [4, None, 5]]
mean, a b c: merged 5 of 6, [[51, 31, 7], [4, None, 6]]
mean, far: merged 0 of 6, [[None, None, None], [None, None, None]]
mean, far a: merged 4 of 6, [[1, -3, None], [4, None, 5]]
mean, a off: sgm: grid 1: not on the calibration's cells
mean, south a: sgm: grid 0: not on the calibration's cells
mean, cell: sgm: grid 0: not on the calibration's cells
mean, a short head: sgm: grid 1: 1 heights, 2 needed
mean, head: sgm: grid 0: word 4 is not as expected
mean, high: sgm: grid 0: height 1 is not in range
mean, nodata: sgm: grid 0: word 11 is out of range
mean, wide: sgm: grid 0: word 1 is out of range
mean, a gone head: sgm: cannot read grid 1
mean, head gone: sgm: grid 0: word 4 is not as expected
"""


def grid_text(heights, cols, rows, west=0, south=0, cell=10, **more):
    """The text of a grid whose empty cells stand there as -."""
    return asc(re.sub(r"-(?!\d)", str(inputs.EMPTY), heights), cols, rows, west, south, cell, **more)


# The grids of these rows. What of b and c isn't over the cells of the merge is left out.
GRIDS = {
    "a": grid_text("1 -3 - 4 - 5", 3, 2),
    "b": grid_text("-4 7 99 - 6 -99", 3, 2, west=10),
    "c": grid_text("9 100 100 9 3 - 8 8 8", 3, 3, west=-10, south=-10),
    "far": grid_text("1 2 3 4", 2, 2, west=30, south=-20),
    "off": grid_text("1", 1, 1, west=5),
    "south": grid_text("1", 1, 1, south=-1),
    "cell": grid_text("1", 1, 1, cell=20),
    "short": grid_text("1", 2, 1, west=5),
    "head": grid_text("1", 1, 1).replace(b"xllcorner", b"xllcenter"),
    "high": grid_text("1 2000000001", 2, 1, cell=20),
    "nodata": grid_text("1", 1, 1, nodata=-9999),
    "wide": grid_text("1", 4097, 1),
}
CELLS = {"west": 0, "south": 0, "cell": 10, "cols": 3, "rows": 2}

# Lists, and what comes of them where OUT is o.
LISTS = """\
b'': list: no entries
b' \\t\\r\\n\\n': list: no entries
b'a\\n\\n b\\t\\r\\nc': 3 entries, ['a', 'b', 'c']
b'a b': list: line 1 does not have one word
b'a\\nb c\\n\\xc3': list: not text
b'a\\n\\xc3\\n': list: not text
b'o.asc\\n': list: grid 0 is also an output
b'a\\no\\no.csv\\no.asc': list: grid 2 is also an output
b'o.pgm\\n./o.asc': 2 entries, ['o.pgm', './o.asc']
b'a\\xc2\\xa0b\\n# c': list: line 2 does not have one word
b'\\xef\\xbb\\xbfa\\n': 1 entries, ['\\ufeffa']
b'a\\rb\\n': list: line 1 does not have one word
"""

# Three grids, bridges, and regions with sloping bases and outlines.
THREE = {
    "west.asc": grid_text("99 5 - 99 - - 99 -6 -", 3, 3, west=-30, south=-10),
    "east.asc": grid_text("8 - - 12 - 15 -5 2 40", 3, 3, west=0, south=-10),
    "south.asc": grid_text("-3 - 10 1 77 77 77 77", 4, 2, west=-20, south=-20),
}
TRIANGLE = [-20, -10, 30, -10, -20, 20]
ALL = {"col": 0, "row": 0, "cols": 5, "rows": 3}
CORNER = {"col": 4, "row": 0, "cols": 1, "rows": 1}
REGIONS = [
    {"name": "all", **ALL, "base": 0, "rise_east": 0, "rise_north": 0},
    {"name": "slope", **ALL, "col": 1, "cols": 4, "base": -4, "rise_east": 250000, "rise_north": -130000},
    {"name": "triangle", **ALL, "base": 1, "rise_east": 0, "rise_north": 100000, "outline": TRIANGLE},
    {"name": "nothing", **CORNER, "base": 0, "rise_east": 0, "rise_north": 0, "outline": TRIANGLE},
    {"name": "empty", **CORNER, "base": 0, "rise_east": 0, "rise_north": 0},
]
BRIDGED = "5 7 8 - - / 1 - 12 14 15 / -4 0 3 2 40"
BRIDGED_TABLE = """\
region,cells,bridged,empty,fill,cut,lowest,highest
all,12,4,3,10700,400,-4,40
slope,9,3,3,8700,200,0,40
triangle,6,2,1,200,1000,-4,5
nothing,0,0,0,0,0,,
empty,0,0,1,0,0,,
"""
HIGHEST = "5 - 8 - - / - - 12 - 15 / -3 - 10 2 40"
HIGHEST_TABLE = """\
region,cells,bridged,empty,fill,cut,lowest,highest
all,8,0,7,9200,300,-3,40
slope,6,0,6,7200,200,2,40
triangle,4,0,3,900,500,-3,10
nothing,0,0,0,0,0,,
empty,0,0,1,0,0,,
"""
MERGE = "merge list.txt c.json o"


def calibration(grid, keep="mean", bridge=0, regions=None):
    """A calibration of version 3 over that grid."""
    made = calibration_cases.third(("grid", {**grid, "keep": keep, "bridge": bridge}))
    part = calibration_cases.MISSING if regions is None else regions
    return calibration_cases.changed(made, ("regions", part))


def files_of(whole, names, grids):
    """The files of a merge of those grids, each in its turn; names without a grid are absent."""
    named = {name: grids[name] for name in names if name in grids}
    return {"list.txt": "\n".join(names).encode(), "c.json": json.dumps(whole).encode(), **named}


def cells_text(cells, cols, rows, west, south, cell):
    """What OUT.asc holds where these are its rows from the north, with / between them."""
    head = [f"ncols {cols}", f"nrows {rows}", f"xllcorner {west}", f"yllcorner {south}", f"cellsize {cell}"]
    lines = [*head, f"NODATA_value {inputs.EMPTY}", *cells.split(" / ")]
    return re.sub(r"-(?=[ \n])", str(inputs.EMPTY), "\n".join(lines) + "\n").encode()


def listed(cells):
    """A list of lists of heights as such rows."""
    return " / ".join(" ".join("-" if height is None else str(height) for height in row) for row in cells)


class Merges(unittest.TestCase):
    def refused(self, files, line, words=MERGE, status=3):
        self.assertEqual(run(files, words), (status, "", f"sgm: {line}\n", {}))


class Worked(Merges):
    def test_rows(self):
        for line in ROWS.splitlines():
            given, ending = line.split(": ", 1)
            keep, names = given.split(", ")
            files = files_of(calibration(CELLS, keep), names.split(), GRIDS)
            if ending.startswith("sgm: "):
                status = 4 if "cannot read" in ending else 3
                self.refused(files, ending.removeprefix("sgm: "), status=status)
            else:
                summary, _, cells = ending.partition(", ")
                text = cells_text(listed(ast.literal_eval(cells)), 3, 2, 0, 0, 10)
                self.assertEqual(run(files, MERGE), (0, summary + "\n", "", {"o.asc": text}), line)

    def test_lists(self):
        for line in LISTS.splitlines():
            data, ending = re.fullmatch(r"(b'.*?'): (.*)", line).groups()
            self.assertEqual(told(ast.literal_eval(data)), ending, line)

    def test_long_lists(self):
        for data, ending in [
            (b"a\n" * 1000, "1000 entries, " + str(1000 * ["a"])),
            (b"a\n" * 1001, "list: too many entries"),
            (b"a\nb b\n" + b"a\n" * 1000, "list: line 2 does not have one word"),
            (b"o.asc\n" + b"a\n" * 1000, "list: too many entries"),
            (b"a\n" * 999 + b"o.csv", "list: grid 999 is also an output"),
        ]:
            self.assertEqual(told(data), ending)

    def test_bridges_and_regions(self):
        grid = {"west": -20, "south": -10, "cell": 10, "cols": 5, "rows": 3}
        for keep, bridge, summary, cells, table in [
            ("mean", 2, "merged 12 of 15\n", BRIDGED, BRIDGED_TABLE),
            ("highest", 0, "merged 8 of 15\n", HIGHEST, HIGHEST_TABLE),
        ]:
            whole = calibration(grid, keep, bridge, REGIONS)
            made = {"o.asc": cells_text(cells, 5, 3, -20, -10, 10), "o.csv": table.encode()}
            for names in (list(THREE), list(THREE)[::-1]):
                self.assertEqual(run(files_of(whole, names, THREE), MERGE), (0, summary, "", made))

    def test_a_merge_is_an_entry(self):
        """What a merge writes is merged again, and the same over its own cells."""
        files = files_of(calibration(CELLS), ["a", "b"], GRIDS)
        again = {"list.txt": b"m.asc", "c.json": files["c.json"], "m.asc": run(files, MERGE)[3]["o.asc"]}
        self.assertEqual(run(again, MERGE)[1:], ("merged 5 of 6\n", "", {"o.asc": again["m.asc"]}))


def told(data):
    """The entries of a list, or the line of its first fault, where OUT is o."""
    try:
        names = read_names(data, ["o.asc", "o.csv"])
        return f"{len(names)} entries, {names}"
    except inputs.Ended as end:
        return end.line.removeprefix("sgm: ")


class Order(Merges):
    """What is looked at before what."""

    def test_words(self):
        files = files_of(calibration(CELLS), ["a"], GRIDS)
        for words, line in [
            ("merge list.txt c.json", "2 words after the command, 3 needed"),
            ("merge list.txt c.json o strips=1", "word 4 is not an option"),
            ("merge o.asc c.json o workers=1", "word 4 is not an option"),
            ("merge o.asc o.csv o", "word 1 is also an output"),
            ("merge list.txt o.csv o", "word 2 is also an output"),
        ]:
            self.refused(files, line, words, status=2)
        # No command but `match` writes a map of disparities.
        files["o.pgm"] = files["c.json"]
        self.assertEqual(run(files, "merge list.txt o.pgm o")[:2], (0, "merged 4 of 6\n"))

    def test_read_before_judged(self):
        files = files_of(calibration(CELLS), ["a"], GRIDS)
        long = b"\xff" * 1048577
        self.refused(files, "cannot read list", "merge none none o", status=4)
        self.refused({**files, "list.txt": b"\xff"}, "cannot read calibration", "merge list.txt none o", status=4)
        self.refused({**files, "list.txt": long}, "list is too long", "merge list.txt none o")
        self.refused({**files, "c.json": b" " * 16777217, "list.txt": b""}, "calibration is too long")
        self.refused({**files, "list.txt": long[:-1]}, "list: not text")
        # A `-` is a file's name as a list, and the plain settings, which have no grid, as a calibration.
        self.refused(files, "cannot read list", "merge - - o", status=4)
        self.refused({**files, "list.txt": b"a b"}, "list: line 1 does not have one word", "merge list.txt - o")
        self.refused({**files, "-": files["list.txt"]}, "calibration: grid is missing", "merge - - o")

    def test_list_then_calibration_then_entries(self):
        whole = calibration(CELLS)
        self.refused({"list.txt": b"", "c.json": b"{"}, "list: no entries")
        self.refused({"list.txt": b"o.asc", "c.json": b"{"}, "list: grid 0 is also an output")
        self.refused({"list.txt": b"none", "c.json": b"{"}, "calibration: not JSON")
        missing = calibration_cases.MISSING
        bare = calibration_cases.changed(whole, ("camera", missing), ("grid", missing))
        for other, line in [
            (bare, "grid is missing"),
            (calibration_cases.changed(bare, ("camera", whole["camera"])), "grid is missing"),
            (calibration_cases.changed(whole, ("camera", missing)), "camera is missing"),
            (calibration_cases.changed(whole, ("grid.cols", 0)), "grid.cols is out of range"),
        ]:
            self.refused(files_of(other, ["none"], GRIDS), "calibration: " + line)
        # What suits no picture suits a merge.
        narrow = {"kind": "mesh", "step": 2, "cols": 2, "rows": 2, "nodes": [0] * 8}
        warped = {**whole, "warp": {"left": narrow, "right": {"kind": "identity"}}}
        self.assertEqual(run(files_of(warped, ["a"], GRIDS), MERGE)[1], "merged 4 of 6\n")

    def test_entries_one_after_the_other(self):
        grids = {**GRIDS, "empty": b""}
        for names, line in [
            ("off gone", "grid 0: not on the calibration's cells"),
            ("a short off", "grid 1: 1 heights, 2 needed"),
            # All faults of a text come before its cells.
            ("high", "grid 0: height 1 is not in range"),
            ("a a empty", "grid 2: word 0 is not as expected"),
            # The list and the calibration may be entries, and aren't grids.
            ("a list.txt", "grid 1: word 0 is not as expected"),
            ("a c.json", "grid 1: word 0 is not as expected"),
        ]:
            self.refused(files_of(calibration(CELLS), names.split(), grids), line)
        with mock.patch.object(reference, "LONGEST_GRID", 99):
            self.assertEqual(line_of(reference.fetch_entry, 2, __file__, CELLS), "grid 2 is too long")
        older = {**files_of(calibration(CELLS), ["a", "gone"], GRIDS), "o.asc": b"older"}
        self.refused(older, "cannot read grid 1", status=4)


class Versions(unittest.TestCase):
    def test_first_and_second(self):
        """They keep the highest one, have no bridges, and their table has no column for them."""
        cells = b"50000 50000 50000 - / 50000 50000 50000 - / 50000 50000 50000 -"
        text = cells_text(cells.decode(), 4, 3, 2000, -2000, 1000)
        low = text.replace(b"50000", b"49999")
        for made in (calibration_cases.first, calibration_cases.second):
            files = files_of(made(), ["low", "high", "low"], {"low": low, "high": text})
            answer = run(files, MERGE)
            self.assertEqual(answer, (0, "merged 9 of 12\n", "", {"o.asc": text, "o.csv": TABLE_TEXT}))

    def test_as_matched(self):
        """One entry, the grid of a match, gives the same grid and the same table."""
        matched = run(WORKED, "match l.pgm r.pgm c.json o")[3]
        files = {"list.txt": b"g", "c.json": WORKED["c.json"], "g": matched["o.asc"]}
        merged = run(files, MERGE)[3]
        self.assertEqual(merged, {name: matched[name] for name in ("o.asc", "o.csv")})


def grids_by(draw, count):
    """Grids of cells of 6 around a grid of 5 x 4 cells at -3, 7, each its numbers and its cells."""
    for _ in range(count):
        cols, rows = draw.between(1, 6), draw.between(1, 5)
        west, south = (begin + 6 * draw.between(-7, 6) for begin in (-3, 7))
        height = lambda: None if draw.chance(30) else draw.between(-9, 9)
        cells = [[height() for _ in range(cols)] for _ in range(rows)]
        yield {"west": west, "south": south, "cell": 6, "cols": cols, "rows": rows}, cells


class Laws(unittest.TestCase):
    GRID = {"west": -3, "south": 7, "cell": 6, "cols": 5, "rows": 4}

    def merged(self, entries, keep="mean"):
        whole = json.dumps(calibration(self.GRID, keep, 0)).encode()
        return matching.merged(inputs.read_calibration(whole), entries)[0]

    def test_order(self):
        for number in range(60):
            draw = Draw(65, number)
            entries = list(grids_by(draw, draw.between(1, 6)))
            for keep in ("mean", "highest"):
                made = self.merged(entries, keep)
                self.assertEqual(self.merged(draw.shuffled(entries), keep), made)

    def test_by_places(self):
        """Cell by cell, from what each entry has at the place of the cell's corner."""
        for number in range(60):
            entries = list(grids_by(Draw(66, number), 4))
            both = self.merged(entries), self.merged(entries, "highest")
            for row, col in itertools.product(range(4), range(5)):
                some = [held_at(entry, -3 + 6 * col, 7 + 6 * (3 - row)) for entry in entries]
                some = [it for it in some if it is not None]
                mean, highest = (cells[row][col] for cells in both)
                self.assertEqual(highest, max(some, default=None))
                self.assertEqual(mean is None, not some)
                if some:
                    # The nearest whole number, and of two the higher one.
                    twice_off = 2 * (sum(some) - len(some) * mean)
                    self.assertTrue(-len(some) <= twice_off < len(some))

    def test_one_entry(self):
        for number in range(60):
            entry = next(grids_by(Draw(67, number), 1))
            for keep in ("mean", "highest"):
                for row, line in enumerate(self.merged([entry], keep)):
                    wanted = [held_at(entry, -3 + 6 * col, 7 + 6 * (3 - row)) for col in range(5)]
                    self.assertEqual(line, wanted)

    def test_twice(self):
        """Named twice an entry counts twice, and a whole list that stands twice changes nothing."""
        for number in range(60):
            entries = list(grids_by(Draw(68, number), 3))
            self.assertEqual(self.merged(2 * entries), self.merged(entries))


def held_at(entry, east, north):
    """What an entry has at a place, or None."""
    grid, cells = entry
    col, row = (east - grid["west"]) // 6, (north - grid["south"]) // 6
    if 0 <= col < grid["cols"] and 0 <= row < grid["rows"]:
        return cells[grid["rows"] - 1 - row][col]
    return None


def told_by_bytes(data):
    """The same of a list, from the bytes in one pass."""
    if not is_utf8(data):
        return "list: not text"
    names, words, number = [], 0, 1
    was_space = True
    for byte in data:
        if byte == 10:
            words, number = 0, number + 1
        elif byte not in (9, 13, 32):
            words += was_space
            names += [b""] if was_space else []
            names[-1] += bytes([byte])
        was_space = byte in (9, 10, 13, 32)
        if words > 1:
            return f"list: line {number} does not have one word"
    if not 0 < len(names) <= 1000:
        return "list: too many entries" if names else "list: no entries"
    for at, name in enumerate(names):
        if name in (b"o.asc", b"o.csv"):
            return f"list: grid {at} is also an output"
    return f"{len(names)} entries, {[name.decode() for name in names]}"


class Names(unittest.TestCase):
    def test_random(self):
        found = set()
        for number in range(1500):
            data = random_lists.name_list_of(1, number)
            self.assertEqual(told(data), told_by_bytes(data), f"list {number} of seed 1")
            found.add("".join(it for it in told_by_bytes(data).partition(",")[0] if not it.isdigit()))
        # Each fault came, and so did lists without one.
        self.assertEqual(len(found), 6, found)

    def test_byte_of_zero(self):
        files = {"list.txt": b"a\0b", "c.json": json.dumps(calibration(CELLS)).encode()}
        self.assertEqual(run(files, MERGE), (4, "", "sgm: cannot read grid 0\n", {}))


if __name__ == "__main__":
    unittest.main()
