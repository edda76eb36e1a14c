#!/usr/bin/env python3
"""Tries survey_page.py without a browser: what it refuses, how a grid is reduced, and what stands in the page.
tests/survey_page.py tries the page itself."""

import base64
import csv
import fractions
import io
import json
import math
import os
import random
import re
import shutil
import subprocess
import sys
import tempfile
import unittest
import zlib

import test_regions as rows
from sgm_tools import exact, files, grids, pictures, reports, running
from sgm_tools import page as tool
from sgm_tools import points as sgm_points
from sgm_tools import regions as sgm_regions
from sgm_tools.running import numpy
from survey_page import TEMPLATE

HERE = os.path.dirname(os.path.abspath(__file__))
TOOL = os.path.join(HERE, "survey_page.py")
HEAP = os.path.join(HERE, "..", "examples", "stockpile")
EMPTY = -(2**31)

# Poses

ONE = 1 << 30
EVEN = [ONE, 0, 0, 0, ONE, 0, 0, 0, ONE]
TILT = [ONE, 0, 0, 0, 858993459, -644245094, 0, 644245094, 858993459]
QUARTER = [0, -ONE, 0, ONE, 0, 0, 0, 0, ONE]
HALF = [ONE // 2, 0, 0, 0, ONE, 0, 0, 0, ONE]
MOST = 2000000000
# A matrix and a shift, and points of the camera's frame with their places in the site; None where
# the height is out of range.
ROWS = [
    (EVEN, (0, 0, 0), [((7, -7, 3), (7, -7, 3)), ((-1, 0, -MOST), (-1, 0, -MOST))]),
    (
        EVEN,
        (100, -200, 5),
        [
            ((7, -7, 3), (107, -207, 8)),
            ((0, 0, 1999999995), (100, -200, MOST)),
            ((0, 0, 1999999996), None),
        ],
    ),
    (EVEN, (0, 0, -5), [((0, 0, -1999999995), (0, 0, -MOST)), ((0, 0, -1999999996), None)]),
    (QUARTER, (0, 0, 0), [((5, 3, 2), (-3, 5, 2)), ((-5, 3, 2), (-3, -5, 2))]),
    (
        TILT,
        (0, 0, 0),
        [
            ((1, 10, 5), (1, 5, 10)),
            ((1, -10, -5), (1, -5, -10)),
            ((1, 3, 1), (1, 2, 3)),
            ((-1, -3, -1), (-1, -2, -3)),
            ((0, 0, 5), (0, -3, 4)),
            ((0, 5, 0), (0, 4, 3)),
            ((0, 5, -5), (0, 7, -1)),
            ((0, -5, 5), (0, -7, 1)),
            ((0, 1000000000, 0), (0, 800000000, 600000000)),
            ((0, 0, 1000000000), (0, -600000000, 800000000)),
        ],
    ),
    (
        HALF,
        (0, 0, 0),
        [
            ((1, 0, 0), (1, 0, 0)),
            ((-1, 0, 0), (0, 0, 0)),
            ((3, 0, 0), (2, 0, 0)),
            ((-3, 0, 0), (-1, 0, 0)),
        ],
    ),
]
# A pose of the made-up surveys: tilted by 12 degrees and turned by 30.
ASLANT = [929887697, -525138994, 111621739, 536870912, 909567419, -193334523]
ASLANT += [0, 223243478, 1050277989]
CAMERA = {"focal": 25600, "baseline": 1000, "cx": 0, "cy": 0, "doffs": 256, "mount": 150000}
CAMERA |= {"near": 1, "far": 1000000}


def plainly(matrix, shift, point):
    """East, north and height by the definition, with Python's own numbers."""
    sums = [sum(a * b for a, b in zip(matrix[at : at + 3], point)) for at in (0, 3, 6)]
    return tuple(part + (2 * it + ONE) // (2 * ONE) for it, part in zip(sums, shift))


def setUpModule():
    running.need_for_tests(numpy=numpy, PIL=running.Image)


class Heap(unittest.TestCase):
    def setUp(self):
        """The example's outputs and calibration, in a folder of their own."""
        folder = tempfile.TemporaryDirectory()
        self.addCleanup(folder.cleanup)
        self.folder = folder.name
        for ending in ("pgm", "asc", "csv"):
            shutil.copy(os.path.join(HEAP, "expected", f"out.{ending}"), self.path(f"o.{ending}"))
        shutil.copy(os.path.join(HEAP, "calibration.json"), self.path("c.json"))

    def path(self, name):
        return os.path.join(self.folder, name)

    def run_tool(self, *options):
        """The status, both streams, and the page, if there is one."""
        command = [sys.executable, TOOL, "o", "--calib", "c.json", *options]
        done = subprocess.run(command, cwd=self.folder, capture_output=True, text=True)
        page = None
        if os.path.exists(self.path("o.html")):
            with open(self.path("o.html"), encoding="utf-8") as file:
                page = file.read()
        return done.returncode, done.stdout, done.stderr, page

    def change(self, key, value, inner=None):
        with open(self.path("c.json")) as file:
            calibration = json.load(file)
        if inner is None:
            calibration[key] = value
        else:
            calibration[key][inner] = value
        with open(self.path("c.json"), "w") as file:
            json.dump({name: it for name, it in calibration.items() if it is not None}, file)

    def known(self, *options):
        """What the page knows."""
        status, _, err, page = self.run_tool(*options)
        self.assertEqual((status, err), (0, ""))
        return json.loads(re.search('id="survey">(.*?)</script>', page, re.S)[1])

    def calibration(self):
        with open(self.path("c.json")) as file:
            return json.load(file)

    def refused(self, line):
        self.assertEqual(self.run_tool(), (1, "", f"survey_page: {line}\n", None))


class Pages(Heap):
    def test_what_it_knows(self):
        status, out, err, page = self.run_tool()
        self.assertEqual((status, err), (0, ""))
        self.assertTrue(out.startswith("o.html: "), out)
        known = json.loads(re.search('id="survey">(.*?)</script>', page, re.S)[1])
        grid, report = grids.read_grid(self.path("o.asc")), reports.read_report(self.path("o.csv"))
        heights = numpy.frombuffer(base64.b64decode(known["heights"]), "<i4").reshape(known["rows"], known["cols"])
        self.assertTrue((numpy.where(grid.filled, grid.heights, EMPTY) == heights).all())
        for region, line in zip(known["regions"], report):
            self.assertEqual(region["report"], {**line, "fill": str(line["fill"]), "cut": str(line["cut"])})
        self.assertEqual(known["block"], 1)

    def test_bridged(self):
        """The table of version 3."""
        self.assertNotIn('"bridged":', self.run_tool()[3])
        with open(self.path("o.csv")) as file:
            lines = file.read().splitlines()
        words = [line.split(",") for line in lines]
        with open(self.path("o.csv"), "w") as file:
            for bridged, line in zip(("bridged", 7, 0), words):
                file.write(",".join([*line[:2], str(bridged), *line[2:]]) + "\n")
        status, _, err, page = self.run_tool()
        self.assertEqual((status, err), (0, ""))
        known = json.loads(re.search('id="survey">(.*?)</script>', page, re.S)[1])
        self.assertEqual([region["report"]["bridged"] for region in known["regions"]], [7, 0])
        self.assertEqual([str(region["report"]["empty"]) for region in known["regions"]], [line[2] for line in words[1:]])

    def test_no_network(self):
        """No address stands in the page but the name of SVG's own kind, and nothing is loaded from elsewhere."""
        page = self.run_tool("--left", os.path.abspath(os.path.join(HEAP, "left.pgm")))[3]
        self.assertEqual(set(re.findall(r"\w+://[^\s\"']*", page)), {"http://www.w3.org/2000/svg"})
        self.assertEqual(re.findall(r"<(?:link|iframe|object|script src|img src)", page), [])

    def test_nothing_ends_the_data(self):
        text = tool.page(TEMPLATE, "</title><script>", {"a": "</script><b>"})
        self.assertNotIn("</script><b>", text)
        self.assertNotIn("</title><script>", text)
        self.assertIn("&lt;/title&gt;&lt;script&gt;", text)

    def test_no_regions(self):
        self.change("regions", None)
        os.remove(self.path("o.csv"))
        status, _, err, page = self.run_tool()
        self.assertEqual((status, err), (0, ""))
        self.assertIn('"regions":[]', page)


class ControlPoints(Heap):
    LEFT = os.path.abspath(os.path.join(HEAP, "left.pgm"))

    def samples_of(self, control):
        data = zlib.decompress(base64.b64decode(control["samples"]))
        return numpy.frombuffer(data, "<u2").reshape(control["height"], control["width"])

    def picture_of(self, control):
        kind, _, text = control["picture"].partition(",")
        self.assertEqual(kind, "data:image/png;base64")
        return numpy.asarray(running.Image.open(io.BytesIO(base64.b64decode(text))))

    def test_what_it_knows(self):
        known = self.known("--left", self.LEFT)
        self.assertEqual((known["control"], known["pose"], known["hasGrid"]), (None, None, True))
        self.assertIsNotNone(known["left"])
        known = self.known("--left", self.LEFT, "--control-points")
        control, (samples, _) = known["control"], files.read_pgm(self.path("o.pgm"))
        self.assertTrue((self.samples_of(control) == samples).all())
        left, most = files.read_pgm(self.LEFT)
        brightest = min(most, int(left.max()))
        self.assertTrue((self.picture_of(control) == left.astype(int) * 255 // brightest).all())
        with open(self.path("c.json")) as file:
            calibration = json.load(file)
        for key, number in calibration["camera"].items():
            self.assertEqual(control[key], number)
        self.assertEqual(control["first"], calibration["disparities"]["first"])
        self.assertIsNone(known["left"])

    def test_rectified(self):
        """A warp that takes each pixel from a pixel further right: the last column has nothing."""
        matrix = [1, 0, 1, 0, 1, 0, 0, 0, 1]
        self.change("warp", {"left": {"kind": "projective", "matrix": matrix}})
        control = self.known("--left", self.LEFT, "--control-points")["control"]
        left, most = files.read_pgm(self.LEFT)
        moved = left.astype(int)[:, 1:]
        found = self.picture_of(control)
        self.assertTrue((found[:, :-1] == moved * 255 // min(most, moved.max())).all())
        self.assertFalse(found[:, -1].any())

    def test_no_grid(self):
        """The first match of a site has none yet."""
        for key in ("regions", "grid"):
            self.change(key, None)
        for ending in ("asc", "csv"):
            os.remove(self.path(f"o.{ending}"))
        self.refused("o.asc: No such file or directory")
        known = self.known("--left", self.LEFT, "--control-points")
        self.assertEqual((known["hasGrid"], known["regions"], known["bridges"]), (False, [], None))

    def test_pose(self):
        pose = {"matrix": ASLANT, "east": 5, "north": -6, "up": 7}
        self.change("version", 3)
        self.change("pose", pose)
        self.assertEqual(self.known()["pose"], pose)
        self.change("pose", {**pose, "matrix": TILT[::-1]})
        self.assertEqual(self.known()["pose"]["matrix"], TILT[::-1])
        self.change("pose", {**pose, "matrix": [*TILT[:8], 0]})
        os.remove(self.path("o.html"))
        self.refused("the calibration's pose.matrix isn't nearly a rotation")

    def test_refused(self):
        status, out, err, page = self.run_tool("--control-points")
        self.assertEqual((status, out, page), (2, "", None))
        self.assertTrue(err.endswith("survey_page.py: error: --control-points needs --left\n"), err)
        small = self.path("small.pgm")
        with open(small, "wb") as file:
            file.write(b"P5 2 2 255\n1234")
        line = f"survey_page: {small} and o.pgm have different sizes: is it the left picture of this survey?\n"
        found = self.run_tool("--left", small, "--control-points")
        self.assertEqual(found, (1, "", line, None))
        with open(self.path("o.asc")) as file:
            head, _, rest = file.read().partition(str(EMPTY))
        with open(self.path("o.asc"), "w") as file:
            file.write(head + str(grids.NO_DIFFERENCE) + rest)
        with open(self.path("o.csv"), "w") as file:
            file.write("both,come,gone,empty,fill,cut\n0,0,0,0,0,0\n")
        found = self.run_tool("--left", self.LEFT, "--control-points")
        line = "a change has no control points: take the page of one of its surveys"
        self.assertEqual(found, (1, "", f"survey_page: {line}\n", None))


def heights_in_cells(calibration, out):
    """The heights of the points that fall into each cell, by the plain definitions: {(column, row): [..]}."""
    camera, grid, pose = (calibration.get(key) for key in ("camera", "grid", "pose"))
    first, cells = calibration["disparities"]["first"], {}
    values, filled = files.read_disparities(out)
    rounded = lambda a, b: (2 * a + b) // (2 * b)
    for y, x in numpy.argwhere(filled).tolist():
        k = 256 * first + 16 * int(values[y, x]) + camera["doffs"]
        away = rounded(camera["focal"] * camera["baseline"], k) if k > 0 else -1
        if not camera["near"] <= away <= camera["far"]:
            continue
        east = rounded((256 * x - camera["cx"]) * camera["baseline"], k)
        north = rounded((camera["cy"] - 256 * y) * camera["baseline"], k)
        point = east, north, camera["mount"] - away
        if pose:
            point = plainly(pose["matrix"], [pose[key] for key in ("east", "north", "up")], point)
            if abs(point[2]) > MOST:
                continue
        col, south = ((point[at] - grid[side]) // grid["cell"] for at, side in enumerate(("west", "south")))
        if 0 <= col < grid["cols"] and 0 <= south < grid["rows"]:
            cells.setdefault((col, grid["rows"] - 1 - south), []).append(point[2])
    return cells


def deviation(heights):
    """Their standard deviation about their mean, to the nearest whole number, exactly."""
    mean = fractions.Fraction(sum(heights), len(heights))
    square = sum((it - mean) ** 2 for it in heights) / len(heights)
    # The root of q is nearest to n where (2 n - 1)^2 <= 4 q < (2 n + 1)^2.
    return (math.isqrt(math.floor(4 * square)) + 1) // 2


class HowSure(Heap):
    """Numbers of points and spreads."""

    def numbers_in(self, known, key):
        data = zlib.decompress(base64.b64decode(known["sure"][key]))
        return numpy.frombuffer(data, "<u4").reshape(known["rows"], known["cols"])

    def compare(self, known, cells):
        """What the page knows is what a plain count says."""
        wanted = numpy.zeros((2, known["rows"], known["cols"]), int)
        for (col, row), heights in cells.items():
            wanted[:, row, col] = len(heights), deviation(heights)
        for key, each in zip(("numbers", "spreads"), wanted):
            self.assertTrue((self.numbers_in(known, key) == each).all(), key)

    def test_in_the_cameras_frame(self):
        known = self.known()
        cells = heights_in_cells(self.calibration(), self.path("o.pgm"))
        self.assertGreater(len(cells), 10000)
        self.compare(known, cells)
        self.assertEqual(known["strange"], 0)
        # The cells of version 1 keep the highest of these.
        heights = numpy.frombuffer(base64.b64decode(known["heights"]), "<i4").reshape(known["rows"], known["cols"])
        for (col, row), found in cells.items():
            self.assertEqual(heights[row, col], max(found))

    def test_with_a_pose(self):
        self.change("version", 3)
        self.change("pose", {"matrix": ASLANT, "east": 500000, "north": -700000, "up": 431000000})
        cells = heights_in_cells(self.calibration(), self.path("o.pgm"))
        self.assertGreater(len(cells), 5000)
        known = self.known()
        self.compare(known, cells)
        self.assertGreater(known["strange"], 5000)

    def test_strange_cells(self):
        """A height that is changed, one that goes, and one without points."""
        lines = files.read_bytes(self.path("o.asc")).decode().splitlines()
        rows = [line.split() for line in lines[6:]]
        there = [(y, x) for y, row in enumerate(rows) for x, it in enumerate(row) if int(it) != EMPTY]
        empty = next((y, x) for y, row in enumerate(rows) for x, it in enumerate(row) if int(it) == EMPTY)
        for (y, x), height in zip((there[7], there[8], empty), ("123456", str(EMPTY), "5")):
            rows[y][x] = height
        with open(self.path("o.asc"), "w") as file:
            file.write("\n".join([*lines[:6], *(" ".join(row) for row in rows), ""]))
        self.assertEqual(self.known()["strange"], 3)

    def test_blocks(self):
        """Where the grid is shown reduced, a block has the points of its cells."""
        out, calibration = self.path("o"), self.calibration()
        most, tool.MOST_CELLS = tool.MOST_CELLS, 2000
        self.addCleanup(setattr, tool, "MOST_CELLS", most)
        known, cells = tool.survey(out, calibration, None), {}
        self.assertEqual((known["block"], known["strange"]), (3, 0))
        for (col, row), heights in heights_in_cells(calibration, out + ".pgm").items():
            cells.setdefault((col // 3, row // 3), []).extend(heights)
        self.compare(known, cells)

    def test_great_numbers(self):
        """The lowest and the highest that can be in one cell, one in another, and none."""
        nothing = numpy.zeros(0, int)
        made = tool.tallied(nothing, nothing, nothing, (2, 3))
        self.assertFalse(made.numbers.any() or made.spreads.any())
        heights = [MOST, -MOST, MOST, 7 - MOST]
        at = [numpy.array(it) for it in ([1, 1, 0, 1, 1], [2, 2, 0, 2, 2], [*heights[:2], -5, *heights[2:]])]
        made = tool.tallied(*at, (2, 3))
        self.assertEqual(made.numbers.tolist(), [[1, 0, 0], [0, 0, 4]])
        self.assertEqual(made.spreads.tolist(), [[0, 0, 0], [0, 0, deviation(heights)]])
        self.assertEqual((made.means[1, 2], made.highest[1, 2], made.means[0, 0]), (2, MOST, -5))

    def test_deviations(self):
        draw = random.Random(47)
        for _ in range(300):
            most = draw.choice([1, 9, 30000, MOST])
            heights = [draw.randint(-most, most) for _ in range(draw.randint(1, 9))]
            zeros = numpy.zeros(len(heights), int)
            made = tool.tallied(zeros, zeros, numpy.array(heights), (1, 1))
            self.assertEqual(made.spreads.tolist(), [[deviation(heights)]])


class Words(Heap):
    def test_ends_of_the_heights(self):
        known, grid = self.known(), grids.read_grid(self.path("o.asc"))
        heights = sorted(grid.heights[grid.filled].tolist())
        spare = len(heights) // 100
        self.assertEqual(known["scale"]["ends"], [heights[spare], heights[-1 - spare]])
        self.assertEqual([tuple(it) for it in known["scale"]["colours"]], pictures.SCALE)

    def test_settings_and_date(self):
        os.utime(self.path("o.asc"), (1767323096, 1767323096))
        self.change("warp", {"left": {"kind": "identity", "nodes": list(range(12))}, "right": {"kind": "identity"}})
        known = self.known()
        self.assertEqual(known["made"], {"name": "o.asc", "date": "2026-01-02 03:04 UTC"})
        settings = dict(known["settings"])
        self.assertEqual(settings["disparities"], "first 28, count 36")
        self.assertEqual(settings["warp"], "left kind identity, nodes (12 of them), right kind identity")
        self.assertNotIn("regions", settings)
        self.assertEqual(tool.settings_of({"a": True, "b": [1, -2]}), [["a", "true"], ["b", "[1, -2]"]])


class Changes(Heap):
    def test_what_it_knows(self):
        """A difference of the example's grid: as if the later heights were 0 everywhere."""
        grid = grids.read_grid(self.path("o.asc"))
        nothing = grids.NO_DIFFERENCE
        with open(self.path("o.asc")) as file:
            head = file.read().splitlines()[:5]
        rows = [[str(-it) if there else str(nothing) for it, there in zip(*row)] for row in zip(grid.heights, grid.filled)]
        with open(self.path("o.asc"), "w") as file:
            file.write("\n".join([*head, f"NODATA_value {nothing}", *(" ".join(row) for row in rows), ""]))
        found = [int(it) for it in grid.heights[grid.filled]]
        fill, cut = (sum(max(0, sign * it) for it in found) * grid.cell**2 for sign in (-1, 1))
        with open(self.path("o.csv"), "w") as file:
            file.write(f"both,come,gone,empty,fill,cut\n{len(found)},3,4,5,{fill},{cut}\n")
        os.remove(self.path("o.pgm"))
        status, _, err, page = self.run_tool()
        self.assertEqual((status, err), (0, ""))
        known = json.loads(re.search('id="survey">(.*?)</script>', page, re.S)[1])
        heights = numpy.frombuffer(base64.b64decode(known["heights"]), "<f8").reshape(known["rows"], known["cols"])
        self.assertTrue((numpy.where(grid.filled, -grid.heights, nothing) == heights).all())
        counts = {"both": len(found), "come": 3, "gone": 4, "neither": 5, "fill": str(fill), "cut": str(cut)}
        self.assertEqual({key: known["change"][key] for key in counts}, counts)
        darkest = known["change"]["darkest"]
        self.assertEqual((known["sure"], known["strange"], known["scale"]["ends"]), (None, 0, [-darkest, darkest]))
        # What is the report's fill is the difference's cut, since the bases are 0.
        report = reports.read_report(os.path.join(HEAP, "expected", "out.csv"))
        for region, line in zip(known["regions"], report):
            self.assertEqual((region["report"]["cut"], region["report"]["lowest"]), (str(line["fill"]), -line["highest"]))
            self.assertEqual(region["base"], 0)

    def test_largest_changes(self):
        heights = numpy.array([[1, -7, -(10**10)], [3, -4, -(10**10)], [-7, -9, 5]])
        nothing = grids.NO_DIFFERENCE
        grid = grids.Grid(10, 20, 100, numpy.where(heights < -(10**9), nothing, heights), heights > -(10**9), nothing)
        made = tool.reduced(grid, 2)
        self.assertEqual(made.heights.tolist(), [[-7, nothing], [-9, 5]])
        self.assertEqual((made.filled.tolist(), made.nothing), ([[True, False], [True, True]], nothing))


class Refused(Heap):
    def test_files(self):
        for name in ("o.asc", "o.pgm", "o.csv", "c.json"):
            os.rename(self.path(name), self.path("away"))
            self.refused(f"{name}: No such file or directory")
            os.rename(self.path("away"), self.path(name))

    def test_another_calibration(self):
        self.change("grid", 126000, "cell")
        self.refused("the calibration's grid isn't that of the heights: is it the calibration of this survey?")

    def test_other_regions(self):
        self.change("regions", [])
        self.refused("the regions of the calibration aren't those of the report: is it the calibration of this survey?")
        self.change("regions", [5])
        self.refused("a region of the calibration isn't an object")

    def test_missing_numbers(self):
        self.change("camera", None)
        self.refused("the calibration has no whole number at camera.focal")
        self.change("grid", None)
        self.refused("the calibration has no whole number at grid.west")

    def test_a_region_outside(self):
        with open(self.path("c.json")) as file:
            regions = json.load(file)["regions"]
        regions[0]["cols"] += 100
        self.change("regions", regions)
        self.refused("a region of the calibration sticks out of the grid")


class Reduced(unittest.TestCase):
    def test_blocks(self):
        for height, width, block in ((2000, 2000, 1), (2000, 2001, 2), (4096, 4096, 3), (1, 4096, 1)):
            self.assertEqual(tool.block_of(height, width), block)

    def test_highest(self):
        heights = numpy.array([[1, 2, EMPTY], [3, -4, EMPTY], [-7, -9, 5]])
        grid = grids.Grid(10, 20, 100, heights, heights != EMPTY)
        made = tool.reduced(grid, 2)
        self.assertEqual(made.heights.tolist(), [[3, EMPTY], [-7, 5]])
        self.assertEqual(made.filled.tolist(), [[True, False], [True, True]])
        # The blocks begin at the north-west, so the last row of blocks reaches a cell further south.
        self.assertEqual((made.west, made.south, made.cell), (10, -80, 200))


class Script(unittest.TestCase):
    """The page's functions that count, run by node."""

    def run_script(self, script, given):
        """What the script makes of `given`, with the page's functions before it; BigInts come back
        as texts."""
        with open(TEMPLATE, encoding="utf-8") as file:
            counting = re.search('<script id="counting">(.*?)</script>', file.read(), re.S)[1]
        text = f"{counting}\nconst given = JSON.parse(require('fs').readFileSync(0, 'utf8'));\n"
        text += f"const made = (() => {{ {script} }})();\n"
        text += "const plain = (_, it) => typeof it === 'bigint' ? it.toString() : it;\n"
        text += "console.log(JSON.stringify(made, plain));"
        with tempfile.TemporaryDirectory() as folder:
            name = os.path.join(folder, "counting.js")
            with open(name, "w", encoding="utf-8") as file:
                file.write(text)
            done = subprocess.run(
                ["node", name], input=json.dumps(given), capture_output=True, text=True
            )
        self.assertEqual(done.stderr, "")
        return json.loads(done.stdout)


@unittest.skipUnless(shutil.which("node"), "node isn't there")
class Legends(Script):
    def test_scale_bars(self):
        """The longest round length that is no longer than a quarter."""
        draw = random.Random(48)
        rounds = [it * 10**power for power in range(14) for it in (1, 2, 5)]
        widths = [4, 7, 8, 19, 20, 40, 8000000, 7999999, 14375000, 4096 * 10**9]
        widths += [draw.randint(4, 10 ** draw.randint(1, 12)) for _ in range(200)]
        wanted = [max(it for it in rounds if 4 * it <= width) for width in widths]
        self.assertEqual(wanted[4:9], [5, 10, 2000000, 1000000, 2000000])
        self.assertEqual(self.run_script("return given.map(barOf);", widths), wanted)

    def test_ends(self):
        """The highest hundredth of the numbers lies above the upper end."""
        draw = random.Random(49)
        lists = [[], [5], [0, 0], list(range(300)), [draw.randint(0, 4 * 10**9) for _ in range(1234)]]
        script = "return given.map(([numbers, low]) => endsOf(Uint32Array.from(numbers), low));"
        made = self.run_script(script, [[it, low] for it in lists for low in (0, 1)])
        wanted = []
        for numbers in lists:
            upper = sorted(numbers)[len(numbers) - 1 - len(numbers) // 100] if numbers else None
            wanted += [None if upper is None else [low, max(low, upper)] for low in (0, 1)]
        self.assertEqual(made, wanted)
        self.assertEqual(made[6], [0, 296])

    def test_ticks(self):
        """Both ends and round numbers between them, in millimetres below a metre."""
        rows = [
            ([-15656, 3453940], True, "m", ["-0.016", "1", "2", "3", "3.454"]),
            ([0, 36100], True, "mm", ["0.0", "10", "20", "30", "36.1"]),
            ([-999999, 999999], True, "mm", ["-1000.0", "-500", "0", "500", "1000.0"]),
            ([431000000, 431000400], True, "m", ["431.000000", "431.0001", "431.0002", "431.0003", "431.000400"]),
            ([1, 16], False, "", ["1", "5", "10", "16"]),
            ([1, 3], False, "", ["1", "2", "3"]),
            ([1, 1], False, "", ["1"]),
            ([0, 0], True, "mm", ["0.0"]),
        ]
        made = self.run_script("return given.map((it) => legendOf(...it));", [row[:2] for row in rows])
        for row, it in zip(rows, made):
            self.assertEqual((it["unit"], [text for _, text in it["ticks"]]), row[2:], row)
            places = [place for place, _ in it["ticks"]]
            self.assertEqual((places[0], places[-1], places), (0, 1 if len(places) > 1 else 0, sorted(places)))
        self.assertAlmostEqual(made[1]["ticks"][2][0], 20000 / 36100)

    def test_colours(self):
        """The legend's colours are those of the picture of the heights."""
        draw = random.Random(50)
        ends = [(-15656, 3453940), (0, 1), (5, 5), (-MOST, MOST)]
        given = [[it, draw.randint(it[0] - 9, it[1] + 9)] for it in ends for _ in range(50)]
        wanted = [pictures.colours_of(numpy.array([it]), *end)[0].tolist() for end, it in given]
        script = "const [colours, all] = given; return all.map(([ends, it]) => colourAt(colours, ends, it));"
        self.assertEqual(self.run_script(script, [pictures.SCALE, given]), wanted)


@unittest.skipUnless(shutil.which("node"), "node isn't there")
class Counting(Script):
    """Against sgm_regions.py and rows that were worked out elsewhere."""

    @staticmethod
    def plane(base, rises):
        return {"base": base, "east": rises[0], "north": rises[1]}

    @staticmethod
    def with_corner(grid):
        return {**grid, "gridSouth": grid["south"]}

    @staticmethod
    def rectangle(region):
        return {key: region[key] for key in ("col", "row", "cols", "rows")}

    def test_bases(self):
        places = [(rows.SMALL, (0, 0, 4, 3), -7, rises, None) for *rises, _ in rows.BASES]
        places += [
            (rows.GREATEST, place, base, rises, good)
            for place, base, rises, _, good in rows.CORNERS
        ]
        given = []
        for grid, place, base, rises, _ in places:
            rectangle = dict(zip(("col", "row", "cols", "rows"), place))
            given.append([self.plane(base, rises), rectangle, self.with_corner(grid)])
        script = """return given.map(([plane, it, grid]) => {
            const base = basesOf(plane, it, grid), ends = [];
            const cells = it.cols > 4 ? [] : Array.from({ length: it.rows }, (_, y) =>
                Array.from({ length: it.cols }, (_, x) => base(it.row + y, it.col + x)));
            for (const row of [it.row, it.row + it.rows - 1])
                for (const col of [it.col, it.col + it.cols - 1]) ends.push(base(row, col));
            return [cells, ends, isInRange(plane, it, grid)]; });"""
        made = self.run_script(script, given)
        self.assertEqual(
            [cells for cells, _, _ in made[: len(rows.BASES)]], [cells for *_, cells in rows.BASES]
        )
        wanted = [[ends, good] for *_, ends, good in rows.CORNERS]
        self.assertEqual([it[1:] for it in made[len(rows.BASES) :]], wanted)

    def test_outlines(self):
        draw, given, wanted = random.Random(41), [], []
        for outline, _ in rows.OUTLINES:
            given.append([outline, self.rectangle(rows.region(rows.SQUARE)), rows.SQUARE])
        for _ in range(200):
            most = draw.choice([9, 10**9])
            grid = {
                "west": draw.randint(-most, most),
                "south": draw.randint(-most, most),
                "cell": draw.randint(1, most),
            }
            grid |= {"cols": draw.randint(1, 6), "rows": draw.randint(1, 6)}
            outline = [draw.randint(-2 * most, 2 * most) for _ in range(2 * draw.randint(3, 7))]
            cols, below = draw.randint(1, grid["cols"]), draw.randint(1, grid["rows"])
            place = {
                "col": grid["cols"] - cols,
                "row": grid["rows"] - below,
                "cols": cols,
                "rows": below,
            }
            given.append([outline, place, grid])
        for outline, place, grid in given:
            inside = [
                int(it)
                for line in sgm_regions.rows_inside({**place, "outline": outline}, grid)
                for it in line
            ]
            least = sgm_regions.least_rectangle(outline, grid)
            wanted.append([inside, least and dict(zip(("col", "row", "cols", "rows"), least))])
        script = """return given.map(([outline, it, grid]) =>
            [[...insideOf(outline, it, grid)], leastRectangle(outline, grid)]);"""
        made = self.run_script(script, given)
        self.assertEqual(made, wanted)
        for (inside, _), (_, drawn) in zip(made, rows.OUTLINES):
            self.assertEqual("".join(".#"[it] for it in inside), drawn.replace(" / ", ""))

    def test_counts_planes_and_plus_minus(self):
        """Heights on a slope with an outline: the same numbers as Python's."""
        draw, given, wanted = random.Random(42), [], []
        camera = {"focal": 40960, "baseline": 1600000, "mount": 8000000}
        for turn in range(40):
            cell = draw.choice([7, 125000, 1000000])
            grid = {
                "west": draw.randint(-999, 999),
                "south": draw.randint(-999, 999),
                "cell": cell,
                "cols": 9,
                "rows": 7,
            }
            most = 2000000000 if turn % 4 == 0 else 50000
            heights = [draw.choice([EMPTY, *5 * [draw.randint(-most, most)]]) for _ in range(63)]
            outline = [
                it
                for _ in range(5)
                for it in (
                    grid["west"] + draw.randint(0, 9 * cell),
                    grid["south"] + draw.randint(0, 7 * cell),
                )
            ]
            it = rows.region(
                grid,
                draw.randint(-9999, 9999),
                [draw.randint(-200000, 200000) for _ in range(2)],
                outline if turn % 3 else None,
                (2, 1, 6, 5),
            )
            array = numpy.array(heights).reshape(7, 9)
            mask, filled = sgm_regions.mask_of(it, grid), array != EMPTY
            found, bases = sgm_regions.found_in(it, grid, array, filled)
            above = [int(high) - int(low) for high, low in zip(found, bases)]
            cells = [
                (col, 6 - row, int(array[row, col]))
                for col, row in sgm_regions.cells_of(it, grid)
                if filled[row, col]
            ]
            plane = sgm_regions.Plane(cells).fitted(cell)
            if plane and max(map(abs, plane[1:])) > 1000000:
                plane = None
            volumes = [
                str(sum(max(0, sign * each) for each in above) * cell**2) for sign in (1, -1)
            ]
            ground = None
            if len(found):
                mean, spread = sgm_regions.ground_spread(found, bases)
                sixteenth = sgm_regions.sixteenth_at(mean, camera)
                ground = [str(sgm_regions.plus_minus(77, cell, sixteenth, spread)), str(spread)]
            ends = [int(found.min()), int(found.max())] if len(found) else [None, None]
            wanted.append([len(found), int(mask.sum()) - len(found), *volumes, *ends,
                           plane and self.plane(plane[0], plane[1:]), ground])
            given.append([self.with_corner(grid), heights, self.rectangle(it), it.get("outline"),
                          self.plane(it["base"], sgm_regions.rises_of(it)), camera])
        script = """return given.map(([grid, heights, rectangle, outline, plane, camera]) => {
            const place = { rectangle, mask: outline && insideOf(outline, rectangle, grid) };
            const it = countIn(place, plane, heights, grid, -2147483648);
            const ground = groundOf(place, plane, heights, grid, -2147483648, camera);
            return [it.cells, it.empty, it.fill, it.cut, it.lowest, it.highest,
                planeOf(place, heights, grid, -2147483648),
                ground && [plusMinus(77, grid.cell, ground), ground.spread]]; });"""
        self.assertEqual(self.run_script(script, given), wanted)

    @staticmethod
    def pose(matrix, shift):
        return {"matrix": matrix, **dict(zip(("east", "north", "up"), shift))}

    def test_frames(self):
        """Both ways between the camera's frame and the site's."""
        draw, given, wanted = random.Random(43), [], []
        for matrix, shift, pairs in ROWS:
            for point, place in pairs:
                given.append([point, self.pose(matrix, shift)])
                wanted.append(place)
        great = 35651072000000000
        for _ in range(100):
            matrix = [draw.randint(-ONE, ONE) for _ in range(9)]
            shift = [draw.randint(-MOST, MOST) for _ in range(3)]
            point = [draw.choice([great, -great, draw.randint(-great, great)]) for _ in range(3)]
            given.append([point, self.pose(matrix, shift)])
            wanted.append(plainly(matrix, shift, point))
        script = """const big = (it) => it.map((part) => BigInt(part));
            return given.map(([point, pose]) => [siteOf(big(point), pose),
                cameraHeight(big(point), pose)]);"""
        texts = [[[str(it) for it in point], pose] for point, pose in given]
        made = self.run_script(script, texts)
        heights = [sgm_points.Pose(**pose).back(*point)[2] for point, pose in given]
        self.assertEqual([int(height) for _, height in made], heights)
        places = [tuple(map(int, place)) for place, _ in made]
        for place, it in zip(places, wanted):
            self.assertEqual(place if it or abs(place[2]) <= MOST else None, it)
        self.assertEqual(self.run_script(script, [[["3", "4", "5"], None]]), [[["3", "4", "5"], "5"]])

    @staticmethod
    def aslant(cells, plane, grid, camera, pose):
        """What a sixteenth of a pixel is in height on a plane at the mean place of cells, (column, row
        from the south), by the definition; None where the camera doesn't look down on it."""
        rounded, n = exact.rounded, len(cells)
        across, along = (sum(2 * it[part] + 1 for it in cells) for part in (0, 1))
        west, south, cell = (grid[key] for key in ("west", "south", "cell"))
        base, east, north = (plane[key] for key in ("base", "east", "north"))
        height = base + rounded((east * across + north * along) * cell, 2000000 * n)
        place = west + rounded(across * cell, 2 * n), south + rounded(along * cell, 2 * n), height
        matrix, shift = pose["matrix"], [pose[key] for key in ("east", "north", "up")]
        off = sum(m * (a - b) for m, a, b in zip(matrix[2::3], place, shift))
        away = camera["mount"] - rounded(off, ONE)
        centre = plainly(matrix, shift, (0, 0, camera["mount"]))
        above = centre[2] - base
        above -= rounded(east * (centre[0] - west) + north * (centre[1] - south), 10**6)
        if away <= 0 or above <= 0:
            return None
        return rounded(16 * away * above, camera["focal"] * camera["baseline"])

    def test_plus_minus_with_a_pose(self):
        """The greater sixteenth of the ground's and the place's own middle counts, as in
        sgm_regions.py."""
        draw, given, wanted = random.Random(44), [], []
        camera = {"focal": 40960, "baseline": 1600000, "mount": 8000000}
        grid = {"west": -700, "south": 123457, "cell": 99999, "cols": 9, "rows": 7}
        aside = [ONE, 0, 0, 0, 0, -ONE, 0, ONE, 0]
        matrices = (EVEN, TILT, ASLANT, QUARTER, aside)
        for turn in range(25):
            matrix = matrices[turn % 5]
            pose = self.pose(matrix, [draw.randint(-(10**7), 10**7) for _ in range(3)])
            # Horizontal, the camera looks down on no level plane that is above it.
            heights = [draw.choice([EMPTY, *3 * [draw.randint(-9999, 9999)]]) for _ in range(63)]
            region = {"name": "g", "col": 0, "row": 1, "cols": 6, "rows": 5, "base": 0}
            other = {**region, "col": 5, "row": 0, "cols": 4, "rows": 3}
            rises = draw.choice([(0, 0), [draw.randint(-200000, 200000) for _ in range(2)]])
            region |= {"rise_east": rises[0], "rise_north": rises[1]}
            plane, array = self.plane(0, rises), numpy.array(heights).reshape(7, 9)
            both = [
                [(col, 6 - row) for col, row in sgm_regions.cells_of(it, grid) if array[row, col] != EMPTY]
                for it in (region, other)
            ]
            found = sgm_regions.found_in(region, grid, array, array != EMPTY)
            spread = sgm_regions.ground_spread(*found)[1]
            sixteenths = [self.aslant(cells, plane, grid, camera, pose) for cells in both]
            first = {"version": 3, "disparities": {"first": 0}}
            points = sgm_points.Points({**first, "camera": {**CAMERA, **camera}, "pose": pose})
            middles = [sgm_regions.middle_of(it, grid, array != EMPTY) for it in (region, other)]
            known = [sgm_regions.sixteenth_aslant(it, region, grid, points) for it in middles]
            self.assertEqual(sixteenths, known)
            wanted.append(None if None in sixteenths else [str(max(sixteenths)), str(spread)])
            places = [self.rectangle(it) for it in (region, other)]
            given.append([self.with_corner(grid), heights, places, plane, camera, pose])
        self.assertGreater(sum(it is None for it in wanted), 2)
        self.assertLess(sum(it is None for it in wanted), 20)
        script = """return given.map(([grid, heights, places, plane, camera, pose]) => {
            const [place, other] = places.map((rectangle) => ({ rectangle, mask: null }));
            const found = groundOf(place, plane, heights, grid, -2147483648, camera, pose);
            const it = sureAt(other, found, plane, heights, grid, -2147483648, camera, pose);
            return it && [it.sixteenth, it.spread]; });"""
        self.assertEqual(self.run_script(script, given), wanted)

    CONTROL = {
        **CAMERA, "first": 3, "cx": 300, "cy": -77, "doffs": -5, "far": 400000, "width": 5, "height": 4
    }

    def places(self, samples, control, pose, places):
        script = """const [control, samples, pose, places] = given;
            return places.map(([x, y]) => pointAt(control, samples, pose, x, y));"""
        return self.run_script(script, [control, samples, pose, places])

    def test_points(self):
        """At a pixel's middle a place is what the program makes of the pixel, and between pixels
        it is in proportion."""
        draw = random.Random(45)
        samples = [draw.choice([0, 16, 17, draw.randint(16, 600)]) for _ in range(20)]
        calibration = {"version": 3, "disparities": {"first": 3}, "camera": self.CONTROL}
        for pose in (None, self.pose(ASLANT, (-9, 8, 7))):
            points = sgm_points.Points({**calibration, **({"pose": pose} if pose else {})})
            places = [(x, y) for y in range(4) for x in range(5)]
            made = self.places(samples, self.CONTROL, pose, [[1000 * x, 1000 * y] for x, y in places])
            for (x, y), sample, it in zip(places, samples, made):
                if sample == 0:
                    self.assertEqual(it, {"fault": f"the pixel {x}, {y} has no disparity"})
                    continue
                wanted = points.of(x, y, sample - 16)
                if wanted is None:
                    self.assertIn("isn't within near and far", it["fault"])
                    continue
                self.assertEqual([int(part) for part in it["point"]], list(wanted))
                self.assertEqual(int(it["disparity"]), (48 + sample - 16) * 10**10 // 16)
        samples = [32, 48, 0, 16, 16, 64, 16, *13 * [16]]
        places = [[500, 0], [0, 500], [500, 500], [250, 0], [1500, 0], [1000, 1], [1500, 1000]]
        made = self.places(samples, {**self.CONTROL, "far": 2000000000}, None, places)
        found = [it.get("fault") or int(it["disparity"]) - 3 * 10**10 for it in made]
        none = "the pixel 2, 0 has no disparity"
        wanted = [15 * 10**9, 20 * 10**9, 15 * 10**9, 125 * 10**8, none, 1998 * 10**7, 0]
        self.assertEqual(found, wanted)
        self.assertEqual([it.get("apart") for it in made], [16, 32, 48, 16, None, 32, 0])
        k = 16 * (48 + 24) - 5
        wanted = [
            exact.rounded((256 // 2 - 300) * 1000, k), exact.rounded(-77 * 1000, k),
            150000 - exact.rounded(25600 * 1000, k),
        ]
        self.assertEqual([int(it) for it in made[0]["point"]], wanted)

    def test_no_points(self):
        outside = [[-1, 0], [0, -500], [4001, 0], [0, 3001]]
        made = self.places(20 * [16], self.CONTROL, None, outside)
        self.assertEqual(made, 4 * [{"fault": "it lies outside the picture"}])
        for changed, fault in [
            ({"first": -1}, "its disparity has no distance"),
            ({"far": 1000}, "its distance, 0.034 m, isn't within near and far of the calibration"),
            ({"near": 390000}, "its distance, 0.034 m, isn't within near and far of the calibration"),
        ]:
            made = self.places(20 * [16], {**self.CONTROL, **changed}, None, [[0, 0]])
            self.assertEqual(made, [{"fault": fault}])
        high = self.pose(EVEN, (0, 0, MOST))
        made = self.places(20 * [16], self.CONTROL, high, [[0, 0]])
        self.assertEqual(made, [{"fault": "its height in the site is more than 2 km"}])

    def test_typed(self):
        lengths = {
            "": "", " ": "", "12": "12", " -0,5": "-0.5", "2600123.456789": "2600123.456789", "7.": None, ".5": None,
            "1.2345678": None, "1e3": None, "+1": None, "123456789": None, "-": None, "1 000": None,
        }
        self.assertEqual(
            self.run_script("return given.map(lengthText);", list(lengths)), list(lengths.values())
        )
        places = {"12": 12000, "0.5": 500, " 3,25 ": 3250, "1.23456": 1235, "": None, "-1": None, "x": None, "12345": None}
        self.assertEqual(
            self.run_script("return given.map(thousandths);", list(places)), list(places.values())
        )

    def test_tables(self):
        points = [
            {"name": "p1", "x": 12000, "y": 7500, "east": "2600000.5", "north": "-3", "up": ""},
            {"name": 'a "b", c', "x": 0, "y": 1, "east": "", "north": "", "up": "0.000001"},
            {"name": " west", "x": 4095000, "y": 250, "east": "1", "north": "2", "up": "3"},
        ]
        text = (
            'name,x,y,east,north,up\np1,12,7.5,2600000.5,-3,\n"a ""b"", c",0,0.001,,,0.000001\n" west",4095,0.25,1,2,3\n'
        )
        self.assertEqual(self.run_script("return tableOf(given);", points), text)
        self.assertEqual(self.run_script("return tableOf([]);", None), "name,x,y,east,north,up\n")
        lines = list(csv.DictReader(io.StringIO(text)))
        self.assertEqual([line["name"] for line in lines], [it["name"] for it in points])
        for variant in (text, text[:-1], text.replace("\n", "\r\n"), "\ufeff" + text, text + "\n\n"):
            self.assertEqual(self.run_script("return pointsIn(given);", variant), {"points": points})
        head = "name,x,y,east,north,up\n"
        mark = "a quotation mark stands wrongly in it"
        no_table = {"fault": f"it isn't a table of control points: its first line has to be {head[:-1]}"}
        for bad, fault in [
            ("", None), ("name,x,y\n", None), ('"name', mark), (head + 'a,"b', mark), (head + 'a,b"c,1,2,3,4', mark),
            (head + "a,1,2,3,4\n", "line 2 hasn't six words"),
            (head + "\na,1,2,3,4,5\nb,1,2,3,4,5,\n", "line 4 hasn't six words"),
            (head + "a,1,-2,3,4,5\n", "line 2: 1, -2 is no place in pixels"),
            (head + "a,1,2,3,4 m,5\n", "line 2: 4 m is no length in metres"),
        ]:
            wanted = no_table if fault is None else {"fault": fault}
            self.assertEqual(self.run_script("return pointsIn(given);", bad), wanted, bad)


class Bridges(unittest.TestCase):
    @staticmethod
    def bridges(calibration, grid, values, filled):
        _, points = tool.sure_of(calibration, grid, values, filled, 1)
        return tool.bridges_of(calibration, grid, points)

    def test_cells_without_points(self):
        """Pixels of a wall of 5 x 3: a bridged cell is one with a height into which no point
        falls."""
        calibration = {
            "version": 3,
            "disparities": {"first": 0, "count": 4},
            "camera": {
                "focal": 256,
                "baseline": 1000,
                "cx": 0,
                "cy": 0,
                "doffs": 256,
                "mount": 5000,
                "near": 1,
                "far": 10000,
            },
            "grid": {
                "west": -100,
                "south": -2900,
                "cell": 1000,
                "cols": 5,
                "rows": 3,
                "keep": "mean",
                "bridge": 2,
            },
        }
        # All disparities are 0, so a pixel is 1000 um wide, and the pixel (x, y) falls into column
        # x and row y.
        there = numpy.array([[1, 1, 0, 1, 1], [0, 1, 1, 0, 0], [1, 0, 1, 1, 1]], bool)
        filled = there.copy()
        filled[0, 2] = filled[2, 1] = True
        grid = grids.Grid(-100, -2900, 1000, numpy.where(filled, 4000, EMPTY), filled)
        values = numpy.zeros((3, 5), numpy.int64)
        found = self.bridges(calibration, grid, values, there)
        self.assertEqual(numpy.argwhere(found).tolist(), [[0, 2], [2, 1]])
        marks = tool.marks_of(found)
        self.assertEqual(list(base64.b64decode(marks["bridges"])), [1 << 2, 1 << 3])
        self.assertIsNone(self.bridges({**calibration, "version": 2}, grid, values, there))
        # A quarter turn to the left puts column x and row y into row 4 - x and column y.
        turned = {**calibration, "pose": {"matrix": QUARTER, "east": -3000, "north": 0, "up": 0}}
        turned["grid"] = {**calibration["grid"], "west": -3100, "south": -100, "cols": 3, "rows": 5}
        other = grids.Grid(-3100, -100, 1000, grid.heights.T[::-1], filled.T[::-1])
        found = self.bridges(turned, other, values, there)
        self.assertEqual(numpy.argwhere(found).tolist(), [[2, 0], [3, 2]])
        grid.filled[0, 0] = False
        with self.assertRaises(running.Wrong):
            self.bridges(calibration, grid, values, there)


if __name__ == "__main__":
    unittest.main()
