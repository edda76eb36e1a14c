#!/usr/bin/env python3
"""Tries change_volumes.py on differences drawn at random, against plain sums, and on files that it has to refuse."""

import json
import math
import os
import random
import subprocess
import sys
import tempfile
import unittest

HERE = os.path.dirname(os.path.abspath(__file__))
TOOL = os.path.join(HERE, "change_volumes.py")

from sgm_tools import files, running
from sgm_tools import changes as tool
from sgm_tools.exact import decimal

NOTHING = -9999999999
HEAD = "region,cells,empty,fill_m3,cut_m3,net_m3,mean_m,spread_m"


def setUpModule():
    running.need_for_tests(numpy=running.numpy)


class Changes(unittest.TestCase):
    def setUp(self):
        folder = tempfile.TemporaryDirectory()
        self.addCleanup(folder.cleanup)
        self.folder = folder.name

    def write(self, rows, regions, volumes=None, cell=1000, nothing=NOTHING):
        with open(os.path.join(self.folder, "d.asc"), "w") as file:
            file.write(f"ncols {len(rows[0])}\nnrows {len(rows)}\nxllcorner 5\nyllcorner -7\ncellsize {cell}\nNODATA_value {nothing}\n")
            file.write("".join(" ".join(str(nothing if it is None else it) for it in row) + "\n" for row in rows))
        found = [it for row in rows for it in row if it is not None]
        fill, cut = (sum(max(0, sign * it) for it in found) * cell**2 for sign in (1, -1))
        with open(os.path.join(self.folder, "d.csv"), "w") as file:
            file.write(volumes or f"both,come,gone,empty,fill,cut\n{len(found)},0,0,{len(rows) * len(rows[0]) - len(found)},{fill},{cut}\n")
        grid = {"west": 5, "south": -7, "cell": cell, "cols": len(rows[0]), "rows": len(rows)}
        listed = [dict(zip(("name", "col", "row", "cols", "rows", "base"), (*it, 0))) for it in regions]
        with open(os.path.join(self.folder, "c.json"), "w") as file:
            json.dump({"grid": grid, "regions": listed}, file)

    def run_tool(self, *options):
        command = [sys.executable, TOOL, "d", "--calib", "c.json", *options]
        done = subprocess.run(command, cwd=self.folder, capture_output=True, text=True)
        return done.returncode, done.stdout, done.stderr


class Tables(Changes):
    def test_by_hand(self):
        self.write([[1000000, -2000000, None], [0, 3000000, 4000000]], [("west", 0, 0, 1, 2), ("gap", 2, 0, 1, 1)])
        status, out, err = self.run_tool("--still", "west")
        self.assertEqual((status, err), (0, ""))
        # West: 1 and 0 m; cells of 1 mm, so 1 m is 0.000001 cubic metres. The root of (1 + 0) / 2 is 0.707106 m.
        lines = ["west,2,0,0.000001,0,0.000001,0.5,0.5,0.000001414212", "gap,0,1,0,0,0,,,0"]
        lines += ["all,5,1,0.000008,0.000002,0.000006,1.2,2.135415,0.00000353553"]
        self.assertEqual(out.split("\n"), [HEAD + ",least_m3", *lines, ""])
        status, out, err = self.run_tool("--digits", "2")
        self.assertEqual(out.split("\n")[1], "west,2,0,0.00,0.00,0.00,0.50,0.50")

    def test_moved_cameras(self):
        """What the poses are has no part in it: the grids are in one frame."""
        self.write([[1000000, -2000000, None], [0, 3000000, 4000000]], [("west", 0, 0, 1, 2)])
        wanted = self.run_tool("--still", "west")
        self.assertEqual(wanted[0], 0)
        name = os.path.join(self.folder, "c.json")
        calibration = files.read_json(name)
        for matrix in ([1 << 30, 0, 0, 0, 858993459, -644245094, 0, 644245094, 858993459], 9 * [0]):
            pose = {"matrix": matrix, "east": 5000000, "north": 0, "up": -7}
            with open(name, "w") as file:
                json.dump({**calibration, "version": 3, "pose": pose}, file)
            self.assertEqual(self.run_tool("--still", "west"), wanted)

    def test_at_random(self):
        draw = random.Random(29)
        for most in (10, 10**6, 4 * 10**9):
            rows = [[draw.choice([None, *[draw.randint(-most, most)] * 3]) for _ in range(30)] for _ in range(20)]
            self.write(rows, [("a", 4, 3, 20, 10)], cell=125000)
            status, out, err = self.run_tool()
            self.assertEqual((status, err), (0, ""))
            found = [it for row in rows[3:13] for it in row[4:24] if it is not None]
            fill, cut = (sum(max(0, sign * it) for it in found) * 125000**2 for sign in (1, -1))
            n, total = len(found), sum(found)
            spread = math.isqrt((n * sum(it * it for it in found) - total * total) // n**2)
            words = ["a", str(n), str(200 - n), *(decimal(it, 18) for it in (fill, cut, fill - cut))]
            words += [decimal((2 * total + n) // (2 * n), 6), decimal(spread, 6)]
            self.assertEqual(out.split("\n")[1], ",".join(words))

    def test_largest(self):
        """Sixteen million cells that changed as much as they can: no sum wraps around."""
        heights = tool.numpy.full((4096, 4096), -4 * 10**9, tool.numpy.int64)
        it = tool.Tally(heights, heights < 0, 1)
        self.assertEqual((it.cut, it.mean(), it.spread(), it.root()), (4 * 10**9 << 24, -4 * 10**9, 0, 4 * 10**9))


class Refused(Changes):
    def refused(self, line, *options):
        self.assertEqual(self.run_tool(*options), (1, "", f"change_volumes: {line}\n"))

    def test_files(self):
        self.write([[1]], [], nothing=-(2**31))
        self.refused("d.asc: heights, and not a difference")
        self.write([[1]], [], volumes="both,come,gone,empty,fill,cut\n1,0,0,0,2000000,0\n")
        self.refused("d.csv says something else than the cells of d.asc: the files aren't of one run")
        self.write([[1]], [], volumes="region,cells,empty,fill,cut,lowest,highest\n")
        self.refused("d.csv: not the volumes of a change of sgm")
        self.write([[1]], [("a", 0, 0, 2, 1)])
        self.refused("a region of the calibration sticks out of the grid")

    def test_still(self):
        self.write([[1, None]], [("a", 0, 0, 1, 1), ("gap", 1, 0, 1, 1), ("a", 0, 0, 1, 1)])
        self.refused("2 regions have the name a, one is needed", "--still", "a")
        self.refused("no regions have the name all, one is needed", "--still", "all")
        self.refused("the region gap has no cell with a height in both surveys", "--still", "gap")


if __name__ == "__main__":
    unittest.main()
