#!/usr/bin/env python3
"""Tries cubic_metres.py on reports whose numbers in metres were worked out by hand, and its volumes above the
ground on heights drawn at random: the definitions (tests/reference*.py) give the same for that base."""

import json
import os
import random
import subprocess
import sys
import tempfile
import unittest
from fractions import Fraction

HERE = os.path.dirname(os.path.abspath(__file__))
TOOL = os.path.join(HERE, "cubic_metres.py")
sys.path.insert(0, os.path.join(HERE, "..", "tests"))

import reference
import reference_matching as matching
from sgm_tools import running
from sgm_tools import points as sgm_points
from sgm_tools import regions as sgm_regions
from sgm_tools import volumes as tool
from sgm_tools.exact import moved

HEAD = "region,cells,empty,fill,cut,lowest,highest\n"
NEW_HEAD = "region,cells,empty,fill_m3,cut_m3,net_m3,lowest_m,highest_m\n"


def setUpModule():
    running.need_for_tests(numpy=running.numpy)


def run(text, *options, calibration=None, heights=None):
    """What the tool makes of a report: its status, both streams, and the file of --out if there is one."""
    with tempfile.TemporaryDirectory() as folder:
        name = os.path.join(folder, "o.csv")
        for other, given in (("o.csv", text), ("c.json", calibration), ("o.asc", heights)):
            if given is not None:
                with open(os.path.join(folder, other), "w") as file:
                    file.write(given)
        done = subprocess.run([sys.executable, TOOL, name, *options], cwd=folder, capture_output=True, text=True)
        made, written = os.path.join(folder, "m.csv"), None
        if os.path.exists(made):
            with open(made) as file:
                written = file.read()
    return done.returncode, done.stdout, done.stderr.replace(name, "o.csv"), written


class Moved(unittest.TestCase):
    def test_all_digits(self):
        for number, places, text in [
            (0, 18, "0"),
            (1, 18, "0.000000000000000001"),
            (-1, 6, "-0.000001"),
            (10**18, 18, "1"),
            (2 * 10**18 + 5 * 10**17, 18, "2.5"),
            (2**63, 18, "9.223372036854775808"),
            (-(2**63) - 1, 18, "-9.223372036854775809"),
            # The greatest sum that a report can hold: 4 km of height over 16,777,216 cells of 1 km.
            (4 * 10**9 * 10**18 * 16777216, 18, "67108864000000000"),
            (3428571, 6, "3.428571"),
            (-2000000000, 6, "-2000"),
        ]:
            self.assertEqual(moved(number, places, None), text)

    def test_rounded(self):
        for number, places, digits, text in [
            (1500, 3, 0, "2"),
            (1499, 3, 0, "1"),
            (-1500, 3, 0, "-2"),
            (-1499, 3, 0, "-1"),
            (-499, 3, 0, "0"),
            (2500, 3, 2, "2.50"),
            (2505, 3, 2, "2.51"),
            (2504, 3, 2, "2.50"),
            (999999, 6, 3, "1.000"),
            (7, 2, 4, "0.0700"),
        ]:
            self.assertEqual(moved(number, places, digits), text)


class Tables(unittest.TestCase):
    REPORT = HEAD + (
        "all,9,3,90000000000,0,50000,50000\n"
        "pit no. 2,4,0,1,9223372036854775808,-1500000,250000\n"
        "east,0,1,0,0,,\n"
    )

    def test_exact(self):
        self.assertEqual(
            run(self.REPORT),
            (
                0,
                NEW_HEAD
                + "all,9,3,0.00000009,0,0.00000009,0.05,0.05\n"
                + "pit no. 2,4,0,0.000000000000000001,9.223372036854775808,-9.223372036854775807,-1.5,0.25\n"
                + "east,0,1,0,0,0,,\n",
                "",
                None,
            ),
        )

    def test_rounded_into_a_file(self):
        made = NEW_HEAD + (
            "all,9,3,0.000,0.000,0.000,0.050,0.050\n"
            "pit no. 2,4,0,0.000,9.223,-9.223,-1.500,0.250\n"
            "east,0,1,0.000,0.000,0.000,,\n"
        )
        self.assertEqual(run(self.REPORT, "--digits", "3", "--out", "m.csv"), (0, "", "", made))

    def test_head_alone(self):
        self.assertEqual(run(HEAD), (0, NEW_HEAD, "", None))
        bridged = [text.replace("cells,", "cells,bridged,") for text in (HEAD, NEW_HEAD)]
        self.assertEqual(run(bridged[0]), (0, bridged[1], "", None))

    def test_bridged(self):
        report = HEAD.replace("cells,", "cells,bridged,") + "all,9,2,3,90000000000,0,50000,50000\neast,0,0,1,0,0,,\n"
        made = NEW_HEAD.replace("cells,", "cells,bridged,") + (
            "all,9,2,3,0.00000009,0,0.00000009,0.05,0.05\neast,0,0,1,0,0,0,,\n"
        )
        self.assertEqual(run(report), (0, made, "", None))
        areas = (("all", 4, 3, 40000), ("east", 1, 1, 0))
        words = ("--ground", "all", "--calibration", "c.json")
        made = made.replace("_m\n", "_m,ground_m,above_m3\n").replace("0.05\n", "0.05,0.05,\n")
        made = made.replace(",,\n", ",,,0.05,0\n")
        self.assertEqual(run(report, *words, calibration=calibration(1000, *areas)), (0, made, "", None))

    def test_refused(self):
        for text, line in [
            ("", "not a report of sgm"),
            ("region,cells\n", "not a report of sgm"),
            (HEAD + "a,1,0,5,0,5\n", "line 2 isn't one of a report"),
            (HEAD + "a,1,0,5,0,5,5\nb,1,0,5.0,0,5,5\n", "line 3 isn't one of a report"),
            (HEAD + "a,1,0,5,0,5,x\n", "line 2 isn't one of a report"),
            (HEAD + "a,1,0,0,5,0,5,5\n", "line 2 isn't one of a report"),
            (HEAD.replace("cells,", "cells,bridged,") + "a,1,0,5,0,5,5\n", "line 2 isn't one of a report"),
            (HEAD.replace("cells,", "bridged,cells,"), "not a report of sgm"),
            ("\u00ff" + HEAD, "not a report of sgm"),
        ]:
            self.assertEqual(run(text), (1, "", f"cubic_metres: o.csv: {line}\n", None))


class Changes(unittest.TestCase):
    HEAD = "both,come,gone,empty,fill,cut\n"

    def test_exact(self):
        new_head = "both,come,gone,empty,fill_m3,cut_m3,net_m3\n"
        wanted = new_head + "8,1,1,2,0.000000001,9.223372036854775808,-9.223372035854775808\n"
        text = self.HEAD + "8,1,1,2,1000000000,9223372036854775808\n"
        self.assertEqual(run(text), (0, wanted, "", None))
        wanted = new_head + "8,1,1,2,0.000,9.223,-9.223\n"
        self.assertEqual(run(text, "--digits", "3", "--out", "m.csv"), (0, "", "", wanted))

    def test_refused(self):
        good = "1,2,3,4,5,6\n"
        for rest in ("", "1,2,3,4,5\n", "1,2,3,4,5,x\n", good + good):
            line = "cubic_metres: o.csv: not the volumes of a change of sgm\n"
            self.assertEqual(run(self.HEAD + rest), (1, "", line, None), rest)
        ended = run(self.HEAD + good, "--ground", "a", "--calibration", "c.json", calibration="{}")
        self.assertEqual(ended, (1, "", "cubic_metres: o.csv: the volumes of a change have no ground\n", None))


def calibration(cell, *areas):
    """The calibration's part that the tool reads: regions of (name, cols, rows, base)."""
    keys = ("name", "cols", "rows", "base")
    return json.dumps({"grid": {"cell": cell}, "regions": [dict(zip(keys, area)) for area in areas]})


class Ground(unittest.TestCase):
    # Cells of 1 mm. The ground: four cells, 10 and 2 um above and below their base of 100, so 102 um high. The
    # pile: three cells, 900 um above their base of 0 in all, so 900 - 3 * 102 = 594 above the ground.
    REPORT = HEAD + "ground,4,0,10000000,2000000,98,107\npile,3,1,900000000,0,200,400\nhole,0,2,0,0,,\n"
    AREAS = (("ground", 2, 2, 100), ("pile", 4, 1, 0), ("hole", 1, 2, 7))
    WORDS = ("--ground", "ground", "--calibration", "c.json")

    def test_by_hand(self):
        head = NEW_HEAD.replace("\n", ",ground_m,above_m3\n")
        made = head + (
            "ground,4,0,0.00000000001,0.000000000002,0.000000000008,0.000098,0.000107,0.000102,\n"
            "pile,3,1,0.0000000009,0,0.0000000009,0.0002,0.0004,0.000102,0.000000000594\n"
            "hole,0,2,0,0,0,,,0.000102,0\n"
        )
        self.assertEqual(run(self.REPORT, *self.WORDS, calibration=calibration(1000, *self.AREAS)), (0, made, "", None))

    def test_rounded_into_a_file(self):
        report = HEAD + "a,2,0,3000000000000000000,0,1500000,1500000\nb,1,1,0,4000000000000000000,-4000000,-4000000\n"
        made = NEW_HEAD.replace("\n", ",ground_m,above_m3\n") + (
            "a,2,0,3.0,0.0,3.0,1.5,1.5,-4.0,11.0\nb,1,1,0.0,4.0,-4.0,-4.0,-4.0,-4.0,\n"
        )
        words = ("--ground", "b", "--calibration", "c.json", "--digits", "1", "--out", "m.csv")
        both = calibration(1000000, ("a", 1, 2, 0), ("b", 2, 1, 0))
        self.assertEqual(run(report, *words, calibration=both), (0, "", "", made))

    def test_mean_is_rounded_halves_up(self):
        for above, cells, base, mean in [(1, 2, 0, 1), (-1, 2, 0, 0), (-3, 2, 0, -1), (1, 3, 5, 5), (2, 3, 5, 6)]:
            region = ["g", cells, 0, max(above, 0) * 49, max(-above, 0) * 49, None, None]
            self.assertEqual(tool.mean_height(region, base, 7), mean)

    def test_volume_is_that_of_a_survey_with_this_base(self):
        draw = random.Random(25)
        for _ in range(200):
            cell, base = draw.choice([1, 7, 125000]), draw.randrange(-900, 900)
            heights = [draw.choice([None, draw.randrange(-1000, 1000)]) for _ in range(12)]
            area = {"row": 0, "rows": 1, "col": 0, "cols": 12, "base": base}
            region = ["r", *matching.tally([heights], cell, area)]
            other = draw.randrange(-900, 900)
            _, _, fill, cut, _, _ = matching.tally([heights], cell, {**area, "base": other})
            self.assertEqual(tool.net_above(region, base, cell, other), fill - cut)
            there = [height for height in heights if height is not None]
            if there:
                mean = tool.mean_height(region, base, cell)
                self.assertTrue(-1 < 2 * (len(there) * mean - sum(there)) / len(there) <= 1)

    def test_example(self):
        """The ground's height as base of both regions: the definitions' report has then the tool's volume."""
        heap = os.path.join(HERE, "..", "examples", "stockpile")
        with open(os.path.join(heap, "calibration.json")) as file:
            text = file.read()
        with open(os.path.join(heap, "expected", "out.csv")) as file:
            report = file.read()
        words = ("--ground", "ground", "--calibration", "c.json")
        status, out, err, _ = run(report, *words, calibration=text)
        self.assertEqual((status, err), (0, ""))
        pile = dict(zip(*(line.split(",") for line in out.splitlines()[:2])))
        with open(os.path.join(heap, "expected", "out.asc")) as file:
            rows = [line.split() for line in file][6:]
        cells = [[None if word == "-2147483648" else int(word) for word in row] for row in rows]
        made = json.loads(text)
        base = int(pile["ground_m"].replace(".", ""))
        self.assertEqual(moved(base, 6, None), pile["ground_m"])
        regions = [{**region, "base": base} for region in made["regions"]]
        tallies = [matching.tally(cells, made["grid"]["cell"], region) for region in regions]
        again = reference.table_text(regions, tallies).decode().splitlines()[1].split(",")
        self.assertEqual(moved(int(again[3]) - int(again[4]), 18, None), pile["above_m3"])

    def test_refused(self):
        twice = (*self.AREAS[:2], ("ground", 1, 2, 7))
        good = calibration(1000, *self.AREAS)
        broken = ["", "{", "[]", "7", '{"version":1}', "[" * 100000]
        broken += [good.replace("1000", "1e3"), good.replace("1000", "0"), good.replace("100}", "true}")]
        for report, text, name, line in [
            (self.REPORT, good, "heap", "o.csv: no regions have the name heap, one is needed"),
            (self.REPORT, good, "hole", "o.csv: the region hole has no cell with a height"),
            (
                self.REPORT.replace("hole", "ground"),
                calibration(1000, *twice),
                "ground",
                "o.csv: 2 regions have the name ground, one is needed",
            ),
            (self.REPORT.replace("hole", "rock"), good, "ground", "o.csv: not the report of a survey by c.json"),
            (self.REPORT.replace("4,0", "3,0"), good, "ground", "o.csv: not the report of a survey by c.json"),
            (self.REPORT, calibration(1001, *self.AREAS), "ground", "o.csv: not the report of a survey by c.json"),
            (HEAD, good, "ground", "o.csv: not the report of a survey by c.json"),
            (self.REPORT.replace("900", "9x0"), good, "ground", "o.csv: line 3 isn't one of a report"),
            (self.REPORT, None, "ground", "c.json: No such file or directory"),
            *((self.REPORT, text, "ground", "c.json: not a calibration of sgm with regions") for text in broken),
        ]:
            words = ("--ground", name, "--calibration", "c.json")
            self.assertEqual(run(report, *words, calibration=text), (1, "", f"cubic_metres: {line}\n", None), line)

    def test_words_that_take_each_other(self):
        both = "--ground and --calibration need each other"
        for words, line in [
            (self.WORDS[:2], both),
            (self.WORDS[2:], both),
            (("--heights", "o.asc"), "--heights needs --ground"),
        ]:
            status, out, err, _ = run(self.REPORT, *words, calibration=calibration(1000, *self.AREAS))
            self.assertEqual((status, out), (2, ""))
            self.assertTrue(err.endswith(f"cubic_metres.py: error: {line}\n"), err)


class PlusMinus(unittest.TestCase):
    """The ground of the report above: heights of 98, 100, 103 and 107 um, which lie 4, 2, 1 and 5 from their mean, so 3
    on average. From 40 mm a sixteenth of a pixel is 16 * 40000 * 40000 / (25600 * 1000) = 1000 um there. The pile has
    three cells of 1000 * 1000 um, so it may be off by 3000000 * (2 * 1000 + 3 * 3) / 6 = 1004500000."""

    GRID = {"west": 0, "south": 0, "cell": 1000, "cols": 4, "rows": 4}
    CAMERA = {"focal": 25600, "baseline": 1000, "mount": 40102}
    AREAS = [("ground", 0, 1, 2, 2, 100), ("pile", 0, 0, 4, 1, 0), ("hole", 2, 1, 1, 2, 7)]
    HEIGHTS = (
        "ncols 4\nnrows 4\nxllcorner 0\nyllcorner 0\ncellsize 1000\nNODATA_value -1\n"
        "200 300 400 -1\n98 100 -1 -1\n103 107 -1 -1\n5 5 5 5\n"
    ).replace("-1", "-2147483648")
    WORDS = (*Ground.WORDS, "--heights", "o.asc")
    SAID = f"cubic_metres: {tool.COVERED}\n"

    def calibration(self, **more):
        regions = [dict(zip(("name", "col", "row", "cols", "rows", "base"), area)) for area in self.AREAS]
        return json.dumps({"camera": self.CAMERA, "grid": self.GRID, "regions": regions, **more})

    def test_by_hand(self):
        head = NEW_HEAD.replace("\n", ",ground_m,above_m3,plus_minus_m3\n")
        made = head + (
            "ground,4,0,0.00000000001,0.000000000002,0.000000000008,0.000098,0.000107,0.000102,,\n"
            "pile,3,1,0.0000000009,0,0.0000000009,0.0002,0.0004,0.000102,0.000000000594,0.0000000010045\n"
            "hole,0,2,0,0,0,,,0.000102,0,0\n"
        )
        ended = run(Ground.REPORT, *self.WORDS, calibration=self.calibration(), heights=self.HEIGHTS)
        self.assertEqual(ended, (0, made, self.SAID, None))
        words = (*self.WORDS, "--digits", "12", "--out", "m.csv")
        status, out, err, made = run(Ground.REPORT, *words, calibration=self.calibration(), heights=self.HEIGHTS)
        self.assertEqual((status, out, err), (0, "", self.SAID))
        self.assertTrue(made.splitlines()[2].endswith(",0.000102000000,0.000000000594,0.000000001005"), made)

    def test_rounded(self):
        # 1 * 1 * (2 s + 3 D) / 6, halves up.
        for sixteenth, spread, volume in [(0, 0, 0), (1, 0, 0), (0, 1, 1), (1, 1, 1), (2, 0, 1), (2, 1, 1), (3, 1, 2)]:
            self.assertEqual(tool.plus_minus(1, 1, sixteenth, spread), volume)
        # Cells of a kilometre, and numbers far above 64 bits.
        self.assertEqual(tool.plus_minus(16777216, 10**9, 3 * 10**9, 10**9), 16777216 * 10**18 * 15 * 10**8)

    def test_another_surface(self):
        """The same definition on heights drawn at random, in fractions."""
        draw = random.Random(26)
        for _ in range(12):
            heights = [draw.randrange(-900, 900) for _ in range(16)]
            area = {"row": 0, "rows": 4, "col": 0, "cols": 4, "base": 0}
            rows = [heights[at : at + 4] for at in range(0, 16, 4)]
            line = matching.tally(rows, 1000, area)
            report = HEAD + "".join(f"{name},{','.join(map(str, line))}\n" for name in ("ground", "other"))
            regions = [{"name": name, **area} for name in ("ground", "other")]
            text = self.HEIGHTS.splitlines()[:6] + [" ".join(map(str, row)) for row in rows]
            given = {"calibration": self.calibration(regions=regions), "heights": "\n".join(text) + "\n"}
            status, out, _, _ = run(report, *self.WORDS, **given)
            self.assertEqual(status, 0)
            near = lambda it: (it + Fraction(1, 2)).__floor__()
            mean = near(Fraction(sum(heights), 16))
            spread = near(Fraction(sum(abs(it - mean) for it in heights), 16))
            away = self.CAMERA["mount"] - mean
            sixteenth = near(Fraction(16 * away**2, self.CAMERA["focal"] * self.CAMERA["baseline"]))
            volume = near(Fraction(16 * 1000**2 * (2 * sixteenth + 3 * spread), 6))
            self.assertEqual(out.splitlines()[2].split(",")[-1], moved(volume, 18, None))

    def test_refused(self):
        good, away = self.calibration(), "o.asc: not the heights of which o.csv tells"
        fitting = "o.asc: the calibration's grid isn't that of the heights: is it the calibration of this survey?"
        for text, heights, line in [
            (good, None, "o.asc: No such file or directory"),
            (good, "ncols", "o.asc: not a height grid of sgm"),
            (good, self.HEIGHTS.replace("cellsize 1000", "cellsize 1001"), fitting),
            (good, self.HEIGHTS.replace("200", "201"), away),
            (good, self.HEIGHTS.replace("98 100 -2147483648", "98 100 0"), away),
            (self.calibration(camera={}), self.HEIGHTS, "the calibration has no whole number at camera.focal"),
            (
                self.calibration(camera={**self.CAMERA, "focal": 0}),
                self.HEIGHTS,
                "c.json: not a calibration of sgm with a camera",
            ),
        ]:
            ended = run(Ground.REPORT, *self.WORDS, calibration=text, heights=heights)
            self.assertEqual(ended, (1, "", f"cubic_metres: {line}\n", None), line)


class Aslant(unittest.TestCase):
    """Plus or minus where the camera has a pose."""

    ONE = 1 << 30
    CAMERA = {**PlusMinus.CAMERA, "cx": 0, "cy": 0, "doffs": 0, "near": 1, "far": 2000000000}
    TILT = [ONE, 0, 0, 0, 858993459, -644245094, 0, 644245094, 858993459]

    def calibration(self, matrix, camera=None, shifts=(0, 0, 0), regions=None):
        given = PlusMinus().calibration(
            version=3,
            disparities={"first": 0},
            camera=camera or self.CAMERA,
            pose={"matrix": matrix, **dict(zip(("east", "north", "up"), shifts))},
        )
        return given if regions is None else json.dumps({**json.loads(given), "regions": regions})

    def table(self, text):
        status, out, err, _ = run(Ground.REPORT, *PlusMinus.WORDS, calibration=text, heights=PlusMinus.HEIGHTS)
        self.assertEqual((status, err), (0, PlusMinus.SAID))
        return [line.split(",")[-1] for line in out.splitlines()]

    def test_straight_down(self):
        """The same as without a pose: 1004500000 cubic micrometres. Nothing of it depends on where the camera is."""
        identity = [self.ONE, 0, 0, 0, self.ONE, 0, 0, 0, self.ONE]
        wanted = ["plus_minus_m3", "", "0.0000000010045", "0"]
        self.assertEqual(self.table(self.calibration(identity)), wanted)
        turned = [0, -self.ONE, 0, self.ONE, 0, 0, 0, 0, self.ONE]
        self.assertEqual(self.table(self.calibration(turned, None, (5000000, -7000000, 0))), wanted)
        # The camera lower by 100 um, and lifted by as much.
        lower = {**self.CAMERA, "mount": 40002}
        self.assertEqual(self.table(self.calibration(identity, lower, (0, 0, 100))), wanted)

    def test_by_hand(self):
        """A tilt of three, four, five: h is -0.6 of north and 0.8 of up. The camera stands at h = 50000, so at north
        -30000 + 30000 = 0 and up 40000 + 102, which is 40000 above the ground at 102. There Z is 50000 + 0.6 (north -
        30000). The ground's cells have their middle at north 2000, the pile's three at 3500: Z is 33200 and 34100,
        and a sixteenth 16 * 33200 * 40000 / 25600000 = 830 and 852.5. The greater counts, rounded: the pile may be off
        by 3000000 * (2 * 853 + 3 * 3) / 6 = 857500000."""
        text = self.calibration(self.TILT, {**self.CAMERA, "mount": 50000}, (0, 30000, 102))
        self.assertEqual(self.table(text), ["plus_minus_m3", "", "0.0000000008575", "0"])

    def test_looks_away(self):
        upwards = [self.ONE, 0, 0, 0, -self.ONE, 0, 0, 0, -self.ONE]
        text = self.calibration(upwards)
        ended = run(Ground.REPORT, *PlusMinus.WORDS, calibration=text, heights=PlusMinus.HEIGHTS)
        line = "cubic_metres: c.json: by its pose the camera doesn't look down on the ground\n"
        self.assertEqual(ended, (1, "", line, None))

    def test_moved_surface(self):
        """The step's height is that by which a plane of ground rises where every disparity is a sixteenth more."""
        camera = {**self.CAMERA, "focal": 256 * 1000, "baseline": 500000, "mount": 12000000}
        sides = {"west": 1000000, "south": -500000, "cell": 10000, "cols": 400, "rows": 300}
        for rises in ((0, 0), (150000, -90000)):
            whole = {"version": 3, "disparities": {"first": 0}, "camera": camera}
            whole["pose"] = {"matrix": self.TILT, "east": 3000000, "north": -2000000, "up": 500000}
            points = sgm_points.Points(whole)
            plane = {"base": 100000, "rise_east": rises[0], "rise_north": rises[1]}
            slope = [rise / 1e6 for rise in rises]
            middle = (1, 2 * 150 + 1, 2 * 200 + 1)
            found = sgm_regions.sixteenth_aslant(middle, plane, sides, points)
            east, north, height = sgm_regions.place_on(middle, plane, sides)
            centre = points.centre()

            def moved_place(east, north):
                """Where the plane's point over (east, north) goes."""
                at = plane["base"] + slope[0] * (east - sides["west"]) + slope[1] * (north - sides["south"])
                matrix = [it / self.ONE for it in self.TILT]
                away = [a - b for a, b in zip((east, north, at), centre)]
                depth = -sum(m * it for m, it in zip(matrix[2::3], away))
                k = camera["focal"] * camera["baseline"] / depth
                part = k / (k + 16)
                return [c + part * it for c, it in zip(centre, away)]

            place = [east, north]
            for _ in range(50):
                there = moved_place(*place)
                place = [place[0] + east - there[0], place[1] + north - there[1]]
            self.assertAlmostEqual((moved_place(*place)[2] - height) / found, 1, delta=0.01)


class Slopes(unittest.TestCase):
    """Ground and pile on one plane that rises by 1 in 20 to the east and falls by 1 in 10 to the
    north, with an outline around the pile."""

    CELL, RISES = 1000, {"rise_east": 50000, "rise_north": -100000}
    GRID = {"west": -2000, "south": 3000, "cell": CELL, "cols": 6, "rows": 5}
    REGIONS = [
        {"name": "ground", "col": 0, "row": 3, "cols": 6, "rows": 2, "base": 70, **RISES},
        # The middles of its cells lie at -1500, -500, .. and 7500, 6500, .. : inside are the three
        # north of the line from the lower left to the upper right one.
        {
            "name": "pile",
            "col": 0,
            "row": 0,
            "cols": 2,
            "rows": 2,
            "base": 9,
            **RISES,
            "outline": [-2000, 5900, 0, 7900, -2000, 7900],
        },
        {
            "name": "level",
            "col": 4,
            "row": 0,
            "cols": 2,
            "rows": 2,
            "base": 9,
            "rise_east": 0,
            "rise_north": 0,
        },
    ]
    HEAD = HEAD.replace("cells,", "cells,bridged,")

    def made(self, errors, piled):
        """The heights, and their report: the plane of the ground and so much more."""
        rows = []
        for row in range(5):
            plane = [70 + 25 * (2 * col + 1) - 50 * (2 * (4 - row) + 1) for col in range(6)]
            rows.append([height + more for height, more in zip(plane, errors[row])])
        for (col, row), more in piled.items():
            rows[row][col] += more
        rows[1][5] = None
        text = "".join(
            " ".join("-2147483648" if it is None else str(it) for it in row) + "\n" for row in rows
        )
        head = "ncols 6\nnrows 5\nxllcorner -2000\nyllcorner 3000\ncellsize 1000\n"
        head += "NODATA_value -2147483648\n"
        lines = []
        for area, cells in zip(self.REGIONS, self.counted()):
            above = []
            for col, row in cells:
                if rows[row][col] is not None:
                    turn = area["rise_east"] * (2 * col + 1) + area["rise_north"] * (
                        2 * (4 - row) + 1
                    )
                    above.append(rows[row][col] - area["base"] - (turn * 1000 + 1000000) // 2000000)
            there = [rows[row][col] for col, row in cells if rows[row][col] is not None]
            ends = [sum(max(0, sign * it) for it in above) * 1000**2 for sign in (1, -1)]
            counts = [len(there), 0, len(cells) - len(there)]
            lines.append(
                ",".join(map(str, [area["name"], *counts, *ends, min(there), max(there)])) + "\n"
            )
        return head + text, self.HEAD + "".join(lines)

    def counted(self):
        yield [(col, row) for row in (3, 4) for col in range(6)]
        yield [(0, 0), (1, 0), (0, 1)]
        yield [(col, row) for row in (0, 1) for col in (4, 5)]

    def test_by_hand(self):
        errors = [[0] * 6 for _ in range(5)]
        # The ground stands 5 um above its base in the mean, and its cells lie 3 from that on
        # average.
        errors[3] = errors[4] = [2, 8, 2, 8, 2, 8]
        heights, report = self.made(
            errors, {(0, 0): 400, (1, 0): 300, (0, 1): 205, (1, 1): 10**6}
        )
        calibration = json.dumps(
            {
                "camera": {"focal": 25600, "baseline": 1000, "mount": 40000 + 122},
                "grid": self.GRID,
                "regions": self.REGIONS,
            }
        )
        words = ("--ground", "ground", "--calibration", "c.json", "--heights", "o.asc")
        status, out, _, _ = run(report, *words, calibration=calibration, heights=heights)
        self.assertEqual(status, 0)
        ground, pile, level = (line.split(",") for line in out.splitlines()[1:])
        # The pile's three cells are 905 above the ground's plane, and 5 less each above the plane
        # that is lifted.
        self.assertEqual(
            pile[-3:],
            ["0.000075", "0.00000000089", moved(3 * 1000**2 * (2 * 1000 + 9) // 6, 18, None)],
        )
        self.assertEqual((pile[1], pile[3], ground[-3:]), ("3", "0", ["0.000075", "", ""]))
        self.assertEqual((level[1], level[3], level[-3:]), ("3", "1", ["0.000075", "", ""]))

    def test_other_heights(self):
        """A report that counts other cells, or from another base, isn't that of these heights."""
        heights, report = self.made([[0] * 6 for _ in range(5)], {})
        words = ("--ground", "ground", "--calibration", "c.json", "--heights", "o.asc")
        camera = {"focal": 25600, "baseline": 1000, "mount": 40000}
        for change in (
            {"outline": [-2000, 5900, 0, 5900, 0, 7900, -2000, 7900]},
            {"rise_north": -99000},
        ):
            regions = [self.REGIONS[0], {**self.REGIONS[1], **change}, self.REGIONS[2]]
            calibration = json.dumps({"camera": camera, "grid": self.GRID, "regions": regions})
            status, out, err, _ = run(report, *words, calibration=calibration, heights=heights)
            self.assertEqual((status, out), (1, ""))
            self.assertRegex(
                err, "not the (report of a survey by c.json|heights of which o.csv tells)"
            )


if __name__ == "__main__":
    unittest.main()
