#!/usr/bin/env python3
"""Tries opencv_calibration.py: on cameras without a lens's faults, where every number follows by hand, and
on a made-up pair with known numbers, whose pictures and points are taken through the definitions of the
program (tests/reference*.py) and through OpenCV. Needs numpy and OpenCV."""

import importlib.util
import json
import math
import os
import subprocess
import sys
import tempfile
import unittest

HERE = os.path.dirname(os.path.abspath(__file__))
TOOL = os.path.join(HERE, "opencv_calibration.py")
sys.path.insert(0, os.path.join(HERE, "..", "tests"))

import reference_inputs as inputs
import reference_matching as matching
from sgm_tools import opencv as tool
from sgm_tools import running
from sgm_tools.opencv import cv2
from sgm_tools.running import numpy

LIMITS = "--unit m --near 2000000 --far 4000000 --mount 4000000"
# Two equal cameras without distortion, level and side by side, the right one 0.5 m to the right.
PLAIN = {
    "imageSize": [100, 60],
    "M1": [[128, 0, 50], [0, 128, 30], [0, 0, 1]],
    "D1": [0, 0, 0, 0],
    "M2": [[128, 0, 47.5], [0, 128, 30], [0, 0, 1]],
    "D2": [0, 0, 0, 0, 0],
    "R": [[1, 0, 0], [0, 1, 0], [0, 0, 1]],
    "T": [-0.5, 0, 0],
}
WIDTH, HEIGHT = 320, 240
# Two unequal cameras with distortion, turned a little against each other by R (below); T in millimetres.
MADE = {
    "image_width": WIDTH,
    "image_height": HEIGHT,
    "cameraMatrix1": [[400.0, 0, 163.0], [0, 402.0, 117.0], [0, 0, 1]],
    "distCoeffs1": [-0.21, 0.06, 0.0011, -0.0006, 0.012],
    "cameraMatrix2": [[408.0, 0, 155.0], [0, 407.0, 124.0], [0, 0, 1]],
    "distCoeffs2": [-0.18, 0.04, -0.0007, 0.0008, 0.0],
    "T": [-398.0, 6.0, 5.0],
}
MADE_LIMITS = "--unit mm --near 2000000 --far 5000000 --mount 5000000"


def setUpModule():
    running.need_for_tests(numpy=numpy, cv2=cv2)
    MADE["R"] = cv2.Rodrigues(numpy.array([0.012, -0.035, 0.016]))[0].tolist()


def run(given, options, name="given.json"):
    """What the tool makes of a calibration: its status, standard error, and the bytes of its file, if any."""
    with tempfile.TemporaryDirectory() as folder:
        with open(os.path.join(folder, name), "w") as file:
            file.write(given if isinstance(given, str) else json.dumps(given))
        command = [sys.executable, TOOL, name, "--out", "made.json", *options.split()]
        done = subprocess.run(command, cwd=folder, capture_output=True, text=True)
        made, path = None, os.path.join(folder, "made.json")
        if os.path.exists(path):
            with open(path, "rb") as file:
                made = file.read()
    return done.returncode, done.stderr, made


def made_from(given, options):
    """The calibration as the program's definitions read it. They refuse what is out of range or missing."""
    status, errors, data = run(given, options)
    if status:
        raise AssertionError(errors)
    return inputs.read_calibration(data)


class WithoutDistortion(unittest.TestCase):
    def has(self, made, part):
        """Whether the object has these values. Which keys it must have, made_from says."""
        self.assertEqual(made, {**made, **part})

    def test_every_number(self):
        # Centred pictures keep their principal points, 50 and 47.5, so doffs is 256 * (47.5 - 50). The
        # point at 4 m has the disparity 128 * 0.5 / 4 + 2.5 = 18.5, the one at 2 m 34.5.
        made = made_from(PLAIN, LIMITS + " --centred --step 30 --grid -1000000 -500000 50000 40 20")
        self.assertEqual((made.first, made.count), (18, 18))
        self.assertEqual((made.window, made.p1, made.p2), ((9, 7), 10, 120))
        camera = {"focal": 32768, "baseline": 500000, "cx": 12800, "cy": 7680, "doffs": -640}
        self.has(made.camera, {**camera, "mount": 4000000, "near": 2000000, "far": 4000000})
        self.has(made.grid, {"west": -1000000, "south": -500000, "cell": 50000, "cols": 40, "rows": 20})
        self.assertIsNone(made.regions)
        # (100 - 1) div 30 + 2 = 5 columns and (60 - 1) div 30 + 2 = 3 rows; the last ones lie outside.
        nodes = [part for y in (0, 30, 60) for x in (0, 30, 60, 90, 120) for part in (256 * x, 256 * y)]
        for side in (made.left, made.right):
            self.assertEqual(side, {"kind": "mesh", "step": 30, "cols": 5, "rows": 3, "nodes": nodes})

    def test_one_principal_point(self):
        # (50 + 47.5) / 2 for both: the left picture moves by 1.25 pixels to the left, the right one to the right.
        made = made_from(PLAIN, LIMITS + " --step 30")
        self.assertEqual((made.camera["cx"], made.camera["doffs"]), (12480, 0))
        self.assertEqual((made.first, made.count), (16, 17))
        self.assertEqual([made.left["nodes"][0], made.right["nodes"][0]], [320, -320])

    def test_the_disparities_of_a_point(self):
        # The point 0.25 m to the right at 2 m is seen in the columns 50 + 16 and 47.5 - 16 and in row 30; what
        # lies 0.5 m lower, in row 30 + 32.
        made = made_from(PLAIN, LIMITS + " --centred --step 30")
        self.assertEqual(matching.point(made.camera, 66, 30, 16 * 34 + 8), (250000, 0, 2000000))
        self.assertEqual(matching.point(made.camera, 66, 62, 16 * 34 + 8), (250000, -500000, 2000000))

    def test_options(self):
        made = made_from(PLAIN, LIMITS + " --census 5x3 --penalties 3 40 --first -7 --count 256")
        self.assertEqual((made.first, made.count, made.window, made.p1, made.p2), (-7, 256, (5, 3), 3, 40))
        # Without distortion the largest step is close enough.
        self.assertEqual(made.left["step"], 64)

    def test_penalties_that_follow_the_image(self):
        for options, version, penalties in [
            ("", 1, {"p1": 10, "p2": 120}),
            (" --penalties 3 40", 1, {"p1": 3, "p2": 40}),
            (" --adapt", 2, {"p1": 10, "p2": 400, "adapt": True}),
            (" --adapt --penalties 3 40", 2, {"p1": 3, "p2": 40, "adapt": True}),
            (" --penalties 10 120 --adapt", 2, {"p1": 10, "p2": 120, "adapt": True}),
        ]:
            whole = json.loads(run(PLAIN, LIMITS + options)[2])
            self.assertEqual((whole["version"], whole["penalties"]), (version, penalties), options)
            made = made_from(PLAIN, LIMITS + options)
            self.assertEqual((made.p1, made.p2, made.is_adaptive), (penalties["p1"], penalties["p2"], version == 2))

    def test_third_version(self):
        """Windows of 9 x 7, 5 x 5 and 3 x 3 have 62, 24 and 8 neighbours: 25 becomes 9.7 and 3.2, 100 becomes 38.7 and 12.9,
        1200 becomes 464.5 and 154.8."""
        for options, is_adaptive, p1, p2 in [
            ("", False, 25, 100),
            (" --adapt", True, 25, 1200),
            (" --census 5x5", False, 10, 39),
            (" --census 5x5 --adapt", True, 10, 465),
            (" --census 3x3", False, 3, 13),
            (" --census 3x3 --adapt", True, 3, 155),
            (" --census 3x3 --penalties 7 90", False, 7, 90),
            (" --penalties 7 90 --adapt", True, 7, 90),
        ]:
            whole = json.loads(run(PLAIN, LIMITS + " --version 3" + options)[2])
            self.assertEqual((whole["version"], whole["disparities"]["fine"]), (3, True))
            without = json.loads(run(PLAIN, LIMITS + " --version 3 --no-fine" + options)[2])
            self.assertEqual(without, {**whole, "disparities": {**whole["disparities"], "fine": False}})
            self.assertEqual(whole["penalties"], {"p1": p1, "p2": p2, "adapt": is_adaptive}, options)
            made = made_from(PLAIN, LIMITS + " --version 3" + options)
            self.assertEqual((made.version, made.p1, made.p2, made.is_adaptive), (3, p1, p2, is_adaptive), options)
            # All else is that of version 1.
            first = json.loads(run(PLAIN, LIMITS + options)[2])
            for key in ("warp", "camera", "census"):
                self.assertEqual(whole[key], first[key])
            self.assertEqual({**first["disparities"], "fine": True}, whole["disparities"])

    def test_cells_of_the_third_version(self):
        grid = " --grid -1000000 -500000 50000 40 20"
        for options, keep, bridge in [
            ("", "mean", 2),
            (" --keep mean", "mean", 2),
            (" --keep highest", "highest", 2),
            (" --bridge 0", "mean", 0),
            (" --keep highest --bridge 8", "highest", 8),
        ]:
            whole = json.loads(run(PLAIN, LIMITS + grid + " --version 3" + options)[2])
            first = json.loads(run(PLAIN, LIMITS + grid)[2])
            self.assertEqual(whole["grid"], {**first["grid"], "keep": keep, "bridge": bridge})
            made = made_from(PLAIN, LIMITS + grid + " --version 3 --region a 0 0 40 20 0" + options)
            self.assertEqual((made.keep, made.bridge), (keep, bridge))
        self.assertNotIn("grid", json.loads(run(PLAIN, LIMITS + " --version 3")[2]))

    def run_with(self, options, **files):
        """The calibration that the tool makes with some files more, or its last line, and what it
        prints."""
        with tempfile.TemporaryDirectory() as folder:
            for name, data in {"given_json": PLAIN, **files}.items():
                with open(os.path.join(folder, name.replace("_", ".")), "w") as file:
                    file.write(data if isinstance(data, str) else json.dumps(data))
            command = [sys.executable, TOOL, "given.json", "--out", "made.json", *LIMITS.split()]
            command += "--grid -1000000 -500000 50000 40 20 --version 3".split() + options.split()
            done = subprocess.run(command, cwd=folder, capture_output=True, text=True)
            if done.returncode:
                return None, done.stderr.splitlines()[-1].partition(": ")[2]
            with open(os.path.join(folder, "made.json")) as file:
                return json.load(file), done.stdout

    def test_pose(self):
        """That of an earlier calibration of the same camera, behind the camera."""
        plain, _ = self.run_with("")
        section = {"matrix": [1 << 30, 0, 0, 0, 858993459, -644245094, 0, 644245094, 858993459]}
        section |= {"east": 5, "north": -7, "up": 9}
        posed = {**plain, "pose": section}
        made, _ = self.run_with("--pose c.json --near 900000", c_json=posed)
        self.assertEqual(made["pose"], section)
        keys = list(made)
        self.assertEqual(keys[keys.index("camera") + 1], "pose")
        for name, earlier, line in [
            ("c.json", plain, "it has no pose: tools/site_pose.py writes one"),
            ("c.json", {**posed, "version": 2}, "it has no pose: tools/site_pose.py writes one"),
            (
                "c.json",
                {**posed, "camera": {**plain["camera"], "mount": 1}},
                "its camera.mount isn't this one, so its pose isn't either",
            ),
            ("none.json", plain, "No such file or directory"),
        ]:
            self.assertEqual(self.run_with(f"--pose {name}", c_json=earlier), (None, f"{name}: {line}"))
        wrong = {**posed, "pose": {**section, "matrix": 9 * [0]}}
        line = "the calibration's pose.matrix isn't nearly a rotation"
        self.assertEqual(self.run_with("--pose c.json", c_json=wrong), (None, line))

    def test_bases_of_the_third_version(self):
        """Level where nothing is said, or the plane of its name."""
        made, _ = self.run_with(
            "--region a 0 0 40 20 -7 --region b 1 2 3 4 5 --plane b -9 1000 -20000"
        )
        keys = ("name", "col", "row", "cols", "rows", "base", "rise_east", "rise_north")
        wanted = [("a", 0, 0, 40, 20, -7, 0, 0), ("b", 1, 2, 3, 4, -9, 1000, -20000)]
        self.assertEqual(made["regions"], [dict(zip(keys, it)) for it in wanted])
        self.assertEqual(list(made["regions"][1]), list(keys))
        first = json.loads(
            run(PLAIN, LIMITS + " --grid -1000000 -500000 50000 40 20 --region a 0 0 40 20 -7")[2]
        )
        self.assertEqual(list(first["regions"][0]), list(keys[:6]))

    def test_outlines(self):
        """By numbers and from files: the least rectangle, holes, and places in metres that are
        moved."""
        words = "--outline p=-950000,-400001,-800000,-400000,-800000,-250000"
        made, _ = self.run_with(words + " --plane p 3 4 5")
        outline = [-950000, -400001, -800000, -400000, -800000, -250000]
        wanted = {
            "name": "p",
            "col": 1,
            "row": 15,
            "cols": 3,
            "rows": 4,
            "base": 3,
            "rise_east": 4,
            "rise_north": 5,
        }
        self.assertEqual(made["regions"], [{**wanted, "outline": outline}])
        square = [[99.1, 200.6], [99.9, 200.6], [99.9, 201.2], [99.1, 201.2], [99.1, 200.6]]
        hole = [[99.3, 200.8], [99.5, 200.8], [99.5, 200.9], [99.3, 200.8]]
        polygon = {"type": "Polygon", "coordinates": [square, hole]}
        feature = {"type": "Feature", "properties": {"name": "p"}, "geometry": polygon}
        other = {
            "type": "Feature",
            "properties": {"name": "q"},
            "geometry": {"type": "Point", "coordinates": [1, 2]},
        }
        corners = [(-900, -400), (-100, -400), (-100, 200), (-900, 200)]
        corners += [corners[0], (-700, -200), (-500, -200), (-500, -100), (-700, -200)]
        for top in (polygon, feature, {"type": "FeatureCollection", "features": [other, feature]}):
            made, said = self.run_with("--outline p=p.json --outline-origin 100 201", p_json=top)
            (region,) = made["regions"]
            self.assertEqual(region["outline"], [1000 * it for corner in corners for it in corner])
            self.assertEqual(
                [region[key] for key in ("col", "row", "cols", "rows")], [2, 6, 16, 12]
            )
            self.assertNotIn("outline", said)
        made, said = self.run_with("--outline p=-2000000,0,0,0,0,90000")
        self.assertIn("the outline p reaches beyond the grid: what lies there has no part\n", said)
        self.assertEqual(
            [made["regions"][0][key] for key in ("col", "row", "cols", "rows")], [0, 8, 20, 2]
        )
        _, said = self.run_with("--outline p=0,0,1,0,1,1")
        self.assertIn("no cell's middle lies in the outline p\n", said)

    @unittest.skipUnless(importlib.util.find_spec("osgeo"), "GDAL of Python isn't there")
    def test_outlines_of_ogr(self):
        """A GeoPackage of two polygons, far from the grid's origin, the right one taken by its
        name."""
        from osgeo import ogr

        with tempfile.TemporaryDirectory() as folder:
            name = os.path.join(folder, "toe.gpkg")
            source = ogr.GetDriverByName("GPKG").CreateDataSource(name)
            layer = source.CreateLayer("toe", None, ogr.wkbPolygon)
            layer.CreateField(ogr.FieldDefn("name", ogr.OFTString))
            for said, more in (("q", 1), ("p", 0)):
                feature = ogr.Feature(layer.GetLayerDefn())
                feature["name"] = said
                corners = [
                    (500000.5 + more, 5400000.25),
                    (499999.5, 5400000.25),
                    (499999.5, 5399999.876544),
                ]
                ring = ", ".join(f"{east!r} {north!r}" for east, north in corners + corners[:1])
                feature.SetGeometry(ogr.CreateGeometryFromWkt(f"POLYGON(({ring}))"))
                layer.CreateFeature(feature)
            feature = layer = source = None
            made, _ = self.run_with(f"--outline p={name} --outline-origin 500000 5400000")
            self.assertEqual(
                made["regions"][0]["outline"], [500000, 250000, -500000, 250000, -500000, -123456]
            )
            with open(name, "w") as file:
                file.write("junk")
            self.assertEqual(
                self.run_with(f"--outline p={name}"), (None, f"{name}: OGR can't read it")
            )

    def test_outlines_refused(self):
        point = {"type": "Point", "coordinates": [1, 2]}
        two = {
            "type": "FeatureCollection",
            "features": 2 * [{"type": "Feature", "properties": None, "geometry": point}],
        }
        flat = {"type": "Polygon", "coordinates": [[[1, 2], [3, "x"], [4, 5]]]}
        far = {"type": "Polygon", "coordinates": [[[0, 0], [3000, 0], [0, 5]]]}
        many = ",".join(str(it) for it in range(2002))
        for options, top, line in [
            ("p=p.json", None, "p.json: No such file or directory"),
            ("p=p.json", "{", "p.json: not JSON: "),
            ("p=p.json", "[]", "p.json: not GeoJSON"),
            ("p=p.json", point, "p.json: not a polygon"),
            ("p=p.json", flat, "p.json: a corner isn't two numbers"),
            (
                "p=p.json",
                far,
                "the outline p is farther than 2 km from the grid's origin:"
                " --outline-origin moves it",
            ),
            (
                "p=p.json",
                two,
                "p.json: no polygons have the name p; one is needed, or a file of one polygon",
            ),
            ("p=1,2,3,4", None, "the outline p has 2 corners, 3 to 1000 are needed"),
            (
                "p=1,2,3,4,5",
                None,
                "the outline p has 5 numbers, an east and a north for each corner are needed",
            ),
            ("p=" + many, None, "the outline p has 1001 corners, 3 to 1000 are needed"),
            ("p=2000000,0,3000000,0,3000000,1", None, "the outline p lies beyond the grid"),
            ("p=1,2,3,4,5,6 --plane p 2000000000 1000000 0", None,
             "the base of the region p leaves the range of heights within its rectangle"),
        ]:
            made, said = self.run_with(
                "--outline " + options, **({} if top is None else {"p_json": top})
            )
            self.assertEqual((made, said[: len(line)]), (None, line))

    def test_base_from(self):
        """The plane of an earlier match whose grid begins a metre further west and half a metre
        further south."""
        grid = {"west": -2000000, "south": -1000000, "cell": 100000, "cols": 6, "rows": 5}
        regions = [{"name": "ground", "col": 0, "row": 0, "cols": 6, "rows": 5, "base": 0}]
        rows = [
            [300000 + 2000 * col - 5000 * south for col in range(6)] for south in (4, 3, 2, 1, 0)
        ]
        rows[2][3] = -2147483648
        head = "ncols 6\nnrows 5\nxllcorner -2000000\nyllcorner -1000000\ncellsize 100000\n"
        head += "NODATA_value -2147483648\n"
        asc = head + "".join(" ".join(map(str, row)) + "\n" for row in rows)
        words = (
            "--region a 0 0 9 9 7 --region b 0 0 9 9 7 --plane b 8 0 0 --base-from o.asc c.json"
        )
        earlier = {"grid": grid, "regions": regions}
        made, said = self.run_with(words, o_asc=asc, c_json=earlier)
        # 20 mm a metre to the east, -50 to the north; half a cell before the first middle it is 1
        # mm and 2.5 mm more.
        base = 300000 - 1000 + 2500 + 20000 - 25000
        keys = ("base", "rise_east", "rise_north")
        self.assertEqual(
            [[it[key] for key in keys] for it in made["regions"]],
            [[base, 20000, -50000], [8, 0, 0]],
        )
        line = f"plane of 29 cells of the ground: {base}, "
        line += "rises 20000 to the east and -50000 to the north; "
        self.assertIn(line + "its cells lie 0 micrometres from it in the mean\n", said)
        regions[0]["name"] = "pile"
        self.assertEqual(
            self.run_with(words, o_asc=asc, c_json=earlier)[1],
            "o.asc: the regions of c.json whose name begins with ground have no cells for a plane",
        )

    def test_given_rectification(self):
        one = [[1, 0, 0], [0, 1, 0], [0, 0, 1]]
        p1 = [[64, 0, 40, 0], [0, 64, 20, 0], [0, 0, 1, 0]]
        p2 = [[64, 0, 44, -32], [0, 64, 20, 0], [0, 0, 1, 0]]
        given = {**PLAIN, "R1": one, "R2": one, "P1": p1, "P2": p2}
        del given["R"], given["T"]
        made = made_from(given, LIMITS + " --step 50")
        camera = {"focal": 16384, "baseline": 500000, "cx": 10240, "cy": 5120, "doffs": 1024}
        self.has(made.camera, camera)
        # The rectified pixel (0, 0) shows (0 - 40) / 64 focal lengths, which is at 50 - 40 * 2 in the source.
        self.assertEqual(made.left["nodes"][:4], [-30 * 256, -10 * 256, 70 * 256, -10 * 256])

    def test_refused(self):
        def without(*names):
            return {key: value for key, value in PLAIN.items() if key not in names}

        for given, options, line in [
            (without("M2", "D1"), LIMITS, "D1 and K2 missing"),
            (without("T"), LIMITS, "T missing"),
            # The program's own calibration, say.
            (
                {"version": 3, "camera": {"focal": 40960}},
                LIMITS,
                "given.json: not a stereo calibration of OpenCV: it has no camera matrix (K1 or M1)",
            ),
            (without("imageSize"), LIMITS, "the size of the pictures is missing: --size WxH"),
            (
                {**PLAIN, "T": [0.5, 0, 0]},
                LIMITS,
                "the second camera stands to the left of the first one: exchange them",
            ),
            (
                {**PLAIN, "T": [-0.1, 0.5, 0]},
                LIMITS,
                "the cameras stand one above the other: turn the pictures and calibrate anew",
            ),
            ({**PLAIN, "D1": [0, 0, 0]}, LIMITS, "D1 has 3 numbers"),
            ({**PLAIN, "D1": 13 * [0] + [0.1]}, LIMITS, "a distortion with a tilted sensor isn't known here"),
            ({**PLAIN, "T": ["a", 0, 0]}, LIMITS, "'a' isn't a number"),
            ("[1]", LIMITS, "given.json: not a JSON object"),
            (
                PLAIN,
                LIMITS.replace("near 2000000", "near 100000"),
                # From 128 * 0.5 / 4 = 16 to 128 * 0.5 / 0.1 = 640.
                "first 16 and count 625: the first disparity is -1024 to 1024, the count 1 to 256",
            ),
            ({**PLAIN, "imageSize": [100]}, LIMITS, "the size of the pictures isn't two whole numbers"),
            ({**PLAIN, "imageSize": [100, 60.5]}, LIMITS, "the size of the pictures isn't two whole numbers"),
            ({**PLAIN, "imageSize": [100, 5000]}, LIMITS, "sides of the pictures are 1 to 4096"),
            ({**without("imageSize"), "image_width": None, "image_height": 1}, LIMITS, "None isn't a number"),
            ({**PLAIN, "T": [math.nan, 0, 0]}, LIMITS, "nan isn't a number"),
            ({**PLAIN, "T": [-math.inf, 0, 0]}, LIMITS, "-inf isn't a number"),
            ({**PLAIN, "M1": 9 * [0]}, LIMITS, "no cameras have these numbers"),
            ({**PLAIN, "R": {"a": 1}}, LIMITS, "{'a': 1} isn't a number"),
            ("", LIMITS, "given.json: not JSON: Expecting value: line 1 column 1 (char 0)"),
        ]:
            status, errors, made = run(given, options)
            self.assertEqual((status, errors, made), (1, f"opencv_calibration: {line}\n", None))

    def test_too_many_cells(self):
        given = {**PLAIN, "imageSize": [4096, 4096]}
        status, errors, made = run(given, LIMITS)
        # Disparities 16 to 32, as above.
        start = "opencv_calibration: 4096 x 4096 x 17 are 285212672 cells, 268435456 at most: "
        self.assertEqual((status, errors[: len(start)], errors.count("\n"), made), (1, start, 1, None))
        # Version 3 has no limit of cells.
        made = made_from(given, LIMITS + " --version 3 --step 1024")
        self.assertEqual((made.count, made.left["cols"]), (17, 5))

    def test_regions(self):
        """What is written is read back by the program's definitions, which know the ranges themselves."""
        grid = LIMITS + " --step 30 --grid -1000000 -500000 50000 40 20"
        made = made_from(PLAIN, grid + " --region pile 0 0 40 20 -5 --region g.2-a_b 39 19 1 1 2000000000")
        keys = ("name", "col", "row", "cols", "rows", "base")
        wanted = [("pile", 0, 0, 40, 20, -5), ("g.2-a_b", 39, 19, 1, 1, 2000000000)]
        self.assertEqual(made.regions, [dict(zip(keys, it)) for it in wanted])

    def test_what_is_printed(self):
        # 100 * 60 * 17; three bytes each and 45 for each pixel are 0.6 MB, so one is said.
        takes = "about 1 MB of memory and 0.1 seconds with one worker"
        for options, cells in (([], "102000 cells of 268435456 at most"), (["--version", "3"], "102000 cells")):
            with tempfile.TemporaryDirectory() as folder:
                with open(os.path.join(folder, "given.json"), "w") as file:
                    json.dump(PLAIN, file)
                command = [sys.executable, TOOL, "given.json", "--out", "made.json", *LIMITS.split(), "--step", "30", *options]
                done = subprocess.run(command, cwd=folder, capture_output=True, text=True)
            first, second = done.stdout.splitlines()
            self.assertEqual(
                first,
                "100 x 60, focal length 128.00 pixels, baseline 500000 micrometres, disparities 16 to 32, "
                "meshes of step 30 within 0.000 pixels",
            )
            self.assertEqual(second, f"{cells}: {takes}")

    def test_missing_files(self):
        for name in ("none.json", "none.yml"):
            command = [sys.executable, TOOL, name, "--out", "made.json", *LIMITS.split()]
            done = subprocess.run(command, capture_output=True, text=True)
            line = f"opencv_calibration: {name}: No such file or directory\n"
            self.assertEqual((done.returncode, done.stderr), (1, line))

    def test_deep_and_damaged_files(self):
        for given in ("[" * 100000, '{"M1": ' + 5000 * "[" + 5000 * "]" + "}", '{"M1": 1e400}', '{"M1": [1,]}', "\x00"):
            status, errors, made = run(given, LIMITS)
            self.assertEqual((status, made, "Traceback" in errors, errors.count("\n")), (1, None, False, 1), given[:20])

    def test_wrong_words(self):
        ten = "--grid 0 0 1 10 20"
        third = ten + " --version 3"
        for options, line in [
            ("--near 2000001 --far 2000000", "--near is above --far"),
            ("--far 2000000001", "argument --far: 2000000001 isn't a whole number from 1 to 2000000000"),
            ("--near 0", "argument --near: 0 isn't a whole number from 1 to 2000000000"),
            ("--mount -1", "argument --mount: -1 isn't a whole number from 0 to 2000000000"),
            ("--size 100", "argument --size: 100 isn't a width x height in range"),
            ("--size 4097x1", "argument --size: 4097x1 isn't a width x height in range"),
            ("--census 4x4", "argument --census: 4x4 isn't a width x height in range"),
            ("--penalties 5 4", "--penalties: P1 is above P2"),
            ("--no-fine", "--no-fine: needs --version 3"),
            ("--pose c.json", "--pose: needs --version 3"),
            (ten + " --keep mean", "--keep: needs --version 3 and --grid"),
            ("--version 3 --bridge 0", "--bridge: needs --version 3 and --grid"),
            (ten + " --version 3 --bridge 9", "argument --bridge: 9 isn't a whole number from 0 to 8"),
            (ten + " --version 3 --bridge -1", "argument --bridge: -1 isn't a whole number from 0 to 8"),
            ("--adapt --penalties 401 400", "--penalties: P1 is above P2"),
            ("--penalties 5 4001", "argument --penalties: 4001 isn't a whole number from 1 to 4000"),
            ("--first 1025", "argument --first: 1025 isn't a whole number from -1024 to 1024"),
            ("--count 0", "argument --count: 0 isn't a whole number from 1 to 256"),
            ("--step 1.5", "argument --step: 1.5 isn't a whole number from 2 to 1024"),
            ("--alpha nan", "argument --alpha: nan isn't a number from 0 to 1"),
            ("--grid 0 0 0 1 1", "--grid: CELL 0 isn't from 1 to 1000000000"),
            ("--grid 0 0 1 1 4097", "--grid: ROWS 4097 isn't from 1 to 4096"),
            ("--region a 0 0 1 1 0", "--region: a region is of a grid, and --grid isn't given"),
            (ten + " --region a/b 0 0 1 1 0", "--region: NAME 'a/b' isn't 1 to 64 letters, digits, spaces, _, - and ."),
            (ten + " --region a 10 0 1 1 0", "--region: COL 10 isn't a whole number from 0 to 9"),
            (ten + " --region a 0 -1 1 1 0", "--region: ROW -1 isn't a whole number from 0 to 19"),
            (ten + " --region a 4 0 7 1 0", "--region: COLS 7 isn't a whole number from 1 to 6"),
            (ten + " --region a 4 4 6 17 0", "--region: ROWS 17 isn't a whole number from 1 to 16"),
            (ten + " --region a 4 4 6 16 1.", "--region: BASE 1. isn't a whole number from -2000000000 to 2000000000"),
            (ten + " --region a 0 0 1 1", "argument --region: expected 6 arguments"),
            (ten + 1001 * " --region a 0 0 1 1 0", "--region: 1001 of them, 1000 at most"),
            (ten + " --outline a=1,1,2,2,1,3", "--outline: needs --version 3 and --grid"),
            (ten + " --plane a 0 0 0", "--plane: needs --version 3 and --grid"),
            (" --version 3 --base-from a b", "--base-from: needs --version 3 and --grid"),
            (third + " --outline a", "--outline: a isn't NAME=FILE or NAME=E0,N0,E1,N1,.."),
            (
                third + " --outline a/b=c",
                "--outline: NAME 'a/b' isn't 1 to 64 letters, digits, spaces, _, - and .",
            ),
            (third + " --outline a=c --region a 0 0 1 1 0", "--outline: 2 regions have the name a"),
            (third + " --plane a 0 0 0", "--plane: no region has the name a"),
            (
                third + " --outline a=c --plane a 0 1000001 0",
                "--plane: RISE_EAST 1000001 isn't a whole number from -1000000 to 1000000",
            ),
            (
                third + " --outline-origin a 0",
                "argument --outline-origin: a isn't a number of metres",
            ),
        ]:
            status, errors, made = run(PLAIN, LIMITS + " " + options)
            self.assertEqual((status, made), (2, None), options)
            self.assertEqual(errors.splitlines()[-1], "opencv_calibration.py: error: " + line)


class Distortion(unittest.TestCase):
    def test_by_hand(self):
        # At (0.5, 0) the square of the distance from the axis is 0.25; at (0, 1) it is 1.
        for lens, place, seen in [
            ([0.4, 0, 0, 0], (0.5, 0), (0.55, 0)),
            ([0, 0.16, 0, 0], (0.5, 0), (0.505, 0)),
            ([0, 0, 0.1, 0], (0.5, 0), (0.5, 0.025)),
            ([0, 0, 0, 0.2], (0.5, 0), (0.65, 0)),
            ([0, 0, 0.1, 0], (0, 1), (0, 1.3)),
            ([0, 0, 0, 0.2], (0, 1), (0.2, 1)),
            ([0, 0, 0, 0, 0.5], (0, 1), (0, 1.5)),
            ([0, 0, 0, 0, 0, 0.25, 0, 0], (0, 1), (0, 0.8)),
            ([0, 0, 0, 0, 0, 0, 0, 0, 0.1, 0.2, 0.3, 0.4], (0, 1), (0.3, 1.7)),
        ]:
            self.assertLess(math.dist(tool.distorted(lens, *place), seen), 1e-12, lens)


class WithDistortion(unittest.TestCase):
    """Both ways of choosing the principal points: one for both pictures, and one each."""

    def setUp(self):
        self.made = {way: made_from(MADE, MADE_LIMITS + way) for way in ("", " --centred")}

    def test_meshes_suit(self):
        for made in self.made.values():
            for side in (made.left, made.right):
                self.assertIsNone(matching.warp_fault(side, WIDTH, HEIGHT))
        # The baseline is the length of T.
        length = round(1000 * math.hypot(*MADE["T"]))
        self.assertEqual([made.camera["baseline"] for made in self.made.values()], [length, length])
        self.assertEqual(self.made[""].camera["doffs"], 0)
        self.assertNotEqual(self.made[" --centred"].camera["doffs"], 0)

    def test_points_come_back(self):
        """A pixel and its disparity give a point; that point, seen through both lenses, lies where the two
        meshes take that pixel and its partner from."""
        parts = tool.read_calibration([self.file()], None)
        for way, made in self.made.items():
            r1, _, _, _ = tool.rectification(parts, bool(way), None)
            for x in range(100, WIDTH, 29):
                for y in range(0, HEIGHT, 27):
                    for d in (made.first + 3, made.first + made.count - 4):
                        across, up, height = matching.point(made.camera, x, y, 16 * d)
                        rectified = [across / 1000, -up / 1000, (made.camera["mount"] - height) / 1000]
                        first = r1.T @ rectified
                        second = parts["R"] @ first + parts["T"]
                        for point, k, lens, side, at in (
                            (first, "K1", "D1", made.left, x),
                            (second, "K2", "D2", made.right, x - d),
                        ):
                            if not 0 <= at < WIDTH:
                                continue
                            seen = tool.distorted(parts[lens], point[0] / point[2], point[1] / point[2])
                            expected = [parts[k][i, i] * seen[i] + parts[k][i, 2] for i in (0, 1)]
                            place = [part / 256 for part in matching.place(side, at, y)]
                            self.assertLess(math.dist(place, expected), 0.06, (way, x, y, d))

    def file(self):
        folder = tempfile.TemporaryDirectory()
        self.addCleanup(folder.cleanup)
        name = os.path.join(folder.name, "given.json")
        with open(name, "w") as file:
            json.dump(MADE, file)
        return name


class BesideOpenCV(unittest.TestCase):
    def setUp(self):
        array = {key: numpy.array(value, float) for key, value in MADE.items()}
        self.lenses = [(array[f"cameraMatrix{n}"], array[f"distCoeffs{n}"]) for n in (1, 2)]
        self.array = array

    def rectified(self, flags, alpha=-1):
        (k1, d1), (k2, d2) = self.lenses
        size, turn, shift = (WIDTH, HEIGHT), self.array["R"], self.array["T"]
        return cv2.stereoRectify(k1, d1, k2, d2, size, turn, shift, flags=flags, alpha=alpha)[:5]

    def picture(self):
        """Soft shapes: OpenCV takes places in 1/32 of a pixel, so a picture with hard edges would differ more."""
        y, x = numpy.mgrid[0:HEIGHT, 0:WIDTH]
        waves = 50 * numpy.sin(x / 7 + y / 19) + 40 * numpy.cos(y / 6 - x / 23) + 20 * numpy.sin(x * y / 900)
        return numpy.clip(numpy.rint(127 + waves), 0, 255).astype(numpy.uint8)

    def test_remap(self):
        picture = self.picture()
        image = inputs.Image(WIDTH, HEIGHT, 255, [int(it) for it in picture.ravel()])
        cases = [("", cv2.CALIB_ZERO_DISPARITY, -1), (" --centred", 0, -1)]
        cases += [(" --alpha 0", cv2.CALIB_ZERO_DISPARITY, 0), (" --alpha 1 --centred", 0, 1)]
        for options, flags, alpha in cases:
            made = made_from(MADE, MADE_LIMITS + options)
            r1, r2, p1, p2, _ = self.rectified(flags, alpha)
            for (k, d), r, p, side in zip(self.lenses, (r1, r2), (p1, p2), (made.left, made.right)):
                maps = cv2.initUndistortRectifyMap(k, d, r, p, (WIDTH, HEIGHT), cv2.CV_32FC1)
                theirs = cv2.remap(picture, *maps, cv2.INTER_LINEAR)
                ours = matching.rectify(image, side)
                both = [(a, int(b)) for row, line in zip(ours, theirs) for a, b in zip(row, line) if a is not None]
                near = sum(abs(a - b) <= 1 for a, b in both)
                self.assertGreater(near, 0.995 * len(both), options)
                # Nothing is lost but what the map takes from outside, and a rim.
                inside = (maps[0] >= 0.1) & (maps[0] <= WIDTH - 1.1) & (maps[1] >= 0.1) & (maps[1] <= HEIGHT - 1.1)
                filled = numpy.array([[a is not None for a in row] for row in ours])
                self.assertTrue(filled[inside].all(), options)
                self.assertGreater(len(both), 0.6 * WIDTH * HEIGHT, options)

    def test_camera(self):
        """The camera's keys against P1, P2 and Q, from which OpenCV takes a point's place as Q (x, y, d, 1)."""
        cases = [("", cv2.CALIB_ZERO_DISPARITY, -1), (" --centred", 0, -1), (" --centred --alpha 0.5", 0, 0.5)]
        for options, flags, alpha in cases:
            camera = made_from(MADE, MADE_LIMITS + options).camera
            _, _, p1, p2, q = self.rectified(flags, alpha)
            self.assertAlmostEqual(camera["focal"] / 256, p1[0, 0], delta=0.01)
            self.assertAlmostEqual(camera["cx"] / 256, p1[0, 2], delta=0.01)
            self.assertAlmostEqual(camera["cy"] / 256, p1[1, 2], delta=0.01)
            self.assertAlmostEqual(camera["baseline"] / 1000, -p2[0, 3] / p2[0, 0], delta=0.01)
            self.assertAlmostEqual(camera["doffs"] / 256, p2[0, 2] - p1[0, 2], delta=0.01)
            self.assertAlmostEqual(camera["doffs"] / 256, q[3, 3] / q[3, 2], delta=0.01)
            for x, y, d in ((200, 100, 60), (250, 30, 45), (120, 220, 70)):
                across, down, away, scale = q @ (x, y, d, 1)
                point = matching.point({**camera, "near": 1, "far": 2000000000}, x, y, 16 * d)
                theirs = [across / scale, -down / scale, camera["mount"] / 1000 - away / scale]
                for ours, their in zip(point, theirs):
                    self.assertAlmostEqual(ours / 1000, their, delta=0.005 * away / scale)

    def test_map(self):
        """The map, beyond the picture's right and lower sides too."""
        rectified = self.rectified(cv2.CALIB_ZERO_DISPARITY)
        y, x = numpy.mgrid[0 : HEIGHT + 16, 0 : WIDTH + 16]
        for (k, d), r, p in zip(self.lenses, rectified[:2], rectified[2:4]):
            maps = cv2.initUndistortRectifyMap(k, d, r, p, (WIDTH + 16, HEIGHT + 16), cv2.CV_32FC1)
            places = tool.View(k, d, r, p).places(x, y)
            self.assertLess(abs(places - numpy.stack(maps, axis=-1)).max(), 0.001)

    def test_distortion(self):
        """All twelve numbers of a lens, against OpenCV's own."""
        lens = [-0.3, 0.1, 0.002, -0.001, 0.02, 0.05, -0.02, 0.01, 0.003, -0.001, 0.002, 0.0005]
        one = numpy.eye(3)
        for count in (4, 5, 8, 12):
            for x, y in ((0.3, -0.2), (-0.5, 0.4), (0.0, 0.0), (0.6, 0.1)):
                point = numpy.array([[[x, y, 1.0]]])
                seen, _ = cv2.projectPoints(point, numpy.zeros(3), numpy.zeros(3), one, numpy.array(lens[:count]))
                self.assertLess(math.dist(tool.distorted(lens[:count], x, y), seen.ravel()), 1e-12)

    def test_damaged_files(self):
        for name, text in (
            ("given.yml", "%YAML:1.0\n---\nM1: !!opencv-matrix\n   rows: 3\n   data: [ 1., 2.\n"),
            ("given.yml", ""),
            ("given.xml", '<?xml version="1.0"?><opencv_storage><M1>'),
            ("given.xml", "\0\1\2"),
        ):
            line = f"opencv_calibration: {name}: OpenCV can't read it\n"
            self.assertEqual(run(text, LIMITS, name), (1, line, None), text)

    def test_files_of_opencv(self):
        plain = run(MADE, MADE_LIMITS)[2]
        names = {"cameraMatrix1": "M1", "distCoeffs1": "D1", "cameraMatrix2": "M2", "distCoeffs2": "D2"}
        names |= {"R": "R", "T": "T"}
        for ending in ("yml", "xml", "json"):
            with tempfile.TemporaryDirectory() as folder:
                for part, keys in (("intrinsics", list(names)[:4]), ("extrinsics", list(names)[4:])):
                    storage = cv2.FileStorage(f"{folder}/{part}.{ending}", cv2.FILE_STORAGE_WRITE)
                    for key in keys:
                        storage.write(names[key], self.array[key])
                    if part == "extrinsics":
                        storage.write("image_width", WIDTH)
                        storage.write("image_height", HEIGHT)
                    storage.release()
                files = [f"intrinsics.{ending}", f"extrinsics.{ending}"]
                command = [sys.executable, TOOL, *files, "--out", "made.json", *MADE_LIMITS.split()]
                done = subprocess.run(command, cwd=folder, capture_output=True, text=True)
                self.assertEqual(done.stderr, "")
                with open(f"{folder}/made.json", "rb") as file:
                    self.assertEqual(file.read(), plain, ending)


class WithoutOpenCV(unittest.TestCase):
    """What is said where OpenCV's package isn't there, and that a rectified JSON file doesn't need it."""

    def ended(self, given, name):
        with tempfile.TemporaryDirectory() as folder:
            with open(os.path.join(folder, name), "w") as file:
                file.write(given if isinstance(given, str) else json.dumps(given))
            script = f"import sys; sys.path.insert(0, {HERE!r}); import opencv_calibration as tool; "
            script += "from sgm_tools import opencv, running; opencv.cv2 = None; "
            script += "sys.argv[0] = 'opencv_calibration'; running.run(tool.main)"
            command = [sys.executable, "-c", script, name, "--out", "made.json", *LIMITS.split()]
            done = subprocess.run(command, cwd=folder, capture_output=True, text=True)
        return done.returncode, done.stderr

    def test_said_clearly(self):
        line = "opencv_calibration: cv2 of Python needed: apt-get install python3-opencv on Debian\n"
        self.assertEqual(self.ended("", "given.yml"), (1, line))
        self.assertEqual(self.ended(PLAIN, "given.json"), (1, line))

    def test_rectified(self):
        one = [[1, 0, 0], [0, 1, 0], [0, 0, 1]]
        p1, p2 = ([[64, 0, 40, shift], [0, 64, 20, 0], [0, 0, 1, 0]] for shift in (0, -32))
        self.assertEqual(self.ended({**PLAIN, "R1": one, "R2": one, "P1": p1, "P2": p2}, "given.json"), (0, ""))


if __name__ == "__main__":
    unittest.main()
