#!/usr/bin/env python3
"""Tries site_pose.py: poses are recovered from made-up points to rounding, from level ground and from a known place;
each refusal, check points, the warning of the scale, places in the photograph, and what stayed as it was."""

import decimal
import json
import math
import os
import subprocess
import sys
import tempfile
import unittest

HERE = os.path.dirname(os.path.abspath(__file__))

from sgm_tools import poses, running, warps
from sgm_tools import points as sgm_points
from sgm_tools.points import ONE
from sgm_tools.running import numpy

WIDTH, HEIGHT = 160, 120
CALIBRATION = {
    "version": 3,
    "disparities": {"first": 4, "count": 64, "fine": True},
    "census": {"width": 9, "height": 7},
    "penalties": {"p1": 25, "p2": 100, "adapt": False},
    "camera": {
        "focal": 256 * 200,
        "baseline": 500000,
        "cx": 256 * 80,
        "cy": 256 * 60,
        "doffs": 0,
        "mount": 8000000,
        "near": 1000000,
        "far": 30000000,
    },
    "grid": {"west": 0, "south": 0, "cell": 1000, "cols": 2, "rows": 2, "keep": "mean", "bridge": 0},
}
# A turn by 30 degrees to the left about the upright and a tilt of three, four, five.
TILT = [ONE, 0, 0, 0, 858993459, -644245094, 0, 644245094, 858993459]
COLUMNS = ("name", "x", "y", "east", "north", "up")
# Where targets are, and their disparities in sixteenths of a pixel above the first.
TARGETS = {
    "A": (20, 15, 100),
    "B": (140.25, 18.5, 180),
    "C": (25, 100, 260),
    "D": (133.5, 97, 420),
    "E": (80, 60, 330),
    "F": (60.5, 30.25, 90),
}


def setUpModule():
    running.need_for_tests(numpy=numpy)


def turned(degrees, matrix):
    """The rows of a rotation to the left about the upright, times the matrix, to 1/2^30."""
    c, s = math.cos(math.radians(degrees)), math.sin(math.radians(degrees))
    rows = numpy.array([[c, -s, 0], [s, c, 0], [0, 0, 1]]) @ (numpy.array(matrix).reshape(3, 3) / ONE)
    return [round(it * ONE) for it in rows.ravel().tolist()]


POSE = sgm_points.Pose(turned(30, TILT), 12000000, -7500000, 3000001)


def camera_point(x, y, value, camera=CALIBRATION["camera"]):
    """X, Y and h of a place, in exact decimals."""
    with decimal.localcontext(decimal.Context(prec=40)):
        k = decimal.Decimal(16 * (16 * 4 + value) + camera["doffs"])
        x, y, baseline = decimal.Decimal(x), decimal.Decimal(y), camera["baseline"]
        away = camera["focal"] * baseline / k
        across, along = (256 * x - camera["cx"]) * baseline / k, (camera["cy"] - 256 * y) * baseline / k
        return across, along, camera["mount"] - away


def site_point(pose, point):
    """Metres in the site's frame, in decimals."""
    with decimal.localcontext(decimal.Context(prec=40)):
        m, shifts = pose.matrix, (pose.east, pose.north, pose.up)
        rows = (m[:3], m[3:6], m[6:])
        sums = [sum(a * b for a, b in zip(row, point)) / ONE + shift for row, shift in zip(rows, shifts)]
        return [round(it / 1000000, 12) for it in sums]


def picture(targets=None, reach=4):
    """OUT.pgm: around each target its disparity, and nothing elsewhere."""
    samples = numpy.zeros((HEIGHT, WIDTH), numpy.uint16)
    for x, y, value in (targets or TARGETS).values():
        col, row = math.floor(x + 0.5), math.floor(y + 0.5)
        samples[row - reach : row + reach + 1, col - reach : col + reach + 1] = value + 16
    return samples


def table_of(targets=None, pose=POSE):
    """The lines of POINTS.csv as words."""
    made = []
    for name, (x, y, value) in (targets or TARGETS).items():
        made.append([name, x, y, *site_point(pose, camera_point(x, y, value))])
    return made


class Tool(unittest.TestCase):
    def setUp(self):
        folder = tempfile.TemporaryDirectory()
        self.addCleanup(folder.cleanup)
        self.folder = folder.name
        self.write_json("c.json", CALIBRATION)
        self.write_picture(picture())
        self.write_points(table_of())

    def path(self, name):
        return os.path.join(self.folder, name)

    def write_json(self, name, value):
        with open(self.path(name), "w") as file:
            json.dump(value, file)

    def write_picture(self, samples):
        with open(self.path("o.pgm"), "wb") as file:
            file.write(b"P5\n%d %d\n65535\n" % samples.shape[::-1] + samples.astype(">u2").tobytes())

    def write_points(self, lines, head=COLUMNS):
        with open(self.path("p.csv"), "w") as file:
            for line in (head, *lines):
                file.write(",".join(f"{it:f}" if isinstance(it, decimal.Decimal) else str(it) for it in line) + "\n")

    def run_tool(self, *words):
        command = [sys.executable, os.path.join(HERE, "site_pose.py"), *words]
        done = subprocess.run(command, cwd=self.folder, capture_output=True, text=True)
        return done.returncode, done.stdout, done.stderr

    def pose(self, *words):
        """The pose that the tool prints, and the lines before."""
        status, out, err = self.run_tool("c.json", *words)
        self.assertEqual((status, err), (0, ""), out)
        *lines, last = out.splitlines()
        return json.loads(last), lines

    def is_near(self, found, wanted, units=2, micrometres=1):
        off = [abs(a - b) for a, b in zip(found["matrix"], wanted.matrix)]
        self.assertLessEqual(max(off), units, found)
        for key in ("east", "north", "up"):
            self.assertLessEqual(abs(found[key] - getattr(wanted, key)), micrometres, found)

    def refused(self, status, line, *words):
        words = words or ("o.pgm", "p.csv")
        ended = self.run_tool("c.json", *words)
        self.assertEqual((ended[0], ended[2]), (status, f"site_pose: {line}\n"))
        return ended[1]


class FromPoints(Tool):
    def test_recovered(self):
        found, lines = self.pose("o.pgm", "p.csv")
        self.is_near(found, POSE)
        self.assertEqual(lines[0].split(), "point east north up length, mm".split())
        self.assertEqual([line.split()[0] for line in lines[1:7]], list(TARGETS))
        for line in lines[1:7]:
            self.assertEqual(line.replace("-", "").split()[1:], ["0.0"] * 4)
        self.assertEqual(lines[7].replace("-", "").split(), "root mean square 0.0 0.0 0.0 0.0".split())
        self.assertRegex(lines[8], r"^the points want lengths [+-]0 in a million, volumes [+-]0\.00 %$")
        self.assertEqual(len(lines), 9)

    def test_three_are_enough(self):
        self.write_points(table_of()[:3])
        self.is_near(self.pose("o.pgm", "p.csv")[0], POSE)

    def test_written(self):
        found, _ = self.pose("o.pgm", "p.csv", "--write", "w.json")
        with open(self.path("w.json")) as file:
            made = json.load(file)
        self.assertEqual(made, {**CALIBRATION, "pose": found})
        self.assertEqual(list(made)[4:7], ["camera", "pose", "grid"])
        self.assertFalse(os.path.exists(self.path("site.json")))
        # A pose that is there already has no part in the new one.
        self.write_json("c.json", {**made, "pose": {"matrix": 9 * [7], "east": 1, "north": 1, "up": 1}})
        self.assertEqual(self.pose("o.pgm", "p.csv")[0], found)

    def test_columns_in_any_order(self):
        lines = [[line[3], "more", line[0], line[5], line[2], line[1], line[4]] for line in table_of()]
        self.write_points([*lines, []], ("east", "remark", "name", "up", "y", "x", "north"))
        self.is_near(self.pose("o.pgm", "p.csv")[0], POSE)

    def test_plane_around_a_place(self):
        """Disparities that rise across the window: the place between pixels has what the plane has there."""
        samples = picture()
        x, y, _ = TARGETS["D"]
        for row in range(90, 105):
            for col in range(126, 142):
                samples[row, col] = 16 + 420 + 2 * col + 3 * row - 540
        # The plane has 2 * 133.5 + 3 * 97 - 540 = 18 more at the place.
        self.write_picture(samples)
        self.write_points(table_of({**TARGETS, "D": (x, y, 438)}))
        self.is_near(self.pose("o.pgm", "p.csv")[0], POSE)

    def test_wrong_disparities_around_a_place(self):
        """What lies off the surface has no part."""
        samples = picture()
        samples[57:60, 77:83] = 16 + 900
        samples[63, 77:83] = 0
        self.write_picture(samples)
        self.is_near(self.pose("o.pgm", "p.csv")[0], POSE)

    def test_check_points(self):
        lines = table_of()
        lines[2][5] += decimal.Decimal("0.03")
        lines[3][3] -= decimal.Decimal("0.06")
        self.write_points(lines)
        found, said = self.pose("o.pgm", "p.csv", "--check", "C,D")
        self.is_near(found, POSE)
        words = said[3].replace("-0.0", "0.0").split()
        self.assertEqual(words, "C 0.0 0.0 -30.0 30.0 check".split())
        self.assertEqual(said[4].split()[1], "60.0")
        self.assertEqual([line.endswith("check") for line in said[1:7]], [False, False, True, True, False, False])
        # The root of the mean square of 30 and 60 mm, each in its own direction, and of both together.
        self.assertEqual(said[8].split()[:4], "of the check points".split())
        self.assertEqual([it.lstrip("-") for it in said[8].split()[4:]], ["42.4", "0.0", "21.2", "47.4"])
        self.assertEqual(said[-1], "WARNING: the check point D lies 60.0 mm from its place")
        self.refused(1, "p.csv: no point has the name G", "o.pgm", "p.csv", "--check", "A,G")

    def test_worst(self):
        lines = table_of()
        lines[3][3] += decimal.Decimal("0.4")
        self.write_points(lines)
        status, out, err = self.run_tool("c.json", "o.pgm", "p.csv")
        self.assertEqual((status, err.count("\n")), (poses.TOO_FAR, 1))
        self.assertRegex(err, r"^site_pose: D lies [0-9.]+ mm from its place, --worst is 50\n$")
        # What is known of the points is printed all the same.
        self.assertEqual([line.split()[0] for line in out.splitlines()[1:7]], list(TARGETS))
        self.assertEqual(self.run_tool("c.json", "o.pgm", "p.csv", "--worst", "500")[0], 0)
        words = ("c.json", "o.pgm", "p.csv", "--write", "w.json")
        self.assertEqual(self.run_tool(*words)[0], poses.TOO_FAR)
        self.assertFalse(os.path.exists(self.path("w.json")))

    def test_scale(self):
        """Places that are a hundredth farther apart than the pair measures: the baseline is a hundredth too short."""
        lines = table_of()
        for line in lines:
            line[3:] = [round(it * decimal.Decimal("1.01"), 9) for it in line[3:]]
        self.write_points(lines)
        _, said = self.pose("o.pgm", "p.csv", "--worst", "500")
        # 1.01 to the third is 1.030301.
        self.assertEqual(said[8], "the points want lengths +10000 in a million, volumes +3.03 %")
        self.assertTrue(said[9].startswith("WARNING: that is more than --scale 0.002 allows"), said)
        _, said = self.pose("o.pgm", "p.csv", "--worst", "500", "--scale", "0.011")
        self.assertEqual(len(said), 9)

    def test_too_few(self):
        line = "2 points, at least 3 are needed beside those of --check"
        self.write_points(table_of()[:2])
        self.refused(poses.TOO_FEW, line)
        self.write_points(table_of()[:4])
        self.refused(poses.TOO_FEW, line, "o.pgm", "p.csv", "--check", "A", "--check", "D")
        self.write_points([])
        self.refused(poses.TOO_FEW, line.replace("2", "0", 1))

    def test_on_a_line(self):
        targets = {"A": (20, 20, 100), "B": (60, 50, 100), "C": (100, 80, 100), "D": (120, 95, 100)}
        self.write_picture(picture(targets))
        self.write_points(table_of(targets))
        self.refused(poses.ON_A_LINE, "the points lie on one line, and fix no rotation about it")
        # In the site's frame alone.
        self.write_picture(picture())
        lines = [[*line[:3], number, 2 * number, 0] for number, line in enumerate(table_of())]
        self.write_points(lines)
        self.refused(poses.ON_A_LINE, "the points lie on one line, and fix no rotation about it")
        # All on one place.
        self.write_points([[*line[:3], 1, 2, 3] for line in table_of()])
        self.refused(poses.ON_A_LINE, "the points lie on one line, and fix no rotation about it")

    MIRRORED = (
        "the points are mirrored: are east and north, or x and y, exchanged, or a sign wrong?"
        " (--upwards, where the cameras look up at a flat scene)"
    )

    def test_mirrored(self):
        self.write_points([[*line[:3], line[4], line[3], line[5]] for line in table_of()])
        self.refused(poses.MIRRORED, self.MIRRORED)
        self.write_points([[*line[:5], -line[5]] for line in table_of()])
        self.refused(poses.MIRRORED, self.MIRRORED)

    def test_mirrored_in_a_plane(self):
        """Flat points fit both ways, and then the cameras would stand below them."""
        targets = {name: (x, y, 200) for name, (x, y, _) in TARGETS.items()}
        self.write_picture(picture(targets))
        self.write_points(table_of(targets))
        self.is_near(self.pose("o.pgm", "p.csv")[0], POSE)
        exchanged = [[*line[:3], line[4], line[3], line[5]] for line in table_of(targets)]
        self.write_points(exchanged)
        self.refused(poses.MIRRORED, self.MIRRORED)
        found, _ = self.pose("o.pgm", "p.csv", "--upwards")
        self.assertLess(found["matrix"][8], 0)
        # Three points are flat ones.
        self.write_points(exchanged[:3])
        self.refused(poses.MIRRORED, self.MIRRORED)

    def test_looking_up(self):
        """Cameras that look up at what isn't flat need no word for it."""
        upwards = sgm_points.Pose([ONE, 0, 0, 0, -ONE, 0, 0, 0, -ONE], 0, 0, 9000000)
        self.write_points(table_of(pose=upwards))
        self.is_near(self.pose("o.pgm", "p.csv")[0], upwards)

    def test_places(self):
        samples = picture()
        samples[:, 77:84] = 0
        self.write_picture(samples)
        line = "E: of the 7 x 7 pixels around it 0 have a disparity, and no 25 are of one surface"
        self.refused(poses.NO_PLACE, line)
        # Where two surfaces meet and neither has more than half.
        samples = picture()
        samples[:, 80] = 0
        samples[:, 81:] = numpy.where(samples[:, 81:] == 346, 800, samples[:, 81:])
        self.write_picture(samples)
        line = "E: of the 7 x 7 pixels around it 42 have a disparity, and no 25 are of one surface"
        self.refused(poses.NO_PLACE, line)
        self.assertEqual(self.run_tool("c.json", "o.pgm", "p.csv", "--window", "9")[0], poses.NO_PLACE)
        lines = table_of()
        lines[1][1] = 159.5
        self.write_points(lines)
        self.refused(poses.NO_PLACE, "B: 159.5 18.5 is outside the picture of 160 x 120")

    def test_distance(self):
        camera = {**CALIBRATION["camera"], "near": 4000000}
        self.write_json("c.json", {**CALIBRATION, "camera": camera})
        self.refused(poses.NO_PLACE, "D: its distance is below near or above far")

    def test_versions(self):
        for version in (1, 2, None, "3"):
            self.write_json("c.json", {**CALIBRATION, "version": version})
            line = f"c.json: a pose needs a calibration of version 3, and this is one of version {version}"
            self.refused(poses.OLD_VERSION, line)

    def test_tables(self):
        good = table_of()
        for lines, head, line in [
            (good, COLUMNS[:5], "its first line isn't a head with name,x,y,east,north,up"),
            (good, (*COLUMNS[:5], "x"), "its first line isn't a head with name,x,y,east,north,up"),
            ([*good, good[0]], COLUMNS, "line 8 has no name of its own"),
            ([["", 1, 2, 3, 4, 5]], COLUMNS, "line 2 has no name of its own"),
            ([["A", 1, 2, 3, 4]], COLUMNS, "line 2 has 5 words, 6 needed"),
            ([["A", 1, 2, 3, 4, "5 m"]], COLUMNS, "line 2 has a word that isn't a number"),
            ([["A", 1, 2, 3, 4, "nan"]], COLUMNS, "line 2 has a word that isn't a number"),
        ]:
            self.write_points(lines, head)
            self.refused(1, f"p.csv: {line}")

    def test_map_coordinates(self):
        lines = table_of()
        for line in lines:
            line[3] += 412300
            line[4] += decimal.Decimal("5654100.125")
        self.write_points(lines)
        far = "A is farther than 2 km from the site's origin: --offset with --map-coordinates takes an offset off"
        self.refused(poses.OUT_OF_RANGE, far)
        offset = ("--offset", "412300", "5654100.125", "--map-coordinates")
        words = (*offset, "--epsg", "25833", "--write", "w.json")
        self.is_near(self.pose("o.pgm", "p.csv", *words)[0], POSE)
        with open(self.path("site.json")) as file:
            self.assertEqual(json.load(file), {"offset": [412300, 5654100.125], "epsg": 25833})
        words = ("--epsg", "EPSG:25833", "--site", "s.json")
        self.write_points(table_of())
        self.pose("o.pgm", "p.csv", *words)
        with open(self.path("s.json")) as file:
            self.assertEqual(file.read(), '{"epsg": 25833}\n')


class FromPhotograph(Tool):
    def test_recovered(self):
        """A mesh that moves places by some pixels: the places of the photograph lead to the same pose."""
        step = 32
        cols, rows = (WIDTH - 1) // step + 2, (HEIGHT - 1) // step + 2
        nodes = []
        for row in range(rows):
            for col in range(cols):
                nodes += [256 * step * col + 900 - 40 * row * col, 256 * step * row - 700 + 90 * col]
        left = {"kind": "mesh", "step": step, "cols": cols, "rows": rows, "nodes": nodes}
        matrix = {"kind": "projective", "matrix": [100000, 1200, 300000, -900, 99000, -200000, 3, 5, 100000]}
        for warp in (left, matrix):
            whole = {**CALIBRATION, "warp": {"left": warp, "right": {"kind": "identity"}}}
            self.write_json("c.json", whole)
            there = warps.Warp(warp, WIDTH, HEIGHT)
            lines = table_of()
            for line in lines:
                line[1:3] = (f"{it:.9f}" for it in there.place(*line[1:3]))
            self.write_points(lines)
            self.is_near(self.pose("o.pgm", "p.csv", "--photograph")[0], POSE, 4000, 400)
            self.assertNotEqual(self.run_tool("c.json", "o.pgm", "p.csv", "--worst", "5")[0], 0)
            lines[0][1:3] = 400, 7
            self.write_points(lines)
            line = "A: 400 7 of the photograph isn't in the rectified picture"
            self.refused(poses.NO_PLACE, line, "o.pgm", "p.csv", "--photograph")

    def test_without_a_warp(self):
        self.is_near(self.pose("o.pgm", "p.csv", "--photograph")[0], POSE)


class FromLevel(Tool):
    def test_sloping_ground(self):
        """A plane that falls to the picture's upper side: disparities 2 x + 5 y + 100 sixteenths."""
        ys, xs = numpy.mgrid[0:HEIGHT, 0:WIDTH]
        samples = 16 + 100 + 2 * xs + 5 * ys
        samples[40:60, 60:100] += 200
        self.write_picture(samples)
        words = ("o.pgm", "--level", "0,0,160,40", "--level", "0,60,160,60", "--height", "1.5")
        found, said = self.pose(*words)
        self.assertEqual(said[0], "16000 of 16000 pixels lie within 0.000 pixels of a plane")
        matrix = numpy.array(found["matrix"]).reshape(3, 3) / ONE
        shift = numpy.array([found["east"], found["north"], found["up"]])
        self.assertAlmostEqual(numpy.linalg.det(matrix), 1, 8)
        # All places of the plane are level, at the height that was given.
        for x, y in ((0, 0), (159, 0), (80, 60), (0, 119), (159, 119)):
            point = [float(it) for it in camera_point(x, y, 100 + 2 * x + 5 * y)]
            self.assertAlmostEqual((matrix @ point + shift)[2], 1500000, delta=2)
        # The camera is above the origin, and as high above the plane as is said.
        centre = matrix @ [0, 0, CALIBRATION["camera"]["mount"]] + shift
        self.assertTrue(abs(centre[0]) <= 1 and abs(centre[1]) <= 1, centre)
        self.assertIn(f"stands {(centre[2] - 1500000) / 1e6:.3f} m above it", said[1])
        # What is upwards in the picture is north, with no part of it to the east.
        self.assertEqual(found["matrix"][1], 0)
        self.assertGreater(found["matrix"][4], 0)

    def test_level_already(self):
        self.write_picture(numpy.full((HEIGHT, WIDTH), 16 + 256))
        found, said = self.pose("o.pgm", "--level", "10,10,100,100")
        # 51200 * 500000 / (16 * (64 + 256)) = 5 m.
        mount = CALIBRATION["camera"]["mount"]
        self.assertEqual(found["matrix"], [ONE, 0, 0, 0, ONE, 0, 0, 0, ONE])
        self.assertEqual((found["east"], found["north"], found["up"]), (0, 0, 5000000 - mount))
        self.assertEqual(said[1], "the camera stands 5.000 m above it and is tilted by 0.00 degrees")

    def test_refused(self):
        line = "--level: 100,0,61,10 isn't a rectangle of the picture's pixels, which is 160 x 120"
        self.refused(poses.NO_PLACE, line, "o.pgm", "--level", "100,0,61,10")
        line = "--level: 100 pixels, of which 0 have a disparity: no half of them is of one plane"
        self.refused(poses.NO_PLACE, line, "o.pgm", "--level", "80,0,10,10")


class FromCamera(Tool):
    def leads(self, found, point):
        """Where a point of the camera's frame lies."""
        return sgm_points.Pose(found["matrix"], found["east"], found["north"], found["up"]).of(*point)

    def test_straight_down(self):
        found, said = self.pose("--camera", "1", "-2", "9.5", "--look", "1", "-2", "0")
        self.assertEqual((found["matrix"], said), ([ONE, 0, 0, 0, ONE, 0, 0, 0, ONE], []))
        self.assertEqual((found["east"], found["north"], found["up"]), (1000000, -2000000, 1500000))
        found, _ = self.pose("--camera", "1", "-2", "9.5", "--look", "1", "-2", "0", "--roll", "90")
        # Turned clockwise as seen from above, the right of the picture is south.
        self.assertEqual(found["matrix"], [0, ONE, 0, -ONE, 0, 0, 0, 0, ONE])

    def test_level_view(self):
        """To the north: up in the picture is up, and the distance is north."""
        found, _ = self.pose("--camera", "0", "0", "2", "--look", "0", "5", "2")
        self.assertEqual(found["matrix"], [ONE, 0, 0, 0, 0, -ONE, 0, ONE, 0])
        mount = CALIBRATION["camera"]["mount"]
        self.assertEqual(self.leads(found, (3000, 4000, mount - 5000000)), (3000, 5000000, 2004000))

    def test_aslant(self):
        camera, look = ("12.4", "-3.15", "8.02"), ("18", "4.5", "0.3")
        found, _ = self.pose("--camera", *camera, "--look", *look)
        mount = CALIBRATION["camera"]["mount"]
        metres = [[round(float(it) * 1000000) for it in place] for place in (camera, look)]
        self.assertTrue(sgm_points.is_nearly_rotation(found["matrix"]))
        self.assertFalse(sgm_points.is_mirror(found["matrix"]))
        self.assertTrue(all(abs(a - b) <= 1 for a, b in zip(self.leads(found, (0, 0, mount)), metres[0])))
        away = round(math.dist(*metres))
        self.assertTrue(all(abs(a - b) <= 1 for a, b in zip(self.leads(found, (0, 0, mount - away)), metres[1])))
        # The right of the picture is level, and its upper side is up.
        self.assertEqual(found["matrix"][6], 0)
        self.assertGreater(found["matrix"][7], 0)
        rolled, _ = self.pose("--camera", *camera, "--look", *look, "--roll", "10")
        # Clockwise as seen from behind, so the right of the picture sinks.
        sunk = -math.sin(math.radians(10)) * found["matrix"][7]
        self.assertAlmostEqual(rolled["matrix"][6], sunk, delta=2)
        self.assertEqual(rolled["matrix"][8], found["matrix"][8])

    def test_far(self):
        line = "--camera is farther than 2 km from the site's origin:"
        line += " --offset with --map-coordinates takes an offset off"
        words = ("--camera", "2001", "0", "5", "--look", "2000", "0", "0")
        self.refused(poses.OUT_OF_RANGE, line, *words)
        found, _ = self.pose(*words, "--map-coordinates", "--offset", "2000", "0", "--site", "s.json")
        self.assertEqual(self.leads(found, (0, 0, 8000000)), (1000000, 0, 5000000))
        line = "--look: the point isn't a millimetre away from the camera"
        self.refused(1, line, "--camera", "1", "1", "1", "--look", "1", "1", "1.0009")


class FromEarlier(Tool):
    """Two surveys of rough ground, of which the later one lies by TILT higher: millimetres at the middle of the still
    ground, and millimetres a metre to the east and to the north. Between the two pieces of ground a heap went away."""

    TILT = (12, 1.5, -0.8)
    GRID = {"west": -3000000, "south": 2000000, "cell": 250000, "cols": 24, "rows": 20, "keep": "mean", "bridge": 0}
    REGIONS = {"ground-west": (0, 6), "heap": (6, 12), "Ground-east": (18, 6)}
    MIDDLE = (0, 4500000)

    def setUp(self):
        super().setUp()
        regions = [
            {"name": name, "col": col, "row": 0, "cols": cols, "rows": 20, "base": 0, "rise_east": 0, "rise_north": 0}
            for name, (col, cols) in self.REGIONS.items()
        ]
        self.calibration = {**CALIBRATION, "pose": POSE.section(), "grid": self.GRID, "regions": regions}
        self.write_json("c.json", self.calibration)
        row, col = numpy.mgrid[0:20, 0:24]
        self.east = -3000000 + 250000 * col + 125000
        self.north = 2000000 + 250000 * (19 - row) + 125000
        self.earlier = 7300000 + (col * 7919 + row * 104729) % 400000
        higher, to_east, to_north = self.TILT
        away = [at - middle for at, middle in zip((self.east, self.north), self.MIDDLE)]
        plane = 1000 * higher + to_east * away[0] / 1000 + to_north * away[1] / 1000
        self.later = numpy.rint(self.earlier + plane).astype(int)
        self.later[:, 6:18] -= 500000
        self.write_surveys()

    def write_surveys(self):
        for name, heights in (("e.asc", self.earlier), ("l.asc", self.later)):
            head = "ncols 24\nnrows 20\nxllcorner -3000000\nyllcorner 2000000\ncellsize 250000\n"
            rows = "\n".join(" ".join(map(str, row)) for row in heights.tolist())
            with open(self.path(name), "w") as file:
                file.write(f"{head}NODATA_value -2147483648\n{rows}\n")

    def moved(self, found, col, row):
        """Where the new pose takes what the old one has at a cell of the later survey."""
        old, new = (numpy.array(it).reshape(3, 3) / ONE for it in (POSE.matrix, found["matrix"]))
        place = numpy.array([self.east[row, col], self.north[row, col], self.later[row, col]], float)
        seen = old.T @ (place - [POSE.east, POSE.north, POSE.up])
        return new @ seen + [found[key] for key in ("east", "north", "up")]

    def brings_back(self, found, micrometres=10):
        """All corners of both pieces of ground have the earlier heights, and nothing is turned about the upright."""
        for col, row in ((0, 0), (0, 19), (5, 10), (18, 0), (23, 19), (23, 0)):
            east, north, up = self.moved(found, col, row)
            self.assertAlmostEqual(up, self.earlier[row, col], delta=micrometres)
            # A turn by 1.7 mm a metre moves what lies 0.3 m above the middle by half a millimetre.
            self.assertLess(math.hypot(east - self.east[row, col], north - self.north[row, col]), 600)

    def test_recovered(self):
        found, said = self.pose("--earlier", "e.asc", "l.asc")
        self.brings_back(found)
        self.assertEqual(said[0], "240 of 240 still cells lie 0.0 mm from a plane (root mean square)")
        rises = "+1.50 mm/m to the east, -0.80 mm/m to the north"
        self.assertEqual(said[1], f"the later survey is +12.0 mm higher in their middle, rising {rises}")
        # The corners are 2.875 m to the east and 2.375 m to the north of the middle.
        self.assertEqual(said[2:], ["still cells move by 18.2 mm at most"])

    def test_written(self):
        found, _ = self.pose("--earlier", "e.asc", "l.asc", "--write", "w.json")
        with open(self.path("w.json")) as file:
            self.assertEqual(json.load(file), {**self.calibration, "pose": found})

    def test_the_same(self):
        """Where nothing is higher the pose stays as it is."""
        self.later = self.earlier
        self.write_surveys()
        found, said = self.pose("--earlier", "e.asc", "l.asc")
        self.is_near(found, POSE)
        self.assertEqual(said[2], "still cells move by 0.0 mm at most")

    def test_what_moved_has_no_part(self):
        """A corner of the ground, a fifth of it, that was built upon, and cells with a height in one survey alone."""
        self.later[:8, 18:24] += 400000
        self.later[15:17, 0:3] = -(2**31)
        self.earlier[17:19, 0:3] = -(2**31)
        self.write_surveys()
        found, said = self.pose("--earlier", "e.asc", "l.asc")
        self.assertEqual(said[0], "180 of 228 still cells lie 0.0 mm from a plane (root mean square)")
        self.later[:8, 18:24] -= 400000
        self.brings_back(found)

    def test_named(self):
        """The heap alone, as if it were still: it lies half a metre lower."""
        status, out, err = self.run_tool("c.json", "--earlier", "e.asc", "l.asc", "--still", "heap")
        self.assertEqual((status, out.splitlines()[0].split()[:3]), (poses.TOO_FAR, ["240", "of", "240"]))
        # -500 + 12 mm in the middle, and 1.375 m and 2.375 m to the corner.
        self.assertIn("is -488.0 mm higher in their middle", out)
        self.assertEqual(err, "site_pose: a still cell lies 492.0 mm from the earlier survey, --worst is 50\n")
        words = ("--earlier", "e.asc", "l.asc", "--still", "ground-west,Ground-east")
        self.assertEqual(self.pose(*words), self.pose("--earlier", "e.asc", "l.asc"))
        self.refused(1, "no region of the calibration has the name hill", *words[:3], "--still", "heap,hill")

    def test_worst(self):
        words = ("--earlier", "e.asc", "l.asc", "--write", "w.json", "--worst")
        line = "a still cell lies 18.2 mm from the earlier survey, --worst is 18"
        self.assertEqual(len(self.refused(poses.TOO_FAR, line, *words, "18").splitlines()), 3)
        self.assertFalse(os.path.exists(self.path("w.json")))
        self.pose(*words, "18.3")

    def test_on_a_line(self):
        self.calibration["regions"][2]["name"] = "field"
        self.calibration["regions"][0]["cols"] = 1
        self.write_json("c.json", self.calibration)
        line = "the still ground lies on one line, and fixes no tilt across it"
        self.refused(poses.ON_A_LINE, line, "--earlier", "e.asc", "l.asc")

    def test_too_few(self):
        self.later[:, 0:6] = -(2**31)
        self.earlier[:, 18:24] = -(2**31)
        self.later[0, 18:20] = self.earlier[0, 18:20] = 7000000
        self.write_surveys()
        line = "2 cells of still ground have a height in both surveys, 3 at least"
        self.refused(poses.NO_PLACE, line, "--earlier", "e.asc", "l.asc")

    def test_without_a_pose(self):
        del self.calibration["pose"]
        self.write_json("c.json", self.calibration)
        line = "c.json: it has no pose yet: targets or level ground give one"
        self.refused(1, line, "--earlier", "e.asc", "l.asc")

    def test_another_grid(self):
        self.calibration["grid"] = {**self.GRID, "south": 2250000}
        self.write_json("c.json", self.calibration)
        line = "the calibration's grid isn't that of the heights: is it the calibration of this survey?"
        self.refused(1, line, "--earlier", "e.asc", "l.asc")


class Words(Tool):
    def test_wrong(self):
        needed = "OUT.pgm and POINTS.csv, --level, --camera or --earlier needed"
        others = "--earlier takes neither disparities nor --level or --camera"
        for words, line in [
            ((), needed),
            (("o.pgm",), needed),
            (("o.pgm", "p.csv", "--earlier", "e.asc", "l.asc"), others),
            (("--earlier", "e.asc", "l.asc", "--camera", "0", "0", "0", "--look", "0", "1", "0"), others),
            (("--earlier", "e.asc", "l.asc", "--check", "A"), "--photograph, --check and --upwards need points"),
            (("o.pgm", "p.csv", "--still", "ground"), "--still needs --earlier"),
            (("o.pgm", "p.csv", "--level", "0,0,1,1"), "--level needs CALIB.json and OUT.pgm and takes no points"),
            (("--level", "0,0,1,1"), "--level needs CALIB.json and OUT.pgm and takes no points"),
            (
                ("o.pgm", "--camera", "0", "0", "0", "--look", "0", "1", "0"),
                "--camera takes neither disparities nor --level",
            ),
            (("--camera", "0", "0", "0"), "--camera needs --look"),
            (("o.pgm", "p.csv", "--look", "0", "0", "0"), "--look and --roll need --camera"),
            (("o.pgm", "p.csv", "--height", "1"), "--height needs --level"),
            (("o.pgm", "--level", "0,0,1,1", "--photograph"), "--photograph, --check and --upwards need points"),
            (("o.pgm", "p.csv", "--map-coordinates"), "--map-coordinates needs --offset"),
            (("o.pgm", "p.csv", "--epsg", "25833"), "--offset and --epsg need --write or --site"),
            (("o.pgm", "p.csv", "--site", "s.json"), "--site needs --offset or --epsg"),
            (("o.pgm", "p.csv", "--window", "8"), "argument --window: 8 isn't an odd number from 3 to 101"),
            (("o.pgm", "p.csv", "--epsg", "12"), "argument --epsg: 12 isn't a code of EPSG"),
        ]:
            status, out, err = self.run_tool("c.json", *words)
            self.assertEqual((status, out), (2, ""), words)
            self.assertEqual(err.splitlines()[-1], f"site_pose.py: error: {line}")


if __name__ == "__main__":
    unittest.main()
