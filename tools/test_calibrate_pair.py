#!/usr/bin/env python3
"""Tries calibrate_pair.py on made-up pictures of a chessboard through two bent lenses, whose numbers are known.
Needs numpy, Pillow and OpenCV. Takes two minutes."""

import argparse
import dataclasses
import json
import math
import os
import re
import shutil
import subprocess
import sys
import tempfile
import unittest

HERE = os.path.dirname(os.path.abspath(__file__))
TOOL = os.path.join(HERE, "calibrate_pair.py")
sys.path[:0] = [os.path.join(HERE, "..", it) for it in ("tests", os.path.join("examples", "photographs"))]

import board_sets
import make_photographs as made
from sgm_tools import boards as tool
from sgm_tools import further_boards, known_distances, opencv, pairs, running, spreads
from sgm_tools.boards import cv2
from sgm_tools.running import Image, numpy


def setUpModule():
    """The pictures of the board, made once."""
    global folder
    running.need_for_tests(numpy=numpy, PIL=Image, cv2=cv2)
    folder = tempfile.TemporaryDirectory()
    for side in ("left", "right"):
        os.makedirs(os.path.join(folder.name, side))
    for number, pair in enumerate(made.boards(), 1):
        for side, pixels in zip(("left", "right"), pair):
            Image.fromarray(pixels).save(os.path.join(folder.name, side, f"{number:02}.png"))


def tearDownModule():
    folder.cleanup()


class Case(unittest.TestCase):
    def setUp(self):
        """A copy of the pictures."""
        own = tempfile.TemporaryDirectory()
        self.addCleanup(own.cleanup)
        self.folder = os.path.join(own.name, "boards")
        shutil.copytree(folder.name, self.folder)

    def picture(self, side, number):
        return os.path.join(self.folder, side, f"{number:02}.png")

    def run_tool(self, *options, left=("left",), right=("right",)):
        """The status, both streams, and what the file has, if there is one."""
        words = ["--left", *left, "--right", *right, "--board", "9x6", "--square", "0.25", "--out", "made.json"]
        command = [sys.executable, TOOL, *words, *options]
        done = subprocess.run(command, cwd=self.folder, capture_output=True, text=True)
        path, found = os.path.join(self.folder, "made.json"), None
        if os.path.exists(path):
            with open(path) as file:
                found = json.load(file)
        return done.returncode, done.stdout, done.stderr, found

    def refused(self, line, *options, **sides):
        """Whether it ends with 1, one line that begins so, and no file."""
        status, _, err, found = self.run_tool(*options, **sides)
        self.assertEqual((status, err.count("\n"), found), (1, 1, None), err)
        self.assertTrue(err.startswith("calibrate_pair: " + line), err)


class Cameras(Case):
    def test_near_the_truth(self):
        status, out, err, found = self.run_tool()
        self.assertEqual((status, err), (0, ""))
        true = made.calibration()
        self.assertEqual(found["imageSize"], true["imageSize"])
        for key in ("M1", "M2"):
            for row, col in ((0, 0), (1, 1)):
                self.assertAlmostEqual(found[key][row][col] / true[key][row][col], 1, delta=0.005)
            for row in (0, 1):
                self.assertAlmostEqual(found[key][row][2], true[key][row][2], delta=2)
        self.assertLess(abs(numpy.array(found["R"]) - true["R"]).max(), 0.02)
        self.assertAlmostEqual(numpy.linalg.norm(found["T"]), numpy.linalg.norm(true["T"]), delta=0.002)
        # What a lens does 100 pixels from the axis: within a quarter of a pixel of what it does in truth.
        for key, focal in (("D1", 150), ("D2", 152)):
            for x, y in ((100 / focal, 0), (0, -100 / focal), (70 / focal, 70 / focal)):
                ours = opencv.distorted(numpy.ravel(found[key]), x, y)
                theirs = opencv.distorted(numpy.array(true[key]), x, y)
                self.assertLess(focal * numpy.hypot(*numpy.subtract(ours, theirs)), 0.5, (key, x, y))
        lines = out.splitlines()
        self.assertEqual(lines[0], "12 pairs of 320 x 240 with a board")
        names = ["left camera", "right camera", "pair", "rows of the rectified pair"]
        self.assertEqual([line.split(":")[0] for line in lines[1:5]], names)
        self.assertTrue(all(0 < float(line.split()[-2]) < 0.05 for line in lines[1:5]), out)
        self.assertAlmostEqual(float(lines[5].split()[1].rstrip(",")), 1.6, delta=0.002)

    def test_opencv_calibration_reads_it(self):
        self.run_tool()
        other = [os.path.join(HERE, "opencv_calibration.py"), "made.json", "--out", "c.json"]
        words = "--unit m --near 4000000 --far 9000000 --mount 8000000".split()
        done = subprocess.run([sys.executable, *other, *words], cwd=self.folder, capture_output=True, text=True)
        self.assertEqual((done.returncode, done.stderr), (0, ""))
        with open(os.path.join(self.folder, "c.json")) as file:
            camera = json.load(file)["camera"]
        self.assertAlmostEqual(camera["baseline"] / 1600000, 1, delta=0.005)

    def test_pictures_without_a_board(self):
        Image.new("L", (320, 240), 90).save(self.picture("right", 3))
        status, out, _, found = self.run_tool()
        self.assertEqual((status, found is None), (0, False))
        self.assertEqual(out.splitlines()[:2], ["no board: right/03.png", "11 pairs of 320 x 240 with a board"])

    def test_turns_of_exif(self):
        """Pictures that lie on their side, with an EXIF that says so, are the same pictures."""
        for number in range(1, 13):
            name = self.picture("left", number)
            with Image.open(name) as image:
                lying = image.transpose(Image.Transpose.ROTATE_90)
            exif = lying.getexif()
            exif[0x0112] = 6
            lying.save(name, exif=exif.tobytes())
        plain = made.calibration()["M1"]
        status, _, err, found = self.run_tool()
        self.assertEqual((status, err, found["imageSize"]), (0, "", [320, 240]))
        self.assertAlmostEqual(found["M1"][0][0] / plain[0][0], 1, delta=0.005)

    def test_lists(self):
        sides = {side: [f"{side}/{number:02}.png" for number in range(1, 8)] for side in ("left", "right")}
        status, out, _, _ = self.run_tool(**sides)
        self.assertEqual((status, out.splitlines()[0]), (0, "7 pairs of 320 x 240 with a board"))

    def test_how_far_off(self):
        """The lines behind the baseline, for two distances and for one that is asked for."""
        _, out, _, _ = self.run_tool()
        lines = out.splitlines()[6:]
        self.assertEqual(lines[0], "standard errors, from 12 calibrations without one board each:")
        focal, baseline = (re.findall(r"([0-9.]+) %", line) for line in lines[1:3])
        self.assertEqual(focal[0], focal[1])
        self.assertAlmostEqual(float(baseline[1]), 3 * float(baseline[0]), delta=0.02)
        at = r"    all numbers together, of a volume: [0-9.]+ % at a distance of ([0-9.]+), [0-9.]+ % at a distance of ([0-9.]+)"
        near, far = map(float, re.fullmatch(at, lines[3]).groups())
        # The boards are 2.5 to 3.6 m away by made.POSES.
        self.assertAlmostEqual(near, sum(place[2] for _, place in made.POSES) / len(made.POSES), delta=0.05)
        self.assertAlmostEqual(far, 2 * near, delta=0.01)
        self.assertRegex(lines[4], r"^    most is changed by left/[0-9]+\.png: without it a volume is [+-][0-9.]+ %$")
        self.assertRegex(lines[5], r"^boards 2\.5[0-9]* to 3\.6[0-9]* away, tilted by [0-9]+ to [0-9]+ degrees; no corner in ")
        self.assertIn("further boards that help most", lines[6])
        _, out, _, _ = self.run_tool("--survey-distance", "8")
        self.assertRegex(out.splitlines()[9], r"^    all numbers together, of a volume: [0-9.]+ % at a distance of 8$")

    def test_no_common_view(self):
        self.run_tool()
        status, _, err, _ = self.run_tool("--survey-distance", "0.5")
        said = "calibrate_pair: at a distance of 0.5 the cameras see less than a tenth of their pictures in common\n"
        self.assertEqual((status, err), (1, said))

    def test_counted_from_the_other_end(self):
        """A board that looks the same upside down may be found so in one of the two pictures."""
        left = numpy.array([[10.0, 10], [20, 10], [10, 20], [20, 20]], numpy.float32)
        right = left + 3
        self.assertEqual(tool.alike(left, right).tolist(), right.tolist())
        self.assertEqual(tool.alike(left, right[::-1]).tolist(), right.tolist())


def level_pair():
    """Two cameras without a lens that look the same way, 1.6 apart."""
    matrix = numpy.array([[150.0, 0, 160], [0, 150, 120], [0, 0, 1]])
    return pairs.Cameras(matrix, numpy.zeros(5), matrix, numpy.zeros(5), numpy.eye(3), numpy.array([-1.6, 0, 0]), (320, 240))


class Corners(unittest.TestCase):
    def test_where_they_are(self):
        """The corners that are found are those that the camera sees, to a twentieth of a pixel."""
        pair = (made.LEFT, made.RIGHT)
        true = board_sets.true_cameras(pair)
        for pose in made.POSES[:6]:
            found = board_sets.boards_of(pair, [pose])
            turn = made.turned(pair[0]) @ cv2.Rodrigues(numpy.array(pose[0]))[0]
            middle = made.turned(pair[0]) @ pose[1]
            places = (found.on_board() - found.on_board().mean(axis=0)) @ turn.T + middle
            for corners, wanted in zip((found.left[0], found.right[0]), true.seen(places)):
                # A board may be counted from its other end.
                off = min(abs(numpy.sqrt(((it - wanted) ** 2).mean())) for it in (corners, corners[::-1]))
                self.assertLess(off, 0.05)

    def test_no_saddle(self):
        """A place that no saddle is near stays."""
        flat = numpy.full((40, 40), 100, numpy.uint8)
        corners = numpy.array([[x, y] for y in (10, 20, 30) for x in (10, 20, 30)], numpy.float32)
        self.assertEqual(tool.refined(flat, corners, (3, 3)).tolist(), corners.tolist())


class Volumes(unittest.TestCase):
    def test_baseline_and_focal_length(self):
        """By definition lengths go with the baseline, and those along the axis with the focal length too."""
        pair = level_pair()
        longer = dataclasses.replace(pair, shift=pair.shift * 1.01)
        self.assertAlmostEqual(spreads.volume_factor(pair, longer, 8), 1.01**3, places=9)
        matrix = pair.k1 * [[1.01, 1, 1], [1, 1.01, 1], [1, 1, 1]]
        self.assertAlmostEqual(spreads.volume_factor(pair, dataclasses.replace(pair, k1=matrix, k2=matrix), 8), 1.01, places=9)

    def test_disparities(self):
        """Where all are e pixels too large, a volume is about 4 e / d too small; the heap is nearer than its ground."""
        pair = level_pair()
        moved = dataclasses.replace(pair, k2=pair.k2 + [[0, 0, 0.1], [0, 0, 0], [0, 0, 0]])
        for distance in (4, 8, 16):
            part = 4 * 0.1 / (150 * 1.6 / distance)
            self.assertAlmostEqual((1 - spreads.volume_factor(pair, moved, distance)) / part, 1, delta=0.25)

    def test_volume(self):
        """That of the cone on its ground, but for what the points cut off."""
        pair = level_pair()
        heap = spreads.heap_at(pair, 8.0)
        side = 239 * (1 - 2 * spreads.RIM) * 8 / 150
        radius = spreads.RADIUS * side / 2
        found = spreads.volume(heap.points, heap.is_ground)
        self.assertAlmostEqual(found / (math.pi * radius**3 * spreads.SLOPE / 3), 1, delta=0.02)

    def test_jackknife(self):
        """Of means it is the standard error that everybody knows."""
        values = numpy.array([3.0, 7, 8, 1, 4, 9])
        means = [numpy.delete(values, it).mean() for it in range(len(values))]
        self.assertAlmostEqual(spreads.jackknife(means), values.std(ddof=1) / math.sqrt(len(values)))


class Information(unittest.TestCase):
    def test_errors(self):
        """By corners with errors that are drawn, the focal length comes out as far apart as is reckoned."""
        pair = board_sets.cameras_of(7)
        true, noise, draw = board_sets.true_cameras(pair), 0.1, numpy.random.default_rng(7)
        exact = board_sets.boards_of(pair, board_sets.poses_of(7, 8, pair))
        whole = sum(
            further_boards.information(true, it, exact.on_board(), 4) for it in further_boards.lyings_of(true, exact)
        )
        slope = numpy.zeros(len(whole))
        slope[0] = 1
        found = []
        for _ in range(40):
            left, right = ([(it + noise * draw.standard_normal(it.shape)).astype(it.dtype) for it in side] for side in (exact.left, exact.right))
            parts, _ = tool.calibrate(tool.Boards(exact.names, left, right, exact.places, exact.size), False)
            found.append(parts["M1"][0, 0])
        # The standard deviation of 40 is known to a ninth of it.
        self.assertAlmostEqual(numpy.std(found, ddof=1) / (noise * further_boards.error_of(whole, slope)), 1, delta=0.35)

    def test_parts(self):
        board = tool.Boards([], [], [], board_sets.places(), (300, 300))
        at = [(10, 10), (150, 10), (290, 10), (10, 150), (150, 150), (290, 290)]
        named = ["upper left", "upper middle", "upper right", "middle left", "middle", "lower right"]
        self.assertEqual([further_boards.part_of(numpy.array(it), board) for it in at], named)
        empty = further_boards.empty_parts([numpy.array(at)], board)
        self.assertEqual(empty, ["middle right", "lower left", "lower middle"])

    def test_further(self):
        """Each board that is asked for is seen whole by both cameras, and each makes the error less."""
        pair = board_sets.cameras_of(7)
        cameras, found = board_sets.true_cameras(pair), board_sets.boards_of(pair, board_sets.poses_of(7, 5, pair))
        asked = further_boards.further_boards(cameras, found, 8.0, 4)
        remains = [1, *(it.remains for it in asked)]
        self.assertEqual(remains, sorted(remains, reverse=True))
        self.assertLess(remains[-1], 0.5)
        seen = board_sets.boards_of(pair, [board_sets.pose_of(pair, it.lying) for it in asked])
        self.assertEqual(len(seen.left), len(asked))
        for it, corners in zip(asked, seen.left):
            lying = further_boards.lying_of(cameras, found.on_board(), corners)
            self.assertAlmostEqual(further_boards.middle_of(lying, found)[2], it.away, delta=0.05)


class Distances(Case):
    """Known distances, by the cameras as they are, in millimetres."""

    def setUp(self):
        super().setUp()
        true = made.calibration()
        self.cameras = {**true, "T": (1000 * numpy.array(true["T"])).tolist()}
        parts = {key: numpy.array(value) for key, value in self.cameras.items()}
        self.pair = pairs.Cameras.of(parts, (320, 240))

    def places(self, first, second):
        """The words for both ends."""
        left, right = self.pair.seen(numpy.array([first, second], float))
        return [f"{x:.6f},{y:.6f}" for pair in zip(left, right) for x, y in pair]

    def checked(self, words, cameras=None):
        with open(os.path.join(self.folder, "cameras.json"), "w") as file:
            json.dump(cameras or self.cameras, file)
        command = [sys.executable, TOOL, "--cameras", "cameras.json", *words]
        done = subprocess.run(command, cwd=self.folder, capture_output=True, text=True)
        return done.returncode, done.stdout, done.stderr

    def test_right(self):
        """A staff of 2 m across, and one of 1.5 m that leads away."""
        across = self.places((0, 400, 7000), (2000, 400, 7000))
        away = self.places((500, 0, 6000), (500, 0, 7500))
        words = ["--check-distance", *across, "2000", "2", "--check-distance", *away, "1500", "2"]
        status, out, err = self.checked(words)
        self.assertEqual((status, err), (0, ""))
        lines = out.splitlines()
        self.assertRegex(lines[0], r"^distance 1: measured [0-9.]+, true 2000 plus or minus 2: [+-][0-9.e-]+, [+-]0\.00 %$")
        for line, true in ((lines[0], 2000), (lines[2], 1500)):
            self.assertAlmostEqual(float(line.split()[3].rstrip(",")), true, delta=0.1)
        self.assertRegex(lines[1], r"^    with places read to 0\.25 pixels the baseline is right to [0-9.]+ % by it, volumes to [0-9.]+ %$")

    def test_longer_baseline(self):
        """One that is 4 % too long makes every length so, and volumes 12 %."""
        longer = {**self.cameras, "T": (1.04 * numpy.array(self.cameras["T"])).tolist()}
        across = self.places((-800, 400, 5000), (2000, 400, 5000))
        status, out, err = self.checked(["--check-distance", *across, "2800", "2"], longer)
        self.assertEqual((status, err), (0, ""))
        first, second = out.splitlines()
        self.assertTrue(first.endswith("+112, +4.00 %"), first)
        self.assertIn("WARNING: the baseline is 4.00 % too long by it, and volumes 12.00 % too large; ", second)

    def test_along_the_sight(self):
        """A length along the sight speaks of the focal length too."""
        away = self.places((500, 0, 4000), (500, 0, 7000))
        status, out, _ = self.checked(["--check-distance", *away, "3600", "2"])
        self.assertEqual(status, 0)
        self.assertIn("WARNING: baseline times focal length is 16.67 % too short by it; ", out)

    def test_uncertain(self):
        """What places a quarter of a pixel off leave uncertain is what lengths by such places differ by."""
        known = known_distances.known_of([*self.places((0, 400, 7000), (2000, 400, 7000)), "2000", "2"])
        places, draw = numpy.array([*known.left, *known.right]), numpy.random.default_rng(3)
        lengths = [
            known_distances.length_of(self.pair, places + known_distances.READ * draw.standard_normal((4, 2)))
            for _ in range(400)
        ]
        found = known_distances.measured(self.pair, known).uncertain
        self.assertAlmostEqual(numpy.std(lengths) / found, 1, delta=0.15)

    def test_with_boards(self):
        """Beside a calibration it stands last. The board's outer corners in the first pair: eight squares of 250 mm."""
        words = [*self.places((-200, 0, 3000), (1800, 0, 3000)), "2", "0.01"]
        status, out, err, _ = self.run_tool("--check-distance", *words)
        self.assertEqual((status, err), (0, ""))
        self.assertRegex(out.splitlines()[-2], r"^distance 1: measured (2|2\.00[0-9]*|1\.99[0-9]*), true 2 plus or minus 0\.01: ")

    def test_refused(self):
        good = self.places((0, 400, 7000), (2000, 400, 7000))
        for words, line in [
            ([good[1], good[0], *good[2:]], "end 1 of --check-distance: its places lie as no point does"),
            ([*good[:3], good[3].split(",")[0] + ",20"], "end 2 of --check-distance: its rows in the rectified pair are "),
            (["320,10", *good[1:]], "a place of --check-distance isn't in the pictures, which are 320 x 240"),
            ([*good[:2], *good[:2]], "both ends of --check-distance are one point"),
        ]:
            status, out, err = self.checked(["--check-distance", *words, "2000", "2"])
            self.assertEqual((status, out, err.count("\n")), (1, "", 1), err)
            self.assertTrue(err.startswith("calibrate_pair: " + line), err)

    def test_files(self):
        words = ["--check-distance", *self.places((0, 400, 7000), (2000, 400, 7000)), "2000", "2"]
        bare = {key: value for key, value in self.cameras.items() if key not in ("R", "T")}
        status, _, err = self.checked(words, bare)
        self.assertEqual((status, err.count("\n")), (1, 1), err)
        command = [sys.executable, TOOL, "--cameras", "none.json", *words]
        done = subprocess.run(command, cwd=self.folder, capture_output=True, text=True)
        self.assertEqual((done.returncode, done.stderr), (1, "calibrate_pair: none.json: No such file or directory\n"))

    def test_wrong_words(self):
        good = [*self.places((0, 400, 7000), (2000, 400, 7000)), "2000", "2"]
        for words, line in [
            (["--check-distance", *good[:5]], "argument --check-distance: expected 6 arguments"),
            (["--check-distance", "12", *good[1:]], "argument --check-distance: 12 isn't COLUMN,ROW in pixels"),
            (["--check-distance", "1,2,3", *good[1:]], "argument --check-distance: 1,2,3 isn't COLUMN,ROW in pixels"),
            (["--check-distance", *good[:4], "0", "2"], "argument --check-distance: 0 isn't a number above 0"),
            (["--check-distance", *good[:5], "two"], "argument --check-distance: two isn't a number above 0"),
            ([], "--cameras: needs --check-distance"),
            (["--check-distance", *good, "--square", "25"], "--cameras stands in place of the words for boards"),
        ]:
            status, _, err = self.checked(words)
            self.assertEqual((status, err.splitlines()[-1]), (2, "calibrate_pair.py: error: " + line))
        with self.assertRaises(argparse.ArgumentTypeError):
            known_distances.place_word("-1,2")


class Refused(Case):
    def test_fewer_than_five(self):
        sides = {side: [f"{side}/{number:02}.png" for number in range(1, 5)] for side in ("left", "right")}
        self.refused("4 pairs show a board of 9 x 6 inner corners, 5 needed", **sides)

    def test_another_board(self):
        self.refused("0 pairs show a board of 5 x 12 inner corners, 5 needed", "--board", "5x12")

    def test_mixed_sizes(self):
        Image.new("L", (240, 320)).save(self.picture("right", 2))
        self.refused("right/02.png: 240 x 320, but left/01.png is 320 x 240: one size is needed")

    def test_counts(self):
        os.remove(self.picture("right", 2))
        self.refused("12 left and 11 right pictures: they belong together one by one")

    def test_exchanged(self):
        line = "the second camera stands to the left of the first one: exchange --left and --right"
        self.refused(line, left=("right",), right=("left",))

    def test_other_moments(self):
        """Pairs that don't belong together give a large error, which can be allowed by a word."""
        os.rename(self.picture("right", 12), self.picture("right", 0))
        self.refused("pair: an error of ")
        status, out, err, _ = self.run_tool("--worst", "1e9")
        self.assertNotIn("pair: an error", err)
        self.assertIn("pair: ", out)

    def test_files(self):
        self.refused("none: No such file or directory", left=("none",))
        os.mkdir(os.path.join(self.folder, "empty"))
        self.refused("empty: no picture in this folder", left=("empty",))
        with open(self.picture("left", 1), "w") as file:
            file.write("no picture")
        self.refused("left/01.png: not a picture")

    def test_wrong_words(self):
        for options, line in [
            (("--board", "9"), "argument --board: 9 isn't COLUMNSxROWS of inner corners, each 3 or more"),
            (("--board", "2x9"), "argument --board: 2x9 isn't COLUMNSxROWS of inner corners, each 3 or more"),
            (("--square", "0"), "argument --square: 0 isn't a number above 0"),
            (("--square", "nan"), "argument --square: nan isn't a number above 0"),
            (("--worst", "-1"), "argument --worst: -1 isn't a number above 0"),
            (("--survey-distance", "far"), "argument --survey-distance: far isn't a number above 0"),
        ]:
            status, _, err, found = self.run_tool(*options)
            self.assertEqual((status, found), (2, None))
            self.assertEqual(err.splitlines()[-1], "calibrate_pair.py: error: " + line)
        done = subprocess.run([sys.executable, TOOL, "--left", "left"], capture_output=True, text=True)
        line = "the following arguments are required: --right, --board, --square, --out"
        self.assertEqual((done.returncode, done.stderr.splitlines()[-1]), (2, "calibrate_pair.py: error: " + line))


if __name__ == "__main__":
    unittest.main()
