#!/usr/bin/env python3
"""Checks accuracy.py: what it reads as truth, its made-up scenes, its figures, and whole tables over the reference."""

import os
import subprocess
import sys
import tempfile
import unittest

import accuracy
from accuracy import numpy

HERE = os.path.dirname(os.path.abspath(__file__))
TOOL = os.path.join(HERE, "accuracy.py")
REFERENCE = os.path.join(HERE, "..", "tests", "reference.py")
NAN, INF = float("nan"), float("inf")


def setUpModule():
    accuracy.running.need_for_tests(numpy=numpy, PIL=accuracy.running.Image)


def in_file(data, name, call, *more):
    with tempfile.TemporaryDirectory() as folder:
        path = os.path.join(folder, name)
        with open(path, "wb") as file:
            file.write(data)
        return call(path, *more)


class Truth(unittest.TestCase):
    def test_pfm(self):
        rows = numpy.array([[1.5, INF], [2, 3.25], [0, 7]])
        for scale, kind in ((b"-1.0", "<f4"), (b"1", ">f4")):
            data = b"Pf\n2 3\n" + scale + b"\n" + rows[::-1].astype(kind).tobytes()
            found = in_file(data, "t.pfm", accuracy.read_truth, 16)
            self.assertTrue(numpy.array_equal(found, numpy.where(rows == INF, NAN, rows), equal_nan=True))
            with self.assertRaises(accuracy.Wrong):
                in_file(data[:-1], "t.pfm", accuracy.read_truth, 16)
        with self.assertRaises(accuracy.Wrong):
            in_file(b"PF\n2 3\n1\n" + bytes(72), "t.pfm", accuracy.read_truth, 16)

    def test_pgm(self):
        data = b"P5\n2 1\n65535\n\0\0\1\x08"
        for unit, value in ((16, 16.5), (256, 1.03125)):
            found = in_file(data, "t.pgm", accuracy.read_truth, unit)
            self.assertTrue(numpy.array_equal(found, [[NAN, value]], equal_nan=True))


class Scenes(unittest.TestCase):
    def test_a_box_before_a_ground(self):
        """The box is 6 pixels nearer, so 6 columns of ground to its left are hidden from the right camera."""
        size, draw = (60, 20), numpy.random.default_rng(1)
        ground = accuracy.ground(draw, lambda x, y: 4.0 + 0 * x)
        box = accuracy.box(draw, size, 0.5, 0.25, 0.75, 0.75, 10, 150)
        scene = accuracy.Scene([ground, box], size, draw, noise=0)
        truth, both = numpy.full((20, 60), 4.0), numpy.ones((20, 60), bool)
        truth[5:15, 30:45] = 10
        both[:, :4] = False
        both[5:15, 24:30] = False
        self.assertTrue(numpy.array_equal(scene.truth, truth))
        self.assertTrue(numpy.array_equal(scene.both, both))
        for y, x in zip(*numpy.nonzero(both)):
            self.assertEqual(scene.left[y, x], scene.right[y, x - int(truth[y, x])])

    def test_columns(self):
        """What the right picture shows at u lies in the left one at u and its own disparity."""
        size = (120, 90)
        y, u = numpy.mgrid[0:90, 0:80].astype(float)
        for name, (make, _) in accuracy.SCENES.items():
            for surface in make(size, numpy.random.default_rng(2)):
                x = surface.left_column(u, y)
                self.assertLess(float(abs(x - u - surface.disparity(x, y)).max()), 1e-6, name)

    def test_every_scene(self):
        for name, (make, wrong) in accuracy.SCENES.items():
            draw = numpy.random.default_rng(3)
            scene = accuracy.Scene(make((480, 360), draw), (480, 360), draw, **wrong)
            self.assertTrue(numpy.isfinite(scene.truth).all(), name)
            self.assertTrue(0 <= scene.truth.min() and scene.truth.max() < 63, name)
            self.assertGreater(scene.both.mean(), 0.8, name)
            self.assertGreater(scene.left.std(), 3, name)


class Figures(unittest.TestCase):
    def test_by_hand(self):
        truth = numpy.array([[0, 0, 0, 0, 0, 0, 0, 0, NAN, 0]])
        found = numpy.array([[0.25, 1, 1.5, 3, NAN, -0.5, NAN, 0, 0, 4]])
        both = numpy.array([[1, 1, 1, 1, 1, 1, 0, 0, 1, 0]], bool)
        # Nine are known, seven of these have a value: errors 0.25, 1, 1.5, 3, 0.5, 0 and 4.
        wanted = ["77.78 %", "42.86 %", "28.57 %", "0.375", "50.00 %", "33.33 %", "-", "42.86 %", "57.14 %", "0.438"]
        self.assertEqual(accuracy.figures(found, truth, both), wanted)
        nothing = numpy.full((1, 10), NAN)
        wanted = ["0.00 %", "-", "-", "-", "0.00 %", "0.00 %", "-", "-", "-", "-"]
        self.assertEqual(accuracy.figures(nothing, truth, both), wanted)
        self.assertEqual(accuracy.figures(found, nothing, both), ["-"] * 10)

    def test_outside(self):
        """With a disparity of 2 the first two columns have no place in the right picture, whatever the mask says."""
        truth, both = numpy.full((1, 5), 2.0), numpy.array([[1, 0, 1, 0, 1]], bool)
        found = numpy.array([[2, NAN, 2, 2, 9]])
        wanted = ["50.00 %", "100.00 %", "50.00 %", "33.33 %", "33.33 %", "0.000"]
        self.assertEqual(accuracy.figures(found, truth, both)[4:], wanted)
        wanted = ["0.00 %", "0.00 %", "0.00 %", "100.00 %", "100.00 %", "-"]
        self.assertEqual(accuracy.figures(found, -truth, both)[4:], wanted)
        # The error of 0.25 lies in the band, that of 0.75 doesn't.
        found[0, 0], found[0, 3] = 2.25, 2.75
        self.assertEqual(accuracy.figures(found, truth, both)[7:], ["33.33 %", "66.67 %", "0.375"])


class Ways(unittest.TestCase):
    def test_versions(self):
        """Each way's calibration has the keys of its version and no others, and the penalties that suit its window."""
        words = accuracy.argparse.Namespace(p2=[400, 5], peak=7)
        given = {"version": 2, "disparities": {"first": 3, "count": 9, "fine": False}, "census": {"width": 9, "height": 7}}
        given |= {"penalties": {"p1": 10, "p2": 120, "adapt": True}, "camera": {}, "grid": {}, "regions": []}
        span = {"first": 3, "count": 9}
        whole, fine = {**span, "fine": False}, {**span, "fine": True}
        wanted = [
            ("fixed, P2 120", 1, span, {"p1": 10, "p2": 120}),
            ("adapted, P2 400", 2, span, {"p1": 10, "p2": 400, "adapt": True}),
            ("adapted, P2 5", 2, span, {"p1": 10, "p2": 10, "adapt": True}),
            ("version 3, fixed, P2 100", 3, whole, {"p1": 25, "p2": 100, "adapt": False}),
            ("version 3, fixed, P2 100, fine", 3, fine, {"p1": 25, "p2": 100, "adapt": False}),
            ("version 3, adapted, P2 1200", 3, whole, {"p1": 25, "p2": 1200, "adapt": True}),
            ("version 3, adapted, P2 1200, fine", 3, fine, {"p1": 25, "p2": 1200, "adapt": True}),
        ]
        for (name, version, disparities, penalties), found in zip(wanted, accuracy.variants(words, given)):
            made = {"version": version, "disparities": disparities, "census": given["census"], "penalties": penalties, "camera": {}}
            self.assertEqual(found, (name, made, []))
        names = [found[::2] for found in accuracy.variants(words, given)[7:]]
        peak, both = ["peak=7"], ["peak=7", "fill=1"]
        said = [("fixed, P2 120, peak=7", peak), ("fixed, P2 120, peak=7 fill=1", both)]
        said += [("adapted, P2 400, peak=7", peak), ("adapted, P2 400, peak=7 fill=1", both)]
        self.assertEqual(names, said)

    def test_windows(self):
        """8 and 34 neighbours of 62: 25 becomes 3.2 and 13.7, 100 becomes 12.9 and 54.8, 1200 becomes 154.8."""
        for width, height, penalties in ((3, 3, [3, 13, 155]), (5, 7, [14, 55, 658]), (9, 7, [25, 100, 1200])):
            calibration = {"census": {"width": width, "height": height}}
            self.assertEqual([accuracy.for_window(calibration, it) for it in (25, 100, 1200)], penalties)


class Tables(unittest.TestCase):
    def run_with(self, program, *words):
        done = subprocess.run(
            [sys.executable, TOOL, *words], capture_output=True, text=True, env={**os.environ, "SGM": program}
        )
        self.assertEqual((done.returncode, done.stderr), (0, ""))
        return [line for line in done.stdout.splitlines() if line.startswith("| ")], done.stdout

    def test_the_reference(self):
        words = "--scenes --only wall poles --size 48x32 --count 40 --peak 9 --p2 200 400".split()
        lines, said = self.run_with(REFERENCE, *words)
        rivals = 2 if accuracy.cv2 is not None else 0
        self.assertEqual(len(lines), 2 * (2 + 11 + rivals))
        names = [line.split(" | ")[0][2:] for line in lines[2:13]]
        wanted = ["fixed, P2 120", "adapted, P2 200", "adapted, P2 400"]
        wanted += [f"version 3, {way}" for way in ("fixed, P2 100", "fixed, P2 100, fine", "adapted, P2 1200")]
        wanted += ["version 3, adapted, P2 1200, fine", "fixed, P2 120, peak=9"]
        wanted += ["fixed, P2 120, peak=9 fill=1", "adapted, P2 200, peak=9", "adapted, P2 200, peak=9 fill=1"]
        self.assertEqual(names, wanted)
        self.assertNotIn("left out", said)

    def test_a_pair(self):
        heap = os.path.join(HERE, "..", "examples", "stockpile")
        with tempfile.TemporaryDirectory() as folder:
            # An older program, which writes what it found before and knows neither later versions nor peaks.
            program, truth = os.path.join(folder, "sgm"), os.path.join(folder, "t.pgm")
            with open(program, "w") as file:
                file.write(
                    "#!/bin/sh\n"
                    'grep -q \'"version": [23]\' "$4" && { echo "sgm: calibration: unknown version" >&2; exit 3; }\n'
                    '[ $# = 5 ] || { echo "sgm: word 5 is not an option" >&2; exit 2; }\n'
                    f'cp "{heap}/expected/out.pgm" "$5.pgm"\n'
                )
            os.chmod(program, 0o755)
            samples, _ = accuracy.files.read_pgm(os.path.join(heap, "expected", "out.pgm"))
            # 28 pixels are 448 sixteenths, and a sample of 16 is a disparity of 28.
            samples = numpy.where(samples == 0, 0, samples - 16 + 448).astype(">u2")
            with open(truth, "wb") as file:
                file.write(f"P5\n{samples.shape[1]} {samples.shape[0]}\n65535\n".encode() + samples.tobytes())
            files = [os.path.join(heap, name) for name in ("left.pgm", "right.pgm", "calibration.json")]
            lines, said = self.run_with(program, *files, truth)
        wanted = "| fixed, P2 120 | 100.00 % | 0.00 % | 0.00 % | 0.000 | 100.00 % | - | - | 0.00 % | 0.00 % | 0.000 |"
        self.assertEqual(lines[2], wanted)
        self.assertEqual(said.count("left out"), 9)


if __name__ == "__main__":
    unittest.main()
