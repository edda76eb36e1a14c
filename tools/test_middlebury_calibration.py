#!/usr/bin/env python3
"""Checks middlebury_calibration.py: the numbers of a calib.txt against those worked out by hand, and what it refuses."""

import json
import os
import subprocess
import sys
import tempfile
import unittest

HERE = os.path.dirname(os.path.abspath(__file__))
TOOL = os.path.join(HERE, "middlebury_calibration.py")
sys.path.insert(0, os.path.join(HERE, "..", "tests"))

import reference_inputs as inputs
import reference_matching as matching

# As those of 2014 are written, with made-up numbers.
GIVEN = """cam0=[1000.5 0 310.25; 0 1000.5 250.75; 0 0 1]
cam1=[1000.5 0 341; 0 1000.5 250.75; 0 0 1]
doffs=30.75
baseline=200.001
width=740
height=497
ndisp=70
isint=0
vmin=7.5
vmax=63.2
dyavg=0
dymax=0
"""


def run(text, *options):
    """The status, standard error, and the bytes of the tool's file, if any."""
    with tempfile.TemporaryDirectory() as folder:
        name, out = os.path.join(folder, "calib.txt"), os.path.join(folder, "made.json")
        with open(name, "w") as file:
            file.write(text)
        done = subprocess.run([sys.executable, TOOL, name, "--out", out, *options], capture_output=True, text=True)
        made = None
        if os.path.exists(out):
            with open(out, "rb") as file:
                made = file.read()
    return done.returncode, done.stderr.replace(folder + "/", ""), made


class Middlebury(unittest.TestCase):
    def test_numbers(self):
        made = inputs.read_calibration(run(GIVEN)[2])
        self.assertEqual((made.first, made.count, made.p1, made.p2, made.is_adaptive), (0, 70, 10, 120, False))
        camera = {"focal": 256128, "baseline": 200001, "cx": 79424, "cy": 64192, "doffs": 7872}
        # 1000.5 * 200001 / 30.75 and / 99.75 are 6507349.6 and 2006025.1.
        camera |= {"mount": 6507350, "near": 2006025, "far": 6507350}
        self.assertEqual(made.camera, camera)
        # Both ends of the span are in range: 1000.5 * 200001 / (69 + 30.75), and so on.
        self.assertEqual(matching.point(made.camera, 310, 250, 16 * 69)[2], 6507350 - 2006025)
        self.assertIsNotNone(matching.point(made.camera, 310, 250, 0))

    def test_options(self):
        made = inputs.read_calibration(run(GIVEN, "--tight", "--adapt")[2])
        self.assertEqual((made.first, made.count, made.p1, made.p2, made.is_adaptive), (7, 58, 10, 400, True))
        whole = json.loads(run(GIVEN, "--adapt", "--penalties", "7", "90")[2])
        self.assertEqual((whole["version"], whole["penalties"]), (2, {"p1": 7, "p2": 90, "adapt": True}))
        for options, penalties in (
            ([], {"p1": 25, "p2": 100, "adapt": False}),
            (["--adapt"], {"p1": 25, "p2": 1200, "adapt": True}),
            (["--adapt", "--penalties", "7", "90"], {"p1": 7, "p2": 90, "adapt": True}),
        ):
            data = run(GIVEN, "--version", "3", *options)[2]
            whole, made = json.loads(data), inputs.read_calibration(data)
            self.assertEqual((whole["version"], whole["penalties"]), (3, penalties))
            self.assertEqual((made.version, made.first, made.count, made.p1), (3, 0, 70, penalties["p1"]))
            self.assertEqual(whole["disparities"], {"first": 0, "count": 70, "fine": True})
            without = json.loads(run(GIVEN, "--version", "3", "--no-fine", *options)[2])
            self.assertEqual(without, {**whole, "disparities": {"first": 0, "count": 70, "fine": False}})

    def test_refused(self):
        for old, new, line in [
            ("ndisp=70", "ndisp=257", "disparities 0 to 256: at most 256 of them; take the pair in half its size"),
            ("ndisp=70", "ndisp=x", "ndisp isn't a number"),
            ("ndisp=70", "", "calib.txt: ndisp missing"),
            ("doffs=30.75", "doffs=nan", "doffs isn't a number"),
            ("cam0=[1000.5", "cam0=[", "cam0 isn't a matrix of 3 x 3 numbers"),
            ("cam0=[1000.5", "cam0=[-5", "the focal length and the baseline aren't those of a pair"),
            ("baseline=200.001", "baseline=0", "the focal length and the baseline aren't those of a pair"),
        ]:
            status, errors, made = run(GIVEN.replace(old, new))
            self.assertEqual((status, errors, made), (1, f"middlebury_calibration: {line}\n", None))
        self.assertEqual(run(GIVEN.replace("vmin=7.5", ""), "--tight")[1], "middlebury_calibration: vmin isn't a number\n")
        self.assertEqual(run(GIVEN, "--penalties", "9", "8")[0], 2)
        self.assertEqual(run(GIVEN, "--no-fine")[0], 2)


if __name__ == "__main__":
    unittest.main()
