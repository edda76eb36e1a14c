#!/usr/bin/env python3
"""Tries stretch.py on pictures and grids of a few values, whose greys were worked out by hand."""

import os
import subprocess
import sys
import tempfile
import unittest

from sgm_tools import running
from sgm_tools.running import numpy

TOOL = os.path.join(os.path.dirname(os.path.abspath(__file__)), "stretch.py")
HEAD = b"ncols %d\nnrows %d\nxllcorner 0\nyllcorner 0\ncellsize 1000\nNODATA_value -2147483648\n"
NONE = (200, 0, 120)


def setUpModule():
    running.need_for_tests(numpy=numpy, PIL=running.Image)


def picture(name):
    """The rows of colours of a PNG that has a palette."""
    with running.Image.open(name) as image:
        assert image.mode == "P", image.mode
        return [[tuple(colour) for colour in row] for row in numpy.array(image.convert("RGB")).tolist()]


def run(data):
    """The status, both streams, and the picture, if there is one."""
    with tempfile.TemporaryDirectory() as folder:
        name, out = os.path.join(folder, "o"), os.path.join(folder, "o.png")
        with open(name, "wb") as file:
            file.write(data)
        done = subprocess.run([sys.executable, TOOL, name, "--out", out], capture_output=True, text=True)
        made = None
        if os.path.exists(out):
            made = picture(out)
    return done.returncode, done.stdout, done.stderr.replace(name, "o"), made


def grey(level):
    return (level,) * 3


class Stretched(unittest.TestCase):
    def test_disparities(self):
        # 0 is no disparity; the others are 0, 16 and 32 sixteenths: 16, 16 + 239 / 2 and 255.
        data = b"P5\n2 2\n65535\n" + bytes([0, 0, 0, 16, 0, 32, 0, 48])
        line = "0 (dark) to 32 (light) sixteenths of a pixel above the first disparity\n"
        self.assertEqual(run(data), (0, line, "", [[NONE, grey(16)], [grey(135), grey(255)]]))

    def test_heights(self):
        data = HEAD % (3, 1) + b"-5 -2147483648 5\n"
        line = "-5 (dark) to 5 (light) micrometres of height\n"
        self.assertEqual(run(data), (0, line, "", [[grey(16), NONE, grey(255)]]))

    def test_one_value(self):
        self.assertEqual(run(HEAD % (1, 1) + b"7\n")[3], [[grey(16)]])

    def test_no_value(self):
        for data in (b"P5\n1 1\n65535\n\0\0", HEAD % (1, 1) + b"-2147483648\n"):
            self.assertEqual(run(data), (0, "no value anywhere\n", "", [[NONE]]))

    def test_refused(self):
        for data, line in [
            (b"", "not a height grid of sgm"),
            (b"\xff\0", "not a height grid of sgm"),
            (b"P5", "not a binary PGM"),
            (b"P5\n2 1\n255\n\0\1", "not a disparity picture of sgm"),
            (b"P5\n-2 1\n65535\n\0\1", "not a binary PGM"),
            (b"P5\n2 1\n65535\n\0\1", "2 bytes of samples, 4 needed"),
            (b"P5\n0 1\n65535\n", "sides are 1 to 4096 and the greatest value is 1 to 65535"),
            (HEAD % (2, 2) + b"1 2 3\n", "3 heights, 4 needed"),
        ]:
            self.assertEqual(run(data), (1, "", f"stretch: o: {line}\n", None), data)


if __name__ == "__main__":
    unittest.main()
