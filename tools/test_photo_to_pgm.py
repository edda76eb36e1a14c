#!/usr/bin/env python3
"""Tries photo_to_pgm.py on pictures of a few pixels."""

import os
import subprocess
import sys
import tempfile
import unittest

from sgm_tools import running
from sgm_tools.running import Image, numpy

TOOL = os.path.join(os.path.dirname(os.path.abspath(__file__)), "photo_to_pgm.py")


def setUpModule():
    running.need_for_tests(numpy=numpy, PIL=Image)


def run(image, *options, **saved):
    """The status, both streams and the bytes of the file, if any."""
    with tempfile.TemporaryDirectory() as folder:
        image.save(os.path.join(folder, "p.png"), **saved)
        command = [sys.executable, TOOL, "p.png", "--out", "o.pgm", *options]
        done = subprocess.run(command, cwd=folder, capture_output=True, text=True)
        made, path = None, os.path.join(folder, "o.pgm")
        if os.path.exists(path):
            with open(path, "rb") as file:
                made = file.read()
    return done.returncode, done.stdout, done.stderr, made


class Pictures(unittest.TestCase):
    def test_grey(self):
        image = Image.fromarray(numpy.array([[1, 2, 3], [4, 5, 6]], numpy.uint8))
        self.assertEqual(run(image), (0, "3 x 2\n", "", b"P5\n3 2\n255\n\1\2\3\4\5\6"))

    def test_turned(self):
        image = Image.fromarray(numpy.array([[1, 2, 3], [4, 5, 6]], numpy.uint8))
        exif = image.getexif()
        exif[0x0112] = 8
        self.assertEqual(run(image, exif=exif.tobytes())[3], b"P5\n2 3\n255\n\3\6\2\5\1\4")

    def test_shrunk(self):
        # (1 + 2 + 4 + 5) / 4 = 3 and (7 + 8 + 8 + 7) / 4 = 7.5, which is 8; the last column falls away.
        image = Image.fromarray(numpy.array([[1, 2, 7, 8, 200], [4, 5, 8, 7, 200]], numpy.uint8))
        self.assertEqual(run(image, "--shrink", "2"), (0, "2 x 1\n", "", b"P5\n2 1\n255\n\3\x08"))

    def test_refused(self):
        image = Image.new("L", (5000, 3))
        line = "photo_to_pgm: p.png: sgm takes up to 4096 pixels a side: --shrink 2\n"
        self.assertEqual(run(image), (1, "", line, None))
        line = "photo_to_pgm: --shrink 4 leaves nothing of 5000 x 3 pixels\n"
        self.assertEqual(run(image, "--shrink", "4"), (1, "", line, None))
        self.assertEqual(run(image, "--shrink", "0")[0], 2)


if __name__ == "__main__":
    unittest.main()
