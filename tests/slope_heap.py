#!/usr/bin/env python3
"""Matches the pair of examples/slope by the separate implementation: its report has to be the
stored one, and the heap's volume within plus or minus of the true one. Some rows of the pictures
are made again. Takes ten seconds."""

import contextlib
import io
import os
import subprocess
import sys
import tempfile
import unittest

HERE = os.path.dirname(os.path.abspath(__file__))
SLOPE = os.path.join(HERE, "..", "examples", "slope")
sys.path[:0] = [SLOPE, os.path.join(HERE, "..", "tools")]

from sgm_tools import files, running


def setUpModule():
    running.need_for_tests(numpy=running.numpy)


class Slope(unittest.TestCase):
    def test_volume(self):
        import compare_slope

        with tempfile.TemporaryDirectory() as folder:
            out = os.path.join(folder, "o")
            words = [
                os.path.join(SLOPE, name) for name in ("left.pgm", "right.pgm", "calibration.json")
            ]
            command = [
                sys.executable,
                os.path.join(HERE, "quick_reference.py"),
                "match",
                *words,
                out,
            ]
            self.assertEqual(subprocess.run(command, capture_output=True, text=True).stderr, "")
            report = [
                files.read_bytes(name)
                for name in (out + ".csv", os.path.join(SLOPE, "expected", "out.csv"))
            ]
            self.assertEqual(*report)
            with contextlib.redirect_stdout(io.StringIO()):
                measured, true, sure = compare_slope.compare(out)
        self.assertEqual(true, 27.61)
        self.assertLess(abs(measured - true), sure)
        self.assertLess(sure, true / 50)

    def test_pictures(self):
        import make_slope

        for name, sample in (
            ("left.pgm", make_slope.left_sample),
            ("right.pgm", make_slope.right_sample),
        ):
            samples, most = files.read_pgm(os.path.join(SLOPE, name))
            self.assertEqual((samples.shape, most), ((240, 320), 255))
            for y in (0, 77, 131, 239):
                self.assertEqual(samples[y].tolist(), [sample(x, y) for x in range(320)])


if __name__ == "__main__":
    unittest.main()
