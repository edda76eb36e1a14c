#!/usr/bin/env python3
"""Tries survey, the program as a function: its arrays against the stored files of the example and against those that
the program has written, what it takes for pictures and calibrations, and how it fails.

The program is the one that the variable SGM names, and without it the separate implementation of tests/.
"""

import json
import os
import pickle
import tempfile
import unittest

from sgm_tools import Failed, files, grids, reports, running, survey
from sgm_tools.running import numpy

HERE = os.path.dirname(os.path.abspath(__file__))
TESTS = os.path.join(HERE, "..", "tests")
HEAP = os.path.join(HERE, "..", "examples", "stockpile")
PROGRAM = os.environ.get("SGM") or os.path.join(TESTS, "quick_reference.py")
CALIBRATION = {
    "version": 1,
    "disparities": {"first": -1, "count": 3},
    "census": {"width": 3, "height": 3},
    "penalties": {"p1": 1, "p2": 3},
}
# What writes down the words that it gets and then runs the program.
LISTENING = """#!/bin/sh
printf '%s\\n' "$@" >'{said}'
exec '{program}' "$@"
"""
FAILING = """#!/bin/sh
echo first >&2
echo 'sgm: no memory' >&2
exit 6
"""


def setUpModule():
    running.need_for_tests(numpy=running.numpy)


def heap(name):
    return os.path.join(HEAP, name)


def sixteenths(found, first):
    """The disparities of a survey as OUT.pgm has them."""
    return numpy.where(numpy.isnan(found.disparities), 0, 16 * (found.disparities - first) + 16).astype(int)


class Surveys(unittest.TestCase):
    def setUp(self):
        folder = tempfile.TemporaryDirectory()
        self.addCleanup(folder.cleanup)
        self.folder = folder.name
        draw = numpy.random.default_rng(5)
        self.left = draw.integers(0, 256, (9, 14), numpy.uint8)
        self.right = draw.integers(0, 256, (9, 14), numpy.uint8)

    def script(self, text):
        name = os.path.join(self.folder, "program")
        with open(name, "w") as file:
            file.write(text)
        os.chmod(name, 0o755)
        return name

    def small(self, *pair, calibration=None, **words):
        words = {"program": PROGRAM, **words}
        return survey(*(pair or (self.left, self.right)), calibration or CALIBRATION, **words)

    def test_example(self):
        """All of the example's files, as they are stored."""
        found = survey(heap("left.pgm"), heap("right.pgm"), heap("calibration.json"), program=PROGRAM)
        self.assertEqual(found.line, "valid 68976 of 76800")
        values, filled = files.read_disparities(heap("expected/out.pgm"))
        first = files.read_json(heap("calibration.json"))["disparities"]["first"]
        self.assertEqual(sixteenths(found, first).tolist(), numpy.where(filled, values + 16, 0).tolist())
        self.assertEqual(int((~numpy.isnan(found.disparities)).sum()), 68976)
        grid = grids.read_grid(heap("expected/out.asc"))
        self.assertEqual(found.heights.heights.tolist(), grid.heights.tolist())
        place = (grid.west, grid.south, grid.cell)
        self.assertEqual((found.heights.west, found.heights.south, found.heights.cell), place)
        metres = found.heights.metres()
        self.assertEqual((~numpy.isnan(metres)).tolist(), grid.filled.tolist())
        self.assertEqual(float(numpy.nanmax(metres)), int(grid.heights[grid.filled].max()) / 1e6)
        self.assertEqual(found.report, reports.read_report(heap("expected/out.csv")))

    def test_arrays_and_names(self):
        """A picture as an array or by its name, of 8 or 16 bits, and a calibration as a dict or by its name."""
        found = self.small()
        self.assertEqual(found.disparities.shape, (9, 14))
        self.assertTrue(set(found.disparities[~numpy.isnan(found.disparities)]) <= {-1 + it / 16 for it in range(33)})
        self.assertEqual((found.heights, found.report), (None, []))
        names = [os.path.join(self.folder, it) for it in ("a picture.pgm", "b.pgm", "c.json")]
        files.write_pgm(names[0], self.left)
        files.write_pgm(names[1], self.right)
        with open(names[2], "w") as file:
            json.dump(CALIBRATION, file)
        here = os.getcwd()
        os.chdir(self.folder)
        self.addCleanup(os.chdir, here)
        wide = self.left.astype(numpy.uint16) * 256, self.right.astype(numpy.uint16) * 256
        others = [self.small(*names[:2]), self.small(names[0], self.right), self.small(*wide)]
        others += [self.small(names[0], names[1], calibration=names[2])]
        # From the folder at hand, too, and of an array whose rows don't follow one another.
        others += [self.small("a picture.pgm", "b.pgm", calibration="c.json")]
        others += [self.small(self.left[:, ::-1][:, ::-1], self.right.T.copy().T)]
        for other in others:
            numpy.testing.assert_array_equal(other.disparities, found.disparities)
            self.assertEqual(other.line, found.line)

    def test_plain_settings(self):
        found = self.small(calibration="-")
        self.assertEqual((found.disparities.shape, found.heights, found.report), ((9, 14), None, []))

    def test_words(self):
        """Which words the program gets; none changes what is found, but for peak and fill."""
        said = os.path.join(self.folder, "said")
        program = self.script(LISTENING.format(said=said, program=PROGRAM))
        plain = self.small()
        for words, options in (
            ({}, "strips=1 workers=1 peak=0 fill=0"),
            ({"workers": 3}, "strips=12 workers=3 peak=0 fill=0"),
            ({"workers": 16}, "strips=64 workers=16 peak=0 fill=0"),
            ({"workers": 2, "strips": 5}, "strips=5 workers=2 peak=0 fill=0"),
            ({"peak": 4, "fill": True}, "strips=1 workers=1 peak=4 fill=1"),
        ):
            found = self.small(program=program, **words)
            with open(said) as file:
                given = file.read().split("\n")[:-1]
            self.assertEqual((given[0], " ".join(given[5:])), ("match", options))
            if "fill" not in words:
                numpy.testing.assert_array_equal(found.disparities, plain.disparities)

    def test_refused(self):
        """The program's line and its status."""
        cases = [
            ((self.left, self.right[:-1]), CALIBRATION, 3),
            ((self.left, os.path.join(self.folder, "none.pgm")), CALIBRATION, 4),
            ((self.left, self.right), {"version": 9}, 3),
            ((self.left, self.right), os.path.join(self.folder, "none.json"), 4),
        ]
        for pair, calibration, status in cases:
            with self.assertRaises(Failed) as caught:
                self.small(*pair, calibration=calibration)
            self.assertEqual(caught.exception.status, status, caught.exception.line)
            self.assertRegex(caught.exception.line, "^sgm: .+$")
            self.assertEqual(str(caught.exception), caught.exception.line)
        with self.assertRaises(Failed) as caught:
            self.small(workers=17)
        self.assertEqual(caught.exception.status, 2)

    def test_failing(self):
        with self.assertRaises(Failed) as caught:
            self.small(program=self.script(FAILING))
        error = caught.exception
        self.assertEqual((error.line, error.status), ("sgm: no memory", 6))
        again = pickle.loads(pickle.dumps(error))
        self.assertEqual((again.line, again.status), (error.line, error.status))
        with self.assertRaises(FileNotFoundError):
            self.small(program=os.path.join(self.folder, "none"))

    def test_other_arrays(self):
        for kind in (numpy.int64, float, bool, numpy.uint32):
            with self.assertRaises(TypeError):
                self.small(self.left.astype(kind), self.right)
        with self.assertRaises(ValueError):
            self.small(self.left[..., None].repeat(3, axis=2), self.right)

    def test_nothing_left(self):
        """The folder goes away, where it fails too."""
        before = os.environ.get("TMPDIR")
        os.environ["TMPDIR"], tempfile.tempdir = self.folder, None
        try:
            self.small()
            with self.assertRaises(Failed):
                self.small(self.left, self.right[:-1])
        finally:
            tempfile.tempdir = None
            if before is None:
                del os.environ["TMPDIR"]
            else:
                os.environ["TMPDIR"] = before
        self.assertEqual(os.listdir(self.folder), [])


if __name__ == "__main__":
    unittest.main()
