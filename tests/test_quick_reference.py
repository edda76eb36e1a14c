#!/usr/bin/env python3
"""Checks quick_reference.py: that its matching in numpy is that of reference_matching.py, on random
pairs of all versions, with and without finer disparities, and that as a program it ends as
reference.py does."""

import os
import subprocess
import sys
import tempfile
import unittest
from unittest import mock

import fine_cases
import quick_reference as quick
import random_inputs
import reference_inputs as inputs
import reference_matching as matching
import test_reference
import test_reference_fine

HERE = os.path.dirname(os.path.abspath(__file__))
# Pairs of more pixels and disparities take the plain implementation too long.
MOST_CELLS = 6000


def setUpModule():
    quick.running.need_for_tests(numpy=quick.numpy)


def pairs():
    """Rectified planes with a guide or none, and their calibration."""
    for number in range(160):
        draw = random_inputs.Draw(50, number)
        _, files = draw.of([random_inputs.scene_case, random_inputs.survey_case])(draw)
        try:
            images = [inputs.read_pgm(files[name], "left") for name in ("l.pgm", "r.pgm")]
            calibration = inputs.read_calibration(files["c.json"])
        except inputs.Ended:
            continue
        sizes = {(image.width, image.height) for image in images}
        (width, height), warps = sizes.pop(), (calibration.left, calibration.right)
        is_large = width * height * calibration.count > MOST_CELLS
        if sizes or is_large or any(matching.warp_fault(warp, width, height) for warp in warps):
            continue
        # Whether the program takes it or not.
        calibration.is_fine = calibration.version > 2 and draw.chance(60)
        planes = [matching.rectify(image, warp) for image, warp in zip(images, warps)]
        guide = matching.guide_of(planes[0], images[0].maxval) if calibration.is_adaptive else None
        yield *planes, guide, calibration


class Quick(unittest.TestCase):
    def test_matching(self):
        seen = {}
        for left, right, guide, calibration in pairs():
            found = quick.match_planes(left, right, guide, calibration)
            self.assertEqual(found, matching.match_planes(left, right, guide, calibration))
            has_voids = any(None in row for row in left)
            kinds = {"version": calibration.version, "fixed": guide is None, "voids": has_voids}
            for what in (*kinds.items(), ("fine", calibration.is_fine)):
                seen[what] = seen.get(what, 0) + 1
        self.assertEqual(len(seen), 3 + 2 + 2 + 2)
        self.assertGreater(min(seen.values()), 10)

    def test_costs_by_hand(self):
        planes, calibration = test_reference.WorkedThirdVersion("planes").planes()
        costs = quick.costs_of(*map(quick.as_array, planes.values()), calibration)
        self.assertEqual([costs[:, :, d].tolist() for d in range(2)], test_reference.WorkedThirdVersion.COSTS)

    def test_finer(self):
        """The stored cases, which have pixels of every kind, and others; in parts of any size."""
        others = range(fine_cases.RANDOM_CASES, 2 * fine_cases.RANDOM_CASES)
        cases = [*fine_cases.cases(), *map(fine_cases.random_case, others)]
        for number, case in enumerate(cases):
            span, planes = (case.first, case.count), (case.left, case.right)
            arrays = [quick.as_array(rows) for rows in (case.found, *planes)]
            with mock.patch.object(quick, "AT_ONCE", (1, 7, 100)[number % 3]):
                found = quick.finer_values_of(*arrays, *span)
            fine = matching.finer_values(case.found, *planes, *span)
            self.assertEqual(quick.as_rows(found), fine)
            self.assertEqual(quick.as_rows(quick.means_of(found)), matching.means(fine))
        for number in range(200):
            found = fine_cases.random_map(number)
            made = quick.means_of(quick.as_array(found))
            self.assertEqual(quick.as_rows(made), matching.means(found))

    def test_finer_by_hand(self):
        case = test_reference_fine.SLOPE
        arrays = [quick.as_array(rows) for rows in (case.found, case.left, case.right)]
        self.assertEqual(quick.finer_values_of(*arrays, 0, 4)[2, 6], 27)
        case = test_reference_fine.TIE
        arrays = [quick.as_array(rows) for rows in (case.found, case.left, case.right)]
        self.assertEqual(quick.finer_values_of(*arrays, 0, 3)[2, 4], 11)

    def test_as_a_program(self):
        for files in (test_reference.WORKED, test_reference.WorkedThirdVersion.FILES):
            for words in ("match l.pgm r.pgm c.json o fill=1 peak=2", "trace l.pgm r.pgm c.json right 4 1 1", "match l.pgm none - o"):
                both = [self.ended(name, files, words) for name in ("quick_reference.py", "reference.py")]
                self.assertEqual(*both)

    def ended(self, name, files, words):
        with tempfile.TemporaryDirectory() as folder:
            for file_name, data in files.items():
                with open(os.path.join(folder, file_name), "wb") as file:
                    file.write(data)
            done = subprocess.run([sys.executable, os.path.join(HERE, name), *words.split()], cwd=folder, capture_output=True)
            made = {}
            for file_name in sorted(os.listdir(folder)):
                with open(os.path.join(folder, file_name), "rb") as file:
                    made[file_name] = file.read()
        return done.returncode, done.stdout, done.stderr, made


if __name__ == "__main__":
    unittest.main()
