#!/usr/bin/env python3
"""Checks the site's frame of the reference: points and matrices worked out by hand, a whole match,
and what has to hold of all of them."""

import ast
import json
import math
import re
import unittest

import calibration_cases
import random_inputs
import reference_inputs as inputs
import reference_matching as matching
import test_reference
from random_inputs import Draw

# Points in the camera's frame, and in the site's.
POINTS = """\
identity, [1073741824, 0, 0, 0, 1073741824, 0, 0, 0, 1073741824], shift (0, 0, 0): \
(7, -7, 3) -> (7, -7, 3); (-1, 0, -2000000000) -> (-1, 0, -2000000000)
identity and a shift, [1073741824, 0, 0, 0, 1073741824, 0, 0, 0, 1073741824], \
shift (100, -200, 5): (7, -7, 3) -> (107, -207, 8); (0, 0, 1999999995) -> (100, -200, 2000000000); \
(0, 0, 1999999996) -> None
identity and a shift down, [1073741824, 0, 0, 0, 1073741824, 0, 0, 0, 1073741824], \
shift (0, 0, -5): (0, 0, -1999999995) -> (0, 0, -2000000000); (0, 0, -1999999996) -> None
a quarter turn, [0, -1073741824, 0, 1073741824, 0, 0, 0, 0, 1073741824], shift (0, 0, 0): \
(5, 3, 2) -> (-3, 5, 2); (-5, 3, 2) -> (-3, -5, 2)
a 3-4-5 tilt, [1073741824, 0, 0, 0, 858993459, -644245094, 0, 644245094, 858993459], \
shift (0, 0, 0): (1, 10, 5) -> (1, 5, 10); (1, -10, -5) -> (1, -5, -10); (1, 3, 1) -> (1, 2, 3); \
(-1, -3, -1) -> (-1, -2, -3); (0, 0, 5) -> (0, -3, 4); (0, 5, 0) -> (0, 4, 3); \
(0, 5, -5) -> (0, 7, -1); (0, -5, 5) -> (0, -7, 1); \
(0, 1000000000, 0) -> (0, 800000000, 600000000); \
(0, 0, 1000000000) -> (0, -600000000, 800000000)
a half by the matrix: m0 = 2^29, no rotation, \
[536870912, 0, 0, 0, 1073741824, 0, 0, 0, 1073741824], shift (0, 0, 0): \
(1, 0, 0) -> (1, 0, 0); (-1, 0, 0) -> (0, 0, 0); (3, 0, 0) -> (2, 0, 0); (-3, 0, 0) -> (-1, 0, 0)
"""
# By how much matrices miss a rotation.
MATRICES = """\
identity, [1073741824, 0, 0, 0, 1073741824, 0, 0, 0, 1073741824]: [0, 0, 0, 0, 0, 0], good
a quarter turn, [0, -1073741824, 0, 1073741824, 0, 0, 0, 0, 1073741824]: [0, 0, 0, 0, 0, 0], good
3-4-5, [1073741824, 0, 0, 0, 858993459, -644245094, 0, 644245094, 858993459]: \
[0, -858993459, -858993459, 0, 0, 0], good
it mirrors, [1073741824, 0, 0, 0, -1073741824, 0, 0, 0, 1073741824]: [0, 0, 0, 0, 0, 0], good
all zero, [0, 0, 0, 0, 0, 0, 0, 0, 0]: \
[-1152921504606846976, -1152921504606846976, -1152921504606846976, 0, 0, 0], out of range
m0 less by 16384, [1073725440, 0, 0, 0, 1073741824, 0, 0, 0, 1073741824]: \
[-35184103653376, 0, 0, 0, 0, 0], good
m0 less by 16385, [1073725439, 0, 0, 0, 1073741824, 0, 0, 0, 1073741824]: \
[-35186251104255, 0, 0, 0, 0, 0], out of range
m8 less by 16384, [1073741824, 0, 0, 0, 1073741824, 0, 0, 0, 1073725440]: \
[0, 0, -35184103653376, 0, 0, 0], good
m8 less by 16385, [1073741824, 0, 0, 0, 1073741824, 0, 0, 0, 1073725439]: \
[0, 0, -35186251104255, 0, 0, 0], out of range
m1 = 32768, [1073741824, 32768, 0, 0, 1073741824, 0, 0, 0, 1073741824]: \
[1073741824, 0, 0, 35184372088832, 0, 0], good
m1 = 32769, [1073741824, 32769, 0, 0, 1073741824, 0, 0, 0, 1073741824]: \
[1073807361, 0, 0, 35185445830656, 0, 0], out of range
m5 = -32768, [1073741824, 0, 0, 0, 1073741824, -32768, 0, 0, 1073741824]: \
[0, 1073741824, 0, 0, 0, -35184372088832], good
m5 = -32769, [1073741824, 0, 0, 0, 1073741824, -32769, 0, 0, 1073741824]: \
[0, 1073807361, 0, 0, 0, -35185445830656], out of range
a.a too great: m1 = 2^23, m3 = -2^23, \
[1073741824, 8388608, 0, -8388608, 1073741824, 0, 0, 0, 1073741824]: \
[70368744177664, 70368744177664, 0, 0, 0, 0], out of range
m1 = 5931641, m3 = -5931641, \
[1073741824, 5931641, 0, -5931641, 1073741824, 0, 0, 0, 1073741824]: \
[35184364952881, 35184364952881, 0, 0, 0, 0], good
m1 = 5931642, m3 = -5931642, \
[1073741824, 5931642, 0, -5931642, 1073741824, 0, 0, 0, 1073741824]: \
[35184376816164, 35184376816164, 0, 0, 0, 0], out of range
an element of 2^30 + 1, [1073741825, 0, 0, 0, 1073741824, 0, 0, 0, 1073741824]: \
[2147483649, 0, 0, 0, 0, 0], out of range
"""
# A camera before a ground that rises towards the north, a grid in the frame of the site, and
# regions with rises and an outline in it.
WHOLE = json.loads(
    '{"version":3,"disparities":{"first":0,"count":2,"fine":true},"census":{"width":3,"height":3},'
    '"penalties":{"p1":1,"p2":3,"adapt":false},'
    '"warp":{"left":{"kind":"projective","matrix":[1,0,-1,0,1,0,0,0,1]},'
    '"right":{"kind":"identity"}},'
    '"camera":{"focal":25600,"baseline":1000,"cx":0,"cy":0,"doffs":256,"mount":150000,"near":1,'
    '"far":1000000},'
    '"pose":{"matrix":[1073741824,0,0,0,858993459,-644245094,0,644245094,858993459],'
    '"east":0,"north":-1,"up":7},'
    '"grid":{"west":600,"south":-32001,"cell":800,"cols":5,"rows":3,"keep":"mean","bridge":1},'
    '"regions":[{"name":"all","col":0,"row":0,"cols":5,"rows":3,"base":39000,"rise_east":0,'
    '"rise_north":0},{"name":"slope","col":1,"row":0,"cols":4,"rows":3,"base":38500,'
    '"rise_east":-20001,"rise_north":750000},{"name":"corner","col":0,"row":0,"cols":5,"rows":3,'
    '"base":39407,"rise_east":0,"rise_north":0,'
    '"outline":[600,-32001,4600,-32001,4600,-28801]}]}'
)
FILES = {name: test_reference.WorkedThirdVersion.FILES[name] for name in ("l.pgm", "r.pgm")}
PLACES = [
    (1000, -30001, 40007), (2000, -30001, 40007), (3000, -30001, 40007), (4000, -30001, 40007),
    (1000, -30801, 39407), (2000, -30801, 39407), (3000, -30801, 39407), (4000, -30801, 39407),
    (1000, -31601, 38807), (2000, -31601, 38807), (3000, -31601, 38807), (4000, -31601, 38807),
]  # fmt: skip
HEIGHTS = (
    "ncols 5\nnrows 3\nxllcorner 600\nyllcorner -32001\ncellsize 800\nNODATA_value -2147483648\n"
    "40007 40007 40007 40007 40007\n39407 39407 39407 39407 39407\n38807 38807 38807 38807 38807\n"
)
TABLE = """\
region,cells,bridged,empty,fill,cut,lowest,highest
all,15,3,0,4524800000,617600000,38807,40007
slope,12,3,0,422400000,0,38807,40007
corner,9,2,0,768000000,1536000000,38807,40007
"""
MATCH, TRACE = "match l.pgm r.pgm c.json o", "trace l.pgm r.pgm c.json right 4 1 1"
ONE, IDENTITY = 2**30, [2**30, 0, 0, 0, 2**30, 0, 0, 0, 2**30]


def numbers_in(text):
    return [int(word) for word in re.findall(r"-?\d+", text)]


def pose_of(matrix, east=0, north=0, up=0):
    return {"matrix": matrix, "east": east, "north": north, "up": up}


def worked_points():
    """Triples of a pose, a point of the camera's and its place in the site, or None."""
    for line in POINTS.splitlines():
        found = re.fullmatch(r".*, (\[.*\]), shift (\(.*?\)): (.*)", line)
        matrix, shift, places = found.groups()
        pose = pose_of(ast.literal_eval(matrix), *ast.literal_eval(shift))
        for pair in places.split("; "):
            given, found = map(ast.literal_eval, pair.split(" -> "))
            yield pose, given, found


def worked_matrices():
    """Triples of a matrix, by how much it misses a rotation, and whether it is accepted."""
    for line in MATRICES.splitlines():
        matrix, missed, ending = re.fullmatch(r".*, (\[.*?\]): (\[.*\]), (.*)", line).groups()
        yield ast.literal_eval(matrix), ast.literal_eval(missed), ending == "good"


def run_of(whole, words):
    """The reference's run with that calibration."""
    return test_reference.run({**FILES, "c.json": json.dumps(whole).encode()}, words)


def read(whole):
    return inputs.read_calibration(json.dumps(whole).encode())


class Worked(unittest.TestCase):
    def test_points(self):
        points = list(worked_points())
        self.assertEqual(len(points), 23)
        for pose, given, found in points:
            self.assertEqual(matching.in_site(pose, given), found, (pose, given))

    def test_greatest(self):
        """The greatest places that a camera gives, an eighth of a turn round, and upwards too."""
        most, half = 35651072000000000, 759250125
        east, north, up = [half, half, 0], [-half, half, 0], [0, 0, ONE]
        end, place = 2000000000, (most, most, 0)
        found = matching.in_site(pose_of([*east, *north, *up], end, end), place)
        self.assertEqual(found, (50418231535937309, 2000000000, 0))
        upwards = pose_of([*north, *up, *east], end, end)
        self.assertIsNone(matching.in_site(upwards, place))

    def test_matrices(self):
        matrices = list(worked_matrices())
        self.assertEqual(len(matrices), 17)
        line = "sgm: calibration: pose.matrix is out of range"
        for matrix, missed, is_good in matrices:
            self.assertEqual(inputs.from_rotation(matrix), missed, matrix)
            whole = calibration_cases.third(("pose", pose_of(matrix, 1, -2, 3)))
            try:
                self.assertEqual(read(whole).pose, pose_of(matrix, 1, -2, 3))
                self.assertTrue(is_good, matrix)
            except inputs.Ended as end:
                self.assertEqual((end.line, is_good), (line, False), matrix)

    def test_match(self):
        for options in ("", " strips=3 workers=2"):
            status, out, err, made = run_of(WHOLE, MATCH + options)
            self.assertEqual((status, out, err), (0, "valid 12 of 15\n", ""))
            self.assertEqual(made["o.asc"].decode(), HEIGHTS)
            self.assertEqual(made["o.csv"].decode(), TABLE)

    def test_places(self):
        made = read(WHOLE)
        places = [matching.surveyed(made, x, y, 0) for y in range(3) for x in range(1, 5)]
        self.assertEqual(places, PLACES)

    def test_nothing_else(self):
        """A pose changes neither the disparities nor what is printed."""
        without = {name: value for name, value in WHOLE.items() if name != "pose"}
        made = [run_of(it, MATCH) for it in (WHOLE, without)]
        self.assertEqual(made[0][:3], made[1][:3])
        self.assertEqual(made[0][3]["o.pgm"], made[1][3]["o.pgm"])
        self.assertNotEqual(made[0][3]["o.asc"], made[1][3]["o.asc"])
        bare = {name: value for name, value in WHOLE.items() if name not in ("grid", "regions")}
        self.assertEqual(run_of(bare, MATCH), (*made[0][:3], {"o.pgm": made[0][3]["o.pgm"]}))

    def test_upright(self):
        """With the identity all is as without a pose: the points are 50000 high, 1000 apart."""
        grid = {"west": 1000, "south": -2000, "cell": 1000, "cols": 4, "rows": 3}
        bare = {**WHOLE, "grid": {**grid, "keep": "mean", "bridge": 0}}
        del bare["pose"], bare["regions"]
        answers = [run_of(it, MATCH) for it in (bare, {**bare, "pose": pose_of(IDENTITY)})]
        self.assertEqual(answers[0], answers[1])
        self.assertEqual(answers[0][3]["o.asc"].count(b"50000"), 12)

    def test_trace(self):
        steps = "least 14\n0 1 0 2 0\n1 1 0 2 0\n2 1 0 2 0\n3 1 0 2 0\n4 1 1 5 1\n"
        self.assertEqual(run_of(WHOLE, TRACE), (0, steps, "", {}))
        wrong = {**WHOLE, "pose": {**WHOLE["pose"], "up": "7"}}
        line = "sgm: calibration: pose.up has the wrong type\n"
        self.assertEqual(run_of(wrong, TRACE), (3, "", line, {}))


class Laws(unittest.TestCase):
    def poses(self):
        for number in range(200):
            draw = Draw(71, number)
            shift = lambda: draw.between(-2000000000, 2000000000)
            place = lambda: draw.between(-(10**8), 10**8)
            matrix = random_inputs.rotation_of(draw)
            yield draw, pose_of(matrix, place(), place(), place()), (place(), place(), place())

    def test_rotations(self):
        """A rotation whose numbers were rounded misses one by less than 2^31 in each product."""
        for _, pose, _ in self.poses():
            self.assertLess(max(map(abs, inputs.from_rotation(pose["matrix"]))), 2**31)

    def test_lengths(self):
        """Two points stay as far apart as they were, but for what is rounded."""
        for draw, pose, place in self.poses():
            other = tuple(at + draw.between(-(10**6), 10**6) for at in place)
            both = matching.in_site(pose, place), matching.in_site(pose, other)
            self.assertLess(abs(math.dist(*both) - math.dist(place, other)), 2)

    def test_shift(self):
        for draw, pose, place in self.poses():
            bare = matching.in_site(pose_of(pose["matrix"]), place)
            names = ("east", "north", "up")
            found = tuple(at + pose[name] for at, name in zip(bare, names))
            self.assertEqual(matching.in_site(pose, place), found)

    def test_identity(self):
        """The identity leaves every point as it is, and half of one turns both other axes round."""
        for _, _, (x, y, h) in self.poses():
            self.assertEqual(matching.in_site(pose_of(IDENTITY), (x, y, h)), (x, y, h))
            half = [-ONE, 0, 0, 0, -ONE, 0, 0, 0, ONE]
            self.assertEqual(matching.in_site(pose_of(half), (x, y, h)), (-x, -y, h))
            mirrored = [ONE, 0, 0, 0, -ONE, 0, 0, 0, ONE]
            self.assertEqual(matching.in_site(pose_of(mirrored), (x, y, h)), (x, -y, h))

    def test_back_again(self):
        """The columns turn a point back."""
        for _, pose, place in self.poses():
            matrix = pose["matrix"]
            turned = matching.in_site(pose_of(matrix), place)
            back = [matrix[3 * row + col] for col in range(3) for row in range(3)]
            for one, other in zip(matching.in_site(pose_of(back), turned), place):
                self.assertLess(abs(one - other), 3)


class Keys(unittest.TestCase):
    def test_read(self):
        """Versions 1 and 2 don't know the pose; in version 3 it may be absent."""
        pose = pose_of(IDENTITY, 4, 5, 6)
        self.assertEqual(read(calibration_cases.third(("pose", pose))).pose, pose)
        self.assertIsNone(read(calibration_cases.third()).pose)
        self.assertIsNone(inputs.Calibration().pose)
        for made in (calibration_cases.first, calibration_cases.second):
            self.assertIsNone(read(made()).pose)
            with self.assertRaises(inputs.Ended) as end:
                read(made(("pose", pose)))
            self.assertEqual(end.exception.line, "sgm: calibration: top has an unknown name")
        bare = {name: value for name, value in WHOLE.items() if name not in ("grid", "regions")}
        self.assertEqual(read(bare).pose, WHOLE["pose"])
        self.assertIsNone(read(bare).grid)


if __name__ == "__main__":
    unittest.main()
