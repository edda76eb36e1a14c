#!/usr/bin/env python3
"""Tries check_trace.py on certificates that are worked out here by trying every sequence, on small pictures whose
costs and penalties come from the separate implementation (tests/reference_matching.py). Each certificate has to
hold, and none in which a digit is another one."""

import itertools
import json
import os
import random
import subprocess
import sys
import tempfile
import unittest

HERE = os.path.dirname(os.path.abspath(__file__))
TOOL = os.path.join(HERE, "check_trace.py")
sys.path.insert(0, os.path.join(HERE, "..", "tests"))

import reference_matching as matching
from reference_inputs import Calibration, Image
from sgm_tools import running
from sgm_tools import certificates as tool

# The worked example, whose certificates were added up by hand.
LEFT = Image(5, 3, 255, 3 * [90, 10, 50, 20, 40])
RIGHT = Image(5, 3, 255, 3 * [10, 50, 20, 40, 30])
EXAMPLE = {"version": 1, "disparities": {"first": 0, "count": 2}, "census": {"width": 3, "height": 3}}
EXAMPLE["penalties"] = {"p1": 1, "p2": 3}
# That of version 3, whose costs were added up by hand too; its left column 0 is void.
THIRD_LEFT = Image(5, 3, 255, [90, 10, 50, 20, 40, 15, 70, 30, 60, 25, 80, 35, 55, 45, 65])
THIRD_RIGHT = Image(5, 3, 255, [12, 52, 22, 42, 30, 68, 33, 58, 27, 40, 37, 54, 47, 63, 20])
THIRD = {**EXAMPLE, "version": 3, "disparities": {"first": 0, "count": 2, "fine": False}}
THIRD["penalties"] = {"p1": 1, "p2": 3, "adapt": False}
THIRD["warp"] = {"left": {"kind": "projective", "matrix": [1, 0, -1, 0, 1, 0, 0, 0, 1]}, "right": {"kind": "identity"}}
# A quarter of a pixel to the left, so that the first column is void; a shift that leaves the pictures' last rows void;
# and a mesh that stretches both ways.
SHIFT = {"kind": "projective", "matrix": [4, 0, -1, 0, 4, 0, 0, 0, 4]}
DOWN = {"kind": "projective", "matrix": [8, 0, 0, 0, 8, 3, 0, 0, 8]}


def setUpModule():
    running.need_for_tests(numpy=running.numpy)


def mesh(width, height, draw):
    cols, rows = (width - 1) // 3 + 2, (height - 1) // 3 + 2
    nodes = [256 * 3 * at + draw.randint(-60, 60) for j in range(rows) for i in range(cols) for at in (i, j)]
    return {"kind": "mesh", "step": 3, "cols": cols, "rows": rows, "nodes": nodes}


def write_pgm(name, image):
    size = 2 if image.maxval > 255 else 1
    with open(name, "wb") as file:
        file.write(f"P5\n{image.width} {image.height}\n{image.maxval}\n".encode())
        file.write(b"".join(sample.to_bytes(size, "big") for sample in image.samples))


def problem(left, right, calibration):
    """The costs of every pixel and index, and what a larger jump costs between two pixels."""
    warps = calibration.get("warp", {side: {"kind": "identity"} for side in ("left", "right")})
    planes = [matching.rectify(image, warps[side]) for image, side in ((left, "left"), (right, "right"))]
    settings = Calibration()
    settings.version = calibration["version"]
    settings.window = (calibration["census"]["width"], calibration["census"]["height"])
    settings.first, settings.count = (calibration["disparities"][key] for key in ("first", "count"))
    costs = matching.costs_by(settings, *planes)
    guide = matching.guide_of(planes[0], left.maxval)
    p1, p2 = (calibration["penalties"][key] for key in ("p1", "p2"))

    def far(here, before):
        if not calibration["penalties"].get("adapt"):
            return p2
        return matching.far(p1, p2, guide[here[1]][here[0]], guide[before[1]][before[0]])

    return costs, p1, far


def line_to(direction, x, y, width, height):
    dx, dy = tool.DIRECTIONS[direction]
    back = itertools.takewhile(lambda it: 0 <= it[0] < width and 0 <= it[1] < height, ((x - k * dx, y - k * dy) for k in range(99)))
    return list(back)[::-1]


def certificate(costs, p1, far, line, d):
    """The text, by trying every sequence."""
    cost_of = [costs[y][x] for x, y in line]
    far_of = [0] + [far(here, before) for before, here in zip(line, line[1:])]

    def parts(sequence):
        yield cost_of[0][sequence[0]], 0
        for at in range(1, len(line)):
            change = abs(sequence[at] - sequence[at - 1])
            yield cost_of[at][sequence[at]], 0 if change == 0 else p1 if change == 1 else far_of[at]

    def energy(sequence):
        return sum(cost + jump for cost, jump in parts(sequence))

    every = (it + (d,) for it in itertools.product(range(len(cost_of[0])), repeat=len(line) - 1))
    best = min(every, key=lambda sequence: (energy(sequence), sequence[::-1]))
    lines = [f"least {energy(best)}"]
    lines += [f"{x} {y} {index} {cost} {jump}" for (x, y), index, (cost, jump) in zip(line, best, parts(best))]
    return "".join(it + "\n" for it in lines)


def changed(text):
    """The certificates in which one digit is another one."""
    for at, letter in enumerate(text):
        if letter.isdigit():
            for other in "0123456789":
                if other != letter:
                    yield text[:at] + other + text[at + 1 :]


class Files(unittest.TestCase):
    def setUp(self):
        folder = tempfile.TemporaryDirectory()
        self.addCleanup(folder.cleanup)
        self.folder = folder.name

    def path(self, name):
        return os.path.join(self.folder, name)

    def pair(self, left, right, calibration):
        write_pgm(self.path("l.pgm"), left)
        write_pgm(self.path("r.pgm"), right)
        with open(self.path("c.json"), "w") as file:
            json.dump(calibration, file)
        return tool.Pair(self.path("l.pgm"), self.path("r.pgm"), tool.calibration_of(self.path("c.json")))

    def holds_alone(self, ray, d, text):
        """Whether the certificate holds and none of those in which a digit is another one does."""
        self.assertIsNone(tool.fault(ray, d, text), text)
        for other in changed(text):
            self.assertIsNotNone(tool.fault(ray, d, other), f"{text}\nand so does\n{other}")


class Rays(Files):
    def test_by_hand(self):
        pair = self.pair(LEFT, RIGHT, EXAMPLE)
        self.holds_alone(tool.Ray(pair, "right", 2, 1), 1, "least 15\n0 1 0 8 0\n1 1 0 6 0\n2 1 1 0 1\n")
        self.holds_alone(tool.Ray(pair, "down", 0, 0), 0, "least 8\n0 0 0 8 0\n")

    def test_third_version_by_hand(self):
        """Single costs of row 1 are 3 2 2 3 2 and 3 7 5 5 6, and the costs 2 2 2 2 2 and 4 5 5 5 5."""
        pair = self.pair(THIRD_LEFT, THIRD_RIGHT, THIRD)
        single = [[pair.single_cost(x, 1, d) for x in range(5)] for d in range(2)]
        self.assertEqual(single, [[3, 2, 2, 3, 2], [3, 7, 5, 5, 6]])
        costs = [[pair.cost(x, 1, d) for x in range(5)] for d in range(2)]
        self.assertEqual(costs, [[2, 2, 2, 2, 2], [4, 5, 5, 5, 5]])
        text = "least 14\n0 1 0 2 0\n1 1 0 2 0\n2 1 0 2 0\n3 1 0 2 0\n4 1 1 5 1\n"
        self.holds_alone(tool.Ray(pair, "right", 4, 1), 1, text)
        # The pixels beside the last one take part in its cost, though the line doesn't touch them.
        self.holds_alone(tool.Ray(pair, "down", 3, 2), 0, "least 4\n3 0 0 1 0\n3 1 0 2 0\n3 2 0 1 0\n")

    def test_every_sequence(self):
        """Every direction; both kinds of penalty, ties, voids by both kinds of warp, samples of 16 bits, and the costs
        of version 2 and of version 3."""
        draw, tried = random.Random(18), 0
        for number in range(48):
            width, height, most = draw.choice([(7, 5, 255), (5, 6, 65535), (6, 5, 9)])
            count, first = draw.choice([3, 4]), draw.choice([-2, 0, 1])
            # Few grey values, so that many costs are equal.
            levels = draw.sample(range(most + 1), 4)
            left, right = (Image(width, height, most, draw.choices(levels, k=width * height)) for _ in "lr")
            calibration = {"version": 2, "disparities": {"first": first, "count": count}}
            calibration["census"] = {"width": 3, "height": 3}
            if number % 4 > 1:
                calibration["version"], calibration["disparities"]["fine"] = 3, False
                calibration["census"] = {"width": draw.choice([3, 5, 9]), "height": draw.choice([3, 7])}
            p1, p2 = draw.choice([(1, 1), (1, 3), (2, 5), (1, 400), (11, 400)])
            calibration["penalties"] = {"p1": p1, "p2": p2, "adapt": number % 2 == 0}
            if number % 3:
                warps = [SHIFT, DOWN, {"kind": "identity"}, mesh(width, height, draw)]
                calibration["warp"] = dict(zip(("left", "right"), draw.sample(warps, 2)))
            pair, of = self.pair(left, right, calibration), problem(left, right, calibration)
            for direction in tool.DIRECTIONS:
                x, y, d = draw.randrange(width), draw.randrange(height), draw.randrange(count)
                line = line_to(direction, x, y, width, height)
                self.holds_alone(tool.Ray(pair, direction, x, y), d, certificate(*of, line, d))
                tried += len(line) > 2
        self.assertGreater(tried, 120)


class Command(Files):
    def run_tool(self, *words):
        words = [sys.executable, TOOL, *words]
        done = subprocess.run(words, cwd=self.folder, capture_output=True, text=True)
        return done.returncode, done.stdout, done.stderr

    def check(self, text, *words):
        self.pair(LEFT, RIGHT, EXAMPLE)
        with open(self.path("t"), "w", newline="") as file:
            file.write(text)
        return self.run_tool("l.pgm", "r.pgm", "c.json", *(words or ("right", "2", "1", "1")), "t")

    def test_statuses(self):
        good = "least 15\n0 1 0 8 0\n1 1 0 6 0\n2 1 1 0 1\n"
        self.assertEqual(self.check(good), (0, "the certificate holds: least 15\n", ""))
        for text, line in (
            (good.replace("15", "16"), "line 1: the least energy is 15, not 16"),
            (good.replace("2 1 1 0 1", "2 1 1 0 3"), "line 4: the jump is 1, not 3"),
            (good.replace("1 1 0 6 0", "1 1 0 7 0"), "line 3: the cost is 6, not 7"),
            (good.replace("1 1 0 6 0\n", ""), "line 3: the pixel is 1 1, not 2 1"),
            (good.replace("2 1 1 0 1\n", ""), "line 4: not five numbers with single spaces between them"),
            (good.replace("1 1 0 6 0", "0 1 0 6 0"), "line 3: the pixel is 1 1, not 0 1"),
            (good.replace("1 1 0 6 0", "1 1 2 6 0"), "line 3: the index is 2, and there are 2"),
            (good.replace("1 1 0 6 0", "1  1 0 6 0"), "line 3: not five numbers with single spaces between them"),
            (good.replace("\n", "\r\n"), "line 1: not `least` and a number"),
            (good.replace("15", "015"), "line 1: not `least` and a number"),
            (good + "\n", "line 5: 3 lines have to follow the first, each ended by LF"),
            (good[:-1], "line 4: 3 lines have to follow the first, each ended by LF"),
            ("", "line 1: not `least` and a number"),
            # A sequence with 1 at the first pixel costs one more.
            (good.replace("0 1 0 8 0\n1 1 0 6 0", "0 1 1 8 0\n1 1 0 6 1"), "line 2: the index is 1, and 0 costs less, or is lesser and costs as much"),
        ):
            self.assertEqual(self.check(text), (1, "", f"check_trace: t: {line}\n"), text)

    def test_words(self):
        good = "least 8\n0 0 0 8 0\n"
        self.assertEqual(self.check(good, "down", "0", "0", "0")[0], 0)
        for words in (("sideways", "0", "0", "0"), ("down", "-1", "0", "0"), ("down", "0", "0", "x"), ("down", "0", "0")):
            status, out, err = self.check(good, *words)
            self.assertEqual((status, out), (2, ""), err)
        self.assertEqual(self.check(good, "down", "5", "0", "0"), (1, "", "check_trace: there is no pixel 5 0\n"))
        self.assertEqual(self.check(good, "down", "0", "0", "2"), (1, "", "check_trace: there is no index 2: 2 are tried\n"))

    def test_plain_settings(self):
        write_pgm(self.path("l.pgm"), LEFT)
        write_pgm(self.path("r.pgm"), RIGHT)
        with open(self.path("t"), "w") as file:
            file.write("least 62\n0 0 63 62 0\n")
        ended = self.run_tool("l.pgm", "r.pgm", "-", "upleft", "0", "0", "63", "t")
        # The window is larger than the picture, so all costs are the greatest.
        self.assertEqual(ended[0], 1, ended)
        with open(self.path("t"), "w") as file:
            file.write("".join(["least 186\n", "2 2 63 62 0\n", "1 1 63 62 0\n", "0 0 63 62 0\n"]))
        self.assertEqual(self.run_tool("l.pgm", "r.pgm", "-", "upleft", "0", "0", "63", "t")[:2], (0, "the certificate holds: least 186\n"))

    def test_broken_files(self):
        self.pair(LEFT, RIGHT, EXAMPLE)
        for name in ("l.pgm", "c.json"):
            with open(self.path("t"), "w") as file:
                file.write("least 8\n0 0 0 8 0\n")
            os.rename(self.path(name), self.path("away"))
            status, out, err = self.run_tool("l.pgm", "r.pgm", "c.json", "down", "0", "0", "0", "t")
            self.assertEqual((status, out, err), (1, "", f"check_trace: {name}: No such file or directory\n"))
            os.rename(self.path("away"), self.path(name))
        bad = ({}, {**EXAMPLE, "version": 4}, {**EXAMPLE, "version": "3"}, {**EXAMPLE, "census": {"width": 3, "height": 2}}, {**EXAMPLE, "disparities": {"first": 0, "count": 0}})
        bad += tuple({**EXAMPLE, "warp": {"left": it, "right": SHIFT}} for it in ({}, 5, {"kind": "mesh"}, {"kind": "projective", "matrix": [1]}))
        bad += ({**EXAMPLE, "warp": {"left": mesh(9, 9, random), "right": SHIFT}},)
        for calibration in bad:
            with open(self.path("c.json"), "w") as file:
                json.dump(calibration, file)
            status, out, err = self.run_tool("l.pgm", "r.pgm", "c.json", "down", "0", "0", "0", "t")
            self.assertEqual((status, out, err.count("\n")), (1, "", 1), err)


if __name__ == "__main__":
    unittest.main()
