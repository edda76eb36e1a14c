#!/usr/bin/env python3
"""Path values of tiny problems, by trying every sequence of indices along whole rays.

    tests/least_energies.py [--check]

It knows nothing of a recurrence: the least energy is the least over all sequences, and a path value is
the least energy of the ray among the sequences that end in an index, less the least energy of the ray
without its last pixel. Where a guide is given, the penalty of a larger change follows it. It prints
tables, rows of which stand in the tests of sgm_path (crate sgm_survey_tests); tests/definitions.py compares the
definitions with them. With --check it looks through these tests and tries each row that stands there.
"""

import argparse
import glob
import os
import re
import sys
from itertools import product

TESTS = os.path.join(os.path.dirname(os.path.abspath(__file__)), "..", "crates", "sgm_survey_tests", "src", "path.rt")

OFFSETS = {
    "Right": (1, 0),
    "Left": (-1, 0),
    "Down": (0, 1),
    "DownRight": (1, 1),
    "DownLeft": (-1, 1),
    "Up": (0, -1),
    "UpRight": (1, -1),
    "UpLeft": (-1, -1),
}


def jump(a, b, p1, p2):
    return 0 if a == b else p1 if abs(a - b) == 1 else p2


def left_of(p1, p2, p, q, guide):
    """What is left of P2 between two pixels; guide[y][x] is from 0 to 255, or None."""
    greys = [guide[y][x] for x, y in (p, q)] if guide else [None]
    if None in greys:
        return p2
    return max(p1, p2 // max(1, max(greys) - min(greys)))


def energies(costs, ray, p1, p2, guide=None):
    """The energy of each sequence along a ray; costs[y][x][d]."""
    count = len(costs[0][0])
    larger = [left_of(p1, p2, p, q, guide) for p, q in zip(ray, ray[1:])]
    for s in product(range(count), repeat=len(ray)):
        cost = sum(costs[y][x][d] for (x, y), d in zip(ray, s))
        yield s, cost + sum(jump(a, b, p1, far) for a, b, far in zip(s, s[1:], larger))


def ray_to(width, height, dir, x, y):
    """All pixels (x, y) - k * offset before the first one outside the image, the farthest first."""
    dx, dy = OFFSETS[dir]
    pixels = []
    while 0 <= x < width and 0 <= y < height:
        pixels.append((x, y))
        x, y = x - dx, y - dy
    return pixels[::-1]


def path_values(costs, dir, p1, p2, guide=None):
    """values[y][x][d] for every pixel and index."""
    height, width, count = len(costs), len(costs[0]), len(costs[0][0])
    values = [[[0] * count for _ in range(width)] for _ in range(height)]
    for y, x in product(range(height), range(width)):
        ray = ray_to(width, height, dir, x, y)
        before = min(e for _, e in energies(costs, ray[:-1], p1, p2, guide))
        for d in range(count):
            ending = min(e for s, e in energies(costs, ray, p1, p2, guide) if s[-1] == d)
            values[y][x][d] = ending - before
    return values


def flat(row):
    return [v for pixel in row for v in pixel]


def listed(row):
    return "&[" + ", ".join(str(v) for v in row) + "]"


ROWS = [
    # (P1, P2, costs of the pixels of one row)
    (1, 3, [(0, 5), (5, 0), (0, 5)]),
    (1, 6, [(0, 9, 9), (9, 9, 0)]),
    (1, 2, [(0, 9, 9), (9, 9, 0)]),
    (7, 9, [(4,)]),
    (7, 9, [(4,), (62,), (0,)]),
    (3, 5, [(2, 7, 1)]),
    (2, 2, [(8, 3), (1, 6), (4, 4), (9, 0)]),
    (1, 4, [(3, 0, 8), (7, 7, 2), (0, 5, 5), (6, 1, 9)]),
    (5, 40, [(10, 30, 62), (62, 3, 20), (41, 0, 17)]),
    (4000, 4000, [(0, 62), (0, 62), (0, 62), (0, 62), (0, 62)]),
]

IMAGE = [
    [(0, 6), (9, 2), (4, 4)],
    [(7, 1), (3, 3), (0, 8)],
    [(5, 0), (2, 9), (6, 1)],
]
IMAGE_PENALTIES = (2, 5)

NUMBERS = r"&?\[([0-9, ]*)\]"
ROW = re.compile(rf"\(\((\d+), (\d+)\), (\d+), {NUMBERS}, {NUMBERS}, {NUMBERS}\)")
ROW_OF_THREE = rf"\[{NUMBERS}, {NUMBERS}, {NUMBERS}\]"
TABLE = re.compile(rf"\(Dir::(\w+), {ROW_OF_THREE}\)")


def numbers_of(text):
    return [int(word) for word in text.split(",")]


def tests_text():
    """The tests with single spaces between words and no comma before a bracket that closes."""
    text = ""
    for name in sorted(glob.glob(TESTS)):
        with open(name, encoding="utf-8") as file:
            text += file.read()
    text = re.sub(r"\s+", " ", text)
    return re.sub(r",? ([)\]])", r"\1", re.sub(r"([(\[]) ", r"\1", text))


def check():
    """Tries the rows and tables that stand in the tests, and says how many are right."""
    right, wrong = 0, 0
    text = tests_text()
    for found in ROW.finditer(text):
        p1, p2, count = map(int, found.groups()[:3])
        costs, *values = map(numbers_of, found.groups()[3:])
        row = [costs[at : at + count] for at in range(0, len(costs), count)]
        tried = [flat(path_values([row], dir, p1, p2)[0]) for dir in ("Right", "Left")]
        right, wrong = right + (values == tried), wrong + (values != tried)
    for found in TABLE.finditer(text):
        tried = path_values(IMAGE, found[1], *IMAGE_PENALTIES)
        is_right = list(map(numbers_of, found.groups()[1:])) == [flat(row) for row in tried]
        right, wrong = right + is_right, wrong + (not is_right)
    print(f"least_energies: {right} rows and tables of sgm_path's tests are right, {wrong} wrong")
    return 0 if right and not wrong else 1


def print_tables():
    print("rows: penalties, count, costs, values to the right, values to the left")
    for p1, p2, row in ROWS:
        right = path_values([row], "Right", p1, p2)[0]
        left = path_values([row], "Left", p1, p2)[0]
        print(f"(({p1}, {p2}), {len(row[0])}, {listed(flat(row))}, {listed(flat(right))}, {listed(flat(left))}),")
    print("image: penalties", IMAGE_PENALTIES, "costs", [flat(row) for row in IMAGE])
    for dir in OFFSETS:
        rows = path_values(IMAGE, dir, *IMAGE_PENALTIES)
        print(f"(Dir::{dir}, [{', '.join(str(flat(row)) for row in rows)}]),")


def main():
    parser = argparse.ArgumentParser(description=__doc__.split("\n\n")[0], epilog="Example: tests/least_energies.py --check")
    parser.add_argument("--check", action="store_true", help="try the rows that stand in the tests of sgm_path")
    words = parser.parse_args()
    return check() if words.check else print_tables()


if __name__ == "__main__":
    sys.exit(main())
