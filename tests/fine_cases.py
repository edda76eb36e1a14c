#!/usr/bin/env python3
"""Prints cases of finer disparities, each with its answer, for the stored runs of crates/sgm_cases.

    tests/fine_cases.py [--kinds | --check | --write]

A case is two lines. The reference works the answers out:

    fine WIDTH HEIGHT FIRST COUNT | LEFT | RIGHT | MAP
    the finer values of all pixels | the means of these
    mean WIDTH HEIGHT | MAP
    the means

LEFT, RIGHT and MAP are the samples of both planes and the map, in sixteenths above the first
disparity: row by row, with one space between two, and - for a void pixel and for none. The worked
rows come first, then pairs that look random and are the same at each run. Together they have pixels
of all the kinds that KINDS names; where one has none that is said, and the status is 1.

With --kinds the number of pixels of each kind is printed. --check says whether these cases stand in
crates/sgm_cases/stdin, and no other ones of their kinds, and --write puts them there, in front of
all others.
"""

import argparse
import collections
import os
import sys
from unittest import mock

import reference_matching as matching
import test_reference_fine as worked
from random_inputs import Draw
from test_reference_fine import Case, changed

HERE = os.path.dirname(os.path.abspath(__file__))
STORED = os.path.join(HERE, "..", "crates", "sgm_cases", "stdin")
SEED, RANDOM_CASES, RANDOM_MEANS = 51, 190, 20


# Kinds of pixels


def halves_away(a, b):
    """The nearest whole number, halves away from 0."""
    return (2 * a + b) // (2 * b) if a > 0 else -((b - 2 * a) // (2 * b))


def halves_down(a, b):
    return -((b - 2 * a) // (2 * b))


# Definitions next to the right ones: a part's name, and another one in its place.
NEIGHBOURS = {
    "left samples below 255": ("LEFT_LIMIT", 255),
    "left samples below 257": ("LEFT_LIMIT", 257),
    "right samples below 4095": ("RIGHT_LIMIT", 4095),
    "right samples below 4097": ("RIGHT_LIMIT", 4097),
    "slopes within 31": ("SLOPES_MOST", 31),
    "slopes within 33": ("SLOPES_MOST", 33),
    "slopes with halves down": ("rounded", halves_down),
    "slopes with halves away from 0": ("rounded", halves_away),
    "exact scores": ("score", lambda a, b: 256 * a * a // b if a > 0 and b >= 256 else 0),
    "scores of a negative A": ("score", lambda a, b: a * a // (b // 256) if b >= 256 else 0),
    "scores of a small B": ("score", lambda a, b: a * a // max(1, b // 256) if a > 0 else 0),
    "scores with the gain": ("score", lambda a, b: a * a // 256 if a > 0 and b >= 256 else 0),
}


def kinds_of(case):
    """The kinds of all pixels that have a disparity, one after the other."""
    fine = finer_values(case)
    yield from kinds_of_neighbours(case, fine)
    for y, row in enumerate(case.found):
        for x, value in enumerate(row):
            if value is not None:
                yield from kinds_of_slopes(case.found, x, y)
                yield from kinds_of_mean(fine, x, y)
                yield from kinds_of_window(case, x, y)
                yield from kinds_of_sides(case, value)


def kinds_of_neighbours(case, fine):
    """By which of them a value comes out that isn't the right one."""
    for name, (part, other) in NEIGHBOURS.items():
        with mock.patch.object(matching, part, other):
            if finer_values(case) != fine:
                yield f"not {name}"


def finer_values(case):
    return matching.finer_values(case.found, case.left, case.right, case.first, case.count)


def some(**kinds):
    """The names of those that hold, with spaces in them."""
    return [name.replace("_", " ") for name, holds in kinds.items() if holds]


def kinds_of_sides(case, value):
    height, width = len(case.found), len(case.found[0])
    yield from some(one_disparity=case.count == 1, the_value_4080=value == 4080)
    yield from some(one_row=height == 1, one_column=width == 1)
    yield from some(four_by_four=(width, height) == (4, 4), negative_first=case.first < 0)
    yield from some(least_first=case.first == -1024, greatest_first=case.first == 1024)


def kinds_of_slopes(found, x, y):
    values = [matching.at(found, x + i, y + j) for i, j in matching.WINDOW]
    steps = [value - found[y][x] for value in values if value is not None]
    yield from (f"slope over {step}" for step in steps if abs(step) in (32, 33))
    s, t = matching.slopes(found, x, y)
    _, across, _, down = matching.slope_sums(found, x, y)
    yield from some(slope_of_64=64 in s or 64 in t)
    yield from some(nothing_beside=across == 0, nothing_above=down == 0)


def kinds_of_mean(fine, x, y):
    around = [matching.at(fine, x + i, y + j) for j in (-1, 0, 1) for i in (-1, 0, 1)]
    steps = [value - fine[y][x] for value in around if value is not None]
    yield from (f"mean over {step}" for step in steps if abs(step) in (16, 17))
    near = [fine[y][x] + step for step in steps if abs(step) <= 16]
    yield from some(mean_rounded_up=matching.mean(fine, x, y) * len(near) > sum(near))


def kinds_of_window(case, x, y):
    """What misses, or what the window has."""
    own, missing = matching.left_samples(case.left, x, y)
    others, also = matching.right_samples(case.found, case.right, case.first, x, y)
    for side, plane, gaps in (("left", case.left, missing), ("right", case.right, also)):
        if gaps:
            is_outside = [not (0 <= i < len(plane[0]) and 0 <= j < len(plane)) for i, j in gaps]
            yield f"{side} outside" if all(is_outside) else f"{side} void"
            return
    yield from some(unneeded_missing=any(unneeded(case, x, y)))
    together = [sample for o in matching.READ for sample in others[o]]
    yield from kinds_of_samples("left", own, matching.LEFT_LIMIT)
    yield from kinds_of_samples("right", together, matching.RIGHT_LIMIT)
    yield from kinds_of_scores(*matching.small_windows(own, others), case.found[y][x], case.count)


def unneeded(case, x, y):
    """Of each sample that falls on a pixel: whether the one behind it misses."""
    s, t = matching.slopes(case.found, x, y)
    for i, j in matching.WINDOW:
        u = 16 * (x + i - case.first) - case.found[y][x] - s[i + 2] - t[j + 2]
        for q in [(u + o) // 16 for o in matching.READ if (u + o) % 16 == 0]:
            yield matching.at(case.right, q + 1, y + j) is None


def kinds_of_samples(side, samples, limit):
    spread = max(samples) - min(samples)
    yield f"{side} halved {next(times for times in range(32) if spread >> times < limit)} times"
    yield f"{side} range {spread}"


def kinds_of_scores(own, e, value, count):
    """The winner and what it was like, or why there is none."""
    v, both = matching.product_of(own, own), matching.judged(own, e, value, count)
    greatest = (v, both[0]) == (10143900, (1303192800, 167421945600))
    is_small = any(a > 0 and b < 256 for a, b in both.values())
    yield from some(greatest_A_B_and_V=greatest, some_B_too_small=is_small)
    scores = {c: matching.score(*both[c]) for c in both}
    best = max(scores.values())
    if best == 0:
        is_alike, is_flat = any(a > 0 for a, _ in both.values()), v == 0 or max(e[0]) == 0
        yield from some(all_B_too_small=is_alike, no_A_above_0=not (is_flat or is_alike))
        return
    c = max(scores, key=lambda c: (scores[c], -abs(c), -c))
    told, all_of_it = both[c][0] ** 2, v * both[c][1]
    yield from some(just_below_a_third=all_of_it * 3 < 10 * told < 10 * all_of_it // 3)
    if 3 * told < all_of_it:
        yield "less than a third"
        return
    yield from some(just_above_a_third=10 * told < 4 * all_of_it)
    yield from some(exactly_a_third=c != 0 and 3 * told == all_of_it)
    yield f"change {c}"
    alike = [other for other in scores if scores[other] == best]
    yield from some(tie_of_both_signs=c < 0 and -c in alike, tie_with_0=c == 0 and len(alike) > 1)
    yield from some(tie_beside_0=c == -1 and 1 in alike)
    yield from some(to_the_least=value + c == 0, to_the_greatest=value + c == 16 * (count - 1))
    beyond = {c: matching.score(*both) for c, both in matching.judged(own, e, 2048, 256).items()}
    is_better = [c for c in beyond if beyond[c] > best]
    yield from some(better_below_the_span=any(value + c < 0 for c in is_better))
    yield from some(better_above_the_span=any(value + c > 16 * (count - 1) for c in is_better))


# Each has to be there.
KINDS = [f"change {c}" for c in range(-8, 9)]
KINDS += [f"{side} halved {times} times" for side in ("left", "right") for times in range(9)]
KINDS += [f"left range {spread}" for spread in (0, 255, 256, 65535)]
KINDS += [f"right range {spread}" for spread in (0, 4095, 4096, 1048560)]
KINDS += [f"slope over {step}" for step in (-33, -32, 32, 33)]
KINDS += [f"mean over {step}" for step in (-17, -16, 16, 17)]
KINDS += ["slope of 64", "nothing beside", "nothing above", "mean rounded up", "unneeded missing"]
KINDS += ["left void", "left outside", "right void", "right outside"]
KINDS += ["some B too small", "all B too small", "no A above 0", "greatest A B and V"]
KINDS += ["less than a third", "just below a third", "exactly a third", "just above a third"]
KINDS += ["tie of both signs", "tie beside 0", "tie with 0", "to the least", "to the greatest"]
KINDS += ["better below the span", "better above the span", "one disparity", "the value 4080"]
KINDS += ["one row", "one column", "four by four"]
KINDS += ["least first", "greatest first", "negative first"]
KINDS += [f"not {name}" for name in NEIGHBOURS]


# Cases

# Turned by half about their middles, (4, 2) and (3, 2), both windows are the same; the best changes are
# -1 and 1.
NEAREST_TIE = Case(
    left=[
        [42, 51, 76, 52, 24, 50, 77, 56, 17],
        [107, 90, 34, 34, 69, 85, 84, 44, 81],
        [17, 20, 43, 85, 107, 85, 43, 31, 56],
        [14, 30, 84, 85, 69, 34, 34, 83, 67],
        [62, 66, 77, 50, 24, 52, 76, 56, 56],
    ],
    right=[
        [42, 92, 54, 8, 51, 89, 62, 6, 15],
        [107, 15, 28, 78, 82, 105, 14, 91, 114],
        [17, 37, 90, 117, 90, 37, 17, 78, 23],
        [14, 105, 82, 78, 28, 15, 107, 71, 13],
        [62, 89, 51, 8, 54, 92, 42, 73, 15],
    ],
    found=[9 * [16]] * 5,
    count=3,
)


def worked_cases():
    """A slope, a tie, each reason for which a value stays, and the ends of the span."""
    slope, tie, plain = worked.SLOPE, worked.TIE, worked.TIE.found
    # Its map has a 60, for which a fifth disparity has to be among those that are tried.
    yield Case(slope.left, slope.right, slope.found, 5)
    yield tie
    yield NEAREST_TIE
    yield Case(changed(tie.left, (6, 4, None)), tie.right, plain, 3)
    yield Case(tie.left, changed(tie.right, (0, 0, None)), plain, 3)
    yield Case(tie.left, tie.right, [9 * [20]] * 5, 3)
    yield Case(worked.FLAT, tie.right, plain, 3)
    yield Case(tie.left, worked.FLAT, plain, 3)
    yield Case(tie.left, worked.OTHER, plain, 3)
    for count in (3, 4):
        yield Case(worked.AT_FORTY, worked.OTHER, [9 * [32]] * 5, count)


WORKED_MEANS = [
    [[10, 20, 26], [None, 10, 27], [9, 0, 11]],
    [[0, 1, None], [None, 0, None], [None, None, 400]],
    [[5, None, None], [None, 4, None], [None, None, None]],
]


def noise(draw, width, height, most):
    return [[draw.below(most + 1) for _ in range(width)] for _ in range(height)]


def with_holes(draw, rows, percent):
    return [[None if draw.chance(percent) else value for value in row] for row in rows]


class Surface:
    """A plane of disparities over a picture, near the one at which both pictures lie alike."""

    def __init__(self, draw, width, height, rises=(0, 0), base=None, before=None):
        """`before` is how many disparities lie before 0; `base` is the middle's, in sixteenths."""
        self.width, self.height, self.rises = width, height, rises
        before = draw.of([0, 0, 0, 1, 2, 5]) if before is None else before
        base = draw.between(0, 24) if base is None else base
        self.first, self.base = -before, 16 * before + base
        self.count = 1 + before + draw.of([2, 3, 4])

    def within(self, value):
        return min(16 * (self.count - 1), max(0, value))

    def value(self, x, y):
        rise = self.rises[0] * (x - self.width // 2) + self.rises[1] * (y - self.height // 2)
        return self.within(self.base + rise)

    def found(self):
        return [[self.value(x, y) for x in range(self.width)] for y in range(self.height)]

    def seen(self, right, c, gain=(1, 1), grain=lambda: 0):
        """A left plane that shows the right one where each disparity is greater by c sixteenths."""

        def sample(x, y):
            u = 16 * (x - self.first) - self.value(x, y) - c
            q, f = u // 16, u % 16
            near, far = (right[y][min(self.width - 1, max(0, column))] for column in (q, q + 1))
            return ((16 - f) * near + f * far) * gain[0] // (16 * gain[1]) + grain()

        return [[sample(x, y) for x in range(self.width)] for y in range(self.height)]

    def case(self, left, right, found=None):
        return Case(left, right, found or self.found(), self.count, self.first)


def sides_of(draw):
    return draw.between(8, 11), draw.between(5, 6)


def moved_case(draw, number):
    """A surface off by the same number of sixteenths everywhere."""
    it = Surface(draw, *sides_of(draw), (draw.between(-5, 5), draw.between(-5, 5)))
    right = noise(draw, it.width, it.height, draw.of([9, 100, 255, 1023]))
    return it.case(it.seen(right, number % 17 - 8), right)


def noisy_case(draw, number):
    """One that the right picture tells about a third of, so that small things decide."""
    it = Surface(draw, *sides_of(draw), (draw.between(-2, 2), 0))
    most, low = draw.of([(100, 0), (200, 55), (1000, 3), (7000, 900), (29000, 7000)])
    right = [[low + sample for sample in row] for row in noise(draw, it.width, it.height, most)]
    left = it.seen(right, draw.between(-8, 8), grain=lambda: draw.below(most + most // 5))
    return it.case([[min(65535, sample) for sample in row] for row in left], right)


def rough_case(number):
    """A map of many steps and holes, which leave few neighbours to a slope."""
    draw = Draw(SEED, 8, number)
    it = Surface(draw, *sides_of(draw))
    right, step = noise(draw, it.width, it.height, 255), lambda: draw.of([0, 0, 1, 1, -1, 3, -6])
    found = [[it.within(value + step()) for value in row] for row in it.found()]
    left = it.seen(right, draw.between(-8, 8), grain=lambda: draw.below(200))
    return it.case(left, right, with_holes(draw, found, draw.of([20, 50, 70])))


def limit_case(number):
    """Samples that are all just below what is halved, or all but one, and are hard to decide."""
    draw = Draw(SEED, 7, number)
    it = Surface(draw, 9, 5, base=15, before=0)
    right = noise(draw, 9, 5, 255)
    pairs = [(0, 0), draw.of([(255, 255), (256, 255), (256, 256)])]
    for y, pair in zip(draw.shuffled(range(5)), pairs):
        x = draw.between(2, 4)
        right[y][x : x + 2] = pair
    left = it.seen(right, draw.between(-8, 8), grain=lambda: draw.below(200) - 100)
    most = draw.of([255, 256])
    return it.case([[min(most, max(0, sample)) for sample in row] for row in left], right)


def third_case(draw, number):
    """A change by 8 that mostly explains just a third: of 25 places 12 differ in the same way on
    both sides, and 6 differ twice as far on the right side alone."""
    shown, read = [9 * [1] for _ in range(5)], [9 * [2] for _ in range(5)]
    parts = 6 * [(2, 3)] + 6 * [(0, 1)] + 3 * [(1, 4)] + 3 * [(1, 0)] + 7 * [(1, 2)]
    for at, (own, other) in enumerate(draw.shuffled(parts)):
        shown[at // 5][2 + at % 5], read[at // 5][1 + at % 5] = own, other
    return Case(shown, read, [9 * [8]] * 5, 3)


def halved_case(draw, number):
    """Samples of as many bits as are left when they are halved so often."""
    it = Surface(draw, *sides_of(draw))
    most = [256 * 2**times - 1 for times in (number % 9, (number // 2 + number) % 9)]
    most = [draw.of([it, it, it + 1]) if it < 65535 else it for it in most]
    sample = lambda: draw.of([0, most[1], draw.below(most[1] + 1)])
    right = [[sample() for _ in range(it.width)] for _ in range(it.height)]
    return it.case(it.seen(right, draw.between(-8, 8), most), right)


def ends_case(draw, number):
    """Samples at the ends of what is halved once more, or in black and white."""
    it = Surface(draw, *sides_of(draw), base=draw.of([0, 8, 15, 16, 17]))
    samples = [0, 65535] if number % 2 else [0, 0, 255, 256]
    right = [[draw.of(samples) for _ in range(it.width)] for _ in range(it.height)]
    return it.case(it.seen(right, draw.of([0, 0, 1, -1])), right)


def void_case(draw, number):
    """Holes in the planes, or in the map."""
    it = Surface(draw, *sides_of(draw), (draw.between(-3, 3), draw.between(-3, 3)))
    right = noise(draw, it.width, it.height, 255)
    planes = [it.seen(right, draw.between(-8, 8)), right, it.found()]
    which = number % 3
    planes[which] = with_holes(draw, planes[which], draw.of([1, 2, 4, 30 if which == 2 else 4]))
    return it.case(*planes)


def stepped_case(draw, number):
    """Steps in the map within and beyond what takes part in a slope and in a mean."""
    it = Surface(draw, draw.between(8, 11), 5, before=4)
    right = noise(draw, it.width, it.height, 255)
    left = it.seen(right, 0) if number % 2 else noise(draw, it.width, it.height, 255)
    step = lambda: draw.of([-1, 1]) * draw.of([0, 0, 0, 0, 15, 16, 17, 31, 32, 33])
    found = [[it.within(value + step()) for value in row] for row in it.found()]
    return it.case(left, right, found)


def steep_case(draw, number):
    """Slopes as steep as they can be, and neighbours that are too far away for one."""
    rises = [(32, 0), (0, 32), (0, -32), (32, 32), (33, 0), (0, 33), (70, 0), (0, 70), (30, 2)]
    it = Surface(draw, 14, 5, draw.of(rises), base=draw.between(-8, 8), before=20)
    it.count = 45
    right = noise(draw, it.width, it.height, 255)
    return it.case(it.seen(right, draw.between(-8, 8)), right)


def plain_case(draw, number):
    """Windows that say nothing, or the contrary."""
    it = Surface(draw, *sides_of(draw))
    right = noise(draw, it.width, it.height, 255)
    left = it.seen(right, draw.between(-8, 8))
    what = number % 4
    if what == 0:
        left = [it.width * [draw.below(256)] for _ in range(it.height)]
    elif what == 1:
        left = [it.width * [77]] * it.height
    elif what == 2:
        right = [it.width * [77]] * it.height
    else:
        left = [[255 - sample for sample in row] for row in left]
    return it.case(left, right)


def single_case(draw, number):
    """A right plane with a single sample that isn't 0, so that some B are small."""
    it = Surface(draw, 9, 5, base=draw.of([1, 15, 15, 15, 15, 17]), before=0)
    place = draw.between(6, 8), draw.below(5)
    right = changed([9 * [0]] * 5, (*place, draw.of([1, 1, 2])))
    left = changed(noise(draw, 9, 5, 40), (*place, 255))
    return it.case(left if number % 3 else noise(draw, 9, 5, 255), right)


def little_case(draw, number):
    """To one side the right window has nothing but a small step, and one change is left there,
    whose B may be too small; to the other side it is the left one's contrary."""
    step, high = draw.of([5, 6, 6, 7, 30]), draw.between(130, 255)
    left = [9 * [high]] + [9 * [draw.between(60, 100)] for _ in range(4)]
    right = [[0, 0, 0, 0, 3500, step, 0, 0, 0]] + [[0, 0, 0, 52500, 0, 4500, 0, 0, 0]] * 4
    rows = draw.shuffled(zip(left, right))
    found = 5 * [[None, None, None, None, 1, 17, 33, None, None]]
    return Case([row for row, _ in rows], [row for _, row in rows], found, 4)


def tied_case(draw, number):
    """Both windows the same when they are turned by half about the middle, or along their rows."""
    it = Surface(draw, 9, 5, base=16, before=0)
    right = noise(draw, 9, 5, 120)
    if number % 4 == 0:
        right = [9 * row[:1] for row in right]
        return it.case([[sample // 2 for sample in row] for row in right], right)
    # What stands behind the middle, (3, 2), is what stands as far before it.
    turned = lambda x, y: right[4 - y][6 - x] if x < 7 and (y, x) > (2, 3) else right[y][x]
    right = [[turned(x, y) for x in range(9)] for y in range(5)]
    c = draw.between(2, 8)
    pairs = zip(it.seen(right, c), it.seen(right, -c))
    return it.case([[sum(both) for both in zip(*rows)] for rows in pairs], right)


def span_case(draw, number):
    """The best change leads out of the span, or to its end."""
    it = Surface(draw, *sides_of(draw), base=0, before=draw.of([0, 0, 1, 3]))
    it.count = draw.of([1, 2, 3]) - it.first
    it.base = draw.of([draw.between(0, 8), 16 * (it.count - 1) - draw.between(0, 8)])
    it.first -= it.base // 16 + it.first
    right = noise(draw, it.width, it.height, 255)
    return it.case(it.seen(right, draw.of([-8, 8, draw.between(-8, 8)])), right)


def far_case(draw, number):
    """The greatest numbers: where disparities begin, how many there are, and samples."""
    it = Surface(draw, 9, 5, base=0, before=0)
    it.first, it.base = draw.of([(-1024, 4080), (1024, 0), (-255, 4080), (-254, 4079)])
    it.count = 256
    right = noise(draw, 9, 5, 65535)
    return it.case(it.seen(right, draw.between(-8, 8)), right)


def greatest_case(draw, number):
    """Windows of black and white in equal parts, one right below the other."""
    it = Surface(draw, 9, 5, base=0, before=draw.of([0, 2]))
    dots, around = draw.shuffled([0] * 12 + [65535] * 13), [2 * [0], 2 * [65535]]
    rows = [dots[5 * y : 5 * y + 5] for y in range(5)]
    right = [draw.of(around) + row + draw.of(around) for row in rows]
    return it.case(it.seen(right, 0), right)


def small_case(draw, number):
    """Pictures in which few pixels or none have a window."""
    sides = [(1, 1), (1, 7), (9, 1), (4, 4), (2, 8), (8, 4), (5, 5), (7, 5), (5, 7)]
    width, height = draw.of(sides)
    it = Surface(draw, width, height, (draw.between(-9, 9), draw.between(-9, 9)))
    right = noise(draw, width, height, draw.of([1, 255, 65535]))
    found = with_holes(draw, it.found(), draw.of([0, 0, 20]))
    return it.case(it.seen(right, draw.between(-8, 8)), right, found)


MAKERS = [moved_case, noisy_case, halved_case, ends_case, void_case, stepped_case, steep_case]
MAKERS += [plain_case, tied_case, span_case, small_case, far_case, greatest_case]
MAKERS += [single_case, little_case, third_case, noisy_case, moved_case, halved_case]
# Numbers found by trying: with another limit, or with other halves, another value comes out.
LIMIT_NUMBERS = [17, 24, 34, 117, 123, 147, 217, 266, 323, 395, 710, 1317, 2762, 2930, 3013]
ROUGH_NUMBERS = [0, 1, 2, 3, 10, 19, 22, 29, 34, 39, 70, 74, 120, 164, 186, 216]


def random_case(number):
    """A case that its number alone makes."""
    return MAKERS[number % len(MAKERS)](Draw(SEED, number), number // len(MAKERS))


def random_map(number):
    """A map whose neighbours mostly lie as far apart as a mean takes."""
    draw = Draw(SEED, 1, number)
    width, height = draw.of([(1, 1), (6, 1), (1, 6), (3, 3), (5, 4), (4, 5)])
    base = draw.of([17, 100, 4063, 4080])
    steps = [0, 0, 1, 15, 16, 17] if base < 4080 else [0, 0, 15]
    step = lambda: draw.of([-1, 1 if base < 4080 else -1]) * draw.of(steps)
    found = [[base + step() for _ in range(width)] for _ in range(height)]
    return with_holes(draw, found, draw.of([0, 20]))


def cases():
    """All cases that have planes."""
    yield from worked_cases()
    yield from map(limit_case, LIMIT_NUMBERS)
    yield from map(rough_case, ROUGH_NUMBERS)
    yield from map(random_case, range(RANDOM_CASES))


def is_possible(case):
    """Whether samples, disparities and the span are such that a match could have them."""
    values = [(rows, 65535) for rows in (case.left, case.right)]
    values.append((case.found, 16 * (case.count - 1)))
    ends = (abs(case.first) <= 1024, 1 <= case.count <= 256)
    within = (it is None or 0 <= it <= most for rows, most in values for row in rows for it in row)
    return all(ends) and all(within)


# Lines


def rows_text(rows):
    return " ".join("-" if value is None else str(value) for row in rows for value in row)


def lines():
    """The lines of all cases, each followed by its answer."""
    for case in cases():
        span, sides = (case.first, case.count), (len(case.found[0]), len(case.found))
        planes = (case.left, case.right, case.found)
        yield " | ".join([" ".join(map(str, ("fine", *sides, *span))), *map(rows_text, planes)])
        fine = finer_values(case)
        yield " | ".join(map(rows_text, (fine, matching.means(fine))))
    for found in [*WORKED_MEANS, *map(random_map, range(RANDOM_MEANS))]:
        yield f"mean {len(found[0])} {len(found)} | {rows_text(found)}"
        yield rows_text(matching.means(found))


def pairs_of(lines):
    return [lines[at : at + 2] for at in range(0, len(lines) - 1, 2)]


def hold(wanted, is_writing):
    """Compares the stored cases with these, or puts these in their place."""
    with open(STORED, encoding="utf-8", newline="") as file:
        pairs = pairs_of(file.read().split("\n"))
    stored = [pair for pair in pairs if pair[0].startswith(("fine ", "mean "))]
    if is_writing:
        others = [pair for pair in pairs if pair not in stored]
        with open(STORED, "w", encoding="utf-8", newline="") as file:
            file.writelines(line + "\n" for pair in [*wanted, *others] for line in pair)
        print(f"fine_cases: {len(wanted)} cases written")
        return 0
    differ = [case for case, answer in wanted if [case, answer] not in stored]
    if stored == wanted:
        print(f"fine_cases: {len(wanted)} cases the same")
        return 0
    print(f"fine_cases: {len(differ)} of {len(wanted)} cases differ or are missing")
    return 1


def main():
    epilog = "Example: tests/fine_cases.py > /tmp/fine"
    parser = argparse.ArgumentParser(description=__doc__.split("\n\n")[0], epilog=epilog)
    way = parser.add_mutually_exclusive_group()
    way.add_argument("--kinds", action="store_true", help="print how many pixels are of each kind")
    way.add_argument("--check", action="store_true", help="compare with the stored cases")
    way.add_argument("--write", action="store_true", help="write the stored cases anew")
    words = parser.parse_args()
    assert all(map(is_possible, cases()))
    counted = collections.Counter(kind for case in cases() for kind in kinds_of(case))
    missing = [kind for kind in KINDS if not counted[kind]]
    if missing:
        print(f"fine_cases: no pixel of these kinds: {', '.join(missing)}", file=sys.stderr)
    if words.kinds:
        print("\n".join(f"{counted[kind]} {kind}" for kind in KINDS))
    elif words.check or words.write:
        return hold(pairs_of([*lines(), ""]), words.write) or bool(missing)
    else:
        print("\n".join(lines()))
    return 1 if missing else 0


if __name__ == "__main__":
    try:
        sys.exit(main())
    except OSError as error:
        sys.exit(f"fine_cases: {error}")
