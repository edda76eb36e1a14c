#!/usr/bin/env python3
"""Prints cases of poses, with answers, for the stored runs of crates/sgm_cases.

    tests/pose_cases.py [--kinds | --check | --write]

A case is two lines, of which the second one is the answer that the reference gives. There are three
kinds of them:

    point M0 .. M8 EAST NORTH UP X Y H    where the site has a point of the camera's: E N H, or none
    calib CALIBRATION                     a calibration with a pose, or its first fault
    run WORDS ; FIELD ; FIELD ..          a whole run (see tests/stored_runs.py)

The worked rows come first, then such that look random and are the same at each run. Besides the
definition there are others next to it, each with a mistake (NEIGHBOURS). Each has to change the
answer of at least one case; where one changes none that is said, and the status is 1.

With --kinds the number of cases that each of them changes is printed. --check says whether these
cases stand in crates/sgm_cases/stdin, and no other ones of the kind `point`, and --write puts them
there, in front of all others.
"""

import argparse
import functools
import itertools
import json
import sys
from unittest import mock

import calibration_cases
import random_inputs
import reference
import reference_inputs as inputs
import reference_matching as matching
import regions_cases
import stored_runs
from calibration_cases import MISSING, changed
from random_inputs import Draw
from regions_cases import calibration_answer, compact, of_64_bits
from test_reference_pose import (
    FILES, IDENTITY, MATCH, ONE, TRACE, WHOLE, pose_of, worked_matrices, worked_points,
)  # fmt: skip

SEED, RANDOM_POINTS = 54, 120
HIGHEST, FARTHEST, SHIFT_MOST = inputs.HIGHEST, 35651072000000000, 2000000000
ALONG = ("east", "north", "up")


# Definitions next to the right ones


def no_less(_, made):
    return abs(made[2]) <= HIGHEST


def same(it):
    return it


def shift_of(pose):
    return [pose[name] for name in ALONG]


def site_by(rounding=matching.rounded, of=same, exact=same, shift=shift_of, holds=no_less):
    """Where the site has a point, where something of the way there is done otherwise."""

    def in_site(pose, place):
        rows, given = matching.rows_of(pose["matrix"]), of(place)
        sums = [exact(sum(exact(one * other) for one, other in zip(row, given))) for row in rows]
        turned = [rounding(it, ONE) for it in sums]
        made = [by + it for by, it in zip(shift(pose), turned)]
        return tuple(made) if holds(turned, made) else None

    return in_site


def each_product_rounded(pose, place):
    rounded_row = lambda row: sum(matching.rounded(a * b, ONE) for a, b in zip(row, place))
    turned = map(rounded_row, matching.rows_of(pose["matrix"]))
    made = tuple(by + it for by, it in zip(shift_of(pose), turned))
    return made if no_less(None, made) else None


def shifted_first(pose, place):
    moved = [at + by for at, by in zip(place, shift_of(pose))]
    return SITE({**pose, "east": 0, "north": 0, "up": 0}, moved)


def at_the_end(pose, place):
    east, north, up = site_by(holds=lambda *_: True)(pose, place)
    return east, north, max(-HIGHEST, min(HIGHEST, up))


def of_32_bits(pose, place):
    found = SITE(pose, place)
    cut = lambda number: (number + 2**31) % 2**32 - 2**31
    return found and (cut(found[0]), cut(found[1]), found[2])


def without_mount(camera, x, y, sixteenths):
    return POINT({**camera, "mount": 0}, x, y, sixteenths)


def depth_upwards(camera, x, y, sixteenths):
    found = without_mount(camera, x, y, sixteenths)
    return found and (found[0], found[1], camera["mount"] - found[2])


def mount_in_the_site(calibration, x, y, sixteenths):
    """The mount as a height in the site, above which the camera's own points are turned."""
    place = without_mount(calibration.camera, x, y, sixteenths)
    if place is None or calibration.pose is None:
        return SURVEYED(calibration, x, y, sixteenths)
    pose = calibration.pose
    return SITE({**pose, "up": pose["up"] + calibration.camera["mount"]}, place)


def near_and_far_upright(calibration, x, y, sixteenths):
    """Near and far as depths below the mount in the site."""
    camera = {**calibration.camera, "near": 1, "far": HIGHEST}
    place = POINT(camera, x, y, sixteenths)
    found = place and (SITE(calibration.pose, place) if calibration.pose else place)
    depth = found and camera["mount"] - found[2]
    near, far = calibration.camera["near"], calibration.camera["far"]
    return found if found and near <= depth <= far else None


def camera_alone(calibration, x, y, sixteenths):
    return POINT(calibration.camera, x, y, sixteenths)


def columns_of(matrix):
    return matrix[0::3], matrix[1::3], matrix[2::3]


SITE, POINT, SURVEYED = matching.in_site, matching.point, matching.surveyed
HALVES_DOWN = lambda a, b: -((b - 2 * a) // (2 * b))
AWAY = lambda a, b: matching.rounded(a, b) if a > 0 else -matching.rounded(-a, b)
TOWARDS_0 = lambda a, b: a // b if a > 0 else -(-a // b)
NEAREST_FLOAT = lambda a, b: round(a / b)
LIMITS = {
    "the top open": lambda _, made: -HIGHEST <= made[2] < HIGHEST,
    "the bottom open": lambda _, made: -HIGHEST < made[2] <= HIGHEST,
    "the top higher by one": lambda _, made: -HIGHEST <= made[2] <= HIGHEST + 1,
    "the bottom lower by one": lambda _, made: -HIGHEST - 1 <= made[2] <= HIGHEST,
    "heights judged without up": lambda turned, _: abs(turned[2]) <= HIGHEST,
    "heights judged before and behind up": lambda *both: all(abs(it[2]) <= HIGHEST for it in both),
    "a point kept where its height is out of range": lambda *_: True,
    "east and north judged too": lambda _, made: max(map(abs, made)) <= HIGHEST,
}
SHIFTS = {
    "east and north of the shift exchanged": lambda pose: (pose["north"], pose["east"], pose["up"]),
    "up added twice": lambda pose: (pose["east"], pose["north"], 2 * pose["up"]),
    "up left out": lambda pose: (pose["east"], pose["north"], 0),
    "the shift taken away": lambda pose: [-pose[name] for name in ALONG],
}
TURNS = {
    "X and Y exchanged": lambda it: (it[1], it[0], it[2]),
    "Y downwards": lambda it: (it[0], -it[1], it[2]),
    "X to the left": lambda it: (-it[0], it[1], it[2]),
    "h downwards": lambda it: (it[0], it[1], -it[2]),
    "the height left out": lambda it: (it[0], it[1], 0),
}
# A part's name in reference_matching, and another one in its place.
PLACES = {
    "columns for rows": ("rows_of", columns_of),
    "halves down": ("in_site", site_by(HALVES_DOWN)),
    "halves away from 0": ("in_site", site_by(AWAY)),
    "rounded down": ("in_site", site_by(lambda a, b: a // b)),
    "rounded towards 0": ("in_site", site_by(TOWARDS_0)),
    "each product rounded": ("in_site", each_product_rounded),
    "sums of 64 bits": ("in_site", site_by(exact=of_64_bits)),
    "sums of floats": ("in_site", site_by(NEAREST_FLOAT, exact=float)),
    "east and north of 32 bits": ("in_site", of_32_bits),
    "the shift before the turn": ("in_site", shifted_first),
    "a height out of range as the last one": ("in_site", at_the_end),
    "the mount left out": ("point", without_mount),
    "the depth upwards": ("point", depth_upwards),
    "the mount in the site": ("surveyed", mount_in_the_site),
    "near and far upright": ("surveyed", near_and_far_upright),
    "the pose left out": ("surveyed", camera_alone),
}
PLACES |= {name: ("in_site", site_by(holds=holds)) for name, holds in LIMITS.items()}
PLACES |= {name: ("in_site", site_by(shift=shift)) for name, shift in SHIFTS.items()}
PLACES |= {name: ("in_site", site_by(of=of)) for name, of in TURNS.items()}

# What a matrix misses a rotation by, in the order of from_rotation.
MISSED = ["a.a", "b.b", "c.c", "a.b", "a.c", "b.c"]


def one_sided(at, bound):
    """One of the numbers is judged on one side of 0 alone."""

    def from_rotation(matrix):
        made = MISSING_BY(matrix)
        return [*made[:at], bound(made[at], 0), *made[at + 1 :]]

    return from_rotation


def no_mirrors(matrix):
    (a, b, c), (d, e, f), (g, h, i) = matching.rows_of(matrix)
    is_mirrored = a * (e * i - f * h) - b * (d * i - f * g) + c * (d * h - e * g) < 0
    return [*MISSING_BY(matrix), 2**60 * is_mirrored]


def lengths_by_columns(matrix):
    columns = columns_of(matrix)
    return [*(matching.times(it, it) - ONE**2 for it in columns), *MISSING_BY(matrix)[3:]]


MISSING_BY = inputs.from_rotation
# A part of reference_inputs, and another one in its place.
KEYS = {
    "columns judged": ("rows_of", columns_of),
    "lengths of columns judged": ("from_rotation", lengths_by_columns),
    "a rotation that mirrors refused": ("from_rotation", no_mirrors),
    "less leeway by one": ("MATRIX_LEEWAY", 2**45 - 1),
    "a little more leeway": ("MATRIX_LEEWAY", 2**45 + 2**23 + 1),
    "twice the leeway": ("MATRIX_LEEWAY", 2**46),
    "numbers of the matrix up to one more": ("MATRIX_MOST", ONE + 1),
    "numbers of the matrix up to one less": ("MATRIX_MOST", ONE - 1),
    "any matrix accepted": ("from_rotation", lambda matrix: [0]),
    "a pose in version 2": ("LATER_SECTIONS", {"pose": (2, 3)}),
    "a pose in version 1": ("LATER_SECTIONS", {"pose": (1, 3)}),
    "no pose in version 3": ("LATER_SECTIONS", {}),
}
for number, told in enumerate(MISSED):
    KEYS[f"{told} never too small"] = ("from_rotation", one_sided(number, max))
    KEYS[f"{told} never too great"] = ("from_rotation", one_sided(number, min))
for key, off in itertools.product(ALONG, (-1, 1)):
    for low, high in ((-SHIFT_MOST + off, SHIFT_MOST), (-SHIFT_MOST, SHIFT_MOST + off)):
        ranges = {**inputs.RANGES, f"pose.{key}": (low, high)}
        KEYS[f"{key} from {low} to {high}"] = ("RANGES", ranges)


# Points


def random_point(number):
    """A pose that is nearly a rotation, and a point, that its number alone makes."""
    draw = Draw(SEED, number)
    matrix = random_inputs.matrix_of(draw)
    most = draw.of([3, 10, 1000, 10**7, SHIFT_MOST, FARTHEST])
    between = lambda most: draw.between(-most, most)
    along = lambda most: draw.of([0, most, -most, between(most), between(most)])
    x, y, h = along(most), along(most), along(min(most, HIGHEST))
    shift = draw.of([0, 9, 10**7, SHIFT_MOST])
    pose = pose_of(matrix, *(along(shift) for _ in range(3)))
    up = matching.rounded(matching.times(matrix[6:9], (x, y, h)), ONE)
    if number % 3 == 0 and abs(up) <= SHIFT_MOST:
        # The height comes to an end of its range, or to a place next to it.
        pose["up"] = (HIGHEST - up if up > 0 else -HIGHEST - up) + draw.of([-1, 0, 0, 1])
        pose["up"] = max(-SHIFT_MOST, min(SHIFT_MOST, pose["up"]))
    return pose, (x, y, h)


def halves():
    """A sixth of a turn, by which places come to lie between two micrometres, and one downwards."""
    turn = [2**29, -929887697, 0, 929887697, 2**29, 0, 0, 0, ONE]
    lean = [ONE, 0, 0, 0, 2**29, -929887697, 0, 929887697, 2**29]
    for matrix in (turn, lean):
        for at in (1, -1, 3, -3):
            yield pose_of(matrix), (at, 0, 0)
            yield pose_of(matrix), (0, at, 0)
            yield pose_of(matrix, 1, -1, 2), (0, 0, at)


def far_points():
    """The farthest points of a camera, in all corners, an eighth of a turn round and upwards."""
    half = 759250125
    around = [half, half, 0, -half, half, 0, 0, 0, ONE]
    upwards = [-half, half, 0, 0, 0, ONE, half, half, 0]
    for matrix in (around, upwards, IDENTITY):
        for x in (FARTHEST, -FARTHEST):
            for y in (FARTHEST, -FARTHEST):
                for h in (0, HIGHEST, -HIGHEST):
                    yield pose_of(matrix, SHIFT_MOST, SHIFT_MOST), (x, y, h)
    # The greatest sums that there are, whatever the matrix.
    for ways in ((ONE, ONE), (ONE, -ONE), (-ONE, ONE), (-ONE, -ONE)):
        matrix = [*ways, ONE, *ways[::-1], -ONE, 0, 0, ONE]
        yield pose_of(matrix, SHIFT_MOST, -SHIFT_MOST), (FARTHEST, FARTHEST, HIGHEST)
        yield pose_of(matrix, -SHIFT_MOST, SHIFT_MOST), (-FARTHEST, FARTHEST, -HIGHEST)
        yield pose_of([*matrix[:6], *ways, 0]), (FARTHEST, FARTHEST, 0)
    # On the slant they keep a height, which so great sums give.
    for shift in (SHIFT_MOST, -SHIFT_MOST, 7):
        yield pose_of(upwards, -shift, shift, shift), (FARTHEST, -FARTHEST, 12345)
        yield pose_of(upwards, -shift, shift, shift), (FARTHEST - 1, 3 - FARTHEST, 12345)


@functools.cache
def points():
    """Pairs of a pose and a point of the camera's. Few of the matrices are no rotations."""
    made = [(pose, place) for pose, place, _ in worked_points()]
    return [*made, *halves(), *far_points(), *map(random_point, range(1, RANDOM_POINTS + 1))]


def numbers_of(pose):
    return [*pose["matrix"], *(pose[name] for name in ALONG)]


def point_told(place):
    return "none" if place is None else " ".join(map(str, place))


# Calibrations


@functools.cache
def calibrations():
    """The texts of calibrations with a pose."""
    made = [calibration_cases.posed(("pose.matrix", matrix)) for matrix, *_ in worked_matrices()]
    for part in ("pose_faults", "shift_faults", "matrix_faults", "missing_cameras"):
        made += [whole for _, whole, _ in getattr(calibration_cases, part)()]
    made += [whole for _, whole in calibration_cases.pose_bounds()]
    return list(dict.fromkeys(map(compact, made)))


# Runs


def shapes(seed, first, count, width=14, height=9):
    """The texts of two pictures of shapes at several disparities."""
    draw = Draw(SEED, 1000 + seed)
    both = random_inputs.layered(draw, width, height, 255, first, count)
    texts = [random_inputs.pgm(draw, width, height, 255, samples) for samples in both]
    return dict(zip(("l.pgm", "r.pgm"), texts))


SHAPES, SPAN = shapes(1, 2, 5), {"first": 2, "count": 5, "fine": True}
CAMERA = {"focal": 7680, "baseline": 1000003, "cx": 1700, "cy": 1100, "doffs": 9}
CAMERA |= {"mount": 15000000, "near": 1, "far": 40000000}
# An eighth of a turn round, a fifth of a turn over, and others like them.
TURNED = [759250125, -759250125, 0, 759250125, 759250125, 0, 0, 0, ONE]
ASLANT = [759250125, -607400100, 455550075, 759250125, 607400100, -455550075]
ASLANT += [0, 644245094, 858993459]
OVERHEAD = [0, 0, -ONE, 0, ONE, 0, ONE, 0, 0]


def shaped(pose, cells=6, files=SHAPES, **more):
    """The calibration of a survey of shapes, with a grid of so many cells about its points."""
    whole = {**WHOLE, "disparities": SPAN, "camera": CAMERA, "pose": pose}
    whole = {name: it for name, it in whole.items() if name not in ("warp", "grid", "regions")}
    for name, it in more.items():
        whole[name] = {**whole[name], **it}
    places = [it for it in places_of(files, whole) if it is not None]
    sides = [[place[axis] for place in places] for axis in (0, 1)]
    cell = max(max(side) - min(side) for side in sides) // cells + 1
    begins = [min(side) for side in sides]
    cols, rows = (1 + (max(side) - begin) // cell for side, begin in zip(sides, begins))
    grid = {"west": begins[0], "south": begins[1], "cell": cell, "cols": cols, "rows": rows}
    return {**whole, "grid": {**grid, "keep": "mean", "bridge": 0}}


@functools.cache
def disparities_of(left, right, text):
    """What the reference finds in two pictures; pose, grid and regions have no part in it."""
    made = reference.judged(left, right, text.encode())
    warps = made[2].left, made[2].right
    planes = [matching.rectify(image, warp) for image, warp in zip(made, warps)]
    return matching.match_planes(*planes, None, made[2])


def found_in(files, whole):
    ground = ("camera", "pose", "grid", "regions")
    bare = {name: it for name, it in whole.items() if name not in ground}
    return disparities_of(files["l.pgm"], files["r.pgm"], json.dumps(bare))


def places_of(files, whole):
    """Where the points of a survey are in the site, and those that are too high or too low too."""
    made, places = inputs.read_calibration(json.dumps(whole).encode()), []
    with mock.patch.object(matching, "in_site", site_by(holds=lambda *_: True)):
        for y, row in enumerate(found_in(files, whole)[0]):
            here = [(x, 16 * made.first + it) for x, it in enumerate(row) if it is not None]
            places += [matching.surveyed(made, x, y, sixteenths) for x, sixteenths in here]
    return places


def heights_to(end, pose, part, **more):
    """The pose shifted upwards or downwards, so that some of the points leave the range there: the
    height that so many of ten are below comes to be the last one."""
    whole = {**WHOLE, "disparities": SPAN, "camera": {**CAMERA, **more}, "pose": {**pose, "up": 0}}
    whole = {name: it for name, it in whole.items() if name not in ("warp", "grid", "regions")}
    heights = sorted({place[2] for place in places_of(SHAPES, whole) if place})
    up = end - heights[part * len(heights) // 10]
    assert abs(up) <= SHIFT_MOST
    return {**pose, "up": up}


def with_regions(whole):
    """Regions whose bases rise and that have an outline, in the frame of the site."""
    grid = whole["grid"]
    places = [place for place in places_of(SHAPES, whole) if place is not None]
    middle = sorted(place[2] for place in places)[len(places) // 2]
    all_of_it = (0, 0, grid["cols"], grid["rows"])
    east = grid["west"] + grid["cell"] * grid["cols"]
    north = grid["south"] + grid["cell"] * grid["rows"]
    corners = [(grid["west"], grid["south"]), (east, grid["south"]), (east, north)]
    triangle, backwards = ([part for it in way for part in it] for way in (corners, corners[::-1]))
    slope = regions_cases.region_of("slope", all_of_it, middle, (30001, -250000))
    half = regions_cases.region_of("half", all_of_it, middle, (0, 0), triangle)
    inner = (1, 1, grid["cols"] - 1, grid["rows"] - 1)
    part = regions_cases.region_of("part", inner, middle, (-1000, 7), backwards)
    return {**whole, "regions": [slope, half, part]}


def faulty_calibrations():
    """The words of a run, and a calibration with a fault that has to do with the pose."""
    yield MATCH, changed(WHOLE, ("version", 2), ("disparities.fine", MISSING))
    yield MATCH, changed(WHOLE, ("camera", MISSING), ("grid", MISSING), ("regions", MISSING))
    yield MATCH, changed(WHOLE, ("pose.matrix.0", 0), ("grid", 0))
    yield MATCH, changed(WHOLE, ("pose.up", MISSING), ("grid", 0))
    yield TRACE, changed(WHOLE, ("pose.north", 2000000001))


def surveys():
    """The words of a match of shapes, and a calibration."""
    upright = shaped(pose_of(IDENTITY))
    yield MATCH, upright
    yield MATCH, changed(upright, ("pose", MISSING))
    quarter = shaped(pose_of(calibration_cases.QUARTER_TURN, -5, 100001, 7))
    highest = changed(quarter, ("grid.keep", "highest"), ("grid.bridge", 2))
    yield MATCH, with_regions(highest)
    tilted = shaped(pose_of(calibration_cases.TILT, 12345678, -87654321, -9000001), 9)
    yield MATCH, with_regions(changed(tilted, ("grid.bridge", 2)))
    yield MATCH + " peak=3 fill=1", with_regions(changed(tilted, ("grid.keep", "highest")))
    yield MATCH, with_regions(shaped(pose_of(calibration_cases.MIRRORED, 3, 4, 5)))
    yield MATCH, with_regions(shaped(pose_of(TURNED, 1980000000, -1970000000, 0), 8))
    aslant = shaped(pose_of(ASLANT, 1, 2, 3), 8)
    yield MATCH, with_regions(changed(aslant, ("grid.bridge", 8)))
    # What lies to the right in the picture is up. Near and far are along the camera's axis.
    some = {"near": 3000000, "far": 9000000}
    yield MATCH, shaped(pose_of(OVERHEAD, 15000000, 0, -77), 7, camera=some)
    some = {"near": 5500000, "far": 12000000}
    yield MATCH, shaped(pose_of(ASLANT, 0, 0, 100), camera=some)
    # Places so far to the east that the sums take more than 64 bits.
    far = shaped(pose_of(calibration_cases.TILT), camera={"cx": -16777216})
    wide = {"west": 2000000000, "south": -2000000000, "cell": 1000000000, "cols": 36, "rows": 4}
    yield MATCH, {**far, "grid": {**far["grid"], **wide}}


def surveys_at_the_ends():
    """The same with heights that leave the range at the top and at the bottom, some or all."""
    for pose in (pose_of(IDENTITY), pose_of(ASLANT, -3, 3)):
        yield MATCH, shaped(heights_to(HIGHEST, pose, 5))
        deep = shaped(heights_to(-HIGHEST, pose, 5, mount=0), camera={"mount": 0})
        yield MATCH, changed(deep, ("grid.keep", "highest"))
    for up in (2000000000, -2000000000):
        # The camera's mount and the pose add up, or make up for one another.
        yield MATCH, shaped(pose_of(IDENTITY, up=up), camera={"mount": 2000000000})


@functools.cache
def runs():
    """Triples of words, the pictures' texts and a calibration."""
    made = [(words, FILES, WHOLE) for words in (MATCH, MATCH + " strips=3 workers=2", TRACE)]
    made.append((MATCH, FILES, changed(WHOLE, ("grid", MISSING), ("regions", MISSING))))
    made += [(words, FILES, whole) for words, whole in faulty_calibrations()]
    both = itertools.chain(surveys(), surveys_at_the_ends())
    return made + [(words, SHAPES, whole) for words, whole in both]


def field_of(name, data):
    text = stored_runs.quoted(data)[1:-1]
    assert " ; " not in text
    return f"file {name} {text}"


def run_told(words, files, whole):
    fields = [field_of(name, data) for name, data in files.items()]
    return " ; ".join(["run " + words, *fields, "file c.json " + compact(whole)])


def run_answer(case):
    words, files, absent = stored_runs.given(case)
    words = tuple(stored_runs.without_splits(words))
    return stored_runs.answer(words, tuple(files.items()), absent)


def texts_of(words, files, whole):
    """The texts of a match's grid and regions, or the line of its fault."""
    found = found_in(files, whole) if "camera" in whole else None
    try:
        made = reference.judged(files["l.pgm"], files["r.pgm"], json.dumps(whole).encode())
        return reference.match_texts(*made, match=lambda *_: found)
    except inputs.Ended as end:
        return end.line


# What the neighbours change


def changed_by(module, part, other):
    """How many cases have another answer where that stands in the place of a module's part."""
    with mock.patch.object(module, part, other):
        if module is inputs:
            return sum(calibration_answer(text) != owed for text, owed in owed_calibrations())
        number = sum(matching.in_site(*it) != owed for it, owed in owed_points())
        return number + sum(texts_of(*it) != owed for it, owed in owed_runs())


@functools.cache
def owed_calibrations():
    return [(text, calibration_answer(text)) for text in calibrations()]


@functools.cache
def owed_points():
    return [(it, matching.in_site(*it)) for it in points()]


@functools.cache
def owed_runs():
    """Those of matches that neither fill nor strike peaks."""
    return [(it, texts_of(*it)) for it in runs() if it[0] == MATCH]


@functools.cache
def counted():
    """How many cases each of the neighbours changes."""
    # The right answers first, as they are kept.
    assert all([owed_calibrations(), owed_points(), owed_runs()])
    made = {name: changed_by(matching, *it) for name, it in PLACES.items()}
    return made | {name: changed_by(inputs, *it) for name, it in KEYS.items()}


# Lines


def pairs():
    """All cases, each with its answer; no case comes twice."""
    made = {}
    for pose, place in points():
        numbers = " ".join(map(str, [*numbers_of(pose), *place]))
        made[f"point {numbers}"] = point_told(matching.in_site(pose, place))
    for text in calibrations():
        made[f"calib {text}"] = calibration_answer(text)
    for run in runs():
        case = run_told(*run)
        made[case] = run_answer(case)
    return [list(pair) for pair in made.items()]


def is_possible(pose, place):
    """Whether the numbers of a pose and of a camera's point are in their ranges."""
    shift = max(map(abs, shift_of(pose)))
    return (
        max(map(abs, pose["matrix"])) <= ONE
        and shift <= SHIFT_MOST
        and max(map(abs, place)) <= FARTHEST
        and abs(place[2]) <= HIGHEST
    )


def main():
    epilog = "Example: tests/pose_cases.py > /tmp/poses"
    parser = argparse.ArgumentParser(description=__doc__.split("\n\n")[0], epilog=epilog)
    way = parser.add_mutually_exclusive_group()
    tells = "print how many cases each neighbour of the definition changes"
    way.add_argument("--kinds", action="store_true", help=tells)
    way.add_argument("--check", action="store_true", help="compare with the stored cases")
    way.add_argument("--write", action="store_true", help="write the stored cases anew")
    words = parser.parse_args()
    assert all(is_possible(*it) for it in points())
    missing = [name for name, number in counted().items() if not number]
    if missing:
        print(f"pose_cases: no case tells: {', '.join(missing)}", file=sys.stderr)
    if words.kinds:
        print("\n".join(f"{number} {name}" for name, number in counted().items()))
    elif words.check or words.write:
        return stored_runs.hold_cases("pose_cases", pairs(), "point ", words.write) or bool(missing)
    else:
        print("\n".join(line for pair in pairs() for line in pair))
    return 1 if missing else 0


if __name__ == "__main__":
    try:
        sys.exit(main())
    except OSError as error:
        sys.exit(f"pose_cases: {error}")
