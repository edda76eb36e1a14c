"""The points of a calibration: where a pixel with a disparity lies, in the camera's frame and, with a
`pose` of version 3, in the site's.

Lengths are whole micrometres. All is exact, by the definitions of docs/FORMATS.md: with Python's own
numbers of any size, and with arrays of int64, where a sum of a pose is parted so that it stays below 2^63.
"""

from __future__ import annotations

from collections.abc import Sequence
from typing import TypeVar

from sgm_tools.calibrations import whole
from sgm_tools.exact import rounded
from sgm_tools.kinds import Flags, Ints, Json, Point
from sgm_tools.running import Wrong, numpy

# Whole numbers one by one or in arrays, and what a disparity may be.
Whole = TypeVar("Whole", int, Ints)
Value = TypeVar("Value", int, float, Ints)

# What says where the camera's frame lies, and what is measured in it.
CAMERA_FRAME = ("focal", "baseline", "cx", "cy", "doffs", "mount")
CAMERA = (*CAMERA_FRAME, "near", "far")
# A matrix has 2^30 for 1, and no number of a pose's matrix, shift or height goes beyond these.
ONE_BITS = 30
ONE = 1 << ONE_BITS
MOST_LENGTH = 2_000_000_000
# By how much a product of two rows may be off that of a rotation's.
NEARLY = 1 << 45
SHIFTS = ("east", "north", "up")


# Poses


def products(matrix: Sequence[int]) -> list[int]:
    """What the rows' products are off a rotation's: a.a, b.b, c.c less one, and a.b, a.c, b.c."""
    a, b, c = matrix[:3], matrix[3:6], matrix[6:]
    pairs = ((a, a, ONE * ONE), (b, b, ONE * ONE), (c, c, ONE * ONE), (a, b, 0), (a, c, 0), (b, c, 0))
    return [sum(x * y for x, y in zip(left, right)) - one for left, right, one in pairs]


def is_nearly_rotation(matrix: Sequence[int]) -> bool:
    """The program's rule for `pose.matrix`; whether it mirrors is no part of it."""
    return all(abs(it) <= ONE for it in matrix) and all(abs(it) <= NEARLY for it in products(matrix))


def is_mirror(matrix: Sequence[int]) -> bool:
    """Whether the matrix turns a right hand into a left one."""
    a, b, c, d, e, f, g, h, i = matrix
    return a * (e * i - f * h) - b * (d * i - f * g) + c * (d * h - e * g) <= 0


def turned(row: Sequence[int], x: Whole, y: Whole, h: Whole) -> Whole:
    """round((m0 x + m1 y + m2 h) / 2^30), the row's numbers being at most 2^30 and the others 2^55."""
    low = ONE - 1
    a, b, c = row
    high = a * (x >> ONE_BITS) + b * (y >> ONE_BITS) + c * (h >> ONE_BITS)
    rest = a * (x & low) + b * (y & low) + c * (h & low)
    made: Whole = high + ((rest + ONE // 2) >> ONE_BITS)
    return made


class Pose:
    """How the camera's frame lies in the site's."""

    def __init__(self, matrix: Sequence[int], east: int, north: int, up: int) -> None:
        self.matrix, self.east, self.north, self.up = list(matrix), east, north, up

    def of(self, x: Whole, y: Whole, h: Whole) -> tuple[Whole, Whole, Whole]:
        """East, north and up of a point of the camera's frame, in whole numbers or arrays."""
        m = self.matrix
        east, north, up = (turned(row, x, y, h) for row in (m[:3], m[3:6], m[6:]))
        return self.east + east, self.north + north, self.up + up

    def back(self, east: int, north: int, up: int) -> Point:
        """The point of the camera's frame, to some micrometres: a rotation's rows are the columns of the
        one that undoes it."""
        m, away = self.matrix, (east - self.east, north - self.north, up - self.up)
        return turned(m[0::3], *away), turned(m[1::3], *away), turned(m[2::3], *away)

    def section(self) -> Json:
        """The `pose` of a calibration."""
        return {"matrix": self.matrix, "east": self.east, "north": self.north, "up": self.up}


def pose_of(calibration: Json) -> Pose | None:
    """The calibration's pose, or None; what the program would refuse is refused."""
    if calibration.get("version") != 3 or "pose" not in calibration:
        return None
    listed = calibration["pose"].get("matrix") if isinstance(calibration["pose"], dict) else None
    matrix = listed if isinstance(listed, list) and len(listed) == 9 else []
    if not matrix or not all(type(it) is int for it in matrix) or not is_nearly_rotation(matrix):
        raise Wrong("the calibration's pose.matrix isn't nearly a rotation")
    shifts = [whole(calibration, "pose", key) for key in SHIFTS]
    if any(abs(shift) > MOST_LENGTH for shift in shifts):
        raise Wrong("the calibration's pose is farther than 2 km from the site's origin")
    return Pose(matrix, *shifts)


# Points


class Points:
    """The points of a calibration's camera, in the site's frame where it has a pose. Numbers may be
    whole ones or arrays of int64."""

    def __init__(self, calibration: Json) -> None:
        numbers = [whole(calibration, "camera", key) for key in CAMERA]
        self.focal, self.baseline, self.cx, self.cy, self.doffs, self.mount = numbers[:6]
        self.near, self.far = numbers[6:]
        self.first = whole(calibration, "disparities", "first")
        self.pose = pose_of(calibration)

    def k_of(self, value: Value) -> Value:
        """256 times the disparity, with doffs, from a value in sixteenths of a pixel above the first."""
        # An array's sum is one of whole numbers again, which its types don't say.
        k: Value = 16 * (16 * self.first + value) + self.doffs
        return k

    def in_camera(self, x: Whole, y: Whole, k: Whole) -> tuple[Whole, Whole, Whole]:
        """X, Y and h of the camera's frame, for k above 0."""
        east = rounded((256 * x - self.cx) * self.baseline, k)
        north = rounded((self.cy - 256 * y) * self.baseline, k)
        return east, north, self.mount - rounded(self.focal * self.baseline, k)

    def of(self, x: int, y: int, value: int) -> Point | None:
        """East, north and height, or None."""
        k = self.k_of(value)
        if k <= 0:
            return None
        point = self.in_camera(x, y, k)
        if not self.near <= self.mount - point[2] <= self.far:
            return None
        if self.pose is None:
            return point
        point = self.pose.of(*point)
        return point if abs(point[2]) <= MOST_LENGTH else None

    def of_all(self, xs: Ints, ys: Ints, values: Ints) -> tuple[Ints, Ints, Ints, Flags]:
        """East, north and height of many pixels as arrays, and which of these are points."""
        k = self.k_of(values)
        there = k > 0
        x, y, h = self.in_camera(xs, ys, numpy.where(there, k, 1))
        there &= (self.near <= self.mount - h) & (self.mount - h <= self.far)
        if self.pose is None:
            return x, y, h, there
        # What is no point may be anything, and stays within what can be turned.
        east, north, up = self.pose.of(*(numpy.where(there, it, 0) for it in (x, y, h)))
        return east, north, up, there & (abs(up) <= MOST_LENGTH)

    def in_picture(self, values: Ints, filled: Flags) -> tuple[Ints, ...]:
        """Columns, rows, values, east, north and height of all pixels that have a point, row by row."""
        ys, xs = numpy.nonzero(filled)
        found = values[ys, xs]
        east, north, up, there = self.of_all(xs, ys, found)
        return tuple(it[there] for it in (xs, ys, found, east, north, up))

    def centre(self) -> Point:
        """Where the left camera is."""
        centre = (0, 0, self.mount)
        return centre if self.pose is None else self.pose.of(*centre)
