"""A distance in the scene that is known, as of a staff, held against what a calibrated pair makes of it. Needs OpenCV."""

from __future__ import annotations

import argparse
import math
import re
from dataclasses import dataclass

from sgm_tools.kinds import Floats, Place
from sgm_tools.pairs import Cameras
from sgm_tools.running import Wrong, numpy
from sgm_tools.words import positive_word

# How far the rows of one point may be apart in the rectified pictures, and how far off a place is that was read, in
# pixels.
MOST_ROWS = 2.0
READ = 0.25
# Within so many degrees of the sight, a length is mostly one along the axis.
ALONG = 45


@dataclass(frozen=True)
class Known:
    """The places of both ends in the left photograph and in the right one, the true distance and by how much that may
    be off."""

    left: tuple[Place, Place]
    right: tuple[Place, Place]
    true: float
    tolerance: float


@dataclass(frozen=True)
class Measured:
    """The distance as it is measured, what places that are read so exactly leave it uncertain by, and the angle between
    it and the sight in degrees."""

    length: float
    uncertain: float
    angle: float


# Words


def place_word(word: str) -> Place:
    """COLUMN,ROW in pixels."""
    number = r"([0-9]{1,5}(?:\.[0-9]{1,6})?)"
    found = re.fullmatch(f"{number},{number}", word)
    if not found:
        raise argparse.ArgumentTypeError(f"{word} isn't COLUMN,ROW in pixels")
    return float(found[1]), float(found[2])


def known_of(words: list[str]) -> Known:
    """The six words of --check-distance."""
    first, second, third, fourth = (place_word(word) for word in words[:4])
    return Known((first, third), (second, fourth), positive_word(words[4]), positive_word(words[5]))


# Measuring


def length_of(cameras: Cameras, places: Floats) -> float:
    """The distance between two points, whose places are those in the left picture and then those in the right one."""
    ends = cameras.points(places[:2], places[2:])
    return math.dist(*ends.tolist())


def measured(cameras: Cameras, known: Known) -> Measured:
    places = numpy.array([*known.left, *known.right])
    if (places > numpy.array(cameras.size) - 1).any():
        width, height = cameras.size
        raise Wrong(f"a place of --check-distance isn't in the pictures, which are {width} x {height}")
    first, second, _ = cameras.rectified(places[:2], places[2:])
    for number, (left, right) in enumerate(zip(first, second), 1):
        refuse_apart(number, left, right)
    ends = cameras.points(places[:2], places[2:])
    length = math.dist(*ends.tolist())
    if length == 0:
        raise Wrong("both ends of --check-distance are one point")
    sight, staff = ends.mean(axis=0), ends[1] - ends[0]
    angle = math.degrees(math.acos(min(1, abs(float(sight @ staff)) / (math.hypot(*sight) * length))))
    return Measured(length, READ * sensitivity(cameras, places), angle)


def refuse_apart(number: int, left: Floats, right: Floats) -> None:
    """Stops where two places can't be those of one point."""
    if not left[0] > right[0]:
        raise Wrong(f"end {number} of --check-distance: its places lie as no point does: are left and right exchanged?")
    apart = abs(float(left[1] - right[1]))
    if not apart <= MOST_ROWS:
        raise Wrong(
            f"end {number} of --check-distance: its rows in the rectified pair are {apart:.1f} pixels apart, "
            f"{MOST_ROWS:g} at most: are both places of one point, the left photograph's first?"
        )


def sensitivity(cameras: Cameras, places: Floats) -> float:
    """By how much the length changes where each number of the places is a pixel off by chance."""
    step, squares = 1e-3, 0.0
    for index in range(places.size):
        moved = [places.ravel().copy(), places.ravel().copy()]
        moved[0][index] += step
        moved[1][index] -= step
        more, less = (length_of(cameras, it.reshape(-1, 2)) for it in moved)
        squares += ((more - less) / (2 * step)) ** 2
    return math.sqrt(squares)


# Saying it


def lines_of(number: int, known: Known, found: Measured) -> list[str]:
    """What is printed of a check."""
    off = found.length - known.true
    part = off / known.true
    said = f"distance {number}: measured {found.length:.6g}, true {known.true:.6g} plus or minus {known.tolerance:.6g}"
    lines = [f"{said}: {off:+.4g}, {100 * part:+.2f} %"]
    may_be = (known.tolerance + found.uncertain) / known.true
    read = f"with places read to {READ:g} pixels"
    if abs(part) <= may_be:
        lines.append(f"    {read} the baseline is right to {100 * may_be:.2f} % by it, volumes to {300 * may_be:.2f} %")
        return lines
    what = "baseline times focal length is" if found.angle < ALONG else "the baseline is"
    how, size = ("long", "large") if off > 0 else ("short", "small")
    volumes = f"{'' if found.angle < ALONG else f', and volumes {300 * abs(part):.2f} % too {size}'}"
    lines.append(f"    WARNING: {what} {100 * abs(part):.2f} % too {how} by it{volumes}; {read} it is known to {100 * may_be:.2f} %")
    return lines
