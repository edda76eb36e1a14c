"""Poses of a camera: from control points, from level ground, and from a known place."""

from __future__ import annotations

import csv
import dataclasses
import decimal
import io
import math
import re
from collections.abc import Iterator, Mapping, Sequence
from typing import Any

from sgm_tools.calibrations import whole
from sgm_tools.files import read_bytes, read_json
from sgm_tools.kinds import Flags, Floats, Ints, Json, Metres, Place, Size
from sgm_tools.points import (
    CAMERA_FRAME,
    MOST_LENGTH,
    ONE,
    Points,
    Pose,
    is_mirror,
    is_nearly_rotation,
    pose_of,
)
from sgm_tools.running import Wrong, numpy
from sgm_tools.warps import Warp, warp_of

# A control point: its place in the picture, and that in the site in metres.
Control = tuple[Place, Metres]
# Three lengths in micrometres, not rounded.
Length = Sequence[float]

NO_PLACE, TOO_FEW, ON_A_LINE, MIRRORED, TOO_FAR, OLD_VERSION, OUT_OF_RANGE = range(3, 10)
COLUMNS = ("name", "x", "y", "east", "north", "up")
# Sixteenths of a pixel: within how many of the middle one disparities are of the place's surface, and within how many
# of the plane through these.
NEAR_MIDDLE, NEAR_PLANE = 48, 12
# The points lie on one line where the singular value across it is below this part of that along it.
LEAST_WIDTH = 1 / 50
# They are mirrored where the mirrored fit is so many times as good, and it isn't noise of so many micrometres.
BETTER, NOISE = 3, 1000


# Places in the camera's frame


class Plane:
    """A plane through disparities, in sixteenths of a pixel above the first: the value at (x, y) is
    a (x - x0) + b (y - y0) + c."""

    def __init__(self, xs: Ints, ys: Ints, values: Ints, x0: float, y0: float) -> None:
        self.x0, self.y0 = x0, y0
        design = numpy.stack([xs - x0, ys - y0, numpy.ones(len(xs))], axis=-1)
        (self.a, self.b, self.c), *_ = numpy.linalg.lstsq(design, values, rcond=None)

    def at(self, xs: Any, ys: Any) -> Any:
        return self.a * (xs - self.x0) + self.b * (ys - self.y0) + self.c


def plane_through(
    xs: Ints, ys: Ints, values: Ints, place: Place, needed: int
) -> tuple[Plane, Flags] | None:
    """The plane of most of the values, and which of them it is of; None where fewer than `needed`
    are of one."""
    if len(values) < needed:
        return None
    kept = abs(values - numpy.median(values)) <= NEAR_MIDDLE
    for _ in range(3):
        if kept.sum() < needed or min(numpy.ptp(xs[kept]), numpy.ptp(ys[kept])) < 1:
            return None
        plane = Plane(xs[kept], ys[kept], values[kept], *place)
        kept = abs(values - plane.at(xs, ys)) <= NEAR_PLANE
    return (plane, kept) if kept.sum() >= needed else None


def camera_point(
    points: Points, x: float, y: float, value: float
) -> tuple[float, float, float] | None:
    """X, Y and h in micrometres of a place with that disparity, not rounded; None where that is no point."""
    k = points.k_of(value)
    if k <= 0:
        return None
    away = points.focal * points.baseline / k
    if not points.near <= away <= points.far:
        return None
    east, north = 256 * x - points.cx, points.cy - 256 * y
    return east * points.baseline / k, north * points.baseline / k, points.mount - away


def place_in_camera(
    name: str, place: Place, points: Points, disparities: tuple[Ints, Flags], window: int
) -> tuple[float, float, float]:
    """The point of the camera's frame that a place of the rectified picture shows."""
    x, y = place
    values, filled = disparities
    height, width = values.shape
    if not (-0.5 <= x < width - 0.5 and -0.5 <= y < height - 0.5):
        raise Wrong(f"{name}: {x:g} {y:g} is outside the picture of {width} x {height}", NO_PLACE)
    col, row, reach = math.floor(x + 0.5), math.floor(y + 0.5), window // 2
    top, left = max(0, row - reach), max(0, col - reach)
    near = slice(top, row + reach + 1), slice(left, col + reach + 1)
    ys, xs = numpy.nonzero(filled[near])
    needed = (window * window + 1) // 2
    found = plane_through(xs + left, ys + top, values[near][ys, xs], place, needed)
    if found is None:
        raise Wrong(
            f"{name}: of the {window} x {window} pixels around it {len(xs)} have a disparity,"
            f" and no {needed} are of one surface",
            NO_PLACE,
        )
    point = camera_point(points, x, y, found[0].at(x, y))
    if point is None:
        raise Wrong(f"{name}: its distance is below near or above far", NO_PLACE)
    return point


# Control points


def read_points(name: str) -> dict[str, Control]:
    """For each line of the file the name, the place in the picture and the place in the site as decimals."""
    try:
        text = read_bytes(name).decode("utf-8-sig")
        rows = list(csv.reader(io.StringIO(text), strict=True))
    except (UnicodeDecodeError, csv.Error) as error:
        raise Wrong(f"{name}: not a table: {error}")
    head = [word.strip() for word in rows[0]] if rows else []
    if any(head.count(key) != 1 for key in COLUMNS):
        raise Wrong(f"{name}: its first line isn't a head with {','.join(COLUMNS)}")
    made = {}
    for number, row in enumerate(rows[1:], 2):
        if not any(word.strip() for word in row):
            continue
        if len(row) != len(head):
            raise Wrong(f"{name}: line {number} has {len(row)} words, {len(head)} needed")
        point, *words = (row[head.index(key)].strip() for key in COLUMNS)
        if not point or point in made:
            raise Wrong(f"{name}: line {number} has no name of its own")
        if not all(re.fullmatch(r"[+-]?[0-9]{1,9}(\.[0-9]{0,12})?", word) for word in words):
            raise Wrong(f"{name}: line {number} has a word that isn't a number")
        x, y, *place = map(decimal.Decimal, words)
        made[point] = (float(x), float(y)), place
    return made


def in_site(place: Sequence[decimal.Decimal], offset: tuple[int, int], what: str) -> list[float]:
    """Micrometres in the site's frame of a place in metres, from which an offset may have to go."""
    east, north, up = (it * 1000000 for it in place)
    found = [float(it) for it in (east - offset[0], north - offset[1], up)]
    if max(abs(it) for it in found) > MOST_LENGTH:
        raise Wrong(
            f"{what} is farther than 2 km from the site's origin:"
            " --offset with --map-coordinates takes an offset off",
            OUT_OF_RANGE,
        )
    return found


def is_on_a_line(places: Floats) -> bool:
    """Whether the points have next to no width."""
    values = numpy.linalg.svd(places - places.mean(axis=0), compute_uv=False)
    return bool(values[1] <= LEAST_WIDTH * values[0])


def fitted(cameras: Floats, sites: Floats, hand: int = 1) -> tuple[Floats, float]:
    """The rotation by least squares, or with a hand of -1 the rotation that mirrors, and how much longer the site's
    lengths are. """
    across, along = cameras - cameras.mean(axis=0), sites - sites.mean(axis=0)
    u, values, vt = numpy.linalg.svd(across.T @ along)
    turn = numpy.sign(numpy.linalg.det(vt.T @ u.T)) * hand
    signs = numpy.array([1, 1, turn])
    return vt.T @ numpy.diag(signs) @ u.T, (values * signs).sum() / (across**2).sum()


def spread(cameras: Floats, sites: Floats, rotation: Floats) -> float:
    """The root of the mean square of the residuals of a rotation and its best shift."""
    along = sites - sites.mean(axis=0) - (cameras - cameras.mean(axis=0)) @ rotation.T
    return math.sqrt((along**2).sum(axis=1).mean())


def is_mirrored(cameras: Floats, sites: Floats, rotation: Floats, is_upwards: bool) -> bool:
    """Whether the points fit far better as in a mirror. Nearly flat ones fit both ways: then it is the one
    in which the cameras look down on them."""
    mirrored, _ = fitted(cameras, sites, -1)
    own, other = (spread(cameras, sites, it) for it in (rotation, mirrored))
    if own > NOISE and BETTER * other < own:
        return True
    is_flat = other < BETTER * own + NOISE
    return is_flat and not is_upwards and rotation[2, 2] < 0 < mirrored[2, 2]


def rounded_pose(rotation: Floats, middle: Floats, aim: Floats) -> Pose:
    """The pose as a calibration has it, held against the program's rule: the rounded matrix takes the point
    `middle` to `aim`, both in micrometres."""
    matrix = [max(-ONE, min(ONE, round(it * ONE))) for it in rotation.ravel().tolist()]
    if not is_nearly_rotation(matrix) or is_mirror(matrix):
        raise Wrong("the matrix isn't a rotation", OUT_OF_RANGE)
    turned = (numpy.array(matrix).reshape(3, 3) / ONE) @ middle
    found = [round(it) for it in (aim - turned).tolist()]
    if max(abs(it) for it in found) > MOST_LENGTH:
        raise Wrong("the pose's shift is farther than 2 km from the site's origin", OUT_OF_RANGE)
    return Pose(matrix, *found)


def pose_of_points(cameras: Floats, sites: Floats, is_upwards: bool) -> tuple[Pose, float]:
    """The pose, and the scale that the points would want."""
    if len(cameras) < 3:
        raise Wrong(f"{len(cameras)} points, at least 3 are needed beside those of --check", TOO_FEW)
    if is_on_a_line(cameras) or is_on_a_line(sites):
        raise Wrong("the points lie on one line, and fix no rotation about it", ON_A_LINE)
    rotation, scale = fitted(cameras, sites)
    if is_mirrored(cameras, sites, rotation, is_upwards):
        raise Wrong(
            "the points are mirrored: are east and north, or x and y, exchanged, or a sign wrong?"
            " (--upwards, where the cameras look up at a flat scene)",
            MIRRORED,
        )
    middle, aim = cameras.mean(axis=0), sites.mean(axis=0)
    return rounded_pose(rotation, middle, aim), scale


def residuals(pose: Pose, cameras: Floats, sites: Floats) -> Floats:
    """Where the pose leads less where the points are, in millimetres."""
    matrix = numpy.array(pose.matrix).reshape(3, 3) / ONE
    shift = numpy.array([pose.east, pose.north, pose.up])
    away: Floats = (cameras @ matrix.T + shift - sites) / 1000
    return away


def table(names: list[str], checks: list[str], away: Floats) -> Iterator[str]:
    """The lines about the residuals."""
    lines = [["point", "east", "north", "up", "length, mm", ""]]
    for name, row in zip(names, away):
        numbers = [f"{it:.1f}" for it in (*row, math.hypot(*row))]
        lines.append([name, *numbers, "check" if name in checks else ""])
    for what, is_check in (("root mean square", False), ("of the check points", True)):
        found = away[[(name in checks) == is_check for name in names]]
        if len(found):
            means = numpy.sqrt((found**2).mean(axis=0))
            lines.append([what, *(f"{it:.1f}" for it in (*means, math.hypot(*means))), ""])
    widths = [max(len(line[at]) for line in lines) for at in range(5)]
    for line in lines:
        words = [line[0].ljust(widths[0]), *(it.rjust(n) for it, n in zip(line[1:5], widths[1:]))]
        yield "  ".join([*words, line[5]]).rstrip()


def scale_line(scale: float, bound: float) -> Iterator[str]:
    parts, volume = (scale - 1) * 1e6, (scale**3 - 1) * 100
    yield f"the points want lengths {parts:+.0f} in a million, volumes {volume:+.2f} %"
    if abs(scale - 1) > bound:
        yield f"WARNING: that is more than --scale {bound:g} allows: the baseline or the calibration is off"


def rectified_places(
    found: dict[str, Control], calibration: Json, size: Size
) -> dict[str, Control]:
    """The places of the photograph as those of the rectified picture."""
    warp = Warp(warp_of(calibration, "left"), *size)
    made = {}
    for name, (place, site) in found.items():
        back = warp.back(*place)
        if back is None:
            said = f"{place[0]:g} {place[1]:g} of the photograph"
            raise Wrong(f"{name}: {said} isn't in the rectified picture", NO_PLACE)
        made[name] = back, site
    return made


@dataclasses.dataclass(frozen=True)
class Fit:
    """The pose of control points, with the scale that they would want. `away` has for each name where the pose
    leads less where the point is: east, north and up in millimetres."""

    pose: Pose
    scale: float
    names: list[str]
    away: Floats

    def lengths(self) -> Floats:
        """How far away the points are from their places."""
        across = numpy.hypot(self.away[:, 0], self.away[:, 1])
        made: Floats = numpy.hypot(across, self.away[:, 2])
        return made


def fit_of(
    cameras: Mapping[str, Length], sites: Mapping[str, Length], checks: Sequence[str], is_upwards: bool
) -> Fit:
    """The fit of points by their names, in the camera's frame and in the site's. Those of `checks` have no part
    in the pose."""
    names = list(cameras)
    ours = numpy.array([cameras[name] for name in names], float).reshape(-1, 3)
    theirs = numpy.array([sites[name] for name in names], float).reshape(-1, 3)
    used = numpy.array([name not in checks for name in names], bool)
    pose, scale = pose_of_points(ours[used], theirs[used], is_upwards)
    return Fit(pose, scale, names, residuals(pose, ours, theirs))


# Level ground


def level_pose(ground: tuple[Floats, float], height: float, mount: int) -> Pose:
    """The pose that makes a plane level at that height, in micrometres: the plane as camera_plane gives it."""
    normal, away = ground
    north = numpy.array([0.0, 1.0, 0.0]) - normal[1] * normal
    north /= numpy.linalg.norm(north)
    rotation = numpy.stack([numpy.cross(north, normal), north, normal])
    # The camera stands over the origin, as high above the level plane as it is above the sloping one.
    aim = numpy.array([0.0, 0.0, height + away])
    return rounded_pose(rotation, numpy.array([0.0, 0.0, mount]), aim)


def plane_through_all(xs: Ints, ys: Ints, values: Ints, needed: int) -> tuple[Plane, Flags] | None:
    """The plane of most of the values, which may rise by much over their rectangles."""
    if len(values) < needed or min(numpy.ptp(xs), numpy.ptp(ys)) < 1:
        return None
    plane = Plane(xs, ys, values, xs.mean(), ys.mean())
    # What is off at first pulls the plane, so the bound on what counts comes down step by step.
    for bound in (128, 64, 32, 16, NEAR_PLANE, NEAR_PLANE):
        off = values - plane.at(xs, ys)
        kept = abs(off - numpy.median(off)) <= bound
        if kept.sum() < needed or min(numpy.ptp(xs[kept]), numpy.ptp(ys[kept])) < 1:
            return None
        plane = Plane(xs[kept], ys[kept], values[kept], xs.mean(), ys.mean())
    return plane, kept


def camera_plane(plane: Plane, points: Points) -> tuple[Floats, float] | None:
    """The direction that stands upright on a plane of disparities, in the camera's frame, and how far the camera is
    from it in micrometres.

    On such a plane focal * baseline / Z is p x + q y + r, and x = (focal X / Z + cx) / 256 and y =
    (cy - focal Y / Z) / 256. So focal * baseline is a sum of X, Y and Z.
    """
    p, q = 16 * plane.a, 16 * plane.b
    r = points.k_of(plane.at(0.0, 0.0))
    sums = p * points.focal / 256, -q * points.focal / 256, (p * points.cx + q * points.cy) / 256 + r
    length = math.hypot(*sums)
    if sums[2] <= 0:
        return None
    # The camera's frame counts h towards the camera, against Z.
    upright = numpy.array([-sums[0], -sums[1], sums[2]]) / length
    return upright, points.focal * points.baseline / length


# A known place


def aimed_pose(centre: Length, aim: Length, roll: float, mount: int) -> Pose:
    """The pose of a camera whose place is known and which looks at a point, turned by so many degrees."""
    middle = numpy.array(centre)
    ahead = numpy.array(aim) - middle
    ahead /= numpy.linalg.norm(ahead)
    level = math.hypot(ahead[0], ahead[1])
    if level < 1e-9:
        # The right of a picture of the ground or of the sky is east.
        ahead = numpy.array([0.0, 0.0, math.copysign(1, ahead[2])])
        right = numpy.array([1.0, 0.0, 0.0])
    else:
        right = numpy.array([ahead[1], -ahead[0], 0.0]) / level
    upwards, turn = numpy.cross(right, ahead), math.radians(roll)
    columns = [
        math.cos(turn) * right - math.sin(turn) * upwards,
        math.sin(turn) * right + math.cos(turn) * upwards,
        -ahead,
    ]
    return rounded_pose(numpy.stack(columns, axis=1), numpy.array([0.0, 0.0, mount]), middle)


def with_pose(calibration: Json, pose: Pose) -> Json:
    """The calibration with the pose behind the camera."""
    made = {}
    for key, value in calibration.items():
        if key != "pose":
            made[key] = value
        if key == "camera":
            made["pose"] = pose.section()
    return made


# An earlier one


def pose_from(name: str, camera: dict[str, int]) -> Json:
    """The section `pose` of an earlier calibration, which has to be of this camera."""
    earlier = read_json(name)
    pose = pose_of(earlier)
    if pose is None:
        raise Wrong(f"{name}: it has no pose: tools/site_pose.py writes one")
    for key in CAMERA_FRAME:
        if whole(earlier, "camera", key) != camera[key]:
            raise Wrong(f"{name}: its camera.{key} isn't this one, so its pose isn't either")
    return pose.section()
