"""How far a calibration by boards can be off, and what that does to a volume. Needs OpenCV.

A point whose columns in the rectified pictures differ by d pixels lies f * B / d away along the axis, and
(x - cx) * B / d across it. So an error of the baseline B stretches every length by the same part, and one of the
focal length f only those along the axis: cells scale by B on both sides, heights by f * B, and a volume by
f * B * B * B. It is off by c + 3 * b where f and B are off by the parts c and b. A pose changes no volume, and
the measured ground is stretched with the heap.

The other numbers, both principal points, the turn between the cameras and their lenses, move disparities: by e
pixels they make a volume off by 4 * e / d, which grows with the distance, and where e isn't the same all over the
picture they bend the ground. All errors hang together, so what they make of a volume isn't put together from
parts: a heap is seen by one pair of cameras and measured by another.
"""

from __future__ import annotations

from collections.abc import Iterator, Sequence
from dataclasses import dataclass
from typing import TYPE_CHECKING

from sgm_tools.boards import Boards, calibrate_together
from sgm_tools.kinds import Flags, Floats
from sgm_tools.pairs import Cameras
from sgm_tools.running import Wrong, numpy, progress

if TYPE_CHECKING:
    from sgm_tools.boards import Parts

# The heap that stands for all: a cone on a plane across the axis, of a slope at which loose ground lies. Its radius
# is a part of half the narrower side of what both cameras see, and a part of that is left out at the rim.
SLOPE = 2 / 3
RADIUS = 0.75
RIM = 0.1
# Points of the heap and its ground along each side.
POINTS = 41


# A heap


@dataclass(frozen=True)
class Heap:
    """Points in the left camera's frame, row by row, and which of them are ground."""

    points: Floats
    is_ground: Flags


def heap_at(cameras: Cameras, distance: float) -> Heap:
    """A heap on a ground at that distance, where both cameras see it."""
    r1, _, p1, p2 = cameras.rectification()
    width, height = cameras.size
    f, cx, cy = p1[0, 0], p1[0, 2], p1[1, 2]
    # The left column of the ground's left end is that which the right picture shows in its column 0.
    first = -p2[0, 3] / distance
    if width - 1 - first < width / 10:
        raise Wrong(f"at a distance of {distance:g} the cameras see less than a tenth of their pictures in common")
    rim_x, rim_y = RIM * (width - 1 - first), RIM * (height - 1)
    x = (numpy.linspace(first + rim_x, width - 1 - rim_x, POINTS) - cx) * distance / f
    y = (numpy.linspace(rim_y, height - 1 - rim_y, POINTS) - cy) * distance / f
    x, y = numpy.meshgrid(x, y)
    radius = RADIUS * min(numpy.ptp(x), numpy.ptp(y)) / 2
    away = numpy.hypot(x - x.mean(), y - y.mean())
    rise = SLOPE * numpy.maximum(radius - away, 0)
    points = numpy.stack([x, y, distance - rise], axis=-1).reshape(-1, 3)
    # Rows of R1 are the rectified camera's axes.
    return Heap(points @ r1, (away >= radius).ravel())


def volume(points: Floats, is_ground: Flags) -> float:
    """The volume of a heap's points above the plane that lies nearest to its ground."""
    columns = numpy.column_stack([points[:, :2], numpy.ones(len(points))])
    plane = numpy.linalg.lstsq(columns[is_ground], points[is_ground, 2], rcond=None)[0]
    x, y = (points[:, axis].reshape(POINTS, POINTS) for axis in (0, 1))
    rise = (columns @ plane - points[:, 2]).reshape(POINTS, POINTS)
    # Each square of four points by its two halves, from its upper left corner to its lower right one.
    total = 0.0
    here, other = numpy.s_[:-1, :-1], numpy.s_[1:, 1:]
    for third, sign in ((numpy.s_[:-1, 1:], 1), (numpy.s_[1:, :-1], -1)):
        twice: Floats = (x[third] - x[here]) * (y[other] - y[here]) - (x[other] - x[here]) * (y[third] - y[here])
        total += float((sign * twice * (rise[here] + rise[third] + rise[other])).sum()) / 6
    return total


def volume_factor(cameras: Cameras, others: Cameras, distance: float) -> float:
    """What the others make of the volume of a heap that the cameras see at that distance; 1 where they are right."""
    heap = heap_at(cameras, distance)
    seen = cameras.seen(heap.points)
    return volume(others.points(*seen), heap.is_ground) / volume(cameras.points(*seen), heap.is_ground)


# Boards that are left out


def left_out(boards: Boards, parts: Parts, with_k3: bool) -> Iterator[Cameras]:
    """The cameras by all boards but one, for each of them in turn."""
    for index in range(len(boards.left)):
        progress(f"calibrating without one board: {index + 1} of {len(boards.left)}")
        without = boards.without(index)
        yield Cameras.of(calibrate_together(without, parts, with_k3)[1], boards.size)


def jackknife(values: Sequence[float]) -> float:
    """The standard error of what all n boards give, from what is found without each of them: the values lie closer
    together than those of n other boards would, by the part n - 1 of their squares' mean."""
    found = numpy.array(values)
    return float(numpy.sqrt((len(found) - 1) * found.var()))


@dataclass(frozen=True)
class Spread:
    """Standard errors as parts: of the focal length, of the baseline and, at each distance, of a volume; and the name
    of the board without which the volume at the last distance changes most, with that part."""

    focal: float
    baseline: float
    volumes: dict[float, float]
    weightiest: str
    weight: float


def spread_of(boards: Boards, parts: Parts, with_k3: bool, distances: Sequence[float]) -> Spread:
    """How far the cameras of these parts can be off, from the boards that they come from."""
    cameras = Cameras.of(parts, boards.size)
    others = list(left_out(boards, parts, with_k3))
    focal = jackknife([it.focal() / cameras.focal() for it in others])
    baseline = jackknife([it.baseline() / cameras.baseline() for it in others])
    factors = {away: [volume_factor(cameras, it, away) for it in others] for away in distances}
    changes = numpy.array(factors[distances[-1]]) - 1
    most = int(abs(changes).argmax())
    volumes = {away: jackknife(found) for away, found in factors.items()}
    return Spread(focal, baseline, volumes, boards.names[most], float(changes[most]))
