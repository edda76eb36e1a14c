"""What stayed as it was between two surveys, and a pose that brings the later one back onto it."""

from __future__ import annotations

import dataclasses
from collections.abc import Sequence

from sgm_tools.calibrations import check_grid
from sgm_tools.grids import Grid
from sgm_tools.kinds import Flags, Floats, Json
from sgm_tools.points import ONE, Pose
from sgm_tools.poses import NO_PLACE, ON_A_LINE, is_on_a_line, rounded_pose
from sgm_tools.regions import ground_cells
from sgm_tools.running import Wrong, numpy

# Cells farther from the plane than so many spreads have no part in it. A spread is what the median of how far all lie
# away would be, if they were spread as errors are.
FAR, SPREAD_OF_MEDIAN = 3, 1.4826
# No spread is taken for less than so many micrometres.
LEAST_SPREAD = 100
# How often at most the plane is laid anew.
ROUNDS = 50


@dataclasses.dataclass(frozen=True)
class Still:
    """Cells of still ground that have a height in both surveys, in micrometres: the places of the later survey (east,
    north, height), and how much higher it lies there than the earlier one."""

    places: Floats
    higher: Floats


@dataclasses.dataclass(frozen=True)
class Tilt:
    """The plane through how much higher a survey lies than an earlier one: micrometres at the middle of its cells, the
    rises to the east and to the north, and which of the cells have a part in it."""

    middle: Floats
    higher: float
    east: float
    north: float
    kept: Flags

    def at(self, places: Floats) -> Floats:
        away = places - self.middle
        made: Floats = self.higher + self.east * away[:, 0] + self.north * away[:, 1]
        return made


def still_of(calibration: Json, earlier: Grid, later: Grid, names: Sequence[str]) -> Still:
    """The still ground of two surveys of the calibration's grid: the regions of these names, or without any those
    whose name begins with `ground`."""
    for grid in (earlier, later):
        check_grid(calibration, grid)
    both = dataclasses.replace(later, filled=earlier.filled & later.filled)
    cells = list(ground_cells(calibration, both, names))
    if len(cells) < 3:
        raise Wrong(f"{len(cells)} cells of still ground have a height in both surveys, 3 at least", NO_PLACE)
    cols, souths, heights = numpy.array(cells, numpy.int64).T
    before = earlier.heights[len(earlier.heights) - 1 - souths, cols]
    east = later.west + later.cell * (cols + 0.5)
    north = later.south + later.cell * (souths + 0.5)
    places = numpy.stack([east, north, heights], axis=-1)
    return Still(places, (heights - before).astype(float))


def laid(still: Still, weights: Floats) -> Tilt:
    """The plane by least squares, each cell counting by its weight."""
    middle = numpy.average(still.places, axis=0, weights=weights)
    away, roots = still.places - middle, numpy.sqrt(weights)
    design = numpy.stack([away[:, 0], away[:, 1], numpy.ones(len(away))], axis=-1)
    found, *_ = numpy.linalg.lstsq(design * roots[:, None], still.higher * roots, rcond=None)
    east, north, higher = found.tolist()
    return Tilt(middle, higher, east, north, weights > 0)


def away_from(still: Still, tilt: Tilt) -> Floats:
    """How far the cells lie from the plane; never less than the least spread."""
    made: Floats = numpy.maximum(abs(still.higher - tilt.at(still.places)), LEAST_SPREAD)
    return made


def nearest(still: Still) -> Tilt:
    """The plane from which all cells together lie the least way off, to which a part that moved does little."""
    tilt = laid(still, numpy.ones(len(still.higher)))
    for _ in range(ROUNDS):
        tilt = laid(still, 1 / away_from(still, tilt))
    return tilt


def tilt_of(still: Still) -> Tilt:
    """The plane of most cells: what lies far from it has moved, or is seen wrongly, and has no part."""
    tilt, before = nearest(still), None
    for _ in range(ROUNDS):
        away = away_from(still, tilt)
        kept = away <= FAR * SPREAD_OF_MEDIAN * float(numpy.median(away))
        if is_on_a_line(still.places[kept][:, :2]):
            raise Wrong("the still ground lies on one line, and fixes no tilt across it", ON_A_LINE)
        if before is not None and (kept == before).all():
            break
        tilt, before = laid(still, kept.astype(float)), kept
    return tilt


def upright(normal: Floats) -> Floats:
    """The least turn that makes a direction, which points upwards, upright."""
    x, y, z = normal / numpy.linalg.norm(normal)
    skew = numpy.array([[0, 0, -x], [0, 0, -y], [x, y, 0]])
    made: Floats = numpy.eye(3) + skew + skew @ skew / (1 + z)
    return made


def brought_back(pose: Pose, tilt: Tilt) -> Pose:
    """The pose by which the still ground of a survey lies where an earlier one has it: turned about the middle of that
    ground, and lowered."""
    matrix = numpy.array(pose.matrix, float).reshape(3, 3) / ONE
    shift = numpy.array([pose.east, pose.north, pose.up], float)
    seen = matrix.T @ (tilt.middle - shift)
    turn = upright(numpy.array([-tilt.east, -tilt.north, 1.0]))
    return rounded_pose(turn @ matrix, seen, tilt.middle - [0, 0, tilt.higher])
