"""Which pixels have made a cell of the heights."""

from __future__ import annotations

from collections.abc import Sequence

from sgm_tools.exact import decimal, rounded
from sgm_tools.grids import Grid
from sgm_tools.kinds import Flags, Ints, Json
from sgm_tools.points import Points
from sgm_tools.running import Wrong

# Height, column, row, disparity, east and north of a pixel whose point falls into the cell.
Found = tuple[int, int, int, int, int, int]


def pixels_in(
    values: Ints, filled: Flags, points: Points, grid: Grid, col: int, row: int
) -> list[Found]:
    """The pixels whose points fall into the cell: height, x, y, value, east, north; the highest first."""
    below = grid.heights.shape[0] - 1 - row
    west, south = grid.west + col * grid.cell, grid.south + below * grid.cell
    xs, ys, found, east, north, up = points.in_picture(values, filled)
    inside = (west <= east) & (east < west + grid.cell)
    inside &= (south <= north) & (north < south + grid.cell)
    columns = [it[inside].tolist() for it in (up, xs, ys, found, east, north)]
    listed: list[Found] = list(zip(*columns))
    return sorted(listed, key=lambda it: (-it[0], it[2], it[1]))


def points_in_grid(
    values: Ints, filled: Flags, points: Points, grid: Grid
) -> tuple[Ints, Ints, Ints]:
    """The row, the column and the height of each point that falls into the grid, as arrays."""
    *_, east, north, up = points.in_picture(values, filled)
    col, south = (east - grid.west) // grid.cell, (north - grid.south) // grid.cell
    rows, cols = grid.heights.shape
    inside = (0 <= col) & (col < cols) & (0 <= south) & (south < rows)
    return rows - 1 - south[inside], col[inside], up[inside]


def keeps_mean(calibration: Json) -> bool:
    """Whether cells keep the mean of their points; without the key they keep the highest."""
    keep: object = calibration["grid"].get("keep", "highest")
    if keep not in ("highest", "mean"):
        raise Wrong("the calibration's grid.keep is neither highest nor mean")
    return keep == "mean"


def told(height: int | None, found: Sequence[Found], is_mean: bool, is_bridged: bool) -> str | None:
    """What a cell of that height is, by its pixels; None where they can't have made it."""
    if not found:
        if height is None:
            return "empty"
        return f"{decimal(height, 6)} m, a bridge from cells around it" if is_bridged else None
    heights = [it[0] for it in found]
    if height != (rounded(sum(heights), len(heights)) if is_mean else heights[0]):
        return None
    return f"{decimal(height, 6)} m, {'the mean of' if is_mean else 'from'} {len(found)} pixels"
