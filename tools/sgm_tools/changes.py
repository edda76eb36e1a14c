"""What came and went in each region between two surveys, from the difference that `sgm change` has written. All
is exact, in whole micrometres."""

from __future__ import annotations

import math
from collections.abc import Iterator

from sgm_tools import regions
from sgm_tools.calibrations import check_grid, regions_in
from sgm_tools.exact import moved
from sgm_tools.grids import NO_DIFFERENCE, Grid, read_grid
from sgm_tools.kinds import Flags, Ints, Json
from sgm_tools.reports import read_volumes
from sgm_tools.running import Wrong, numpy


class Tally:
    """What the differences of some cells come to, in whole micrometres."""

    def __init__(self, heights: Ints, filled: Flags, cell: int) -> None:
        found = heights[filled]
        self.cells, self.empty, self.area = found.size, int(heights.size - found.size), cell * cell
        # Differences are at most 4e9, so sums of 16 million of them fit 63 bits. Their squares don't.
        self.fill = int(found[found > 0].sum()) * self.area
        self.cut = -int(found[found < 0].sum()) * self.area
        self.sum = int(found.sum())
        high, low = numpy.divmod(found, 1 << 16)
        parts = ((high * high, 32), (2 * high * low, 16), (low * low, 0))
        self.squares = sum(int(part.sum()) << shift for part, shift in parts)

    def mean(self) -> int:
        return (2 * self.sum + self.cells) // (2 * self.cells)

    def spread(self) -> int:
        return math.isqrt((self.squares * self.cells - self.sum**2) // self.cells**2)

    def root(self) -> int:
        """The root of the mean square of the differences themselves, so that a shift counts too."""
        return math.isqrt(self.squares // self.cells)


def regions_of(
    calibration: Json, grid: Grid
) -> Iterator[tuple[str, tuple[slice, slice], Flags]]:
    """The regions' names, their rectangles as slices, and which of the cells there count."""
    check_grid(calibration, grid)
    sides = regions.grid_in(calibration)
    for region in regions_in(calibration):
        yield str(region.get("name")), regions.place_of(region), regions.mask_of(
            region, sides
        )


def tallies(out: str, calibration: Json) -> list[tuple[str, Tally]]:
    """The tallies of the regions and of the whole grid, by their names, after a look at OUT.csv."""
    grid = read_grid(out + ".asc")
    if grid.nothing != NO_DIFFERENCE:
        raise Wrong(f"{out}.asc: heights, and not a difference")
    made = []
    for name, at, counts in regions_of(calibration, grid):
        made.append((name, Tally(grid.heights[at][counts], grid.filled[at][counts], grid.cell)))
    every = Tally(grid.heights, grid.filled, grid.cell)
    said = read_volumes(out + ".csv")
    if [said[key] for key in ("both", "fill", "cut")] != [every.cells, every.fill, every.cut]:
        raise Wrong(f"{out}.csv says something else than the cells of {out}.asc: the files aren't of one run")
    return [*made, ("all", every)]


def table(
    named: list[tuple[str, Tally]], still: Tally | None, digits: int | None
) -> Iterator[list[object]]:
    """The lines below the head."""
    for name, it in named:
        volumes = [moved(volume, 18, digits) for volume in (it.fill, it.cut, it.fill - it.cut)]
        spreads = [moved(length, 6, digits) for length in (it.mean(), it.spread())] if it.cells else ["", ""]
        line = [name, it.cells, it.empty, *volumes, *spreads]
        if still is not None:
            line.append(moved(still.root() * it.cells * it.area, 18, digits))
        yield line


def still_one(named: list[tuple[str, Tally]], name: str) -> Tally:
    """The tally of the region in which nothing has changed."""
    found = [it for other, it in named[:-1] if other == name]
    if len(found) != 1:
        raise Wrong(f"{len(found) or 'no'} regions have the name {name}, one is needed")
    if not found[0].cells:
        raise Wrong(f"the region {name} has no cell with a height in both surveys")
    return found[0]
