"""Pictures of heights, of changes and of disparities, and grey pictures made smaller."""

from __future__ import annotations

from sgm_tools.grids import Grid
from sgm_tools.grids import NO_DIFFERENCE, hundredths
from sgm_tools.kinds import Flags, Greys, Ints
from sgm_tools.running import Wrong, numpy, progress

# Colours from low to high, between which the others lie in proportion.
SCALE = [(70, 130, 80), (150, 180, 95), (225, 205, 125), (175, 120, 75), (150, 100, 85), (250, 250, 250)]
# The darkest colours of what rose and of what fell.
RED, BLUE = (165, 15, 21), (8, 69, 148)
# Rows that are worked on at once, so that a large grid takes little memory beside itself.
BAND = 128
# The longest side of a picture whose zoom isn't given.
LONGEST_SIDE = 4096


# Heights and changes


def colours_of(heights: Ints, low: int, high: int) -> Ints:
    """The colours of the scale at heights, which are held between low and high."""
    scale = numpy.array(SCALE, numpy.int64)
    across = max(1, high - low)
    at, part = numpy.divmod((len(SCALE) - 1) * (heights.clip(low, high) - low), across)
    above = (at + 1).clip(max=len(SCALE) - 1)
    colours: Ints = scale[at] + (scale[above] - scale[at]) * part[..., None] // across
    return colours


def rise(heights: Ints, filled: Flags, size: int, step_row: int, step_col: int) -> Ints:
    """How steeply the ground rises one cell further on, in hundredths; 0 where that cell is empty or outside."""
    rows, cols = heights.shape
    here = (slice(max(0, -step_row), rows - max(0, step_row)), slice(max(0, -step_col), cols - max(0, step_col)))
    there = (slice(max(0, step_row), rows + min(0, step_row)), slice(max(0, step_col), cols + min(0, step_col)))
    steep = numpy.zeros(heights.shape, numpy.int64)
    steep[here] = numpy.where(filled[there], 100 * (heights[there] - heights[here]) // size, 0)
    return steep


def shaded_band(heights: Ints, filled: Flags, size: int, low: int, high: int) -> Greys:
    """Colours of rows. A slope that rises away from the north-west is lit, one that falls is in shade."""
    east = rise(heights, filled, size, 0, 1) - rise(heights, filled, size, 0, -1)
    south = rise(heights, filled, size, 1, 0) - rise(heights, filled, size, -1, 0)
    light = 100 + ((east + south) // 8).clip(-45, 45)
    colours = (colours_of(heights, low, high) * light[..., None] // 100).clip(max=255)
    return numpy.where(filled[..., None], colours, 0).astype(numpy.uint8)


def shaded(grid: Grid) -> tuple[Greys, tuple[int, int] | None]:
    """The grid's colours, and the heights that became green and white; None where every cell is empty."""
    rows, cols = grid.heights.shape
    made = numpy.zeros((rows, cols, 3), numpy.uint8)
    ends = hundredths(grid.heights[grid.filled])
    if ends is None:
        return made, None
    for first in range(0, rows, BAND):
        # A row more on either side, for the slopes of the band's own first and last rows.
        begin, last = max(0, first - 1), min(rows, first + BAND)
        end = min(rows, last + 1)
        band = shaded_band(grid.heights[begin:end], grid.filled[begin:end], grid.cell, *ends)
        made[first:last] = band[first - begin : last - begin]
        progress(f"drawing: {100 * last // rows} %")
    return made, ends


def darkest_of(grid: Grid) -> int:
    """The change, up or down, from which on the colours of a difference stay the darkest."""
    ends = hundredths(grid.heights[grid.filled])
    return max(1, -ends[0], ends[1]) if ends else 1


def changed(grid: Grid) -> tuple[Greys, tuple[int, int] | None]:
    """The colours of a difference, white where nothing has changed, and the changes of the darkest blue and red."""
    if not grid.filled.any():
        return numpy.zeros((*grid.heights.shape, 3), numpy.uint8), None
    darkest = darkest_of(grid)
    return blue_and_red(grid.heights, grid.filled, darkest), (-darkest, darkest)


def blue_and_red(differences: Ints, filled: Flags, darkest: int) -> Greys:
    """The colours of differences, of which those that are as great, up or down, have the darkest."""
    part = differences.clip(-darkest, darkest)[..., None]
    red, blue, white = (numpy.array(it, numpy.int64) for it in (RED, BLUE, (250, 250, 250)))
    colours = white + (numpy.where(part > 0, red, blue) - white) * abs(part) // darkest
    return numpy.where(filled[..., None], colours, 0).astype(numpy.uint8)


def drawn(grid: Grid) -> tuple[Greys, tuple[int, int] | None]:
    """The colours of heights or of a difference, and the numbers that have the end colours; None for no numbers."""
    return changed(grid) if grid.nothing == NO_DIFFERENCE else shaded(grid)


def zoomed(colours: Greys, zoom: int) -> Greys:
    """Each colour becomes a square of zoom pixels."""
    return colours.repeat(zoom, axis=0).repeat(zoom, axis=1) if zoom > 1 else colours


def zoom_of(rows: int, cols: int) -> int:
    """The zoom where none is given: 4, or less where the picture would be too large."""
    return max(1, min(4, LONGEST_SIDE // max(rows, cols)))


# Greys


MAGENTA = (200, 0, 120)
# Entry 0 of the palette is for no value, the others are the greys from dark to light.
PALETTE = [MAGENTA] + [(level,) * 3 for level in range(1, 256)]
DARKEST, LIGHTEST = 16, 255


def stretched(values: Ints, filled: Flags) -> tuple[Greys, tuple[int, int] | None]:
    """Rows of palette numbers, and the values that became the darkest and the lightest grey, or None."""
    ends = hundredths(values[filled])
    if ends is None:
        return numpy.zeros(values.shape, numpy.uint8), None
    low, high = ends
    greys = DARKEST + (LIGHTEST - DARKEST) * (values.clip(low, high) - low) // max(1, high - low)
    return numpy.where(filled, greys, 0).astype(numpy.uint8), ends


def shrunk(grey: Greys, times: int) -> Greys:
    """Means of squares of times x times pixels, halves up; what is left over at the sides falls away."""
    height, width = (side // times for side in grey.shape)
    if not height or not width:
        raise Wrong(f"--shrink {times} leaves nothing of {grey.shape[1]} x {grey.shape[0]} pixels")
    squares = grey[: height * times, : width * times].reshape(height, times, width, times)
    means: Ints = (2 * squares.sum(axis=(1, 3), dtype=numpy.int64) + times**2) // (2 * times**2)
    return means.astype(numpy.uint8)
