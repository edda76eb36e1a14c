"""Grids of heights, or of the differences of two: OUT.asc of a match or of a change. Heights are whole
micrometres, as int64."""

from __future__ import annotations

import dataclasses
import re

from sgm_tools.files import read_bytes
from sgm_tools.kinds import Flags, Floats, Ints
from sgm_tools.running import Wrong, need, numpy

GRID_NAMES = (b"ncols", b"nrows", b"xllcorner", b"yllcorner", b"cellsize", b"nodata_value")
GRID_LINES = [rb"\s*(?i:" + name + rb")\s+(-?[0-9]{1,18})(?=\s)" for name in GRID_NAMES]
GRID_HEAD = re.compile(b"".join(GRID_LINES))
# What stands for an empty cell in a grid of heights, and in a difference of two.
NO_HEIGHT, NO_DIFFERENCE = -(2**31), -9999999999


@dataclasses.dataclass
class Grid:
    """A grid of heights, or of the differences of two: lower left corner and cell in micrometres, rows from the north.

    `heights` is int64, `filled` says which cells have one, and `nothing` is what stands in the others.
    """

    west: int
    south: int
    cell: int
    heights: Ints
    filled: Flags
    nothing: int = NO_HEIGHT

    def metres(self) -> Floats:
        """The heights, or the differences, in metres, with NaN where a cell has none."""
        made: Floats = numpy.where(self.filled, self.heights / 1e6, numpy.nan)
        return made


def read_grid(name: str) -> Grid:
    """OUT.asc of a match or of a change. A grid of 4096 x 4096 takes a second or two."""
    need(numpy=numpy)
    data = read_bytes(name)
    head = GRID_HEAD.match(data)
    if not head:
        raise Wrong(f"{name}: not a height grid of sgm")
    cols, rows, west, south, cell, nothing = map(int, head.groups())
    if cols < 1 or rows < 1 or cell < 1:
        raise Wrong(f"{name}: not a height grid of sgm")
    heights = whole_numbers(data[head.end() :], name)
    if len(heights) != cols * rows:
        raise Wrong(f"{name}: {len(heights)} heights, {cols * rows} needed")
    heights = heights.reshape(rows, cols)
    return Grid(west, south, cell, heights, heights != nothing, nothing)


def whole_numbers(text: bytes, name: str) -> Ints:
    """The whole numbers of a text that begins with white bytes, as int64; anything else is refused."""
    signs = text.count(b"-")
    is_plain = not text.translate(None, b"0123456789- \t\n\v\f\r")
    if not is_plain or signs != sum(text.count(bytes([white]) + b"-") for white in b" \t\n\v\f\r"):
        raise Wrong(f"{name}: not a height grid of sgm")
    if not text.strip():
        return numpy.zeros(0, numpy.int64)
    numbers = numpy.fromstring(text, numpy.int64, sep=" ")
    # A number that is too long comes back as an end of the range, and reading stops at a lone sign.
    ends = numpy.iinfo(numpy.int64)
    if not len(numbers) or numbers.max() == ends.max or numbers.min() == ends.min or text.rstrip().endswith(b"-"):
        raise Wrong(f"{name}: not a height grid of sgm")
    return numbers


def hundredths(values: Ints) -> tuple[int, int] | None:
    """The values below and above which the lowest and the highest hundredth lie; None for no values."""
    if not len(values):
        return None
    at = len(values) // 100
    parted = numpy.partition(values, (at, len(values) - 1 - at))
    return int(parted[at]), int(parted[len(values) - 1 - at])
