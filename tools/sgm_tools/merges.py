"""The entries of a merge, held against one another: how far each lies from what the others have in the cells that it
shares with them. For people, in floating point; lengths are micrometres."""

from __future__ import annotations

import dataclasses
from collections.abc import Iterator, Sequence

from sgm_tools.grids import Grid, read_grid
from sgm_tools.kinds import Flags, Floats, Greys
from sgm_tools.pictures import blue_and_red
from sgm_tools.running import Wrong, numpy, progress
from sgm_tools.series import MOST_ENTRIES, file_name, lines_of

# A spread by the median of absolute values is so many times that, for errors that are normal.
BY_MEDIAN = 1.4826
# An entry is marked where it is so many spreads of the entries off the middle one of them.
TIMES = 4.0
# Fewer shared cells say nothing.
LEAST_SHARED = 20
# The side of an entry's picture in pixels, what lies between two, and the frame of those that are marked.
SIDE, BETWEEN, FRAME = 120, 6, (200, 0, 120)


def read_names(name: str) -> list[str]:
    """The names in the list of a merge."""
    names: list[str] = []
    for number, words in lines_of(name):
        if len(words) > 1:
            raise Wrong(f"{name}: line {number} does not have one word")
        names += map(file_name, words)
    if not 1 <= len(names) <= MOST_ENTRIES:
        raise Wrong(f"{name}: {len(names)} entries, 1 to {MOST_ENTRIES} needed")
    return names


# Places


@dataclasses.dataclass(frozen=True)
class Overlap:
    """The rows and columns in which an entry lies over the merged grid: those of the merged grid, and its own."""

    there: tuple[slice, slice]
    here: tuple[slice, slice]


def along(begin: int, count: int, whole: int) -> tuple[slice, slice]:
    """What so many cells from `begin` on share with so many from 0 on, counted from 0 and from `begin`."""
    low = min(max(begin, 0), whole)
    high = max(low, min(begin + count, whole))
    return slice(low, high), slice(low - begin, high - begin)


def overlap_of(entry: Grid, merged: Grid, name: str) -> Overlap:
    """Where an entry lies over the merged grid, which may be nowhere."""
    cell = merged.cell
    if entry.cell != cell or (entry.west - merged.west) % cell or (entry.south - merged.south) % cell:
        raise Wrong(f"{name}: not on the merged grid's cells")
    (own_rows, own_cols), (rows, cols) = entry.heights.shape, merged.heights.shape
    # Rows go from the north.
    top = (merged.south - entry.south) // cell + rows - own_rows
    over_rows = along(top, own_rows, rows)
    over_cols = along((entry.west - merged.west) // cell, own_cols, cols)
    return Overlap((over_rows[0], over_cols[0]), (over_rows[1], over_cols[1]))


class Sums:
    """The sums of the entries' heights in each cell of the merged grid, and how many entries have one there."""

    def __init__(self, merged: Grid) -> None:
        self.heights = numpy.zeros(merged.heights.shape, numpy.int64)
        self.counts = numpy.zeros(merged.heights.shape, numpy.int32)

    def add(self, entry: Grid, overlap: Overlap, sign: int = 1) -> None:
        filled = entry.filled[overlap.here]
        self.heights[overlap.there] += sign * numpy.where(filled, entry.heights[overlap.here], 0)
        self.counts[overlap.there] += (sign * filled).astype(numpy.int32)

    def others(self, entry: Grid, overlap: Overlap, is_in: bool) -> tuple[Floats, Flags]:
        """The mean of what others have in the entry's cells, and in which of these both it and others have a height.
        `is_in` says whether the entry is in the sums."""
        filled = entry.filled[overlap.here]
        own = filled & is_in
        counts = self.counts[overlap.there] - own
        sums = self.heights[overlap.there] - numpy.where(own, entry.heights[overlap.here], 0)
        return sums / counts.clip(min=1), filled & (counts > 0)


# Differences


@dataclasses.dataclass
class Entry:
    """What the table says of an entry: how many of its cells have a height, and how many others have too; over these
    the mean of its differences from the merged grid and the root of their mean square about it; and the middle one of
    its differences from the others' means, with their spread about it by the median. None where it shares too few."""

    name: str
    cells: int
    shared: int
    mean: float | None = None
    spread: float | None = None
    middle: float | None = None
    width: float | None = None
    is_marked: bool = False


@dataclasses.dataclass
class Merge:
    """A merged grid and the names of the entries that it was made of."""

    merged: Grid
    names: Sequence[str]

    def entries(self) -> Iterator[tuple[int, Grid, Overlap]]:
        """Each entry's number, grid and place. They are read one after the other, and none is kept."""
        for number, name in enumerate(self.names):
            progress(f"grid {number + 1} of {len(self.names)}")
            entry = read_grid(name)
            yield number, entry, overlap_of(entry, self.merged, name)

    def sums(self) -> Sums:
        made = Sums(self.merged)
        for _, entry, overlap in self.entries():
            made.add(entry, overlap)
        return made

    def compared(self, sums: Sums, marked: Sequence[int]) -> list[Entry]:
        """All entries against the others that aren't marked."""
        made = []
        for number, entry, overlap in self.entries():
            others, shared = sums.others(entry, overlap, number not in marked)
            one = Entry(self.names[number], int(entry.filled.sum()), int(shared.sum()))
            if one.shared >= LEAST_SHARED:
                heights = entry.heights[overlap.here]
                one.middle, one.width = middle_of((heights - others)[shared])
                has_merged = shared & self.merged.filled[overlap.there]
                off = (heights - self.merged.heights[overlap.there])[has_merged]
                if off.size:
                    one.mean, one.spread = float(off.mean()), float(off.std())
            one.is_marked = number in marked
            made.append(one)
        return made

    def checked(self, least: float) -> list[Entry]:
        """The entries, of which those are marked that lie too far from the others. The worst one is marked first, and
        then has no part in what the others are held against, so that it doesn't mark its neighbours."""
        sums, marked = self.sums(), list[int]()
        while True:
            found = self.compared(sums, marked)
            worst = worst_of(found, least)
            if worst is None or 2 * len(marked) >= len(found):
                return found
            marked.append(worst)
            entry = read_grid(self.names[worst])
            sums.add(entry, overlap_of(entry, self.merged, self.names[worst]), -1)

    def differences(self, sums: Sums, marked: Sequence[int]) -> Iterator[tuple[Floats, Flags]]:
        """For each entry how far it lies from the others, and where it shares cells with them."""
        for number, entry, overlap in self.entries():
            others, shared = sums.others(entry, overlap, number not in marked)
            yield entry.heights[overlap.here] - others, shared


def middle_of(values: Floats) -> tuple[float, float]:
    """The median, and the spread about it by the median."""
    middle = float(numpy.median(values))
    return middle, BY_MEDIAN * float(numpy.median(abs(values - middle)))


def beyond(values: Floats, least: float) -> Floats:
    """How far each value lies from the middle one where that is too far, which is some spreads of the values and at
    least so much; elsewhere 0."""
    middle, width = middle_of(values)
    away = abs(values - middle)
    made: Floats = numpy.where(away > max(least, TIMES * width), away, 0.0)
    return made


def worst_of(found: Sequence[Entry], least: float) -> int | None:
    """The entry, of those that aren't marked, that lies farthest off; None where none is too far off.

    Its differences may lie too high or too low, or be too wide, as they are where it is tilted. Both are so of its
    neighbours too, but less.
    """
    chosen = [number for number, it in enumerate(found) if it.middle is not None and not it.is_marked]
    if not chosen:
        return None
    middles = numpy.array([found[number].middle for number in chosen], float)
    widths = numpy.array([found[number].width for number in chosen], float)
    is_wide = widths > numpy.median(widths)
    off = numpy.maximum(beyond(middles, least), numpy.where(is_wide, beyond(widths, least), 0.0))
    return chosen[int(off.argmax())] if off.any() else None


# The table


HEAD = ("grid", "name", "cells", "shared", "mean_mm", "spread_mm", "others_mm", "width_mm", "mark")


def table(found: Sequence[Entry]) -> Iterator[list[str]]:
    """The lines of the table, the head first."""
    yield list(HEAD)
    millimetres = lambda it: "" if it is None else f"{it / 1000:.1f}"
    for number, it in enumerate(found):
        lengths = map(millimetres, (it.mean, it.spread, it.middle, it.width))
        mark = "off" if it.is_marked else ""
        yield [str(number), it.name, str(it.cells), str(it.shared), *lengths, mark]


# The picture


def in_square(colours: Greys) -> Greys:
    """Colours in a square of SIDE pixels, grey where there is nothing, each cell a few pixels or some left out."""
    made = numpy.full((SIDE, SIDE, 3), 225, numpy.uint8)
    rows, cols = colours.shape[:2]
    if not rows or not cols:
        return made
    longest = max(rows, cols)
    height, width = (max(1, SIDE * side // longest) for side in (rows, cols))
    at_rows, at_cols = numpy.arange(height) * rows // height, numpy.arange(width) * cols // width
    made[:height, :width] = colours[at_rows[:, None], at_cols]
    return made


def sheet(merge: Merge, found: Sequence[Entry], darkest: int) -> Greys:
    """A square for each entry, row by row in the list's order: red where it lies above the others, blue where below,
    the darkest from so many micrometres on, black where it shares nothing. Those that are marked have a frame."""
    marked = [number for number, it in enumerate(found) if it.is_marked]
    sums = merge.sums()
    for number, entry, overlap in merge.entries():
        if number in marked:
            sums.add(entry, overlap, -1)
    across = max(1, round(len(found) ** 0.5 * 1.2))
    step = SIDE + BETWEEN
    made = numpy.full((step * -(-len(found) // across) + BETWEEN, step * across + BETWEEN, 3), 255, numpy.uint8)
    for number, (off, shared) in enumerate(merge.differences(sums, marked)):
        top, left = (BETWEEN + step * it for it in divmod(number, across))
        if number in marked:
            made[top - 4 : top + SIDE + 4, left - 4 : left + SIDE + 4] = FRAME
        colours = blue_and_red(numpy.rint(off).astype(numpy.int64), shared, darkest)
        made[top : top + SIDE, left : left + SIDE] = in_square(colours)
    return made
