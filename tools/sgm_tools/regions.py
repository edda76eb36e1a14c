"""The regions of a calibration: which of their cells count, how high the base of each cell is, and
the plane that fits a piece of ground best.

A region is its object in the calibration, with whole numbers in micrometres, and a grid an object
with `west`, `south`, `cell`, `cols` and `rows`. Columns count from the west; a `row` counts from
the north and `south` rows from the south, all from 0 and over the whole grid. Everything is exact:
Python's own numbers, and with numpy whole numbers that are held below 2^63."""

from __future__ import annotations

from collections.abc import Collection, Iterable, Iterator, Sequence

from sgm_tools.calibrations import regions_in, whole
from sgm_tools.exact import rounded
from sgm_tools.grids import Grid
from sgm_tools.kinds import Flags, Ints, Json, Point
from sgm_tools.points import Points
from sgm_tools.running import Wrong, numpy

# A grid's place and size, the two ends of an edge of an outline, and what the middle of cells is made of.
Sides = dict[str, int]
Edge = tuple[tuple[int, int], tuple[int, int]]
Middle = tuple[int, int, int]

# The unit of a rise is a micrometre a metre, and heights are at the middles of cells, so at halves
# of a cell.
RISE_UNIT = 2_000_000
MOST_RISE, MOST_LENGTH = 1_000_000, 2_000_000_000
LEAST_NUMBERS, MOST_NUMBERS = 6, 2000
GRID_KEYS = ("west", "south", "cell", "cols", "rows")


def grid_in(calibration: Json) -> Sides:
    """The numbers of the calibration's grid."""
    return {key: whole(calibration, "grid", key) for key in GRID_KEYS}


def is_whole(value: object, most: int) -> bool:
    return isinstance(value, int) and not isinstance(value, bool) and abs(value) <= most


# Bases


def rises_of(region: Json) -> list[int]:
    """How the base rises to the east and to the north: level where the region doesn't say, as
    before version 3."""
    rises = [region.get(key, 0) for key in ("rise_east", "rise_north")]
    if not all(is_whole(rise, MOST_RISE) for rise in rises):
        raise Wrong(
            f"the rises of the region {region.get('name')} aren't whole numbers to {MOST_RISE}"
        )
    return rises


def base_at(region: Json, grid: Sides, col: int, south: int) -> int:
    """The height of the region's base at the middle of a cell."""
    east, north = rises_of(region)
    cell = grid["cell"]
    rise = rounded(east * (2 * col + 1) * cell + north * (2 * south + 1) * cell, RISE_UNIT)
    return int(region["base"]) + rise


def corner_bases(region: Json, grid: Sides) -> list[int]:
    """The bases at the four corner cells of the region's rectangle, between which all others
    lie."""
    cols = (region["col"], region["col"] + region["cols"] - 1)
    rows = (region["row"], region["row"] + region["rows"] - 1)
    return [base_at(region, grid, col, grid["rows"] - 1 - row) for row in rows for col in cols]


def is_in_range(region: Json, grid: Sides) -> bool:
    return all(abs(base) <= MOST_LENGTH for base in corner_bases(region, grid))


# Outlines


def outline_of(region: Json) -> list[int] | None:
    """The numbers e0, n0, e1, n1, .. of the region's outline, or None."""
    found = region.get("outline")
    if found is None:
        return None
    is_list = isinstance(found, list) and all(is_whole(it, MOST_LENGTH) for it in found)
    outline: list[int] = found if is_list else []
    if len(outline) % 2 or not LEAST_NUMBERS <= len(outline) <= MOST_NUMBERS:
        raise Wrong(f"the outline of the region {region.get('name')} isn't one of a calibration")
    return outline


def edges_of(outline: Sequence[int]) -> list[Edge]:
    """Each corner, doubled, with the next one, and the last with the first."""
    corners = [(2 * e, 2 * n) for e, n in zip(outline[::2], outline[1::2])]
    return list(zip(corners, corners[1:] + corners[:1]))


def is_inside(outline: Sequence[int], grid: Sides, col: int, south: int) -> bool:
    """Whether a cell's middle lies inside: an odd number of edges that straddle it pass east of
    it."""
    cell = grid["cell"]
    east = 2 * grid["west"] + (2 * col + 1) * cell
    north = 2 * grid["south"] + (2 * south + 1) * cell
    passing = 0
    for (ae, an), (be, bn) in edges_of(outline):
        if (an <= north) != (bn <= north):
            passing += ((ae - east) * (bn - an) + (north - an) * (be - ae)) * (bn - an) > 0
    return passing % 2 == 1


def turns_in_row(edges: Sequence[Edge], grid: Sides, south: int) -> Iterator[int]:
    """For each edge that straddles the middles of a row, the first column that it doesn't pass east
    of."""
    cell = grid["cell"]
    north = 2 * grid["south"] + (2 * south + 1) * cell
    for (ae, an), (be, bn) in edges:
        if (an <= north) != (bn <= north):
            rise = bn - an
            place = ae * rise + (north - an) * (be - ae)
            # The greatest whole number below where the edge crosses the row: a middle up to it lies
            # west of it.
            before = -(-place // rise) - 1 if rise > 0 else -(place // -rise) - 1
            yield (before - 2 * grid["west"] - cell) // (2 * cell) + 1


def inside_in_row(
    edges: Sequence[Edge], grid: Sides, south: int, first: int, number: int
) -> list[bool]:
    """Whether each of so many cells of a row lies inside, from the column `first` on."""
    turns = [0] * (number + 1)
    for turn in turns_in_row(edges, grid, south):
        turns[min(max(turn - first, 0), number)] ^= 1
    # A cell lies inside where an odd number of edges turn behind it.
    made, is_odd = [], False
    for turn in reversed(turns[1:]):
        is_odd ^= bool(turn)
        made.append(is_odd)
    return made[::-1]


def least_rectangle(outline: Sequence[int], grid: Sides) -> tuple[int, int, int, int] | None:
    """The col, row, cols and rows of the least rectangle of the grid's cells that holds the
    outline, or what of it lies in the grid; None where none of it does."""
    made = []
    for part, side, count in ((outline[::2], "west", "cols"), (outline[1::2], "south", "rows")):
        low = (min(part) - grid[side]) // grid["cell"]
        high = max(low, -((grid[side] - max(part)) // grid["cell"]) - 1)
        if high < 0 or low >= grid[count]:
            return None
        low, high = max(low, 0), min(high, grid[count] - 1)
        made.append((low, high - low + 1))
    (col, cols), (south, rows) = made
    return col, grid["rows"] - south - rows, cols, rows


# Cells


def rows_inside(region: Json, grid: Sides) -> Iterator[list[bool]]:
    """For each row of the region's rectangle, from the north, which of its cells count."""
    outline = outline_of(region)
    edges = None if outline is None else edges_of(outline)
    for row in range(region["row"], region["row"] + region["rows"]):
        if edges is None:
            yield [True] * region["cols"]
        else:
            south = grid["rows"] - 1 - row
            yield inside_in_row(edges, grid, south, region["col"], region["cols"])


def cells_of(region: Json, grid: Sides) -> Iterator[tuple[int, int]]:
    """The column and the row of each cell that counts, row by row from the north."""
    for row, line in enumerate(rows_inside(region, grid), region["row"]):
        yield from ((col, row) for col, counts in enumerate(line, region["col"]) if counts)


def number_of_cells(region: Json, grid: Sides) -> int:
    return sum(map(sum, rows_inside(region, grid)))


def place_of(region: Json) -> tuple[slice, slice]:
    """The rows and the columns of the region's rectangle in arrays of the grid."""
    col, row, cols, rows = (whole(region, key) for key in ("col", "row", "cols", "rows"))
    return slice(row, row + rows), slice(col, col + cols)


def mask_of(region: Json, grid: Sides) -> Flags:
    """Which cells of the region's rectangle count, as an array."""
    if outline_of(region) is None:
        return numpy.ones((region["rows"], region["cols"]), bool)
    return numpy.array(list(rows_inside(region, grid)), bool)


def bases_of(region: Json, grid: Sides) -> Ints:
    """The bases of the cells of the region's rectangle, as an array.

    The two products of a base pass 63 bits, so each is parted before they are added.
    """
    (east, north), cell = rises_of(region), grid["cell"]
    cols = range(region["col"], region["col"] + region["cols"])
    rows = range(region["row"], region["row"] + region["rows"])
    across = [divmod(east * (2 * col + 1) * cell, RISE_UNIT) for col in cols]
    along = [divmod(north * (2 * (grid["rows"] - 1 - row) + 1) * cell, RISE_UNIT) for row in rows]
    (wholes, parts), (more, rest) = (numpy.array(it, numpy.int64).T for it in (across, along))
    carried = (parts[None, :] + rest[:, None] + RISE_UNIT // 2) // RISE_UNIT
    bases: Ints = region["base"] + wholes[None, :] + more[:, None] + carried
    return bases


def found_in(region: Json, grid: Sides, heights: Ints, filled: Flags) -> tuple[Ints, Ints]:
    """The heights of the region's cells that count and have one, and their bases."""
    place = place_of(region)
    there = filled[place] & mask_of(region, grid)
    return heights[place][there], bases_of(region, grid)[there]


# Planes


class Plane:
    """Sums over cells, and the plane that lies nearest to their heights by least squares."""

    def __init__(self, cells: Iterable[tuple[int, int, int]]) -> None:
        """Of cells (column, row from the south, height)."""
        self.n = 0
        self.sums = dict.fromkeys(("u", "v", "h", "uu", "uv", "vv", "uh", "vh"), 0)
        for col, south, height in cells:
            values = {"u": 2 * col + 1, "v": 2 * south + 1, "h": height}
            self.n += 1
            for key in self.sums:
                product = values[key[0]] * (values[key[1]] if len(key) > 1 else 1)
                self.sums[key] += product

    def spread(self, a: str, b: str) -> int:
        return self.n * self.sums[a + b] - self.sums[a] * self.sums[b]

    def fitted(self, cell: int) -> tuple[int, int, int] | None:
        """The base, at the grid's south-west corner, and both rises, each to the nearest whole
        number, the base being the one that fits these rises best; None where the cells lie on one
        line."""
        uu, uv, vv, uh, vh = (self.spread(*key) for key in ("uu", "uv", "vv", "uh", "vh"))
        over = cell * (uu * vv - uv * uv)
        if over == 0:
            return None
        east = rounded(RISE_UNIT * (uh * vv - vh * uv), over)
        north = rounded(RISE_UNIT * (vh * uu - uh * uv), over)
        rest = RISE_UNIT * self.sums["h"] - (east * self.sums["u"] + north * self.sums["v"]) * cell
        return rounded(rest, RISE_UNIT * self.n), east, north


def grounds_in(calibration: Json, names: Sequence[str]) -> Iterator[Json]:
    """The regions of these names, or without any those whose name begins with `ground`."""
    regions = regions_in(calibration)
    missing = set(names) - {str(region.get("name")) for region in regions}
    if missing:
        raise Wrong(f"no region of the calibration has the name {min(missing)}")
    for region in regions:
        name = str(region.get("name"))
        if name in names or not names and name.lower().startswith("ground"):
            yield region


def ground_cells(
    calibration: Json, grid_of_heights: Grid, names: Sequence[str] = ()
) -> Iterator[tuple[int, int, int]]:
    """The column, the row from the south and the height of each cell of the ground's regions
    (grounds_in); a cell of two such regions comes once."""
    grid = grid_in(calibration)
    heights, filled = grid_of_heights.heights, grid_of_heights.filled
    cells: dict[tuple[int, int], None] = {}
    for region in grounds_in(calibration, names):
        cells |= dict.fromkeys(cells_of(region, grid))
    for col, row in cells:
        if filled[row, col]:
            yield col, grid["rows"] - 1 - row, int(heights[row, col])


# Plus or minus


def sixteenth_at(height: int, camera: dict[str, int]) -> int:
    """What a sixteenth of a pixel is in height, at that height."""
    away = camera["mount"] - height
    return rounded(16 * away * away, camera["focal"] * camera["baseline"])


def sixteenth_aslant(
    middle: Middle, plane: dict[str, int], grid: Sides, points: Points
) -> int | None:
    """The same where the camera has a pose, at a middle of cells on a plane of the ground; None where
    the camera doesn't look down on that.

    A point moves by dZ / Z of its distance from the camera, along its line of sight, where its
    distance Z along the axis changes by dZ. So a plane that moves with its points rises by dZ / Z of
    the camera's height above it, upright: 16 Z A / (focal * baseline).
    """
    place = place_on(middle, plane, grid)
    away = points.mount - (place if points.pose is None else points.pose.back(*place))[2]
    east, north, up = points.centre()
    rise = plane["rise_east"] * (east - grid["west"]) + plane["rise_north"] * (north - grid["south"])
    above = up - plane["base"] - rounded(rise, 1_000_000)
    if away <= 0 or above <= 0:
        return None
    return rounded(16 * away * above, points.focal * points.baseline)


def middle_of(region: Json, grid: Sides, filled: Flags) -> Middle:
    """The sums over the region's cells that count and have a height: how many they are, and 2 col + 1
    and 2 south + 1."""
    there = filled[place_of(region)] & mask_of(region, grid)
    rows, cols = numpy.nonzero(there)
    cols, south = cols + region["col"], grid["rows"] - 1 - region["row"] - rows
    return len(cols), int((2 * cols + 1).sum()), int((2 * south + 1).sum())


def place_on(middle: Middle, plane: dict[str, int], grid: Sides) -> Point:
    """East, north and height of a middle of cells on a plane, to the nearest micrometre."""
    (n, across, along), cell = middle, grid["cell"]
    rise = (plane["rise_east"] * across + plane["rise_north"] * along) * cell
    east, north = (rounded(it * cell, 2 * n) for it in (across, along))
    return grid["west"] + east, grid["south"] + north, plane["base"] + rounded(rise, RISE_UNIT * n)


def ground_spread(heights: Collection[int] | Ints, bases: Iterable[int] | Ints) -> tuple[int, int]:
    """The mean of the ground's heights, and how far they lie, each less its base, from what they
    are so in the mean."""
    n = len(heights)
    above = [int(height) - int(base) for height, base in zip(heights, bases)]
    middle = rounded(sum(above), n)
    return rounded(sum(map(int, heights)), n), rounded(sum(abs(it - middle) for it in above), n)


def plus_minus(cells: int, cell: int, sixteenth: int, spread: int) -> int:
    """By how much a volume above the ground may be off, in cubic micrometres: `sixteenth` is what a
    sixteenth of a pixel is in height there, and `spread` how far the ground's cells lie from their
    mean."""
    return rounded(cells * cell * cell * (2 * sixteenth + 3 * spread), 6)
