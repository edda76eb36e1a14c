#!/usr/bin/env python3
"""Prints cases of points that become cells, with answers, for the stored runs of crates/sgm_cases.

    tests/cells_cases.py [--kinds | --check | --write]

A case is two lines. The reference works the answers out:

    cells COLS ROWS CELL KEEP BRIDGE | X,Y,H X,Y,H ..
    the heights of all cells

The grid's west and south sides are 0, CELL is the side of a cell, KEEP is highest or mean, BRIDGE
is over how many cells heights are bridged, and the points are added in their order; without points
the line ends behind BRIDGE. The heights go row by row from the north, with one space between two,
and - for an empty cell. The worked rows come first, then grids that look random and are the same at
each run. Together they have cells of all the kinds that KINDS names; where one has none that is
said, and the status is 1.

With --kinds the number of cells of each kind is printed. --check says whether these cases stand in
crates/sgm_cases/stdin, and no other ones of their kind, and --write puts them there, in front of
all others.
"""

import argparse
import collections
import os
import sys
from typing import NamedTuple
from unittest import mock

import reference_matching as matching
from random_inputs import Draw
from reference_inputs import HIGHEST, RANGES
from test_reference_cells import BRIDGES, MEANS

HERE = os.path.dirname(os.path.abspath(__file__))
STORED = os.path.join(HERE, "..", "crates", "sgm_cases", "stdin")
SEED, RANDOM_CASES = 52, 72
# How far to the east and to the north a point may lie.
FARTHEST = 2**60


class Case(NamedTuple):
    cols: int
    rows: int
    cell: int
    keep: str
    bridge: int
    points: list

    def before(self):
        """The cells without their bridges."""
        grid = {"west": 0, "south": 0, "cell": self.cell, "cols": self.cols, "rows": self.rows}
        return matching.heights(self.points, grid, self.keep)

    def heights(self):
        return matching.bridged(self.before(), self.cell, self.bridge)


# Kinds of cells


def halves_down(a, b):
    return -((b - 2 * a) // (2 * b))


def halves_away(a, b):
    """The nearest whole number, halves away from 0."""
    return (2 * a + b) // (2 * b) if a > 0 else -((b - 2 * a) // (2 * b))


def read_again(cells, side, most):
    """Bridges that rest on bridges too."""
    return BRIDGED(BRIDGED(cells, side, most), side, most)


def ends_of(line, at, most):
    """What a line of cells has on both sides of a cell: how far away and how high, or None."""
    return [MET(line, at, step, most) for step in (-1, 1)]


def spanned_up_to(steepest):
    """Bridges that rise by at most what this gives for their cells and the side of one."""

    def spanned(line, at, side, most):
        ends = ends_of(line, at, most)
        if None in ends:
            return None
        (n, a), (k, b) = ends
        is_gentle = abs(a - b) <= steepest(n + k, side)
        return matching.rounded(a * k + b * n, n + k) if is_gentle else None

    return spanned


def unweighted(line, at, side, most):
    """The mean of both ends, wherever the cell lies between them."""
    if SPANNED(line, at, side, most) is None:
        return None
    return matching.rounded(sum(height for _, height in ends_of(line, at, most)), 2)


def first_of(some):
    return some[0] if some else None


MET, SPANNED, BRIDGED = matching.met_along, matching.spanned, matching.bridged
# Definitions next to the right ones: a part's name, and another one in its place.
NEIGHBOURS = {
    "halves down": ("rounded", halves_down),
    "halves away from 0": ("rounded", halves_away),
    "rounded down": ("rounded", lambda a, b: a // b),
    "bridges read": ("bridged", read_again),
    "a reach shorter by one": ("met_along", lambda *it: MET(*it[:3], it[3] - 1)),
    "a reach longer by one": ("met_along", lambda *it: MET(*it[:3], it[3] + 1)),
    "steep where it just isn't": ("spanned", spanned_up_to(lambda n, side: n * side - 1)),
    "gentle by one more": ("spanned", spanned_up_to(lambda n, side: n * side + 1)),
    "gentle by a cell less": ("spanned", spanned_up_to(lambda n, side: (n - 1) * side)),
    "never steep": ("spanned", spanned_up_to(lambda n, side: 2**40)),
    "one end alone": ("met_along", lambda *it: MET(*it) or MET(*it[:2], -it[2], it[3])),
    "halfway everywhere": ("spanned", unweighted),
    "the row alone where both are": ("mean_height", first_of),
}


def kinds_of(case):
    """The kinds of all cells, one after the other."""
    before, made = case.before(), case.heights()
    for name, (part, other) in NEIGHBOURS.items():
        with mock.patch.object(matching, part, other):
            if case.heights() != made:
                yield f"not {name}"
    yield from kinds_of_points(case)
    columns = list(zip(*before))
    for row, line in enumerate(before):
        for col, height in enumerate(line):
            if height is None and case.bridge:
                along = (line, col), (columns[col], row)
                yield from kinds_of_bridge(case, along, made[row][col])
    yield from some(one_cell=case.cols * case.rows == 1, one_row=case.rows == 1 < case.cols)
    yield from some(one_column=case.cols == 1 < case.rows, no_points=not case.points)


def some(**kinds):
    """The names of those that hold, with spaces in them."""
    return [name.replace("_", " ") for name, holds in kinds.items() if holds]


def kinds_of_points(case):
    into = collections.defaultdict(list)
    for across, up, height in case.points:
        col, row = across // case.cell, up // case.cell
        is_inside = 0 <= col < case.cols and 0 <= row < case.rows
        where, last = "inside" if is_inside else "outside", case.cell - 1
        sides = some(west=across % case.cell == 0, south=up % case.cell == 0)
        sides += some(east=across % case.cell == last, north=up % case.cell == last)
        yield from (f"{where} at a side in the {side}" for side in sides)
        yield from some(as_far_as_can_be=FARTHEST in (abs(across), abs(up)), outside=not is_inside)
        if is_inside:
            into[col, row].append(height)
    for heights in into.values():
        total, bits = sum(heights), sum(heights).bit_length()
        yield f"{case.keep} of {'one' if len(heights) == 1 else 'several'}"
        yield from some(sum_above_32_bits=bits > 31, sum_above_33_bits=bits > 33)
        yield from some(below_0=total < 0, both_signs=min(heights) < 0 < max(heights))
        yield from some(greatest_height=HIGHEST in heights, least_height=-HIGHEST in heights)
        is_half = 2 * (total % len(heights)) == len(heights)
        yield from some(half_above_0=is_half and total > 0, half_below_0=is_half and total < 0)


def kinds_of_bridge(case, along, made):
    """What the row and the column of an empty cell have for it."""
    given = []
    for line, at in along:
        ends, further = (ends_of(line, at, most) for most in (case.bridge, 4096))
        given.append(SPANNED(line, at, case.cell, case.bridge))
        yield from some(an_end_alone=ends.count(None) == 1)
        yield from some(an_end_too_far=None in ends and None not in further)
        if None not in ends:
            (n, a), (k, b) = ends
            over = abs(a - b) - (n + k) * case.cell
            yield from some(steep=over > 0, just_steep=over == 1, just_not_steep=over == 0)
            yield from some(uneven=n != k, as_far_as_it_goes=n == k == case.bridge)
            yield from some(from_end_to_end={a, b} == {HIGHEST, -HIGHEST} and over <= 0)
            yield from some(eight_and_eight=n == k == 8, downwards=a > b, upwards=a < b)
    row, column = given
    yield from some(by_the_row=row is not None and column is None)
    yield from some(by_the_column=row is None and column is not None)
    yield from some(by_both=None not in given, stays_empty=made is None)
    if None not in given:
        is_half = sum(given) % 2 == 1
        yield from some(half_of_both=is_half, half_of_both_below_0=is_half and sum(given) < 0)


# Each has to be there.
KINDS = [f"not {name}" for name in NEIGHBOURS]
KINDS += [f"{keep} of {number}" for keep in ("highest", "mean") for number in ("one", "several")]
KINDS += [f"inside at a side in the {side}" for side in ("west", "east", "south", "north")]
KINDS += [f"outside at a side in the {side}" for side in ("west", "north")]
KINDS += ["outside", "as far as can be", "greatest height", "least height", "below 0", "both signs"]
KINDS += ["sum above 32 bits", "sum above 33 bits", "half above 0", "half below 0"]
KINDS += ["one cell", "one row", "one column", "no points"]
KINDS += ["by the row", "by the column", "by both", "half of both", "half of both below 0", "stays empty", "an end alone", "an end too far"]
KINDS += ["steep", "just steep", "just not steep", "from end to end"]
KINDS += ["uneven", "as far as it goes", "eight and eight", "downwards", "upwards"]


# Cases


def point_in(draw, grid, col, row, height):
    """A point of that height somewhere in a cell of a grid of so many rows, often on a side."""
    rows, cell = grid
    place = lambda: draw.of([0, cell - 1, cell // 2, draw.below(cell)])
    return (col * cell + place(), (rows - 1 - row) * cell + place(), height)


def points_of(draw, cells, cell):
    """A point for each cell that has a height."""
    numbered = ((col, row, it) for row, line in enumerate(cells) for col, it in enumerate(line))
    full = [place for place in numbered if place[2] is not None]
    return draw.shuffled([point_in(draw, (len(cells), cell), *place) for place in full])


def case_of_cells(draw, cells, cell, keep, bridge):
    return Case(len(cells[0]), len(cells), cell, keep, bridge, points_of(draw, cells, cell))


def worked_cases():
    """The rows that were worked out by hand."""
    draw = Draw(SEED, 0)
    for number, (heights, _) in enumerate(MEANS):
        points = [point_in(draw, (1, 10), 0, 0, height) for height in heights]
        yield Case(1, 1, 10, "mean", number % 3, points)
    for side, most, cells, _ in BRIDGES:
        for keep in ("highest", "mean"):
            yield case_of_cells(draw, cells, side, keep, most)
    yield Case(3, 2, 7, "mean", 8, [])
    yield Case(1, 1, 1, "highest", 0, [])


def mean_case(draw, number):
    """Some cells with many points, at both ends of the range or near 0."""
    most = draw.of([3, 1000, HIGHEST])
    height = lambda: draw.of([-most, most, -most + 1, most - 1, draw.between(-most, most)])
    cols, rows, cell = draw.between(1, 3), draw.between(1, 2), draw.of([1, 2, 1000, 1000000000])
    places = [(draw.below(cols), draw.below(rows)) for _ in range(draw.between(2, 20))]
    points = [point_in(draw, (rows, cell), *place, height()) for place in places]
    # Now and then all of them lie at one end.
    if draw.chance(40):
        end = draw.of([1, -1])
        points = [(across, up, end * (most - draw.of([0, 0, 1]))) for across, up, _ in points]
    keep = draw.of(["mean", "mean", "highest"])
    return Case(cols, rows, cell, keep, draw.of([0, 0, 1]), points)


def side_case(draw, number):
    """Points next to the sides of the grid, inside and outside."""
    cols, rows, cell = draw.between(1, 3), draw.between(1, 3), draw.of([1, 5, 1000])
    ends = lambda most: [-FARTHEST, FARTHEST, -1, 0, most - 1, most, draw.below(most)]
    near = lambda count: draw.of(ends(count * cell))
    points = [(near(cols), near(rows), draw.between(-9, 9)) for _ in range(draw.between(3, 14))]
    return Case(cols, rows, cell, draw.of(["mean", "highest"]), 0, points)


def line_case(draw, number):
    """One line with gaps of all lengths, in which heights go up and down by about a cell's side."""
    cell, bridge = draw.of([1, 7, 100, 1000000]), draw.of([1, 2, 3, 8, draw.between(0, 8)])
    gap = lambda: [None] * draw.of([0, 1, bridge, 2 * bridge - 1, 2 * bridge, draw.below(9)])
    line, height = gap(), draw.between(-3 * cell, 3 * cell)
    for _ in range(draw.between(2, 4)):
        line.append(height)
        between = gap()
        line += between
        reach = (len(between) + 1) * cell
        height += draw.of([-1, 1]) * draw.of([0, reach // 2, reach, reach, reach + 1, 2 * reach])
    cells = [line] if draw.chance(50) else [[it] for it in line]
    return case_of_cells(draw, cells, cell, draw.of(["mean", "highest"]), bridge)


def ground_case(draw, number):
    """A ground with holes."""
    cols, rows, cell = draw.between(3, 7), draw.between(3, 6), draw.of([3, 100, 125000])
    slopes = [draw.between(-cell, cell) for _ in range(2)]
    rough = draw.of([1, cell // 3 + 1, 2 * cell])
    height = lambda col, row: slopes[0] * col + slopes[1] * row + draw.between(-rough, rough)
    empty = draw.of([30, 55, 75])
    cell_at = lambda col, row: None if draw.chance(empty) else height(col, row)
    cells = [[cell_at(col, row) for col in range(cols)] for row in range(rows)]
    return case_of_cells(draw, cells, cell, "mean", draw.of([1, 2, 2, 3, 8]))


def cross_case(draw, number):
    """An empty cell with a height to each side, at such distances that its row and its column tell
    much the same, and something on their steepness."""
    cell, bridge = draw.of([2, 50, 1000]), draw.of([1, 2, 4])
    away = [draw.between(1, bridge + 1 if draw.chance(20) else bridge) for _ in range(4)]
    west, east, north, south = away
    cells = [[None] * (west + 1 + east) for _ in range(north + 1 + south)]
    low = draw.between(-2 * cell, cell)
    rise = lambda n: draw.of([0, 1, n * cell, n * cell + 1, draw.below(n * cell + 1)])
    rises = rise(west + east), rise(north + south)
    cells[north][0], cells[north][-1] = draw.shuffled([low, low + rises[0]])
    cells[0][west], cells[-1][west] = draw.shuffled([low + draw.below(3), low + rises[1]])
    return case_of_cells(draw, cells, cell, draw.of(["mean", "highest"]), bridge)


def greatest_case(draw, number):
    """Heights at both ends of the range, over cells so wide that bridges lead across."""
    cell = draw.of([1000000000, 1000000000, 999999999, 500000000])
    bridge = draw.of([2, 3, 4, 8])
    n, k = draw.between(1, bridge), draw.between(1, bridge)
    ends = draw.shuffled([HIGHEST, -HIGHEST])
    if number % 2:
        ends = [draw.of([HIGHEST, -HIGHEST, HIGHEST - 1, 0]) for _ in range(2)]
    line = [ends[0]] + [None] * (n + k - 1) + [ends[1]]
    cells = [line] if draw.chance(50) else [[it] for it in line]
    return case_of_cells(draw, cells, cell, draw.of(["mean", "highest"]), bridge)


def long_case(draw, number):
    """The longest bridge, of 16 cells, or one by a cell too long."""
    length, cell = 15 + number % 3, draw.of([1, 100])
    first = draw.between(-99, 99)
    last = first + draw.of([-1, 1]) * draw.below((length + 1) * cell + 1)
    line = [first] + [None] * length + [last]
    cells = [line] if draw.chance(50) else [[it] for it in line]
    return case_of_cells(draw, cells, cell, draw.of(["mean", "highest"]), 8)


MAKERS = [mean_case, side_case, line_case, ground_case, cross_case, greatest_case]
MAKERS += [mean_case, cross_case, line_case, long_case]


def random_case(number):
    """A case that its number alone makes."""
    return MAKERS[number % len(MAKERS)](Draw(SEED, number), number // len(MAKERS))


def cases():
    yield from worked_cases()
    yield from map(random_case, range(1, RANDOM_CASES + 1))


def is_possible(case):
    """Whether a calibration could have the grid, and the points could fall into it."""
    sides = {"cols": case.cols, "rows": case.rows, "cell": case.cell, "bridge": case.bridge}
    for name, value in sides.items():
        low, high = RANGES["grid." + name]
        if not low <= value <= high:
            return False
    places = [abs(place) for point in case.points for place in point[:2]]
    return max(places, default=0) <= FARTHEST and all(abs(it[2]) <= HIGHEST for it in case.points)


# Lines


def lines():
    """The lines of all cases, each followed by its answer."""
    for case in cases():
        points = " ".join(",".join(map(str, point)) for point in case.points)
        yield f"cells {' '.join(map(str, case[:-1]))}" + (f" | {points}" if points else "")
        yield " ".join("-" if it is None else str(it) for row in case.heights() for it in row)


def pairs_of(lines):
    return [lines[at : at + 2] for at in range(0, len(lines) - 1, 2)]


def hold(wanted, is_writing):
    """Compares the stored cases with these, or puts these in their place."""
    with open(STORED, encoding="utf-8", newline="") as file:
        pairs = pairs_of(file.read().split("\n"))
    stored = [pair for pair in pairs if pair[0].startswith("cells ")]
    if is_writing:
        others = [pair for pair in pairs if pair not in stored]
        with open(STORED, "w", encoding="utf-8", newline="") as file:
            file.writelines(line + "\n" for pair in [*wanted, *others] for line in pair)
        print(f"cells_cases: {len(wanted)} cases written")
        return 0
    differ = [case for case, answer in wanted if [case, answer] not in stored]
    if stored == wanted:
        print(f"cells_cases: {len(wanted)} cases the same")
        return 0
    print(f"cells_cases: {len(differ)} of {len(wanted)} cases differ or are missing")
    return 1


def main():
    epilog = "Example: tests/cells_cases.py > /tmp/cells"
    parser = argparse.ArgumentParser(description=__doc__.split("\n\n")[0], epilog=epilog)
    way = parser.add_mutually_exclusive_group()
    way.add_argument("--kinds", action="store_true", help="print how many cells are of each kind")
    way.add_argument("--check", action="store_true", help="compare with the stored cases")
    way.add_argument("--write", action="store_true", help="write the stored cases anew")
    words = parser.parse_args()
    assert all(map(is_possible, cases()))
    counted = collections.Counter(kind for case in cases() for kind in kinds_of(case))
    missing = [kind for kind in KINDS if not counted[kind]]
    if missing:
        print(f"cells_cases: no cell of these kinds: {', '.join(missing)}", file=sys.stderr)
    if words.kinds:
        print("\n".join(f"{counted[kind]} {kind}" for kind in KINDS))
    elif words.check or words.write:
        return hold(pairs_of([*lines(), ""]), words.write) or bool(missing)
    else:
        print("\n".join(lines()))
    return 1 if missing else 0


if __name__ == "__main__":
    try:
        sys.exit(main())
    except OSError as error:
        sys.exit(f"cells_cases: {error}")
