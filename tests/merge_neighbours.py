"""Definitions next to that of a merge, each with a mistake: for merge_cases.py.

NEIGHBOURS has for each a holder, the name of a part of it, and another part that stands in its place.
"""

import functools
import os
from types import SimpleNamespace
from unittest import mock

import reference
import reference_inputs as inputs
import reference_lists as lists
import reference_matching as matching
from reference_inputs import REFUSED, Ended


# Places of an entry's cells


def heights_by(place):
    """Grids in whose cells a point comes to lie otherwise, or nowhere."""

    def heights(points, grid, keep="highest"):
        cols, rows = grid["cols"], grid["rows"]
        kept = [[] for _ in range(cols * rows)]
        for east, north, height in points:
            at = place(east - grid["west"], north - grid["south"], grid)
            if at is not None:
                kept[at].append(height)
        made = [matching.KEPT[keep](some) for some in kept]
        return [made[cols * row : cols * (row + 1)] for row in reversed(range(rows))]

    return heights


def by_columns_and_rows(col_of, row_of):
    def place(east, north, grid):
        col, row = col_of(east // grid["cell"], grid["cols"]), row_of(
            north // grid["cell"], grid["rows"]
        )
        if 0 <= col < grid["cols"] and 0 <= row < grid["rows"]:
            return grid["cols"] * row + col
        return None

    return heights_by(place)


def into_the_next_row(east, north, grid):
    at = grid["cols"] * (north // grid["cell"]) + east // grid["cell"]
    return at if 0 <= at < grid["cols"] * grid["rows"] else None


def of_32_bits(number):
    return (number + 2**31) % 2**32 - 2**31


PLAIN = lambda at, count: at
ROUND = lambda at, count: at % count
EDGE = lambda at, count: max(0, min(count - 1, at))
SHORT = lambda at, count: at if at < count - 1 else -1
NO_FIRST = lambda at, count: at if at > 0 else -1


def far_of_32_bits(east, north, grid):
    east, north = map(of_32_bits, (east, north))
    at = into_the_next_row(east, north, grid)
    return (
        at
        if 0 <= east // grid["cell"] < grid["cols"] and 0 <= north // grid["cell"] < grid["rows"]
        else None
    )


def points_by(place):
    """Points that stand for an entry's cells, told otherwise."""

    def points(grid, cells):
        for line, some in enumerate(cells):
            for col, height in enumerate(some):
                if height is not None:
                    yield (*place(grid, col, len(cells) - 1 - line), height)

    return points


def upside_down(grid, col, row):
    return grid["west"] + grid["cell"] * col, grid["south"] + grid["cell"] * (
        grid["rows"] - 1 - row
    )


def from_the_east(grid, col, row):
    return (
        grid["west"] + grid["cell"] * (grid["cols"] - 1 - col),
        grid["south"] + grid["cell"] * row,
    )


def exchanged(grid, col, row):
    return grid["west"] + grid["cell"] * row, grid["south"] + grid["cell"] * col


def empties_as_0(grid, cells):
    return POINTS(grid, [[height or 0 for height in row] for row in cells])


def fits_by(
    sides=("west", "south"),
    cells=lambda a, b: a == b,
    multiple=lambda apart, cell: apart % cell == 0,
):
    def fits(entry, grid):
        apart = [entry[side] - grid[side] for side in sides]
        return cells(entry["cell"], grid["cell"]) and all(
            multiple(it, grid["cell"]) for it in apart
        )

    return fits


# What is kept, and bridges


def away_from_0(a, b):
    return -matching.rounded(-a, b) if a < 0 else matching.rounded(a, b)


def towards_0(a, b):
    return -(-a // b) if a < 0 else a // b


def mean_by(quotient, some_of=list):
    """Means of what that gives of the heights, by that quotient."""

    def mean(some):
        chosen = some_of(some)
        return quotient(sum(chosen), len(chosen)) if some else None

    return mean


def pairwise(some):
    return functools.reduce(lambda a, b: matching.rounded(a + b, 2), some) if some else None


def last_of(some):
    return some[-1] if some else None


def first_of(some):
    return some[0] if some else None


def merged_once(calibration, entries):
    """Each entry once, though it stands in the list more often."""
    return MERGED(calibration, list({str(entry): entry for entry in entries}.values()))


def bridged_first(calibration, entries):
    """Each entry bridged by itself."""
    bridge = lambda cells: matching.bridged(cells, calibration.grid["cell"], calibration.bridge)
    return MERGED(calibration, [(grid, bridge(cells)) for grid, cells in entries])


def over_by(reach=lambda bridge: bridge, tallied=lambda before, cells: cells, corner=None):
    """Grids that are bridged over so many cells, and whose regions are told over those cells."""

    def over(calibration, before):
        grid, side = calibration.grid, calibration.grid["cell"]
        cells = matching.bridged(before, side, max(0, reach(calibration.bridge)))
        if calibration.regions is None:
            return cells, None
        told, at = tallied(before, cells), corner or (grid["west"], grid["south"])
        tally = (
            matching.tally
            if calibration.version < 3
            else functools.partial(matching.tally_with_bridges, before)
        )
        return cells, [tally(told, side, region, at) for region in calibration.regions]

    return over


def read_again(cells, side, most):
    return BRIDGED(BRIDGED(cells, side, most), side, most)


# What is looked at before what


def take_list(run):
    run.data = reference.fetch(run.list, lists.LONGEST_LIST, "list")


def take_calibration(run):
    run.settings = reference.fetch_calibration(run.calib)


def judge_list(run):
    run.names = reference.read_names(
        run.data, [run.out + it for it in inputs.COMMANDS["merge"].endings]
    )


def judge_calibration(run):
    run.calibration = reference.calibration_of(run.settings)


def judge_grid(run):
    if run.calibration.grid is None:
        raise Ended(REFUSED, "sgm: calibration: grid is missing")


def take_entries(run):
    numbered = enumerate(run.names)
    run.entries = [reference.fetch_entry(*it, run.calibration.grid) for it in numbered]


def entries_by_stages(run):
    """All entries are fetched, then all judged, and then all held against the cells."""
    texts = [
        reference.fetch(name, inputs.LONGEST_GRID, f"grid {number}")
        for number, name in enumerate(run.names)
    ]
    run.entries = [inputs.read_grid(text, f"grid {number}") for number, text in enumerate(texts)]
    for number, (grid, _) in enumerate(run.entries):
        if not matching.fits(grid, run.calibration.grid):
            raise Ended(REFUSED, f"sgm: grid {number}: not on the calibration's cells")


def entries_at_last(run):
    """All entries are fetched and judged before the first is held against the cells."""
    with mock.patch.object(matching, "fits", lambda *_: True):
        take_entries(run)
    take_entries(run)


def cells_first(number, name, grid):
    """An entry is held against the cells as soon as its head was read."""
    what = f"grid {number}"
    words = inputs.GRID_WORD.findall(reference.fetch(name, inputs.LONGEST_GRID, what))[:12]
    try:
        # As if it had one cell.
        head = inputs.read_grid(
            b" ".join([*words[:1], b"1", *words[2:3], b"1", *words[4:], b"0"]), what
        )[0]
    except Ended:
        return FETCH_ENTRY(number, name, grid)
    if not matching.fits(head, grid):
        raise Ended(REFUSED, f"sgm: {what}: not on the calibration's cells")
    return FETCH_ENTRY(number, name, grid)


def begin_output(run):
    reference.write(run.out + ".asc", b"", "heights")


def in_order(*stages):
    """A merge of these stages."""

    def merge(list_name, calibration_name, out):
        run = SimpleNamespace(list=list_name, calib=calibration_name, out=out)
        for stage in stages:
            stage(run)
        reference.deliver(out, *reference.merge_texts(run.calibration, run.entries))

    return merge


STAGES = [take_list, take_calibration, judge_list, judge_calibration, judge_grid, take_entries]


def exchanged_stages(at):
    return in_order(*STAGES[:at], STAGES[at + 1], STAGES[at], *STAGES[at + 2 :])


# Lists


def words_by(part=lists.WORD.findall, line_end="\n", encoding="utf-8"):
    """The words of each line, told otherwise."""

    def lines_of(data):
        try:
            return enumerate(map(part, data.decode(encoding).split(line_end)), 1)
        except UnicodeDecodeError:
            return None

    return lines_of


def without_blank_lines(data):
    found = LINES_OF(data)
    return found and enumerate((words for _, words in found if words), 1)


def from_0(data):
    found = LINES_OF(data)
    return found and ((number - 1, words) for number, words in found)


def without_last_line(data):
    return LINES_OF(data[: data.rindex(b"\n") + 1] if b"\n" in data else b"")


def without_comments(data):
    found = LINES_OF(data)
    return found and (
        (number, [] if words[:1] and words[0][0] == "#" else words) for number, words in found
    )


def first_words(data):
    found = LINES_OF(data)
    return found and ((number, words[:1]) for number, words in found)


def as_far_as_text(data):
    return LINES_OF(data.decode("utf-8", "ignore").encode())


def compared_by(change):
    """A list whose names are compared with the outputs in another form."""

    def names(data, outputs):
        found = READ_NAMES(data, ())
        READ_NAMES("\n".join(map(change, found)).encode(), list(map(change, outputs)))
        return found

    return names


def last_output(data, outputs):
    """Of several entries that are outputs the last one is named."""
    found = READ_NAMES(data, ())
    for number in reversed(range(len(found))):
        if found[number] in outputs:
            raise Ended(REFUSED, f"sgm: list: grid {number} is also an output")
    return found


def outputs_before_counts(data, outputs):
    with mock.patch.object(lists, "MOST_ENTRIES", 10**9):
        READ_NAMES(data, outputs)
    return READ_NAMES(data, ())


def without_entries(data, outputs):
    try:
        return READ_NAMES(data, outputs)
    except Ended as end:
        if end.line == "sgm: list: no entries":
            return []
        raise


def counts_before_lines(data, outputs):
    found = LINES_OF(data)
    count = sum(len(words[:1]) for _, words in found) if found else 1
    for fault, line in ((not count, "no entries"), (count > 1000, "too many entries")):
        if fault:
            raise Ended(REFUSED, f"sgm: list: {line}")
    return READ_NAMES(data, outputs)


POINTS, BRIDGED, MERGED, FETCH_ENTRY = (
    matching.points_in,
    matching.bridged,
    matching.merged,
    reference.fetch_entry,
)
LINES_OF, READ_NAMES, TABLE_TEXT = lists.lines_of, lists.read_names, reference.table_text
HALVES_DOWN = lambda a, b: -((b - 2 * a) // (2 * b))


def kept(name, keep):
    return matching, "KEPT", {**matching.KEPT, name: keep}


def with_endings(*endings):
    made = inputs.Command(names=3, endings=endings)
    return inputs.COMMANDS, "merge", made


# A part of the reference, and another one in its place.
NEIGHBOURS = {
    "means rounded towards 0": kept("mean", mean_by(towards_0)),
    "means rounded down": kept("mean", mean_by(lambda a, b: a // b)),
    "means with halves down": kept("mean", mean_by(HALVES_DOWN)),
    "means with halves away from 0": kept("mean", mean_by(away_from_0)),
    "sums for means": kept("mean", mean_by(lambda a, b: a)),
    "the greatest for the mean": kept("mean", matching.KEPT["highest"]),
    "the mean for the greatest": kept("highest", matching.KEPT["mean"]),
    "the least for the greatest": kept("highest", lambda some: min(some, default=None)),
    "the later one wins, of means": kept("mean", last_of),
    "the later one wins, of the highest": kept("highest", last_of),
    "the first one wins, of means": kept("mean", first_of),
    "the first one wins, of the highest": kept("highest", first_of),
    "the middle of the ends": kept(
        "mean", mean_by(matching.rounded, lambda some: [min(some), max(some)] if some else [])
    ),
    "means of means": kept("mean", pairwise),
    "equal heights once": kept("mean", mean_by(matching.rounded, set)),
    "sums of 32 bits": kept("mean", mean_by(lambda a, b: matching.rounded(of_32_bits(a), b))),
    "greatest from 0 on": kept("highest", lambda some: max([0, *some]) if some else None),
    "empty cells are 0": (matching, "points_in", empties_as_0),
    "an entry counts once": (matching, "merged", merged_once),
    "columns wrapped round": (matching, "heights", by_columns_and_rows(ROUND, PLAIN)),
    "rows wrapped round": (matching, "heights", by_columns_and_rows(PLAIN, ROUND)),
    "columns beyond moved to the edge": (matching, "heights", by_columns_and_rows(EDGE, PLAIN)),
    "rows beyond moved to the edge": (matching, "heights", by_columns_and_rows(PLAIN, EDGE)),
    "columns run into the next row": (matching, "heights", heights_by(into_the_next_row)),
    "without the last column": (matching, "heights", by_columns_and_rows(SHORT, PLAIN)),
    "without the last row": (matching, "heights", by_columns_and_rows(PLAIN, SHORT)),
    "without the first column": (matching, "heights", by_columns_and_rows(NO_FIRST, PLAIN)),
    "without the first row": (matching, "heights", by_columns_and_rows(PLAIN, NO_FIRST)),
    "places of 32 bits": (matching, "heights", heights_by(far_of_32_bits)),
    "entries upside down": (matching, "points_in", points_by(upside_down)),
    "entries from the east": (matching, "points_in", points_by(from_the_east)),
    "columns and rows exchanged": (matching, "points_in", points_by(exchanged)),
    "any cells fit": (matching, "fits", lambda *_: True),
    "cells of any size fit": (matching, "fits", fits_by(cells=lambda *_: True)),
    "larger cells fit": (matching, "fits", fits_by(cells=lambda a, b: a % b == 0)),
    "smaller cells fit": (matching, "fits", fits_by(cells=lambda a, b: b % a == 0)),
    "west sides alone": (matching, "fits", fits_by(("west",))),
    "south sides alone": (matching, "fits", fits_by(("south",))),
    "the same sides alone": (matching, "fits", fits_by(multiple=lambda apart, _: apart == 0)),
    "sides beyond the grid's alone": (
        matching,
        "fits",
        fits_by(multiple=lambda apart, cell: apart % cell == 0 <= apart),
    ),
    "halves of cells fit": (
        matching,
        "fits",
        fits_by(multiple=lambda apart, cell: 2 * apart % cell == 0),
    ),
    "twice the cells fit": (
        matching,
        "fits",
        fits_by(multiple=lambda apart, cell: apart % (2 * cell) == 0),
    ),
    "sides apart by 32 bits": (
        matching,
        "fits",
        fits_by(multiple=lambda apart, cell: of_32_bits(apart) % cell == 0),
    ),
    "sides that are whole cells": (
        matching,
        "fits",
        lambda entry, grid: entry["cell"] == grid["cell"]
        and entry["west"] % entry["cell"] == entry["south"] % entry["cell"] == 0,
    ),
    "entries bridged first": (matching, "merged", bridged_first),
    "bridges read": (matching, "bridged", read_again),
    "not bridged": (matching, "over", over_by(lambda _: 0)),
    "a reach shorter by one": (matching, "over", over_by(lambda bridge: bridge - 1)),
    "a reach longer by one": (matching, "over", over_by(lambda bridge: bridge + 1)),
    "regions over what isn't bridged": (
        matching,
        "over",
        over_by(tallied=lambda before, _: before),
    ),
    "outlines from 0": (matching, "over", over_by(corner=(0, 0))),
    "no bridges told": (matching, "bridges_in", lambda *_: 0),
    "outlines left out": (matching, "counts", lambda *_: True),
    "level bases": (matching, "base_at", lambda region, *_: region["base"]),
    "the table of version 3": (
        reference,
        "table_text",
        lambda regions, tallies, version: TABLE_TEXT(regions, tallies, 3),
    ),
    "the table of version 1": (
        reference,
        "table_text",
        lambda regions, tallies, version: TABLE_TEXT(regions, tallies, 1),
    ),
    "means in version 1": (inputs.Calibration, "keep", "mean"),
    "bridges in version 1": (inputs.Calibration, "bridge", 2),
    "a table without regions": (
        reference,
        "ground_texts",
        lambda made, cells, tallies: [
            (".asc", reference.grid_text(made.grid, cells), "heights"),
            (".csv", TABLE_TEXT(made.regions or [], tallies or [], made.version), "report"),
        ],
    ),
    "OUT.csv may be an input": with_endings(".asc"),
    "OUT.asc may be an input": with_endings(".csv"),
    "OUT.pgm is an output": with_endings(".pgm", ".asc", ".csv"),
    "OUT is an output": with_endings("", ".asc", ".csv"),
    "options are taken": (
        inputs.COMMANDS,
        "merge",
        inputs.Command(names=3, takes_options=True, endings=(".asc", ".csv")),
    ),
    "`-` is a calibration's name": (
        reference,
        "fetch_calibration",
        lambda name: reference.fetch(name, inputs.LONGEST_CALIBRATION, "calibration"),
    ),
    "a longer calibration": (inputs, "LONGEST_CALIBRATION", 2**25),
    "a longer list": (reference, "LONGEST_LIST", 2**21),
    "a shorter list": (reference, "LONGEST_LIST", 2**20 - 1),
    "a longer grid": (reference, "LONGEST_GRID", 2**29),
    "the calibration's lines for the list": (
        reference,
        "read_names",
        lambda data, _: READ_NAMES(data, ()),
    ),
    "the list judged before the calibration is read": (reference, "merge", exchanged_stages(1)),
    "the calibration read before the list": (reference, "merge", exchanged_stages(0)),
    "the calibration judged before the list": (reference, "merge", exchanged_stages(2)),
    "entries before the grid": (
        reference,
        "merge",
        in_order(
            *STAGES[:4],
            lambda run: [
                reference.fetch(it, 2**28, f"grid {n}") for n, it in enumerate(run.names)
            ],
            *STAGES[4:],
        ),
    ),
    "entries by stages": (reference, "merge", in_order(*STAGES[:-1], entries_by_stages)),
    "cells of all entries at last": (reference, "merge", in_order(*STAGES[:-1], entries_at_last)),
    "an output begun first": (
        reference,
        "merge",
        in_order(*STAGES[:-1], begin_output, take_entries),
    ),
    "cells before heights": (reference, "fetch_entry", cells_first),
    "entries from 1": (
        reference,
        "fetch_entry",
        lambda number, *more: FETCH_ENTRY(number + 1, *more),
    ),
    "lines from 0": (lists, "lines_of", from_0),
    "blank lines not counted": (lists, "lines_of", without_blank_lines),
    "the last line needs its end": (lists, "lines_of", without_last_line),
    "lines of comments": (lists, "lines_of", without_comments),
    "the first word of each line": (lists, "lines_of", first_words),
    "what is no text left out": (lists, "lines_of", as_far_as_text),
    "CR ends lines": (lists, "lines_of", lambda data: LINES_OF(data.replace(b"\r", b"\n"))),
    "TABs in words": (
        lists,
        "lines_of",
        words_by(lambda line: [it for it in line.replace("\r", " ").split(" ") if it]),
    ),
    "CR in words": (
        lists,
        "lines_of",
        words_by(lambda line: [it for it in line.replace("\t", " ").split(" ") if it]),
    ),
    "spaces of all kinds": (lists, "lines_of", words_by(str.split)),
    "lines end at all kinds": (
        lists,
        "lines_of",
        lambda data: LINES_OF(
            "\n".join(data.decode(errors="surrogateescape").splitlines()).encode(
                errors="surrogateescape"
            )
        ),
    ),
    "a mark of byte order left out": (lists, "lines_of", words_by(encoding="utf-8-sig")),
    "bytes for letters": (lists, "lines_of", words_by(encoding="latin-1")),
    "999 entries": (lists, "MOST_ENTRIES", 999),
    "1001 entries": (lists, "MOST_ENTRIES", 1001),
    "a list without entries": (reference, "read_names", without_entries),
    "counts before lines": (reference, "read_names", counts_before_lines),
    "outputs before counts": (reference, "read_names", outputs_before_counts),
    "the last output": (reference, "read_names", last_output),
    "OUT.csv may be an entry": (
        reference,
        "read_names",
        lambda data, outputs: READ_NAMES(data, outputs[:1]),
    ),
    "OUT.asc may be an entry": (
        reference,
        "read_names",
        lambda data, outputs: READ_NAMES(data, outputs[1:]),
    ),
    "names compared as paths": (reference, "read_names", compared_by(os.path.normpath)),
    "names compared in any case": (reference, "read_names", compared_by(str.lower)),
}
