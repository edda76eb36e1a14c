"""Why a pixel has the disparity that it has: certificates for it and for those beside it, and what its finer
disparity is made of, in lines of text."""

from __future__ import annotations

import dataclasses
import json
import os
import tempfile
from collections.abc import Iterator, Sequence

from sgm_tools.certificates import DIRECTIONS, Pair, Ray, fault
from sgm_tools.exact import decimal, sixteenths
from sgm_tools.files import read_disparities
from sgm_tools.fine_steps import Finer, Mean, Rise
from sgm_tools.kinds import Json
from sgm_tools.points import Points
from sgm_tools.programs import run_program
from sgm_tools.running import Wrong, progress


@dataclasses.dataclass(frozen=True)
class Question:
    """The pixel that is asked about, both pictures, the calibration's file or -, and the program."""

    left: str
    right: str
    calib: str
    x: int
    y: int
    program: str


class Map:
    """The disparities of a match: sixteenths above the first one."""

    def __init__(self, asked: Question, calib: str, folder: str) -> None:
        progress("matching")
        out = os.path.join(folder, "o")
        run_program(asked.program, "match", asked.left, asked.right, calib, out)
        self.values, self.filled = read_disparities(out + ".pgm")

    def at(self, x: int, y: int) -> int | None:
        """The disparity at a pixel; None where there is none, or no such pixel."""
        height, width = self.values.shape
        has_value = 0 <= x < width and 0 <= y < height and self.filled[y, x]
        return int(self.values[y, x]) if has_value else None


def is_fine(calibration: Json) -> bool:
    return calibration["disparities"].get("fine") is True


def maps_of(asked: Question, calibration: Json) -> tuple[Map, Map]:
    """What matches come to: without finer disparities, and as the calibration has it."""
    with tempfile.TemporaryDirectory(prefix="sgm-explain_pixel.") as folder:
        made = Map(asked, asked.calib, folder)
        if not is_fine(calibration):
            return made, made
        other = {**calibration, "disparities": {**calibration["disparities"], "fine": False}}
        calib = os.path.join(folder, "c.json")
        with open(calib, "w", encoding="utf-8") as file:
            json.dump(other, file)
        return Map(asked, calib, folder), made


# Sums


class Direction:
    """A direction's line to the pixel: its path values for every index, and the certificates that were checked."""

    def __init__(self, pair: Pair, name: str, x: int, y: int) -> None:
        self.name, self.ray = name, Ray(pair, name, x, y)
        self.before = min(self.ray.least[-2]) if len(self.ray.pixels) > 1 else 0
        self.paths = [energy - self.before for energy in self.ray.least[-1]]
        self.costs, self.small, self.large = 0, 0, 0

    def check(self, d: int, text: str) -> None:
        found = fault(self.ray, d, text)
        if found:
            raise Wrong(f"the certificate of {self.name} and index {d} doesn't hold: {found}")

    def count(self, text: str) -> None:
        """What the certificate is made of: its costs, and how many changes by one and larger ones it has."""
        steps = [list(map(int, line.split())) for line in text.splitlines()[1:]]
        changes = [abs(here[2] - before[2]) for before, here in zip(steps, steps[1:])]
        self.costs = sum(step[3] for step in steps)
        self.small, self.large = changes.count(1), sum(change > 1 for change in changes)


def directions_of(pair: Pair, asked: Question) -> list[Direction]:
    made = []
    for number, name in enumerate(DIRECTIONS):
        progress(f"adding up direction {number + 1} of {len(DIRECTIONS)}")
        made.append(Direction(pair, name, asked.x, asked.y))
    return made


def check_certificates(
    asked: Question,
    directions: list[Direction],
    indices: list[int],
    chosen: int,
) -> None:
    """Asks the program for each certificate and checks it."""
    for number, direction in enumerate(directions):
        progress(f"checking direction {number + 1} of {len(directions)}")
        for d in indices:
            place = (direction.name, asked.x, asked.y, d)
            text = run_program(asked.program, "trace", asked.left, asked.right, asked.calib, *place)
            direction.check(d, text)
            if d == chosen:
                direction.count(text)


def offset(before: int, at: int, after: int) -> int:
    """How far the parabola through three sums has its lowest point from the middle one, in sixteenths."""
    a, c = before - at, after - at
    return (16 * (a - c) + (a + c)) // (2 * (a + c))


def columns(lines: Sequence[Sequence[object]]) -> Iterator[str]:
    """Lines of words in columns, the first to the left and the others to the right."""
    widths = [max(len(str(line[at])) for line in lines) for at in range(len(lines[0]))]
    for line in lines:
        words = [str(line[0]).ljust(widths[0]), *(str(word).rjust(width) for word, width in zip(line[1:], widths[1:]))]
        yield "  ".join(words).rstrip()


def table(directions: list[Direction], indices: list[int], chosen: int) -> Iterator[str]:
    head: list[object] = ["direction", "pixels", *(f"index {d}" for d in indices), "costs", "by one", "larger"]
    lines = [head]
    for it in directions:
        lines.append([it.name, len(it.ray.pixels), *(it.paths[d] for d in indices), it.costs, it.small, it.large])
    lines.append(["sum", "", *(sum(it.paths[d] for it in directions) for d in indices), "", "", ""])
    return columns(lines)


def comparison(sums: list[int], chosen: int, first: int) -> Iterator[str]:
    """By how much the chosen index wins."""
    at = sums[chosen]
    for d, where in ((chosen - 1, "before"), (chosen + 1, "after")):
        if 0 <= d < len(sums):
            yield f"The one {where} it, disparity {first + d}, comes to {sums[d]}: {sums[d] - at} more."
    others = [d for d in range(len(sums)) if abs(d - chosen) > 1]
    if others:
        best = min(others, key=sums.__getitem__)
        yield f"Of all others disparity {first + best} comes nearest, with {sums[best]}: {sums[best] - at} more."


def smoothing(pair: Pair, x: int, y: int, d: int) -> Iterator[str]:
    """What the cost of an index at the pixel is made of, where it is a mean along the row."""
    if pair.version < 3:
        return
    columns = [max(0, x - 1), x, min(pair.left.width - 1, x + 1)]
    before, own, behind = (pair.single_cost(column, y, d) for column in columns)
    yield f"The cost of index {d} at this pixel is {pair.cost(x, y, d)}: in version 3 it is a mean along the row, of the single costs"
    yield "{}, {} and {} at the columns {}, {} and {},".format(before, own, behind, *columns)
    yield "the middle one counted twice. A single cost says in how many places the two codes differ; where one is"
    yield f"missing it is {pair.missing}."
    yield ""


def partner(pair: Pair, x: int, y: int, chosen: int) -> str:
    """Why the pixel can't have a disparity, whatever the sums are, or what the check must have found."""
    q = x - pair.first - chosen
    if not 0 <= q < pair.left.width:
        return f"its partner would be column {q} of the right picture, which isn't there."
    if pair.left.value(x, y) is None or pair.right.value(q, y) is None:
        return "one of the two rectified pictures has no source there."
    return f"seen from column {q} of the right picture another disparity is better, so the check took it out."


def explain(
    pair: Pair,
    asked: Question,
    value: int | None,
    directions: list[Direction],
    indices: list[int],
    chosen: int,
) -> Iterator[str]:
    sums = [sum(it.paths[d] for it in directions) for d in range(pair.count)]
    tried = f"{pair.first} to {pair.first + pair.count - 1}"
    yield f"Pixel {asked.x} {asked.y}: disparities {tried} were tried, index 0 being the first."
    yield "The lines of pixels that lead to it from eight sides, and what each index costs at their end:"
    yield ""
    yield from table(directions, indices, chosen)
    yield ""
    yield f"All {len(directions) * len(indices)} certificates hold. A column `index` has their energies, less what the"
    yield "line before the pixel costs at least, which is the same for every index. The last three columns say"
    yield f"what the certificates of index {chosen} are made of: costs of pixels, changes by one, larger ones."
    yield ""
    yield from smoothing(pair, asked.x, asked.y, chosen)
    yield f"Index {chosen}, disparity {pair.first + chosen}, has the least sum, {sums[chosen]}."
    yield from comparison(sums, chosen, pair.first)
    moved = offset(*sums[chosen - 1 : chosen + 2]) if 0 < chosen < pair.count - 1 else 0
    if moved:
        where = "below" if moved < 0 else "above"
        yield f"The parabola through the three sums has its lowest point {abs(moved)}/16 {where} it."
    if value is None:
        yield f"The program's picture has no disparity here: {partner(pair, asked.x, asked.y, chosen)}"
        return
    if value != 16 * chosen + moved:
        found, wanted = (sixteenths(it, pair.first) for it in (value, 16 * chosen + moved))
        raise Wrong(f"the program's picture has disparity {found} here, the sums ask for {wanted}")
    found, without = sixteenths(value, pair.first), " without `fine`" if pair.is_fine else ""
    has = f"that is what the program's picture has here{without}"
    yield f"So the disparity is {found}, in pixels, and {has}."


# Finer disparities


def changed_by(c: int) -> str:
    return "No change" if c == 0 else f"{abs(c)}/16 {'less' if c < 0 else 'more'}"


def window_lines(rise: Rise) -> Iterator[str]:
    """How the window is laid along the surface."""
    sums = rise.across, rise.down
    across, down = (f"{above}/{below}" if below else "0" for above, below in sums)
    columns, rows = (" ".join(map(str, steps)) for steps in (rise.columns, rise.rows))
    yield "Now the grey values in a window of 5 by 5 make it finer. The disparities in it that are"
    yield f"within 2 pixels of its own rise by {across} sixteenths from column to column and by"
    yield f"{down} from row to row: {columns} in the window's columns and {rows} in its rows."


def score_lines(step: Finer) -> Iterator[str]:
    """The scores of all changes, and what the greatest one says."""
    changes = [[c, *step.scores[c]] for c in sorted(step.scores)]
    yield from columns([["change", "A", "B", "score"], *changes])
    yield ""
    yield "A says how far the left and the right window rise and fall together, and B how far the"
    yield "right one does. The score is A A by a 256th of B, both rounded down; it is 0 where A"
    yield "isn't above 0 or B is below 256."
    a, b, score = step.scores[step.best]
    if score:
        share = 100 * a * a // (step.v * b)
        yield f"{changed_by(step.best)} has the greatest score. V, which is to the left window what"
        yield f"B is to the right one, is {step.v}: A A is {share} hundredths of V B."


def finer_lines(step: Finer, first: int) -> Iterator[str]:
    """How the grey values make the disparity finer, or why they don't."""
    yield from window_lines(step.rise)
    yield ""
    if step.scores:
        yield from score_lines(step)
    if step.stays:
        yield f"It stays {sixteenths(step.value, first)}: {step.stays}."
    else:
        yield f"So it becomes {sixteenths(step.value, first)}."


def mean_lines(mean: Mean, first: int) -> Iterator[str]:
    near = ", ".join(sixteenths(value, first) for value in mean.near)
    yield "Of the finer disparities of this pixel and the eight around it these are within a pixel"
    yield f"of its own: {near}."
    made = sixteenths(mean.value, first)
    yield f"Their mean is {made}, in pixels, and that is what the program's picture has here."


def explain_finer(pair: Pair, asked: Question, before: Map, after: Map) -> Iterator[str]:
    """How the disparity of the first map becomes that of the second one."""
    x, y, first = asked.x, asked.y, pair.first
    own, found = before.at(x, y), after.at(x, y)
    if own is None and found is None:
        return
    if own is None or found is None:
        raise Wrong("the program's picture has a disparity here with `fine` or without it alone")
    yield ""
    yield from finer_lines(Finer(pair, before.at, x, y), first)

    def finer_at(x: int, y: int) -> int | None:
        return None if before.at(x, y) is None else Finer(pair, before.at, x, y).value

    mean = Mean(finer_at, x, y)
    if found != mean.value:
        has, wanted = (sixteenths(value, first) for value in (found, mean.value))
        raise Wrong(f"the program's picture has disparity {has} here, the mean is {wanted}")
    yield from mean_lines(mean, first)


def point_line(calibration: Json, asked: Question, value: int | None) -> Iterator[str]:
    if value is None or "camera" not in calibration:
        return
    points = Points(calibration)
    point = points.of(asked.x, asked.y, value)
    if point is None:
        beyond = ", or its height is out of range" if points.pose else ""
        yield f"It has no point: its distance is below `near` or above `far`, or none{beyond}."
    else:
        east, north, height = (decimal(it, 6) for it in point)
        where = "the site's origin" if points.pose else "the left camera"
        yield f"Its point lies {east} m to the east and {north} m to the north of {where}, {height} m high."
