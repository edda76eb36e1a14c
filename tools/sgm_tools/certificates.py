"""Certificates of `sgm trace`, held against the pictures and the calibration alone.

Nothing is taken from the program: the pixels that a line of them needs are rectified, each cost and each jump is
worked out, and so are the least energies along the line.
"""

from __future__ import annotations

import functools
import operator
import re
from collections.abc import Callable, Sequence

from sgm_tools.calibrations import whole
from sgm_tools.files import read_bytes, read_json, read_pgm
from sgm_tools.kinds import Json, Samples
from sgm_tools.running import Wrong
from sgm_tools.warps import place, warp_of

Pixel = tuple[int, int]
DIRECTIONS = {
    "right": (1, 0), "left": (-1, 0), "down": (0, 1), "downright": (1, 1), "downleft": (-1, 1),
    "up": (0, -1), "upright": (1, -1), "upleft": (-1, -1),
}  # fmt: skip
NUMBER = "(0|[1-9][0-9]{0,9})"
FIRST_LINE = re.compile(f"least {NUMBER}")
OTHER_LINE = re.compile(" ".join([NUMBER] * 5))
# What the word - in place of a calibration stands for.
PLAIN = {
    "version": 1,
    "disparities": {"first": 0, "count": 64},
    "census": {"width": 9, "height": 7},
    "penalties": {"p1": 10, "p2": 120},
}


# Rectified pixels and their codes


class Picture:
    """One of the two pictures, of which only those pixels are rectified that are asked for."""

    def __init__(
        self, samples: Samples, most: int, warp: Json, window: Sequence[int], version: int
    ) -> None:
        self.samples, self.most, self.warp = samples, most, warp
        self.height, self.width = samples.shape
        if warp["kind"] == "mesh":
            needed = [(side - 1) // warp["step"] + 2 for side in (self.width, self.height)]
            if [warp["cols"], warp["rows"]] != needed:
                raise Wrong("a mesh of the calibration isn't made for pictures of this size")
        self.across, self.down = window[0] // 2, window[1] // 2
        code = self.code_about_itself if version < 3 else self.code_about_the_middle
        self.value: Callable[[int, int], int | None] = functools.cache(self.rectified)
        self.code: Callable[[int, int], list[bool] | None] = functools.cache(code)

    def rectified(self, x: int, y: int) -> int | None:
        """The rectified pixel: the mean of the four samples around its place. None where one that counts is missing."""
        if not (0 <= x < self.width and 0 <= y < self.height):
            return None
        u, v = place(self.warp, x, y)
        (left, to_right), (top, to_bottom) = divmod(u, 256), divmod(v, 256)
        total = 32768
        for i, across in ((left, 256 - to_right), (left + 1, to_right)):
            for j, down in ((top, 256 - to_bottom), (top + 1, to_bottom)):
                if across * down == 0:
                    continue
                if not (0 <= i < self.width and 0 <= j < self.height):
                    return None
                total += across * down * int(self.samples[j, i])
        return total // 65536

    def code_about_itself(self, x: int, y: int) -> list[bool] | None:
        """Of each neighbour in the window, row by row: is it less than the pixel? None where one has no value."""
        rows, cols = range(-self.down, self.down + 1), range(-self.across, self.across + 1)
        values = [self.value(x + i, y + j) for j in rows for i in cols]
        near = [value for value in values if value is not None]
        if len(near) < len(values):
            return None
        centre = near.pop(len(near) // 2)
        return [neighbour < centre for neighbour in near]

    def code_about_the_middle(self, x: int, y: int) -> list[bool] | None:
        """The code of version 3. Of each neighbour in the window: is it less than the third of the five values of the
        pixel and of those that touch its sides? What has no value counts as the pixel itself, which needs one."""
        own = self.value(x, y)
        if own is None:
            return None

        here: int = own

        def near(i: int, j: int) -> int:
            value = self.value(x + i, y + j)
            return here if value is None else value

        middle = sorted((own, near(1, 0), near(-1, 0), near(0, 1), near(0, -1)))[2]
        rows, cols = range(-self.down, self.down + 1), range(-self.across, self.across + 1)
        return [near(i, j) < middle for j in rows for i in cols if (i, j) != (0, 0)]


# Costs and jumps


class Pair:
    """Both pictures and the settings: what a cost is, and what a jump is."""

    def __init__(self, left: str, right: str, calibration: Json) -> None:
        self.version = whole(calibration, "version")
        if self.version not in (1, 2, 3):
            raise Wrong(f"the calibration has version {self.version}; 1, 2 and 3 are known here")
        self.first, self.count = (whole(calibration, "disparities", key) for key in ("first", "count"))
        self.window = [whole(calibration, "census", key) for key in ("width", "height")]
        self.p1, self.p2 = (whole(calibration, "penalties", key) for key in ("p1", "p2"))
        self.follows = calibration["penalties"].get("adapt", False)
        self.is_fine = calibration["disparities"].get("fine") is True
        if self.count < 1 or not all(side > 0 and side % 2 == 1 for side in self.window):
            raise Wrong("the calibration has no disparities, or a window without a middle")
        self.left, self.right = (
            Picture(*read_pgm(name), warp_of(calibration, side), self.window, self.version)
            for name, side in ((left, "left"), (right, "right"))
        )
        if self.left.samples.shape != self.right.samples.shape:
            raise Wrong(f"{left} and {right} aren't of one size")
        most = self.window[0] * self.window[1] - 1
        # What stands where a code is missing.
        self.missing = most if self.version < 3 else 3 * most // 7
        self.single_cost: Callable[[int, int, int], int] = functools.cache(self.differing)

    def differing(self, x: int, y: int, d: int) -> int:
        """In how many places the codes of the left pixel and of the right one that index d leads to differ."""
        ours, theirs = self.left.code(x, y), self.right.code(x - self.first - d, y)
        if ours is None or theirs is None:
            return self.missing
        return sum(map(operator.ne, ours, theirs))

    def cost(self, x: int, y: int, d: int) -> int:
        """The cost of an index at a pixel; in version 3 half of it is that of the pixels to its left and right."""
        own = self.single_cost(x, y, d)
        if self.version < 3:
            return own
        beside = (self.single_cost(i, y, d) if 0 <= i < self.left.width else own for i in (x - 1, x + 1))
        return (2 * own + sum(beside)) // 4

    def far(self, here: Pixel, before: Pixel) -> int:
        """What a change by more than one costs between two neighbouring pixels."""
        values = self.left.value(*here), self.left.value(*before)
        if not self.follows or values[0] is None or values[1] is None:
            return self.p2
        one, other = (255 * value // self.left.most for value in (values[0], values[1]))
        return max(self.p1, self.p2 // max(1, abs(one - other)))

    def jump(self, far: int, before: int, here: int) -> int:
        """What it costs to go from the index before to that here."""
        return 0 if before == here else self.p1 if abs(before - here) == 1 else far


# Least energies along a line


class Ray:
    """The pixels that lead to (x, y), the farthest first, with the least energies along them.

    `least[i][d]` is the least energy of a sequence over the pixels up to number i that has index d there. `far[i]`
    is what a jump to that pixel costs.
    """

    def __init__(self, pair: Pair, direction: str, x: int, y: int) -> None:
        if not (0 <= x < pair.left.width and 0 <= y < pair.left.height):
            raise Wrong(f"there is no pixel {x} {y}")
        self.pair = pair
        self.pixels: list[Pixel] = []
        across, down = DIRECTIONS[direction]
        while 0 <= x < pair.left.width and 0 <= y < pair.left.height:
            self.pixels.insert(0, (x, y))
            x, y = x - across, y - down
        self.far = [0]
        self.least: list[list[int]] = []
        for before, here in zip(self.pixels, self.pixels[1:]):
            self.far.append(pair.far(here, before))
        for number, pixel in enumerate(self.pixels):
            costs = [pair.cost(pixel[0], pixel[1], d) for d in range(pair.count)]
            self.least.append(self.next_least(costs, self.far[number]) if number else costs)

    def next_least(self, costs: list[int], far: int) -> list[int]:
        """Least energies one pixel further: the same index, one beside it, or any other, whichever has least."""
        before = self.least[-1]
        made: list[int] = []
        any_other = min(before) + far
        for d, cost in enumerate(costs):
            beside = [before[e] + self.pair.p1 for e in (d - 1, d + 1) if 0 <= e < len(before)]
            made.append(cost + min(before[d], any_other, *beside))
        return made

    def best_before(self, number: int, d: int) -> int:
        """The least of the indices that pixel number - 1 has in a sequence of the least energy with d at that pixel."""
        energies = [energy + self.pair.jump(self.far[number], e, d) for e, energy in enumerate(self.least[number - 1])]
        return energies.index(min(energies))


# The certificate


def read_trace(name: str) -> str:
    return read_bytes(name).decode("ascii", "replace")


def fault(ray: Ray, d: int, text: str) -> str | None:
    """The first line of the certificate that doesn't hold, and why; None where all of it holds."""
    first, *lines = text.split("\n")
    if not FIRST_LINE.fullmatch(first):
        return "line 1: not `least` and a number"
    energy = int(first.split()[1])
    if energy != ray.least[-1][d]:
        return f"line 1: the least energy is {ray.least[-1][d]}, not {energy}"
    indices: list[int] = []
    total = 0
    for number, line in enumerate(lines[: len(ray.pixels)]):
        words = OTHER_LINE.fullmatch(line)
        if not words:
            return f"line {number + 2}: not five numbers with single spaces between them"
        x, y, index, cost, jump = map(int, words.groups())
        why = line_fault(ray, number, (x, y), index, cost, jump, indices[-1] if indices else index)
        if why:
            return f"line {number + 2}: {why}"
        indices.append(index)
        total += cost + jump
    if lines[len(ray.pixels) :] != [""]:
        count = min(len(lines), len(ray.pixels) + 1)
        return f"line {count + 1}: {len(ray.pixels)} lines have to follow the first, each ended by LF"
    if indices[-1] != d:
        return f"line {len(lines)}: the last index is {indices[-1]}, not {d}"
    for number in range(len(indices) - 1, 0, -1):
        best = ray.best_before(number, indices[number])
        if indices[number - 1] != best:
            why = f"the index is {indices[number - 1]}, and {best} costs less, or is lesser and costs as much"
            return f"line {number + 1}: {why}"
    if total != energy:
        return f"line 1: the costs and jumps add up to {total}, not {energy}"
    return None


def line_fault(
    ray: Ray, number: int, pixel: Pixel, index: int, cost: int, jump: int, index_before: int
) -> str | None:
    """What is wrong with a line by itself and the index before it, or None."""
    pair = ray.pair
    if pixel != ray.pixels[number]:
        return "the pixel is {} {}, not {} {}".format(*ray.pixels[number], *pixel)
    if index >= pair.count:
        return f"the index is {index}, and there are {pair.count}"
    wanted = pair.cost(*pixel, index)
    if cost != wanted:
        return f"the cost is {wanted}, not {cost}"
    wanted = pair.jump(ray.far[number], index_before, index)
    if jump != wanted:
        return f"the jump is {wanted}, not {jump}"
    return None


def calibration_of(name: str) -> Json:
    return PLAIN if name == "-" else read_json(name)
