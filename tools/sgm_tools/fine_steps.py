"""How a disparity is made finer: from the two rectified pictures and the disparities around it.

Disparities are sixteenths of a pixel above the first one. Around a pixel lies a window of 5 by 5,
which follows the surface as the map around it rises. The left picture's samples in it are compared
with those of the right picture at the pixel's disparity and at up to eight sixteenths less or more:
where they are most alike, there the finer disparity is. Then comes the mean of it and of those of
the pixels around it that are near.
"""

from __future__ import annotations

from collections.abc import Callable, Sequence
from typing import Optional

from sgm_tools.certificates import Pair
from sgm_tools.exact import rounded

# The disparities of a map: sixteenths, or None where there is none.
Values = Callable[[int, int], Optional[int]]

REACH = range(-2, 3)
PLACES = [(i, j) for j in REACH for i in REACH]
# How far other disparities may be from the pixel's own, for the rise and for the mean.
RISE_WITHIN, MEAN_WITHIN = 32, 16
# What the samples of the two pictures are halved to stay below.
LEFT_BELOW, RIGHT_BELOW = 256, 4096
# The changes that are tried, in the order in which the first of equal scores counts.
CHANGES = sorted(range(-8, 9), key=lambda c: (abs(c), c))


class Gap(Exception):
    """A pixel that is needed has no value."""

    def __init__(self, side: str, x: int, y: int) -> None:
        super().__init__(f"the {side} picture has nothing at column {x} of row {y}")


def known(value_at: Values, x: int, y: int) -> int:
    """The disparity of a pixel that has one."""
    value = value_at(x, y)
    if value is None:
        raise ValueError(f"column {x} of row {y} has no disparity")
    return value


class Rise:
    """How the map rises around a pixel: for columns and for rows the two sums whose quotient is the
    rise from one to the next, and what that comes to at the window's five columns or rows."""

    def __init__(self, value_at: Values, x: int, y: int) -> None:
        own, near = known(value_at, x, y), []
        for i, j in PLACES:
            value = value_at(x + i, y + j)
            if value is not None and abs(value - own) <= RISE_WITHIN:
                near.append((i, j, value - own))
        self.across = sum(i * step for i, _, step in near), sum(i * i for i, _, _ in near)
        self.down = sum(j * step for _, j, step in near), sum(j * j for _, j, _ in near)
        self.columns, self.rows = (self.along(*sums) for sums in (self.across, self.down))

    def along(self, above: int, below: int) -> list[int]:
        return [rounded(place * above, below) if below else 0 for place in REACH]

    def at(self, i: int, j: int) -> int:
        return self.columns[REACH.index(i)] + self.rows[REACH.index(j)]


def halved(samples: Sequence[int], limit: int) -> list[int]:
    """The samples less their least, halved as often as it takes for all to be below the limit."""
    low, times = min(samples), 0
    while (max(samples) - low) >> times >= limit:
        times += 1
    return [(sample - low) >> times for sample in samples]


def spread(one: Sequence[int], other: Sequence[int]) -> int:
    """25 times the sum of the products of two windows' samples, less the product of both sums."""
    return 25 * sum(a * b for a, b in zip(one, other)) - sum(one) * sum(other)


class Finer:
    """What the grey values say at a pixel that has a disparity.

    `pair` has both pictures, the first disparity and how many there are (as Pair), and
    value_at(x, y) is the map: sixteenths, or None. `scores` has for each change its A, B and score,
    `v` is V, `best` the change with the greatest score; `value` is what comes out, and `stays` says
    why it is what it was, or is None.
    """

    def __init__(self, pair: Pair, value_at: Values, x: int, y: int) -> None:
        self.pair, self.x, self.y = pair, x, y
        self.before = self.value = known(value_at, x, y)
        self.rise = Rise(value_at, x, y)
        self.scores: dict[int, tuple[int, int, int]] = {}
        self.v, self.best = 0, 0
        self.stays: str | None = None
        try:
            self.judge(*self.windows())
        except Gap as gap:
            self.stays = str(gap)

    def sample(self, side: str, x: int, y: int) -> int:
        value: int | None = getattr(self.pair, side).value(x, y)
        if value is None:
            raise Gap(side, x, y)
        return value

    def between(self, u: int, row: int) -> int:
        """Sixteen times the right picture's value at u sixteenths of a pixel."""
        column, part = divmod(u, 16)
        near = (16 - part) * self.sample("right", column, row)
        return near + part * self.sample("right", column + 1, row) if part else near

    def windows(self) -> tuple[list[int], list[int], list[int], list[int]]:
        """The left window, and the right one half a pixel before, at its place, and behind."""
        own = [self.sample("left", self.x + i, self.y + j) for i, j in PLACES]
        right = []
        for o in (-8, 0, 8):
            for i, j in PLACES:
                u = 16 * (self.x + i - self.pair.first) - self.before - self.rise.at(i, j)
                right.append(self.between(u + o, self.y + j))
        right = halved(right, RIGHT_BELOW)
        return halved(own, LEFT_BELOW), right[:25], right[25:50], right[50:]

    def judge(
        self, own: list[int], to_the_left: list[int], middle: list[int], to_the_right: list[int]
    ) -> None:
        self.v = spread(own, own)
        for c in CHANGES:
            if not 0 <= self.before + c <= 16 * (self.pair.count - 1):
                continue
            # The greater the disparity, the further to the left.
            side = to_the_right if c < 0 else to_the_left
            theirs = [(8 - abs(c)) * a + abs(c) * b for a, b in zip(middle, side)]
            a, b = spread(own, theirs), spread(theirs, theirs)
            self.scores[c] = a, b, (a * a // (b // 256) if a > 0 and b >= 256 else 0)
        # Of equal scores max takes the first.
        self.best = max(self.scores, key=lambda c: self.scores[c][2])
        a, b, score = self.scores[self.best]
        if score == 0:
            self.stays = "no score is above 0"
        elif 3 * a * a < self.v * b:
            self.stays = "that is less than a third"
        else:
            self.value = self.before + self.best


class Mean:
    """The finer disparities at and around a pixel that are near to its own, and their mean."""

    def __init__(self, finer_at: Values, x: int, y: int) -> None:
        own = known(finer_at, x, y)
        around = [finer_at(x + i, y + j) for j in (-1, 0, 1) for i in (-1, 0, 1)]
        found = [value for value in around if value is not None]
        self.near = [value for value in found if abs(value - own) <= MEAN_WITHIN]
        self.value = rounded(sum(self.near), len(self.near))
