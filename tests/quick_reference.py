#!/usr/bin/env python3
"""The separate implementation for larger pictures: reference.py with its matching in numpy.

    tests/quick_reference.py match LEFT RIGHT CALIB OUT

It takes the words of `sgm` and ends as reference.py does; costs, sums, disparities and finer
disparities alone are computed here, on many pixels at once, from the same definitions
(test_quick_reference.py compares the two). A pair of 480 x 360 pixels with 64 disparities takes
some five seconds, and 40 bytes for each pixel and disparity. `trace` is as slow as there.
"""

import functools
import os
import sys

import reference
import reference_matching as matching

sys.path.insert(0, os.path.join(os.path.dirname(os.path.abspath(__file__)), "..", "tools"))

from sgm_tools import running
from sgm_tools.running import numpy

# How many of the bits of a number below 2^16 are set.
BITS = [bin(number).count("1") for number in range(1 << 16)]
NOTHING = -1
# How many pixels get their finer values at once.
AT_ONCE = 1 << 13


def as_array(plane):
    """A plane of values that aren't below 0, with NOTHING for none."""
    return numpy.array([[NOTHING if value is None else value for value in row] for row in plane], numpy.int64)


def moved(values, i, j, beyond):
    """At each pixel the value at (x + i, y + j), or that of `beyond` at the pixel where that is outside."""
    (height, width), made = values.shape, beyond.copy()
    to = [slice(max(0, -step), min(side, side - step)) for step, side in ((j, height), (i, width))]
    if all(part.start < part.stop for part in to):
        (top, bottom), (left, right) = ((part.start, part.stop) for part in to)
        made[top:bottom, left:right] = values[top + j : bottom + j, left + i : right + i]
    return made


def codes_of(values, window, version):
    """Each pixel's code as a number, and whether it has one."""
    across, down = window[0] // 2, window[1] // 2
    has_code, nothing = values != NOTHING, numpy.full_like(values, NOTHING)
    near = lambda i, j: moved(values, i, j, nothing)
    centre, stand_in = values, nothing
    if version > 2:
        stand_in = values
        near = lambda i, j: numpy.where(moved(values, i, j, nothing) == NOTHING, values, moved(values, i, j, nothing))
        centre = numpy.sort([near(i, j) for i, j in ((0, 0), (1, 0), (-1, 0), (0, 1), (0, -1))], axis=0)[2]
    code = numpy.zeros(values.shape, numpy.uint64)
    for j in range(-down, down + 1):
        for i in range(-across, across + 1):
            if (i, j) != (0, 0):
                neighbour = near(i, j)
                has_code = has_code & (neighbour != NOTHING)
                code = code * numpy.uint64(2) + (neighbour < centre)
    return code, has_code


def costs_of(left, right, calibration):
    """The costs as an array of rows, columns and indices."""
    window = calibration.window
    greatest = window[0] * window[1] - 1
    missing = greatest if calibration.version < 3 else 3 * greatest // 7
    (ours, have_ours), (theirs, have_theirs) = (codes_of(values, window, calibration.version) for values in (left, right))
    bits = numpy.array(BITS, numpy.int32)
    costs = numpy.empty((*left.shape, calibration.count), numpy.int32)
    for d in range(calibration.count):
        step = -(calibration.first + d)
        partner = moved(theirs, step, 0, numpy.zeros_like(theirs))
        has_both = have_ours & moved(have_theirs, step, 0, numpy.zeros_like(have_theirs))
        other = ours ^ partner
        differing = sum(bits[((other >> numpy.uint64(16 * part)) & numpy.uint64(65535)).astype(numpy.int64)] for part in range(4))
        costs[:, :, d] = numpy.where(has_both, differing, missing)
    if calibration.version < 3:
        return costs
    before = numpy.concatenate([costs[:, :1], costs[:, :-1]], axis=1)
    behind = numpy.concatenate([costs[:, 1:], costs[:, -1:]], axis=1)
    return (before + 2 * costs + behind) // 4


def next_row(costs, before, p1, larger):
    """The path values of some pixels from those of the pixels before them; `larger` is P2 between each two."""
    low = before.min(axis=1, keepdims=True)
    best = numpy.minimum(before, low + larger)
    best[:, 1:] = numpy.minimum(best[:, 1:], before[:, :-1] + p1)
    best[:, :-1] = numpy.minimum(best[:, :-1], before[:, 1:] + p1)
    return costs + best - low


def add_downwards(sums, costs, guide, dx, p1, p2):
    """Adds the path values of the direction (dx, 1), whatever way the arrays were turned before."""
    width, before = costs.shape[1], None
    here = numpy.arange(max(0, dx), width + min(0, dx))
    for y, row in enumerate(costs):
        values = row.copy()
        if before is not None and len(here):
            larger = numpy.full((len(here), 1), p2)
            if guide is not None:
                own, other = guide[y, here], guide[y - 1, here - dx]
                follows = numpy.maximum(p1, p2 // numpy.maximum(1, abs(own - other)))
                larger = numpy.where((own == NOTHING) | (other == NOTHING), p2, follows)[:, None]
            values[here] = next_row(row[here], before[here - dx], p1, larger)
        sums[y] += values
        before = values


def sums_of(costs, guide, p1, p2):
    """The sums over all eight directions: five go down or across, three up."""
    sums = numpy.zeros_like(costs)
    turned = lambda array, way: None if array is None else way(array)
    upside_down, transposed = lambda array: array[::-1], lambda array: array.swapaxes(0, 1)
    for dx in (-1, 0, 1):
        add_downwards(sums, costs, guide, dx, p1, p2)
        add_downwards(upside_down(sums), upside_down(costs), turned(guide, upside_down), dx, p1, p2)
    across = [turned(array, transposed) for array in (sums, costs, guide)]
    add_downwards(*across, 0, p1, p2)
    add_downwards(*(turned(array, upside_down) for array in across), 0, p1, p2)
    return sums


def matched_of(sums, first):
    """For each pixel of the right plane its own index, or NOTHING where it meets none."""
    (height, width, count), greatest = sums.shape, numpy.iinfo(sums.dtype).max
    met = numpy.full((height, width, count), greatest, sums.dtype)
    for d in range(count):
        met[:, :, d] = moved(sums[:, :, d], first + d, 0, met[:, :, d])
    return numpy.where((met == greatest).all(axis=2), NOTHING, met.argmin(axis=2))


def disparities_of(sums, matched, left, right, first):
    """The disparities in sixteenths, NOTHING where there is none."""
    height, width, count = sums.shape
    base = sums.argmin(axis=2)
    at = lambda d: numpy.take_along_axis(sums, d.clip(0, count - 1)[:, :, None], axis=2)[:, :, 0].astype(numpy.int64)
    a, c = at(base - 1) - at(base), at(base + 1) - at(base)
    is_inner = (base > 0) & (base < count - 1)
    offset = (16 * (a - c) + (a + c)) // numpy.where(is_inner, 2 * (a + c), 1)
    value = 16 * base + numpy.where(is_inner, offset, 0)
    q = numpy.arange(width) - first - base
    is_inside = (q >= 0) & (q < width)
    theirs = lambda array: numpy.take_along_axis(array, q.clip(0, width - 1), axis=1)
    holds = is_inside & (left != NOTHING) & (theirs(right) != NOTHING) & (abs(base - theirs(matched)) <= 1)
    return numpy.where(holds, value, NOTHING)


# Finer disparities


class Windows:
    """The windows of 5 x 5 pixels about some pixels, none of which sticks out of the picture. What
    they hold is an array with a row for each place of the window and a column for each pixel."""

    def __init__(self, y, x):
        self.y, self.x = y, x
        self.j, self.i = (side.reshape(-1, 1) for side in numpy.mgrid[-2:3, -2:3])

    def of(self, array):
        return array[self.y + self.j, self.x + self.i]

    def slopes(self, values):
        """What the slopes come to at each place: s(i) + t(j)."""
        rise = self.of(values) - values[self.y, self.x]
        is_near = (self.of(values) != NOTHING) & (abs(rise) <= 32)
        total = 0
        for step in (self.i, self.j):
            parts = (numpy.where(is_near, step * part, 0) for part in (rise, step))
            above, below = (part.sum(axis=0) for part in parts)
            # Where no place beside the pixel counts, both sums are 0.
            total = total + (2 * step * above + below) // numpy.maximum(1, 2 * below)
        return total

    def read(self, right, u):
        """Sixteen times the right plane's values at u sixteenths of a pixel, and which miss."""
        q, f = u // 16, u % 16
        width, row = right.shape[1], self.y + self.j

        def at(column):
            is_inside = (column >= 0) & (column < width)
            return numpy.where(is_inside, right[row, column.clip(0, width - 1)], NOTHING)

        near, far = at(q), numpy.where(f > 0, at(q + 1), 0)
        return (16 - f) * near + f * far, (near == NOTHING) | (far == NOTHING)


def halved(samples, limit):
    """The samples of each column less their least, halved until all of them are below the limit."""
    samples = samples - samples.min(axis=0)
    greatest, halvings = samples.max(axis=0), numpy.zeros(samples.shape[1], numpy.int64)
    while (greatest >> halvings >= limit).any():
        halvings += greatest >> halvings >= limit
    return samples >> halvings


def product_of(one, other):
    return 25 * (one * other).sum(axis=0) - one.sum(axis=0) * other.sum(axis=0)


def best_of(own, e, value, count):
    """For each pixel the change with the greatest score, its score, A and B."""
    best = [numpy.full_like(value, start) for start in (0, -1, 0, 0)]
    # Of equal scores the first one in this order counts.
    for c in sorted(range(-8, 9), key=lambda c: (abs(c), c)):
        r = (8 - abs(c)) * e[0] + abs(c) * e[8 if c < 0 else -8]
        a, b = product_of(own, r), product_of(r, r)
        score = numpy.where((a > 0) & (b >= 256), a * a // numpy.maximum(1, b // 256), 0)
        is_tried = (value + c >= 0) & (value + c <= 16 * (count - 1))
        is_better = is_tried & (score > best[1])
        best = [numpy.where(is_better, new, old) for new, old in zip((c, score, a, b), best)]
    return best


def finer_of(windows, values, left, right, first, count):
    """The finer values of the windows' middles."""
    made = values[windows.y, windows.x]
    own, others = windows.of(left), {}
    is_whole = (own != NOTHING).all(axis=0)
    middle = 16 * (windows.x + windows.i - first) - made - windows.slopes(values)
    for o in (8, 0, -8):
        others[o], misses = windows.read(right, middle + o)
        is_whole = is_whole & ~misses.any(axis=0)
    if not is_whole.any():
        return made
    value, own = made[is_whole], halved(own[:, is_whole], 256)
    together = halved(numpy.concatenate([them[:, is_whole] for them in others.values()]), 4096)
    e = dict(zip(others, numpy.split(together, 3)))
    c, score, a, b = best_of(own, e, value, count)
    is_told = (score > 0) & (3 * a * a >= product_of(own, own) * b)
    made[is_whole] = value + numpy.where(is_told, c, 0)
    return made


def finer_values_of(values, left, right, first, count):
    """The finer values of a map; those of the two outermost columns and rows stay."""
    made = values.copy()
    y, x = numpy.nonzero(values[2:-2, 2:-2] != NOTHING)
    for at in range(0, len(y), AT_ONCE):
        windows = Windows(2 + y[at : at + AT_ONCE], 2 + x[at : at + AT_ONCE])
        made[windows.y, windows.x] = finer_of(windows, values, left, right, first, count)
    return made


def means_of(values):
    """The means of three by three pixels."""
    nothing = numpy.full_like(values, NOTHING)
    total, number = numpy.zeros_like(values), numpy.zeros_like(values)
    for j in (-1, 0, 1):
        for i in (-1, 0, 1):
            other = moved(values, i, j, nothing)
            is_near = (other != NOTHING) & (abs(other - values) <= 16)
            total += numpy.where(is_near, other, 0)
            number += is_near
    mean = (2 * total + number) // numpy.maximum(1, 2 * number)
    return numpy.where(values == NOTHING, NOTHING, mean)


def as_rows(array):
    return [[None if value == NOTHING else value for value in row] for row in array.tolist()]


def match_planes(left, right, guide, calibration):
    """What reference_matching.match_planes gives."""
    left, right, guide = (None if plane is None else as_array(plane) for plane in (left, right, guide))
    sums = sums_of(costs_of(left, right, calibration), guide, calibration.p1, calibration.p2)
    matched = matched_of(sums, calibration.first)
    found = disparities_of(sums, matched, left, right, calibration.first)
    if calibration.is_fine:
        found = means_of(finer_values_of(found, left, right, calibration.first, calibration.count))
    return as_rows(found), as_rows(matched)


def main(words):
    reference.survey = functools.partial(matching.survey, match=match_planes)
    return reference.main(words)


if __name__ == "__main__":
    running.need(numpy=numpy)
    sys.exit(main(sys.argv[1:]))
