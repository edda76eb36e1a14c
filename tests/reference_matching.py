"""The definitions of the matching, pixel by pixel: slow, and written to be read.

Nothing here is the program's way of working: no strips, no lanes, no rows handed on. A plane is
a list of rows, and None stands for a pixel that has no value. An index d stands for the
disparity first + d, so left pixel x meets right pixel x - first - d.
"""

from fractions import Fraction

# The most cells of a volume in the versions 1 and 2. Version 3 has no limit of its own.
VOLUME_MOST = 268435456
DIRECTIONS = [(1, 0), (-1, 0), (0, 1), (1, 1), (-1, 1), (0, -1), (1, -1), (-1, -1)]


# Rectification


def warp_fault(warp, width, height):
    """What forbids this warp for pictures of this size, or None."""
    if warp["kind"] == "projective":
        corners = [(0, 0), (width - 1, 0), (0, height - 1), (width - 1, height - 1)]
        for number, corner in enumerate(corners):
            if denominator(warp["matrix"], *corner) <= 0:
                return f"denominator not positive at corner {number}"
    if warp["kind"] == "mesh":
        need = ((width - 1) // warp["step"] + 2, (height - 1) // warp["step"] + 2)
        if (warp["cols"], warp["rows"]) != need:
            return f"mesh is {warp['cols']}x{warp['rows']}, {need[0]}x{need[1]} needed"
    return None


def denominator(a, x, y):
    return a[6] * x + a[7] * y + a[8]


def place(warp, x, y):
    """Where the rectified pixel's value is taken from, in 1/256 of a pixel."""
    if warp["kind"] == "identity":
        return 256 * x, 256 * y
    if warp["kind"] == "projective":
        a, below = warp["matrix"], denominator(warp["matrix"], x, y)
        return 256 * (a[0] * x + a[1] * y + a[2]) // below, 256 * (a[3] * x + a[4] * y + a[5]) // below
    s = warp["step"]
    i, j, a, b = x // s, y // s, x % s, y % s
    corners = [((s - a) * (s - b), i, j), (a * (s - b), i + 1, j), ((s - a) * b, i, j + 1), (a * b, i + 1, j + 1)]

    def between(part):
        node = lambda col, row: warp["nodes"][2 * (row * warp["cols"] + col) + part]
        return sum(weight * node(col, row) for weight, col, row in corners) // (s * s)

    return between(0), between(1)


def bilinear(image, u, v):
    """The value at a place; None where a neighbour that counts lies outside."""
    iu, fu, iv, fv = u // 256, u % 256, v // 256, v % 256
    neighbours = [
        ((256 - fu) * (256 - fv), image.at(iu, iv)),
        (fu * (256 - fv), image.at(iu + 1, iv)),
        ((256 - fu) * fv, image.at(iu, iv + 1)),
        (fu * fv, image.at(iu + 1, iv + 1)),
    ]
    that_count = [(weight, sample) for weight, sample in neighbours if weight]
    if any(sample is None for _, sample in that_count):
        return None
    return (sum(weight * sample for weight, sample in that_count) + 32768) // 65536


def rectify(image, warp):
    return [[bilinear(image, *place(warp, x, y)) for x in range(image.width)] for y in range(image.height)]


# Costs


def census_codes(plane, window):
    """Each pixel's code: a bit for each neighbour, set where it is less than the centre. None near voids and edges."""
    width, height = len(plane[0]), len(plane)
    across, down = window[0] // 2, window[1] // 2
    offsets = [(i, j) for j in range(-down, down + 1) for i in range(-across, across + 1) if (i, j) != (0, 0)]

    def code(x, y):
        if not (across <= x < width - across and down <= y < height - down) or plane[y][x] is None:
            return None
        bits = 0
        for i, j in offsets:
            neighbour = plane[y + j][x + i]
            if neighbour is None:
                return None
            bits = 2 * bits + (neighbour < plane[y][x])
        return bits

    return [[code(x, y) for x in range(width)] for y in range(height)]


def costs_of(left, right, first, count, missing):
    """For each pixel the list of its costs: differing bits, or `missing` where a code is."""
    width = len(left[0])

    def cost(x, y, d):
        q = x - first - d
        if left[y][x] is None or not 0 <= q < width or right[y][q] is None:
            return missing
        return bin(left[y][x] ^ right[y][q]).count("1")

    return [[[cost(x, y, d) for d in range(count)] for x in range(width)] for y in range(len(left))]


# Costs of version 3


def near(plane, x, y, i, j):
    """The value of the neighbour of (x, y) at (x + i, y + j), or the pixel's own where that is outside or void."""
    is_inside = 0 <= x + i < len(plane[0]) and 0 <= y + j < len(plane)
    value = plane[y + j][x + i] if is_inside else None
    return plane[y][x] if value is None else value


def middle_of(plane, x, y):
    """The third smallest of a pixel's value and of those to its right, its left, below and above; None where it is void."""
    if plane[y][x] is None:
        return None
    return sorted(near(plane, x, y, i, j) for i, j in [(0, 0), (1, 0), (-1, 0), (0, 1), (0, -1)])[2]


def smoothed_codes(plane, window):
    """Each pixel's code: a bit for each neighbour, set where it is less than the pixel's middle. None where it is void."""
    across, down = window[0] // 2, window[1] // 2
    offsets = [(i, j) for j in range(-down, down + 1) for i in range(-across, across + 1) if (i, j) != (0, 0)]

    def code(x, y):
        middle, bits = middle_of(plane, x, y), 0
        if middle is None:
            return None
        for i, j in offsets:
            bits = 2 * bits + (near(plane, x, y, i, j) < middle)
        return bits

    return [[code(x, y) for x in range(len(plane[0]))] for y in range(len(plane))]


def missing_cost(greatest):
    """What stands where a code is missing: about what two codes that have nothing to do with each other cost."""
    return 3 * greatest // 7


def smoothed(costs):
    """The costs along the rows: a quarter of those before and behind and half of a pixel's own, rounded down."""

    def cost(row, x, d):
        own = row[x][d]
        before = row[x - 1][d] if x > 0 else own
        behind = row[x + 1][d] if x + 1 < len(row) else own
        return (before + 2 * own + behind) // 4

    return [[[cost(row, x, d) for d in range(len(row[x]))] for x in range(len(row))] for row in costs]


def costs_by(calibration, left, right):
    """The costs of two planes, as the calibration's version has them."""
    window, span = calibration.window, (calibration.first, calibration.count)
    greatest = window[0] * window[1] - 1
    if calibration.version < 3:
        return costs_of(census_codes(left, window), census_codes(right, window), *span, greatest)
    codes = smoothed_codes(left, window), smoothed_codes(right, window)
    return smoothed(costs_of(*codes, *span, missing_cost(greatest)))


# Paths


def guide_of(plane, maxval):
    """The left plane on the scale from 0 to 255, whatever the picture's greatest value is; None where it has no value."""
    return [[None if value is None else 255 * value // maxval for value in row] for row in plane]


def far(p1, p2, here, before):
    """What a larger jump costs between two pixels of the guide: less, the more they differ, and never less than P1."""
    if here is None or before is None:
        return p2
    return max(p1, p2 // max(1, abs(here - before)))


def next_path_values(costs, before, p1, p2):
    """The path values of a pixel from those of the pixel before it on the ray. Here P2 is that of these two pixels."""
    low, last = min(before), len(before) - 1
    values = []
    for d, cost in enumerate(costs):
        best = min(before[d], low + p2)
        if d > 0:
            best = min(best, before[d - 1] + p1)
        if d < last:
            best = min(best, before[d + 1] + p1)
        values.append(cost + best - low)
    return values


def path_values(costs, direction, p1, p2, guide=None):
    """The path values of every pixel in one direction. The first pixel of a ray has its costs.

    P2 is the same everywhere where no guide is given, else it follows the guide.
    """
    (dx, dy), height, width = direction, len(costs), len(costs[0])
    values = [[None] * width for _ in range(height)]
    for y in range(height) if dy >= 0 else reversed(range(height)):
        for x in range(width) if dx >= 0 else reversed(range(width)):
            i, j = x - dx, y - dy
            if not (0 <= i < width and 0 <= j < height):
                values[y][x] = costs[y][x]
                continue
            larger = p2 if guide is None else far(p1, p2, guide[y][x], guide[j][i])
            values[y][x] = next_path_values(costs[y][x], values[j][i], p1, larger)
    return values


def sums_of(costs, p1, p2, guide=None):
    """For each pixel and index the sum of its path values over the eight directions."""
    sums = [[[0] * len(costs[0][0]) for _ in row] for row in costs]
    for direction in DIRECTIONS:
        for sums_row, values_row in zip(sums, path_values(costs, direction, p1, p2, guide)):
            for x, values in enumerate(values_row):
                sums_row[x] = [a + b for a, b in zip(sums_row[x], values)]
    return sums


# Selection


def least_index(values):
    return min(range(len(values)), key=values.__getitem__)


def match_of(sums_row, q, first):
    """The least index with the least sum, among the left pixels that right pixel q can meet."""
    met = [(sums_row[q + first + d][d], d) for d in range(len(sums_row[0])) if 0 <= q + first + d < len(sums_row)]
    return min(met)[1] if met else None


def offset(before, at, after):
    """How far the quadratic through three neighbouring sums has its least value from the middle one, in sixteenths."""
    a, c = before - at, after - at
    return (16 * (a - c) + (a + c)) // (2 * (a + c))


def refined(values, base):
    """The index of a pixel in sixteenths, moved by the offset. The first and the last index stay as they are."""
    if base in (0, len(values) - 1):
        return 16 * base
    return 16 * base + offset(*values[base - 1 : base + 2])


def disparities(sums, left, right, first):
    """For each pixel its index in sixteenths, where the check from left to right holds on whole indices; else None."""
    found = []
    for y, sums_row in enumerate(sums):
        width = len(sums_row)
        matched = [match_of(sums_row, q, first) for q in range(width)]
        row = []
        for x in range(width):
            base = least_index(sums_row[x])
            q = x - first - base
            holds = (
                0 <= q < width
                and left[y][x] is not None
                and right[y][q] is not None
                and abs(base - matched[q]) <= 1
            )
            row.append(refined(sums_row[x], base) if holds else None)
        found.append(row)
    return found


# Finer disparities

# The places of a window, row by row, and how far a disparity may be from a pixel's own to take part
# in the pixel's slopes and in its mean.
WINDOW = [(i, j) for j in range(-2, 3) for i in range(-2, 3)]
SLOPES_MOST, MEAN_MOST = 32, 16
# By how much, in sixteenths, the three places lie apart at which the right plane is read, how many
# steps lie between two of them, and what the small samples of each plane stay below.
READ, STEPS = (8, 0, -8), 8
LEFT_LIMIT, RIGHT_LIMIT = 256, 4096


def rounded(a, b):
    return (2 * a + b) // (2 * b)


def at(rows, x, y):
    """What stands at (x, y); None outside."""
    return rows[y][x] if 0 <= y < len(rows) and 0 <= x < len(rows[0]) else None


def slope_sums(found, x, y):
    """Nx, Mx, Ny and My: over the window's disparities near the pixel's own, the sums of i times
    the difference, of i times i, and the same of j."""
    own, near = found[y][x], []
    for i, j in WINDOW:
        value = at(found, x + i, y + j)
        if value is not None and abs(value - own) <= SLOPES_MOST:
            near.append((i, j, value - own))
    across = sum(i * rise for i, _, rise in near), sum(i * i for i, _, _ in near)
    down = sum(j * rise for _, j, rise in near), sum(j * j for _, j, _ in near)
    return *across, *down


def slopes(found, x, y):
    """By how much the surface's disparity is greater at i and at j from -2 to 2: s(i) and t(j)."""
    rise_x, square_x, rise_y, square_y = slope_sums(found, x, y)
    of = lambda rise, square: [rounded(k * rise, square) if square else 0 for k in range(-2, 3)]
    return of(rise_x, square_x), of(rise_y, square_y)


def sampled(plane, u, y):
    """Sixteen times the plane's value in row y at u sixteenths of a pixel, and None; or None, and
    the pixel that is needed and misses."""
    q, f = u // 16, u % 16
    total = 0
    for column, weight in ((q, 16 - f), (q + 1, f)):
        value = at(plane, column, y) if weight else 0
        if value is None:
            return None, (column, y)
        total += weight * value
    return total, None


def left_samples(left, x, y):
    """l(i, j) over the window, and the pixels that miss."""
    places = [(x + i, y + j) for i, j in WINDOW]
    samples = [at(left, *place) for place in places]
    return samples, [place for place, sample in zip(places, samples) if sample is None]


def right_samples(found, right, first, x, y):
    """E(o; i, j) over the window for each o, and the pixels that miss."""
    (s, t), samples, missing = slopes(found, x, y), {}, []
    for o in READ:
        samples[o] = []
        for i, j in WINDOW:
            u = 16 * (x + i - first) - found[y][x] - s[i + 2] - t[j + 2] + o
            sample, gap = sampled(right, u, y + j)
            samples[o].append(sample)
            missing += [gap] if gap else []
    return samples, missing


def made_small(samples, limit):
    """The samples less the least of them, divided by the least power of two for which all of them
    are below the limit."""
    least, halvings = min(samples), 0
    while any((sample - least) // 2**halvings >= limit for sample in samples):
        halvings += 1
    return [(sample - least) // 2**halvings for sample in samples]


def small_windows(own, others):
    """l' and, for each o, e: the samples of both planes made small, the right one's together."""
    together = made_small([sample for o in READ for sample in others[o]], RIGHT_LIMIT)
    size = len(WINDOW)
    e = {o: together[size * part : size * part + size] for part, o in enumerate(READ)}
    return made_small(own, LEFT_LIMIT), e


def moved_samples(e, c):
    """r: what the right plane has for a disparity greater by c sixteenths."""
    side = e[8] if c < 0 else e[-8]
    return [(STEPS - abs(c)) * middle + abs(c) * other for middle, other in zip(e[0], side)]


def product_of(a, b):
    """25 times the sum of products less the product of the sums of two windows."""
    return len(a) * sum(one * other for one, other in zip(a, b)) - sum(a) * sum(b)


def score(a, b):
    return a * a // (b // 256) if a > 0 and b >= 256 else 0


def judged(own, e, value, count):
    """For each c whose disparity is among those that are tried, A and B."""
    made = {}
    for c in range(-STEPS, STEPS + 1):
        if 0 <= value + c <= 16 * (count - 1):
            r = moved_samples(e, c)
            made[c] = product_of(own, r), product_of(r, r)
    return made


def finer_value(found, left, right, first, count, x, y):
    """The finer value of a pixel that has one, and, where it stays as it is, why."""
    value = found[y][x]
    own, missing = left_samples(left, x, y)
    if missing:
        return value, "left ({}, {}) is void or outside".format(*missing[0])
    others, missing = right_samples(found, right, first, x, y)
    if missing:
        return value, "right ({}, {}) is void or outside".format(*missing[0])
    own, e = small_windows(own, others)
    scores = judged(own, e, value, count)
    c = max(scores, key=lambda c: (score(*scores[c]), -abs(c), -c))
    a, b = scores[c]
    if score(a, b) == 0:
        return value, "no score"
    if 3 * a * a < product_of(own, own) * b:
        return value, "less than a third"
    return value + c, None


def mean(found, x, y):
    """The rounded mean of the up to nine disparities around a pixel that are near its own."""
    own = found[y][x]
    around = [at(found, x + i, y + j) for j in (-1, 0, 1) for i in (-1, 0, 1)]
    near = [value for value in around if value is not None and abs(value - own) <= MEAN_MOST]
    return rounded(sum(near), len(near))


def each_of(found, make):
    """A new map in which every disparity is what `make` gives for its pixel."""

    def value(x, y):
        return None if found[y][x] is None else make(x, y)

    return [[value(x, y) for x in range(len(found[0]))] for y in range(len(found))]


def finer_values(found, left, right, first, count):
    return each_of(found, lambda x, y: finer_value(found, left, right, first, count, x, y)[0])


def means(found):
    return each_of(found, lambda x, y: mean(found, x, y))


def finer(found, left, right, calibration):
    """The map with finer disparities, where the calibration asks for them."""
    if not calibration.is_fine:
        return found
    return means(finer_values(found, left, right, calibration.first, calibration.count))


# Peaks and filling


def segment(found, x, y):
    """The pixels that a chain of links leads to from (x, y), itself among them, where it has a disparity.

    Two neighbours in a row or a column are linked where both have a disparity and these differ by at most 16.
    """
    members, to_visit = {(x, y)}, [(x, y)]
    while to_visit:
        x, y = to_visit.pop()
        for i, j in ((x - 1, y), (x + 1, y), (x, y - 1), (x, y + 1)):
            if (i, j) in members or not (0 <= j < len(found) and 0 <= i < len(found[0])) or found[j][i] is None:
                continue
            if abs(found[j][i] - found[y][x]) <= 16:
                members.add((i, j))
                to_visit.append((i, j))
    return members


def kept(found, least):
    """The map without the disparities whose segment has fewer than `least` pixels."""
    made, judged = [list(row) for row in found], set()
    for y, row in enumerate(found):
        for x, value in enumerate(row):
            if value is None or (x, y) in judged:
                continue
            members = segment(found, x, y)
            judged |= members
            if len(members) < least:
                for i, j in members:
                    made[j][i] = None
    return made


def met_in_turn(found, x, y):
    """The first disparity against each of the eight directions, where there is one before the picture's end."""
    values = []
    for dx, dy in DIRECTIONS:
        i, j = x - dx, y - dy
        while 0 <= j < len(found) and 0 <= i < len(found[0]) and found[j][i] is None:
            i, j = i - dx, j - dy
        if 0 <= j < len(found) and 0 <= i < len(found[0]):
            values.append(found[j][i])
    return values


def met(found, x, y):
    """The same, the least first."""
    return sorted(met_in_turn(found, x, y))


def is_mismatched(matched_row, x, first, count):
    """Whether a pixel of the right picture would have met this one. Else no one would: it is occluded."""
    partners = [(x - first - d, d) for d in range(count)]
    return any(0 <= q < len(matched_row) and matched_row[q] == d for q, d in partners)


def filled(found, matched, left, first, count):
    """The map with a value where it has none, from those met around: of a mismatched pixel the middle one, of an
    occluded one the second. None stays where the left plane is None and where nothing is met."""

    def value_for(x, y):
        values = met(found, x, y)
        if left[y][x] is None or not values:
            return None
        if is_mismatched(matched[y], x, first, count):
            return values[(len(values) - 1) // 2]
        return values[min(1, len(values) - 1)]

    return [
        [value_for(x, y) if value is None else value for x, value in enumerate(row)] for y, row in enumerate(found)
    ]


# Heights and volumes


def point(camera, x, y, sixteenths):
    """The point (X, Y, h) in micrometres that a pixel stands for, or None where it has no depth in range."""
    k = 16 * sixteenths + camera["doffs"]
    if k <= 0:
        return None
    depth = rounded(camera["focal"] * camera["baseline"], k)
    if not camera["near"] <= depth <= camera["far"]:
        return None
    across = rounded((256 * x - camera["cx"]) * camera["baseline"], k)
    up = rounded((camera["cy"] - 256 * y) * camera["baseline"], k)
    return across, up, camera["mount"] - depth


# Places in a site's frame lie to the east, to the north and up from a point of the site. The rows of
# a rotation stand there as multiples of 2^-30, and heights go so far on either side of 0.
ONE, HEIGHT_MOST = 2**30, 2000000000


def rows_of(matrix):
    return matrix[0:3], matrix[3:6], matrix[6:9]


def times(a, b):
    """The product of two directions."""
    return sum(one * other for one, other in zip(a, b))


def in_site(pose, place):
    """Where the site's frame has a point of the camera's, or None where it is too high or too low
    there."""
    turned = [rounded(times(row, place), ONE) for row in rows_of(pose["matrix"])]
    east, north, up = [pose[name] + by for name, by in zip(("east", "north", "up"), turned)]
    return (east, north, up) if -HEIGHT_MOST <= up <= HEIGHT_MOST else None


def surveyed(calibration, x, y, sixteenths):
    """The point of a pixel in the frame of the grid, or None where it has none."""
    place = point(calibration.camera, x, y, sixteenths)
    if place is None or calibration.pose is None:
        return place
    return in_site(calibration.pose, place)


def mean_height(some):
    return rounded(sum(some), len(some)) if some else None


# What a cell keeps of the heights that fall into it.
KEPT = {"highest": lambda some: max(some, default=None), "mean": mean_height}


def heights(points, grid, keep="highest"):
    """The cells of the grid, rows from the north: what each keeps of its points, or None."""
    cells = [[[] for _ in range(grid["cols"])] for _ in range(grid["rows"])]
    for across, up, height in points:
        col = (across - grid["west"]) // grid["cell"]
        row = grid["rows"] - 1 - (up - grid["south"]) // grid["cell"]
        if 0 <= col < grid["cols"] and 0 <= row < grid["rows"]:
            cells[row][col].append(height)
    return [[KEPT[keep](some) for some in row] for row in cells]


def points_in(grid, cells):
    """A point on the south-west corner of each cell that has a height, from the north-west."""
    for line, some in enumerate(cells):
        row = grid["rows"] - 1 - line
        for col, height in enumerate(some):
            if height is not None:
                east, north = (at * grid["cell"] for at in (col, row))
                yield grid["west"] + east, grid["south"] + north, height


def met_along(line, at, step, most):
    """Of a line of cells the first height from `at` on to one side, and behind how many cells it
    comes; None where none of the first `most` cells that are there has one."""
    for away in range(1, most + 1):
        place = at + step * away
        if not 0 <= place < len(line):
            return None
        if line[place] is not None:
            return away, line[place]
    return None


def spanned(line, at, side, most):
    """What a line of cells gives for its cell `at`, or None."""
    before, behind = met_along(line, at, -1, most), met_along(line, at, 1, most)
    if before is None or behind is None:
        return None
    (n, a), (k, b) = before, behind
    return rounded(a * k + b * n, n + k) if abs(a - b) <= (n + k) * side else None


def bridged(cells, side, most):
    """The cells with a height in each empty one that can be bridged, from its row and its column."""
    columns = list(zip(*cells))

    def height(row, col):
        if cells[row][col] is not None:
            return cells[row][col]
        both = spanned(cells[row], col, side, most), spanned(columns[col], row, side, most)
        return mean_height([it for it in both if it is not None])

    return [[height(row, col) for col in range(len(columns))] for row in range(len(cells))]


# Columns are counted from the west and rows from the south here, both over the whole grid from 0. A
# region has neither rises nor an outline in the versions 1 and 2.


def base_at(region, cell, col, row):
    """A region's base at a cell: the height there of the plane that has `base` at the grid's corner
    in the south-west and rises by so many millionths of the way to the east and to the north."""
    rises = region.get("rise_east", 0), region.get("rise_north", 0)
    ways = (2 * col + 1) * cell, (2 * row + 1) * cell
    return region["base"] + rounded(rises[0] * ways[0] + rises[1] * ways[1], 2000000)


def met_at(a, b, north):
    """How far to the east the edge from the corner a to the corner b crosses the level line that
    lies so far to the north; None where both corners lie north of it, or neither does."""
    if (a[1] <= north) == (b[1] <= north):
        return None
    return a[0] + (b[0] - a[0]) * Fraction(north - a[1]) / (b[1] - a[1])


def is_enclosed(outline, east, north):
    """Whether a place lies inside an outline: whether an odd number of edges cross its level line
    to the east of it."""
    corners = list(zip(outline[::2], outline[1::2]))
    edges = zip(corners, corners[1:] + corners[:1])
    met = [met_at(*edge, north) for edge in edges]
    return sum(it is not None and it > east for it in met) % 2 == 1


def middle(cell, corner, col, row):
    """How far to the east and to the north the middle of a cell lies. The grid's south-west corner
    is where `corner` says."""
    return [begin + Fraction((2 * at + 1) * cell, 2) for begin, at in zip(corner, (col, row))]


def counts(region, cell, corner, col, row):
    """Whether a cell of a region's rectangle counts:
    its middle lies inside the outline, or there is none."""
    if "outline" not in region:
        return True
    return is_enclosed(region["outline"], *middle(cell, corner, col, row))


def inside(cells, cell, region, corner=(0, 0)):
    """The cells of a region that count, from the north-west, each as its height and its base."""
    for line in range(region["row"], region["row"] + region["rows"]):
        row = len(cells) - 1 - line
        for col in range(region["col"], region["col"] + region["cols"]):
            if counts(region, cell, corner, col, row):
                yield cells[line][col], base_at(region, cell, col, row)


def tally(cells, cell, region, corner=(0, 0)):
    """cells, empty, fill, cut, lowest, highest of a region; fill and cut in cubic micrometres."""
    within = list(inside(cells, cell, region, corner))
    filled = [(height, base) for height, base in within if height is not None]
    fill = sum(max(0, height - base) for height, base in filled) * cell * cell
    cut = sum(max(0, base - height) for height, base in filled) * cell * cell
    heights = [height for height, _ in filled]
    lowest, highest = (min(heights), max(heights)) if heights else ("", "")
    return len(filled), len(within) - len(filled), fill, cut, lowest, highest


def bridges_in(before, after, cell, region, corner=(0, 0)):
    """How many cells of a region that count have a height only since they were bridged."""
    pairs = zip(*(inside(cells, cell, region, corner) for cells in (before, after)))
    return sum(old is None and new is not None for (old, _), (new, _) in pairs)


def tally_with_bridges(before, after, cell, region, corner=(0, 0)):
    """The same, with `bridged` behind the cells."""
    filled, *others = tally(after, cell, region, corner)
    return filled, bridges_in(before, after, cell, region, corner), *others


def over(calibration, before):
    """The calibration's grid from its cells before they are bridged, and its regions' tallies or None."""
    side, regions = calibration.grid["cell"], calibration.regions
    cells = bridged(before, side, calibration.bridge)
    if regions is None:
        return cells, None
    if calibration.version < 3:
        return cells, [tally(cells, side, region) for region in regions]
    corner = calibration.grid["west"], calibration.grid["south"]
    return cells, [tally_with_bridges(before, cells, side, it, corner) for it in regions]


# The certificate of one pixel


def ray_to(x, y, direction, width, height):
    """The pixels of the ray that ends at (x, y): it comes in that direction from the picture's edge."""
    pixels = []
    while 0 <= x < width and 0 <= y < height:
        pixels.append((x, y))
        x, y = x - direction[0], y - direction[1]
    return pixels[::-1]


def jump(before, here, p1, larger):
    """What a change of the index costs between two pixels, where one by more than 1 costs `larger`."""
    return 0 if before == here else p1 if abs(before - here) == 1 else larger


def best_sequence(costs, larger, p1, last):
    """The least energy of the sequences along a ray that end in the index `last`, and of those that have it the one
    that is least when they are compared entry by entry from their ends backwards.

    costs[i] has the costs of the ray's pixel i, and larger[i] is what a larger change costs between i - 1 and i.
    """
    # Of the sequences along the first pixels, up to each, the least energy of those that end in each index.
    least = [costs[0]]
    for here, more in zip(costs[1:], larger[1:]):
        ways = [[energy + jump(a, b, p1, more) for a, energy in enumerate(least[-1])] for b in range(len(here))]
        least.append([cost + min(energies) for cost, energies in zip(here, ways)])
    # Whatever stands behind an entry, those before it may be any that lead to it with the least energy.
    sequence = [last]
    for i in reversed(range(1, len(costs))):
        here = sequence[0]
        left_over = least[i][here] - costs[i][here]
        leading = [a for a, energy in enumerate(least[i - 1]) if energy + jump(a, here, p1, larger[i]) == left_over]
        sequence.insert(0, min(leading))
    return least[-1][last], sequence


def certified(costs, guide, p1, p2, ray, d):
    """The least energy along a ray of a sequence that ends in d, and for each pixel of the ray its place, its index, its
    cost, and what the change from the index before costs. P2 is the same everywhere where no guide is given."""
    along = [costs[y][x] for x, y in ray]
    greys = [guide[y][x] if guide else None for x, y in ray]
    larger = [p2] + [far(p1, p2, here, before) for before, here in zip(greys, greys[1:])]
    energy, sequence = best_sequence(along, larger, p1, d)
    jumps = [0] + [jump(a, b, p1, more) for a, b, more in zip(sequence, sequence[1:], larger[1:])]
    return energy, [(*pixel, b, cost[b], more) for pixel, b, cost, more in zip(ray, sequence, along, jumps)]


def trace(left_image, right_image, calibration, direction, x, y, d):
    """The certificate of the index d at the pixel (x, y), in that direction."""
    left, right = rectify(left_image, calibration.left), rectify(right_image, calibration.right)
    costs = costs_by(calibration, left, right)
    guide = guide_of(left, left_image.maxval) if calibration.is_adaptive else None
    ray = ray_to(x, y, direction, left_image.width, left_image.height)
    return certified(costs, guide, calibration.p1, calibration.p2, ray, d)


# Change


def changed(earlier, later, cell):
    """both, come, gone, empty, fill, cut of two grids' cells; fill and cut in cubic micrometres."""
    pairs = [pair for rows in zip(earlier, later) for pair in zip(*rows)]
    kinds = [(before is not None, after is not None) for before, after in pairs]
    rises = [after - before for before, after in pairs if before is not None and after is not None]
    fill = sum(max(0, rise) for rise in rises) * cell * cell
    cut = sum(max(0, -rise) for rise in rises) * cell * cell
    return len(rises), kinds.count((False, True)), kinds.count((True, False)), kinds.count((False, False)), fill, cut


def differences(earlier, later):
    """The later height less the earlier one, or None where a cell isn't filled in both."""

    def difference(before, after):
        return None if before is None or after is None else after - before

    return [[difference(*pair) for pair in zip(*rows)] for rows in zip(earlier, later)]


# Merge


def fits(entry, grid):
    """Whether the cells of an entry's grid lie on those of another one."""
    apart = [entry[side] - grid[side] for side in ("west", "south")]
    return entry["cell"] == grid["cell"] and all(it % grid["cell"] == 0 for it in apart)


def merged(calibration, entries):
    """The grid of many grids' cells and the regions' tallies or None. A height of an entry is a point
    of its own there. An entry is the numbers of its grid and its cells."""
    points = [it for entry in entries for it in points_in(*entry)]
    return over(calibration, heights(points, calibration.grid, calibration.keep))


# The whole survey


def match_planes(left, right, guide, calibration):
    """The map of disparities of two planes before peaks and filling, and for each pixel of the
    right one its own index or None."""
    sums = sums_of(costs_by(calibration, left, right), calibration.p1, calibration.p2, guide)
    matched = [[match_of(row, q, calibration.first) for q in range(len(row))] for row in sums]
    found = disparities(sums, left, right, calibration.first)
    return finer(found, left, right, calibration), matched


def survey(left_image, right_image, calibration, peak=0, fill=0, match=match_planes):
    """The final map of disparities, the grid's cells or None, and the regions' tallies or None."""
    left = rectify(left_image, calibration.left)
    right = rectify(right_image, calibration.right)
    guide = guide_of(left, left_image.maxval) if calibration.is_adaptive else None
    found, matched = match(left, right, guide, calibration)
    found = kept(found, peak)
    if fill:
        found = filled(found, matched, left, calibration.first, calibration.count)
    if calibration.grid is None:
        return found, None, None
    points = [
        surveyed(calibration, x, y, 16 * calibration.first + value)
        for y, row in enumerate(found)
        for x, value in enumerate(row)
        if value is not None
    ]
    before = heights([it for it in points if it is not None], calibration.grid, calibration.keep)
    return found, *over(calibration, before)
