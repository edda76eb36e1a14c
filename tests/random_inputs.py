"""The cases of random_cases.py, each made from a seed and a number alone.

`case_of(seed, number)` gives the words and the files of a case. The pictures are small, since the reference
takes a microsecond for each pixel, disparity and direction.
"""

import copy
import json
import os

import reference_inputs
import reference_matching as matching

# In the place of a file's bytes: a folder, or a link.
FOLDER = object()


class Link:
    def __init__(self, to):
        self.to = to


class Case:
    def __init__(self, kind, words, files):
        # As a program in Python gets them: what isn't UTF-8 comes in disguise, and nothing else does.
        self.kind, self.words, self.files = kind, [os.fsdecode(os.fsencode(word)) for word in words], files


class Draw:
    """Whole numbers that look random and depend on nothing but the numbers that they are made from."""

    def __init__(self, *numbers):
        self.state = 0
        for number in numbers:
            self.state = (self.state ^ number) % 2**64
            self.state = self.next()

    def next(self):
        # The mixing of SplitMix64.
        self.state = (self.state + 0x9E3779B97F4A7C15) % 2**64
        z = self.state
        z = (z ^ (z >> 30)) * 0xBF58476D1CE4E5B9 % 2**64
        z = (z ^ (z >> 27)) * 0x94D049BB133111EB % 2**64
        return z ^ (z >> 31)

    def below(self, limit):
        return self.next() % limit

    def between(self, low, high):
        return low + self.below(high - low + 1)

    def of(self, things):
        return things[self.below(len(things))]

    def chance(self, percent):
        return self.below(100) < percent

    def shuffled(self, things):
        things = list(things)
        for at in range(len(things) - 1, 0, -1):
            other = self.below(at + 1)
            things[at], things[other] = things[other], things[at]
        return things


def damaged(draw, data):
    """The bytes cut, or with some changed, put in or taken out."""
    data = bytearray(data)
    for _ in range(draw.of([1, 1, 1, 2, 3])):
        at = draw.below(len(data) + 1)
        # Most damage is done where the form is.
        at = min(at, draw.below(30)) if draw.chance(50) else at
        what = draw.below(4)
        byte = draw.of([draw.below(256), *b"0159 \t\n\v\f\r#P5{}[]\",:-.eE\\\0\xff"])
        if what == 0:
            data[at:] = b""
        elif what == 1:
            data[at : at + 1] = bytes([byte])
        elif what == 2:
            data[at:at] = bytes([byte])
        else:
            data[at : at + draw.of([1, 1, 2, 5])] = b""
    return bytes(data)


# Pictures


def textured(draw, width, height, maxval, shift):
    """The samples of two pictures, of which the right one is mostly the left one moved to the left."""
    levels = draw.of([1, 2, 5, maxval + 1, maxval + 1])
    wide = width + 2 * abs(shift)
    rows = [[draw.below(levels) * (maxval // max(1, levels - 1)) for _ in range(wide)] for _ in range(height)]
    begin = abs(shift)
    left = [row[begin + x] for row in rows for x in range(width)]
    right = [row[begin + x + shift] for row in rows for x in range(width)]
    for _ in range(draw.below(1 + width * height // 8)):
        right[draw.below(width * height)] = draw.below(maxval + 1)
    return left, right


def layered(draw, width, height, maxval, first, count):
    """The samples of two pictures of rectangles before a ground, each of its own grey and at its own disparity.

    Edges of grey lie where disparities jump, some pixels of the one picture have no partner in the other, and some
    pixels are changed: so there is something for penalties that follow the image, for peaks and for filling.
    """
    grain = draw.of([0, 1, 1 + maxval // 60, 1 + maxval // 12])
    shapes = [(0, 0, width, height)]
    for _ in range(draw.between(1, 4)):
        x, y = draw.below(width), draw.below(height)
        shapes.append((x, y, x + draw.between(1, 1 + width // 2), y + draw.between(1, 1 + height // 2)))
    # The nearer a shape, the later it is laid down.
    indices = sorted(draw.below(count) for _ in shapes)
    left = [draw.below(maxval + 1) for _ in range(width * height)]
    right = list(left)
    for (x_0, y_0, x_1, y_1), index in zip(shapes, indices):
        grey = draw.below(maxval + 1)
        for y in range(y_0, min(y_1, height)):
            for x in range(x_0, min(x_1, width)):
                sample = min(maxval, grey + draw.below(grain + 1))
                left[y * width + x] = sample
                if 0 <= x - first - index < width:
                    right[y * width + x - first - index] = sample
    for samples in (left, right):
        for _ in range(draw.below(1 + width * height // 12)):
            samples[draw.below(width * height)] = draw.below(maxval + 1)
    return left, right


def gap(draw):
    """White bytes and comments as they may stand between the numbers of a header."""
    parts = [draw.of([b" ", b"\n", b"\t", b"\v", b"\f", b"\r"])] if draw.chance(80) else []
    while not parts or draw.chance(25):
        comment = b"#" + bytes(draw.of(b"# 17aP\0\xff\t") for _ in range(draw.below(6))) + draw.of([b"\n", b"\r"])
        parts.append(draw.of([b" ", b"\n", b"\r\n", comment]))
    return b"".join(parts)


def number(draw, value):
    return b"0" * draw.of([0, 0, 0, 1, 7]) + str(value).encode()


def pgm(draw, width, height, maxval, samples, is_plain=True):
    length = 1 if maxval < 256 else 2
    raster = b"".join(sample.to_bytes(length, "big") for sample in samples)
    if is_plain:
        return f"P5\n{width} {height}\n{maxval}\n".encode() + raster
    head = b"P5" + b"".join(gap(draw) + number(draw, value) for value in (width, height, maxval))
    rest = draw.of([b"", b"\n", b"P5 1 1 255 ", raster])
    return head + draw.of([b"\n", b" ", b"\t", b"\v", b"\f", b"\r"]) + raster + rest


def faulty_pgm(draw, width, height, maxval, samples):
    """A picture with a fault of a kind that has a line of its own, most of the time."""
    if maxval not in (255, 65535) and draw.chance(50):
        samples = list(samples)
        samples[draw.below(len(samples))] = draw.of([maxval + 1, 255 if maxval < 256 else 65535])
        return pgm(draw, width, height, maxval, samples, draw.chance(50))
    whole = pgm(draw, width, height, maxval, samples, draw.chance(50))
    if draw.chance(50):
        return damaged(draw, whole)
    size = f"{width} {height}".encode()
    raster = bytes(2 * width * height)
    return draw.of(
        [
            whole[:-1],
            b"",
            b"P",
            b"P5",
            b"P2" + whole[2:],
            b"P5 " + size,
            b"P5 " + size + b" # no end",
            b"P5 " + size + b" 255",
            b"P5 " + size + b" 255#" + raster,
            b"P5 " + size + b" 255# comment\n" + raster,
            b"P5 " + size + b" 255x" + raster,
            b"P5" + size + b" 255\n" + raster,
            b"P5 " + size + b" 0\n" + raster,
            b"P5 " + size + b" 65536\n" + raster,
            b"P5 " + size + b" 7\n" + bytes([7]) * (width * height - 1) + b"\x08",
            b"P5 " + size + b" 256\n" + b"\1\0" * (width * height - 1) + b"\1\1",
            b"P5 0 " + str(height).encode() + b" 255\n" + raster,
            b"P5 " + str(width).encode() + b" 4097 255\n" + raster,
            b"P5 4096 4096 65535\n" + raster,
            b"P5 " + 40 * b"9" + b" 1 0\n",
            b"P5 0 0 0 ",
            b"P5 -1 1 255\n" + raster,
            b"P5 1.0 1 255\n" + raster,
        ]
    )


# Calibrations


class Pairs(list):
    """An object of JSON as its pairs in their order, where a name may stand twice."""

    def put(self, name, value):
        self.append((name, value))


class Raw(str):
    """A JSON text that is written as it stands."""


# The ranges of the whole numbers, of a side of the warp and of a region by their last names.
RANGES = {path.removeprefix("side.").removeprefix("region."): ends for path, ends in reference_inputs.RANGES.items()}
RANGES["outline"] = (-reference_inputs.OUTLINE_MOST, reference_inputs.OUTLINE_MOST)
RANGES["pose.matrix"] = (-reference_inputs.MATRIX_MOST, reference_inputs.MATRIX_MOST)
ODD_VALUES = [
    *map(Raw, "1.0 1e0 -0 0.5 1e400 1e-400 -1 01 +1 .5 1. 1e 0x1 NaN Infinity true false null nul [] {} [1] {{ ] '1'".split()),
    *map(Raw, ['""', '"1"', '"\\u0031"', '"\\ud800"', '"\\ud83d\\ude00"', '"\\x"', '"a\tb"', '{"a":1}', "[[[]]]", "[1,]", "1 2"]),
    *map(Raw, map(str, [2**31, 2**32, 2**53 + 1, 2**64 - 1, 2**64, 10**40, 10**400])),
]
# Whole numbers at the ends of 64 bits, and what isn't written as one.
ODD_NUMBERS = [*map(str, [2**63 - 1, 2**63, -(2**63), -(2**63) - 1]), "1.0", "-0", "1e0", "0.0"]
# The names of all keys, and some that are none.
NAMES = sorted({name for path in reference_inputs.RANGES for name in path.split(".")})
NAMES += "adapt fine keep warp left right kind matrix nodes regions name outline top x".split()


def of_version(draw, version, name, section, sections):
    """A section as the version has it: in version 3 the grid and the regions have more keys."""
    if version == 3 and name == "grid":
        return Pairs([*section, *cells_of(draw)])
    if version == 3 and name == "regions":
        return [Pairs([*region, *area_of(draw, region, sections["grid"])]) for region in section]
    return section


def settings(draw, first, count, versions=(1, 2, 3), **sections):
    made = Pairs()
    # Only version 3 has a pose.
    version = 3 if sections.get("pose") is not None else draw.of(versions)
    made.put("version", version)
    # In version 3 disparities are mostly made finer, where the program can do that.
    is_fine = reference_inputs.TAKES_FINE and version == 3 and draw.chance(60)
    fine = [("fine", is_fine)] if version == 3 else []
    made.put("disparities", completed(draw, "disparities", [("first", first), ("count", count), *fine]))
    # Small windows more often: a large one has no code anywhere in a small picture.
    sides = [("width", draw.of([3, 3, 3, 5, 7, 9])), ("height", draw.of([3, 3, 3, 5, 7]))]
    made.put("census", completed(draw, "census", sides))
    p1 = draw.of([1, 2, 7, 60, 4000, draw.between(1, 4000)])
    p2 = draw.of([p1, min(4000, 3 * p1), 4000, draw.between(p1, 4000)])
    # From version 2 on the penalties mostly follow the image.
    adapt = [("adapt", draw.chance(75))] if version > 1 else []
    made.put("penalties", completed(draw, "penalties", [("p1", p1), ("p2", p2), *adapt]))
    for name, section in sections.items():
        if section is not None:
            made.put(name, of_version(draw, version, name, section, sections))
    return made


def cells_of(draw):
    """How points become cells: mostly by their means, and with bridges."""
    keep = draw.of(["highest", "mean", "mean"])
    return [("keep", keep), ("bridge", draw.of([0, 1, 2, 2, 8, draw.between(0, 8)]))]


def rises_of(draw, region, grid):
    """How a region's base rises: mostly gently enough that it stays in the range of heights, where
    it may come to the very end of it."""
    for _ in range(9):
        steep = draw.of([0, 1, 1000, 30000, 250000, 1000000, 1000000])
        wild = lambda: draw.of([0, steep, -steep, draw.between(-steep, steep)])
        rises = {"rise_east": wild(), "rise_north": wild()}
        bases = reference_inputs.corner_bases({**dict(region), **rises}, dict(grid))
        if max(map(abs, bases)) <= reference_inputs.HIGHEST:
            return list(rises.items())
    return [("rise_east", 0), ("rise_north", 0)]


def outline_of(draw, region, grid):
    """The corners of an outline about a region, often on the middles and the corners of its cells,
    and at times far away; edges cross and corners stand twice as it comes."""
    sides, place = dict(grid), dict(region)
    south = sides["rows"] - place["row"] - place["rows"]
    begins = {"west": place["col"], "south": south}
    lengths = {"west": place["cols"], "south": place["rows"]}

    def along(side):
        """A place on one of both axes."""
        if draw.chance(4):
            return draw.of([-2000000000, 2000000000])
        halves = 2 * begins[side] + draw.between(-1, 2 * lengths[side] + 1)
        at = sides[side] + halves * sides["cell"] // 2 + draw.of([0, 0, 0, 1, -1])
        return max(-2000000000, min(2000000000, at))

    count = draw.of([3, 3, 4, 4, 5, 6, 8, 12, 40])
    return [along(side) for _ in range(count) for side in ("west", "south")]


def area_of(draw, region, grid):
    """What version 3 has of a region besides."""
    made = rises_of(draw, region, grid)
    if draw.chance(60):
        made.append(("outline", outline_of(draw, region, grid)))
    return made


def rotation_of(draw):
    """A rotation, whose numbers were rounded: quarter turns and tilts by 3, 4 and 5 too."""
    most, square = draw.of([1, 1, 3, 3, 30, 1000]), 0
    while not square:
        a, b, c, d = (draw.between(-most, most) for _ in range(4))
        square = a * a + b * b + c * c + d * d
    rows = [a * a + b * b - c * c - d * d, 2 * (b * c - a * d), 2 * (b * d + a * c)]
    rows += [2 * (b * c + a * d), a * a - b * b + c * c - d * d, 2 * (c * d - a * b)]
    rows += [2 * (b * d - a * c), 2 * (c * d + a * b), a * a - b * b - c * c + d * d]
    return [matching.rounded(matching.ONE * it, square) for it in rows]


def tilt_of(draw):
    """A rotation of a camera that looks down, more or less, with any side of the picture northwards."""
    turn, lean = draw.of([(1, 0), (1, 1), (0, 1), (1, -1), (3, 1), (20, 7)]), draw.between(-40, 40)
    (a, d), (e, b) = turn, draw.of([(100, lean), (100, lean), (1, 0), (3, 1), (3, -1)])
    around, over = a * a + d * d, e * e + b * b
    cos, sin = a * a - d * d, 2 * a * d
    level, steep = e * e - b * b, 2 * e * b
    rows = [cos * over, -sin * level, sin * steep, sin * over, cos * level, -cos * steep]
    rows += [0, steep * around, level * around]
    return [matching.rounded(matching.ONE * it, around * over) for it in rows]


# Changes of a matrix's number that nearly or just leave what is nearly a rotation.
OFF = [1, 2, 1000, 16383, 16384, 16385, 32767, 32768, 32769]


def bent(draw, matrix):
    """The matrix with one or two numbers a little off, within their range."""
    made = list(matrix)
    for _ in range(draw.of([1, 1, 2])):
        at = draw.below(9)
        off = made[at] + draw.of([-1, 1]) * draw.of(OFF)
        made[at] = max(-matching.ONE, min(matching.ONE, off))
    return made


def is_nearly_rotation(matrix):
    return max(map(abs, reference_inputs.from_rotation(matrix))) <= reference_inputs.MATRIX_LEEWAY


def matrix_of(draw):
    """Nearly a rotation, mostly that of a camera that looks down; some mirror."""
    rotation = draw.of([tilt_of, tilt_of, rotation_of])(draw)
    if draw.chance(15):
        row = 3 * draw.below(3)
        rotation[row : row + 3] = [-it for it in rotation[row : row + 3]]
    off = bent(draw, rotation)
    return off if draw.chance(25) and is_nearly_rotation(off) else rotation


def seen(camera, width, height, span):
    """The points that some pixels of such a picture have at a disparity of the span in its middle,
    and at both its ends if they are near."""
    first, count = span
    middle = max(1, first + count // 2)
    disparities = {middle, max(2, first), max(2, first + count - 1)}
    places = [(x, y) for x in (0, width // 2, width - 1) for y in (0, height // 2, height - 1)]
    points = [matching.point(dict(camera), *it, 16 * d) for it in places for d in disparities]
    return [it for it in points if it is not None]


def pose_of(draw, camera, width, height, span):
    """A pose in whose frame most points mostly have a height, at times at an end of the range."""
    matrix, points = matrix_of(draw), seen(camera, width, height, span)
    place = lambda: draw.of([0, draw.between(-99, 99), draw.between(-(10**7), 10**7)])
    made = {"matrix": matrix, "east": place(), "north": place(), "up": place()}
    if points and draw.chance(30):
        # One of the points comes to an end of the heights, or to the next one beyond it.
        up = matching.rounded(matching.times(matrix[6:9], draw.of(points)), matching.ONE)
        end = matching.HEIGHT_MOST + draw.of([-1, 0, 0, 1])
        shift = end - up if up > 0 else -end - up
        made["up"] = max(-matching.HEIGHT_MOST, min(matching.HEIGHT_MOST, shift))
    elif draw.chance(15):
        name = draw.of(["east", "north", "up"])
        made[name] = draw.of([-1, 1]) * draw.of([2000000000, 1999999999])
    return Pairs(draw.shuffled(made.items()))


def grid_about(draw, camera, pose, width, height, span):
    """A grid of some cells about the places that such a picture shows, in the frame of the pose."""
    points = [matching.in_site(dict(pose), it) for it in seen(camera, width, height, span)]
    places = [it for it in points if it is not None]
    if not places:
        return grid_of(draw)
    sides = [[place[axis] for place in places] for axis in (0, 1)]
    wide = max(max(side) - min(side) for side in sides)
    cell = min(10**9, wide // draw.between(2, 12) + 1)
    begins = [min(side) - draw.of([0, 0, draw.below(cell)]) for side in sides]
    counts = [min(16, 1 + (max(side) - begin) // cell) for side, begin in zip(sides, begins)]
    west, south = (max(-2000000000, min(2000000000, begin)) for begin in begins)
    numbers = [("west", west), ("south", south), ("cell", cell)]
    return completed(draw, "grid", [*numbers, ("cols", counts[0]), ("rows", counts[1])])


def warp_of(draw, width, height):
    """A side of the warp that suits the pictures."""
    kind = draw.below(6)
    if kind == 0:
        return Pairs([("kind", "identity")])
    if kind < 3:
        # Near the identity, in whole numbers of some scale; the third row bends by a little.
        scale = draw.of([1, 2, 256, 1000, 65536])
        wild = lambda most: draw.between(-most, most)
        bend = [wild(scale // (4 * (width + height))), wild(scale // (4 * (width + height)))]
        shift = draw.of([0, scale // 2, scale, 3 * scale])
        lines = [scale + wild(scale // 8), wild(scale // 8), wild(shift), wild(scale // 8), scale + wild(scale // 8)]
        return Pairs([("kind", "projective"), ("matrix", [*lines, wild(shift), *bend, scale])])
    step = draw.of([2, 3, 5, 8, 1024])
    cols, rows = (width - 1) // step + 2, (height - 1) // step + 2
    reach = draw.of([0, 1, 40, 128, 255, 700])
    moved = lambda place: 256 * place + draw.between(-reach, reach)
    nodes = [part for j in range(rows) for i in range(cols) for part in (moved(i * step), moved(j * step))]
    return Pairs([("kind", "mesh"), ("step", step), ("cols", cols), ("rows", rows), ("nodes", nodes)])


def wrong_warp(draw, width, height):
    """A side that is in its ranges and doesn't suit the pictures, most of the time."""
    if draw.chance(50):
        below = [draw.between(-2, 2), draw.between(-2, 2), draw.between(-3, 3 * (width + height))]
        return Pairs([("kind", "projective"), ("matrix", [1, 0, 0, 0, 1, 0, *below])])
    cols, rows = draw.between(2, 5), draw.between(2, 5)
    return Pairs([("kind", "mesh"), ("step", draw.between(2, 6)), ("cols", cols), ("rows", rows), ("nodes", [0, 0] * cols * rows)])


def completed(draw, section, made):
    """The object with its other keys, somewhere in their ranges."""
    missing = [name for name in reference_inputs.keys_of(section) if name not in dict(made)]
    return Pairs([*made, *((name, draw.between(*reference_inputs.RANGES[f"{section}.{name}"])) for name in missing)])


def camera_of(draw):
    """With some thirty pixels of focal length and a metre of baseline, a disparity d lies 30 / d metres away.

    Odd baselines with principal points and focal lengths between two pixels give quotients that end in a half.
    """
    near = draw.of([1, 1, 1, 3000000, 2000000000])
    far = max(near, draw.of([near, 8000000, 40000000, 40000000, 2000000000]))
    halves = draw.chance(50)
    odd = lambda least, most: 2 * draw.between(least // 2, most // 2) + 1
    focal, baseline = (128 * odd(30, 70), odd(300000, 1200000)) if halves else (draw.between(4000, 9000), draw.between(300000, 1200000))
    middle = lambda: 128 * odd(-8, 30) if halves else draw.between(-2000, 4000)
    if draw.chance(8):
        focal, baseline = 16777216, 2000000000
    made = [("focal", focal), ("baseline", baseline), ("cx", middle()), ("cy", middle())]
    made += [("doffs", draw.of([0, 0, 0, 77, -256, 300])), ("mount", draw.of([0, 15000000, 2000000000]))]
    return completed(draw, "camera", [*made, ("near", near), ("far", far)])


def grid_of(draw):
    """Mostly one into which most points fall, several into some of its cells."""
    cols, rows = draw.between(1, 14), draw.between(1, 14)
    if draw.chance(60):
        side = draw.of([2000000, 3000000, 5000000])
        return completed(draw, "grid", [("west", -8000001), ("south", -14000003), ("cell", side), ("cols", 14), ("rows", 14)])
    west, south = draw.between(-12000000, 2000000), draw.between(-12000000, 2000000)
    cell = draw.of([1, 300001, 1000000, 3000000, 1000000000])
    return completed(draw, "grid", [("west", west), ("south", south), ("cell", cell), ("cols", cols), ("rows", rows)])


def regions_of(draw, grid):
    """Regions inside the grid, which keeps its sides."""
    sides = dict(grid)
    made = []
    for index in range(draw.below(5)):
        col, row = draw.below(sides["cols"]), draw.below(sides["rows"])
        cols, rows = draw.between(1, sides["cols"] - col), draw.between(1, sides["rows"] - row)
        name = draw.of([f"r{index}", "Pile no. 7", "_-. ", "a" * 64])
        base = draw.of([0, 7000000, -2000000000, 2000000000, draw.between(-20000000, 20000000)])
        numbers = [("col", col), ("row", row), ("cols", cols), ("rows", rows), ("base", base)]
        made.append(completed(draw, "region", [("name", name), *numbers]))
    return made


def sections_of(draw, width, height, span):
    """The sections beside the settings, each there or not, as they may be together."""
    made = {"warp": None, "camera": None, "pose": None, "grid": None, "regions": None}
    if draw.chance(60):
        made["warp"] = Pairs([("left", warp_of(draw, width, height)), ("right", warp_of(draw, width, height))])
    if draw.chance(75):
        made["camera"] = camera_of(draw)
        if draw.chance(20):
            made["pose"] = pose_of(draw, made["camera"], width, height, span)
        if draw.chance(90):
            about = made["camera"], made["pose"], width, height, span
            made["grid"] = grid_about(draw, *about) if made["pose"] else grid_of(draw)
            if draw.chance(80):
                made["regions"] = regions_of(draw, made["grid"])
    return made


def json_text(draw, value, is_loose):
    """The value as JSON; where it is loose, with white space and escapes wherever they may stand."""

    def space():
        return "".join(draw.of([" ", "\n", "\t", "\r"]) for _ in range(draw.of([0, 0, 1, 2]))) if is_loose else ""

    def text(word):
        if not (is_loose and draw.chance(20)):
            return json.dumps(word)
        return '"' + "".join(f"\\u{ord(letter):04x}" if draw.chance(50) else letter for letter in word) + '"'

    if isinstance(value, Raw):
        made = value
    elif isinstance(value, Pairs):
        pairs = (space() + text(name) + space() + ":" + json_text(draw, it, is_loose) for name, it in value)
        made = "{" + ",".join(pairs) + "}"
    elif isinstance(value, list):
        made = "[" + ",".join(json_text(draw, it, is_loose) for it in value) + "]"
    elif isinstance(value, str):
        made = text(value)
    else:
        made = json.dumps(value)
    return space() + made + space()


def places(value, path="", depth=1):
    """Each pair of an object and some elements of its lists: the object or list, the index, the path, and how many
    objects and lists it stands in."""
    if isinstance(value, Pairs):
        for index, (name, it) in enumerate(value):
            here = f"{path}.{name}" if path else name
            yield value, index, here, depth
            yield from places(it, here, depth + 1)
    elif isinstance(value, list):
        # Of a long list of numbers one or two elements will do.
        numbered = list(enumerate(value))
        for index, it in numbered if len(value) < 4 else [numbered[0], numbered[-1]]:
            yield value, index, path, depth
            yield from places(it, path, depth + 1)


def range_of(path):
    """The range of a number by its path or last name; of the others, that of a matrix."""
    for known in (path, path.rpartition(".")[2]):
        if known in RANGES:
            return RANGES[known]
    return -1099511627776, 1099511627776


def deep(draw, value, depth):
    """The value inside of many lists or objects; beyond 127 of them, with those around it, nothing is read."""
    times = draw.of([1, 2, 126 - depth, 127 - depth, 127 - depth, 128 - depth, 128 - depth, 129 - depth, 200])
    text = json.dumps(value) if isinstance(value, int) else "0"
    if draw.chance(50):
        return Raw("[" * times + text + "]" * times)
    return Raw('{"a":' * times + text + "}" * times)


def part_of(holder, name):
    """The value of that name, or None."""
    return next((value for key, value in holder if key == name), None) if isinstance(holder, Pairs) else None


def based(draw, region, grid):
    """The base that leaves one of the region's corner cells at an end of the heights, where
    all that it rests on is there."""
    names = ("col", "row", "cols", "rows", "base", "rise_east", "rise_north")
    numbers = {name: part_of(region, name) for name in names}
    sides = {name: part_of(grid, name) for name in ("cell", "rows")}
    if not all(type(it) is int for it in (*numbers.values(), *sides.values())):
        return []
    at_corner = draw.of(reference_inputs.corner_bases(numbers, sides))
    end = draw.of([reference_inputs.HIGHEST, -reference_inputs.HIGHEST])
    return [(region, "base", None, numbers["base"] + end - at_corner)]


def tighten(draw, whole):
    """Changes a number whose range rests on others to the end of its range, or to the next one beyond it."""
    penalties, camera, grid = (part_of(whole, name) for name in ("penalties", "camera", "grid"))
    regions = part_of(whole, "regions")
    holders = [(penalties, "p2", "p1", 0), (penalties, "p1", "p2", 0), (camera, "far", "near", 0), (camera, "near", "far", 0)]
    if isinstance(regions, list) and regions and draw.chance(50):
        holders = []
        region = draw.of(regions)
        for first, count in (("col", "cols"), ("row", "rows")):
            side, begin, length = part_of(grid, count), part_of(region, first), part_of(region, count)
            if all(isinstance(it, int) for it in (side, begin, length)):
                ends = [(region, count, side - begin), (region, first, side - length), (region, first, side), (grid, count, begin + length)]
                holders += [(holder, name, None, end) for holder, name, end in ends]
        holders = holders if draw.chance(50) else based(draw, region, grid) or holders
    holder, name, other, end = draw.of(holders or [(None, None, None, 0)])
    end = end if other is None else part_of(holder, other)
    if isinstance(holder, Pairs) and isinstance(end, int):
        end += draw.of([-1, 0, 1])
        holder[:] = [(key, end if key == name else value) for key, value in holder]


# What is put in for the keys that only some versions have, where that isn't true or false.
LATER_VALUES = {
    "grid.keep": ["highest", "mean", "mean", "Mean", "means", "", 0, Raw("null"), Raw('"m\\u0065an"')],
    "grid.bridge": [0, 1, 8, 8, 9, -1, "2", True, Raw("null"), Raw("2.0")],
    "region.outline": [
        [],
        [0, 0, 0, 0, 0, 0],
        [0, 0, 8, 8, 4],
        [0, 0, 8, 8],
        [0] * 2000,
        [0] * 2001,
        [0] * 2002,
        [2000000000, -2000000000, 0, 0, 5, 7],
        [0, 0, 8, 8, 4, 2000000001],
        [0, 0, 8, 8, 4, Raw("null")],
        [Raw("1.0"), 2000000001],
        [[0, 0], [8, 8], [4, 4]],
        Raw("null"),
        "0 0 8 8 4 4",
        7,
    ],
}
# The same of what a pose has, and of the pose itself.
POSE_VALUES = {
    "east": [0, 2000000000, -2000000000, 2000000001, -2000000001, "0", Raw("null"), Raw("1.0"), True],
    "pose": [Raw("null"), [], 0, {}, Raw('{"matrix":[]}'), Raw('{"up":0}')],
    "matrix": [
        [],
        [2**30, 0, 0, 0, 2**30, 0, 0, 0],
        [2**30, 0, 0, 0, 2**30, 0, 0, 0, 2**30],
        [2**30, 0, 0, 0, 2**30, 0, 0, 0, 2**30, 0],
        [2**30 + 1, 0, 0, 0, 2**30, 0, 0, 0, 2**30],
        [0, 0, 2**30, 2**30, 0, 0, 0, -(2**30), 0],
        [2**30, 0, 0, 0, 2**30, 0, 0, 0, Raw("1073741824.0")],
        [2**30, 0, 0, 0, 2**30, 0, 0, 0, Raw("null")],
        [[2**30, 0, 0], [0, 2**30, 0], [0, 0, 2**30]],
        [2**63 - 1] * 9,
        [-(2**63)] * 9,
        [0] * 9,
        [2**30] * 9,
        Raw("null"),
        "1",
        1,
    ],
}
RISES = [0, 1000000, -1000000, 1000001, -1000001, "0", True, Raw("null"), Raw("1.0"), [0]]
LATER_VALUES |= {"region.rise_east": RISES, "region.rise_north": RISES}


def put_pose(draw, whole):
    """Puts in, changes or takes out the pose or something of it."""
    pose = part_of(whole, "pose")
    if not isinstance(pose, Pairs) or draw.chance(20):
        whole[:] = [(key, value) for key, value in whole if key != "pose"]
        if draw.chance(75):
            whole.insert(draw.below(len(whole) + 1), ("pose", draw.of(POSE_VALUES["pose"])))
        return
    matrix, name = part_of(pose, "matrix"), draw.of(["matrix", "matrix", "east", "north", "up"])
    values = POSE_VALUES.get(name, POSE_VALUES["east"])
    if name == "matrix" and isinstance(matrix, list) and draw.chance(50):
        values = [bent(draw, matrix)] if all(type(it) is int for it in matrix[:9]) and len(matrix) >= 9 else values
    pose[:] = [(key, value) for key, value in pose if key != name]
    if draw.chance(85):
        pose.put(name, draw.of(values))


def exchange(draw, whole):
    """Says another version, or puts in, changes or takes out a key that only some versions have."""
    if draw.chance(40):
        whole[:] = [(key, draw.below(5) if key == "version" else value) for key, value in whole]
        return
    put_later(draw, whole, draw.of(list(reference_inputs.LATER)))


def put_later(draw, whole, path):
    """Puts in, changes or takes out such a key, of a region in one of them."""
    section, _, name = path.partition(".")
    holder = part_of(whole, section)
    regions = part_of(whole, "regions")
    if section == "region" and isinstance(regions, list) and regions:
        holder = draw.of(regions)
    if isinstance(holder, Pairs):
        holder[:] = [(key, value) for key, value in holder if key != name]
        if draw.chance(75):
            holder.put(name, draw.of(LATER_VALUES.get(path, [True, True, False, False, 0, Raw("null")])))


def change(draw, whole):
    """Changes the calibration in one place."""
    if draw.chance(15):
        exchange(draw, whole)
        return
    if part_of(whole, "version") == 3 and draw.chance(30):
        put_later(draw, whole, draw.of(["region.rise_east", "region.rise_north", "region.outline"]))
        return
    if draw.chance(10 if part_of(whole, "pose") is None else 35):
        put_pose(draw, whole)
        return
    if draw.chance(25):
        tighten(draw, whole)
        return
    holder, index, path, depth = draw.of(list(places(whole)))
    is_pair = isinstance(holder, Pairs)
    name, value = holder[index] if is_pair else (None, holder[index])
    put = lambda it: holder.__setitem__(index, (name, it) if is_pair else it)
    low, high = range_of(path)
    what = draw.below(12)
    if what < 1:
        del holder[index]
    elif what < 2:
        put(draw.of(ODD_VALUES))
    elif what < 4:
        put(Raw(draw.of(ODD_NUMBERS)))
    elif what < 6:
        put(not value if isinstance(value, bool) else draw.of([low - 1, low, high, high + 1, 0, draw.between(low, high)]))
    elif what < 7:
        other = draw.of([draw.of(ODD_VALUES), low, high, value])
        holder.insert(draw.below(len(holder) + 1), (name, other) if is_pair else other)
    elif what < 8 and is_pair:
        holder[index] = (draw.of([draw.of(NAMES), name + "s", name.upper(), name + " ", ""]), value)
    elif what < 10:
        put(deep(draw, value, depth))
    else:
        inner = [part[at][1] for part, at, _, _ in places(whole) if isinstance(part, Pairs)]
        target = draw.of([whole] + [it for it in inner if isinstance(it, Pairs)])
        target.insert(draw.below(len(target) + 1), (draw.of(NAMES), draw.of([copy.deepcopy(value), 0, draw.of(ODD_VALUES)])))


def is_long(whole):
    """Whether the grid that was made would have too many cells for the reference."""
    sides = {"grid.cols": 1, "grid.rows": 1}
    for holder, index, path, _ in places(whole):
        if path in sides and isinstance(holder, Pairs) and isinstance(holder[index][1], int):
            sides[path] = max(sides[path], holder[index][1])
    return sides["grid.cols"] * sides["grid.rows"] > 100000


def faulty_calibration(draw, width, height):
    while True:
        # All sections stand in it, so that each of them is changed at times.
        grid, camera = grid_of(draw), camera_of(draw)
        pose = pose_of(draw, camera, width, height, (0, 4)) if draw.chance(40) else None
        sides = Pairs([("left", warp_of(draw, width, height)), ("right", warp_of(draw, width, height))])
        sections = {"warp": sides if draw.chance(70) else None, "camera": camera, "pose": pose, "grid": grid}
        whole = settings(draw, draw.between(-3, 3), draw.between(1, 6), **sections, regions=regions_of(draw, grid))
        for _ in range(draw.of([1, 1, 1, 1, 2, 3])):
            change(draw, whole)
        if not is_long(whole):
            break
    if draw.chance(40):
        whole = Pairs(draw.shuffled(whole))
    data = json_text(draw, whole, draw.chance(50)).encode("utf-8", "surrogatepass")
    # Most texts stay JSON, so that what is wrong in them is found.
    if draw.chance(8):
        return damaged(draw, data)
    around = [(b"", b"")] * 80 + [(b"\xef\xbb\xbf", b""), (b"", b"x"), (b"", b"\n{}"), (b"\v", b""), (b"[", b"]"), (b"", b"\0")]
    before, after = draw.of(around)
    return before + data + after


# Grids


GRID_KEYS = {name: (key, low, high) for name, key, low, high in reference_inputs.GRID_HEAD}


def grid_head(draw):
    """The numbers of a small grid, by their keys."""
    head = {}
    for key, low, high in GRID_KEYS.values():
        head[key] = draw.between(1, 6) if key in ("cols", "rows") else draw.of([low, high, 0, 1, draw.between(low, high)])
        head[key] = max(low, min(high, head[key]))
    return head


def heights_of(draw, count, empty):
    """That many heights; so many of a hundred cells are empty."""
    highest = reference_inputs.HIGHEST
    near = draw.between(-highest, highest - 5)

    def height():
        if draw.chance(empty):
            return reference_inputs.EMPTY
        return draw.of([near, near, near + draw.below(6), 0, -highest, highest, draw.between(-highest, highest)])

    return [height() for _ in range(count)]


def loose_number(draw, value):
    sign = "-" if value < 0 or (value == 0 and draw.chance(30)) else ""
    return (sign + "0" * draw.of([0, 0, 0, 1, 30]) + str(abs(value))).encode()


def loose_name(draw, name):
    mixed = bytes(draw.of([byte, byte ^ 32]) if 97 <= byte <= 122 else byte for byte in name)
    return draw.of([name, name.upper(), name.title(), mixed])


def grid_words(draw, head, heights, is_loose):
    """The words of a grid's text."""
    number_of = (lambda value: loose_number(draw, value)) if is_loose else (lambda value: str(value).encode())
    words = []
    for name, (key, *_) in GRID_KEYS.items():
        plain = name.replace(b"nodata", b"NODATA")
        words += [loose_name(draw, name) if is_loose else plain, number_of(head[key])]
    return words + [number_of(height) for height in heights]


def grid_text(draw, words, cols, is_loose):
    """The text of such words: in lines as the program writes them, or with white space of any kind."""
    if is_loose:
        every = [b" ", b"\t", b"\n", b"\r\n", b"\r", b" \n\n\t "]
        spaces = draw.of([[b" "], [b"\n"], [b"\r\n"], [b"\t", b"  "], every])
        ends = [draw.of([b"", *spaces]), draw.of([b"", *spaces])]
        return ends[0] + b"".join(word + draw.of(spaces) for word in words[:-1]) + b"".join(words[-1:]) + ends[1]
    head, heights = words[:12], words[12:]
    lines = [head[at : at + 2] for at in range(0, len(head), 2)]
    lines += [heights[at : at + cols] for at in range(0, len(heights), cols)]
    return b"".join(b" ".join(line) + b"\n" for line in lines)


ODD_GRID_WORDS = [
    b"-", b"+1", b"--1", b"1-", b"1.0", b"1e3", b"0x10", b"nan", b"x", b"\xff", b"\0", b"-9999999999", b"-9999", b"1\v2",
    b"\xd9\xa1", b"xllcenter", b"yllcenter", b"ncols", b"NODATA", b"9" * 40, b"-" + b"9" * 40, b"0" * 60, b"-0",
]  # fmt: skip


def ill(draw, words):
    """The words with one that is changed, put in or taken out: mostly a fault, at times only near to one."""
    words, what = list(words), draw.below(8)
    if what < 1:
        words[draw.below(min(len(words), 12))] = draw.of(ODD_GRID_WORDS)
    elif what < 3:
        line = draw.below(len(GRID_KEYS))
        _, low, high = list(GRID_KEYS.values())[line]
        words[2 * line + 1 : 2 * line + 2] = [str(draw.of([low - 1, low, high, high + 1])).encode()]
    elif what < 6 and len(words) > 12:
        at = 12 + draw.below(len(words) - 12)
        ends = [reference_inputs.HIGHEST, -reference_inputs.HIGHEST, reference_inputs.EMPTY, -reference_inputs.EMPTY]
        near = [str(end + more).encode() for end in ends for more in (-1, 0, 1)]
        words[at : at + 1] = [draw.of([*ODD_GRID_WORDS, *near])]
    elif what == 6:
        at = draw.below(len(words))
        words.insert(at, draw.of([words[at], b"0", b"1", draw.of(ODD_GRID_WORDS)]))
    else:
        at = draw.below(len(words))
        words[at : at + draw.of([1, 1, 1, 2, len(words)])] = []
    return words


# Words


GOOD_WORDS = ["match", "l.pgm", "r.pgm", "c.json", "o"]
TRACE_WORDS = ["trace", "l.pgm", "r.pgm", "c.json", "right", "0", "0", "0"]
CHANGE_WORDS = ["change", "e.asc", "l.asc", "o"]
MERGE_WORDS = ["merge", "m.txt", "c.json", "o"]
ODD_WORDS = [
    "trace", "change", "right", "left", "downright", "upleft", "Right", "UP", "up ", "rightdown", "sideways", "e.asc", "l.asc",
    "", "-", "--", "--help", "-h", "match", "demo", "MATCH", "match ", "0", "7", "4294967295", "4294967296", "00", "-1", "+1",
    "1.0", "\u0661", "l.pgm", "r.pgm", "c.json", "o", "o.pgm", "o.asc", "o.csv", "./o.pgm", "strips", "strips=", "strips=0",
    "strips=1", "strips=2", "strips=3", "strips=64", "strips=65", "strips=00064", "strips=1 ", " strips=1", "strips =1",
    "Strips=1", "strips=+1", "strips=-1", "strips=1e0", "strips=0x1", "strips=1=1", "strips=\uff11", "strips=\u0663",
    "strips=99999999999999999999999999", "strips=1\n", "workers=", "workers=0", "workers=1", "workers=4", "workers=16",
    "workers=17", "workers=016", "workers=4294967297", "workers=18446744073709551617", "workers=1,2", "worker=1", "=", "=1",
    "peak", "peak=", "peak=0", "peak=1", "peak=2", "peak=020", "peak=16777216", "peak=16777217", "peak=-1", "peak=0x2",
    "peak=4294967296", "peak=4294967298", "peak=18446744073709551616", "peak=1.0", "peak=\u0662", "Peak=2", "peaks=2", "peak=fill=1",
    "fill", "fill=", "fill=0", "fill=1", "fill=2", "fill=01", "fill=-0", "fill=true", "fill=yes", "fill=4294967297", "Fill=1", "fill=1 ",
    "\udcff", "strips=\udcff", "\udcc3\udca4", "\u00e4", "a b", "a\nb",
]  # fmt: skip


def options(draw):
    """Options that are in order, some or none."""
    made = []
    if draw.chance(50):
        made.append("strips=" + draw.of(["1", "2", "3", "5", "7", "16", "63", "64", "007"]))
    if draw.chance(40):
        made.append("workers=" + draw.of(["1", "2", "3", "4", "8", "16", "02"]))
    if draw.chance(40):
        made.append("peak=" + draw.of(["0", "1", "2", "2", "3", "4", "6", "10", "25", "005", "16777216"]))
    if draw.chance(40):
        made.append("fill=" + draw.of(["0", "1", "1", "1", "01"]))
    return draw.shuffled(made)


def odd_option(draw):
    name, (_, most) = draw.of(list(reference_inputs.OPTIONS.items()))
    return f"{name}={draw.of(['', '0', '00', '1', most - 1, most, most + 1, f'0{most}', f'0{most + 1}', 10 * most, -1])}"


def trace_words(draw, width, height, count):
    """The words of a certificate, mostly of a pixel and an index that there are."""
    spots = []
    for most in (width, height, count):
        inside = draw.of([0, most - 1, draw.below(most), draw.below(most)])
        number = inside if draw.chance(97) else draw.of([most, most + 1, 4095, 4096, 4294967295])
        spots.append("0" * draw.of([0, 0, 0, 0, 1, 20]) + str(number))
    return TRACE_WORDS[:4] + [draw.of(reference_inputs.DIRECTIONS), *spots]


def odd_words(draw):
    plain = [GOOD_WORDS, GOOD_WORDS, GOOD_WORDS, TRACE_WORDS, TRACE_WORDS, CHANGE_WORDS, ["demo"]]
    words = draw.of(plain + ([MERGE_WORDS] if reference_inputs.HAS_MERGE else []))
    words = words + [draw.of(["5", "x", "", "4294967296", "0" * 30])] if words == ["demo"] else list(words)
    words += options(draw) if words[0] in ("match", "demo") or draw.chance(15) else []
    command = reference_inputs.COMMANDS[words[0]]
    for _ in range(draw.of([1, 1, 2, 3])):
        at = draw.below(len(words) + 1)
        what = draw.below(8)
        if what == 0:
            words[at : at + 1] = []
        elif what == 1:
            words[at : at + 1] = [draw.of(ODD_WORDS)]
        elif what < 4 and command.names:
            # The inputs, one of which may be an output.
            here = draw.between(1, 2 if words[0] in ("change", "merge") else 3)
            words[here : here + 1] = [draw.of(["o.pgm", "o.asc", "o.csv", "O.pgm", "./o.csv", "o", ""])]
        elif what == 4:
            words.append(draw.of(words or ODD_WORDS))
        elif what == 5 and command.operands > command.names:
            # What stands behind the names: a direction and numbers.
            here = draw.of([command.names + 1, draw.between(command.names + 1, command.operands)])
            odd = ["", "1", "07", "-1", "+1", "1.0", "4294967295", "4294967296", "\u0661", "up", "downleft", "Left"]
            words[here : here + 1] = [draw.of([*odd, draw.of(ODD_WORDS)])]
        else:
            # Odd options come behind the operands, where they are looked at.
            words.insert(draw.of([at, len(words), len(words)]), draw.of([odd_option(draw), draw.of(ODD_WORDS)]))
    return words


# Cases


def sides_of(draw, cells):
    """The sides of a picture of at most so many pixels, small ones more often."""
    width = draw.of([1, 2, 3, draw.between(1, 12), draw.between(1, 40)])
    height = draw.of([1, 2, 3, draw.between(1, 12), draw.between(1, 40)])
    while width * height > cells:
        width, height = max(1, width // 2), max(1, height - 1)
    return width, height


def pair_of(draw, width, height, shift=2, is_plain=True):
    maxval = draw.of([1, 2, 100, 255, 255, 256, 4095, 65535])
    both = textured(draw, width, height, maxval, shift)
    return [pgm(draw, width, height, maxval, samples, is_plain) for samples in both]


def files_of(pair, calibration):
    return {"l.pgm": pair[0], "r.pgm": pair[1], "c.json": calibration}


def words_case(draw):
    width, height = sides_of(draw, 60)
    calibration = json_text(draw, settings(draw, 0, draw.between(1, 4)), False).encode()
    files, words = files_of(pair_of(draw, width, height), calibration), odd_words(draw)
    files |= {**grids_of(draw)[0], "m.txt": b"e.asc\nl.asc\n"}
    try:
        reference_inputs.read_words(words)
        # A demo that runs takes the reference too long.
        words += ["again"] if words[0] == "demo" else []
    except reference_inputs.Ended:
        pass
    return words, files


def picture_case(draw):
    width, height = sides_of(draw, 120)
    calibration = json_text(draw, settings(draw, draw.between(-2, 2), draw.between(1, 6)), False).encode()
    pair = pair_of(draw, width, height, is_plain=False)
    if draw.chance(75):
        maxval = draw.of([1, 254, 255, 256, 1000, 65535])
        samples = textured(draw, width, height, maxval, 0)[0]
        pair[draw.of([0, 1, 1])] = faulty_pgm(draw, width, height, maxval, samples)
    return GOOD_WORDS + options(draw), files_of(pair, calibration)


def calibration_case(draw):
    width, height = sides_of(draw, 100)
    return GOOD_WORDS + options(draw), files_of(pair_of(draw, width, height), faulty_calibration(draw, width, height))


def survey_case(draw):
    if draw.chance(2):
        # The least volume that is refused: 268,435,456 cells are accepted. Version 3 would match it.
        size, count = draw.of([((1024, 1025), 256), ((2048, 1986), 66)])
        picture = f"P5 {size[0]} {size[1]} 255\n".encode() + bytes(size[0] * size[1])
        calibration = json_text(draw, settings(draw, 0, count, versions=(1, 2)), False).encode()
        return GOOD_WORDS + options(draw), files_of([picture, picture], calibration)
    width, height = sides_of(draw, 700)
    if draw.chance(50):
        width, height = draw.between(8, 30), draw.between(6, 20)
    most = max(1, min(256, 9000 // (width * height)))
    count = draw.of([1, 2, most, draw.between(1, most)])
    first = draw.of([0, 0, 1, 1, 2, 3, draw.between(-8, 8), -1024, 1024, draw.between(-width, width)])
    shift = max(-50, min(50, first + draw.below(count)))
    pair = pair_of(draw, width, height, shift)
    if draw.chance(8):
        pair[1] = pair_of(draw, *draw.of([(width + 1, height), (width, height + 1), (height, width)]), shift)[1]
    sections = sections_of(draw, width, height, (first, count))
    if draw.chance(12):
        sides = [wrong_warp(draw, width, height), draw.of([warp_of, wrong_warp])(draw, width, height)]
        sections["warp"] = Pairs(zip(("left", "right"), draw.shuffled(sides)))
    words = GOOD_WORDS + options(draw)
    if width * height <= 100 and draw.chance(15):
        words[3] = "-"
    calibration = json_text(draw, settings(draw, first, count, **sections), draw.chance(20))
    return words, files_of(pair, calibration.encode())


def scene_case(draw):
    """A picture of shapes, and settings by which the penalties, peaks and filling change something more often."""
    width, height = draw.between(9, 28), draw.between(6, 18)
    first, count = draw.between(-3, 4), draw.between(3, max(3, 4000 // (width * height)))
    maxval = draw.of([7, 100, 255, 255, 256, 1023, 65535])
    pair = [pgm(draw, width, height, maxval, samples) for samples in layered(draw, width, height, maxval, first, count)]
    sections = sections_of(draw, width, height, (first, count))
    # In place of a third of version 1 too: its penalties don't follow the image.
    whole = settings(draw, first, count, versions=(2, 2, 3), **sections)
    p1 = draw.of([1, 1, 2, 3, 5])
    penalties = [("p1", p1), ("p2", p1 * draw.of([2, 5, 10, 25, 60, 400]))]
    tuned = {
        "census": Pairs([("width", draw.of([3, 3, 5])), ("height", draw.of([3, 3, 5]))]),
        "penalties": Pairs([*penalties, ("adapt", draw.chance(80))]),
    }
    whole[:] = [(name, tuned.get(name, value)) for name, value in whole]
    words = GOOD_WORDS + options(draw)
    return words, files_of(pair, json_text(draw, whole, False).encode())


def cells_below(draw, width, height, middle):
    """A camera, and a grid of about the ground that such a picture shows at the disparity `middle`."""
    baseline = draw.between(300000, 1200000)
    numbers = [("baseline", baseline), ("focal", draw.between(4000, 9000)), ("doffs", draw.of([0, 0, 0, 77]))]
    numbers += [(name, draw.between(-600, 600)) for name in ("cx", "cy")]
    numbers += [("mount", 15000000), ("near", 1), ("far", 2000000000)]
    # Points that lie side by side in the picture are so far apart; cells are smaller or larger.
    apart = baseline // middle
    side = apart * draw.of([3, 5, 7, 10, 10, 14, 22]) // 10
    corner = [("west", draw.between(-2 * side, side)), ("south", draw.between(-height, 2 - height) * apart)]
    sides = [("cols", min(30, 1 + width * apart // side)), ("rows", min(30, 1 + height * apart // side))]
    return completed(draw, "camera", numbers), completed(draw, "grid", [*corner, ("cell", side), *sides])


def cells_case(draw):
    """A survey of version 3 in whose grid most cells have several points, or lie between others that
    have some."""
    width, height = draw.between(12, 28), draw.between(8, 18)
    first, count = draw.between(1, 4), draw.between(3, 8)
    maxval = draw.of([255, 255, 1023])
    pair = [pgm(draw, width, height, maxval, samples) for samples in layered(draw, width, height, maxval, first, count)]
    camera, grid = cells_below(draw, width, height, first + count // 2)
    sections = {"camera": camera, "pose": None}
    if draw.chance(50):
        about = width, height, (first, count)
        sections["pose"] = pose_of(draw, camera, *about)
        grid = grid_about(draw, camera, sections["pose"], *about)
    sections |= {"grid": grid, "regions": regions_of(draw, grid)}
    whole = settings(draw, first, count, versions=(3,), **sections)
    small = Pairs([("width", 3), ("height", 3)])
    whole[:] = [(name, small if name == "census" else value) for name, value in whole]
    return GOOD_WORDS + options(draw), files_of(pair, json_text(draw, whole, False).encode())


def trace_case(draw):
    """A certificate: of a picture of shapes or of noise, with voids by warps, and penalties that follow the picture."""
    if draw.chance(50):
        _, files = scene_case(draw)
    else:
        _, files = survey_case(draw)
    words = trace_words(draw, 6, 5, 4)
    try:
        image = reference_inputs.read_pgm(files["l.pgm"], "left")
        count = reference_inputs.read_calibration(files["c.json"]).count
        words = trace_words(draw, image.width, image.height, count)
    except reference_inputs.Ended:
        pass
    if draw.chance(4):
        words[3] = "-"
    return words, files


def grids_of(draw):
    """The texts of two grids of one ground, mostly with most cells alike: the files, the numbers of the head, the words
    of both, and of each whether it is written loosely."""
    head = grid_head(draw)
    count, empty = head["cols"] * head["rows"], draw.of([0, 10, 40, 100])
    earlier = heights_of(draw, count, empty)
    later = heights_of(draw, count, empty)
    if draw.chance(60):
        later = [draw.of([before, before, after]) for before, after in zip(earlier, later)]
    is_loose = [draw.chance(50), draw.chance(50)]
    both = [grid_words(draw, head, heights, loose) for heights, loose in zip((earlier, later), is_loose)]
    texts = [grid_text(draw, words, head["cols"], loose) for words, loose in zip(both, is_loose)]
    return dict(zip(("e.asc", "l.asc"), texts)), head, both, is_loose


def change_case(draw):
    """The change between two grids, of which one may be of another ground or have faults."""
    files, head, both, is_loose = grids_of(draw)
    what, which = draw.below(10), draw.below(2)
    name = ("e.asc", "l.asc")[which]
    if what < 2:
        # Another ground: one number differs, or some do.
        other = dict(head)
        for _ in range(draw.of([1, 1, 2])):
            key = draw.of(["cols", "rows", "west", "south", "cell"])
            low, high = reference_inputs.RANGES["grid." + key]
            other[key] = min(high, max(low, other[key] + draw.of([-1, 1, 1000])))
            other["cols"], other["rows"] = min(other["cols"], 7), min(other["rows"], 7)
        heights = heights_of(draw, other["cols"] * other["rows"], 20)
        words = grid_words(draw, other, heights, is_loose[which])
        files[name] = grid_text(draw, words, other["cols"], is_loose[which])
    elif what < 6:
        words = ill(draw, both[which])
        for _ in range(draw.below(3)):
            words = ill(draw, words) if words else words
        files[name] = grid_text(draw, words, head["cols"], is_loose[which])
        if draw.chance(10):
            files["e.asc"] = files["l.asc"] = files[name]
    elif what < 7:
        files[name] = damaged(draw, files[name])
    elif what < 8:
        files[name] = files[name][: draw.below(len(files[name]) + 1)]
    if draw.chance(5):
        return ["change", "l.asc", "l.asc", "o"], files
    return list(CHANGE_WORDS), files


# Merges


def ground_of(draw):
    """A small grid, over which others can be laid."""
    cell = draw.of([1, 2, 7, 10, 1000, 250000, 1000000000])
    corner = lambda: draw.of([0, -3 * cell, draw.between(-9, 9), draw.between(-(10**9), 10**9), 2000000000, -2000000000])
    numbers = [("west", corner()), ("south", corner()), ("cell", cell)]
    west, south = (max(-2000000000, min(2000000000, at)) for _, at in numbers[:2])
    numbers[:2] = [("west", west), ("south", south)]
    return completed(draw, "grid", [*numbers, ("cols", draw.between(1, 6)), ("rows", draw.between(1, 5))])


def laid_over(draw, grid):
    """The head of a grid whose cells lie on those of another one: over it, in part or beside it."""
    sides = dict(grid)
    head = {"cols": draw.between(1, 6), "rows": draw.between(1, 5), "cell": sides["cell"], "empty": reference_inputs.EMPTY}
    for side, count in (("west", "cols"), ("south", "rows")):
        away = draw.of([0, 1, -1, draw.between(-head[count] - 1, sides[count] + 1)])
        at = sides[side] + away * sides["cell"]
        head[side] = at if abs(at) <= 2000000000 else sides[side]
    return head


def beside_cells(draw, head):
    """A head with another cell, or with a side that may lie between the cells."""
    key, other = draw.of(["west", "south", "cell"]), dict(head)
    low, high = reference_inputs.RANGES["grid." + key]
    off = draw.of([1, -1, head["cell"] // 2, head["cell"], 2 * head["cell"], -(head["cell"] // 2)])
    other[key] = max(low, min(high, head[key] + off))
    return other


def ground_heights(draw, head, ground):
    """Heights of one ground, as high as that, mostly level enough that gaps are bridged."""
    count, empty = head["cols"] * head["rows"], draw.of([0, 20, 50, 80, 100])
    if draw.chance(15):
        return heights_of(draw, count, empty)
    rough = draw.of([0, 1, 5, head["cell"], 3 * head["cell"]])
    high = lambda: max(-2000000000, min(2000000000, ground + draw.between(-rough, rough)))
    return [reference_inputs.EMPTY if draw.chance(empty) else high() for _ in range(count)]


def merge_entry(draw, grid, ground, ill_percent):
    """The text of an entry of a merge, which has a fault in so many of a hundred cases."""
    head, is_loose = laid_over(draw, grid), draw.chance(15)
    if draw.chance(ill_percent):
        head = beside_cells(draw, head)
    words = grid_words(draw, head, ground_heights(draw, head, ground), is_loose)
    if draw.chance(ill_percent):
        words = ill(draw, words)
    return grid_text(draw, words, head["cols"], is_loose)


def merge_list(draw, names, ill_percent):
    """The text of a list with these names, most of them once; at times it has a fault."""
    lines = draw.shuffled([*names, *(draw.of(names) for _ in range(draw.of([0, 0, 1, 2])))])
    if draw.chance(ill_percent):
        odd = ["", " ", "e0 e1", "o.asc", "o.csv", "./o.asc", "o", "none", "m.txt", "c.json", "#e0", "e0\v", "\u00e4", "\ufeffe0"]
        lines.insert(draw.below(len(lines) + 1), draw.of(odd))
    if draw.chance(ill_percent):
        lines = draw.of([[], [""], lines * 400, lines[:1] * 1000, lines[:1] * 1001])
    blank = lambda: draw.of(["", "", "", "", " ", "\t", "\r", "\n"])
    text = "\n".join(blank() + line + blank() for line in lines) + draw.of(["", "\n", "\r\n"])
    data = text.encode()
    if draw.chance(ill_percent):
        at = draw.below(len(data) + 1)
        data = data[:at] + draw.of([b"\xff", b"\xc3", b"\0", b"\xa0", b"\r", b" "]) + data[at:]
    return data


def merge_case(draw):
    """A merge of up to five grids of one ground, and mostly of regions over them."""
    grid, camera = ground_of(draw), camera_of(draw)
    regions = regions_of(draw, grid) if draw.chance(70) else None
    pose = pose_of(draw, camera, 9, 9, (0, 4)) if draw.chance(10) else None
    whole = settings(draw, 0, 4, camera=camera, pose=pose, grid=grid, regions=regions)
    ill_percent = draw.of([0, 0, 15, 40])
    highest = reference_inputs.HIGHEST
    ground = draw.of([0, 0, highest, -highest, draw.between(-highest, highest)])
    names = [f"e{number}" for number in range(draw.between(1, 5))]
    files = {name: merge_entry(draw, grid, ground, ill_percent // 2) for name in names}
    files["m.txt"] = merge_list(draw, names, ill_percent)
    if draw.chance(ill_percent):
        change(draw, whole)
        whole = whole if not is_long(whole) else settings(draw, 0, 4, camera=camera, pose=None)
    files["c.json"] = json_text(draw, whole, draw.chance(10)).encode("utf-8", "surrogatepass")
    words = list(MERGE_WORDS)
    if draw.chance(2):
        words[2] = "-"
    if draw.chance(ill_percent // 3):
        del files[draw.of(list(files))]
    return words, files


def place_case(draw):
    """Inputs and outputs that aren't plain files of their own."""
    width, height = sides_of(draw, 60)
    grid = grid_of(draw)
    sections = {"camera": camera_of(draw), "grid": grid, "regions": regions_of(draw, grid)}
    calibration = json_text(draw, settings(draw, 0, draw.between(1, 4), **sections), False).encode()
    files = files_of(pair_of(draw, width, height), calibration) | grids_of(draw)[0]
    some = [GOOD_WORDS, GOOD_WORDS, GOOD_WORDS, TRACE_WORDS, CHANGE_WORDS, CHANGE_WORDS]
    plain = draw.of(some + ([MERGE_WORDS] * 2 if reference_inputs.HAS_MERGE else []))
    words = list(plain) + (options(draw) if plain == GOOD_WORDS else [])
    inputs = plain[1:3] if plain[0] in ("change", "merge") else plain[1:4]
    if plain == MERGE_WORDS:
        _, files = merge_case(draw)
        # An entry has a place too.
        inputs = [*inputs, "e0"]
        files.setdefault("e0", b"")
    for _ in range(draw.of([1, 1, 2])):
        output = draw.of(["o.pgm", "o.asc", "o.csv"])
        name = draw.of(inputs)
        at = plain.index(name) if name in plain else 1
        what = draw.below(9)
        if what == 0:
            files.pop(name, None)
        elif what == 1:
            files[name] = draw.of([FOLDER, Link(name), Link("none"), Link("/dev/null"), Link(output)])
        elif what == 2:
            files[output] = draw.of([FOLDER, Link("/dev/full"), Link("/dev/null"), Link("none/o"), Link(output)])
        elif what == 3:
            files[output] = b"what was there before, and longer than some texts\n" * draw.of([0, 1, 40])
        elif what == 4 and "o" in words:
            words[plain.index("o")] = draw.of(["none/o", "./o", "a b", "\u00fc", "-", "o.pgm", "a\nb", "/dev/null/o", "x" * 300])
        elif what == 5:
            words[at] = draw.of(["none", "./" + name, "none/" + name, "x" * 300, "/dev/null", "./" + output, "."])
        elif what == 6:
            words[2] = words[1]
        elif what == 7:
            # An input that stands under an output's name, which no comparison of words shows.
            files[output] = files.get(name, b"")
            words[at] = "./" + output
        elif "o" in words:
            files["dir"] = FOLDER
            words[plain.index("o")] = "dir/../o"
    return words, files


KINDS = {
    "surveys": survey_case,
    "scenes": scene_case,
    "cells": cells_case,
    "traces": trace_case,
    "changes": change_case,
    "merges": merge_case,
    "calibrations": calibration_case,
    "pictures": picture_case,
    "words": words_case,
    "places": place_case,
}
TURNS = "surveys calibrations words traces scenes changes pictures cells surveys calibrations traces".split()
TURNS += "places changes words scenes traces cells pictures calibrations changes scenes surveys".split()
TURNS += ["merges", "merges"] if reference_inputs.HAS_MERGE else []


def case_of(seed, number):
    kind = TURNS[number % len(TURNS)]
    words, files = KINDS[kind](Draw(seed, number))
    return Case(kind, words, files)
