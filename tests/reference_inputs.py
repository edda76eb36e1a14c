"""What the reference reads: words, PGM pictures, calibrations and grids.

A plain reading of the formats, apart from the program's own: each fault is raised as Ended,
with the status and the line that the program owes. Where several faults stand together, the
first one is raised: words in the order of their checks, a picture's header before its raster,
the calibration's keys in the order of their checks, and a grid's head before its heights.
"""

import dataclasses
import json
import re
import sys

from reference_matching import ONE, base_at, rows_of, times

if hasattr(sys, "set_int_max_str_digits"):
    sys.set_int_max_str_digits(0)

# Whether a calibration may have `disparities.fine` true: False as long as the program refuses it.
# The cases for the program follow it; the definitions and their own tests are there either way.
TAKES_FINE = True
# Whether the program has the command `merge`: False as long as it has not. The cases for the program
# follow it; the definition and its own tests are there either way.
HAS_MERGE = True

USAGE, REFUSED, UNREAD, UNWRITTEN = 2, 3, 4, 5
LONGEST_IMAGE, LONGEST_CALIBRATION, LONGEST_GRID = 67108864, 16777216, 268435456


class Ended(Exception):
    """The run ends with this status, and this line on standard error."""

    def __init__(self, status, line):
        super().__init__(line)
        self.status, self.line = status, line


# Words


@dataclasses.dataclass(frozen=True)
class Command:
    """The operands of a command: names, then perhaps a direction, then numbers. Behind them options may stand, where
    it takes any. Where it writes files, their names are its last name with these endings."""

    names: int = 0
    has_direction: bool = False
    numbers: int = 0
    takes_options: bool = False
    endings: tuple = ()

    @property
    def operands(self):
        return self.names + self.has_direction + self.numbers


COMMANDS = {
    "match": Command(names=4, takes_options=True, endings=(".pgm", ".asc", ".csv")),
    "demo": Command(numbers=1, takes_options=True),
    "trace": Command(names=3, has_direction=True, numbers=3),
    "change": Command(names=3, endings=(".asc", ".csv")),
    "merge": Command(names=3, endings=(".asc", ".csv")),
}
DIRECTIONS = "right left down downright downleft up upright upleft".split()
# The options, each with its least and its greatest value; where one isn't given, it is its least.
OPTIONS = {"strips": (1, 64), "workers": (1, 16), "peak": (0, 16777216), "fill": (0, 1)}


def read_words(words):
    """Gives the operands and the options by their names, or ends. Strips and workers have no part in the answer."""

    def wrong(text):
        raise Ended(USAGE, "sgm: " + text)

    if not words:
        wrong("no command")
    if words[0] not in COMMANDS:
        wrong("unknown command")
    command = COMMANDS[words[0]]
    need = command.operands
    operands, options = words[1 : 1 + need], words[1 + need :]
    if len(operands) < need:
        wrong(f"{len(operands)} words after the command, {need} needed")
    numbered = list(enumerate(operands, 1))
    for position, word in numbered[: command.names]:
        if word == "":
            wrong(f"word {position} is empty")
    for position, word in numbered[command.names : need - command.numbers]:
        if word not in DIRECTIONS:
            wrong(f"word {position} is not a direction")
    for position, word in numbered[need - command.numbers :]:
        if not number_up_to(word, 0, 4294967295):
            wrong(f"word {position} is not a number in range")
    asked = {}
    for position, word in enumerate(options, 1 + need):
        name, equals, digits = word.partition("=")
        is_option = equals and name in OPTIONS and number_up_to(digits, *OPTIONS[name])
        if not (command.takes_options and is_option):
            wrong(f"word {position} is not an option")
        if name in asked:
            wrong(f"word {position} repeats an option")
        asked[name] = int(digits)
    if command.endings:
        outputs = [operands[command.names - 1] + ending for ending in command.endings]
        for position, word in numbered[: command.names - 1]:
            if word in outputs:
                wrong(f"word {position} is also an output")
    return operands, {name: least for name, (least, _) in OPTIONS.items()} | asked


def number_up_to(word, least, most):
    return re.fullmatch("[0-9]+", word) is not None and least <= int(word) <= most


# PGM

GAP = re.compile(rb"(?:[ \t\n\v\f\r]|#[^\n\r]*[\n\r])+")
NUMBER = re.compile(rb"[0-9]+")
WHITE = re.compile(rb"[ \t\n\v\f\r]")


class Image:
    def __init__(self, width, height, maxval, samples):
        self.width, self.height, self.maxval, self.samples = width, height, maxval, samples

    def at(self, x, y):
        """The sample, or None outside the picture."""
        inside = 0 <= x < self.width and 0 <= y < self.height
        return self.samples[y * self.width + x] if inside else None


def read_pgm(data, side):
    def refused(text):
        raise Ended(REFUSED, f"sgm: {side}: {text}")

    def piece(form, at):
        found = form.match(data, at)
        if found:
            return found
        # A comment without its end goes to the end of the bytes.
        if at == len(data) or (form is not WHITE and data[at] == ord("#")):
            refused("header ends early")
        refused(f"unexpected byte at {at}")

    if data[:2] != b"P5":
        refused("not a binary PGM")
    at, numbers = 2, []
    for _ in range(3):
        at = piece(GAP, at).end()
        found = piece(NUMBER, at)
        numbers.append(int(found.group()))
        at = found.end()
    at = piece(WHITE, at).end()
    width, height, maxval = numbers
    if not (1 <= width <= 4096 and 1 <= height <= 4096):
        refused("size out of range")
    if not 1 <= maxval <= 65535:
        refused("maxval out of range")
    length = 1 if maxval < 256 else 2
    need = width * height * length
    if len(data) - at < need:
        refused(f"raster has {len(data) - at} of {need} bytes")
    raster = data[at : at + need]
    samples = list(raster) if length == 1 else [256 * a + b for a, b in zip(raster[::2], raster[1::2])]
    for index, sample in enumerate(samples):
        if sample > maxval:
            refused(f"sample {index} is above maxval")
    return Image(width, height, maxval, samples)


# Calibration

# The whole numbers of a calibration by their paths, each with the least and the greatest value. An object's keys stand in
# the order of their checks. A side of the warp and a region stand once; what other keys leave of a range is said where
# they are read.
RANGES = {
    "version": (1, 3),
    "disparities.first": (-1024, 1024),
    "disparities.count": (1, 256),
    "census.width": (3, 9),
    "census.height": (3, 7),
    "penalties.p1": (1, 4000),
    "penalties.p2": (1, 4000),
    "side.step": (2, 1024),
    "side.cols": (2, 2049),
    "side.rows": (2, 2049),
    "camera.focal": (1, 16777216),
    "camera.baseline": (1, 2000000000),
    "camera.cx": (-16777216, 16777216),
    "camera.cy": (-16777216, 16777216),
    "camera.doffs": (-16777216, 16777216),
    "camera.mount": (0, 2000000000),
    "camera.near": (1, 2000000000),
    "camera.far": (1, 2000000000),
    "pose.east": (-2000000000, 2000000000),
    "pose.north": (-2000000000, 2000000000),
    "pose.up": (-2000000000, 2000000000),
    "grid.west": (-2000000000, 2000000000),
    "grid.south": (-2000000000, 2000000000),
    "grid.cell": (1, 1000000000),
    "grid.cols": (1, 4096),
    "grid.rows": (1, 4096),
    "grid.bridge": (0, 8),
    "region.col": (0, 4095),
    "region.row": (0, 4095),
    "region.cols": (1, 4096),
    "region.rows": (1, 4096),
    "region.base": (-2000000000, 2000000000),
    "region.rise_east": (-1000000, 1000000),
    "region.rise_north": (-1000000, 1000000),
}
# A number whose least value is that of another key of its object, and the numbers that have to be odd.
LEAST = {"penalties.p2": "p1", "camera.far": "near"}
ODD = ("census.width", "census.height")
# The texts, each with those that it may be.
CHOICES = {"grid.keep": ("highest", "mean")}
# The keys that only some versions have, with these versions. They are checked last in their object,
# in this order, and their names aren't known in other versions. Those that are neither a whole
# number nor a text are true or false.
LATER = {"disparities.fine": (3,), "penalties.adapt": (2, 3), "grid.keep": (3,), "grid.bridge": (3,)}
# Those of a region are two whole numbers and, behind them, a list that may be absent: the corners
# of an outline, each as two numbers up to so much on either side of 0.
LATER |= {"region.rise_east": (3,), "region.rise_north": (3,), "region.outline": (3,)}
OUTLINE_LENGTHS, OUTLINE_MOST = range(6, 2001, 2), 2000000000
# The sections that the calibration has in every version, and those that only some versions have.
SECTIONS = "version disparities census penalties warp camera grid regions".split()
LATER_SECTIONS = {"pose": (3,)}
# The nine numbers of a pose's matrix go so far on either side of 0, which stands for 1. Its rows are
# nearly those of a rotation: from_rotation gives no more than the leeway for any of them.
MATRIX_MOST, MATRIX_LEEWAY = ONE, 2**45


def names_in(section, paths):
    """The names of an object's keys among these."""
    return [path.partition(".")[2] for path in paths if path.startswith(section + ".")]


def keys_of(section):
    """The names of an object's whole numbers in every version, in the order of their checks."""
    return names_in(section, [path for path in RANGES if path not in LATER])


def later_of(section, version):
    """The names of what else an object has in this version."""
    return names_in(section, [path for path, versions in LATER.items() if version in versions])


def sections_in(version):
    """The names of what a calibration of this version may have."""
    later = [name for name, versions in LATER_SECTIONS.items() if version in versions]
    return [*SECTIONS, *later]


def from_rotation(matrix):
    """How far the nine numbers are from a rotation: by how much the square of each row's length
    differs from that of 1, and the products of the first row and the second, of the first and the
    third, and of the second and the third."""
    a, b, c = rows_of(matrix)
    lengths = [times(row, row) - ONE**2 for row in (a, b, c)]
    return [*lengths, times(a, b), times(a, c), times(b, c)]


def may_be_true(path):
    """Whether `true` is in range for such a key."""
    return TAKES_FINE or path != "disparities.fine"


def corner_bases(region, grid):
    """A region's bases at its cells in the north-west, north-east, south-west and south-east."""
    north = grid["rows"] - 1 - region["row"]
    south, east = north - (region["rows"] - 1), region["col"] + region["cols"] - 1
    places = [(col, row) for row in (north, south) for col in (region["col"], east)]
    return [base_at(region, grid["cell"], *place) for place in places]


class Calibration:
    """The plain settings; read_calibration makes other ones."""

    version = 1
    first, count = 0, 64
    window = (9, 7)
    p1, p2 = 10, 120
    is_adaptive = is_fine = False
    keep, bridge = "highest", 0
    left = right = {"kind": "identity"}
    camera = pose = grid = regions = None


def parse_json(data):
    """The JSON value of the bytes. A number that is no whole number of 64 bits with a sign becomes a float."""

    def whole(text):
        value = int(text)
        is_whole = text != "-0" and -(2**63) <= value < 2**63
        return value if is_whole else real(text)

    def real(text):
        value = float(text)
        if value in (float("inf"), float("-inf")):
            raise ValueError("a number without end")
        return value

    def no_constant(text):
        raise ValueError(text)

    def without_surrogates(pairs):
        json.dumps(pairs, ensure_ascii=False).encode("utf-8")
        return dict(pairs)

    text = data.decode("utf-8")
    depth = deepest = 0
    for bracket in re.findall(r'[\[\]{}]', re.sub(r'"(?:[^"\\]|\\.)*"', "", text, flags=re.S)):
        depth += 1 if bracket in "[{" else -1
        deepest = max(deepest, depth)
    if deepest > 127:
        raise ValueError("too deep")
    value = json.loads(
        text, parse_int=whole, parse_float=real, parse_constant=no_constant, object_pairs_hook=without_surrogates
    )
    json.dumps(value, ensure_ascii=False).encode("utf-8")
    return value


def read_calibration(data):
    def refused(text):
        raise Ended(REFUSED, "sgm: calibration: " + text)

    def kind_of(value, kind, path):
        if type(value) is not kind:
            refused(f"{path} has the wrong type")
        return value

    def get(parent, path, kind):
        name = path.rpartition(".")[2]
        if name not in parent:
            refused(f"{path} is missing")
        return kind_of(parent[name], kind, path)

    def known(parent, path, names):
        if not set(parent) <= set(names.split()):
            refused(f"{path} has an unknown name")
        return parent

    def in_range(holds, path):
        if not holds:
            refused(f"{path} is out of range")

    def whole(parent, path, low, high):
        value = get(parent, path, int)
        in_range(low <= value <= high, path)
        return value

    def list_of_whole(parent, path, lengths, bound):
        values = get(parent, path, list)
        for value in values:
            kind_of(value, int, path)
        in_range(len(values) in lengths and all(-bound <= v <= bound for v in values), path)
        return values

    def numbers(parent, section, path, **greatest):
        """The whole numbers of an object. What some of them may be at most rests on those before."""
        made = {}
        for name in keys_of(section):
            key = f"{section}.{name}"
            low, high = RANGES[key]
            low = made.get(LEAST.get(key), low)
            high = greatest[name](made) if name in greatest else high
            made[name] = whole(parent, f"{path}.{name}", low, high)
            in_range(key not in ODD or made[name] % 2 == 1, f"{path}.{name}")
        return made

    def flag(parent, path):
        value = get(parent, path, bool)
        in_range(may_be_true(path) or not value, path)
        return value

    def choice(parent, path):
        value = get(parent, path, str)
        in_range(value in CHOICES[path], path)
        return value

    def section(parent, name, version):
        """An object of whole numbers and, behind them, of what else it has in this version."""
        later = later_of(name, version)
        it = known(get(parent, name, dict), name, " ".join([*keys_of(name), *later]))
        made = numbers(it, name, name)
        for path in [f"{name}.{key}" for key in later]:
            read = choice if path in CHOICES else flag
            value = whole(it, path, *RANGES[path]) if path in RANGES else read(it, path)
            made[path.partition(".")[2]] = value
        return made

    def warp(parent, path):
        side = get(parent, path, dict)
        kind = get(side, path + ".kind", str)
        in_range(kind in ("identity", "projective", "mesh"), path + ".kind")
        names = {"identity": "", "projective": " matrix", "mesh": " step cols rows nodes"}[kind]
        known(side, path, "kind" + names)
        made = {"kind": kind}
        if kind == "projective":
            made["matrix"] = list_of_whole(side, path + ".matrix", [9], 1099511627776)
        if kind == "mesh":
            made |= numbers(side, "side", path)
            lengths = [2 * made["cols"] * made["rows"]]
            made["nodes"] = list_of_whole(side, path + ".nodes", lengths, 16777216)
        return made

    def pose_of(parent):
        """The rows of a rotation, one behind the other, and the place of the camera."""
        names = ["matrix", *keys_of("pose")]
        it = known(get(parent, "pose", dict), "pose", " ".join(names))
        matrix = list_of_whole(it, "pose.matrix", [9], MATRIX_MOST)
        in_range(all(abs(off) <= MATRIX_LEEWAY for off in from_rotation(matrix)), "pose.matrix")
        return {"matrix": matrix, **numbers(it, "pose", "pose")}

    def region(value, path, grid, version):
        later = later_of("region", version)
        it = known(kind_of(value, dict, path), path, " ".join(["name", *keys_of("region"), *later]))
        name = get(it, path + ".name", str)
        in_range(re.fullmatch("[A-Za-z0-9 _.-]{1,64}", name), path + ".name")
        inside = {
            "col": lambda made: grid["cols"] - 1,
            "row": lambda made: grid["rows"] - 1,
            "cols": lambda made: grid["cols"] - made["col"],
            "rows": lambda made: grid["rows"] - made["row"],
        }
        made = {"name": name, **numbers(it, "region", path, **inside)}
        return made | area(it, path, made, grid) if later else made

    def area(it, path, made, grid):
        """What version 3 has of a region besides: how its base rises, and perhaps its outline."""
        rises = ("rise_east", "rise_north")
        later = {key: whole(it, f"{path}.{key}", *RANGES["region." + key]) for key in rises}
        bases = corner_bases(made | later, grid)
        in_range(all(-HIGHEST <= base <= HIGHEST for base in bases), path + ".rise_north")
        if "outline" in it:
            later["outline"] = list_of_whole(it, path + ".outline", OUTLINE_LENGTHS, OUTLINE_MOST)
        return later

    try:
        top = parse_json(data)
    except (ValueError, RecursionError):
        refused("not JSON")
    kind_of(top, dict, "top")
    version = get(top, "version", int)
    if not RANGES["version"][0] <= version <= RANGES["version"][1]:
        refused("unknown version")
    known(top, "top", " ".join(sections_in(version)))
    made = Calibration()
    made.version = version
    disparities = section(top, "disparities", version)
    made.first, made.count = disparities["first"], disparities["count"]
    made.is_fine = disparities.get("fine", False)
    census = section(top, "census", version)
    made.window = (census["width"], census["height"])
    penalties = section(top, "penalties", version)
    made.p1, made.p2 = penalties["p1"], penalties["p2"]
    made.is_adaptive = penalties.get("adapt", False)
    if "warp" in top:
        both = known(get(top, "warp", dict), "warp", "left right")
        made.left, made.right = warp(both, "warp.left"), warp(both, "warp.right")
    if not {"camera", "pose", "grid"}.isdisjoint(top):
        made.camera = section(top, "camera", version)
    if "pose" in top:
        made.pose = pose_of(top)
    if "grid" in top or "regions" in top:
        made.grid = section(top, "grid", version)
        made.keep = made.grid.pop("keep", made.keep)
        made.bridge = made.grid.pop("bridge", made.bridge)
    if "regions" in top:
        regions = get(top, "regions", list)
        in_range(len(regions) <= 1000, "regions")
        numbered = enumerate(regions)
        made.regions = [region(it, f"regions[{i}]", made.grid, version) for i, it in numbered]
    return made


# Grids

# The words before the heights: each a name and, behind it, a number, with the number's key, its least value and its
# greatest one.
GRID_WORD = re.compile(rb"[^ \t\r\n]+")
GRID_NUMBER = re.compile(rb"-?[0-9]+")
EMPTY = -2147483648
HIGHEST = 2000000000
GRID_HEAD = [
    (b"ncols", "cols", *RANGES["grid.cols"]),
    (b"nrows", "rows", *RANGES["grid.rows"]),
    (b"xllcorner", "west", *RANGES["grid.west"]),
    (b"yllcorner", "south", *RANGES["grid.south"]),
    (b"cellsize", "cell", *RANGES["grid.cell"]),
    (b"nodata_value", "empty", EMPTY, EMPTY),
]


def read_grid(data, what):
    """The numbers of a grid's text, by the keys of a calibration's grid, and its cells, rows from the north."""

    def refused(text):
        raise Ended(REFUSED, f"sgm: {what}: {text}")

    words = GRID_WORD.findall(data)
    for at in range(2 * len(GRID_HEAD)):
        word = words[at] if at < len(words) else b""
        # A name may be in any case. A number may be of any size here.
        is_expected = GRID_NUMBER.fullmatch(word) if at % 2 else word.lower() == GRID_HEAD[at // 2][0]
        if not is_expected:
            refused(f"word {at} is not as expected")
    grid = {}
    for line, (_, key, low, high) in enumerate(GRID_HEAD):
        grid[key] = int(words[2 * line + 1])
        if not low <= grid[key] <= high:
            refused(f"word {2 * line + 1} is out of range")
    del grid["empty"]
    heights = words[2 * len(GRID_HEAD) :]
    need = grid["cols"] * grid["rows"]
    if len(heights) != need:
        refused(f"{len(heights)} heights, {need} needed")
    cells = []
    for index, word in enumerate(heights):
        height = int(word) if GRID_NUMBER.fullmatch(word) else None
        if height is None or not (height == EMPTY or abs(height) <= HIGHEST):
            refused(f"height {index} is not in range")
        cells.append(None if height == EMPTY else height)
    return grid, [cells[begin : begin + grid["cols"]] for begin in range(0, need, grid["cols"])]
