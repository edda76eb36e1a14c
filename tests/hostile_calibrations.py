"""The calibrations of hostile.py: values that mean no good, for the keys that came with version 3.

Each has the line that docs/FORMATS.md gives it, written out by hand here; what is written and printed where it is
accepted the reference works out.
"""

import itertools
import json
import math
from typing import NamedTuple

import calibration_cases as calibrations
import reference
from calibration_cases import MISSING, NO_ROTATIONS, ONE, ROTATIONS, UPRIGHT, axes_at, changed, printed
from reference_inputs import LONGEST_CALIBRATION
from test_reference_pose import FILES, WHOLE


class Hollow(NamedTuple):
    """In the place of a file's bytes: so many zeros, which take no room."""

    length: int


class Case(NamedTuple):
    name: str
    words: tuple
    files: dict
    # The line without its beginning `sgm: `, none where the run is done; and the status of a run with a line.
    line: str = ""
    status: int = 3
    # What is printed and the outputs, where the reference isn't asked.
    summary: str = ""
    outputs: dict | None = None

    @property
    def ends(self):
        """The status and the line."""
        return (self.status, f"sgm: {self.line}\n") if self.line else (0, "")


# The worked calibration of a pose, a bent warp, regions with rises and an outline, with all else on; and a grid over
# its cells, with heights at some distance from one another, so that some are bridged and some aren't.
ALL = changed(WHOLE, ("penalties.adapt", True), ("grid.bridge", 2))
ROWS = [[40007, None, 39900, None, -2000000000], [None, 39407, None, None, 39410]]
ROWS.append([38807, None, None, 2000000000, None])
SIDES = {name: ALL["grid"][name] for name in ("west", "south", "cell", "cols", "rows")}


def asc(cells=ROWS, **more):
    """The text of a grid of these rows."""
    sides = {**SIDES, "cols": len(cells[0]), "rows": len(cells), **more}
    return reference.grid_text(sides, cells)


ENTRY = asc()
MATCH, MERGE = ("match", "l.pgm", "r.pgm", "c.json", "o"), ("merge", "m.txt", "c.json", "o")
TRACE = ("trace", "l.pgm", "r.pgm", "c.json", "downleft", "1", "1", "1")
OPTIONS = itertools.cycle(
    [(), ("strips=3", "workers=2"), ("peak=3", "fill=1", "strips=64", "workers=16"), ("fill=1", "peak=2", "strips=2")]
)


class Calibration(NamedTuple):
    """A calibration's text, and its line without `calibration: `, none where it is accepted."""

    name: str
    text: bytes
    line: str = ""
    # The grid that a merge over it has as its entry, as rows or as a text.
    entry: bytes = ENTRY

    def told(self):
        """The line behind `sgm: `."""
        return self.line and (self.line if self.line.startswith("calibration ") else f"calibration: {self.line}")


def judged(it):
    """The cases of a calibration: a match, a certificate and a merge all judge it."""
    files = {**FILES, "c.json": it.text}
    yield Case(f"{it.name}, match", MATCH + next(OPTIONS), files, it.told())
    yield Case(f"{it.name}, trace", TRACE, files, it.told())
    yield Case(f"{it.name}, merge", MERGE, {"c.json": it.text, "m.txt": b"e.asc\n", "e.asc": it.entry}, it.told())


def encoded(text):
    return text.encode("utf-8", "surrogateescape")


def with_raw(path, raw, base=None):
    """The calibration with a text of its own for that key's value, be it JSON or not."""
    mark = "@here@"
    return encoded(json.dumps(changed(base or ALL, (path, mark))).replace(f'"{mark}"', raw))


# Texts for a value, by what JSON has them for. Whole numbers beyond 64 bits are none here.
RAWS = {
    "nothing": [
        "", "True", "FALSE", "tru", "truee", "nul", "None", "NaN", "Infinity", "-Infinity", "-inf", "undefined", "01",
        "-01", "00", "+1", ".5", "1.", "-.5", "1e", "1e+", "0x1", "1_0", "1,", "1 2", "- 1", "-", "--1", "\u0661",
        "\uff11", "'mean'", "mean", "[", "]", "{", "}", "[1,]", "[,1]", "[1 2]", '{"a"}', '{"a":}', '{a:1}', '{"a":1,}',
        '"', '"\t"', '"\n"', '"\0"', '"\\x41"', '"\\u12"', '"\\ud800"', '"\\udc00"', '"\\', "//1", "/*1*/1", "1e400",
        "-1e400", "9" * 400, "\0", "\x0b1", "\u00a01", "\ufeff1", '"\udcff"', '"\udcc0\udcaf"', '"\udced\udca0\udc80"',
        "[" * 200 + "]" * 200, "(1)", "1;", "\\u0031",
    ],
    "real": [
        "1.0", "0.0", "-0", "-0.0", "1e0", "1E0", "0e0", "8e0", "0.5", "1e-400", "1e308", "-1e308", "1.5e3",
        "0." + "0" * 5000, "9223372036854775808", "-9223372036854775809", "18446744073709551616",
        "18446744073709551617", str(2**128 + 1), "1" + "0" * 300,
    ],
    "whole": ["0", "1", "-1", "2", " 1 ", "\n\t\r0"],
    "truth": ["true", "false", " true\n"],
    "null": ["null"],
    "text": [
        '""', '"0"', '"1"', '"true"', '"null"', '"mean"', '"highest"', '"m\\u0065an"', '"Mean"', '"MEAN"', '"highest "',
        '" mean"', '"mean\\u0000"', '"mean\\n"', '"mea"', '"means"', '"lowest"', '"m\u0435an"', '"\\ud83d\\ude00"',
        '"highest,mean"', '"[]"',
    ],
    "list": [
        "[]", "[0]", "[0,0]", "[1,0,0,0,1,0,0,0,1]", "[true]", "[null]", "[0.5]", "[-0]", '["0"]', "[[]]", "[{}]",
        "[9223372036854775808]", "[" * 100 + "]" * 100, '["mean"]', "[0,0,0,0,0,0,1.0]", '[{"matrix":[]}]',
    ],
    "object": ["{}", '{"a":0}', '{"fine":true}', '{"":{}}', '{"a":' * 100 + "0" + "}" * 100],
}  # fmt: skip
WRONG_TYPE, OUTSIDE = "PATH has the wrong type", "PATH is out of range"


def of_truth(_):
    return ""


def of_keep(raw):
    return "" if json.loads(raw) in ("mean", "highest") else OUTSIDE


def of_bridge(raw):
    return "" if int(raw) >= 0 else OUTSIDE


def in_range(_):
    return ""


def of_list(raw):
    """None of these lists is right: an element of another type comes before what is out of range."""
    is_whole = all(type(it) is int and abs(it) < 2**63 for it in json.loads(raw)) and "-0" not in raw
    return OUTSIDE if is_whole else WRONG_TYPE


def of_pose(raw):
    return "PATH has an unknown name" if json.loads(raw) else "PATH.matrix is missing"


# The keys: what type each has, and the line for the texts of this type. Those with a number at their end are elements.
KEYS = {
    "disparities.fine": ("truth", of_truth),
    "grid.keep": ("text", of_keep),
    "grid.bridge": ("whole", of_bridge),
    "pose": ("object", of_pose),
    "pose.matrix": ("list", of_list),
    "pose.matrix.1": ("whole", in_range),
    "pose.east": ("whole", in_range),
    "pose.north": ("whole", in_range),
    "pose.up": ("whole", in_range),
    "regions.1.rise_east": ("whole", in_range),
    "regions.1.rise_north": ("whole", in_range),
    "regions.2.outline": ("list", of_list),
    "regions.2.outline.3": ("whole", in_range),
}
LISTS = ("pose.matrix", "regions.0.outline", "regions.2.outline")


def told(path):
    """The path as a line has it; an element of a list of numbers is told by its list."""
    return printed(next((it for it in LISTS if path.startswith(it)), path))


def typed():
    """For each key every text."""
    for path, (kind, line_of) in KEYS.items():
        for is_kind, raws in RAWS.items():
            for number, raw in enumerate(raws):
                line = "not JSON" if is_kind == "nothing" else line_of(raw) if is_kind == kind else WRONG_TYPE
                name, line = f"{path} is {is_kind} {number}", line.replace("PATH", told(path))
                yield Calibration(name, with_raw(path, raw), line)


# The numbers with their ends, and elements of the lists.
NUMBERS = {"grid.bridge": (0, 8)}
NUMBERS |= {f"pose.{name}": (-2000000000, 2000000000) for name in ("east", "north", "up")}
NUMBERS |= {f"regions.{at}.rise_{way}": (-1000000, 1000000) for at in (0, 1) for way in ("east", "north")}
NUMBERS |= {f"regions.2.outline.{at}": (-2000000000, 2000000000) for at in range(6)}
FAR = [sign * (2**power) + more for power in (31, 32, 62) for sign in (1, -1) for more in (-1, 0, 1)]
FAR += [2**63 - 1, -(2**63), -(2**63) + 1, 2**33, 2**40 + 3]


def ends():
    for path, (low, high) in NUMBERS.items():
        for value in [low - 1, low, low + 1, high - 1, high, high + 1, *FAR]:
            line = "" if low <= value <= high else f"{told(path)} is out of range"
            yield Calibration(f"{path} is {value}", with_raw(path, str(value)), line)


def poses():
    """Every number of a matrix at both its ends and beyond, and what is nearly a rotation and what just isn't."""
    outside = "pose.matrix is out of range"
    matrices = [(matrix, "") for matrix in ROTATIONS] + [(matrix, outside) for matrix in NO_ROTATIONS]
    for at in range(9):
        matrices += [(axes_at(at, value), "") for value in (ONE, -ONE)]
        # 16,384 less is nearly a rotation, 16,385 isn't: the square of the length is less by 2^45 at the most.
        matrices += [(axes_at(at, sign * (ONE - 16384)), "") for sign in (1, -1)]
        matrices += [(axes_at(at, sign * (ONE - 16385)), outside) for sign in (1, -1)]
        matrices += [(axes_at(at, value), outside) for value in (ONE + 1, -ONE - 1, *FAR)]
    for length in (0, 8, 10, 18, 100000):
        matrices.append((list(itertools.islice(itertools.cycle(UPRIGHT), length)), outside))
    for number, (matrix, line) in enumerate(matrices):
        yield Calibration(f"matrix {number}", encoded(json.dumps(changed(ALL, ("pose.matrix", matrix)))), line)
    yield from heights_at_the_ends()


def heights_at_the_ends():
    """Points at the ends of the heights, and one beyond, where there are none. Upright each has the same one, the mount
    less a distance of 100,000."""
    for end, mounts in ((2000000000, (100000, 100001, 150000, 2000000000)), (-2000000000, (100000, 99999, 0))):
        for mount, more in itertools.product(mounts, (-2, -1, 0, 1, 2)):
            up = end - (mount - 100000) + more
            changes = [("pose.matrix", UPRIGHT), ("pose.up", up), ("camera.mount", mount), ("grid.south", -1200)]
            line = "" if abs(up) <= 2000000000 else "pose.up is out of range"
            text = encoded(json.dumps(changed(ALL, *changes)))
            yield Calibration(f"up {up} with mount {mount}", text, line, asc(south=-1200))


# Outlines


def star(corners, step, reach=3000):
    """A star about the middle of the grid, whose edges cross one another."""
    angles = [2 * math.pi * step * at / corners for at in range(corners)]
    east, north = (lambda at: 2600 + reach * math.cos(angles[at])), (lambda at: -30801 + reach * math.sin(angles[at]))
    return along(corners, east, north)


def along(corners, east, north):
    """An outline of so many corners, of which each has its place by its number."""
    return [round(side(at)) for at in range(corners) for side in (east, north)]


def cycled(length, numbers):
    return list(itertools.islice(itertools.cycle(numbers), length))


WHOLE_GRID, MOST = [600, -32001, 4600, -32001, 4600, -29601, 600, -29601], 2000000000


def long_outlines():
    """Pairs of a name and an outline that is accepted: of the least numbers and of the most."""
    most = MOST
    for length in (6, 8, 1998, 2000):
        half = length // 2
        for value in (0, 1, 1000, -31601, most, -most):
            yield f"{length} alike {value}", [value] * length
        yield f"{length} of one place in the grid", cycled(length, [1000, -31601])
        yield f"{length} there and back", cycled(length, [600, -32001, 4600, -29601])
        yield f"{length} at the ends", cycled(length, [-most, -most, most, -most, most, most, -most, most])
        yield f"{length} on a level line", along(half, lambda at: 600 + 7 * at % 4000, lambda at: -31601)
        yield f"{length} on an upright line", along(half, lambda at: 1000, lambda at: -32001 + 11 * at % 2400)
        yield f"{length} aslant", along(half, lambda at: 600 + 4 * at, lambda at: -32001 + 2 * at)
        scattered = along(half, lambda at: 600 + at * at * 7919 % 4001, lambda at: -32001 + at * at * 104729 % 2401)
        yield f"{length} scattered", scattered


def outlines():
    """The same of all outlines."""
    yield from long_outlines()
    for corners, step in ((5, 2), (7, 3), (999, 499), (1000, 1), (1000, 333), (1000, 499)):
        yield f"a star {corners} {step}", star(corners, step)
    yield "a bow", [600, -32001, 4600, -29601, 4600, -32001, 600, -29601]
    for times in (1, 2, 3, 248, 249, 250):
        yield f"{times} times around", WHOLE_GRID * times
    yield "249 times around and a corner", WHOLE_GRID * 249 + [600, -32001]
    # On the middles of the cells, and beside the grid on each side.
    yield "middles", [1000, -31601, 4200, -31601, 4200, -30001, 1000, -30001]
    beside = {"east": (5000, -31000), "west": (-5000, -31000), "north": (2000, 0), "south": (2000, -40000)}
    for name, (east, north) in beside.items():
        yield f"{name} of the grid", [east, north, east + 500, north, east, north + 500]


def outlined():
    path, line, most = "regions[0].outline", "regions[0].outline is out of range", 2000000000
    # Sixty cells, each of which an outline of 2000 numbers passes, and heights for a merge.
    small = {"cell": 400, "cols": 10, "rows": 6}
    sides = [(f"{part}.{name}", small[name]) for part in ("regions.0", "regions.2") for name in ("cols", "rows")]
    base = changed(ALL, *sides, *((f"grid.{name}", value) for name, value in small.items()))
    heights = [[39000 + 7 * row * col if (row + col) % 3 else None for col in range(10)] for row in range(6)]
    entry = asc(heights, **small)

    def made(name, outline, line=""):
        return Calibration(f"outline: {name}", with_raw("regions.0.outline", json.dumps(outline), base), line, entry)

    for name, outline in outlines():
        yield made(name, outline)
    for length in (0, 1, 2, 3, 4, 5, 7, 9, 1997, 1999, 2001, 2002, 2003, 2004, 4000, 65536 + 6, 131072 + 6):
        yield made(f"{length} numbers", [1000] * length, line)
    for at in (0, 1, 2, 998, 999, 1000, 1998, 1999):
        for value in (most, -most):
            yield made(f"{value} at {at}", [1000] * at + [value] + [1000] * (1999 - at))
        for value in (most + 1, -most - 1, 2**32 + 1000, -(2**63)):
            yield made(f"{value} at {at}", [1000] * at + [value] + [1000] * (1999 - at), line)
        for raw in ("1000.0", "null", "true", "[1000]", '"1000"', "-0", "1e3", str(2**64 + 1000)):
            text = "[" + ",".join(["1000"] * at + [raw] + ["1000"] * (1999 - at)) + "]"
            wrong_type = f"{path} has the wrong type"
            yield Calibration(f"outline: {raw} at {at}", with_raw("regions.0.outline", text, base), wrong_type, entry)


# Names: of another version, twice, in another spelling


LATER = ["disparities.fine", "grid.keep", "grid.bridge", "pose"]
LATER += [f"regions.1.{name}" for name in ("rise_east", "rise_north", "outline")]


def earlier_versions():
    """Each key in a calibration of the versions 1 and 2, where its name isn't known."""
    held = {"disparities": "disparities", "grid": "grid", "pose": "top", "regions.1": "regions[1]"}
    for version, base in ((1, calibrations.first()), (2, calibrations.second())):
        for path in LATER:
            holder = path.rpartition(".")[0] or path
            value = changed(ALL, ("regions.1.outline", [0] * 6)) if path.endswith("outline") else ALL
            for word in path.split("."):
                value = value[int(word) if word.isdigit() else word]
            for raw in (json.dumps(value), "null", "0", "{}"):
                line = f"{held[holder]} has an unknown name"
                yield Calibration(f"{path} in version {version}, {raw[:9]}", with_raw(path, raw, base), line)
        # All that version 3 has, and another number of the version.
        whole = changed(ALL, ("version", version))
        line = "top has an unknown name"
        yield Calibration(f"all of version 3 in {version}", encoded(json.dumps(whole)), line)
        line = "disparities has an unknown name"
        yield Calibration(f"without a pose in {version}", encoded(json.dumps(changed(whole, ("pose", MISSING)))), line)


# A good value of each key, another one, and a bad one with its line.
REPEATED = {
    "disparities.fine": ("true", "false", "1", WRONG_TYPE),
    "grid.keep": ('"mean"', '"highest"', '"most"', OUTSIDE),
    "grid.bridge": ("2", "0", "9", OUTSIDE),
    "pose.matrix": (json.dumps(UPRIGHT), json.dumps(ALL["pose"]["matrix"]), "[0,0,0,0,0,0,0,0,0]", OUTSIDE),
    "pose.east": ("0", "800", "null", WRONG_TYPE),
    "pose.north": ("-1", "-801", "2000000001", OUTSIDE),
    "pose.up": ("7", "-7", "-2000000001", OUTSIDE),
    "regions.1.rise_east": ("-20001", "0", "1000001", OUTSIDE),
    "regions.1.rise_north": ("750000", "1", '"1"', WRONG_TYPE),
    "regions.2.outline": ("[600,-32001,4600,-32001,4600,-28801]", "[0,0,0,0,0,0]", "[0,0,0,0,0]", OUTSIDE),
    "pose": (json.dumps(ALL["pose"]), json.dumps({**ALL["pose"], "matrix": UPRIGHT}), "{}", "PATH.matrix is missing"),
    "version": ("3", "3", "2", "top has an unknown name"),
}


def repeated():
    """Equal names: the last counts, and one that doesn't count is no fault."""
    for path, (good, other, bad, line) in REPEATED.items():
        name, line = path.rpartition(".")[2], line.replace("PATH", told(path))
        escaped = "".join(f"\\u{ord(letter):04x}" for letter in name)
        for values, is_good in (
            ([good, other], True), ([other, good], True), ([bad, good], True), ([good, bad], False),
            ([bad, good, bad], False), ([bad, bad, other], True), (["null", "[]", "{}", '"x"', good], True),
            ([good] * 1000 + [other], True), ([good] * 1000 + [bad], False),
        ):  # fmt: skip
            for spelling in (name, escaped):
                text = with_raw(path, f',"{spelling}":'.join(values))
                shown = f"{path} {len(values)} times, as {spelling}, {is_good}"
                yield Calibration(shown, text, "" if is_good else line)
    yield from twice(json.dumps(ALL)[1:-1])


def twice(whole):
    """All members, and members behind them that have the name of one."""
    yield Calibration("all of it twice", encoded("{" + whole + "," + whole + "}"))
    yield Calibration("another grid behind it", encoded("{" + whole + ',"grid":{}}'), "grid.west is missing")
    yield Calibration("another version behind it", encoded("{" + whole + ',"version":1}'), "top has an unknown name")


# Sizes


def large():
    """As long as a calibration may be, and a byte longer; and what takes long to read."""
    whole = encoded(json.dumps(ALL))
    room = LONGEST_CALIBRATION - len(whole)
    yield Calibration("as long as may be", whole + b" " * room)
    yield Calibration("a byte longer", whole + b" " * (room + 1), "calibration is too long")
    yield Calibration("white bytes before it", b"\n" * room + whole)
    yield Calibration("zeros behind it", whole + b"\0" * room, "not JSON")
    numbers = "[" + "0," * 1000000 + "0]"
    outside = "regions[0].outline is out of range"
    yield Calibration("a million numbers", with_raw("regions.0.outline", numbers), outside)
    yield Calibration("a matrix of a million", with_raw("pose.matrix", numbers), "pose.matrix is out of range")
    yield Calibration("a long text", with_raw("grid.keep", '"' + "m" * 8000000 + '"'), "grid.keep is out of range")
    escapes = '"' + "\\u006d" * 2000000 + '"'
    yield Calibration("a text of escapes", with_raw("grid.keep", escapes), "grid.keep is out of range")
    fraction = "0." + "0" * 8000000
    yield Calibration("a long fraction", with_raw("grid.bridge", fraction), "grid.bridge has the wrong type")
    yield Calibration("a small number", with_raw("pose.up", "1e-" + "9" * 1000000), "pose.up has the wrong type")
    yield Calibration("many zeros", with_raw("pose.up", "0" * 8000000), "not JSON")
    yield Calibration("lists in lists", with_raw("pose.matrix", "[" * 2000000), "not JSON")
    yield Calibration("objects in objects", with_raw("pose", '{"a":' * 1000000), "not JSON")
    yield Calibration("one name many times", with_raw("grid.bridge", ',"bridge":'.join("8" * 400000)))
    names = ",".join(f'"b{number}":0' for number in range(400000))
    yield Calibration("many names", with_raw("grid.bridge", "0," + names), "grid has an unknown name")
    outline = along(1000, lambda at: 600 + at * at % 4001, lambda at: -32001 + at * at * 7 % 2401)
    region = {**ALL["regions"][1], "col": 2, "row": 1, "cols": 1, "rows": 1, "outline": outline}
    yield Calibration("a thousand outlines", encoded(json.dumps(changed(ALL, ("regions", [region] * 1000)))))
    many = encoded(json.dumps(changed(ALL, ("regions", [region] * 1001))))
    yield Calibration("a thousand and one", many, "regions is out of range")


def others():
    """All calibrations but those of a text for a key."""
    for part in (ends, poses, outlined, earlier_versions, repeated, large):
        yield from part()


def cases():
    """All calibrations; one that is refused or long is judged by one command, in turn, and the others by each."""
    for number, it in enumerate(itertools.chain(typed(), others())):
        some = list(judged(it))
        yield from [some[number % 3]] if it.line or len(it.text) > 1 << 20 else some
