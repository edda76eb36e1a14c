#!/usr/bin/env python3
"""Prints cases of merges, with answers, for the stored runs of crates/sgm_cases.

    tests/merge_cases.py [--kinds | --check | --write]

A case is two lines, a whole run and how it ends (see tests/stored_runs.py). The reference works the
answers out; those of runs in which a call or a stream fails once are worked out here, by a shelf on
which that happens.

The worked rows come first, then lists, faults in each place of an entry, cells that fit and cells
that don't, faults of two kinds at once, great numbers, and merges that look random and are the same
at each run. Besides the definition there are others next to it, each with a mistake (merge_neighbours.py).
Each has to change the answer of at least one case; where one changes none that is said, and the
status is 1.

With --kinds the number of cases that each of them changes is printed. --check says whether these
cases stand in crates/sgm_cases/stdin, and no other ones of `run merge`, and --write puts them there,
in front of all others. As long as the program has no merge (HAS_MERGE of reference_inputs.py) none
have to stand there.
"""

import argparse
import contextlib
import functools
import itertools
import sys
from typing import NamedTuple
from unittest import mock

import calibration_cases
import random_inputs
import reference
import reference_inputs as inputs
import stored_runs
from calibration_cases import MISSING, changed
from merge_neighbours import NEIGHBOURS, STAGES, in_order
from random_inputs import Draw
from reference_inputs import EMPTY, HIGHEST, REFUSED, UNREAD, UNWRITTEN, Ended
from regions_cases import compact
from test_reference import WORKED
from test_reference_merge import CELLS, GRIDS, LISTS, REGIONS, ROWS, THREE, calibration, grid_text

SEED, RANDOM_CASES = 55, 150
MERGE = "merge m.txt c.json o"
FARTHEST = 2000000000


class Case(NamedTuple):
    """The words, the files with their texts in one line, and what fails once."""

    words: str
    texts: dict
    devices: tuple = ()

    def told(self):
        fields = [f"file {name} {text}" for name, text in self.texts.items()]
        assert not any(" ; " in field for field in fields)
        return " ; ".join(["run " + self.words, *fields, *self.devices])

    def files(self):
        return {**WORKED, **{name: unescaped(text.encode()) for name, text in self.texts.items()}}


# The text of a grid that is too long, which isn't kept, so that little memory has to be forked.
TOO_LONG = r"\*262144:" + 1024 * "x" + r"\.x"


def unescaped(text):
    return (stored_runs.unescaped if text == TOO_LONG.encode() else kept)(text)


kept = functools.cache(stored_runs.unescaped)


# Each text is read once.
read_grid = functools.cache(inputs.read_grid)


def one_line(data):
    return stored_runs.quoted(data)[1:-1]


class Shelf:
    """The files of a case and standard output, in memory. Each of the devices fails once."""

    def __init__(self, case):
        self.held, self.out, self.trips = case.files(), b"", set(case.devices)
        # What an absent file shows. Where nothing fails every name is held.
        self.absent = "absent"
        if "sure" in case.devices:
            _, self.held, self.absent = stored_runs.given(case.told())

    def fails(self, call):
        """Whether it fails, as it does once."""
        did = f"trip {call}" in self.trips
        self.trips.discard(f"trip {call}")
        return did

    def fetch(self, name, most, what):
        if self.fails(f"fetch {name}") or name not in self.held:
            raise Ended(UNREAD, f"sgm: cannot read {what}")
        if len(self.held[name]) > most:
            raise Ended(REFUSED, f"sgm: {what} is too long")
        return self.held[name]

    def write(self, name, data, what):
        failed = Ended(UNWRITTEN, f"sgm: cannot write {what}")
        if self.fails(f"create {name}"):
            raise failed
        stop = f"trip append {name} "
        lengths = [int(it.removeprefix(stop)) for it in self.trips if it.startswith(stop)]
        self.held[name] = data[: min(lengths, default=len(data))]
        if lengths or self.fails(f"finish {name}"):
            raise failed

    def say(self, text):
        lengths = [int(it.removeprefix("out ")) for it in self.trips if it.startswith("out ")]
        self.out = text.encode()[: min(lengths, default=len(text))]
        if lengths:
            raise Ended(UNWRITTEN, "sgm: cannot write summary")


def ran(case):
    """The shelf after a run, its status, and the line of its fault."""
    shelf, status, line = Shelf(case), 0, b""
    with contextlib.ExitStack() as stack:
        for name in ("fetch", "write", "say"):
            stack.enter_context(mock.patch.object(reference, name, getattr(shelf, name)))
        stack.enter_context(mock.patch.object(reference, "read_grid", read_grid))
        try:
            operands, _ = inputs.read_words(case.words.split(" "))
            reference.merge(*operands)
        except Ended as end:
            status, line = end.status, (end.line + "\n").encode()
    return shelf, status, line


def answer_of(case):
    """How a run ends, in the form of the stored answers."""
    shelf, status, line = ran(case)
    return stored_runs.ended(status, shelf.held, shelf.out, line, shelf.absent)


# Cases: the worked rows


def merge_of(whole, names, grids, words=MERGE):
    """A merge of those entries, of which those that no grid is given for are absent."""
    files = {"m.txt": "\n".join(names).encode() + b"\n", "c.json": compact(whole).encode()}
    files |= {name: grids[name] for name in names if name in grids}
    return Case(words, {name: one_line(data) for name, data in files.items()})


def with_texts(case, **texts):
    """The case with other texts, in one line; the name of a text has _ for its dot."""
    named = {name.replace("_", "."): text for name, text in texts.items()}
    return case._replace(
        texts={name: text for name, text in {**case.texts, **named}.items() if text is not None}
    )


def worked_cases():
    for line in ROWS.splitlines():
        keep, names = line.split(": ")[0].split(", ")
        yield merge_of(calibration(CELLS, keep), names.split(), GRIDS)
    grid = {"west": -20, "south": -10, "cell": 10, "cols": 5, "rows": 3}
    for keep, bridge in (("mean", 2), ("mean", 1), ("highest", 2), ("highest", 0)):
        yield merge_of(calibration(grid, keep, bridge, REGIONS), list(THREE), THREE)
        yield merge_of(calibration(grid, keep, bridge, REGIONS), [*THREE, "east.asc"], THREE)


ONE_CELL = one_line(grid_text("7", 1, 1))
WHOLE = calibration(CELLS)
# Texts of lists, in one line each.
LIST_TEXTS = r"""
\*1000:a\n\.
\*1001:a\n\.
a\nb b\n\*1000:a\n\.
o.asc\n\*1000:a\n\.
\*999:a\n\.o.csv
\*1048574: \.a\n
\*1048575: \.a\n
\*1048576:\xff\.
\*1048577:\xff\.
\*1200:\n\.a b
a
\na
a\n\n\nb\n
a\r\nb\r\n
a\n\tb\t\n
\ta \r\n
#a\na
a\nb\n# c d
a #\n
o.asc
o.csv
O.ASC\n
a\nO.csv
a\no.csv\no.asc\no.csv
o.csv\na b
a\xe2\x80\xa8b
a\x0bb
a\x0cb
a\x1cb
a\x85b
a\xc2\x85b
a\x00b
\x00
\xed\xa0\x80
\xf4\x90\x80\x80
\xc0\xaf
a\n\xef\xbb\xbf
a\na\nb\n
b\na\na\n
c.json\n
m.txt\n
a\nm.txt
a\nc.json
-
a\n-
o\n
o.pgm\n
a  b
a\x09b
\n\n a b\n
a\n \r\n\t\nb c\n
"""


def list_cases():
    """Lists of all kinds, whose entries are there if they are named a, b or c."""
    plain = merge_of(WHOLE, ["a", "b", "c"], GRIDS)
    texts = [line[2 : line.index("': ")] for line in LISTS.splitlines()]
    texts += LIST_TEXTS.splitlines()[1:]
    for text in dict.fromkeys(texts):
        yield with_texts(plain, m_txt=text)
    # What only looks like an output.
    yield with_texts(plain, m_txt=r"O.ASC\nO.asc\n", **{"O_ASC": ONE_CELL, "O_asc": ONE_CELL})
    yield with_texts(plain, m_txt=r"o\no.pgm\n", o=ONE_CELL, o_pgm=ONE_CELL)
    yield with_texts(plain, m_txt=r"-\n", **{"-": ONE_CELL})
    marked = Case(MERGE, {**plain.texts, "m.txt": r"\xef\xbb\xbfa\nb\n", "\ufeffa": ONE_CELL})
    yield from (
        marked,
        marked._replace(texts={**marked.texts, "m.txt": r"a\xc2\xa0b\n", "a\u00a0b": ONE_CELL}),
    )


# Faults


def entry_cases():
    """An entry of whose words one is another one, or isn't there, as the first and as the third one."""
    words = grid_text("5 - 7 -8", 2, 2, west=10).split()
    odd = {
        1: (0, -1, 1, 4096, 4097, 2**32 + 2),
        3: (0, 1, 4097, 2**32 + 2),
        9: (0, -10, 10**9 + 1, 2**32 + 10),
    }
    odd |= {at: (FARTHEST, FARTHEST + 1, -FARTHEST, -FARTHEST - 1, 2**32 + 10) for at in (5, 7)}
    odd |= {
        11: (0, EMPTY + 1, EMPTY - 1, -EMPTY),
        12: (HIGHEST, HIGHEST + 1, EMPTY + 1, EMPTY - 1, 2**32 + 5),
    }
    odd |= {15: (-HIGHEST, -HIGHEST - 1, "x", "-", "+1", "1.0")}
    made = [
        words[:at] + [str(it).encode()] + words[at + 1 :] for at, some in odd.items() for it in some
    ]
    made += [words[:at] + [b"x"] + words[at + 1 :] for at in range(12)]
    made += [words[:at] for at in range(17) if at % 3 != 1] + [[*words, b"7"], words + words]
    texts = [b" ".join(it) for it in made] + [
        grid_text("5 - 7 -8", 2, 2).upper().replace(b" ", b"\r\n\t")
    ]
    grids = {"a": GRIDS["a"], **{f"e{number}": text for number, text in enumerate(texts)}}
    for number in range(len(texts)):
        names = [f"e{number}"] if number % 2 else ["a", "a", f"e{number}", "a"]
        yield merge_of(WHOLE, names, grids)


def cell_cases():
    """Entries beside the calibration's cells, and on them however far away."""
    ground = {"west": -7, "south": 1000000006, "cell": 20, "cols": 3, "rows": 2}
    heads = [{"west": ground["west"] + west, "south": ground["south"] + south} for west, south in (
        (0, 0), (20, 0), (0, 20), (-20, -20), (1, 0), (0, 1), (-1, 0), (0, -1), (10, 0), (0, 10),
        (-10, -10), (19, 0), (0, 19), (21, 0), (40, 40), (60, 0), (0, 40), (-40, 0), (5, 5),
        (2000000000, -999999980), (-1999999980, 999999980), (7, 14),
    )]  # fmt: skip
    for head in heads:
        for cell in (20, 21, 40, 10, 19, 1) if head == heads[0] else (20,):
            entry = grid_text("5 - -7 8", 2, 2, **head, cell=cell)
            yield merge_of(
                calibration(ground),
                ["a", "e"],
                {"a": grid_text("1", 1, 1, **heads[0], cell=20), "e": entry},
            )
    # 2^32 less than so much would be a place in the grid.
    for side, sign in itertools.product(("west", "south"), (1, -1)):
        ground = {
            "west": 0,
            "south": 0,
            "cell": 100000000,
            "cols": 14,
            "rows": 14,
            side: -sign * 1500000000,
        }
        head = {"west": 0, "south": 0, side: sign * 1500000000}
        yield merge_of(
            calibration(ground), ["e"], {"e": grid_text("5", 1, 1, **head, cell=100000000)}
        )
    ground = {"west": -FARTHEST, "south": FARTHEST, "cell": 2**20, "cols": 3, "rows": 3}
    for away in (-FARTHEST + 2**20 * 3814, FARTHEST, -FARTHEST + 2**20):
        head = {"west": away, "south": FARTHEST, "cell": 2**20}
        yield merge_of(calibration(ground), ["e"], {"e": grid_text("5 6", 2, 1, **head)})


def calibration_texts():
    """Calibrations, and texts that are none, in one line."""
    third = calibration_cases.third
    bare = changed(third(), ("camera", MISSING), ("grid", MISSING), ("regions", MISSING))
    plain = [
        calibration_cases.first(),
        calibration_cases.second(),
        third(),
        bare,
        calibration_cases.posed(),
    ]
    plain += [changed(it, ("regions", MISSING)) for it in plain[:3]] + [third(("regions", []))]
    plain += [
        changed(bare, ("camera", third()["camera"])),
        third(("grid", MISSING)),
        third(("grid", None)),
        third(("camera", MISSING)),
    ]
    plain += [
        third(("regions", MISSING), ("grid", MISSING)),
        third(("version", 4)),
        third(("grid.keep", "least")),
        third(("grid.bridge", 9)),
    ]
    plain += [
        third(("regions.1.cols", 2)),
        third(("regions.0.rise_north", 1000001)),
        third(("a", 0)),
        calibration_cases.posed(("pose.up", None)),
    ]
    mesh = {"kind": "mesh", "step": 2, "cols": 2, "rows": 2, "nodes": [0] * 8}
    flat = {"kind": "projective", "matrix": [0] * 9}
    plain += [
        third(("warp", {"left": mesh, "right": flat})),
        third(("warp", {"left": mesh})),
        third(("disparities.count", 256)),
    ]
    return [*map(compact, plain), "", "{", "[]", r"\xff", "null", r"\*16777217: \."]


def calibration_cases_of():
    """Each over an entry on the worked example's cells, and with an entry that is absent."""
    entry = one_line(grid_text("50000 - 49999 7 61000 -", 3, 2, west=3000, south=-2000, cell=1000))
    for text in calibration_texts():
        yield Case(MERGE, {"m.txt": r"a\na\n", "c.json": text, "a": entry})
    for text in ("a", "a b", ""):
        yield Case("merge m.txt - o", {"m.txt": text, "a": entry})
    yield Case(
        "merge m.txt - o", {"m.txt": "a", "a": entry, "-": compact(calibration_cases.third())}
    )
    yield Case("merge - c.json o", {"-": "a", "a": entry})
    yield Case("merge - - o", {"a": entry})
    yield Case("merge c.json c.json o", {"a": entry})


# For each stage a fault there, as changes of a merge of a, b and c: the words, and texts.
FAULTS = {
    "few words": ("merge m.txt c.json", {}),
    "an option": ("merge m.txt c.json o fill=1", {}),
    "a list that is an output": ("merge o.asc c.json o", {"o_asc": "a"}),
    "a calibration that is an output": ("merge m.txt o.csv o", {"o_csv": "{}"}),
    "no list": (MERGE, {"m_txt": None}),
    "no calibration": ("merge m.txt none o", {}),
    "a long list": (MERGE, {"m_txt": r"\*1048577:\n\."}),
    "a list of two words": (MERGE, {"m_txt": "a b"}),
    "an entry that is an output": (MERGE, {"m_txt": r"a\no.asc\nb"}),
    "an ill calibration": (MERGE, {"c_json": "{}"}),
    "no grid": ("merge m.txt - o", {}),
    "no first entry": (MERGE, {"a": None}),
    "an ill first entry": (MERGE, {"a": "ncols"}),
    "a first entry beside": (MERGE, {"a": one_line(GRIDS["off"])}),
    "a short first entry beside": (MERGE, {"a": one_line(GRIDS["short"])}),
    "no second entry": (MERGE, {"b": None}),
    "an ill second entry": (MERGE, {"b": one_line(GRIDS["head"])}),
    "a second entry beside": (MERGE, {"b": one_line(GRIDS["cell"])}),
}
OLDER = {"o_asc": "older", "o_csv": "old", "o_pgm": "oldest"}


def order_cases():
    """Faults of two stages at once, where they can stand together."""
    plain = merge_of(WHOLE, ["a", "b", "c"], GRIDS)
    for (words, texts), (other, more) in itertools.combinations(FAULTS.values(), 2):
        is_one = set(texts) & set(more) or (words != MERGE != other and words != other)
        if not is_one:
            yield with_texts(plain, **texts, **more)._replace(
                words=words if words != MERGE else other
            )
    for words, texts in FAULTS.values():
        yield with_texts(plain, **{**OLDER, **texts})._replace(words=words)
    yield with_texts(plain, **OLDER)
    yield from word_cases(plain)
    # A grid that is too long, behind an entry that isn't.
    yield with_texts(plain, b=TOO_LONG)


def word_cases(plain):
    """Words of a merge over files that suit it."""
    for words in [
        "merge", "merge m.txt", "merge  c.json o", "merge m.txt  o", "merge m.txt c.json ", "merge m.txt c.json o ",
        "merge m.txt c.json o workers=1", "merge m.txt c.json o peak=2",
        "merge m.txt c.json o strips=2", "merge m.txt c.json o fill=0",
        "merge o.asc o.csv o", "merge o.pgm o.asc o", "merge o.csv c.json o", "merge m.txt o.pgm o", "merge o o.pgm o",
        "merge o.asc c.json o x", "Merge m.txt c.json o", "merges m.txt c.json o", "merge m.txt c.json m",
    ]:  # fmt: skip
        yield plain._replace(words=words)
    yield Case(
        "merge o.pgm o.pgm.json o",
        {**plain.texts, "o.pgm": r"a\n", "o.pgm.json": plain.texts["c.json"]},
    )
    yield Case("merge o c.json o", {**plain.texts, "o": "a"})


# Great and small numbers


# Means of all signs that lie halfway between two numbers, or nearly so.
HALVES = "1 2 / -1 -2 / 0 1 / 0 -1 / -1 2 / 1 -2 / 1 1 2 / -1 -1 -2 / 2 2 1 / -2 -2 -1 / 5 / -5 / "
HALVES += "1 2 3 4 / -1 -2 -3 -4 / -7 -7 -8 / 2000000000 2000000000 1999999999 / "
HALVES += "-2000000000 -2000000000 -1999999999"


def edge_cases():
    ground = {"west": 0, "south": 0, "cell": 10**9, "cols": 2, "rows": 1}
    many = merge_of(
        calibration(ground), ["a"], {"a": grid_text(f"{HIGHEST} {-HIGHEST}", 2, 1, cell=10**9)}
    )
    region = {**REGIONS[0], "cols": 2, "rows": 1, "base": -HIGHEST}
    for text in (r"\*1000:a\n\.", r"\*2:a\n\.", r"a\n"):
        for regions in (None, [region], [{**region, "base": HIGHEST}]):
            whole = calibration(ground, regions=regions)
            yield with_texts(many, m_txt=text, c_json=compact(whole))
    one = {"west": 0, "south": 0, "cell": 3, "cols": 1, "rows": 1}
    for heights in map(str.split, HALVES.split(" / ")):
        grids = {f"e{number}": grid_text(it, 1, 1, cell=3) for number, it in enumerate(heights)}
        for keep in ("mean", "highest") if len(heights) == 2 else ("mean",):
            yield merge_of(calibration(one, keep), list(grids), grids)
    # A long row over a small grid, from far beyond it.
    long = grid_text(" ".join(map(str, range(4096))), 4096, 1, west=-10000)
    yield merge_of(WHOLE, ["l"], {"l": long})
    high = grid_text(" ".join(map(str, range(4096))), 1, 4096, south=-20000)
    yield merge_of(WHOLE, ["l"], {"l": high})


def device_cases():
    """Runs in which a call or a stream fails once."""
    grid = {"west": -20, "south": -10, "cell": 10, "cols": 5, "rows": 3}
    plain = merge_of(calibration(grid, "mean", 2, REGIONS), [*THREE, "west.asc"], THREE)
    bare = merge_of(calibration(grid, "highest", 1), list(THREE), THREE)
    calls = [f"fetch {name}" for name in ("m.txt", "c.json", *THREE)]
    calls += [
        "create o.asc",
        "append o.asc 0",
        "append o.asc 33",
        "append o.asc 120",
        "finish o.asc",
    ]
    calls += [
        "create o.csv",
        "append o.csv 0",
        "append o.csv 51",
        "append o.csv 60",
        "finish o.csv",
    ]
    for device in [*(f"trip {it}" for it in calls), "out 0", "out 7"]:
        yield plain._replace(devices=(device,))
        if "csv" not in device:
            yield with_texts(bare, **OLDER)._replace(devices=(device,))
    yield with_texts(plain, **OLDER)._replace(devices=("trip create o.csv",))
    for text in ("", r"a\nb\n", "o.asc", "a b", None):
        yield with_texts(plain, m_txt=text)._replace(devices=("sure",))
    yield plain._replace(devices=("sure",))
    yield with_texts(plain, c_json="")._replace(devices=("sure",))
    yield Case("merge none none none", {}, ("sure",))


def random_case(number):
    words, files = random_inputs.merge_case(Draw(SEED, number))
    return Case(" ".join(words), {name: one_line(data) for name, data in files.items()})


@functools.cache
def cases():
    """All cases; none comes twice."""
    made = [*worked_cases(), *list_cases(), *entry_cases(), *cell_cases(), *calibration_cases_of()]
    made += [*order_cases(), *edge_cases(), *device_cases(), *map(random_case, range(RANDOM_CASES))]
    return list({case.told(): case for case in made}.values())


# What the neighbours change


@contextlib.contextmanager
def in_place(holder, name, other):
    """The other one in the place of a holder's part, which is a module, a class or the table of commands."""
    if isinstance(holder, dict):
        with mock.patch.dict(holder, {name: other}):
            yield
    else:
        with mock.patch.object(holder, name, other):
            yield


# Names that a module took over from another one.
TAKEN_OVER = {(inputs, "LONGEST_CALIBRATION"): reference}


def changed_by(holder, name, other):
    """How many cases have another answer where that stands in the place of a part."""
    holder = TAKEN_OVER.get((holder, name), holder) if not isinstance(holder, dict) else holder
    with in_place(holder, name, other):
        is_asked = lambda case: name.startswith("LONGEST") or TOO_LONG not in case.texts.values()
        return sum(answer_of(case) != owed for case, owed in owed_answers() if is_asked(case))


@functools.cache
def owed_answers():
    return [(case, answer_of(case)) for case in cases()]


@functools.cache
def counted():
    """How many cases each of the neighbours changes."""
    owed_answers()
    assert changed_by(reference, "merge", in_order(*STAGES)) == 0
    return {name: changed_by(*it) for name, it in NEIGHBOURS.items()}


# Lines


def pairs():
    """All cases, each with its answer."""
    return [[case.told(), owed] for case, owed in owed_answers()]


def differing():
    """Those cases in which nothing fails and whose answer over files on a disk is another one."""
    for case, owed in owed_answers():
        if case.devices in ((), ("sure",)):
            words, files, absent = stored_runs.given(case.told())
            if stored_runs.answer(tuple(words), tuple(files.items()), absent) != owed:
                yield case.told()


def main():
    epilog = "Example: tests/merge_cases.py > /tmp/merges"
    parser = argparse.ArgumentParser(description=__doc__.split("\n\n")[0], epilog=epilog)
    way = parser.add_mutually_exclusive_group()
    tells = "print how many cases each neighbour of the definition changes"
    way.add_argument("--kinds", action="store_true", help=tells)
    way.add_argument("--check", action="store_true", help="compare with the stored cases")
    way.add_argument("--write", action="store_true", help="write the stored cases anew")
    words = parser.parse_args()
    missing = [name for name, number in counted().items() if not number]
    if missing:
        print(f"merge_cases: no case tells: {', '.join(missing)}", file=sys.stderr)
    if words.kinds:
        print("\n".join(f"{number} {name}" for name, number in counted().items()))
    elif words.check or words.write:
        otherwise = list(differing())
        print(
            "".join(f"merge_cases: ends otherwise on a disk: {it[:200]}\n" for it in otherwise),
            end="",
        )
        wanted = pairs() if inputs.HAS_MERGE or words.write else []
        held = stored_runs.hold_cases("merge_cases", wanted, "run merge ", words.write)
        return held or bool(missing or otherwise)
    else:
        print("\n".join(line for pair in pairs() for line in pair))
    return 1 if missing else 0


if __name__ == "__main__":
    try:
        sys.exit(main())
    except OSError as error:
        sys.exit(f"merge_cases: {error}")
