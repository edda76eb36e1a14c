"""The lists and grids of hostile.py: texts that mean no good, for `merge`, and for `change`, which reads such grids.

Each has the status and the line that docs/FORMATS.md gives it, written out by hand here; what else is written and
printed the reference works out, but for numbers that take it too long.
"""

import itertools
import json
from typing import NamedTuple

from calibration_cases import changed
from hostile_calibrations import ALL, ENTRY, MERGE, SIDES, Case, Hollow, asc, encoded
from random_inputs import FOLDER, Link
from reference_inputs import EMPTY, LONGEST_GRID
from reference_lists import LONGEST_LIST
from test_reference_pose import FILES

PLAIN = encoded(json.dumps(ALL))


# Lists of a merge


def listing(name, text, line="", status=3, calibration=PLAIN, **files):
    """A merge of a list; of the other files' names one has _ for its dot."""
    named = {file.replace("_", "."): data for file, data in files.items()}
    return Case(f"list: {name}", MERGE, {"c.json": calibration, "e.asc": ENTRY, "m.txt": text, **named}, line, status)


# What may be wrong with an entry, with its line and status; K is its number.
NO_GRID, OFF = "grid K: word 0 is not as expected", "grid K: not on the calibration's cells"
ENTRIES = {
    "absent": (None, "cannot read grid K", 4),
    "a folder": (FOLDER, "cannot read grid K", 4),
    "a loop": (Link("b.asc"), "cannot read grid K", 4),
    "a link to nothing": (Link("none"), "cannot read grid K", 4),
    "no grid": (b"name,height\n", NO_GRID, 3),
    "empty": (b"", NO_GRID, 3),
    "a null device": (Link("/dev/null"), NO_GRID, 3),
    "a picture": (FILES["l.pgm"], NO_GRID, 3),
    "a calibration": (PLAIN, NO_GRID, 3),
    "the list": (Link("m.txt"), NO_GRID, 3),
    "a micrometre to the east": (asc(west=SIDES["west"] + 1), OFF, 3),
    "a micrometre to the south": (asc(south=SIDES["south"] - 1), OFF, 3),
    "half a cell to the north": (asc(south=SIDES["south"] + 400), OFF, 3),
    "of half a cell": (asc(cell=400), OFF, 3),
    "of two cells": (asc(cell=1600), OFF, 3),
    "of one more": (asc(cell=801), OFF, 3),
    "too long": (Hollow(LONGEST_GRID + 1), "grid K is too long", 3),
    "endless": (Link("/dev/zero"), "grid K is too long", 3),
    "cut short": (ENTRY.rstrip().rpartition(b" ")[0] + b"\n", "grid K: 14 heights, 15 needed", 3),
    "cut in its head": (b"\n".join(ENTRY.split(b"\n")[:5]), "grid K: word 10 is not as expected", 3),
    "a height too many": (ENTRY + b"0\n", "grid K: 16 heights, 15 needed", 3),
    "a height too high": (ENTRY.replace(b" 2000000000 ", b" 2000000001 "), "grid K: height 13 is not in range", 3),
    "another nodata": (ENTRY.replace(b"value -2147483648", b"value -9999"), "grid K: word 11 is out of range", 3),
}


def last_entries():
    """A thousand entries of which the last one has a fault, one in the middle before absent ones, and one too many."""
    for name, (data, line, status) in ENTRIES.items():
        files = {} if data is None else {"b_asc": data}
        for before, behind in ((999, b""), (499, b"none\n" * 500)):
            text = b"e.asc\n" * before + b"b.asc\n" + behind
            yield listing(f"{before} and one that is {name}", text, line.replace("K", str(before)), status, **files)
        text = b"e.asc\n" * 1000 + b"b.asc\n"
        yield listing(f"1000 and one that is {name}", text, "list: too many entries", **files)


def many_entries():
    yield listing("1000 of one name", b"e.asc\n" * 1000)
    yield listing("1000 of one name without an end", b"e.asc\n" * 999 + b"e.asc")
    yield listing("1001 of one name", b"e.asc\n" * 1001, "list: too many entries")
    yield listing("1001 that are absent", b"none\n" * 1001, "list: too many entries")
    yield listing("999 and an output", b"e.asc\n" * 999 + b"o.csv\n", "list: grid 999 is also an output")
    yield listing("an output and 1000", b"o.csv\n" + b"e.asc\n" * 1000, "list: too many entries")
    grids = {f"e{number}_asc": asc([[number % 7 - 3]], west=600 + 800 * (number % 5)) for number in range(1000)}
    yield listing("1000 names", "".join(f"e{number}.asc\n" for number in range(1000)).encode(), **grids)
    # The greatest sums, and means that are halves.
    pairs = ((1, 0), (-1, 0), (2000000000, -2000000000), (2000000000, 2000000000))
    for keep, pair, count in itertools.product(("mean", "highest"), pairs, (2, 1000)):
        calibration = encoded(json.dumps(changed(ALL, ("grid.keep", keep), ("grid.bridge", 8))))
        one, other = (asc([[height] * 5] * 3) for height in pair)
        text = b"e.asc\nb.asc\n" * (count // 2)
        yield listing(f"{keep} of {count}, {pair}", text, calibration=calibration, e_asc=one, b_asc=other)


LATE = b"\n" * (LONGEST_LIST - 4) + b"a b\n"


def list_texts():
    """Lists with bytes of any kind; names are told by their place."""
    absent = "cannot read grid 0"
    for name, text, line, status in (
        ("nothing", b"", "list: no entries", 3),
        ("a mebibyte of line feeds", b"\n" * LONGEST_LIST, "list: no entries", 3),
        ("a mebibyte of white bytes", b" \t\r\n" * (LONGEST_LIST // 4), "list: no entries", 3),
        ("a byte more", b"\n" * (LONGEST_LIST + 1), "list is too long", 3),
        ("a mebibyte of entries", b"a\n" * (LONGEST_LIST // 2), "list: too many entries", 3),
        ("a mebibyte of one word", b"a" * LONGEST_LIST, absent, 4),
        ("a mebibyte of one line", b"a " * (LONGEST_LIST // 2), "list: line 1 does not have one word", 3),
        ("two words behind many lines", LATE, f"list: line {LONGEST_LIST - 3} does not have one word", 3),
        ("two words behind too many entries", b"e.asc\n" * 2000 + b"a b", "list: line 2001 does not have one word", 3),
        ("no text behind too many entries", b"e.asc\n" * 2000 + b"\xff", "list: not text", 3),
        ("no text behind two words", b"a b\n\xc0\xaf", "list: not text", 3),
        ("a surrogate", b"e.asc\n\xed\xa0\x80\n", "list: not text", 3),
        ("half a letter", b"e.asc\n\xe2\x82", "list: not text", 3),
        ("beyond the letters", b"\xf4\x90\x80\x80", "list: not text", 3),
        ("a byte order mark", b"\xef\xbb\xbfe.asc\n", absent, 4),
        ("of 16 bits", "e.asc\n".encode("utf-16"), "list: not text", 3),
        ("a NUL in a name", b"e.asc\0\n", absent, 4),
        ("a NUL for a name", b"\0\n", absent, 4),
        ("a NUL behind it", b"e.asc\n\0", "cannot read grid 1", 4),
        ("a form feed", b"e.asc\f\n", absent, 4),
        ("a vertical tab", b"\ve.asc\n", absent, 4),
        ("a wide space", "e.asc\u00a0\n".encode(), absent, 4),
        ("a line separator", "e.asc\u2028e.asc\n".encode(), absent, 4),
        ("quotes", b'"e.asc"\n', absent, 4),
        ("a comment", b"e.asc # first\n", "list: line 1 does not have one word", 3),
        ("a comment's line", b"e.asc\n#\n", "cannot read grid 1", 4),
        ("a pattern", b"*.asc\n", absent, 4),
        ("the home", b"~\n", absent, 4),
        ("an option", b"--help\n", absent, 4),
        ("standard input", b"-\n", absent, 4),
        ("this folder", b"e.asc\n.\n", "cannot read grid 1", 4),
        ("a file as a folder", b"e.asc/\n", absent, 4),
        ("a name of 255 letters", b"a" * 255 + b"\n", absent, 4),
        ("a name of 256 letters", b"a" * 256 + b"\n", absent, 4),
        ("a path of 5000 letters", b"./" * 2500 + b"e.asc\n", absent, 4),
        ("CR alone", b"e.asc\re.asc\n", "list: line 1 does not have one word", 3),
        ("an output behind a fault", b"e.asc\no.asc x\n", "list: line 2 does not have one word", 3),
        ("an output", b"e.asc\nO.asc\no.asc\no.csv\n", "list: grid 2 is also an output", 3),
        ("itself", b"m.txt\n", "grid 0: word 0 is not as expected", 3),
        ("itself behind a grid", b"e.asc\nm.txt\n", "grid 1: word 0 is not as expected", 3),
        ("the calibration", b"c.json\n", "grid 0: word 0 is not as expected", 3),
        ("another picture's name", b"o.pgm\n", absent, 4),
    ):
        yield listing(name, text, line, status)
    for name, text in (
        ("white bytes of all kinds", b" \r\n\te.asc\r\r\n\n  \t./e.asc \n\r\n"),
        ("no end", b"e.asc"),
        ("a mebibyte and an entry at its end", b"\n" * (LONGEST_LIST - 5) + b"e.asc"),
        ("a way round", b"./" * 2000 + b"e.asc\n"),
    ):
        yield listing(name, text)
    yield from list_files()


def list_files():
    """Lists and calibrations that are no plain files, or more than that."""
    # A list that is a grid too: its words are names of grids, and itself is the last of them.
    words = b"ncols 1 nrows 1 xllcorner 600 yllcorner -32001 cellsize 800 NODATA_value -2147483648".split()
    case = listing("a grid of names", b"\n".join([*words, b"5", b"m.txt"]), "grid 13: 2 heights, 1 needed")
    yield case._replace(files={**case.files, **{word.decode(): ENTRY for word in [*words, b"5"]}})
    yield Case("list: no file", MERGE, {"c.json": PLAIN}, "cannot read list", 4)
    for name, held, line, status in (
        ("a folder", FOLDER, "cannot read list", 4),
        ("endless", Link("/dev/zero"), "list is too long", 3),
        ("a null device", Link("/dev/null"), "list: no entries", 3),
        ("hollow", Hollow(LONGEST_LIST), "cannot read grid 0", 4),
    ):
        yield listing(name, held, line, status)
    yield listing("an endless calibration", b"e.asc\n", "calibration is too long", calibration=Link("/dev/zero"))
    yield listing("a calibration of nothing", b"e.asc\n", "calibration: not JSON", calibration=Link("/dev/null"))


# Grids


class Grid(NamedTuple):
    """A grid's text, its line behind the name of its input, and whether the reference reads it in good time."""

    name: str
    text: bytes
    line: str = ""
    is_quick: bool = True


HEAD_WORDS = 12
WORDS = ENTRY.split()
# Texts that are no numbers.
ODD = b"- +600 --5 5- 5. 5.0 .5 1e3 0x258 6_00 6,00 NaN inf null NODATA ncols '6' 600; 6/1".split(b" ")
ODD += ["\u0666\u0660\u0660".encode(), "\uff16".encode(), b"\xff", b"6\x000", b"\x006", b"6\x0b"]
ODD += [b"6\xc2\xa0", b"\xef\xbb\xbf6"]


def with_word(at, word):
    """The text of the grid with another word in that place, in one line."""
    return b" ".join([*WORDS[:at], word, *WORDS[at + 1 :]])


def head_numbers():
    """Each number of the head beyond its range, near to it by some bits, and with much before it."""
    sides, place = (1, 4096), (-2000000000, 2000000000)
    for line, (low, high) in enumerate([sides, sides, place, place, (1, 1000000000), (EMPTY, EMPTY)]):
        at, own = 2 * line + 1, int(WORDS[2 * line + 1])
        outside = [low - 1, high + 1, *(own + sign * 2**power for power in (32, 64, 128) for sign in (1, -1))]
        outside += [2**63, -(2**63) - 1, 2**31, -(2**31) - 1, 10**40, -(10**40), 10**4000, -(10**4000)]
        for value in map(str, outside):
            yield Grid(f"word {at} is {value[:24]}", with_word(at, value.encode()), f"word {at} is out of range")
        for odd in ODD:
            yield Grid(f"word {at} is {odd!r}", with_word(at, odd), f"word {at} is not as expected")
        sign = b"-" if own < 0 else b""
        for zeros in (1, 20, 10000, 1 << 24):
            yield Grid(f"{zeros} zeros before word {at}", with_word(at, sign + b"0" * zeros + str(abs(own)).encode()))
        for minus in (b"", b"-"):
            text, line = with_word(at, minus + b"9" * (1 << 24)), f"word {at} is out of range"
            yield Grid(f"{minus!r} and 16 MiB of digits as word {at}", text, line, is_quick=False)
        line = f"DIFFERS {at}" if low <= 0 <= high else f"word {at} is out of range"
        yield Grid(f"a minus and zeros as word {at}", with_word(at, b"-" + b"0" * 5000), line)


def head_ends():
    """What is in range and another grid."""
    for sides in ("4096 1", "1 4096", "4096 4096", "65 63"):
        cols, rows = map(int, sides.split())
        words = [*WORDS[:1], str(cols).encode(), *WORDS[2:3], str(rows).encode(), *WORDS[4:]]
        yield Grid(f"a head for {sides}", b" ".join(words), f"15 heights, {cols * rows} needed")
    # A product of both that is 0, 1 or 15 in 32 bits.
    wide = [(65536, 65536, 1), (2**32, 1, 1), (1, 2**32, 3), (2**32 + 5, 3, 1), (5, 2**32 + 3, 3), (2**31, 2, 1)]
    for cols, rows, at in [*wide, (0, 0, 1), (5, 0, 3), (0, 3, 1)]:
        words = [*WORDS[:1], str(cols).encode(), *WORDS[2:3], str(rows).encode(), *WORDS[4:]]
        yield Grid(f"{cols} x {rows}", b" ".join(words), f"word {at} is out of range")
    for at, values in ((5, (-2000000000, 2000000000)), (7, (-2000000000, 2000000000)), (9, (1, 1000000000))):
        for value in values:
            yield Grid(f"word {at} is {value}", with_word(at, str(value).encode()), f"DIFFERS {at}")


def head_names():
    names = [WORDS[2 * line] for line in range(6)]
    for line, name in enumerate(names):
        at = 2 * line
        odd_names = [name[:-1], name + b"s", name + b":", b"\0" + name, name + b"\0", b"\xef\xbb\xbf" + name]
        # Without the name the number stands in its place.
        for odd in [b"", b"7", b'"' + name + b'"', name[::-1], *odd_names]:
            yield Grid(f"{odd!r} for {name!r}", with_word(at, odd), f"word {at} is not as expected")
        yield Grid(f"{name!r} in capitals", with_word(at, name.upper()))
        yield Grid(f"{name!r} in both", with_word(at, name[:3].upper() + name[3:].lower()))
        yield Grid(f"{name!r} twice", with_word(at, name + b" " + name), f"word {at + 1} is not as expected")
        yield Grid(f"another name before {name!r}", with_word(at, b"dx 1 " + name), f"word {at} is not as expected")
    yield Grid("a long s", with_word(0, "ncol\u017f".encode()), "word 0 is not as expected")
    for at in range(HEAD_WORDS + 1):
        line = "0 heights, 15 needed" if at == HEAD_WORDS else f"word {at} is not as expected"
        yield Grid(f"{at} words", b"\n".join(WORDS[:at]), line)
    exchanged = [*WORDS[2:4], *WORDS[:2], *WORDS[4:]]
    yield Grid("rows before columns", b" ".join(exchanged), "word 0 is not as expected")
    yield Grid("the middle of the corner", ENTRY.replace(b"xllcorner", b"xllcenter"), "word 4 is not as expected")


def heights():
    last = len(WORDS) - 1
    for at in (HEAD_WORDS, HEAD_WORDS + 7, last):
        index = at - HEAD_WORDS
        for value in ("2000000000", "-2000000000", str(EMPTY), "-0", "0" * 100000, "-" + "0" * 100 + "7", "000002147"):
            yield Grid(f"height {index} is {value[:12]}", with_word(at, value.encode()))
        yield Grid(f"height {index} has 16 MiB of zeros", with_word(at, b"-" + b"0" * (1 << 24) + b"5"))
        text, line = with_word(at, b"7" * (1 << 24)), f"height {index} is not in range"
        yield Grid(f"height {index} has 16 MiB of digits", text, line, is_quick=False)
        outside = [2000000001, -2000000001, EMPTY + 1, EMPTY - 1, -EMPTY, -EMPTY - 1, 2**32, -(2**32), -9999999999]
        outside += [2**32 + EMPTY, 2**64 + 5, 2**64 + EMPTY, 10**4000, -(10**4000)]
        for value in map(str, outside):
            yield Grid(f"height {index} is {value[:24]}", with_word(at, value.encode()), line)
        for odd in ODD:
            yield Grid(f"height {index} is {odd!r}", with_word(at, odd), line)
    for count in (0, 1, 14, 16, 30, 4000000):
        yield Grid(f"{count} heights", b" ".join(WORDS[:HEAD_WORDS] + [b"5"] * count), f"{count} heights, 15 needed")
    # The count comes before the heights, and the first of two that are none is told.
    yield Grid("16 that are none", b" ".join(WORDS[:HEAD_WORDS] + [b"x"] * 16), "16 heights, 15 needed")
    yield Grid("15 that are none", b" ".join(WORDS[:HEAD_WORDS] + [b"x"] * 15), "height 0 is not in range")
    yield Grid("the last that is none", ENTRY.rstrip() + b"x\n", "height 14 is not in range")


def white():
    """What stands between the words, and what only looks like it."""
    spaces = {"TAB": b"\t", "CR": b"\r", "CRLF": b"\r\n", "LF": b"\n", "a mixture": b"\r\t \n \n\r"}
    for name, space in {**spaces, "a thousand spaces": b" " * 1000}.items():
        yield Grid(name, space.join(WORDS))
        yield Grid(f"{name} around", space + space.join(WORDS) + space)
    yield Grid("CRLF for each LF", ENTRY.replace(b"\n", b"\r\n"))
    yield Grid("no line feed at the end", ENTRY.rstrip())
    text, from_heights = b" ".join(WORDS), len(b" ".join(WORDS[:HEAD_WORDS])) + 1
    letters = {"NUL": "\0", "VT": "\v", "FF": "\f", "NEL": "\u0085", "a wide space": "\u00a0", "a comma": ","}
    for name, letter in letters.items():
        byte = letter.encode()
        yield Grid(f"{name} for each space", ENTRY.replace(b" ", byte), "word 0 is not as expected")
        yield Grid(f"{name} before all", byte + ENTRY, "word 0 is not as expected")
        yield Grid(f"{name} behind all", ENTRY + byte, "16 heights, 15 needed")
        yield Grid(f"{name} behind the last height", ENTRY.rstrip() + byte, "height 14 is not in range")
        between = text[:from_heights] + text[from_heights:].replace(b" ", byte)
        yield Grid(f"{name} between heights", between, "1 heights, 15 needed")
    yield Grid("the end of a file of old", ENTRY + b"\x1a", "16 heights, 15 needed")
    yield Grid("a byte order mark", b"\xef\xbb\xbf" + ENTRY, "word 0 is not as expected")
    yield Grid("of 16 bits", ENTRY.decode().encode("utf-16-le"), "word 0 is not as expected")


def long_texts():
    yield Grid("16 MiB of spaces between two words", ENTRY.replace(b"nrows", b" " * (1 << 24) + b"nrows"))
    yield Grid("16 MiB of line feeds at the end", ENTRY + b"\n" * (1 << 24))
    for name, byte in (("digits", b"1"), ("NUL", b"\0"), ("minus", b"-"), ("spaces", b" ")):
        yield Grid(f"16 MiB of {name}", byte * (1 << 24), "word 0 is not as expected")
    yield Grid("16 MiB of minus for a height", with_word(HEAD_WORDS, b"-" * (1 << 24)), "height 0 is not in range")
    yield Grid("as long as may be", ENTRY + b"\n" * (LONGEST_GRID - len(ENTRY)))
    yield Grid("a byte longer", ENTRY + b"\n" * (LONGEST_GRID - len(ENTRY) + 1), "TOO LONG")


def told(line, what, at_merge):
    """The line of a grid's fault where the grid is that input."""
    if line == "TOO LONG":
        return f"{what} is too long"
    if not line.startswith("DIFFERS"):
        return line and f"{what}: {line}"
    return f"{what}: not on the calibration's cells" if at_merge else f"grids differ at word {line.split()[1]}"


def fits(text):
    """Whether a grid in range lies on the cells of ALL."""
    west, south, cell = (int(text.split()[at]) for at in (5, 7, 9))
    return cell == SIDES["cell"] and (west - SIDES["west"]) % cell == (south - SIDES["south"]) % cell == 0


def read(grid):
    """The cases of a grid: as either side of a change, and as the second entry of a merge."""
    outputs = None if grid.is_quick else {}
    for what, texts in (("earlier", (grid.text, ENTRY)), ("later", (ENTRY, grid.text))):
        files = dict(zip(("e.asc", "l.asc"), texts))
        words = ("change", "e.asc", "l.asc", "o")
        yield Case(f"grid: {grid.name}, {what}", words, files, told(grid.line, what, False), outputs=outputs)
    line = "" if grid.line.startswith("DIFFERS") and fits(grid.text) else told(grid.line, "grid 1", True)
    files = {"c.json": PLAIN, "m.txt": b"e.asc\nl.asc\n", "e.asc": ENTRY, "l.asc": grid.text}
    yield Case(f"grid: {grid.name}, merged", MERGE, files, line, outputs=outputs)


def largest():
    """A grid of 4096 x 4096 cells, into the corners of which four entries of one cell are merged: too many for the
    reference."""
    side, cell, west, south = 4096, 1000, -2000000000, 1990000000
    grid = {"west": west, "south": south, "cell": cell, "cols": side, "rows": side, "keep": "mean", "bridge": 8}
    files, rows = {"c.json": encoded(json.dumps(changed(ALL, ("grid", grid), ("regions", []))))}, {}
    last = side - 1
    for row, col, height in ((0, 0, 7), (0, last, -7), (last, 0, 2000000000), (last, last, -2000000000)):
        rows.setdefault(row, [EMPTY] * side)[col] = height
        place = {"west": west + col * cell, "south": south + (last - row) * cell, "cell": cell}
        files[f"e{len(files)}.asc"] = asc([[height]], **place)
    files["m.txt"] = "".join(name + "\n" for name in files if name.startswith("e")).encode()
    lines = [" ".join(map(str, rows.get(row, [EMPTY] * side))) for row in range(side)]
    text = asc([[0]], **grid).split(b"\n0")[0] + "".join("\n" + line for line in lines).encode() + b"\n"
    table = b"region,cells,bridged,empty,fill,cut,lowest,highest\n"
    outputs = {"o.asc": text, "o.csv": table}
    yield Case("grid: 4096 x 4096", MERGE, files, summary="merged 4 of 16777216\n", outputs=outputs)


def grids():
    """All grids, of which a long one is read as one of the three, in turn."""
    parts = (head_numbers, head_ends, head_names, heights, white, long_texts)
    for number, grid in enumerate(it for part in parts for it in part()):
        some = list(read(grid))
        yield from [some[number % 3]] if len(grid.text) > 1 << 20 else some


def cases():
    """All lists and grids."""
    yield from last_entries()
    yield from many_entries()
    yield from list_texts()
    yield from grids()
    yield from largest()
