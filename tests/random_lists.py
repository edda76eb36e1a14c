"""Lists of a series, and whole series, that look random, each made from a seed and a number alone.

Most lists have no fault; the others have a line with too few or too many words, entries that clash, bytes that aren't
UTF-8, or an entry too many. What stands between the words is of any kind, and words have letters of any kind. A whole
series has up to 20 entries, some of them refused, and at times an input that is absent or an output that can't be
written.
"""

import json

import random_inputs
import reference_inputs
from calibration_cases import WHOLE, third
from random_inputs import FOLDER, Case, Draw, Link

LIST = "list.txt"
SPACES = [" ", " ", "  ", "\t", "\r", " \r\t "]
# What other rules take for white space or an end of a line is a part of a word here.
ODD_LETTERS = ["\v", "\f", "\0", "\x1c", "\x85", "\u00a0", "\u2003", "\u2028", "\ufeff", "\u00e4", "\u65e5", "\U0001f600", "#", '"', "\\"]
ILL_BYTES = [b"\xff", b"\x80", b"\xc3", b"\xc0\xaf", b"\xed\xa0\x80", b"\xf4\x90\x80\x80", b"\xe2\x82", b"\xf8\x88\x80\x80\x80"]


def name_of(draw, stem, number):
    return f"{stem}{number}{draw.of(ODD_LETTERS) if draw.chance(10) else ''}"


def entries_of(draw, count):
    """The words of so many entries that don't clash."""
    made = []
    for number in range(count):
        calib = draw.of(["-", "-", "c.json", name_of(draw, "c", number)])
        pair = ["l.pgm", "r.pgm"] if draw.chance(40) else [name_of(draw, "l", number), name_of(draw, "r", number)]
        made.append([*pair, calib, name_of(draw, "o", number)])
    return made


def clash(draw, entries):
    """Makes an entry clash, most of the time."""
    entry, other = draw.of(entries), draw.of(entries)
    what, ending = draw.below(6), draw.of([".pgm", ".asc", ".csv", ".PGM", ".json", ""])
    if what == 0:
        entry[3] = other[3]
    elif what < 4:
        entry[draw.below(3)] = other[3] + ending
    elif what == 4:
        entry[3] = LIST.removesuffix(".txt") if draw.chance(20) else LIST
    else:
        entry[draw.below(4)] = draw.of([LIST, "-", "-.pgm", "./" + other[3] + ".pgm"])


def text_of(draw, entries):
    """A list's text with the words of these entries."""
    blank = lambda: "".join(draw.of(SPACES) for _ in range(draw.of([0, 0, 0, 1, 2])))
    lines = []
    for entry in entries:
        while draw.chance(15):
            lines.append(blank())
        lines.append(blank() + "".join(word + draw.of(SPACES) for word in entry[:-1]) + "".join(entry[-1:]) + blank())
    return draw.of(["\n", "\n", "\r\n"]).join(lines).encode() + draw.of([b"\n", b"", b"\r\n", b"\n\n"])


def name_list_of(seed, number):
    """The bytes of a merge's list, where OUT is o."""
    draw = Draw(seed, number)
    count = draw.of([0, 1, 1, 2, 5, draw.below(20)])
    if draw.chance(3):
        count = draw.of([1000, 1001, 1200])
    names = [name_of(draw, "e", it) for it in range(count)]
    if names and draw.chance(30):
        names[draw.below(count)] = draw.of(["o.asc", "o.csv", "o.pgm", "./o.asc", "o", "O.asc", "o.asc\u00a0"])
    entries = [[name] for name in names]
    if entries and draw.chance(20):
        draw.of(entries).append("x")
    data = text_of(draw, entries)
    if draw.chance(12):
        at = draw.below(len(data) + 1)
        data = data[:at] + draw.of(ILL_BYTES) + data[at:]
    return data


def list_of(seed, number):
    """A list's bytes and the name under which it is held."""
    draw = Draw(seed, number)
    count = draw.of([0, 1, 1, 2, 3, 5, draw.below(20)])
    if draw.chance(3):
        count = draw.of([1000, 1001, 1200])
    entries = entries_of(draw, count)
    while entries and draw.chance(40):
        clash(draw, entries)
    if entries and draw.chance(20):
        entry = draw.of(entries)
        if draw.chance(50):
            del entry[draw.below(len(entry))]
        else:
            entry.insert(draw.below(5), draw.of(["-", "x", "workers=2"]))
    # The name of the list, at times one that an entry writes.
    name = draw.of([LIST, LIST, LIST, LIST + ".pgm", "o0.pgm", "o1.csv"])
    data = text_of(draw, entries)
    if draw.chance(12):
        at = draw.below(len(data) + 1)
        data = data[:at] + draw.of(ILL_BYTES) + data[at:]
    if draw.chance(5):
        data = data[: draw.below(len(data) + 1)]
    if draw.chance(1):
        data += b" " * (draw.of([1048576, 1048577]) - len(data))
    return data, name


def pairs_of(draw):
    """Small pairs and calibrations, most of which suit one another: the files, and for each entry to be its inputs."""
    files = {"bad.pgm": b"P2 1 1 255 7", "bad.json": b"{", "c.json": json.dumps(WHOLE).encode()}
    files |= {"third.json": json.dumps(third()).encode(), "fine.json": json.dumps(third(("disparities.fine", True))).encode()}
    good, refused = [], [["bad.pgm", "l0.pgm", "-"], ["l0.pgm", "bad.pgm", "c.json"]]
    refused.append(["l0.pgm", "r0.pgm", "bad.json"])
    # The pair is refused or not, as the program takes finer disparities.
    (good if reference_inputs.TAKES_FINE else refused).append(["l0.pgm", "r0.pgm", "fine.json"])
    for number in range(3):
        # Of different widths, so that none suits another.
        width, height = 3 * number + draw.between(1, 3), draw.between(1, 4)
        both = random_inputs.pair_of(draw, width, height)
        files |= {f"l{number}.pgm": both[0], f"r{number}.pgm": both[1]}
        good += [[f"l{number}.pgm", f"r{number}.pgm", calib] for calib in ("-", "c.json", "third.json")]
        refused.append([f"l{number}.pgm", f"r{(number + 1) % 3}.pgm", "-"])
    return files, good, refused


def case_of(seed, number):
    """The words and files of a whole series."""
    draw = Draw(seed, number)
    files, good, refused = pairs_of(draw)
    count, ill = draw.of([1, 2, 7, 8, 9, 16, 17, draw.between(1, 20)]), draw.of([0, 0, 10, 40])
    entries = [[*draw.of(refused if draw.chance(ill) else good), f"o{it}"] for it in range(count)]
    if draw.chance(25):
        draw.of(entries)[draw.below(3)] = draw.of(["none", "dir", "loop", "./o0.pgm"])
        files |= {"dir": FOLDER, "loop": Link("loop")}
    if draw.chance(15):
        draw.of(entries)[3] = draw.of(["none/o", "dir/../o", "/dev/null/o", "x" * 300, "./o0"])
        files["dir"] = FOLDER
    if draw.chance(10):
        name = draw.of(entries)[3] + draw.of([".pgm", ".asc", ".csv"])
        # (no file can have a name of more than 255 bytes)
        if "/" not in name and len(name) <= 255:
            files[name] = draw.of([FOLDER, Link("/dev/full"), b"older\n" * 40])
    if draw.chance(10):
        clash(draw, entries)
    files[LIST] = text_of(draw, entries)
    if draw.chance(5):
        files[LIST] = list_of(seed, number)[0]
    words = [LIST] + draw.of([[], ["workers=1"], ["workers=2"], ["workers=2"]])
    if draw.chance(6):
        words = draw.of([[], [""], ["none"], ["."], ["./" + LIST], [*words, "workers=1"], [LIST, "workers=3"], [LIST, "x"]])
    return Case("series", words, files)
