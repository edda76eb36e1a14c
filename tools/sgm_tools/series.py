"""Lists of a series, and which of their entries have whole outputs."""

from __future__ import annotations

import functools
import os
import re
import stat
from collections.abc import Iterator, Sequence
from typing import Any, BinaryIO, NamedTuple

from sgm_tools.calibrations import regions_in, whole
from sgm_tools.files import head_in, pgm_head, read_json
from sgm_tools.grids import NO_HEIGHT
from sgm_tools.kinds import Size
from sgm_tools.reports import read_report
from sgm_tools.running import Wrong

LONGEST_LIST, MOST_ENTRIES = 1048576, 1000
WORD = re.compile(rb"[^ \t\r\n]+")
ENDINGS = (b".pgm", b".asc", b".csv")
# The words of a grid's head whose numbers are the calibration's, with its keys.
GRID_KEYS = (("ncols", "cols"), ("nrows", "rows"), ("xllcorner", "west"), ("yllcorner", "south"), ("cellsize", "cell"))
ROW = re.compile(rb"-?[0-9]+(?: -?[0-9]+)*\n")
# A picture's head is looked for in so many bytes first.
USUAL_HEAD = 65536


# The list


class Entry(NamedTuple):
    """An entry's words, as the bytes that they are."""

    left: bytes
    right: bytes
    calib: bytes
    out: bytes

    def inputs(self) -> set[bytes]:
        return {self.left, self.right} | (set() if self.calib == b"-" else {self.calib})

    def outputs(self) -> set[bytes]:
        return {self.out + ending for ending in ENDINGS}


def first_clash(entries: Sequence[Entry], name: bytes) -> int | None:
    """The number of the first entry that writes what another one reads or writes, or is read itself, or the list."""
    written = set().union(*(entry.outputs() for entry in entries))
    outs = set()
    for number, entry in enumerate(entries):
        if entry.out in outs or written & entry.inputs() or name in entry.outputs():
            return number
        outs.add(entry.out)
    return None


def lines_of(name: str) -> Iterator[tuple[int, list[bytes]]]:
    """The number of each line of a list and its words, or a Wrong with the program's words."""
    with open(name, "rb") as file:
        data = file.read(LONGEST_LIST + 1)
    if len(data) > LONGEST_LIST:
        raise Wrong("list is too long")
    try:
        data.decode("utf-8")
    except UnicodeDecodeError:
        raise Wrong("list is not text")
    for number, line in enumerate(data.split(b"\n"), 1):
        yield number, WORD.findall(line)


def read_list(name: str) -> list[Entry]:
    """The entries of the list, or a Wrong with the program's words on its first fault."""
    entries = []
    for number, words in lines_of(name):
        if len(words) not in (0, 4):
            raise Wrong(f"line {number} does not have four words")
        entries += [Entry(*words)] if words else []
    if len(entries) > MOST_ENTRIES:
        raise Wrong("too many entries")
    clash = first_clash(entries, os.fsencode(name))
    if clash is not None:
        raise Wrong(f"entry {clash} clashes")
    return entries


# The files


def file_name(word: bytes) -> str:
    """The word as Python's functions take a name; its bytes are those of the word in each locale."""
    if b"\0" in word:
        raise Wrong(f"{os.fsdecode(word)!r}: no file has such a name")
    return os.fsdecode(word)


def open_file(name: str) -> BinaryIO:
    """The file, open for reading. What is no file isn't waited for."""
    if not stat.S_ISREG(os.stat(name).st_mode):
        raise Wrong(f"{name}: not a file")
    return open(name, "rb")


def sides(name: str) -> Size:
    """The width and height of an input picture."""
    with open_file(name) as file:
        data = file.read(USUAL_HEAD)
        head = head_in(data) or head_in(data + file.read())
    if not head:
        raise Wrong(f"{name}: not a binary PGM")
    return int(head[1]), int(head[2])


class Wanted(NamedTuple):
    """What a calibration asks for: the head of OUT.asc, its columns and rows, and the names of the regions."""

    head: bytes | None = None
    cols: int = 0
    rows: int = 0
    regions: list[Any] | None = None


@functools.lru_cache(maxsize=None)
def wanted_by(calib: bytes) -> Wanted:
    if calib == b"-":
        return Wanted()
    name = file_name(calib)
    try:
        top = read_json(name)
        if "grid" not in top and "regions" not in top:
            return Wanted()
        numbers = [whole(top, "grid", key) for _, key in GRID_KEYS]
        listed = regions_in(top) if "regions" in top else None
        regions: list[Any] | None = None if listed is None else [it.get("name") for it in listed]
    except Wrong as error:
        raise Wrong(str(error) if str(error).startswith(name) else f"{name}: {error}")
    lines = [f"{word} {number}\n" for (word, _), number in zip(GRID_KEYS, numbers)]
    cols, rows = numbers[:2]
    return Wanted(f"{''.join(lines)}NODATA_value {NO_HEIGHT}\n".encode(), cols, rows, regions)


def check_disparities(name: str, width: int, height: int) -> None:
    head = pgm_head(width, height, 65535)
    with open_file(name) as file:
        begin = file.read(len(head))
        length = os.fstat(file.fileno()).st_size
    if begin != head[: len(begin)] or (begin != head and length != len(begin)):
        raise Wrong(f"{name}: not a disparity picture of {width} x {height}")
    if length != len(head) + 2 * width * height:
        raise Wrong(f"{name}: {length} of {len(head) + 2 * width * height} bytes")


def check_grid(name: str, head: bytes, cols: int, wanted_rows: int) -> None:
    with open_file(name) as file:
        if file.read(len(head)) != head:
            raise Wrong(f"{name}: not a grid of heights by this calibration")
        rows = 0
        for line in file:
            if line.count(b" ") != cols - 1 or not ROW.fullmatch(line):
                raise Wrong(f"{name}: row {rows} is cut short or isn't one")
            rows += 1
    if rows != wanted_rows:
        raise Wrong(f"{name}: {rows} of {wanted_rows} rows")


def check_report(name: str, regions: Sequence[str]) -> None:
    with open_file(name) as file:
        file.seek(max(0, os.fstat(file.fileno()).st_size - 1))
        is_ended = file.read() == b"\n"
    found = [line["region"] for line in read_report(name)]
    if found != regions[: len(found)]:
        raise Wrong(f"{name}: not the regions of this calibration")
    # A line that is cut within its last number looks like a line.
    if not is_ended or len(found) < len(regions):
        raise Wrong(f"{name}: cut short")


def has_grid(entry: Entry) -> bool:
    """Whether the entry's calibration, which can be read, asks for a grid."""
    return wanted_by(entry.calib).head is not None


def fault(entry: Entry) -> str | None:
    """Why an entry is left, or None where it is done."""
    try:
        width, height = sides(file_name(entry.left))
        wanted = wanted_by(entry.calib)
        out = file_name(entry.out)
        check_disparities(out + ".pgm", width, height)
        if wanted.head is not None:
            check_grid(out + ".asc", wanted.head, wanted.cols, wanted.rows)
        if wanted.regions is not None:
            check_report(out + ".csv", wanted.regions)
    except OSError as error:
        return ": ".join(str(it) for it in (error.filename, error.strerror or error) if it)
    except Wrong as error:
        return str(error)
    return None
