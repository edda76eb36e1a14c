"""The reading of lists, from their definitions alone: their entries, or their first fault.

A list is text in UTF-8. In that of a series each line that has words has four of them, which are an entry:
LEFT RIGHT CALIB OUT. In that of a merge each has one, the name of a grid.
"""

import re
from typing import NamedTuple

from reference_inputs import COMMANDS, REFUSED, Ended

LONGEST_LIST, MOST_ENTRIES = 1048576, 1000
WORD = re.compile(r"[^ \t\r\n]+")
OUTPUTS = COMMANDS["match"].endings


class Entry(NamedTuple):
    left: str
    right: str
    calib: str
    out: str

    def inputs(self):
        """The names that the entry reads. A CALIB of `-` reads nothing."""
        return [self.left, self.right] + ([] if self.calib == "-" else [self.calib])

    def outputs(self):
        return [self.out + ending for ending in OUTPUTS]


def clashes(entries, name):
    """Of each entry whether it writes what another one reads or writes, or is read itself, or the list."""
    written = {output for entry in entries for output in entry.outputs()}
    outs = [entry.out for entry in entries]
    return [
        entry.out in outs[:number] or not written.isdisjoint(entry.inputs()) or name in entry.outputs()
        for number, entry in enumerate(entries)
    ]


def lines_of(data):
    """The number and the words of each line, counted from 1, or None where the bytes are no text."""
    try:
        text = data.decode("utf-8")
    except UnicodeDecodeError:
        return None
    return enumerate(map(WORD.findall, text.split("\n")), 1)


def read_list(data, name):
    """The entries of a list that is held under that name. Ends with the first fault."""

    def refused(text):
        raise Ended(REFUSED, "sgm_series: " + text)

    if len(data) > LONGEST_LIST:
        refused("list is too long")
    lines = lines_of(data)
    if lines is None:
        refused("list is not text")
    entries = []
    for number, words in lines:
        if len(words) not in (0, 4):
            refused(f"line {number} does not have four words")
        entries += [Entry(*words)] if words else []
    if len(entries) > MOST_ENTRIES:
        refused("too many entries")
    if True in clashes(entries, name):
        refused(f"entry {clashes(entries, name).index(True)} clashes")
    return entries


def read_names(data, outputs):
    """The names of the grids in the list of a merge that writes these outputs. Ends with the first fault."""

    def refused(text):
        raise Ended(REFUSED, "sgm: list: " + text)

    lines = lines_of(data)
    if lines is None:
        refused("not text")
    names = []
    for number, words in lines:
        if len(words) > 1:
            refused(f"line {number} does not have one word")
        names += words
    if not names:
        refused("no entries")
    if len(names) > MOST_ENTRIES:
        refused("too many entries")
    for number, name in enumerate(names):
        if name in outputs:
            refused(f"grid {number} is also an output")
    return names
