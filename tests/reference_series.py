#!/usr/bin/env python3
"""A second, separate sgm_series: the same words, files, lines and statuses, from the plain definitions.

Each entry of the list is a match by reference.py, one after the other; the number of workers has no part in what comes
of them. It never runs out of memory (status 6).
"""

import os
import sys

import reference
from reference_inputs import REFUSED, UNREAD, USAGE, Ended
from reference_lists import LONGEST_LIST, read_list

# So many entries' inputs are fetched before the first of them has its turn.
BATCH = 8


def list_named(words):
    """The name of the list."""
    if not words or words[0] == "":
        raise Ended(USAGE, "sgm_series: no list")
    for position, word in enumerate(words[1:], 1):
        if position > 1 or word not in ("workers=1", "workers=2"):
            raise Ended(USAGE, f"sgm_series: word {position} is not accepted")
    return words[0]


def fetch_list(name):
    try:
        with open(name, "rb") as file:
            return file.read(LONGEST_LIST + 1)
    except OSError:
        raise Ended(UNREAD, "sgm_series: cannot read the list")


def of_entry(number, end):
    """The end of the series where an entry ends it."""
    return Ended(end.status, f"sgm_series: entry {number}: " + end.line.removeprefix("sgm: "))


def fetch_entry(number, entry):
    """The bytes of the entry's inputs, or the refusal of one that is too long."""
    try:
        return reference.fetch_inputs(entry.left, entry.right, entry.calib)
    except Ended as end:
        if end.status == REFUSED:
            return end
        raise of_entry(number, end)


def take_turn(number, entry, inputs, tell):
    """Writes what the entry asks for, or tells why it is refused. Answers whether it was written."""
    try:
        if isinstance(inputs, Ended):
            raise inputs
        reference.deliver(entry.out, *reference.match_texts(*reference.judged(*inputs)))
        return True
    except Ended as end:
        if end.status != REFUSED:
            raise of_entry(number, end)
        tell(end.line)
        return False


def run(words, tell):
    """Runs the series; `tell` takes the lines of refused entries. Ends with the line of any outcome but Done."""
    name = list_named(words)
    entries = list(enumerate(read_list(fetch_list(name), name)))
    refused = 0
    for begin in range(0, len(entries), BATCH):
        batch = entries[begin : begin + BATCH]
        fetched = [fetch_entry(*numbered) for numbered in batch]
        for numbered, inputs in zip(batch, fetched):
            refused += not take_turn(*numbered, inputs, tell)
    if refused:
        raise Ended(REFUSED, f"sgm_series: {refused} entries refused")


class Errors:
    """Standard error, to which nothing more goes after its first failure."""

    def __init__(self):
        self.is_open = True

    def tell(self, line):
        data = (line + "\n").encode()
        while self.is_open and data:
            try:
                data = data[os.write(2, data) :]
            except OSError:
                self.is_open = False


def main(words):
    if not reference.is_text(words):
        return 1
    errors = Errors()
    try:
        run(words, errors.tell)
    except Ended as end:
        errors.tell(end.line)
        return end.status
    return 0


if __name__ == "__main__":
    sys.exit(main(sys.argv[1:]))
