#!/usr/bin/env python3
"""Checks the reference's reading of a series' list against answers worked out by hand, and on random lists against
another reading, which goes byte by byte and keeps no words.

    tests/test_reference_lists.py
"""

import unittest

import random_lists
from reference_inputs import Ended
from reference_lists import Entry, read_list


def answer(data, name="list.txt"):
    """The entries, or the line of the first fault without the program's name."""
    try:
        return [tuple(entry) for entry in read_list(data, name)]
    except Ended as end:
        return end.line.removeprefix("sgm_series: ")


def by_bytes(data, name):
    """The same, from the bytes in one pass; then every two entries are compared."""
    if len(data) > 2**20:
        return "list is too long"
    if not is_utf8(data):
        return "list is not text"
    entries, words, number, was_space = [], [], 1, True
    for byte in [*data, 10]:
        if byte == 10:
            if len(words) == 4:
                entries.append(words)
            elif words:
                return f"line {number} does not have four words"
            words, number, was_space = [], number + 1, True
        elif byte in (9, 13, 32):
            was_space = True
        else:
            if was_space:
                words.append(b"")
            words[-1] += bytes([byte])
            was_space = False
    if len(entries) > 1000:
        return "too many entries"
    three = (b".pgm", b".asc", b".csv")
    # What is written, with the number of the entry that writes it first.
    first = {}
    for at, (_, _, _, out) in enumerate(entries):
        first.setdefault(out, at)
    for at, (left, right, calib, out) in enumerate(entries):
        for it in (left, right) if calib == b"-" else (left, right, calib):
            if it[-4:] in three and it[:-4] in first:
                return f"entry {at} clashes"
        if first[out] < at or name.encode() in [out + it for it in three]:
            return f"entry {at} clashes"
    return [tuple(word.decode() for word in entry) for entry in entries]


def is_utf8(data):
    """By the table of well-formed byte sequences of the Unicode standard."""
    follow, low, high = 0, 0x80, 0xBF
    for byte in data:
        if follow:
            if not low <= byte <= high:
                return False
            follow, low, high = follow - 1, 0x80, 0xBF
        elif byte >= 0x80:
            if not 0xC2 <= byte <= 0xF4:
                return False
            follow = 1 + (byte >= 0xE0) + (byte >= 0xF0)
            low = {0xE0: 0xA0, 0xF0: 0x90}.get(byte, 0x80)
            high = {0xED: 0x9F, 0xF4: 0x8F}.get(byte, 0xBF)
    return follow == 0


class Lists(unittest.TestCase):
    def test_entries(self):
        two = [("l.pgm", "r.pgm", "c.json", "o"), ("l.pgm", "r.pgm", "-", "p")]
        for data, entries in [
            (b"l.pgm r.pgm c.json o\nl.pgm r.pgm - p\n", two),
            (b"l.pgm r.pgm c.json o\nl.pgm r.pgm - p", two),
            (b"\n \t\r\n\tl.pgm  r.pgm\tc.json\ro \r\n\r\n\nl.pgm r.pgm - p\n\n", two),
            (b"", []),
            (b" \n\n\t\r\r\n ", []),
            (b"a a a a", [("a", "a", "a", "a")]),
            # Only these four bytes part words and lines.
            ("\u00a0 a\vb \f \u2028".encode(), [("\u00a0", "a\vb", "\f", "\u2028")]),
            (b"a\0 b c d", [("a\0", "b", "c", "d")]),
        ]:
            self.assertEqual(answer(data), entries, data)
            self.assertEqual(by_bytes(data, "list.txt"), entries, data)

    def test_faults(self):
        good = b"l.pgm r.pgm c.json o\n"
        for data, line in [
            (good + b"l.pgm o.pgm - p\n", "entry 1 clashes"),
            (good + b"l.pgm r.pgm p\n", "line 2 does not have four words"),
            (b"\n\n" + good + b"\r\na b c d e\nx\n", "line 5 does not have four words"),
            (b"x\n" + good, "line 1 does not have four words"),
            # The input of an earlier entry may be written by a later one; the earlier one is named.
            (b"p.csv r.pgm - o\n" + b"l.pgm r.pgm - p\n", "entry 0 clashes"),
            (b"l.pgm r.pgm o.asc o\n", "entry 0 clashes"),
            (good + b"a b - q\n" + good, "entry 2 clashes"),
            (b"l.pgm r.pgm - -\n", [("l.pgm", "r.pgm", "-", "-")]),
            (b"-.pgm r.pgm - -\n", "entry 0 clashes"),
            (b"o r.pgm - o\n", [("o", "r.pgm", "-", "o")]),
            (b"./o.pgm r.pgm - o\n", [("./o.pgm", "r.pgm", "-", "o")]),
            (good + b"\xff", "list is not text"),
            (b"x\n\xed\xa0\x80", "list is not text"),
            (b"l.pgm r.pgm - o" + b" " * 1048562, "list is too long"),
            (b"\xff" * 1048577, "list is too long"),
        ]:
            self.assertEqual(answer(data), line, data[:80])
            self.assertEqual(by_bytes(data, "list.txt"), line, data[:80])
        longest = b"l.pgm r.pgm - o" + b" " * 1048561
        self.assertEqual(answer(longest), [("l.pgm", "r.pgm", "-", "o")])

    def test_list_as_output(self):
        data = b"l.pgm r.pgm - o\nl.pgm r.pgm - p\n"
        for name, line in [("p.csv", "entry 1 clashes"), ("o.pgm", "entry 0 clashes"), ("l.pgm", None), ("o", None)]:
            self.assertEqual(answer(data, name), line or [("l.pgm", "r.pgm", "-", it) for it in "op"], name)

    def test_many(self):
        lines = [b"l r - o%d\n" % number for number in range(1001)]
        self.assertEqual(len(answer(b"".join(lines[:1000]))), 1000)
        self.assertEqual(answer(b"".join(lines)), "too many entries")
        self.assertEqual(answer(b"".join(lines) + b"x"), "line 1002 does not have four words")
        self.assertEqual(answer(b"".join(lines[:1000]) + b"o7.pgm r - o7"), "too many entries")

    def test_random(self):
        found = {}
        for number in range(1500):
            data, name = random_lists.list_of(1, number)
            made = answer(data, name)
            self.assertEqual(made, by_bytes(data, name), f"list {number} of seed 1")
            kind = "entries" if isinstance(made, list) else "".join(it for it in made if not it.isdigit())
            found[kind] = found.get(kind, 0) + 1
        # Each fault came, and so did lists without one.
        self.assertEqual(len(found), 6, found)

    def test_entry(self):
        entry = Entry("l", "r", "-", "o")
        self.assertEqual((entry.inputs(), entry.outputs()), (["l", "r"], ["o.pgm", "o.asc", "o.csv"]))
        self.assertEqual(Entry("l", "r", "c", "o").inputs(), ["l", "r", "c"])


if __name__ == "__main__":
    unittest.main()
