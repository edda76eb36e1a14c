#!/usr/bin/env python3
"""Checks the reference of sgm_series against ends and files worked out by hand.

    tests/test_reference_series.py
"""

import os
import subprocess
import sys
import tempfile
import unittest

import reference_series
from test_reference import DISPARITY_TEXT, GRID_TEXT, TABLE_TEXT, WORKED

# A pair of two pixels, which takes the plain settings no time.
TWO = b"P5\n2 1\n255\n\0\xff"
TWO_TEXT = b"P5\n2 1\n65535\n\0\x10\0\x10"
SMALLER = b"P5\n4 3\n255\n" + bytes(12)
DIFFER = "sgm: sizes differ: 5x3 and 4x3\n"


def run(files, words, **streams):
    """Runs the reference in a new folder: its status, both streams, and the files that it made or changed."""
    with tempfile.TemporaryDirectory() as folder:
        for name, data in files.items():
            with open(os.path.join(folder, name), "wb") as file:
                file.write(data)
        command = [sys.executable, os.path.abspath(reference_series.__file__), *words]
        pipes = {"stdout": subprocess.PIPE, "stderr": subprocess.PIPE, **streams}
        done = subprocess.run(command, cwd=folder, **pipes)
        made = {}
        for name in sorted(os.listdir(folder)):
            with open(os.path.join(folder, name), "rb") as file:
                data = file.read()
            if files.get(name) != data:
                made[name] = data
    return done.returncode, (done.stdout or b"").decode(), (done.stderr or b"").decode(), made


class Series(unittest.TestCase):
    def ends(self, text, status, out, err, made, words=("list",), **files):
        named = {name.replace("_", "."): data for name, data in files.items()}
        answer = run({**WORKED, "two.pgm": TWO, "s.pgm": SMALLER, "list": text, **named}, words)
        self.assertEqual(answer, (status, out, err, made), text)

    def test_two_entries(self):
        made = {"o.asc": GRID_TEXT, "o.csv": TABLE_TEXT, "o.pgm": DISPARITY_TEXT}
        made["p.pgm"] = b"P5\n5 3\n65535\n" + 15 * b"\0\x10"
        text = b"l.pgm r.pgm c.json o\nl.pgm r.pgm - p\n"
        for words in (["list"], ["list", "workers=1"], ["list", "workers=2"]):
            self.ends(text, 0, 2 * "valid 15 of 15\n", "", made, words)

    def test_nothing(self):
        self.ends(b"", 0, "", "", {})
        self.ends(b"\n \r\n", 0, "", "", {})

    def test_lists(self):
        first = b"l.pgm r.pgm c.json o\n"
        self.ends(first + b"l.pgm o.pgm - p", 3, "", "sgm_series: entry 1 clashes\n", {})
        self.ends(first + b"l.pgm - p", 3, "", "sgm_series: line 2 does not have four words\n", {})
        self.ends(first + b"\xff", 3, "", "sgm_series: list is not text\n", {})
        self.ends(b"none none none o", 4, "", "sgm_series: cannot read the list\n", {}, ["none"])
        # The list may be an output's name.
        self.ends(b"", 3, "", "sgm_series: entry 0 clashes\n", {}, ["o.csv"], o_csv=first)

    def test_words(self):
        for words, line in [
            ([], "no list"),
            ([""], "no list"),
            (["", "workers=3"], "no list"),
            (["list", "workers=3"], "word 1 is not accepted"),
            (["list", "workers=01"], "word 1 is not accepted"),
            (["list", ""], "word 1 is not accepted"),
            (["list", "workers=1", "workers=1"], "word 2 is not accepted"),
            (["none", "x", "y"], "word 1 is not accepted"),
        ]:
            self.ends(b"x", 2, "", f"sgm_series: {line}\n", {}, words)

    def test_refused_entries(self):
        made = {"o.asc": GRID_TEXT, "o.csv": TABLE_TEXT, "o.pgm": DISPARITY_TEXT}
        lines = DIFFER + "sgm_series: 1 entries refused\n"
        self.ends(b"l.pgm r.pgm c.json o\nl.pgm s.pgm - p\n", 3, "valid 15 of 15\n", lines, made)
        lines = DIFFER + "sgm: left: not a binary PGM\nsgm_series: 2 entries refused\n"
        text = b"l.pgm s.pgm - a\ntwo.pgm two.pgm - b\nlist two.pgm - c\ntwo.pgm two.pgm - d"
        self.ends(text, 3, 2 * "valid 2 of 2\n", lines, {"b.pgm": TWO_TEXT, "d.pgm": TWO_TEXT})

    def test_batches(self):
        """The inputs of eight entries are fetched before the first of them is written."""
        good = b"".join(b"two.pgm two.pgm - o%d\n" % number for number in range(8))
        whole = {f"o{number}.pgm": TWO_TEXT for number in range(8)}
        absent = "sgm_series: entry {}: cannot read {}\n"
        self.ends(good + b"none none - x", 4, 8 * "valid 2 of 2\n", absent.format(8, "left"), whole)
        self.ends(b"two.pgm two.pgm none x\n" + good, 4, "", absent.format(0, "calibration"), {})
        lines = good.split(b"\n")
        self.ends(b"\n".join([*lines[:7], b"two.pgm none - x"]), 4, "", absent.format(7, "right"), {})
        # A refused entry before it isn't told: its turn doesn't come.
        self.ends(b"l.pgm s.pgm - a\nnone two.pgm - b", 4, "", absent.format(1, "left"), {})
        text = b"l.pgm s.pgm - a\n" + good + b"none two.pgm - b"
        self.ends(text, 4, 7 * "valid 2 of 2\n", DIFFER + absent.format(9, "left"), {f"o{it}.pgm": TWO_TEXT for it in range(7)})

    def test_outputs(self):
        text = b"two.pgm two.pgm - a\ntwo.pgm two.pgm - none/b\ntwo.pgm two.pgm - c"
        line = "sgm_series: entry 1: cannot write disparity\n"
        self.ends(text, 5, "valid 2 of 2\n", line, {"a.pgm": TWO_TEXT})
        files = {"two.pgm": TWO, "list": b"two.pgm two.pgm - a\ntwo.pgm two.pgm - b"}
        with open("/dev/full", "wb") as full:
            line = "sgm_series: entry 0: cannot write summary\n"
            self.assertEqual(run(files, ["list"], stdout=full), (5, "", line, {"a.pgm": TWO_TEXT}))
            files["list"] += b"\ntwo.pgm list - c"
            both = {"a.pgm": TWO_TEXT, "b.pgm": TWO_TEXT}
            self.assertEqual(run(files, ["list"], stderr=full), (3, 2 * "valid 2 of 2\n", "", both))


if __name__ == "__main__":
    unittest.main()
