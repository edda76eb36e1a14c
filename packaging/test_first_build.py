#!/usr/bin/env python3
"""Tries what first_build.py reckons and hears: which crates, what is copied of them, and the time that is left.

What is expected is worked out by hand. How it runs and ends is tried by tests/launcher.sh.
"""

import os
import tempfile
import types
import unittest
from unittest import mock

import first_build as tool

CRATES = """# a comment: with a colon
top may_abort=2: left right itoa
right: low # as left does
left: low
low: thiserror
aside: low
"""
TABLE = "# crate seconds\nlow 10\nleft 60 # slow\nright 20\nother 6\n"
# By two at a time low ends at 10, right at 30 and left at 70; then top is built, which takes the mean of the four.
NAMES = ["low", "left", "right", "top"]


class Reckoned(unittest.TestCase):
    def setUp(self):
        folder = tempfile.TemporaryDirectory()
        self.addCleanup(folder.cleanup)
        self.top, self.times = folder.name, os.path.join(folder.name, "build_times.txt")
        self.write("crates.txt", CRATES)
        self.write("build_times.txt", TABLE)
        self.now = 1000.0
        clock = types.SimpleNamespace(monotonic=lambda: self.now)
        values = {"TOP": folder.name, "TIMES": self.times, "time": clock, "processors": lambda: 2}
        for name, value in values.items():
            patch = mock.patch.object(tool, name, value)
            patch.start()
            self.addCleanup(patch.stop)

    def write(self, path, text):
        """A file of the repository."""
        path = os.path.join(self.top, path)
        os.makedirs(os.path.dirname(path), exist_ok=True)
        with open(path, "w", encoding="utf-8") as file:
            file.write(text)

    def ends(self, times, name, moment, is_kept=False):
        """The crate ends so many seconds after the start."""
        self.now = 1000.0 + moment
        times.end_of(name, is_kept)

    def test_crates(self):
        below = {"low": [], "left": ["low"], "right": ["low"], "top": ["low", "left", "right"]}
        found = tool.crates_of("top")
        self.assertEqual(found, below)
        self.assertEqual(list(found), NAMES)
        self.assertEqual(list(tool.crates_of("aside")), ["low", "aside"])
        self.assertEqual(tool.crates_of("unnamed"), {"unnamed": []})

    def test_copied(self):
        """What proofs read of the crates, and nothing else."""
        wanted = {"crates/low/src/lib.rt", "crates/low/specs/deep/Lib.antt", "crates/left/proofs/Lib.antt"}
        for path in (*wanted, "crates/low/must-fail/a.edit", "crates/low/out/a", "crates/right/src/lib.rt", "HANDLES"):
            self.write(path, path)
        with tempfile.TemporaryDirectory() as room:
            tool.copy_crates(["low", "left"], room)
            found = {}
            for at, _, names in os.walk(room):
                for name in names:
                    with open(os.path.join(at, name), encoding="utf-8") as file:
                        found[os.path.relpath(os.path.join(at, name), room)] = file.read()
        lists = {"crates.txt": "low: thiserror\nleft: low\n", "HANDLES": "HANDLES"}
        self.assertEqual(found, {it: it for it in wanted} | lists)

    def test_seconds(self):
        self.assertEqual(tool.seconds_of(NAMES), {"low": 10, "left": 60, "right": 20, "top": 24, "program": 24})
        os.remove(self.times)
        self.assertEqual(tool.seconds_of(["low"]), {"low": 0, "program": 0})

    def test_schedule(self):
        """B stands before a, as 4 + 20 seconds hang on it, and d before c."""
        crates = {"a": [], "b": [], "c": ["a"], "d": ["b"], "e": ["a", "b", "c", "d"]}
        seconds = {"a": 10, "b": 4, "c": 5, "d": 20, "e": 3}
        for number, ends in ((1, [4, 24, 34, 39, 42]), (2, [4, 10, 15, 24, 27]), (3, [4, 10, 15, 24, 27])):
            self.assertEqual(tool.schedule(crates, seconds, number), ends)

    def test_left(self):
        times = tool.Times("top")
        self.assertEqual(times.left(), 70 + 24)
        self.now += 5
        self.assertEqual(times.left(), 94 - 5)
        self.ends(times, "low", 20)
        # A tenth of the whole is done, at half the pace of the table.
        self.assertEqual(times.left(), 2 * (94 - 10))
        self.now += 40
        self.assertEqual(times.left(), 2 * (94 - 10) - 40)
        self.ends(times, "right", 90)
        self.assertEqual(times.left(), 3 * (94 - 30))
        self.now += 500
        self.assertEqual(times.left(), 0)
        self.ends(times, "left", 700)
        self.assertEqual(times.left(), 10 * 24)
        times.ended["top"] = 700
        self.assertEqual(times.left(), 10 * 24)

    def test_no_pace(self):
        """Less than a tenth of the whole tells nothing of the machine."""
        times = tool.Times("top")
        times.seconds["low"] = 9
        self.ends(times, "low", 90)
        self.assertEqual(times.left(), 60 + 24)

    def test_kept(self):
        """What was kept counts as none, and tells nothing of the machine."""
        times = tool.Times("top")
        self.ends(times, "low", 2, is_kept=True)
        self.assertEqual(times.left(), 60 + 24)
        self.ends(times, "left", 3, is_kept=True)
        self.assertEqual(times.left(), 20 + 24)
        self.ends(times, "right", 60)
        self.assertEqual(times.left(), 3 * 24)

    def heard(self, *lines):
        """What hears these lines, and what was told of each crate that ended."""
        told = []
        teller = types.SimpleNamespace(times=tool.Times("top"), tell=told.append, say=told.append)
        listener = tool.Listener(teller)
        for line in lines:
            listener.hear(line)
        return listener, told

    def test_heard(self):
        """Each crate ends once, by its proof or as it was kept; its tests are no end."""
        lines = (b"rt: low is kept: an earlier run", b"rt: left: another run on this machine is proving the same; wait")
        lines += (b"== left: its tests", b"rt: left: its tests are proved", b"== left", b"fn a: proved", b"b")
        lines += (b"rt: left proved", b"rt: aside proved", b"== right", b"rt: 3 proved")
        listener, told = self.heard(*lines)
        self.assertEqual(told, ["low", lines[1].decode(), "left"])
        self.assertEqual(listener.times.seconds, {"low": 0, "left": 60, "right": 20, "top": 24, "program": 24})
        self.assertEqual((list(listener.said["left"]), listener.failed), ([b"b"], []))

    def test_not_proved(self):
        """Those whose own proof failed, and not those above them or whose tests did."""
        lines = (b"== low", b"why", b"rt: low NOT PROVED", b"rt: left NOT PROVED: its library low failed")
        lines += (b"== right: its tests", b"rt: right: its tests are NOT PROVED")
        listener, told = self.heard(*lines)
        self.assertEqual((listener.failed, told), (["low"], []))
        self.assertEqual(listener.last("low"), "why\n")

    def test_commands(self):
        """Libraries stand where they were proved, or with the toolchain; the processor is named where it is asked for."""
        crates = tool.crates_of("top")
        with mock.patch.object(tool, "toolchain", lambda: "/kit"):
            build, link = tool.commands_of_build("top", crates, "/room", "x86-64-v3")
            plain, _ = tool.commands_of_build("top", crates, "/room", None)
        self.assertEqual((build[:2], link[0]), (["/kit/bin/rattle", "build"], "/kit/bin/rattle-link"))
        externs = [word for before, word in zip(build, build[1:]) if before == "--extern"]
        rlib = "/room/crates/{0}/out/rlib/{0}.rlib".format
        wanted = ["std=/kit/rlibs/std.rlib", f"left={rlib('left')}", f"right={rlib('right')}"]
        self.assertEqual(externs, [*wanted, "itoa=/kit/rlibs/itoa.rlib"])
        places = [word for before, word in zip(build, build[1:]) if before == "-L"]
        folders = ["/kit/rlibs", *[f"/room/crates/{it}/out/rlib" for it in NAMES[:-1]]]
        self.assertEqual(places, [f"dependency={it}" for it in folders])
        self.assertEqual([it for it in build if it not in plain], ["--cpu=x86-64-v3"])
        self.assertEqual(build[build.index("-o") + 1], link[link.index("-o") + 2])

    def test_words(self):
        for seconds, text in ((0, "0:00"), (59.9, "0:59"), (61, "1:01"), (3599, "59:59"), (3661, "1:01:01")):
            self.assertEqual(tool.clock(seconds), text)
        wanted = ((0, "some seconds"), (14.9, "some seconds"), (15.1, "about 20 seconds"), (84, "about 80 seconds"))
        wanted += ((90, "about 2 minutes"), (149, "about 2 minutes"), (151, "about 3 minutes"), (3700, "about 62 minutes"))
        for seconds, text in wanted:
            self.assertEqual(tool.roughly(seconds), text)


if __name__ == "__main__":
    unittest.main()
