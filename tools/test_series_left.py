#!/usr/bin/env python3
"""Tries series_left.py: with the worked example's outputs, cut at each of their lengths, changed and taken away; with
lists of every kind before the separate reading of them (tests/reference_lists.py); and with a series that was interrupted
and went on, by the separate implementation (tests/reference_series.py). And series_array.sh and series_merge.sh."""

import os
import shutil
import subprocess
import sys
import tempfile
import unittest

HERE = os.path.dirname(os.path.abspath(__file__))
TESTS = os.path.join(os.path.dirname(HERE), "tests")
sys.path.insert(0, TESTS)

import random_lists
import reference_lists
from reference_inputs import Ended
from test_reference import DISPARITY_TEXT, GRID_TEXT, TABLE_TEXT, WORKED
from sgm_tools import series as tool

SERIES, SINGLE = (os.path.join(TESTS, name) for name in ("reference_series.py", "reference.py"))
# The worked pair's outputs by its calibration, and by the plain settings.
WHOLE = {"o.pgm": DISPARITY_TEXT, "o.asc": GRID_TEXT, "o.csv": TABLE_TEXT, "p.pgm": b"P5\n5 3\n65535\n" + 15 * b"\0\x10"}
LIST = b"l.pgm r.pgm c.json o\nl.pgm r.pgm - p\n"


class Tool(unittest.TestCase):
    def setUp(self):
        folder = tempfile.TemporaryDirectory()
        self.addCleanup(folder.cleanup)
        self.addCleanup(os.chdir, os.getcwd())
        os.chdir(folder.name)
        self.write({**WORKED, **WHOLE, "list": LIST})
        tool.wanted_by.cache_clear()

    def write(self, files):
        for name, data in files.items():
            with open(name, "wb") as file:
                file.write(data)

    def run_tool(self, *words):
        done = subprocess.run([sys.executable, os.path.join(HERE, "series_left.py"), *words], capture_output=True)
        return done.returncode, done.stdout, done.stderr.decode()

    def left(self, *words):
        """What is printed, where nothing else is said."""
        status, out, err = self.run_tool("list", *words)
        self.assertEqual((status, err), (0, ""))
        return out

    def fault(self, *words):
        return tool.fault(tool.Entry(*(word.encode() for word in words)))


class Outputs(Tool):
    def test_whole(self):
        self.assertEqual(self.left(), b"")
        self.assertEqual(self.run_tool("list", "--why"), (0, b"", "series_left: 0 of 2 entries are left\n"))

    def test_cut_at_each_length(self):
        """What an interrupted run leaves is the beginning of a text."""
        for name, whole in WHOLE.items():
            entry = ("l.pgm", "r.pgm", "c.json" if name[0] == "o" else "-", name[0])
            for length in range(len(whole)):
                self.write({name: whole[:length]})
                self.assertTrue(self.fault(*entry), (name, length))
            self.write({name: whole + b"0"})
            self.assertTrue(self.fault(*entry), name)
            os.remove(name)
            self.assertEqual(self.fault(*entry), f"{name}: No such file or directory")
            os.mkdir(name)
            self.assertEqual(self.fault(*entry), f"{name}: not a file")
            os.rmdir(name)
            os.mkfifo(name)
            self.assertEqual(self.fault(*entry), f"{name}: not a file")
            os.remove(name)
            self.write({name: whole})
            self.assertIsNone(self.fault(*entry), name)

    def test_others(self):
        """Outputs that are whole, but of another picture or another calibration."""
        for name, data, why in (
            ("o.pgm", b"P5\n3 5\n65535\n" + bytes(30), "not a disparity picture of 5 x 3"),
            ("o.pgm", b"P5\n5 3\n65534\n" + bytes(30), "not a disparity picture of 5 x 3"),
            ("o.pgm", b"P5\n5 3\n255\n" + bytes(15), "not a disparity picture of 5 x 3"),
            ("o.pgm", b"P5\n5 33\n65535\n" + bytes(29), "not a disparity picture of 5 x 3"),
            ("o.asc", GRID_TEXT.replace(b"2000", b"2001"), "not a grid of heights by this calibration"),
            ("o.asc", GRID_TEXT.replace(b"-2147483648\n5", b"-9999999999\n5", 1), "not a grid of heights by this calibration"),
            ("o.asc", GRID_TEXT.replace(b"50000 50000 50000", b"50000 50000"), "row 0 is cut short or isn't one"),
            ("o.asc", GRID_TEXT.replace(b"50000 -", b"50000 1 -"), "row 0 is cut short or isn't one"),
            ("o.asc", GRID_TEXT.replace(b"50000 -", b"5e4 -"), "row 0 is cut short or isn't one"),
            ("o.asc", GRID_TEXT + b"1 2 3 4\n", "4 of 3 rows"),
            ("o.asc", GRID_TEXT[: GRID_TEXT.rindex(b"50000 50000 50000")], "2 of 3 rows"),
            ("o.csv", TABLE_TEXT.replace(b"all", b"wall"), "not the regions of this calibration"),
            ("o.csv", TABLE_TEXT.replace(b"all,9", b"all,x"), "line 2 isn't one of a report"),
            ("o.csv", TABLE_TEXT + b"west,0,1,0,0,,\n", "not the regions of this calibration"),
            ("o.csv", TABLE_TEXT[: TABLE_TEXT.index(b"east")], "cut short"),
            ("o.csv", TABLE_TEXT.replace(b"region", b"regions"), "not a report of sgm"),
        ):
            self.assertNotEqual(data, WHOLE[name], name)
            self.write({name: data})
            self.assertEqual(self.left(), b"l.pgm r.pgm c.json o\n", data)
            self.assertEqual(self.fault("l.pgm", "r.pgm", "c.json", "o"), f"{name}: {why}")
            self.write(WHOLE)
        self.assertEqual(self.left(), b"")

    def test_what_is_asked_for(self):
        """A grid alone asks for no OUT.csv, no regions for its head alone, and plain settings for neither."""
        for name in ("o.asc", "o.csv"):
            os.remove(name)
        self.assertIsNone(self.fault("l.pgm", "r.pgm", "-", "o"))
        self.write({"o.asc": GRID_TEXT, "g.json": WORKED["c.json"][: WORKED["c.json"].index(b',"regions"')] + b"}"})
        self.assertIsNone(self.fault("l.pgm", "r.pgm", "g.json", "o"))
        self.assertEqual(self.fault("l.pgm", "r.pgm", "c.json", "o"), "o.csv: No such file or directory")
        begin = WORKED["c.json"].index(b'"regions":[') + len(b'"regions":[')
        self.write({"e.json": WORKED["c.json"][:begin] + b"]}", "o.csv": TABLE_TEXT[: TABLE_TEXT.index(b"all")]})
        self.assertIsNone(self.fault("l.pgm", "r.pgm", "e.json", "o"))
        self.write({"o.csv": TABLE_TEXT})
        self.assertEqual(self.fault("l.pgm", "r.pgm", "e.json", "o"), "o.csv: not the regions of this calibration")

    def test_inputs(self):
        """Without its inputs nothing says whether an entry is done."""
        for name, data, why in (
            ("l.pgm", None, "No such file or directory"),
            ("l.pgm", b"P2\n5 3\n255\n" + bytes(15), "not a binary PGM"),
            ("l.pgm", b"P5\n5 " + b"3" * 10 + b"\n255\n" + bytes(15), "not a binary PGM"),
            ("c.json", None, "No such file or directory"),
            ("c.json", b"[]", "not a JSON object"),
            ("c.json", WORKED["c.json"].replace(b'"rows":3}', b'"rows":"3"}'), "the calibration has no whole number at grid.rows"),
            ("c.json", WORKED["c.json"].replace(b'"grid"', b'"grids"'), "the calibration has no whole number at grid.cols"),
        ):
            os.remove(name)
            if data is not None:
                self.write({name: data})
            tool.wanted_by.cache_clear()
            self.assertEqual(self.fault("l.pgm", "r.pgm", "c.json", "o"), f"{name}: {why}")
            self.write({name: WORKED[name]})
        # A picture's head may be as long as the picture may be.
        self.write({"l.pgm": b"P5\n#" + 200000 * b"." + b"\n5 3 255\n" + bytes(15)})
        self.assertIsNone(self.fault("l.pgm", "r.pgm", "-", "p"))


class Lists(Tool):
    def test_as_the_reference_reads_them(self):
        """The same entries, or the same words on the first fault."""
        faults = set()
        for number in range(600):
            data, name = random_lists.list_of(7, number)
            self.write({name: data})
            try:
                wanted = [tuple(word.encode() for word in entry) for entry in reference_lists.read_list(data, name)]
            except Ended as end:
                wanted = end.line.removeprefix("sgm_series: ")
                faults.add(wanted.strip("0123456789 ").split()[-1])
            try:
                found = [tuple(entry) for entry in tool.read_list(name)]
            except tool.Wrong as error:
                found = str(error)
            self.assertEqual(found, wanted, number)
        self.assertEqual(faults, {"long", "text", "words", "entries", "clashes"})

    def test_refused(self):
        for data, line in (
            (b"l.pgm r.pgm - p\nl.pgm o\n", "line 2 does not have four words"),
            (b"l.pgm r.pgm - p\nl.pgm p.pgm - o", "entry 1 clashes"),
            (b"\xff", "list is not text"),
            (b"\n" * 1048577, "list is too long"),
            (b"".join(b"l r - %d\n" % number for number in range(1001)), "too many entries"),
        ):
            self.write({"list": data})
            for words in ([], ["--why"], ["--part", "1/2"]):
                self.assertEqual(self.run_tool("list", *words), (1, b"", f"series_left: {line}\n"))
        os.remove("list")
        self.assertEqual(self.run_tool("list"), (1, b"", "series_left: list: No such file or directory\n"))
        self.assertEqual(self.run_tool("."), (1, b"", "series_left: .: Is a directory\n"))

    def test_a_list_again(self):
        """Blank lines, odd white bytes and odd letters: the words stay, one space stands between them."""
        words = "l.pgm r\u00a0.pgm - \v\u65e5\"'\\{}"
        self.write({"list": f"\n \t\r\n\t{words.replace(' ', '  ')} \r\nl.pgm\tr.pgm \t- p\n\nl.pgm r.pgm c.json \0".encode()})
        wanted = f"{words}\nl.pgm r.pgm c.json \0\n".encode()
        self.assertEqual(self.left(), wanted)
        self.write({"list": wanted})
        self.assertEqual(self.left(), wanted)
        for locale in ("C", "C.UTF-8"):
            done = subprocess.run(
                [sys.executable, os.path.join(HERE, "series_left.py"), "list", "--why"],
                capture_output=True, env={**os.environ, "LC_ALL": locale, "PYTHONUTF8": "0", "PYTHONCOERCECLOCALE": "0"},
            )
            self.assertEqual((done.returncode, done.stdout, done.stderr.count(b"\n")), (0, wanted, 3))
        self.write({"\v\u65e5\"'\\{}.pgm": WHOLE["p.pgm"], "r\u00a0.pgm": b""})
        self.assertEqual(self.left(), b"l.pgm r.pgm c.json \0\n")

    def test_parts(self):
        entries = [b"l.pgm r.pgm - n%d\n" % number for number in range(7)]
        self.write({"list": b"".join(entries), "n3.pgm": WHOLE["p.pgm"]})
        left = entries[:3] + entries[4:]
        self.assertEqual(self.left("--part", "1/1"), b"".join(left))
        self.assertEqual(self.left("--part", "1/3"), entries[0] + entries[6])
        self.assertEqual(self.left("--part", "2/3"), entries[1] + entries[4])
        self.assertEqual(self.left("--part", "3/3"), entries[2] + entries[5])
        self.assertEqual(self.left("--part", "9/9"), b"")
        for word in ("0/3", "4/3", "1", "1/0", "-1/3", "1/3/5", "a/b", ""):
            status, out, err = self.run_tool("list", f"--part={word}")
            self.assertEqual((status, out), (2, b""))
            self.assertIn(f"argument --part: not K/N with K from 1 to N: {word}\n", err)


class Series(Tool):
    def series(self, name):
        done = subprocess.run([sys.executable, SERIES, name], capture_output=True)
        return done.returncode, done.stdout, done.stderr.decode()

    def files(self):
        made = {}
        for name in os.listdir("."):
            with open(name, "rb") as file:
                made[name] = file.read()
        return made

    def test_goes_on(self):
        """A series that is cut off anywhere and goes on by what is left has the files of one that wasn't."""
        for name in WHOLE:
            os.remove(name)
        entries = [b"l.pgm r.pgm c.json a\n", b"l.pgm s.pgm - b\n", b"l.pgm r.pgm - c\n", b"l.pgm r.pgm c.json d\n"]
        self.write({"list": b"".join(entries), "s.pgm": b"P5\n4 3\n255\n" + bytes(12)})
        refusal = "sgm: sizes differ: 5x3 and 4x3\nsgm_series: 1 entries refused\n"
        self.assertEqual(self.left(), b"".join(entries))
        self.assertEqual(self.series("list"), (3, 3 * b"valid 15 of 15\n", refusal))
        whole = self.files()
        made = ["a.pgm", "a.asc", "a.csv", "c.pgm", "d.pgm", "d.asc", "d.csv"]
        self.assertEqual(self.left(), entries[1])
        for at, name in enumerate(made):
            # The outputs before it are whole, it is cut, and those after it never came.
            for later in made[at:]:
                os.remove(later)
            self.write({name: whole[name][:-1]})
            left = [entry for entry in entries if entry.split()[3].decode() in "b" + "".join(it[0] for it in made[at:])]
            self.assertEqual(self.left(), b"".join(left))
            shutil.copyfile("list", "before")
            self.write({"left": self.left()})
            status, out, err = self.series("left")
            self.assertEqual((status, out, err), (3, (len(left) - 1) * b"valid 15 of 15\n", refusal))
            self.assertEqual({it: data for it, data in self.files().items() if it not in ("left", "before")}, whole)
        # Once the entry that was refused is mended, nothing is left.
        self.write({"s.pgm": WORKED["r.pgm"], "left": self.left()})
        self.assertEqual(self.series("left"), (0, b"valid 15 of 15\n", ""))
        self.assertEqual(self.left(), b"")

    def test_why(self):
        os.remove("o.pgm")
        self.write({"p.pgm": WHOLE["p.pgm"][:-1]})
        lines = ["o.pgm: No such file or directory", "p.pgm: 42 of 43 bytes", "2 of 2 entries are left"]
        self.assertEqual(self.run_tool("list", "--why"), (0, LIST, "".join(f"series_left: {it}\n" for it in lines)))
        with open("/dev/full", "wb") as full:
            done = subprocess.run([sys.executable, os.path.join(HERE, "series_left.py"), "list"], stdout=full, stderr=subprocess.PIPE)
        self.assertEqual((done.returncode, done.stderr), (1, b"series_left: No space left on device\n"))


class Grids(Tool):
    def test_grids(self):
        """The grids of what is done; the plain settings have none."""
        self.assertEqual(self.left("--grids"), b"o.asc\n")
        os.remove("p.pgm")
        line = "series_left: 1 of 2 entries are left\n"
        self.assertEqual(self.run_tool("list", "--grids"), (3, b"o.asc\n", line))
        self.assertEqual(self.run_tool("list", "--grids", "--part", "1/2"), (0, b"o.asc\n", ""))
        os.remove("o.csv")
        said = "o.csv: No such file or directory", "p.pgm: No such file or directory", "2 of 2 entries are left"
        lines = "".join(f"series_left: {it}\n" for it in said)
        self.assertEqual(self.run_tool("list", "--grids", "--why"), (3, b"", lines))

    def test_calibration_that_is_gone(self):
        os.remove("c.json")
        self.assertEqual(self.run_tool("list", "--grids"), (3, b"", "series_left: 1 of 2 entries are left\n"))

    def merge(self, *words, **variables):
        command = [os.path.join(HERE, "series_merge.sh"), *words]
        done = subprocess.run(command, capture_output=True, env={"PATH": os.environ["PATH"], **variables})
        return done.returncode, done.stdout, done.stderr.decode()

    def test_merge(self):
        """series_merge.sh, without Slurm: what it does with its words and the programs."""
        for words, line in (
            ([], "it takes LIST, CALIB and OUT"),
            (["list", "c.json"], "it takes LIST, CALIB and OUT"),
            (["list", "c.json", "m", "n"], "it takes LIST, CALIB and OUT"),
            (["--merge"], "unknown option --merge"),
        ):
            self.assertEqual(self.merge(*words), (2, b"", f"series_merge: {line}; --help says more\n"))
        os.mkdir("tmp")
        given = {"SGM": SINGLE, "SERIES_LEFT": os.path.join(HERE, "series_left.py"), "TMPDIR": os.path.abspath("tmp")}
        self.assertEqual(self.merge("list", "c.json", "m", **given), (0, b"merged 9 of 12\n", ""))
        with open("m.asc", "rb") as file:
            self.assertEqual(file.read(), GRID_TEXT)
        self.assertEqual(self.merge("list", "none", "m", **given), (4, b"", "sgm: cannot read calibration\n"))
        os.remove("m.asc")
        os.remove("p.pgm")
        left = "series_left: 1 of 2 entries are left\n"
        self.assertEqual(self.merge("list", "c.json", "m", **given), (3, b"", left))
        self.write({"list": LIST + LIST})
        self.assertEqual(self.merge("list", "c.json", "m", **given), (1, b"", "series_left: entry 2 clashes\n"))
        self.assertEqual((os.path.exists("m.asc"), os.listdir("tmp")), (False, []))


class Array(Tool):
    """series_array.sh, without Slurm: what it does with its words, its number and the programs. tests/many_slurm.sh has
    the rest."""

    def array(self, *words, **variables):
        done = subprocess.run(
            [os.path.join(HERE, "series_array.sh"), *words], capture_output=True, env={"PATH": os.environ["PATH"], **variables}
        )
        return done.returncode, done.stdout, done.stderr.decode()

    def test_words(self):
        for words, line in (
            ([], "it takes LIST and PARTS"),
            (["list"], "it takes LIST and PARTS"),
            (["list", "2", "3"], "it takes LIST and PARTS"),
            (["--parts"], "unknown option --parts"),
        ):
            self.assertEqual(self.array(*words, SLURM_ARRAY_TASK_ID="1"), (2, b"", f"series_array: {line}; --help says more\n"))
        status, out, err = self.array("list", "2")
        self.assertEqual((status, out, err.count("\n")), (2, b"", 1))
        self.assertIn("series_array: no task of a Slurm array: sbatch --array=1-2 ", err)

    def test_programs(self):
        """Those of the folder at hand, or of the PATH, or of the variables; and no list stays behind."""
        for name in WHOLE:
            os.remove(name)
        self.write({"list": b"l.pgm r.pgm - p\nl.pgm c.json - q\nl.pgm r.pgm c.json o"})
        for folder in ("bin", "tools", "tmp"):
            os.mkdir(folder)
        refused = "sgm: right: not a binary PGM\nsgm_series: 1 entries refused\n"
        tool_path = os.path.join(HERE, "series_left.py")
        temporary = {"TMPDIR": os.path.abspath("tmp")}
        given = {"SGM_SERIES": SERIES, "SERIES_LEFT": tool_path, "SLURM_ARRAY_TASK_ID": "2", **temporary}
        self.assertEqual(self.array("list", "3", **given), (3, b"", refused))
        os.symlink(SERIES, "bin/sgm_series")
        os.symlink(tool_path, "bin/sgm-series-left")
        path = {"PATH": os.path.abspath("bin") + ":" + os.environ["PATH"], **temporary}
        self.assertEqual(self.array("list", "3", SLURM_ARRAY_TASK_ID="3", **path), (0, b"valid 15 of 15\n", ""))
        os.rename("bin/sgm_series", "sgm_series")
        os.rename("bin/sgm-series-left", "tools/series_left.py")
        self.assertEqual(self.array("list", "2", SLURM_ARRAY_TASK_ID="1", **temporary), (0, b"valid 15 of 15\n", ""))
        self.assertEqual(self.array("list", "2", SLURM_ARRAY_TASK_ID="1", **temporary), (0, b"", ""))
        self.assertEqual([self.left(), os.listdir("tmp")], [b"l.pgm c.json - q\n", []])

    def test_refused(self):
        given = {"SGM_SERIES": SERIES, "SERIES_LEFT": os.path.join(HERE, "series_left.py")}
        self.write({"list": LIST + LIST})
        self.assertEqual(self.array("list", "2", SLURM_ARRAY_TASK_ID="1", **given), (1, b"", "series_left: entry 2 clashes\n"))
        status, out, err = self.array("list", "2", SLURM_ARRAY_TASK_ID="3", **given)
        self.assertEqual((status, out), (2, b""))
        self.assertIn("not K/N with K from 1 to N: 3/2\n", err)


if __name__ == "__main__":
    unittest.main()
