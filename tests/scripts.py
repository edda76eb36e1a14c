#!/usr/bin/env python3
"""Asks every script of the repository for its manners.

    tests/scripts.py

Each has its run bit and a first line that says what runs it, and what is only read by others has neither.
--help answers with an example, on standard output and with the status 0; a word that it doesn't know ends
it with 2; and a file that is missing, a folder or no file of its kind with 1 and one line. No traceback is
ever shown, and nothing is written beside the words' files. Needs what the tools need: numpy, Pillow and OpenCV.
"""

import os
import pty
import subprocess
import sys
import tempfile
import unittest

TOP = os.path.realpath(os.path.join(os.path.dirname(os.path.abspath(__file__)), ".."))
sys.path.insert(0, os.path.join(TOP, "tools"))

from sgm_tools import running

FOLDERS = ["tests", "tools", "tools/sgm_tools", "bench", "packaging", "examples/pair", "examples/photographs", "examples/stockpile"]
FOLDERS += ["examples/quarry", "examples/slope"]
# They take the words of the programs and no others; the programs have no --help either.
REFERENCES = ["tests/reference.py", "tests/quick_reference.py", "tests/reference_series.py"]
# What reads a file, with the words around the file's name, and what writes into a folder.
READERS = {
    "tools/cubic_metres.py": "FILE",
    "tools/stretch.py": "FILE --out made.png",
    "tools/heights_picture.py": "FILE --out made.png",
    "tools/site_pose.py": "FILE FILE FILE",
    "tools/export_grid.py": "FILE --out made.tif",
    "tools/export_points.py": "FILE --calib FILE --out made.ply",
    "tools/opencv_calibration.py": "FILE --unit m --near 1 --far 2 --mount 3 --out made.json",
    "tools/photo_to_pgm.py": "FILE --out made.pgm",
    "tools/survey_page.py": "FILE --calib FILE --out made.html",
    "packaging/tool_page.py": "FILE --names FILE",
    "tools/change_volumes.py": "FILE --calib FILE",
    "tools/cell_pixels.py": "FILE 0 0 --calib FILE",
    "tools/merge_check.py": "FILE FILE",
    "tools/check_trace.py": "FILE FILE FILE right 0 0 0 FILE",
    "tools/explain_pixel.py": "FILE FILE FILE 0 0",
    "tools/calibrate_pair.py": "--left FILE --right FILE --board 9x6 --square 1 --out made.json",
    "tools/middlebury_calibration.py": "FILE --out made.json",
    "bench/accuracy.py": "FILE FILE FILE FILE",
    "examples/stockpile/compare_truth.py": "FILE",
    "examples/stockpile/compare_change.py": "FILE",
    "examples/slope/compare_slope.py": "FILE",
    "examples/photographs/compare_photographs.py": "FILE",
}
WRITERS = ["tests/make_cases.py", "tests/make_survey.py", "tests/calibration_cases.py", "tests/definitions.py"]
WRITERS += ["examples/photographs/make_photographs.py", "examples/stockpile/make_later.py"]
WRITERS += ["examples/quarry/make_quarry.py", "examples/quarry/survey_quarry.py"]


# Tools with words that make something of the files of this repository, the output's name being OUT.
HEAP = os.path.join(TOP, "examples", "stockpile")
MAKERS = {
    "tools/cubic_metres.py": f"{HEAP}/expected/out.csv --out OUT",
    "tools/stretch.py": f"{HEAP}/expected/out.pgm --out OUT",
    "tools/heights_picture.py": f"{HEAP}/expected/out.asc --out OUT",
    "tools/photo_to_pgm.py": f"{HEAP}/left.png --out OUT",
    "tools/export_points.py": f"{HEAP}/expected/out.pgm --calib {HEAP}/calibration.json --out OUT",
    "tools/site_pose.py": f"{HEAP}/calibration_3.json --camera 0 0 8 --look 1 2 0 --write OUT",
    "tools/survey_page.py": f"{HEAP}/expected/out --calib {HEAP}/calibration.json --out OUT",
    "tools/opencv_calibration.py": "cameras.json --unit m --near 2000000 --far 4000000 --mount 4000000 --out OUT",
    "tools/middlebury_calibration.py": "calib.txt --out OUT",
}
# What some of them read, by its name.
CALIB = "cam0=[128 0 50; 0 128 30; 0 0 1]\ndoffs=0\nbaseline=500\nndisp=40\n"
CAMERAS = """{"imageSize": [100, 60], "M1": [128, 0, 50, 0, 128, 30, 0, 0, 1], "D1": [0, 0, 0, 0],
 "M2": [128, 0, 50, 0, 128, 30, 0, 0, 1], "D2": [0, 0, 0, 0], "R": [1, 0, 0, 0, 1, 0, 0, 0, 1], "T": [-0.5, 0, 0]}"""


def files():
    """The scripts and modules of the repository, by their paths from its top."""
    for folder in FOLDERS:
        for name in sorted(os.listdir(os.path.join(TOP, folder))):
            if name.endswith((".py", ".sh")):
                yield f"{folder}/{name}"


def first_line(path):
    with open(os.path.join(TOP, path), "rb") as file:
        return file.readline()


def scripts():
    return [path for path in files() if first_line(path).startswith(b"#!")]


def run(path, *words, folder=None):
    """The status and both streams of a script, which has to end within a minute."""
    command = [os.path.join(TOP, path), *words]
    done = subprocess.run(command, cwd=folder or TOP, stdin=subprocess.DEVNULL, capture_output=True, text=True, timeout=60)
    return done.returncode, done.stdout, done.stderr


def write_inputs(folder):
    for name, text in (("cameras.json", CAMERAS), ("calib.txt", CALIB)):
        with open(os.path.join(folder, name), "w") as file:
            file.write(text)


def setUpModule():
    running.need_for_tests(numpy=running.numpy, PIL=running.Image, cv2=running.package("cv2"))


class Manners(unittest.TestCase):
    def test_run_bits(self):
        for path in files():
            can_run = os.access(os.path.join(TOP, path), os.X_OK)
            self.assertEqual(can_run, path in scripts(), path)
        for launcher in ("sgm", "sgm_series"):
            self.assertEqual(first_line(launcher), b"#!/bin/sh\n", launcher)
            self.assertTrue(os.access(os.path.join(TOP, launcher), os.X_OK), launcher)
        for path in (".ci/run", *scripts()):
            self.assertTrue(os.access(os.path.join(TOP, path), os.X_OK), path)
            program = b"python3" if path.endswith(".py") else b"bash"
            self.assertEqual(first_line(path), b"#!/usr/bin/env " + program + b"\n", path)

    def test_help(self):
        for path in scripts():
            if path in REFERENCES:
                continue
            for word in ("--help", "-h"):
                status, out, err = run(path, word)
                self.assertEqual((status, err), (0, ""), path)
                self.assertIn(os.path.basename(path), out, path)
                # The tests by unittest have its help.
                if not os.path.basename(path).startswith("test_") and path != "tests/scripts.py":
                    self.assertTrue("xample" in out or f"    {path}" in out, f"{path}: no example")

    def test_wrong_words(self):
        for path in scripts():
            if path in REFERENCES:
                continue
            with tempfile.TemporaryDirectory() as folder:
                for word in ("--no-such-word", "--no-such-word=1"):
                    status, out, err = run(path, word, folder=folder)
                    self.assertEqual((status, out), (2, ""), path)
                    self.assertNotIn("Traceback", err, path)
                    self.assertTrue(err, path)
                self.assertEqual(os.listdir(folder), [], path)

    def test_broken_files(self):
        for path, words in READERS.items():
            self.assertIn(path, scripts())
            with tempfile.TemporaryDirectory() as folder:
                os.mkdir(os.path.join(folder, "folder"))
                for name, data in (("empty", b""), ("bytes", bytes(range(256))), ("text", b"P5\n1 1\n"), ("cut", b'{"M1": [')):
                    with open(os.path.join(folder, name), "wb") as file:
                        file.write(data)
                before = sorted(os.listdir(folder))
                for name in ("none", "folder", "empty", "bytes", "text", "cut"):
                    self.has_one_line(path, run(path, *words.replace("FILE", name).split(), folder=folder))
                self.assertEqual(sorted(os.listdir(folder)), before, path)

    def test_outputs(self):
        """Each makes its output and writes nothing else; where that can't be, one line says so."""
        for path, words in MAKERS.items():
            with tempfile.TemporaryDirectory() as folder:
                write_inputs(folder)
                self.has_one_line(path, run(path, *words.replace("OUT", "none/made").split(), folder=folder))
                self.has_one_line(path, run(path, *words.replace("OUT", "/dev/full").split(), folder=folder))
                status, _, err = run(path, *words.replace("OUT", "made").split(), folder=folder)
                self.assertEqual((status, err), (0, ""), path)
                self.assertEqual(sorted(os.listdir(folder)), ["calib.txt", "cameras.json", "made"], path)

    def test_progress(self):
        """What goes on is shown on a terminal, and taken away again."""
        for path, words in MAKERS.items():
            with tempfile.TemporaryDirectory() as folder:
                write_inputs(folder)
                mine, theirs = pty.openpty()
                command = [os.path.join(TOP, path), *words.replace("OUT", "made").split()]
                subprocess.run(command, cwd=folder, stdout=subprocess.DEVNULL, stderr=theirs, timeout=60, check=True)
                os.close(theirs)
                shown = os.read(mine, 65536)
                os.close(mine)
                self.assertTrue(shown.startswith(b"\r\033[Kreading "), (path, shown))
                self.assertTrue(shown.endswith(b"\r\033[K"), (path, shown))

    def test_folders_that_cannot_be_made(self):
        for path in WRITERS:
            with tempfile.NamedTemporaryFile() as file:
                self.has_one_line(path, run(path, file.name + "/folder"))

    def has_one_line(self, path, ended):
        """Whether the script has ended with 1, nothing on standard output and a line that begins with its name."""
        status, out, err = ended
        self.assertEqual((status, out, err.count("\n")), (1, "", 1), f"{path}: {err}")
        self.assertTrue(err.startswith(os.path.basename(path).removesuffix(".py") + ": "), err)


if __name__ == "__main__":
    unittest.main()
