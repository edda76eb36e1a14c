#!/usr/bin/env python3
"""Tries the readers of the package on files of a few values, and how tools end."""

import os
import subprocess
import sys
import tempfile
import unittest

from sgm_tools import exact, files, grids, reports, running
from sgm_tools.running import Image, Wrong, numpy

HERE = os.path.dirname(os.path.abspath(__file__))
HEAD = b"ncols %d\nnrows %d\nxllcorner -2000000000\nyllcorner 7\ncellsize 1000\nNODATA_value -2147483648\n"


def setUpModule():
    running.need_for_tests(numpy=numpy, PIL=Image)


class Files(unittest.TestCase):
    def setUp(self):
        folder = tempfile.TemporaryDirectory()
        self.addCleanup(folder.cleanup)
        self.name = os.path.join(folder.name, "file")

    def given(self, data):
        with open(self.name, "wb") as file:
            file.write(data)
        return self.name

    def refused(self, read, data):
        """What the reader says of a file of these bytes, without the file's name."""
        with self.assertRaises(Wrong) as caught:
            read(self.given(data))
        return str(caught.exception).replace(self.name + ": ", "")


class Pgm(Files):
    def test_samples(self):
        for data, most, samples in [
            (b"P5 2 1 255\n\0\xff", 255, [[0, 255]]),
            (b"P5#a\n#b\r 002\t1\v200#no\n 3", 200, None),
            (b"P5#a\n#b\r 0000000000002\t1\v200 \1\2rest", 200, [[1, 2]]),
            (b"P5\n1 2\n65535\n\1\2\xff\xfe", 65535, [[258], [65534]]),
        ]:
            if samples is None:
                self.assertEqual(self.refused(files.read_pgm, data), "not a binary PGM")
                continue
            found, greatest = files.read_pgm(self.given(data))
            self.assertEqual((found.tolist(), greatest), (samples, most))

    def test_refused(self):
        for data, line in [
            (b"P6 1 1 255\n\0\0\0", "not a binary PGM"),
            (b"P5 1 1 255", "not a binary PGM"),
            (b"P5 4097 1 255\n", "sides are 1 to 4096 and the greatest value is 1 to 65535"),
            (b"P5 1 1 65536\n\0\0", "sides are 1 to 4096 and the greatest value is 1 to 65535"),
            (b"P5 1 1 " + 5000 * b"1" + b"\n\0\0", "not a binary PGM"),
            (b"P5 2 1 256\n\0\0\0", "3 bytes of samples, 4 needed"),
            (b"P5 1 1 5\n\6", "a sample is above 5"),
        ]:
            self.assertEqual(self.refused(files.read_pgm, data), line)

    def test_disparities(self):
        values, filled = files.read_disparities(self.given(b"P5\n3 1\n65535\n" + bytes([0, 0, 0, 16, 1, 3])))
        self.assertEqual((values[filled].tolist(), filled.tolist()), ([0, 243], [[False, True, True]]))


class Photographs(Files):
    def test_turns_of_exif(self):
        """A camera that was held upright: the file's rows run downwards, and 6 says to turn them clockwise."""
        image = Image.fromarray(numpy.array([[10, 20, 30], [40, 50, 60]], numpy.uint8))
        exif = image.getexif()
        exif[0x0112] = 6
        image.save(self.name, "PNG", exif=exif.tobytes())
        self.assertEqual(files.read_grey(self.name).tolist(), [[40, 10], [50, 20], [60, 30]])

    def test_colours_and_depths(self):
        Image.fromarray(numpy.full((1, 2, 3), 77, numpy.uint8)).save(self.name, "PNG")
        self.assertEqual(files.read_grey(self.name).tolist(), [[77, 77]])
        Image.fromarray(numpy.array([[0, 65535, 0x1234]], numpy.uint16)).save(self.name, "PNG")
        self.assertEqual(files.read_grey(self.name).tolist(), [[0, 255, 0x12]])

    def test_refused(self):
        for data in (b"", b"no picture", b"\x89PNG\r\n\x1a\n", b"\xff\xd8\xff\xe0"):
            self.assertTrue(self.refused(files.read_grey, data), data)
        with self.assertRaises(OSError):
            files.read_grey(self.name + ".none")


class Grids(Files):
    def test_rows(self):
        grid = grids.read_grid(self.given(HEAD % (2, 2) + b"1 -2147483648\n-3 2000000000\n"))
        self.assertEqual((grid.west, grid.south, grid.cell), (-2000000000, 7, 1000))
        self.assertEqual(grid.filled.tolist(), [[True, False], [True, True]])
        self.assertEqual(grid.heights[grid.filled].tolist(), [1, -3, 2000000000])

    def test_large_numbers_stay_exact(self):
        for number in (2**53 + 1, -(2**62) - 1, 2**63 - 2):
            grid = grids.read_grid(self.given(HEAD % (1, 1) + b"%d\n" % number))
            self.assertEqual(int(grid.heights[0, 0]), number)

    def test_refused(self):
        longest = [b"%d" % 2**63, b"-%d" % 2**64]
        for cells in [b"5.0", b"5-6", b"--5", b"-", b"5 -", b"1e3", b"0x5", b"+5", b"5,6", *longest]:
            line = self.refused(grids.read_grid, HEAD % (1, 1) + cells + b"\n")
            self.assertEqual(line, "not a height grid of sgm", cells)
        self.assertEqual(self.refused(grids.read_grid, HEAD % (1, 1) + b" \n"), "0 heights, 1 needed")
        self.assertEqual(self.refused(grids.read_grid, HEAD % (1, 1) + b"1 2\n"), "2 heights, 1 needed")


class Reports(Files):
    HEAD = b"region,cells,empty,fill,cut,lowest,highest\n"

    def test_lines(self):
        report = reports.read_report(self.given(self.HEAD + b"a b,9,3,%d,0,-5,7\nc,0,1,0,0,,\n" % 10**30))
        self.assertEqual(report[0], dict(zip(reports.REPORT_NAMES, ("a b", 9, 3, 10**30, 0, -5, 7))))
        self.assertEqual(report[1], dict(zip(reports.REPORT_NAMES, ("c", 0, 1, 0, 0, None, None))))

    def test_bridged(self):
        head = self.HEAD.replace(b"cells,", b"cells,bridged,")
        report = reports.read_report(self.given(head + b"a b,9,2,3,%d,0,-5,7\nc,0,0,1,0,0,,\n" % 10**30))
        self.assertEqual(report[0], dict(zip(reports.BRIDGED_NAMES, ("a b", 9, 2, 3, 10**30, 0, -5, 7))))
        self.assertEqual(report[1], dict(zip(reports.BRIDGED_NAMES, ("c", 0, 0, 1, 0, 0, None, None))))
        self.assertEqual(list(report[0]), list(reports.BRIDGED_NAMES))
        for line in (b"a,1,0,5,0,5,5\n", b"a,1,,0,5,0,5,5\n", b"a,1,x,0,5,0,5,5\n"):
            self.assertEqual(self.refused(reports.read_report, head + line), "line 2 isn't one of a report")

    def test_refused(self):
        for text in (b"region,cells\n", self.HEAD.replace(b"\n", b",more\n")):
            self.assertEqual(self.refused(reports.read_report, text), "not a report of sgm")
        self.assertIn("field larger", self.refused(reports.read_report, self.HEAD + b"a" * 200000))
        for line in (b"a,1,0,5,0,5\n", b"a,1,0,5.0,0,5,5\n", b"a,,0,5,0,5,5\n", b"a,1,0,5,0,x,5\n", b"a,1,0,5,0,5,5,5\n"):
            self.assertEqual(self.refused(reports.read_report, self.HEAD + line), "line 2 isn't one of a report")


class Changes(Files):
    HEAD = b"both,come,gone,empty,fill,cut\n"

    def test_a_difference(self):
        """What stands for no difference is beyond 32 bits, and so may the differences be."""
        text = (HEAD % (3, 1)).replace(b"-2147483648", b"-9999999999") + b"4000000000 -9999999999 -2147483648\n"
        grid = grids.read_grid(self.given(text))
        self.assertEqual((grid.nothing, grid.filled.tolist()), (grids.NO_DIFFERENCE, [[True, False, True]]))
        self.assertEqual(grid.heights[grid.filled].tolist(), [4000000000, -2147483648])

    def test_volumes(self):
        read = reports.read_volumes(self.given(self.HEAD + b"8,1,1,2,%d,0\n" % 10**30))
        self.assertEqual(read, dict(zip(reports.VOLUME_NAMES, (8, 1, 1, 2, 10**30, 0))))
        for text in (b"", self.HEAD, self.HEAD + b"1,2,3,4,5\n", self.HEAD + b"1,2,3,4,5,-6\n", b"a\n1,2,3,4,5,6\n"):
            self.assertEqual(self.refused(reports.read_volumes, text), "not the volumes of a change of sgm")


class Numbers(unittest.TestCase):
    def test_hundredths(self):
        self.assertIsNone(grids.hundredths(numpy.array([])))
        self.assertEqual(grids.hundredths(numpy.arange(99)[::-1]), (0, 98))
        self.assertEqual(grids.hundredths(numpy.arange(200)[::-1]), (2, 197))

    def test_decimal(self):
        for number, places, text in [
            (0, 18, "0"),
            (-1, 6, "-0.000001"),
            (10**18, 18, "1"),
            (2**63, 18, "9.223372036854775808"),
            (-2000000000, 6, "-2000"),
        ]:
            self.assertEqual(exact.decimal(number, places), text)


class Ends(unittest.TestCase):
    def test_closed_output(self):
        """Somebody reads the first line and goes away."""
        script = "from sgm_tools import running\ndef main():\n    print('a' * 1000000)\nrunning.run(main)\n"
        command = [sys.executable, "-c", script]
        with subprocess.Popen(command, cwd=HERE, stdout=subprocess.PIPE, stderr=subprocess.PIPE) as tool:
            tool.stdout.read(1)
            tool.stdout.close()
            said = tool.stderr.read()
        self.assertEqual((tool.returncode, said), (1, b"-c: standard output was closed\n"))

    def ends(self, body):
        """The status and standard error of a tool whose main has that body."""
        script = "from sgm_tools import running\nrunning.sys.argv[0] = 'folder/tool.py'\n"
        script += f"def main():\n    {body}\nrunning.run(main)\n"
        done = subprocess.run([sys.executable, "-c", script], cwd=HERE, capture_output=True, text=True)
        return done.returncode, done.stderr

    def test_one_line(self):
        for body, ended in [
            ("return None", (0, "")),
            ("return 3", (3, "")),
            ("raise running.Wrong('no board')", (1, "tool: no board\n")),
            ("open('none/none')", (1, "tool: none/none: No such file or directory\n")),
            ("raise MemoryError", (1, "tool: no memory\n")),
            ("raise KeyboardInterrupt", (130, "")),
            ("running.need(cv2=None)", (1, "tool: cv2 of Python needed: apt-get install python3-opencv on Debian\n")),
        ]:
            self.assertEqual(self.ends(body), ended)


if __name__ == "__main__":
    unittest.main()
