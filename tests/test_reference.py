#!/usr/bin/env python3
"""Checks the reference against values worked out by hand, and its path values against their meaning.

The worked pair is one of 5 x 3 pixels with two disparities, whose costs, sums, selections and three
output texts were computed on paper. Path values are compared with the least energy over all
sequences of disparities along the ray, found by trying every sequence, and so are the sequences that
certificates show.
"""

import fractions
import itertools
import json
import os
import subprocess
import sys
import tempfile
import unittest

import calibration_cases
import reference
import reference_inputs as inputs
import reference_matching as matching


def members(*names):
    """These members of the worked example's calibration, as JSON without its braces."""
    part = {name: calibration_cases.WHOLE[name] for name in names}
    return json.dumps(part, separators=(",", ":"))[1:-1]


PLAIN = "{" + members("version", "disparities", "census", "penalties")
SECOND = PLAIN.replace('"version":1', '"version":2')
THIRD = PLAIN.replace('"version":1', '"version":3').replace('"count":2', '"count":2,"fine":false')
CAMERA, GRID, REGIONS = ("," + members(name) for name in ("camera", "grid", "regions"))
THIRD_GRID = GRID.replace('"rows":3', '"rows":3,"keep":"mean","bridge":2')
WORKED = {
    "l.pgm": b"P5\n5 3\n255\n" + 3 * bytes([90, 10, 50, 20, 40]),
    "r.pgm": b"P5\n5 3\n255\n" + 3 * bytes([10, 50, 20, 40, 30]),
    "c.json": (PLAIN + CAMERA + GRID + REGIONS + "}").encode(),
}
DISPARITY_TEXT = b"P5\n5 3\n65535\n" + 3 * bytes([0, 16, 0, 16, 0, 32, 0, 32, 0, 32])
GRID_TEXT = (
    b"ncols 4\nnrows 3\nxllcorner 2000\nyllcorner -2000\ncellsize 1000\nNODATA_value -2147483648\n"
    + 3 * b"50000 50000 50000 -2147483648\n"
)
TABLE_TEXT = b"region,cells,empty,fill,cut,lowest,highest\nall,9,3,90000000000,0,50000,50000\neast,0,1,0,0,,\n"


def with_adapt(value):
    """The worked example's settings in version 2, with that text as the key's value."""
    return SECOND.replace('"p2":3', '"p2":3,"adapt":' + value)


def with_fine(value, text=None):
    """The worked example's settings in version 3, or a text of them, with that text as the value of `fine`."""
    text = THIRD.replace('"p2":3', '"p2":3,"adapt":false') if text is None else text
    return text.replace('"fine":false', '"fine":' + value)


def run(files, words):
    """Runs the reference in a new folder: its status, both streams, and the files that it made."""
    with tempfile.TemporaryDirectory() as folder:
        for name, data in files.items():
            with open(os.path.join(folder, name), "wb") as file:
                file.write(data)
        command = [sys.executable, os.path.abspath(reference.__file__), *words.split()]
        done = subprocess.run(command, cwd=folder, capture_output=True)
        made = {}
        for name in sorted(set(os.listdir(folder)) - set(files)):
            with open(os.path.join(folder, name), "rb") as file:
                made[name] = file.read()
    return done.returncode, done.stdout.decode(), done.stderr.decode(), made


def line_of(call, *arguments):
    """The line with which a call ends, without the program's name."""
    try:
        call(*arguments)
    except inputs.Ended as end:
        return end.line[len("sgm: ") :]
    return None


class WorkedPair(unittest.TestCase):
    def test_three_files(self):
        made = {"o.asc": GRID_TEXT, "o.csv": TABLE_TEXT, "o.pgm": DISPARITY_TEXT}
        for options in ("", " strips=3 workers=2"):
            answer = run(WORKED, "match l.pgm r.pgm c.json o" + options)
            self.assertEqual(answer, (0, "valid 15 of 15\n", "", made))

    def test_costs_and_sums(self):
        left, right = (inputs.read_pgm(WORKED[name], "left") for name in ("l.pgm", "r.pgm"))
        planes = [matching.rectify(image, {"kind": "identity"}) for image in (left, right)]
        costs = matching.costs_of(*(matching.census_codes(plane, (3, 3)) for plane in planes), 0, 2, 8)
        self.assertEqual(costs[0], 5 * [[8, 8]])
        self.assertEqual(costs[1], [[8, 8], [6, 8], [6, 0], [6, 0], [8, 8]])
        level = [matching.path_values(costs, direction, 1, 3)[1] for direction in ((1, 0), (-1, 0))]
        self.assertEqual(level[0], [[8, 8], [6, 8], [6, 1], [7, 0], [9, 8]])
        self.assertEqual(level[1], [[8, 9], [7, 8], [7, 0], [6, 0], [8, 8]])
        sums = matching.sums_of(costs, 1, 3)
        self.assertEqual(sums[1], [[64, 65], [49, 64], [49, 1], [49, 0], [65, 64]])
        self.assertEqual(sums[2], [[64, 65], [65, 65], [66, 65], [66, 64], [65, 64]])
        self.assertEqual([matching.match_of(sums[1], q, 0) for q in range(5)], [0, 1, 1, 0, 0])
        self.assertEqual([matching.match_of(sums[0], q, 0) for q in range(5)], [0, 0, 1, 1, 0])

    def test_second_version(self):
        """Two indices never differ by more than 1, so a penalty that follows the image changes nothing here."""
        made = {"o.asc": GRID_TEXT, "o.csv": TABLE_TEXT, "o.pgm": DISPARITY_TEXT}
        for adapt in ("false", "true"):
            text = with_adapt(adapt) + CAMERA + GRID + REGIONS + "}"
            answer = run({**WORKED, "c.json": text.encode()}, "match l.pgm r.pgm c.json o")
            self.assertEqual(answer, (0, "valid 15 of 15\n", "", made))

    def test_peaks_and_filling(self):
        """Row by row the disparities are 0 0 1 1 1, which are linked, so the 15 pixels are one segment."""
        cases = [("peak=15", 15), ("peak=16", 0), ("fill=1 peak=16", 0), ("peak=16777216 fill=0", 0), ("fill=1", 15)]
        for options, valid in cases:
            status, out, _, made = run(WORKED, "match l.pgm r.pgm c.json o " + options)
            self.assertEqual((status, out), (0, f"valid {valid} of 15\n"), options)
            self.assertEqual(made["o.pgm"], DISPARITY_TEXT if valid else b"P5\n5 3\n65535\n" + bytes(30))
            self.assertEqual(made["o.asc"] == GRID_TEXT, valid == 15)
            self.assertEqual(made["o.csv"] == TABLE_TEXT, valid == 15)

    def test_fewer_outputs(self):
        without = {"o.asc": GRID_TEXT, "o.pgm": DISPARITY_TEXT}
        files = {**WORKED, "c.json": (PLAIN + CAMERA + GRID + "}").encode()}
        self.assertEqual(run(files, "match l.pgm r.pgm c.json o")[3], without)
        for keys in (PLAIN, PLAIN + CAMERA):
            files["c.json"] = (keys + "}").encode()
            self.assertEqual(run(files, "match l.pgm r.pgm c.json o")[3], {"o.pgm": DISPARITY_TEXT})
        files["c.json"] = (PLAIN + GRID + "}").encode()
        answer = run(files, "match l.pgm r.pgm c.json o")
        self.assertEqual(answer, (3, "", "sgm: calibration: camera is missing\n", {}))

    def test_ends(self):
        smaller = {**WORKED, "r.pgm": b"P5\n4 3\n255\n" + bytes(12)}
        differ = (3, "", "sgm: sizes differ: 5x3 and 4x3\n", {})
        self.assertEqual(run(smaller, "match l.pgm r.pgm c.json o"), differ)
        self.assertEqual(run({}, "match l.pgm r.pgm - o"), (4, "", "sgm: cannot read left\n", {}))
        pair = {name: b"P5\n2 1\n255\n\0\xff" for name in ("l.pgm", "r.pgm")}
        made = {"o.pgm": b"P5\n2 1\n65535\n\0\x10\0\x10"}
        self.assertEqual(run(pair, "match l.pgm r.pgm - o"), (0, "valid 2 of 2\n", "", made))

    def test_too_large(self):
        size = b"P5 4096 4096 255\n" + bytes(4096 * 4096)
        line = line_of(reference.judged, size, size, None)
        self.assertEqual(line, "volume of 1073741824 cells is above 268435456")


class WorkedThirdVersion(unittest.TestCase):
    """A pair of 5 x 3 pixels whose left column 0 is void. Codes, single costs and costs were computed by hand."""

    FILES = {
        "l.pgm": b"P5\n5 3\n255\n" + bytes([90, 10, 50, 20, 40, 15, 70, 30, 60, 25, 80, 35, 55, 45, 65]),
        "r.pgm": b"P5\n5 3\n255\n" + bytes([12, 52, 22, 42, 30, 68, 33, 58, 27, 40, 37, 54, 47, 63, 20]),
        "c.json": (
            with_fine("false") + ',"warp":{"left":{"kind":"projective","matrix":[1,0,-1,0,1,0,0,0,1]},"right":{"kind":"identity"}}}'
        ).encode(),
    }
    MIDDLES = {
        "l.pgm": [[None, 90, 50, 30, 20], [None, 70, 30, 55, 45], [None, 80, 55, 45, 45]],
        "r.pgm": [[12, 33, 42, 30, 30], [37, 54, 33, 42, 30], [37, 47, 54, 47, 20]],
    }
    CODES = {
        "l.pgm": [
            [None, 0b00001011, 0b11100101, 0b00011000, 0b00000000],
            [None, 0b10110101, 0b01010000, 0b11100101, 0b01010000],
            [None, 0b01101000, 0b10100111, 0b01010000, 0b10000000],
        ],
        "r.pgm": [
            [0b00000000, 0b00011000, 0b11100101, 0b00010010, 0b00000100],
            [0b01001000, 0b11100101, 0b01001000, 0b10101001, 0b00010010],
            [0b00100000, 0b01010000, 0b10100111, 0b01101000, 0b00000000],
        ],
    }
    # For each index the rows of single costs and of costs. Where a code is missing a single cost is 3 * 8 / 7 = 3.
    SINGLE = [[[3, 3, 0, 2, 1], [3, 2, 2, 3, 2], [3, 3, 0, 3, 1]], [[3, 3, 7, 7, 2], [3, 7, 5, 5, 6], [3, 2, 7, 7, 4]]]
    COSTS = [[[3, 2, 1, 1, 1], [2, 2, 2, 2, 2], [3, 2, 1, 1, 1]], [[3, 4, 6, 5, 3], [4, 5, 5, 5, 5], [2, 3, 5, 6, 4]]]

    def planes(self):
        calibration = inputs.read_calibration(self.FILES["c.json"])
        warps = {"l.pgm": calibration.left, "r.pgm": calibration.right}
        planes = {name: matching.rectify(inputs.read_pgm(self.FILES[name], "left"), warp) for name, warp in warps.items()}
        return planes, calibration

    def test_costs(self):
        planes, calibration = self.planes()
        self.assertEqual(planes["l.pgm"][2], [None, 80, 35, 55, 45])
        codes = []
        for name, plane in planes.items():
            middles = [[matching.middle_of(plane, x, y) for x in range(5)] for y in range(3)]
            self.assertEqual(middles, self.MIDDLES[name])
            codes.append(matching.smoothed_codes(plane, (3, 3)))
            self.assertEqual(codes[-1], self.CODES[name])
        single = matching.costs_of(*codes, 0, 2, matching.missing_cost(8))
        costs = matching.smoothed(single)
        for d in range(2):
            self.assertEqual([[pixel[d] for pixel in row] for row in single], self.SINGLE[d])
            self.assertEqual([[pixel[d] for pixel in row] for row in costs], self.COSTS[d])
        self.assertEqual(matching.costs_by(calibration, *planes.values()), costs)

    def test_match(self):
        made = {"o.pgm": b"P5\n5 3\n65535\n" + 3 * bytes([0, 0, 0, 16, 0, 16, 0, 16, 0, 16])}
        for options in ("", " strips=3 workers=2"):
            answer = run(self.FILES, "match l.pgm r.pgm c.json o" + options)
            self.assertEqual(answer, (0, "valid 12 of 15\n", "", made))

    def test_trace(self):
        answer = run(self.FILES, "trace l.pgm r.pgm c.json right 4 1 1")
        self.assertEqual(answer, (0, "least 14\n0 1 0 2 0\n1 1 0 2 0\n2 1 0 2 0\n3 1 0 2 0\n4 1 1 5 1\n", "", {}))

    def test_greatest_and_missing(self):
        for window, missing in (((3, 3), 3), ((5, 3), 6), ((9, 3), 11), ((3, 5), 6), ((5, 5), 10), ((7, 7), 20), ((9, 7), 26)):
            self.assertEqual(matching.missing_cost(window[0] * window[1] - 1), missing, window)

    def test_smoothed(self):
        """At the ends of a row a pixel stands for its neighbour that isn't there, and the rest of a division is dropped."""
        costs = [[[0], [3], [62], [62]], [[1], [0], [0], [2]]]
        self.assertEqual(matching.smoothed(costs), [[[0], [17], [47], [62]], [[0], [0], [0], [1]]])
        self.assertEqual(matching.smoothed([[[62, 7]]]), [[[62, 7]]])

    def test_middle_of_few(self):
        """One row, one column and one pixel; voids beside a pixel count as its own value."""
        self.assertEqual(matching.middle_of([[7, 1, 3]], 1, 0), 1)
        self.assertEqual(matching.middle_of([[1, 7, 3]], 1, 0), 7)
        self.assertEqual(matching.middle_of([[7], [1], [3]], 0, 0), 7)
        self.assertEqual(matching.middle_of([[9]], 0, 0), 9)
        self.assertIsNone(matching.middle_of([[None]], 0, 0))
        around = [[None, 2, None], [8, 5, None], [None, 1, None]]
        self.assertEqual(matching.middle_of(around, 1, 1), 5)
        around[1][2] = 0
        self.assertEqual(matching.middle_of(around, 1, 1), 2)

    def test_volume(self):
        """What is too large a volume in the versions 1 and 2 is none in version 3."""
        image, calibration = inputs.Image(4096, 3072, 255, []), inputs.Calibration()
        calibration.count = 22
        line = "volume of 276824064 cells is above 268435456"
        for version, answer in ((1, line), (2, line), (3, None)):
            calibration.version = version
            self.assertEqual(line_of(reference.fitting, image, image, calibration), answer)


class WorkedCertificates(unittest.TestCase):
    def ends(self, words, status, out, err="", text=WORKED["c.json"]):
        answer = run({**WORKED, "c.json": text}, "trace l.pgm r.pgm " + words)
        self.assertEqual(answer, (status, out, err, {}), words)

    def test_texts(self):
        for text in (PLAIN + "}", PLAIN + CAMERA + GRID + REGIONS + "}", with_adapt("true") + "}"):
            self.ends("c.json right 2 1 1", 0, "least 15\n0 1 0 8 0\n1 1 0 6 0\n2 1 1 0 1\n", text=text.encode())
        self.ends("c.json down 0 0 0", 0, "least 8\n0 0 0 8 0\n")
        # From the right the costs of the row in the middle are (8,8), (6,0), (6,0), (6,8), (8,8).
        self.ends("c.json left 1 1 0", 0, "least 15\n4 1 1 8 0\n3 1 1 0 0\n2 1 1 0 0\n1 1 0 6 1\n")
        # Both indices cost 8 at (0, 0) and at (1, 1) the second one 8: no change costs least.
        self.ends("c.json downright 1 1 1", 0, "least 16\n0 0 1 8 0\n1 1 1 8 0\n")
        self.ends("c.json upleft 2 0 0", 0, "least 17\n4 2 1 8 0\n3 1 1 0 0\n2 0 0 8 1\n")
        self.ends("c.json up 02 0 00", 0, "least 17\n2 2 1 8 0\n2 1 1 0 0\n2 0 0 8 1\n")

    def test_refusals(self):
        self.ends("c.json right 9 1 1", 3, "", "sgm: no pixel 9 1 with index 1\n")
        self.ends("c.json right 5 0 0", 3, "", "sgm: no pixel 5 0 with index 0\n")
        self.ends("c.json right 0 3 0", 3, "", "sgm: no pixel 0 3 with index 0\n")
        self.ends("c.json right 0 0 002", 3, "", "sgm: no pixel 0 0 with index 2\n")
        self.ends("c.json right 4294967295 0 0", 3, "", "sgm: no pixel 4294967295 0 with index 0\n")
        self.ends("c.json sideways 2 1 1", 2, "", "sgm: word 4 is not a direction\n")
        self.ends("c.json right 2 1 1 strips=1", 2, "", "sgm: word 8 is not an option\n")
        # What is wrong with the pictures comes before the place.
        small = {**WORKED, "r.pgm": b"P5\n4 3\n255\n" + bytes(12)}
        answer = run(small, "trace l.pgm r.pgm - right 9 9 9")
        self.assertEqual(answer, (3, "", "sgm: sizes differ: 5x3 and 4x3\n", {}))
        self.assertEqual(run(WORKED, "trace l.pgm none none right 9 9 9"), (4, "", "sgm: cannot read right\n", {}))

    def test_costs_alone(self):
        """With the plain settings no pixel of a small picture has a code, so each costs 62 whatever the index."""
        answer = run(WORKED, "trace l.pgm r.pgm - right 1 2 63")
        self.assertEqual(answer, (0, "least 124\n0 2 63 62 0\n1 2 63 62 0\n", "", {}))


LATER_TEXT = (
    GRID_TEXT.replace(b"50000 50000 50000 -2147483648\n", b"51000 50000 50000 50000\n", 1)
    .replace(b"50000 50000 50000 -2147483648\n", b"-2147483648 50000 50000 -2147483648\n", 1)
)  # fmt: skip
DIFFERENCE_TEXT = GRID_TEXT[: GRID_TEXT.index(b"NODATA")] + (
    b"NODATA_value -9999999999\n1000 0 0 -9999999999\n-9999999999 0 0 -9999999999\n0 0 0 -9999999999\n"
)
VOLUMES_TEXT = b"both,come,gone,empty,fill,cut\n8,1,1,2,1000000000,0\n"


def asc(heights, cols=2, rows=1, west=0, south=0, cell=1, nodata=-2147483648):
    head = f"ncols {cols} nrows {rows} xllcorner {west} yllcorner {south} cellsize {cell} nodata_value {nodata} "
    return (head + heights).encode()


class WorkedChange(unittest.TestCase):
    def ends(self, earlier, later, *answer):
        self.assertEqual(run({"e.asc": earlier, "l.asc": later}, "change e.asc l.asc o"), answer)

    def refused(self, earlier, later, line):
        self.ends(earlier, later, 3, "", f"sgm: {line}\n", {})

    def test_two_files(self):
        self.assertEqual(LATER_TEXT.count(b"\n"), 9)
        made = {"o.asc": DIFFERENCE_TEXT, "o.csv": VOLUMES_TEXT}
        self.ends(GRID_TEXT, LATER_TEXT, 0, "compared 8 of 12\n", "", made)
        # The other way round what came has gone, and what rose has sunk.
        back = DIFFERENCE_TEXT.replace(b"\n1000", b"\n-1000")
        made = {"o.asc": back, "o.csv": b"both,come,gone,empty,fill,cut\n8,1,1,2,0,1000000000\n"}
        self.ends(LATER_TEXT, GRID_TEXT, 0, "compared 8 of 12\n", "", made)

    def test_greatest_differences(self):
        low, high = asc("-2000000000 -2147483648", cell=1000000000), asc("2000000000 7", cell=1000000000)
        head = b"ncols 2\nnrows 1\nxllcorner 0\nyllcorner 0\ncellsize 1000000000\nNODATA_value -9999999999\n"
        made = {"o.asc": head + b"4000000000 -9999999999\n"}
        made["o.csv"] = b"both,come,gone,empty,fill,cut\n1,1,0,0,4000000000000000000000000000,0\n"
        self.ends(low, high, 0, "compared 1 of 2\n", "", made)
        made = {"o.asc": head + b"-4000000000 -9999999999\n"}
        made["o.csv"] = b"both,come,gone,empty,fill,cut\n1,0,1,0,0,4000000000000000000000000000\n"
        self.ends(high, low, 0, "compared 1 of 2\n", "", made)

    def test_refusals(self):
        self.refused(GRID_TEXT, LATER_TEXT.replace(b"cellsize 1000", b"cellsize 2000"), "grids differ at word 9")
        without_last = LATER_TEXT[: LATER_TEXT.rindex(b" ")]
        self.refused(GRID_TEXT, without_last, "later: 11 heights, 12 needed")
        self.refused(b"", LATER_TEXT, "earlier: word 0 is not as expected")
        self.refused(b"", b"", "earlier: word 0 is not as expected")
        self.refused(GRID_TEXT, b"", "later: word 0 is not as expected")
        # The difference is no input.
        self.refused(GRID_TEXT, DIFFERENCE_TEXT, "later: word 11 is out of range")
        # The least word that differs is named: the columns, though the rows and a side differ too.
        self.refused(asc("1 2"), asc("1 2", cols=1, rows=2, west=9), "grids differ at word 1")
        self.refused(asc("1 2"), asc("1 2 3 4", rows=2, cell=9), "grids differ at word 3")
        self.refused(asc("1 2"), asc("1 2", west=-9, south=9), "grids differ at word 5")
        self.refused(asc("1 2"), asc("1 2", south=9, cell=2), "grids differ at word 7")

    def test_inputs(self):
        answer = run({"e.asc": b""}, "change none none o")
        self.assertEqual(answer, (4, "", "sgm: cannot read earlier\n", {}))
        # Both are read before one is judged.
        answer = run({"e.asc": b""}, "change e.asc none o")
        self.assertEqual(answer, (4, "", "sgm: cannot read later\n", {}))
        answer = run({"o.asc": b"", "l.asc": b""}, "change l.asc o.asc o")
        self.assertEqual(answer, (2, "", "sgm: word 2 is also an output\n", {}))
        # A grid may be compared with itself, and an input may be named as no output is.
        made = run({"o.pgm": asc("1 -2147483648")}, "change o.pgm o.pgm o")[3]
        self.assertEqual(made["o.csv"], b"both,come,gone,empty,fill,cut\n1,0,0,1,0,0\n")


class Grids(unittest.TestCase):
    def test_accepted(self):
        plain = {"cols": 2, "rows": 1, "west": 0, "south": 0, "cell": 1}
        for data, grid, cells in [
            (asc("1 -2147483648"), plain, [[1, None]]),
            (asc("-2000000000 2000000000"), plain, [[-2000000000, 2000000000]]),
            (asc("7 8", cols=1, rows=2, west=-5, south=5), {**plain, "cols": 1, "rows": 2, "west": -5, "south": 5}, [[7], [8]]),
            (asc("-0 0000000000000000000000000000000000000000000000012"), plain, [[0, 12]]),
            (asc("1\r2\t\n"), plain, [[1, 2]]),
            (
                b" \r\nNCOLS\t2\r\nnRows 1 XLLcorner -0 yllcorner\n-00 CellSize 01 NODATA_VALUE -002147483648 1 2",
                plain,
                [[1, 2]],
            ),
            (GRID_TEXT, {"cols": 4, "rows": 3, "west": 2000, "south": -2000, "cell": 1000}, 3 * [3 * [50000] + [None]]),
        ]:
            self.assertEqual(inputs.read_grid(data, "later"), (grid, cells), data)

    def test_refused(self):
        words = asc("1 2").split()
        expected = "word {} is not as expected"
        for at in range(12):
            # A text that ends there, and one whose word there isn't what it has to be.
            self.refused(b" ".join(words[:at]), expected.format(at))
            odd = [b"+1", b"1.0", b"1e0", b"-", b"--1", b"0x1", b"1-", b"\xb2", b"ncols"]
            for word in odd if at % 2 else [b"1", b"nrow", b"ncolss", b"xllcenter", b"\xff", words[at] + b":"]:
                self.refused(b" ".join(words[:at] + [word] + words[at + 1 :]), expected.format(at))
        ends = {"cols": (0, 4097), "rows": (0, 4097), "west": (-2000000001, 2000000001), "south": (-2000000001, 2000000001)}
        ends |= {"cell": (0, 1000000001), "nodata": (-2147483649, -2147483647)}
        for line, (name, both) in enumerate(ends.items()):
            for end in both:
                self.refused(asc("1 2", **{name: end}), f"word {2 * line + 1} is out of range")
        self.refused(asc("1 2", rows=4097, west=10**40), "word 3 is out of range")
        # What is no number comes before what is out of range, and that before the heights.
        self.refused(asc("1 2", cols=0, nodata="x"), expected.format(11))
        self.refused(asc("x", nodata=0), "word 11 is out of range")
        self.refused(asc(""), "0 heights, 2 needed")
        self.refused(asc("", cols=4096, rows=4096), "0 heights, 16777216 needed")
        self.refused(asc("x y z"), "3 heights, 2 needed")
        self.refused(asc("1"), "1 heights, 2 needed")
        self.refused(asc("1 2000000001"), "height 1 is not in range")
        self.refused(asc("-2000000001 x"), "height 0 is not in range")
        self.refused(asc("-2147483648 -2147483649"), "height 1 is not in range")
        self.refused(asc("1 2.0"), "height 1 is not in range")
        # VT and FF are no spaces.
        self.refused(asc("1\v2"), "1 heights, 2 needed")
        self.refused(asc("1 \f2"), "height 1 is not in range")

    def refused(self, data, line):
        self.assertEqual(line_of(inputs.read_grid, data, "later"), "later: " + line, data)


class Words(unittest.TestCase):
    def test_lines(self):
        for words, line in [
            ([], "no command"),
            (["march"], "unknown command"),
            (["match", "a", "b", "-"], "3 words after the command, 4 needed"),
            (["match", "a", "", "-", ""], "word 2 is empty"),
            (["match", "a", "b", "-", "o", "strips=0"], "word 5 is not an option"),
            (["match", "a", "b", "-", "o", "strips=2", "strips=2"], "word 6 repeats an option"),
            (["match", "a", "b", "-", "o", "strips=02", "workers=16"], None),
            (["match", "a", "b", "-", "o", "workers=17"], "word 5 is not an option"),
            (["match", "o.pgm", "b", "-", "o"], "word 1 is also an output"),
            (["match", "a", "b", "o.csv", "o"], "word 3 is also an output"),
            (["demo"], "0 words after the command, 1 needed"),
            (["demo", "x"], "word 1 is not a number in range"),
            (["demo", "4294967296"], "word 1 is not a number in range"),
            (["demo", "0004294967295", "x"], "word 2 is not an option"),
            (["match", "a", "b", "-", "o", "peak=16777216", "fill=1"], None),
            (["match", "a", "b", "-", "o", "peak=16777217"], "word 5 is not an option"),
            (["match", "a", "b", "-", "o", "fill=2"], "word 5 is not an option"),
            (["match", "a", "b", "-", "o", "fill="], "word 5 is not an option"),
            (["demo", "1", "fill=0", "peak=0", "fill=1"], "word 4 repeats an option"),
            (["demo", "1", "fill=0", "peak=0", "strips=0"], "word 4 is not an option"),
            (["trace", "a", "b", "-", "right", "0", "0"], "6 words after the command, 7 needed"),
            (["trace", "", "b", "", "x", "0", "0", "0"], "word 1 is empty"),
            (["trace", "a", "b", "", "x", "y", "0", "0"], "word 3 is empty"),
            (["trace", "a", "b", "-", "", "y", "0", "0"], "word 4 is not a direction"),
            (["trace", "a", "b", "-", "Right", "0", "0", "0"], "word 4 is not a direction"),
            (["trace", "a", "b", "-", "upright", "-1", "+1", "0"], "word 5 is not a number in range"),
            (["trace", "a", "b", "-", "downleft", "007", "4294967296", ""], "word 6 is not a number in range"),
            (["trace", "a", "b", "-", "upleft", "0", "4294967295", "x"], "word 7 is not a number in range"),
            (["trace", "a", "b", "-", "down", "0", "0", "0", "strips=1"], "word 8 is not an option"),
            (["trace", "a", "a", "a", "up", "0", "0", "0"], None),
            (["change", "a", "b"], "2 words after the command, 3 needed"),
            (["change", "a", "", ""], "word 2 is empty"),
            (["change", "a", "b", ""], "word 3 is empty"),
            (["change", "o.asc", "b", "o", "strips=1"], "word 4 is not an option"),
            (["change", "o.asc", "o.csv", "o"], "word 1 is also an output"),
            (["change", "o.pgm", "o.csv", "o"], "word 2 is also an output"),
            (["change", "o.pgm", "o", "o"], None),
            (["changes", "a", "b", "o"], "unknown command"),
        ]:
            self.assertEqual(line_of(inputs.read_words, words), line, words)

    def test_options(self):
        plain = {"strips": 1, "workers": 1, "peak": 0, "fill": 0}
        for options, given in [
            ([], {}),
            (["peak=00020", "fill=1"], {"peak": 20, "fill": 1}),
            (["workers=2", "fill=00", "strips=64"], {"workers": 2, "strips": 64}),
        ]:
            operands, asked = inputs.read_words(["demo", "7", *options])
            self.assertEqual((operands, asked), (["7"], {**plain, **given}))


class Pictures(unittest.TestCase):
    def test_accepted(self):
        for data, samples in [
            (b"P5\n2 1\n255\n\0\xff", [0, 255]),
            (b"P5\n# Created by GIMP\n2 1\n65535\n\0\1\xff\xff", [1, 65535]),
            (b"P5 1 1 255\n\7P5", [7]),
            (b"P5#a\r002\v1\f# b\n 0255\t\1\2", [1, 2]),
        ]:
            self.assertEqual(inputs.read_pgm(data, "left").samples, samples, data)

    def test_refused(self):
        for data, line in [
            (b"P5 2 2 255\n\1\2\3", "raster has 3 of 4 bytes"),
            (b"P5 2 1 15\n\x0f\x10", "sample 1 is above maxval"),
            (b"", "not a binary PGM"),
            (b"P5\n2 1", "header ends early"),
            (b"P5\n2 1#", "header ends early"),
            (b"P5\n2 x1\n", "unexpected byte at 5"),
            (b"P5 1 1 255#", "unexpected byte at 10"),
            (b"P5 4097 1 255\n", "size out of range"),
            (b"P5 1 1 65536\n\0", "maxval out of range"),
            (b"P5 0 1 0\n", "size out of range"),
            (b"P5 4096 4096 65535\n", "raster has 0 of 33554432 bytes"),
            (b"P5 " + 40 * b"9" + b" 1 255\n", "size out of range"),
        ]:
            self.assertEqual(line_of(inputs.read_pgm, data, "left"), "left: " + line, data)

    def test_every_cut(self):
        whole = WORKED["r.pgm"]
        for length in range(len(whole) + 1):
            line = line_of(inputs.read_pgm, whole[:length], "right")
            if length < 2:
                self.assertEqual(line, "right: not a binary PGM")
            elif length < 11:
                self.assertEqual(line, "right: header ends early")
            elif length < 26:
                self.assertEqual(line, f"right: raster has {length - 11} of 15 bytes")
            else:
                self.assertIsNone(line)


class Calibrations(unittest.TestCase):
    def test_first_fault(self):
        top = '{"version":1,'
        for text, line in [
            ("{", "not JSON"),
            ("[" * 200 + "]" * 200, "not JSON"),
            ('{"version":1,"x":1e400}', "not JSON"),
            ('{"version":NaN}', "not JSON"),
            ("[]", "top has the wrong type"),
            ("{}", "version is missing"),
            ('{"version":4}', "unknown version"),
            ('{"version":0,"x":0}', "unknown version"),
            ('{"version":2}', "disparities is missing"),
            ('{"version":3}', "disparities is missing"),
            ('{"version":3.0}', "version has the wrong type"),
            (with_fine("0") + "}", "disparities.fine has the wrong type"),
            (with_fine('"false"') + ',"warp":0}', "disparities.fine has the wrong type"),
            (with_fine("null").replace('"count":2', '"count":0') + "}", "disparities.count is out of range"),
            (THIRD.replace(',"fine":false', "") + "}", "disparities.fine is missing"),
            (THIRD.replace("fine", "fines") + "}", "disparities has an unknown name"),
            (THIRD.replace('"version":3', '"version":2') + "}", "disparities has an unknown name"),
            (THIRD.replace('"version":3', '"version":1') + "}", "disparities has an unknown name"),
            (THIRD + "}", "penalties.adapt is missing"),
            (with_fine("false") + CAMERA + GRID + "}", "grid.keep is missing"),
            (with_fine("false") + CAMERA + THIRD_GRID.replace(',"bridge":2', "") + REGIONS + "}", "grid.bridge is missing"),
            (with_fine("false") + CAMERA + THIRD_GRID.replace("2}", "9}") + ',"regions":0}', "grid.bridge is out of range"),
            (with_fine("false") + CAMERA + THIRD_GRID.replace("mean", "most") + "}", "grid.keep is out of range"),
            (with_adapt("true") + CAMERA + THIRD_GRID + "}", "grid has an unknown name"),
            (with_fine("false").replace('"adapt":false', '"adapt":0') + "}", "penalties.adapt has the wrong type"),
            ('{"version":2.0}', "version has the wrong type"),
            (SECOND + "}", "penalties.adapt is missing"),
            (with_adapt("1") + "}", "penalties.adapt has the wrong type"),
            (with_adapt('"true"') + ',"warp":0}', "penalties.adapt has the wrong type"),
            (with_adapt("null").replace('"p2":3', '"p2":0') + "}", "penalties.p2 is out of range"),
            (with_adapt("true").replace('"version":2', '"version":1') + "}", "penalties has an unknown name"),
            (with_adapt("true").replace("adapt", "adapts") + "}", "penalties has an unknown name"),
            ('{"version":1.0}', "version has the wrong type"),
            ('{"version":-0}', "version has the wrong type"),
            ('{"version":true}', "version has the wrong type"),
            ('{"version":9223372036854775808}', "version has the wrong type"),
            ('{"version":1,"x":0}', "top has an unknown name"),
            (top + '"disparities":{"first":0,"count":0}}', "disparities.count is out of range"),
            (top + '"disparities":{"first":0,"count":1.5}}', "disparities.count has the wrong type"),
            (top + '"disparities":{"first":0,"x":0}}', "disparities has an unknown name"),
            (PLAIN + ',"warp":{"left":{"kind":"mesh","matrix":[]}}}', "warp.left has an unknown name"),
            (PLAIN + ',"warp":{"left":{"kind":"mash","x":0}}}', "warp.left.kind is out of range"),
            (PLAIN + ',"warp":{"left":{"kind":"identity"}}}', "warp.right is missing"),
            (PLAIN + ',"warp":{"left":{"kind":"projective","matrix":[1,2.5]}}}', "warp.left.matrix has the wrong type"),
            (PLAIN + ',"warp":{"left":{"kind":"projective","matrix":[1,2]}}}', "warp.left.matrix is out of range"),
            (PLAIN + CAMERA + ',"regions":[]}', "grid is missing"),
            (PLAIN + ',"regions":[]}', "grid is missing"),
            (PLAIN + CAMERA + GRID + ',"regions":[{"name":""}]}', "regions[0].name is out of range"),
            (PLAIN + CAMERA + GRID + ',"regions":[0]}', "regions[0] has the wrong type"),
        ]:
            self.assertEqual(line_of(inputs.read_calibration, text.encode()), "calibration: " + line, text)

    def test_every_key(self):
        for name, made, line in calibration_cases.faults():
            self.assertEqual("sgm: " + line_of(inputs.read_calibration, json.dumps(made).encode()), line, name)
        for name, made in calibration_cases.bounds():
            self.assertIsNone(line_of(inputs.read_calibration, json.dumps(made).encode()), name)

    def test_second_version(self):
        for adapt, is_adaptive in (("true", True), ("false", False)):
            made = inputs.read_calibration((with_adapt(adapt) + "}").encode())
            self.assertEqual((made.p1, made.p2, made.is_adaptive), (1, 3, is_adaptive))
        self.assertFalse(inputs.read_calibration((PLAIN + "}").encode()).is_adaptive)
        self.assertFalse(inputs.Calibration().is_adaptive)

    def test_third_version(self):
        for adapt, is_adaptive in (("true", True), ("false", False)):
            made = inputs.read_calibration((with_fine("false").replace('"adapt":false', '"adapt":' + adapt) + "}").encode())
            self.assertEqual((made.version, made.count, made.p1, made.p2, made.is_adaptive), (3, 2, 1, 3, is_adaptive))
        versions = [inputs.read_calibration((text + "}").encode()).version for text in (PLAIN, with_adapt("true"))]
        self.assertEqual((versions, inputs.Calibration().version), ([1, 2], 1))

    def test_last_of_equal_names_counts(self):
        text = PLAIN.replace('"first":0', '"first":0.5,"first":-7') + "}"
        self.assertEqual(inputs.read_calibration(text.encode()).first, -7)


class Definitions(unittest.TestCase):
    def test_code(self):
        plane = [[5, 4, 6], [5, 5, 9], [1, 5, 5]]
        self.assertEqual(matching.census_codes(plane, (3, 3))[1][1], 0b01000100)

    def test_path_values(self):
        costs = [[[0, 5], [5, 0], [0, 5]]]
        self.assertEqual(matching.path_values(costs, (1, 0), 1, 3), [[[0, 5], [5, 1], [1, 5]]])

    def test_guide(self):
        self.assertEqual(matching.guide_of([[0, 1, None, 254, 255]], 255), [[0, 1, None, 254, 255]])
        self.assertEqual(matching.guide_of([[0, 1, 2, 3]], 3), [[0, 85, 170, 255]])
        self.assertEqual(matching.guide_of([[0, 1]], 1), [[0, 255]])
        # 255 / 65535 is 1 / 257, rounded down.
        self.assertEqual(matching.guide_of([[256, 257, 65534, 65535]], 65535), [[0, 1, 254, 255]])

    def test_far(self):
        cases = [(100, 100, 120), (100, 103, 40), (100, 120, 10), (None, 5, 120), (103, 100, 40), (101, 100, 120)]
        cases += [(7, None, 120), (None, None, 120), (0, 7, 17), (0, 255, 10)]
        for here, before, answer in cases:
            self.assertEqual(matching.far(10, 120, here, before), answer)
        self.assertEqual(matching.far(120, 120, 0, 9), 120)

    def test_path_values_that_follow_the_image(self):
        costs = [[[0, 9, 9], [9, 9, 0]]]
        cases = [(None, 6), ([[10, 13]], 2), ([[10, 10]], 6), ([[10, None]], 6), ([[None, 13]], 6), ([[10, 12]], 3)]
        for guide, answer in cases:
            values = matching.path_values(costs, (1, 0), 1, 6, guide)
            self.assertEqual(values, [[[0, 9, 9], [9, 10, answer]]], guide)

    def test_least_energies(self):
        draw, guides = 1, [None, [[7, 9, 30, None, 30], [8, 8, 8, 250, 9], [None, 8, 12, 13, 7], [0, 4, 4, 90, 91]]]
        for (width, height, count, p1, p2), guide in itertools.product(
            [(4, 3, 3, 1, 3), (3, 4, 3, 2, 2), (5, 1, 4, 1, 9), (4, 3, 3, 1, 13)], guides
        ):
            costs = []
            for _ in range(height):
                row = []
                for _ in range(width * count):
                    draw = (1103515245 * draw + 12345) % 2**31
                    row.append(draw // 65536 % 9)
                costs.append([row[count * x : count * x + count] for x in range(width)])
            for direction in matching.DIRECTIONS:
                values = matching.path_values(costs, direction, p1, p2, guide)
                for x, y in itertools.product(range(width), range(height)):
                    for d in range(count):
                        meaning = path_value_by_trying(costs, direction, (x, y), d, p1, p2, guide)
                        self.assertEqual(values[y][x][d], meaning)

    def test_certificates(self):
        """Of all sequences that have the least energy, the one that is least from its end backwards is shown."""
        draw, ties = 1, 0
        for length, count, p1, p2, greatest in [(5, 3, 1, 2, 2), (4, 4, 1, 3, 3), (6, 2, 1, 1, 1), (3, 5, 2, 9, 8), (1, 3, 1, 2, 2)]:
            for _ in range(12):
                numbers = []
                for _ in range(length * (count + 1)):
                    draw = (1103515245 * draw + 12345) % 2**31
                    numbers.append(draw // 65536 % (greatest + 1))
                costs = [numbers[begin : begin + count] for begin in range(0, length * count, count)]
                larger = [max(p1, p2 - less) for less in numbers[length * count :]]
                for last in range(count):
                    least, found = least_by_trying(costs, larger, p1, last)
                    ties += len(found) > 1
                    backwards = min(sequence[::-1] for sequence in found)
                    self.assertEqual(matching.best_sequence(costs, larger, p1, last), (least, list(backwards[::-1])))
        self.assertGreater(ties, 50)

    def test_rays(self):
        for name, ray in [
            ("right", [(0, 1), (1, 1)]),
            ("left", [(3, 1), (2, 1), (1, 1)]),
            ("down", [(1, 0), (1, 1)]),
            ("downright", [(0, 0), (1, 1)]),
            ("downleft", [(2, 0), (1, 1)]),
            ("up", [(1, 2), (1, 1)]),
            ("upright", [(0, 2), (1, 1)]),
            ("upleft", [(2, 2), (1, 1)]),
        ]:
            direction = matching.DIRECTIONS[inputs.DIRECTIONS.index(name)]
            self.assertEqual(matching.ray_to(1, 1, direction, 4, 3), ray, name)

    def test_change(self):
        earlier = [[None, None, 5, 5, 5], [-2, -2, 0, None, 9]]
        later = [[None, 7, None, 8, 1], [-1, 2, 0, None, 9]]
        # Two cells rise by 3 + 1 + 4, one sinks by 4; a cell has 7 x 7.
        self.assertEqual(matching.changed(earlier, later, 7), (6, 1, 1, 2, 8 * 49, 4 * 49))
        self.assertEqual(matching.differences(earlier, later), [[None, None, None, 3, -4], [1, 4, 0, None, 0]])

    def test_check(self):
        plane = [[0] * 6]
        for matched, answer in ((3, 48), (2, 48), (1, None), (0, None)):
            sums = [[9, 9, 9, 9] for _ in range(6)]
            sums[5] = [9, 9, 9, 3]
            if matched < 3:
                sums[2 + matched][matched] = 2
            self.assertEqual(matching.least_index(sums[5]), 3)
            self.assertEqual(matching.match_of(sums, 2, 0), matched)
            self.assertEqual(matching.disparities([sums], plane, plane, 0)[0][5], answer)

    def test_offset(self):
        for sums, answer in [
            ((7, 3, 3), 8),
            ((9, 3, 5), 4),
            ((4, 3, 9), -6),
            ((20, 3, 18), 1),
            ((18, 3, 20), 0),
            # The sum before counts for so little beside the one after that the offset is the least there is.
            ((4, 3, 36), -8),
            ((4, 3, 33), -7),
            ((4, 3, 5), -3),
            ((5, 3, 4), 3),
            ((8, 3, 8), 0),
        ]:
            self.assertEqual(matching.offset(*sums), answer, sums)

    def test_offset_is_the_vertex_of_the_quadratic(self):
        """Through 0, a and c at 0, -1 and 1 goes the quadratic with the least value at (a - c) / (2 (a + c))."""
        for a, c in itertools.product(range(1, 60), range(60)):
            vertex = fractions.Fraction(a - c, 2 * (a + c))
            offset = matching.offset(100 + a, 100, 100 + c)
            # To the nearest sixteenth, halves up.
            self.assertTrue(-8 <= offset <= 8 and 16 * vertex - fractions.Fraction(1, 2) < offset)
            self.assertTrue(offset <= 16 * vertex + fractions.Fraction(1, 2))

    def test_refined(self):
        # The least sum is at the first index, at the last, between, and where there is one index alone.
        for values, answer in [
            ([3, 4, 9], 0),
            ([9, 4, 3], 32),
            ([9, 3, 5], 20),
            ([9, 9, 9, 3, 5], 52),
            ([3], 0),
            ([3, 2], 16),
            ([9, 3, 3, 9], 24),
        ]:
            self.assertEqual(matching.refined(values, matching.least_index(values)), answer, values)

    def test_check_of_refined(self):
        # The right pixel's index is compared with the whole one: 2 and 3 differ by 1, 1 and 3 by more.
        plane = [[0] * 7]
        for sums_at, matched, answer in [
            ([9, 9, 9, 3, 5], 2, 52),
            ([9, 9, 9, 3, 5], 1, None),
            ([9, 9, 4, 3, 9], 1, None),
            ([9, 9, 4, 3, 9], 2, 42),
            ([9, 9, 9, 3, 3], 4, 56),
        ]:
            sums = [[9, 9, 9, 9, 9] for _ in range(7)]
            sums[5] = sums_at
            sums[2 + matched][matched] = 2
            self.assertEqual(matching.match_of(sums, 2, 0), matched)
            self.assertEqual(matching.disparities([sums], plane, plane, 0)[0][5], answer)

    def test_ties(self):
        self.assertEqual(matching.least_index([7, 3, 3, 9]), 1)
        self.assertIsNone(matching.match_of([[0]], 0, 1))

    def test_peaks(self):
        row = [16, 16, 160, 16, 16]
        for least, answer in [(2, [16, 16, None, 16, 16]), (3, 5 * [None]), (0, row), (1, row)]:
            self.assertEqual(matching.kept([row], least), [answer], least)
        # 16 apart is linked and 17 isn't; a chain may lead far. Corners don't touch.
        self.assertEqual(matching.kept([[0, 16, 32, 49]], 2), [[0, 16, 32, None]])
        self.assertEqual(matching.kept([[49, 32, 16, 0]], 2), [[None, 32, 16, 0]])
        apart = [[5, None, 5], [None, 5, None], [5, None, 5]]
        self.assertEqual(matching.kept(apart, 1), apart)
        self.assertEqual(matching.kept(apart, 2), [3 * [None]] * 3)
        around = [[9, 9, 9], [9, None, 9], [9, 9, 90]]
        self.assertEqual(matching.kept(around, 7), [[9, 9, 9], [9, None, 9], [9, 9, None]])
        self.assertEqual(matching.kept(around, 8), [3 * [None]] * 3)

    def test_filling(self):
        left = [3 * [0]]
        for row, matched, answer in [
            ([32, None, 96], [None, None, None], [32, 96, 96]),
            ([32, None, 96], [None, 0, None], [32, 32, 96]),
            # The index has to be the one that leads from the pixel to this partner.
            ([32, None, 96], [1, None, None], [32, 32, 96]),
            ([32, None, 96], [0, 1, 1], [32, 96, 96]),
            ([32, None, None], [None, None, None], [32, 32, 32]),
            ([None, None, 7], [0, 0, 0], [7, 7, 7]),
            ([None, None, None], [0, 0, 0], [None, None, None]),
        ]:
            self.assertEqual(matching.filled([row], [matched], left, 0, 2), [answer])
        self.assertEqual(matching.filled([[32, None, 96]], [3 * [None]], [[0, None, 0]], 0, 2), [[32, None, 96]])
        # What is filled in is not met: each pixel meets the map as it was given.
        self.assertEqual(matching.filled([[5, None, None, 9]], [4 * [None]], [4 * [0]], 0, 1), [[5, 9, 9, 9]])

    def test_entries_of_what_is_met(self):
        """Around the middle stand eight values, and beyond some of them others, which aren't met."""
        found = [
            [99, None, None, None, None],
            [None, 7, 3, 11, None],
            [None, None, None, 2, 99],
            [None, 13, None, 5, None],
            [17, None, 1, None, 99],
        ]
        self.assertEqual(matching.met(found, 2, 2), [1, 2, 3, 5, 7, 11, 13])
        found[2][0] = 4
        self.assertEqual(matching.met(found, 2, 2), [1, 2, 3, 4, 5, 7, 11, 13])
        left, nobody = [5 * [0]] * 5, [5 * [None]] * 5
        self.assertEqual(matching.filled(found, nobody, left, 0, 1)[2][2], 2)
        self.assertEqual(matching.filled(found, [5 * [0]] * 5, left, 0, 1)[2][2], 4)
        found[2][0] = None
        self.assertEqual(matching.filled(found, [5 * [0]] * 5, left, 0, 1)[2][2], 5)

    def test_mismatched(self):
        for matched, x, first, count, answer in [
            ([None, 1, None], 2, 0, 2, True),
            ([None, 1, None], 2, 0, 1, False),
            ([None, 1, None], 1, 0, 2, False),
            ([None, 0, None], 2, 1, 2, True),
            ([None, None, 0], 0, -2, 1, True),
            ([0, 0, 0], 2, -1, 1, False),
        ]:
            self.assertEqual(matching.is_mismatched(matched, x, first, count), answer)

    def test_bilinear(self):
        image = inputs.Image(2, 1, 255, [0, 255])
        self.assertEqual(matching.bilinear(image, 128, 0), 128)
        self.assertEqual(matching.bilinear(image, 256, 0), 255)
        self.assertIsNone(matching.bilinear(image, 257, 0))
        self.assertIsNone(matching.bilinear(image, -1, 0))

    def test_projective(self):
        def projective(*matrix):
            return {"kind": "projective", "matrix": matrix}

        self.assertEqual(matching.place(projective(1, 0, 0, 0, 1, 0, 0, 0, 2), 3, 0), (384, 0))
        bad = projective(1, 0, 0, 0, 1, 0, -1, 0, 4)
        self.assertEqual(matching.warp_fault(bad, 5, 3), "denominator not positive at corner 1")
        image = inputs.Image(5, 1, 255, [90, 10, 50, 20, 40])
        shifted = matching.rectify(image, projective(1, 0, 1, 0, 1, 0, 0, 0, 1))
        self.assertEqual(shifted, [[10, 50, 20, 40, None]])

    def test_mesh(self):
        mesh = {"kind": "mesh", "step": 2, "cols": 2, "rows": 2, "nodes": [0, 0, 511, 0, 0, 512, 511, 512]}
        self.assertIsNone(matching.warp_fault(mesh, 2, 1))
        self.assertEqual(matching.place(mesh, 1, 0), (255, 0))
        wide = {**mesh, "cols": 3}
        self.assertEqual(matching.warp_fault(wide, 2, 1), "mesh is 3x2, 2x2 needed")

    def test_point(self):
        camera = {"focal": 256000, "baseline": 100000, "cx": 0, "cy": 0, "doffs": 0, "mount": 0, "near": 1, "far": 2000000000}
        self.assertEqual(matching.point(camera, 0, 0, 800), (0, 0, -2000000))
        self.assertEqual(matching.point(camera, 0, 0, 808), (0, 0, -1980198))
        self.assertIsNone(matching.point(camera, 0, 0, 0))

    def test_tally(self):
        region = {"row": 0, "rows": 1, "col": 0, "cols": 3, "base": 6}
        self.assertEqual(matching.tally([[5, 7, None]], 1000, region), (2, 1, 1000000, 1000000, 5, 7))

    def test_generated_pair(self):
        left, right = reference.generated_pair(1, 1, 0)
        self.assertEqual((left.samples, right.samples), ([155], [170]))


def least_by_trying(costs, larger, p1, last):
    """The least energy of the sequences that end in `last`, and all of them that have it."""

    def energy(sequence):
        total = sum(cost[s] for cost, s in zip(costs, sequence))
        for a, b, more in zip(sequence, sequence[1:], larger[1:]):
            total += p1 * abs(a - b) if abs(a - b) < 2 else more
        return total

    ending = [s for s in itertools.product(range(len(costs[0])), repeat=len(costs)) if s[-1] == last]
    least = min(map(energy, ending))
    return least, [s for s in ending if energy(s) == least]


def path_value_by_trying(costs, direction, p, d, p1, p2, guide):
    """The least energy of any sequence along the ray that ends in d, less that of the ray before its last pixel."""
    (dx, dy), (x, y) = direction, p
    ray, grey = [], []
    while 0 <= x < len(costs[0]) and 0 <= y < len(costs):
        ray.insert(0, costs[y][x])
        grey.insert(0, guide[y][x] if guide else None)
        x, y = x - dx, y - dy

    def jump(a, b, here, before):
        if abs(a - b) < 2:
            return p1 * abs(a - b)
        step = 1 if None in (here, before) else max(1, here - before, before - here)
        return max(p1, p2 // step)

    def energy(sequence):
        jumps = zip(sequence[1:], sequence, grey[1:], grey)
        return sum(cost[s] for cost, s in zip(ray, sequence)) + sum(jump(*pair) for pair in jumps)

    count = len(ray[-1])
    sequences = list(itertools.product(range(count), repeat=len(ray)))
    least = min(energy(s) for s in sequences if s[-1] == d)
    # zip stops at the shorter list, so a sequence without its last entry has the energy of the ray before.
    before = min(energy(s[:-1]) for s in sequences)
    return least - before


if __name__ == "__main__":
    unittest.main()
