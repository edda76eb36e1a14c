#!/usr/bin/env python3
"""Checks the reference's finer disparities against rows that three separate writings of the
definition worked out, and against what follows from the definition."""

import unittest
from unittest import mock

import reference_inputs as inputs
import reference_matching as matching
import test_reference
from random_inputs import Draw, layered


class Case:
    """Two planes, a map, and the span."""

    def __init__(self, left, right, found, count, first=0):
        self.left, self.right, self.found, self.count, self.first = left, right, found, count, first

    def samples(self, x, y):
        """The window of the left plane, and those of the right one by their o."""
        own, missing = matching.left_samples(self.left, x, y)
        others, also = matching.right_samples(self.found, self.right, self.first, x, y)
        assert not (missing or also)
        return own, others

    def judged(self, x, y):
        """For each c its A, B and score."""
        small = matching.small_windows(*self.samples(x, y))
        both = matching.judged(*small, self.found[y][x], self.count)
        return {c: (a, b, matching.score(a, b)) for c, (a, b) in both.items()}

    def finer(self, x, y):
        span = self.first, self.count
        return matching.finer_value(self.found, self.left, self.right, *span, x, y)


def changed(plane, *changes):
    """The plane with each (x, y, value) put in."""
    made = [list(row) for row in plane]
    for x, y, value in changes:
        made[y][x] = value
    return made


SLOPE = Case(
    left=[
        [37, 37, 98, 80, 40, 34, 93, 135, 97, 54, 58, 113],
        [80, 73, 26, 78, 116, 103, 48, 18, 88, 94, 67, 62],
        [14, 37, 102, 56, 79, 113, 113, 64, 24, 92, 98, 65],
        [121, 97, 52, 26, 85, 65, 85, 124, 79, 20, 69, 111],
        [66, 98, 117, 79, 24, 86, 77, 84, 124, 63, 35, 67],
    ],
    right=[
        [37, 112, 60, 15, 90, 141, 77, 30, 120, 66, 101, 48],
        [80, 22, 97, 131, 55, 18, 104, 88, 40, 129, 71, 25],
        [14, 105, 49, 92, 133, 70, 21, 116, 84, 33, 109, 62],
        [121, 58, 26, 99, 44, 137, 83, 11, 95, 127, 36, 74],
        [66, 130, 87, 20, 108, 52, 138, 63, 28, 91, 117, 45],
    ],
    found=[
        [10, 13, 16, 19, 22, 25, 28, 31, 34, 37, 40, 43],
        [8, 11, 14, 17, 20, None, 26, 29, 32, 35, 38, 41],
        [6, 9, 12, 15, 18, 21, 24, 27, 30, 33, 36, 39],
        [4, 7, 10, 13, 16, 19, 22, 60, 28, 31, 34, 37],
        [2, 5, 8, 11, 14, 17, 20, 23, 26, 29, 32, 35],
    ],
    count=4,
)
SLOPE_SAMPLES = {
    8: [390, 1365, 2052, 1680, 950, 1792, 843, 362, 1234, 1536, 1718, 1939, 1120, 483, 1286]
    + [1144, 1169, 2084, 1382, 464, 1200, 1336, 1176, 2133, 1158],
    0: [510, 765, 1644, 2192, 1360, 1960, 1412, 658, 546, 1664, 1386, 1923, 1624, 875, 526]
    + [1584, 869, 1634, 1814, 1040, 496, 1640, 1056, 1606, 1758],
    -8: [870, 285, 1140, 1899, 1872, 1688, 2020, 1032, 473, 976, 1042, 1595, 2128, 1309, 630]
    + [1000, 1309, 890, 2099, 1544, 722, 936, 1504, 918, 2036],
}
SLOPE_OWN = [22, 16, 75, 117, 79, 98, 85, 30, 0, 70, 61, 95, 95, 46, 6]
SLOPE_OWN += [67, 47, 67, 106, 61, 6, 68, 59, 66, 106]
SLOPE_JUDGED = {
    0: (78043472, 10406555904, 149832528),
    -1: (71855505, 9476874150, 139474544),
    1: (77252197, 9535710954, 160216992),
    -2: (65667538, 8808639064, 125323531),
    2: (76460922, 8935323304, 167497667),
    -3: (59479571, 8401850646, 107795508),
    3: (75669647, 8605392954, 170338444),
    -4: (53291604, 8256508896, 88056436),
    4: (74878372, 8545919904, 167955388),
    -5: (47103637, 8372613814, 67840305),
    5: (74087097, 8756904154, 160462862),
    -6: (40915670, 8750165400, 48978225),
    6: (73295822, 9238345704, 148868977),
    -7: (34727703, 9389163654, 32882526),
    7: (72504547, 9990244554, 134708295),
    -8: (28539736, 10289608576, 20264739),
    8: (71713272, 11012600704, 119549882),
}

TIE = Case(
    left=[
        [42, 42, 53, 65, 78, 63, 51, 66, 66],
        [60, 65, 56, 56, 71, 87, 66, 45, 56],
        [51, 42, 36, 62, 85, 62, 36, 38, 49],
        [41, 36, 66, 87, 71, 56, 56, 67, 57],
        [61, 66, 51, 63, 78, 65, 53, 41, 49],
    ],
    right=[
        [20, 80, 35, 110, 60, 25, 95, 50, 70],
        [90, 30, 75, 45, 120, 65, 15, 85, 40],
        [55, 10, 70, 100, 70, 10, 55, 33, 77],
        [15, 65, 120, 45, 75, 30, 90, 61, 19],
        [95, 25, 60, 110, 35, 80, 20, 44, 88],
    ],
    found=[9 * [16]] * 5,
    count=3,
)
TIE_SAMPLES = {
    8: [920, 1160, 1360, 680, 960, 840, 960, 1320, 1480, 640, 640, 1360, 1360, 640, 520]
    + [1480, 1320, 960, 840, 960, 680, 1360, 1160, 920, 800],
    0: [1280, 560, 1760, 960, 400, 480, 1200, 720, 1920, 1040, 160, 1120, 1600, 1120, 160]
    + [1040, 1920, 720, 1200, 480, 400, 960, 1760, 560, 1280],
    -8: [800, 920, 1160, 1360, 680, 960, 840, 960, 1320, 1480, 520, 640, 1360, 1360, 640]
    + [640, 1480, 1320, 960, 840, 960, 680, 1360, 1160, 920],
}
TIE_OWN = [17, 29, 42, 27, 15, 20, 20, 35, 51, 30, 0, 26, 49, 26, 0]
TIE_OWN += [30, 51, 35, 20, 20, 15, 27, 42, 29, 17]
# By the distance from 0, on both sides of which they are the same.
TIE_JUDGED = [
    (26508800, 10711040000, 16795326),
    (24952840, 9006073600, 17698825),
    (23396880, 7529446400, 18611990),
    (21840920, 6281158400, 19442050),
    (20284960, 5261209600, 20021779),
    (18729000, 4469600000, 20090950),
    (17173040, 3906329600, 19327044),
    (15617080, 3571398400, 17482411),
    (14061120, 3464806400, 14608338),
]

FLAT = [9 * [50]] * 5
# A right plane that says less than a third of the left one of TIE.
OTHER = [row[1:10] for row in SLOPE.right]
# A left plane that shows it at a disparity of 40 sixteenths, but for the first columns.
AT_FORTY = [[(row[max(0, x - 3)] + row[max(0, x - 2)]) // 2 for x in range(9)] for row in OTHER]


class Worked(unittest.TestCase):
    def check_samples(self, case, x, y, samples, own, least):
        ours, others = case.samples(x, y)
        self.assertEqual(others, samples)
        self.assertEqual(ours, [sample + least[0] for sample in own])
        e = {o: [sample - least[1] for sample in samples[o]] for o in samples}
        self.assertEqual(matching.small_windows(ours, others), (own, e))

    def test_slope(self):
        self.assertEqual(matching.slope_sums(SLOPE.found, 6, 2), (148, 48, -102, 48))
        slopes = [-6, -3, 0, 3, 6], [4, 2, 0, -2, -4]
        self.assertEqual(matching.slopes(SLOPE.found, 6, 2), slopes)
        self.check_samples(SLOPE, 6, 2, SLOPE_SAMPLES, SLOPE_OWN, (18, 285))
        self.assertEqual(SLOPE.judged(6, 2), SLOPE_JUDGED)
        self.assertEqual(matching.product_of(SLOPE_OWN, SLOPE_OWN), 671796)
        both = 3 * 75669647**2, 671796 * 8605392954
        self.assertEqual(both, (17177686431313827, 5781068564925384))
        self.assertEqual(SLOPE.finer(6, 2), (27, None))

    def test_tie(self):
        self.assertEqual(matching.slope_sums(TIE.found, 4, 2), (0, 50, 0, 50))
        self.assertEqual(matching.slopes(TIE.found, 4, 2), (5 * [0], 5 * [0]))
        self.check_samples(TIE, 4, 2, TIE_SAMPLES, TIE_OWN, (36, 160))
        self.assertEqual(TIE.judged(4, 2), {c: TIE_JUDGED[abs(c)] for c in range(-8, 9)})
        self.assertEqual(matching.product_of(TIE_OWN, TIE_OWN), 109596)
        both = 3 * 18729000**2, 109596 * 4469600000
        self.assertEqual(both, (1052326323000000, 489850281600000))
        self.assertEqual(TIE.finer(4, 2), (11, None))

    def test_mean(self):
        for found, answer in [
            ([[10, 20, 26], [None, 10, 27], [9, 0, 11]], 12),
            ([[0, 1, None], [None, 0, None], [None, None, 400]], 0),
            ([[5, None, None], [None, 4, None], [None, None, None]], 5),
        ]:
            self.assertEqual(matching.mean(found, 1, 1), answer)
            self.assertEqual(matching.means(found)[1][1], answer)

    def test_values_that_stay(self):
        plain = [9 * [16]] * 5
        void_left, void_right = changed(TIE.left, (6, 4, None)), changed(TIE.right, (0, 0, None))
        for left, right, found, x, value, why in [
            (TIE.left, TIE.right, plain, 1, 16, "left (-1, 0) is void or outside"),
            (void_left, TIE.right, plain, 4, 16, "left (6, 4) is void or outside"),
            (TIE.left, void_right, plain, 4, 16, "right (0, 0) is void or outside"),
            (TIE.left, TIE.right, [9 * [20]] * 5, 3, 20, "right (-1, 0) is void or outside"),
            (FLAT, TIE.right, plain, 4, 16, "no score"),
            (TIE.left, FLAT, plain, 4, 16, "no score"),
            (TIE.left, OTHER, plain, 4, 16, "less than a third"),
        ]:
            self.assertEqual(Case(left, right, found, 3).finer(x, 2), (value, why))
        # What isn't needed may be missing: the columns behind the sixth one.
        free = [row[:7] + [None, None] for row in TIE.right]
        self.assertEqual(Case(TIE.left, free, plain, 3).finer(4, 2), (11, None))
        free[4][6] = None
        void = "right (6, 4) is void or outside"
        self.assertEqual(Case(TIE.left, free, plain, 3).finer(4, 2), (16, void))

    def test_ends_of_the_span(self):
        found = [9 * [32]] * 5
        scores = Case(AT_FORTY, OTHER, found, 4).judged(5, 2)
        self.assertEqual(max(scores, key=lambda c: scores[c][2]), 8)
        for count, value in ((4, 40), (3, 32)):
            case = Case(AT_FORTY, OTHER, found, count)
            self.assertEqual(case.finer(5, 2), (value, None))
            self.assertEqual(set(case.judged(5, 2)), set(range(-8, 9 if count == 4 else 1)))
        # The same surface where disparities begin at 2: there the map has 32 less.
        low = Case(AT_FORTY, OTHER, [9 * [5]] * 5, 4, first=2)
        self.assertEqual(set(low.judged(5, 2)), set(range(-5, 9)))
        self.assertEqual(low.finer(5, 2), (8, None))
        # One disparity alone has one value.
        self.assertEqual(set(Case(AT_FORTY, OTHER, [9 * [0]] * 5, 1, first=2).judged(5, 2)), {0})


def windows(draw, most):
    """Samples of a left and a right window, whose right one mostly looks like the left one."""
    own = [draw.below(most + 1) for _ in matching.WINDOW]
    gain, noise = draw.of([0, 1, 1, 1]), draw.of([0, 1, most // 8, most])
    of = lambda sample: 16 * min(most, gain * sample + draw.below(noise + 1))
    return own, {o: [of(sample) for sample in own] for o in matching.READ}


class Laws(unittest.TestCase):
    def scores(self, own, others):
        own, e = matching.small_windows(own, others)
        return matching.product_of(own, own), matching.judged(own, e, 100, 20)

    def test_bytes_lose_nothing(self):
        """With samples up to 255 nothing is halved, and the least of them may be taken away."""
        draw = Draw(51, 1)
        for _ in range(40):
            own, others = windows(draw, 255)
            v, scores = self.scores(own, others)
            self.assertEqual(v, matching.product_of(own, own))
            self.assertEqual(scores, matching.judged(own, others, 100, 20))

    def test_greatest_numbers(self):
        draw = Draw(51, 2)
        for number in range(120):
            own, others = windows(draw, draw.of([1, 255, 4095, 65535]))
            small, e = matching.small_windows(own, others)
            self.assertTrue(min(small) == 0 and max(small) <= 255)
            self.assertTrue(min(map(min, e.values())) == 0 and max(map(max, e.values())) <= 4095)
            v, scores = self.scores(own, others)
            self.assertLessEqual(v, 10143900)
            for a, b in scores.values():
                self.assertTrue(abs(a) <= 1303192800 and 0 <= b <= 167421945600)
                self.assertLessEqual(a * a, v * b)
                self.assertTrue(0 <= matching.score(a, b) < 512 * max(1, v))
        # Black and white in equal parts reach them.
        own = [65535 * (at % 2) for at in range(25)]
        v, scores = self.scores(own, {o: [16 * sample for sample in own] for o in matching.READ})
        self.assertEqual((v, scores[0]), (10143900, (1303192800, 167421945600)))
        self.assertEqual(matching.score(*scores[0]), 1303192800**2 // (167421945600 // 256))

    def test_constants(self):
        """What is added to all samples, or multiplies all of the right plane, decides nothing."""
        plain = TIE.finer(4, 2)
        for own, right, times in [(0, 1000, 1), (1000, 0, 1), (64000, 300, 1), (0, 0, 2)]:
            left_plane = [[own + sample for sample in row] for row in TIE.left]
            right_plane = [[right + times * sample for sample in row] for row in TIE.right]
            self.assertEqual(Case(left_plane, right_plane, TIE.found, 3).finer(4, 2), plain)

    def test_made_small(self):
        for samples, limit, small in [
            ([7, 7], 256, [0, 0]),
            ([0, 255], 256, [0, 255]),
            ([1, 257], 256, [0, 128]),
            ([3, 4, 260], 256, [0, 0, 128]),
            ([0, 511], 256, [0, 255]),
            ([0, 512], 256, [0, 128]),
            ([0, 65535], 256, [0, 255]),
            ([5, 4100], 4096, [0, 4095]),
            ([5, 4101], 4096, [0, 2048]),
            ([0, 1048560], 4096, [0, 4095]),
        ]:
            self.assertEqual(matching.made_small(samples, limit), small)

    def test_scores(self):
        cases = [(16, 256, 256), (16, 255, 0), (-16, 256, 0), (0, 256, 0), (1, 1000, 0)]
        for a, b, score in [*cases, (100, 511, 10000), (100, 512, 5000)]:
            self.assertEqual(matching.score(a, b), score)

    def test_sampled(self):
        row = [[10, 20, None, 40]]
        for u, answer in [(0, (160, None)), (8, (240, None)), (16, (320, None)), (48, (640, None))]:
            self.assertEqual(matching.sampled(row, u, 0), answer)
        for u, column in [(17, 2), (32, 2), (40, 2), (49, 4), (-1, -1), (-16, -1), (64, 4)]:
            self.assertEqual(matching.sampled(row, u, 0), (None, (column, 0)))

    def test_near_enough(self):
        """A slope takes disparities that differ by 32, and a mean those that differ by 16."""
        flat = [5 * [100] for _ in range(5)]
        for value, sums in [(132, 64), (133, 0), (68, -64), (67, 0)]:
            found = changed(flat, (4, 2, value))
            without = abs(value - 100) > 32
            self.assertEqual(matching.slope_sums(found, 2, 2), (sums, 46 if without else 50, 0, 50))
        for value, mean in [(116, 102), (117, 100), (84, 98), (83, 100)]:
            self.assertEqual(matching.mean(changed(flat, (3, 2, value)), 2, 2), mean)
        # Each mean is of the map as it was.
        self.assertEqual(matching.means([[0, 16, 32, 48]]), [[8, 16, 32, 40]])
        # The steepest slope: one neighbour alone, one pixel away.
        alone = changed([5 * [None]] * 5, (2, 2, 0), (3, 2, 32), (2, 1, 32))
        steepest = [-64, -32, 0, 32, 64]
        self.assertEqual(matching.slopes(alone, 2, 2), (steepest, steepest[::-1]))
        # And none where nothing lies beside.
        self.assertEqual(matching.slopes([[None, 7, None]], 1, 0), (5 * [0], 5 * [0]))
        self.assertEqual(matching.slope_sums([[0, 7, 90]], 1, 0), (7, 1, 0, 0))

    def test_halves_go_up(self):
        self.assertEqual(matching.slopes([[0, 0, 1]], 1, 0)[0], [-1, 0, 0, 1, 1])
        self.assertEqual(matching.mean([[1, 2]], 0, 0), 2)
        self.assertEqual(matching.mean([[5, 4]], 1, 0), 5)

    def test_no_disparity_comes_or_goes(self):
        found = changed(SLOPE.found, (0, 0, None), (8, 4, None))
        fine = matching.finer_values(found, SLOPE.left, SLOPE.right, 0, 4)
        for made in (fine, matching.means(fine)):
            holes = [[value is None for value in row] for row in made]
            self.assertEqual(holes, [[value is None for value in row] for row in found])


class Whole(unittest.TestCase):
    """Whole matches. In the worked pair no pixel has a window, and the means change nothing."""

    FILES = test_reference.WorkedThirdVersion.FILES
    FINE = FILES["c.json"].replace(b'"fine":false', b'"fine":true')

    def found(self, text):
        calibration = inputs.read_calibration(text)
        pair = [inputs.read_pgm(self.FILES[name], "left") for name in ("l.pgm", "r.pgm")]
        return matching.survey(*pair, calibration)[0]

    def line(self, text):
        line = test_reference.line_of(inputs.read_calibration, text)
        return line and line.removeprefix("calibration: ")

    def test_worked_pair(self):
        with mock.patch.object(inputs, "TAKES_FINE", True):
            self.assertEqual(self.found(self.FINE), 3 * [[None, 0, 0, 0, 0]])
            self.assertEqual(self.found(self.FINE), self.found(self.FILES["c.json"]))

    def test_before_peaks_and_filling(self):
        """They take the place of what the check has left, and what comes behind reads them."""
        draw, sides, first, count = Draw(51, 3), (24, 12), -1, 6
        both = layered(draw, *sides, 255, first, count)
        images = [inputs.Image(*sides, 255, samples) for samples in both]
        calibration = inputs.Calibration()
        calibration.version, calibration.window = 3, (5, 5)
        calibration.first, calibration.count = first, count
        planes = [matching.rectify(image, calibration.left) for image in images]
        found, matched = matching.match_planes(*planes, None, calibration)
        calibration.is_fine = True
        fine = matching.means(matching.finer_values(found, *planes, first, count))
        self.assertEqual(matching.match_planes(*planes, None, calibration), (fine, matched))
        differ = sum(one != other for rows in zip(found, fine) for one, other in zip(*rows))
        self.assertGreater(differ, 40)
        filled = matching.filled(matching.kept(fine, 9), matched, planes[0], first, count)
        found = matching.survey(*images, calibration, peak=9, fill=1)[0]
        self.assertEqual(found, filled)

    def test_switch(self):
        # The key is judged before those of the census.
        even, census = self.FINE.replace(b'"width":3', b'"width":4'), "census.width is out of range"
        outside = "disparities.fine is out of range"
        for takes, lines in ((False, [outside, outside]), (True, [None, census])):
            with mock.patch.object(inputs, "TAKES_FINE", takes):
                self.assertEqual([self.line(text) for text in (self.FINE, even)], lines)
                for wrong in (b"0", b"1", b'"true"', b"null", b"[]"):
                    text = self.FINE.replace(b'"fine":true', b'"fine":' + wrong)
                    self.assertEqual(self.line(text), "disparities.fine has the wrong type")
        with mock.patch.object(inputs, "TAKES_FINE", True):
            self.assertTrue(inputs.read_calibration(self.FINE).is_fine)
            self.assertFalse(inputs.read_calibration(self.FILES["c.json"]).is_fine)
        self.assertFalse(inputs.Calibration().is_fine)


if __name__ == "__main__":
    unittest.main()
