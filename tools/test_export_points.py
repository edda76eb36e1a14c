#!/usr/bin/env python3
"""Tries sgm_points.py on worked rows and beside the separate implementation, and export_points.py on a worked match with a pose, reading the point cloud by
hand. Warps of whole pictures are compared with those of check_trace.py, pixel by pixel."""

import json
import os
import random
import struct
import subprocess
import sys
import tempfile
import unittest

HERE = os.path.dirname(os.path.abspath(__file__))
sys.path.insert(0, os.path.join(HERE, "..", "tests"))

import reference_matching as matching
from sgm_tools import certificates, running, warps
from sgm_tools import points as sgm_points
from sgm_tools.points import ONE, Pose
from sgm_tools.running import numpy

IDENTITY = [ONE, 0, 0, 0, ONE, 0, 0, 0, ONE]
QUARTER = [0, -ONE, 0, ONE, 0, 0, 0, 0, ONE]
TILT = [ONE, 0, 0, 0, 858993459, -644245094, 0, 644245094, 858993459]
HALF = [ONE // 2, 0, 0, 0, ONE, 0, 0, 0, ONE]
# The worked match: five columns and three rows, the first column without a disparity.
WORKED = {
    "version": 3,
    "disparities": {"first": 0, "count": 2, "fine": True},
    "census": {"width": 3, "height": 3},
    "penalties": {"p1": 1, "p2": 3, "adapt": False},
    "warp": {
        "left": {"kind": "projective", "matrix": [1, 0, -1, 0, 1, 0, 0, 0, 1]},
        "right": {"kind": "identity"},
    },
    "camera": {
        "focal": 25600,
        "baseline": 1000,
        "cx": 0,
        "cy": 0,
        "doffs": 256,
        "mount": 150000,
        "near": 1,
        "far": 1000000,
    },
    "pose": {"matrix": TILT, "east": 0, "north": -1, "up": 7},
    "grid": {"west": 600, "south": -32001, "cell": 800, "cols": 5, "rows": 3, "keep": "mean", "bridge": 1},
}
LEFT = [90, 10, 50, 20, 40, 15, 70, 30, 60, 25, 80, 35, 55, 45, 65]
DISPARITIES = [0, 16, 16, 16, 16] * 3
POINTS = [
    *((east, -30001, 40007) for east in (1000, 2000, 3000, 4000)),
    *((east, -30801, 39407) for east in (1000, 2000, 3000, 4000)),
    *((east, -31601, 38807) for east in (1000, 2000, 3000, 4000)),
]
HEIGHTS = [[40007] * 5, [39407] * 5, [38807] * 5]
# The left picture's values behind the points: the warp takes each pixel from one column further left.
GREYS = [90, 10, 50, 20, 15, 70, 30, 60, 80, 35, 55, 45]
SIZES = {"uchar": "B", "float": "f", "double": "d"}


def setUpModule():
    running.need_for_tests(numpy=numpy)


def pgm(samples, width, most):
    kind = ">u2" if most > 255 else "u1"
    head = f"P5\n{width} {len(samples) // width}\n{most}\n".encode()
    return head + numpy.array(samples, kind).tobytes()


def grid_text(grid, rows):
    names = ("ncols", "nrows", "xllcorner", "yllcorner", "cellsize")
    lines = [f"{name} {grid[key]}" for name, key in zip(names, ("cols", "rows", "west", "south", "cell"))]
    lines += ["NODATA_value -2147483648", *(" ".join(map(str, row)) for row in rows)]
    return "\n".join(lines) + "\n"


def read_ply(data):
    """The comments, the names of the properties and the vertices of a binary PLY."""
    head, _, body = data.partition(b"end_header\n")
    lines = head.decode("ascii").splitlines()
    assert lines[:2] == ["ply", "format binary_little_endian 1.0"], lines
    comments = [line.removeprefix("comment ") for line in lines if line.startswith("comment ")]
    properties = [line.split()[1:] for line in lines if line.startswith("property ")]
    (count,) = (int(line.split()[2]) for line in lines if line.startswith("element "))
    one = struct.Struct("<" + "".join(SIZES[kind] for kind, _ in properties))
    assert len(body) == count * one.size, (len(body), count, one.size)
    return comments, [name for _, name in properties], list(one.iter_unpack(body))


class Points(unittest.TestCase):
    GREATEST = 35651072000000000
    ROWS = [
        (IDENTITY, (0, 0, 0), (7, -7, 3), (7, -7, 3)),
        (IDENTITY, (0, 0, 0), (-1, 0, -2000000000), (-1, 0, -2000000000)),
        (IDENTITY, (100, -200, 5), (7, -7, 3), (107, -207, 8)),
        (IDENTITY, (100, -200, 5), (0, 0, 1999999995), (100, -200, 2000000000)),
        (IDENTITY, (100, -200, 5), (0, 0, 1999999996), None),
        (IDENTITY, (0, 0, -5), (0, 0, -1999999995), (0, 0, -2000000000)),
        (IDENTITY, (0, 0, -5), (0, 0, -1999999996), None),
        (QUARTER, (0, 0, 0), (5, 3, 2), (-3, 5, 2)),
        (QUARTER, (0, 0, 0), (-5, 3, 2), (-3, -5, 2)),
        (TILT, (0, 0, 0), (1, 10, 5), (1, 5, 10)),
        (TILT, (0, 0, 0), (1, -10, -5), (1, -5, -10)),
        (TILT, (0, 0, 0), (1, 3, 1), (1, 2, 3)),
        (TILT, (0, 0, 0), (-1, -3, -1), (-1, -2, -3)),
        (TILT, (0, 0, 0), (0, 0, 5), (0, -3, 4)),
        (TILT, (0, 0, 0), (0, 5, 0), (0, 4, 3)),
        (TILT, (0, 0, 0), (0, 5, -5), (0, 7, -1)),
        (TILT, (0, 0, 0), (0, -5, 5), (0, -7, 1)),
        (TILT, (0, 0, 0), (0, 1000000000, 0), (0, 800000000, 600000000)),
        (TILT, (0, 0, 0), (0, 0, 1000000000), (0, -600000000, 800000000)),
        (HALF, (0, 0, 0), (1, 0, 0), (1, 0, 0)),
        (HALF, (0, 0, 0), (-1, 0, 0), (0, 0, 0)),
        (HALF, (0, 0, 0), (3, 0, 0), (2, 0, 0)),
        (HALF, (0, 0, 0), (-3, 0, 0), (-1, 0, 0)),
    ]

    def test_worked_rows(self):
        for matrix, shifts, point, wanted in self.ROWS:
            found = Pose(matrix, *shifts).of(*point)
            in_arrays = Pose(matrix, *shifts).of(*(numpy.array([it], numpy.int64) for it in point))
            self.assertEqual(found, tuple(int(it[0]) for it in in_arrays))
            is_point = abs(found[2]) <= sgm_points.MOST_LENGTH
            self.assertEqual(found if is_point else None, wanted)

    def test_greatest(self):
        """sqrt(1/2) twice: 759250125 of 2^30."""
        most, half = self.GREATEST, 759250125
        matrix = [half, half, 0, -half, half, 0, 0, 0, ONE]
        for point in ((most, most, 0), (-most, -most, 7), (most, -most, -7)):
            exact = tuple(
                (2 * sum(m * it for m, it in zip(matrix[at : at + 3], point)) + ONE) // (2 * ONE)
                for at in (0, 3, 6)
            )
            self.assertEqual(Pose(matrix, 0, 0, 0).of(*point), exact)
            arrays = Pose(matrix, 0, 0, 0).of(*(numpy.array([it]) for it in point))
            self.assertEqual(tuple(int(it[0]) for it in arrays), exact)
        self.assertEqual(Pose(matrix, 2000000000, 0, 0).of(most, most, 0)[0], 50418231535937309)

    def test_drawn(self):
        draw = random.Random(54)
        for _ in range(300):
            matrix = [draw.randrange(-ONE, ONE + 1) for _ in range(9)]
            shifts = [draw.randrange(-(10**9), 10**9) for _ in range(3)]
            point = [draw.randrange(-self.GREATEST, self.GREATEST + 1) for _ in range(2)]
            point.append(draw.randrange(-2 * 10**9, 2 * 10**9))
            exact = tuple(
                shift + (2 * sum(m * it for m, it in zip(matrix[3 * at : 3 * at + 3], point)) + ONE) // (2 * ONE)
                for at, shift in enumerate(shifts)
            )
            arrays = Pose(matrix, *shifts).of(*(numpy.array([it]) for it in point))
            self.assertEqual(tuple(int(it[0]) for it in arrays), exact)
            self.assertEqual(Pose(matrix, *shifts).of(*point), exact)

    def test_way_back(self):
        pose = Pose(TILT, 12345, -678, 9)
        for point in ((1000000, -2000000, 3000000), (0, 0, 0), (7, 8, -9000000)):
            back = pose.back(*pose.of(*point))
            self.assertTrue(all(abs(a - b) <= 2 for a, b in zip(back, point)), back)

    def test_nearly_a_rotation(self):
        def changed(**numbers):
            matrix = list(IDENTITY)
            for key, value in numbers.items():
                matrix[int(key[1:])] = value
            return matrix

        for matrix, products, is_good in [
            (IDENTITY, [0] * 6, True),
            (QUARTER, [0] * 6, True),
            (TILT, [0, -858993459, -858993459, 0, 0, 0], True),
            (changed(m8=-ONE), [0] * 6, True),
            ([0] * 9, [-(ONE**2)] * 3 + [0] * 3, False),
            (changed(m0=ONE - 16384), [-35184103653376, 0, 0, 0, 0, 0], True),
            (changed(m0=ONE - 16385), [-35186251104255, 0, 0, 0, 0, 0], False),
            (changed(m8=ONE - 16384), [0, 0, -35184103653376, 0, 0, 0], True),
            (changed(m8=ONE - 16385), [0, 0, -35186251104255, 0, 0, 0], False),
            (changed(m1=32768), [1073741824, 0, 0, 35184372088832, 0, 0], True),
            (changed(m1=32769), [1073807361, 0, 0, 35185445830656, 0, 0], False),
            (changed(m5=-32768), [0, 1073741824, 0, 0, 0, -35184372088832], True),
            (changed(m5=-32769), [0, 1073807361, 0, 0, 0, -35185445830656], False),
            (changed(m1=2**23, m3=-(2**23)), [70368744177664, 70368744177664, 0, 0, 0, 0], False),
            (changed(m1=5931641, m3=-5931641), [35184364952881, 35184364952881, 0, 0, 0, 0], True),
            (changed(m1=5931642, m3=-5931642), [35184376816164, 35184376816164, 0, 0, 0, 0], False),
            (changed(m0=ONE + 1), [2147483649, 0, 0, 0, 0, 0], False),
        ]:
            self.assertEqual((sgm_points.products(matrix), sgm_points.is_nearly_rotation(matrix)), (products, is_good))
        self.assertFalse(sgm_points.is_mirror(TILT))
        self.assertTrue(sgm_points.is_mirror(changed(m8=-ONE)))

    def test_refused_poses(self):
        for pose in (7, {}, {**WORKED["pose"], "matrix": IDENTITY[:8]}, {**WORKED["pose"], "up": 2000000001}):
            with self.assertRaises(running.Wrong):
                sgm_points.Points({**WORKED, "pose": pose})

    def test_of_a_match(self):
        points = sgm_points.Points(WORKED)
        values = numpy.array(DISPARITIES, numpy.int64).reshape(3, 5) - 16
        xs, ys, found, *place = points.in_picture(values, values >= 0)
        self.assertEqual([tuple(map(int, it)) for it in zip(*place)], POINTS)
        one_by_one = [points.of(int(x), int(y), int(value)) for x, y, value in zip(xs, ys, found)]
        self.assertEqual(one_by_one, POINTS)
        self.assertEqual(points.centre(), (0, -90001, 120007))

    def test_beside_the_reference(self):
        """Cameras and poses drawn at random, and the ends of their ranges."""
        draw, most = random.Random(55), 2000000000
        for _ in range(200):
            camera = {
                "focal": draw.choice([1, 25600, 256000, 16777216]),
                "baseline": draw.choice([1, 1000, 1600000, most]),
                "doffs": draw.choice([0, -256, 300, 16777216]),
                "mount": draw.choice([0, 150000, most]),
                "near": 1,
                "far": draw.choice([10**6, most]),
            }
            camera |= {key: draw.choice([-16777216, 0, 4711, 16777216]) for key in ("cx", "cy")}
            matrix = draw.choice([IDENTITY, QUARTER, TILT])
            shifts = {key: draw.choice([-most, -7, 0, 123456, most]) for key in sgm_points.SHIFTS}
            pose = draw.choice([None, {"matrix": matrix, **shifts}])
            first = draw.choice([-1024, 0, 1, 700])
            whole = {"version": 3, "disparities": {"first": first}, "camera": camera}
            points = sgm_points.Points(whole if pose is None else {**whole, "pose": pose})
            xs, ys = (numpy.array([draw.choice([0, 1, 77, 4095]) for _ in range(20)]) for _ in range(2))
            values = numpy.array([draw.randrange(16 * 256) for _ in range(20)])
            *place, there = points.of_all(xs, ys, values)
            for at in range(20):
                x, y, value = int(xs[at]), int(ys[at]), int(values[at])
                wanted = matching.point(camera, x, y, 16 * first + value)
                if wanted is not None and pose is not None:
                    wanted = matching.in_site(pose, wanted)
                self.assertEqual(points.of(x, y, value), wanted)
                self.assertEqual(tuple(int(it[at]) for it in place) if there[at] else None, wanted)

    def test_height_out_of_range(self):
        high = sgm_points.Points({**WORKED, "pose": {**WORKED["pose"], "up": 1999960000}})
        self.assertEqual(high.of(1, 0, 0), (1000, -30001, 2000000000))
        higher = sgm_points.Points({**WORKED, "pose": {**WORKED["pose"], "up": 1999960001}})
        self.assertIsNone(higher.of(1, 0, 0))
        values = numpy.array(DISPARITIES, numpy.int64).reshape(3, 5) - 16
        found = higher.in_picture(values, values >= 0)
        self.assertEqual(set(map(int, found[1])), {1, 2})


class Warps(unittest.TestCase):
    WIDTH, HEIGHT = 23, 17

    def warps(self):
        yield {"kind": "identity"}
        yield {"kind": "projective", "matrix": [1000, 37, -900, -21, 990, 2500, 0, 1, 1000]}
        yield {"kind": "projective", "matrix": [2**40, 37, -(2**40), -21, 2**39, 2500, 0, 1, 2**40]}
        draw, step = random.Random(7), 8
        cols, rows = (self.WIDTH - 1) // step + 2, (self.HEIGHT - 1) // step + 2
        nodes = []
        for row in range(rows):
            for col in range(cols):
                nodes += [256 * step * it + draw.randrange(-500, 500) for it in (col, row)]
        yield {"kind": "mesh", "step": step, "cols": cols, "rows": rows, "nodes": nodes}

    def test_pixel_by_pixel(self):
        """Against the one that takes a pixel at a time."""
        draw = random.Random(8)
        samples = numpy.array([draw.randrange(60000) for _ in range(self.WIDTH * self.HEIGHT)], numpy.uint16)
        samples = samples.reshape(self.HEIGHT, self.WIDTH)
        ys, xs = (it.ravel() for it in numpy.mgrid[0 : self.HEIGHT, 0 : self.WIDTH])
        for warp in self.warps():
            one = certificates.Picture(samples, 65535, warp, (3, 3), 3)
            found = warps.Warp(warp, self.WIDTH, self.HEIGHT).rectified(samples, xs, ys)
            for x, y, value in zip(xs.tolist(), ys.tolist(), found.tolist()):
                wanted = one.value(x, y)
                self.assertEqual(value, -1 if wanted is None else wanted, (warp["kind"], x, y))

    def test_way_back(self):
        for warp in self.warps():
            it = warps.Warp(warp, self.WIDTH, self.HEIGHT)
            for place in ((5.0, 6.0), (11.3, 9.75), (20.5, 2.25), (8.0, 8.0)):
                back = it.back(*it.place(*place))
                for found, wanted in zip(back, place):
                    self.assertAlmostEqual(found, wanted, 2, msg=warp["kind"])
        far = warps.Warp(list(self.warps())[1], self.WIDTH, self.HEIGHT)
        self.assertIsNone(far.back(500.0, 3.0))

    def test_wrong_mesh(self):
        mesh = list(self.warps())[-1]
        with self.assertRaises(running.Wrong):
            warps.Warp(mesh, 40, self.HEIGHT)


class Tool(unittest.TestCase):
    def setUp(self):
        folder = tempfile.TemporaryDirectory()
        self.addCleanup(folder.cleanup)
        self.folder = folder.name
        files = {
            "l.pgm": pgm(LEFT, 5, 255),
            "o.pgm": pgm(DISPARITIES, 5, 65535),
            "c.json": json.dumps(WORKED).encode(),
            "o.asc": grid_text(WORKED["grid"], HEIGHTS).encode(),
            "site.json": b'{"offset": [412300, 5654100.125], "epsg": 25833}\n',
        }
        for name, data in files.items():
            with open(self.path(name), "wb") as file:
                file.write(data)

    def path(self, name):
        return os.path.join(self.folder, name)

    def run_tool(self, name, *words):
        command = [sys.executable, os.path.join(HERE, name), *words]
        done = subprocess.run(command, cwd=self.folder, capture_output=True, text=True)
        return done.returncode, done.stdout, done.stderr

    def cloud(self, *words):
        words = ("o.pgm", "--calib", "c.json", "--out", "p.ply", *words)
        self.assertEqual(self.run_tool("export_points.py", *words), (0, "12 points\n", ""))
        with open(self.path("p.ply"), "rb") as file:
            return read_ply(file.read())

    def test_points(self):
        comments, names, found = self.cloud()
        self.assertEqual((comments, names), (["metres: x east, y north, z up"], ["x", "y", "z"]))
        self.assertEqual([tuple(round(it * 1e6, 3) for it in point) for point in found], POINTS)

    def test_greys(self):
        _, names, found = self.cloud("--left", "l.pgm")
        self.assertEqual(names, ["x", "y", "z", "red", "green", "blue"])
        self.assertEqual([point[3:] for point in found], [(grey,) * 3 for grey in GREYS])

    def test_greys_of_16_bits(self):
        with open(self.path("l.pgm"), "wb") as file:
            file.write(pgm([257 * grey for grey in LEFT], 5, 65535))
        self.assertEqual([point[3] for point in self.cloud("--left", "l.pgm")[2]], GREYS)

    def test_offset(self):
        comments, _, found = self.cloud("--site", "site.json")
        said = ["metres: x east, y north, z up", "offset 412300 5654100.125 is in x and y", "epsg 25833"]
        self.assertEqual(comments, said)
        for point, (east, north, up) in zip(found, POINTS):
            wanted = (412300 + east / 1e6, 5654100.125 + north / 1e6, up / 1e6)
            self.assertTrue(all(abs(a - b) < 1e-8 for a, b in zip(point, wanted)), (point, wanted))
        self.assertEqual(self.cloud("--offset", "-1", "2.5")[0][1:], ["offset -1 2.5 is in x and y"])

    def test_float(self):
        comments, _, found = self.cloud("--site", "site.json", "--float")
        self.assertEqual(comments[1], "offset 412300 5654100.125 has to be added to x and y")
        for point, wanted in zip(found, POINTS):
            self.assertTrue(all(abs(a - b / 1e6) < 1e-8 for a, b in zip(point, wanted)), point)

    def test_without_a_pose(self):
        """From the left camera, as before: all at one height."""
        plain = {key: value for key, value in WORKED.items() if key != "pose"}
        with open(self.path("c.json"), "w") as file:
            json.dump(plain, file)
        _, _, found = self.cloud()
        wanted = [(1000 * x, -1000 * y, 50000) for y in range(3) for x in range(1, 5)]
        self.assertEqual([tuple(round(it * 1e6, 3) for it in point) for point in found], wanted)

    def test_refused(self):
        for name, text in (
            ("a.json", b"{"),
            ("b.json", b'{"offset": [1]}'),
            ("d.json", b'{"epsg": 7}'),
            ("e.json", b'{"offset": [1, true]}'),
            ("f.json", b'{"offset": [1, 2], "more": 3}'),
        ):
            with open(self.path(name), "wb") as file:
                file.write(text)
            words = ("o.pgm", "--calib", "c.json", "--out", "p.ply", "--site", name)
            status, out, err = self.run_tool("export_points.py", *words)
            self.assertEqual((status, out, err.count("\n")), (1, "", 1), err)
            self.assertTrue(err.startswith(f"export_points: {name}: not "), err)
        with open(self.path("l.pgm"), "wb") as file:
            file.write(pgm(LEFT, 3, 255))
        words = ("o.pgm", "--calib", "c.json", "--out", "p.ply", "--left", "l.pgm")
        ended = self.run_tool("export_points.py", *words)
        self.assertEqual(ended, (1, "", "export_points: l.pgm: not of the size of the disparities\n"))
        self.assertFalse(os.path.exists(self.path("p.ply")))

    def test_cells_of_a_pose(self):
        """Which pixels have made a cell, in the site's frame."""
        ended = self.run_tool("cell_pixels.py", "o", "3", "1", "--calib", "c.json")
        said = "cell 3 1: 0.039407 m, the mean of 1 pixels\n"
        said += "pixel 3 1: disparity 0, at 0.003, -0.030801, height 0.039407 m\n"
        self.assertEqual(ended, (0, said, ""))
        ended = self.run_tool("cell_pixels.py", "o", "2", "2", "--calib", "c.json")
        self.assertEqual(ended, (0, "cell 2 2: 0.038807 m, a bridge from cells around it\n", ""))


if __name__ == "__main__":
    unittest.main()
