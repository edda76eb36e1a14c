"""OpenCV's calibrations of a pair: how they are read, and what they become in a calibration of sgm."""

from __future__ import annotations

import math
from collections.abc import Sequence
from typing import Any

from sgm_tools.files import read_json
from sgm_tools.kinds import Floats, Ints, Json, Size
from sgm_tools.running import Wrong, need, numpy, package, progress

cv2 = package("cv2")
MICROMETRES = {"um": 1, "mm": 1000, "cm": 10000, "m": 1000000}
NAMES = {
    "K1": ("M1", "K1", "cameraMatrix1", "camera_matrix_1"),
    "D1": ("D1", "distCoeffs1", "distortion_coefficients_1"),
    "K2": ("M2", "K2", "cameraMatrix2", "camera_matrix_2"),
    "D2": ("D2", "distCoeffs2", "distortion_coefficients_2"),
    "R": ("R",),
    "T": ("T",),
    "R1": ("R1",),
    "R2": ("R2",),
    "P1": ("P1",),
    "P2": ("P2",),
}
LENS = [4, 5, 8, 12, 14]
COUNTS = {"K1": [9], "K2": [9], "D1": LENS, "D2": LENS, "R": [9], "T": [3]}
COUNTS |= {"R1": [9], "R2": [9], "P1": [12], "P2": [12]}
SHAPES = {9: (3, 3), 12: (3, 4)}
# Meshes: the steps that are tried, how close one has to be to the map in pixels, the range of a node's
# numbers, and how long a calibration may be in bytes.
STEPS = (64, 32, 16, 8, 4)
CLOSE_ENOUGH = 1 / 32
FARTHEST = 16777216
# No number of a camera is greater. NaN and infinity aren't up to it either.
MOST = 1e18


# Reading


def read_storage(name: str) -> Json:
    """The matrices and numbers of a YAML or XML file."""
    # A missing file is told first, and without OpenCV's messages.
    with open(name, "rb"):
        pass
    need(cv2=cv2)
    try:
        return found_in(cv2.FileStorage(name, cv2.FILE_STORAGE_READ), name)
    except (cv2.error, SystemError):
        raise Wrong(f"{name}: OpenCV can't read it")


def found_in(storage: Any, name: str) -> Json:
    if not storage.isOpened():
        raise Wrong(f"{name}: OpenCV can't read it")
    found = {}
    for key in storage.root().keys():
        node = storage.getNode(key)
        if node.isMap() and node.mat() is not None:
            found[key] = node.mat().tolist()
        elif node.isSeq():
            found[key] = [node.at(index).real() for index in range(node.size())]
        elif node.isInt() or node.isReal():
            found[key] = node.real()
    return found


def read_matrices(name: str) -> Json:
    """The same of a JSON file, in which a matrix as cv2.FileStorage writes it has its numbers under `data`."""
    top = read_json(name)
    return {key: value["data"] if isinstance(value, dict) and "data" in value else value for key, value in top.items()}


def flat(value: object) -> list[float]:
    """The numbers of a list of rows, or of a list."""
    if isinstance(value, list):
        return [number for part in value for number in flat(part)]
    if isinstance(value, bool) or not isinstance(value, (int, float)) or not abs(value) <= MOST:
        raise Wrong(f"{value!r:.60} isn't a number")
    return [float(value)]


def read_calibration(files: Sequence[str], size: Size | None) -> Json:
    """The parts by their names in NAMES, and `size`. R1, R2, P1, P2 are there together or not at all."""
    found: Json = {}
    for name in files:
        found |= read_matrices(name) if name.lower().endswith(".json") else read_storage(name)
    parts: Json = {}
    for part, names in NAMES.items():
        given = [found[name] for name in names if name in found]
        if given:
            parts[part] = flat(given[0])
            if len(parts[part]) not in COUNTS[part]:
                raise Wrong(f"{part} has {len(parts[part])} numbers")
    if not parts:
        raise Wrong(f"{files[0]}: not a stereo calibration of OpenCV: it has no camera matrix (K1 or M1)")
    rectified = {"R1", "R2", "P1", "P2"} & set(parts)
    missing = {"K1", "D1", "K2", "D2", "R", "T"} - set(parts)
    if missing and not (missing <= {"R", "T"} and len(rectified) == 4):
        raise Wrong(f"{' and '.join(sorted(missing))} missing")
    for part in rectified if len(rectified) < 4 else ():
        del parts[part]
    for part, numbers in parts.items():
        parts[part] = numpy.array(numbers).reshape(-1 if part[0] == "D" else SHAPES.get(len(numbers), -1))
    parts["size"] = size or size_in(found)
    if not all(1 <= side <= 4096 for side in parts["size"]):
        raise Wrong("sides of the pictures are 1 to 4096")
    return parts


def size_in(found: Json) -> Size:
    if "imageSize" in found:
        sides = flat(found["imageSize"])
    elif "image_width" in found and "image_height" in found:
        sides = flat([found["image_width"], found["image_height"]])
    else:
        raise Wrong("the size of the pictures is missing: --size WxH")
    if len(sides) != 2 or not all(side.is_integer() for side in sides):
        raise Wrong("the size of the pictures isn't two whole numbers")
    return int(sides[0]), int(sides[1])


# Meshes


def distorted(lens: Sequence[float], x: Floats, y: Floats) -> tuple[Floats, Floats]:
    """Where the lens shows what would stand at (x, y), both in focal lengths from the axis."""
    k1, k2, p1, p2, k3, k4, k5, k6, s1, s2, s3, s4, tilt_x, tilt_y = [*lens] + [0.0] * (14 - len(lens))
    if tilt_x or tilt_y:
        raise Wrong("a distortion with a tilted sensor isn't known here")
    q = x * x + y * y
    scale = (1 + ((k3 * q + k2) * q + k1) * q) / (1 + ((k6 * q + k5) * q + k4) * q)
    return (
        x * scale + 2 * p1 * x * y + p2 * (q + 2 * x * x) + s1 * q + s2 * q * q,
        y * scale + p1 * (q + 2 * y * y) + 2 * p2 * x * y + s3 * q + s4 * q * q,
    )


class View:
    """One camera of the pair, and how the rectified picture is taken from its picture."""

    def __init__(self, k: Floats, d: Sequence[float], rotation: Floats, p: Floats) -> None:
        self.k, self.d, self.back, self.p = k, d, numpy.linalg.inv(rotation), p

    def places(self, x: Floats, y: Floats) -> Floats:
        """The places in the camera's picture that the rectified pixels (x, y) show, in pixels, u and v last.

        This is the map of cv2.initUndistortRectifyMap, which goes from the rectified picture to the
        camera's, as a mesh of sgm does. It is given by its formula, so that it has values between the
        pixels and beyond the picture's sides, where the last nodes of a mesh may lie. NaN where the lens
        shows nothing.
        """
        k, p = self.k, self.p
        across, down = (x - p[0, 2]) / p[0, 0], (y - p[1, 2]) / p[1, 1]
        a, b, c = (row[0] * across + row[1] * down + row[2] for row in self.back)
        c = numpy.where(c > 0, c, numpy.nan)
        seen_x, seen_y = distorted(self.d, a / c, b / c)
        return numpy.stack([k[0, 0] * seen_x + k[0, 1] * seen_y + k[0, 2], k[1, 1] * seen_y + k[1, 2]], axis=-1)

    def nodes(self, size: Size, step: int) -> Ints:
        """Rows of places of nodes in 1/256 of a pixel, whole and within the ranges of a node."""
        cols, rows = ((side - 1) // step + 2 for side in size)
        y, x = numpy.mgrid[0:rows, 0:cols] * float(step)
        places = numpy.nan_to_num(256 * self.places(x, y), nan=-FARTHEST)
        nodes: Ints = numpy.rint(places.clip(-FARTHEST, FARTHEST)).astype(numpy.int64)
        return nodes

    def mesh(self, size: Size, step: int) -> Json:
        nodes = self.nodes(size, step)
        rows, cols, _ = nodes.shape
        return {"kind": "mesh", "step": step, "cols": cols, "rows": rows, "nodes": nodes.ravel().tolist()}

    def deviation(self, size: Size, step: int) -> float:
        """How far the mesh is from the map at most, in pixels, where the map leads into the picture.

        Tried in the middle of each cell and of its upper and left sides.
        """
        nodes, worst = self.nodes(size, step) / 256, 0.0
        rows, cols = nodes.shape[0] - 1, nodes.shape[1] - 1
        y, x = numpy.mgrid[0:rows, 0:cols]
        for across, down in ((1, 1), (1, 0), (0, 1)):
            places = self.places(step * (x + across / 2), step * (y + down / 2))
            corners = [nodes[j : rows + j, i : cols + i] for j in (0, down) for i in (0, across)]
            away = numpy.hypot(*numpy.moveaxis(places - sum(corners) / 4, -1, 0))
            is_inside = ((places >= 0) & (places <= numpy.array(size) - 1)).all(axis=-1)
            worst = max(worst, float(away[is_inside].max(initial=0.0)))
        return worst


def finest_needed(views: Sequence[View], size: Size) -> tuple[int, float]:
    """The largest step at which both meshes are close enough to the map, else the least; and their deviation."""
    for step in STEPS:
        progress(f"trying meshes of step {step}")
        worst = max(view.deviation(size, step) for view in views)
        if worst <= CLOSE_ENOUGH:
            break
    return step, worst


# The camera


def rectification(parts: Json, is_centred: bool, alpha: float | None) -> Sequence[Floats]:
    """R1, R2, P1, P2 of cv2.stereoRectify; those of the files where no option asks for others."""
    if "P1" in parts and alpha is None and not is_centred:
        return [parts[name] for name in ("R1", "R2", "P1", "P2")]
    if "T" not in parts or "R" not in parts:
        raise Wrong("R and T are missing")
    need(cv2=cv2)
    flags = 0 if is_centred else cv2.CALIB_ZERO_DISPARITY
    cameras = [parts[name] for name in ("K1", "D1", "K2", "D2")] + [parts["size"], parts["R"], parts["T"]]
    try:
        made = cv2.stereoRectify(*cameras, flags=flags, alpha=-1 if alpha is None else alpha)
    except cv2.error as error:
        raise Wrong(f"no cameras have these numbers: {error.err}")
    first: Sequence[Floats] = made[:4]
    return first


def camera_of(
    p1: Floats, p2: Floats, micrometres: int, mount: int, near: int, far: int
) -> dict[str, int]:
    """The camera's keys. Both pictures have one focal length and one row of the principal point."""
    if not all(numpy.isfinite(p).all() and p[0, 0] > 0 for p in (p1, p2)):
        raise Wrong("no cameras have these numbers")
    equal = [(p1[0][0], p1[1][1]), (p1[0][0], p2[0][0]), (p1[1][2], p2[1][2])]
    if not all(math.isclose(a, b, abs_tol=0.01) for a, b in equal):
        raise Wrong("P1 and P2 aren't those of a rectified pair")
    if abs(p2[1][3]) > abs(p2[0][3]):
        raise Wrong("the cameras stand one above the other: turn the pictures and calibrate anew")
    baseline = round(-p2[0][3] / p2[0][0] * micrometres)
    if baseline < 1:
        raise Wrong("the second camera stands to the left of the first one: exchange them")
    return {
        "focal": round(256 * p1[0][0]),
        "baseline": baseline,
        "cx": round(256 * p1[0][2]),
        "cy": round(256 * p1[1][2]),
        # A point at the distance Z is at cx1 + f X / Z in the left picture and at cx2 + f (X - B) / Z in
        # the right one. So its disparity is f B / Z less (cx2 - cx1), and what has to be added to a
        # disparity to make it f B / Z is the right principal point's column less the left one's.
        "doffs": round(256 * (p2[0][2] - p1[0][2])),
        "mount": mount,
        "near": near,
        "far": far,
    }


def disparities_of(camera: dict[str, int], first: int | None, count: int | None) -> dict[str, int]:
    """The span from the farthest distance to the nearest one, where it isn't given."""
    scale, doffs = camera["focal"] * camera["baseline"], camera["doffs"]
    if first is None:
        first = (scale - doffs * camera["far"]) // (256 * camera["far"])
    if count is None:
        last = -((doffs * camera["near"] - scale) // (256 * camera["near"]))
        count = last - first + 1
    if not (-1024 <= first <= 1024 and 1 <= count <= 256):
        raise Wrong(f"first {first} and count {count}: the first disparity is -1024 to 1024, the count 1 to 256")
    return {"first": first, "count": count}


# What a match takes


# The most cells of versions 1 and 2, being pixels times disparities, and what one takes: bytes beside those of a pixel and of a
# cell of the grid, and seconds of one worker on a processor of 2.5 GHz, as measured.
MOST_CELLS = 268435456
BYTES_OF_CELL, BYTES_OF_PIXEL, BYTES_OF_GRID = 3, 45, 16
SECONDS_OF_CELL = 7e-9


def cost(size: Size, count: int, grid: Sequence[int] | None, version: int | None) -> str:
    """The cells that are compared, and about how much memory and time they take."""
    pixels = size[0] * size[1]
    cells = pixels * count
    if version != 3 and cells > MOST_CELLS:
        advice = "scale the pictures down before calibrating, bring --near and --far closer together, or take --version 3"
        raise Wrong(f"{size[0]} x {size[1]} x {count} are {cells} cells, {MOST_CELLS} at most: {advice}")
    memory = BYTES_OF_CELL * cells + BYTES_OF_PIXEL * pixels + BYTES_OF_GRID * (grid[3] * grid[4] if grid else 0)
    takes = f"about {memory // 1000000 + 1} MB of memory and {seconds(cells)} with one worker"
    return f"{cells} cells{'' if version == 3 else f' of {MOST_CELLS} at most'}: {takes}"


def seconds(cells: int) -> str:
    about = SECONDS_OF_CELL * cells
    return f"{about:.0f} seconds" if about >= 3 else f"{max(about, 0.1):.1f} seconds"
