#!/usr/bin/env python3
"""Makes photographs to try everything on, from the chessboard to the volume: two cameras whose lenses bend and
which look aslant at a chessboard and at the heap of examples/stockpile, beside which five targets lie.

    examples/photographs/make_photographs.py FOLDER

Writes FOLDER/left.png and FOLDER/right.png, the heap, and FOLDER/boards/left/01.png and so on, FOLDER/boards/right,
a board with 9 x 6 inner corners and squares of 250 mm. The cameras have unequal focal lengths and are 1.6 m apart.
They look 12 degrees aslant, are turned by 30 degrees, and the left one is 8.2 m above the ground. FOLDER/targets.csv
has the targets: their places in the left photograph to a tenth of a pixel, as they are found in it, and in the frame
of the site in metres, which is that of examples/stockpile. FOLDER/true.json has the numbers that a calibration should
find. Needs numpy, Pillow and OpenCV's package (cv2).
"""

import argparse
import functools
import json
import math
import os
import sys

HERE = os.path.dirname(os.path.abspath(__file__))
sys.path[:0] = [os.path.join(HERE, "..", "..", "tools"), os.path.join(HERE, "..", "stockpile")]

import make_stockpile as heap
from sgm_tools import files, running
from sgm_tools.running import Image, numpy

cv2 = running.package("cv2")

# Camera matrix, distortion, and the turn out of level of the left and the right camera.
LEFT = (
    ((150, 0, 163.0), (0, 151, 118.0), (0, 0, 1)),
    (-0.12, 0.02, 0.0006, -0.0004, 0.0),
    (0.01, -0.012, 0.02),
)
RIGHT = (
    ((152, 0, 157.0), (0, 152.5, 121.5), (0, 0, 1)),
    (-0.1, 0.015, -0.0005, 0.0003, 0.0),
    (-0.008, 0.015, -0.01),
)
FINE = 1_000_000
# Turns between the axes right, down and away and those right, up and back.
FLIP = numpy.diag([1.0, -1.0, -1.0]) if numpy is not None else None

# The board: inner corners, the side of a square in metres, and how it is held: the turn, and its middle's place
# from the left camera in metres, to the right, down and away.
BOARD, SQUARE = (9, 6), 0.25
POSES = [
    ((0.0, 0.0, 0.0), (0.8, 0.0, 3.0)),
    ((0.4, 0.0, 0.1), (0.8, -0.3, 2.8)),
    ((-0.4, 0.1, -0.1), (0.9, 0.4, 2.8)),
    ((0.0, 0.45, 0.05), (0.5, 0.2, 3.0)),
    ((0.1, -0.45, 0.0), (1.1, 0.0, 3.0)),
    ((0.3, 0.3, 0.3), (0.8, -0.4, 3.2)),
    ((-0.3, -0.3, 0.2), (0.7, 0.5, 3.2)),
    ((0.2, -0.2, -0.3), (1.2, 0.6, 3.6)),
    ((-0.2, 0.3, 0.15), (0.2, -0.7, 3.6)),
    ((0.5, 0.2, 0.0), (0.8, 0.1, 2.5)),
    ((-0.5, -0.1, 0.1), (1.3, -0.6, 3.4)),
    ((0.05, 0.5, -0.2), (0.4, 0.7, 3.3)),
]
# Each pixel of a board's or a target's picture is the mean of so many by so many places.
PARTS = 4

# The targets: plates of four squares, two of them white. Their names, the places of their middles in micrometres and
# on what they lie. TARGET is the side of a plate.
TARGET = 600_000
TARGETS = {
    "T1": ((-5_600_000, 1_800_000, 0), "ground"),
    "T2": ((-2_000_000, -6_300_000, 0), "ground"),
    "T3": ((6_200_000, -3_600_000, 0), "ground"),
    "T4": ((5_000_000, 5_000_000, 0), "ground"),
    "T5": ((-600_000, 4_400_000, heap.CRATE_HEIGHT), "crate"),
}
# A target is looked for within so many pixels of where it is seen.
NEAR = 3


class Rig:
    """How the pair hangs in the site's frame: where the left camera is, in micrometres; by how many degrees the pair is
    turned counterclockwise, as seen from above; and by how many it is then tilted from looking straight down, and
    towards where, clockwise from the top of the picture.

    The columns of `axes` are the right of the level pair, its top and what is behind it.
    """

    def __init__(self, place, turn=0, tilt=0, towards=0):
        self.place = numpy.array(place, float)
        self.angles = turn, tilt, towards
        turn, tilt, towards = map(math.radians, self.angles)
        about = tilt * numpy.array([math.cos(towards), -math.sin(towards), 0])
        self.axes = cv2.Rodrigues(numpy.array([0, 0, turn]))[0] @ cv2.Rodrigues(about)[0]

    def __str__(self):
        east, north, up = self.place / 1_000_000
        turn, tilt, towards = self.angles
        at = f"at {east:.2f} {north:.2f} {up:.2f} m"
        return f"{at}, turned by {turn:.0f} and tilted by {tilt:.1f} degrees, towards {towards:.0f}"

    def camera(self, is_right):
        """Where a camera is."""
        return self.place + (heap.BASELINE * self.axes[:, 0] if is_right else 0)

    def looks(self, camera, parts):
        """Where parts x parts places of each pixel look: to the east, to the north, up."""
        return rays(camera, parts) @ FLIP @ self.axes.T


@functools.lru_cache(maxsize=1)
def hanging():
    """The pair above the heap that looks straight down."""
    return Rig((0, 0, heap.MOUNT))


@functools.lru_cache(maxsize=1)
def aslant():
    """The pair of the photographs."""
    return Rig((900_000, -2_600_000, 8_200_000), 30, 12, 15)


def turned(camera):
    """What turns the axes of the level pair into the camera's."""
    return cv2.Rodrigues(numpy.array(camera[2]))[0]


def calibration():
    """What cv2.stereoCalibrate would find: the right camera stands the baseline to the right of the left one."""
    (k1, d1, _), (k2, d2, _) = LEFT, RIGHT
    made = {"imageSize": [heap.WIDTH, heap.HEIGHT], "M1": k1, "D1": d1, "M2": k2, "D2": d2}
    made["R"] = (turned(RIGHT) @ turned(LEFT).T).tolist()
    made["T"] = (turned(RIGHT) @ [-heap.BASELINE / 1_000_000, 0, 0]).tolist()
    return made


@functools.lru_cache(maxsize=4)
def rays(camera, parts):
    """Where parts x parts places of each pixel look in the level pair: focal lengths to the right, down, 1."""
    k, d, _ = camera
    y, x = numpy.mgrid[0 : heap.HEIGHT * parts, 0 : heap.WIDTH * parts]
    pixels = (numpy.stack([x.ravel(), y.ravel()], axis=-1) + 0.5) / parts - 0.5
    ends = (cv2.TERM_CRITERIA_COUNT + cv2.TERM_CRITERIA_EPS, 100, 1e-9)
    seen = cv2.undistortPointsIter(pixels[:, None], numpy.array(k), numpy.array(d), None, None, ends)[:, 0]
    level = numpy.column_stack([seen, numpy.ones(len(seen))]) @ turned(camera)
    return level / level[:, 2:]


class Scene:
    """What is photographed: the grey values and first surfaces of a heap, and whether targets lie beside it."""

    def __init__(self, made=heap, has_targets=True):
        self.made, self.targets = made, TARGETS if has_targets else {}

    def seen(self, camera, rig, is_right):
        """The grey values that a camera sees."""
        x, y, mount = (round(it) for it in rig.camera(is_right).tolist())
        looks = rig.looks(camera, 1)
        greys, names = [], []
        for right, up, down in (looks / -looks[:, 2:]).tolist():
            ray = heap.Ray(x, round(FINE * right), round(FINE * up), FINE, y)
            depth, name = self.made.first_surface(ray, mount)
            # Grains are counted from the cameras that look straight down, so that they stay where they are.
            greys.append(self.made.grey_at(*ray.place(depth), depth - mount + heap.MOUNT, name))
            names.append(name)
        greys = numpy.array(greys)
        for place, lies_on in self.targets.values():
            paint(greys, numpy.array(names) == lies_on, rig.camera(is_right), rig.looks(camera, PARTS), place)
        return greys.reshape(heap.HEIGHT, heap.WIDTH)


def paint(greys, can_show, camera, looks, place):
    """Paints a target over the grey values of those pixels that show what it lies on."""
    depths = (place[2] - camera[2]) / looks[:, 2]
    x, y = (camera[axis] + depths * looks[:, axis] - place[axis] for axis in (0, 1))
    is_plate = (abs(x) <= TARGET / 2) & (abs(y) <= TARGET / 2)
    plate = numpy.where((x > 0) == (y > 0), 215.0, 25.0)
    whole = lambda it: it.reshape(heap.HEIGHT, PARTS, heap.WIDTH, PARTS).sum(axis=(1, 3)).ravel()
    shares = whole(is_plate) / PARTS**2
    painted = whole(numpy.where(is_plate, plate, 0)) / PARTS**2 + (1 - shares) * greys
    greys[:] = numpy.where(can_show & (shares > 0), numpy.rint(painted), greys)


def with_noise(greys, seed):
    """The samples of a picture: its grey values with noise of its own."""
    drawn = [heap.noise(x, y, seed) % 5 for y in range(heap.HEIGHT) for x in range(heap.WIDTH)]
    return (greys + numpy.array(drawn).reshape(greys.shape)).astype(numpy.uint8)


def photographs(rig=None, scene=None, seeds=(31, 32)):
    """The left and the right picture of a scene, each with noise of its own, the right one darker."""
    rig, scene = rig or aslant(), scene or Scene()
    left, right = scene.seen(LEFT, rig, False), scene.seen(RIGHT, rig, True)
    return with_noise(left, seeds[0]), with_noise(right * 4 // 5 + 6, seeds[1])


def seen_at(camera, rig, is_right, place):
    """Where a camera shows a place of the site, in pixels."""
    k, d, _ = camera
    away = turned(camera) @ FLIP @ rig.axes.T @ (numpy.array(place) - rig.camera(is_right))
    return cv2.projectPoints(away[None], numpy.zeros(3), numpy.zeros(3), numpy.array(k), numpy.array(d))[0][0, 0]


def found_targets(picture, rig=None):
    """The targets' places in the left picture, as the corners of their squares are found in it."""
    ends = (cv2.TERM_CRITERIA_COUNT + cv2.TERM_CRITERIA_EPS, 100, 1e-4)
    found = {}
    for name, (place, _) in TARGETS.items():
        begin = numpy.rint(seen_at(LEFT, rig or aslant(), False, place)).astype(numpy.float32)
        corner = cv2.cornerSubPix(picture, begin.reshape(1, 1, 2), (NEAR, NEAR), (-1, -1), ends)
        found[name] = tuple(corner.ravel().tolist())
    return found


def targets_text(picture, rig=None):
    """The table that tools/site_pose.py reads."""
    lines = ["name,x,y,east,north,up"]
    for name, (x, y) in found_targets(picture, rig).items():
        place = ",".join(f"{it / 1_000_000:.3f}" for it in TARGETS[name][0])
        lines.append(f"{name},{x:.1f},{y:.1f},{place}")
    return "\n".join(lines) + "\n"


def board_picture(camera, camera_x, pose):
    """What a camera, so many metres to the right of the left one, sees of the board."""
    turn, middle = pose
    across, down, away = cv2.Rodrigues(numpy.array(turn))[0].T
    from_camera = numpy.array(middle) - [camera_x, 0, 0]
    looks = rays(camera, PARTS)
    # The ray meets the board's plane where its part along `away` is that of the board's middle.
    on_plane = looks * ((from_camera @ away) / (looks @ away))[:, None] - from_camera
    # In squares from the board's upper left corner; around the squares is a white rim of one square.
    cols, rows = BOARD[0] + 1, BOARD[1] + 1
    col, row = on_plane @ across / SQUARE + cols / 2, on_plane @ down / SQUARE + rows / 2
    is_square = (col >= 0) & (col < cols) & (row >= 0) & (row < rows)
    is_sheet = (col >= -1) & (col < cols + 1) & (row >= -1) & (row < rows + 1)
    is_black = is_square & ((numpy.floor(col) + numpy.floor(row)) % 2 == 0)
    grey = numpy.where(is_black, 30.0, numpy.where(is_sheet, 215.0, 120.0))
    means = grey.reshape(heap.HEIGHT, PARTS, heap.WIDTH, PARTS).mean(axis=(1, 3))
    return numpy.rint(means).astype(numpy.uint8)


def boards():
    """Pairs of pictures of the board."""
    for pose in POSES:
        yield board_picture(LEFT, 0, pose), board_picture(RIGHT, heap.BASELINE / 1_000_000, pose)


def write_heap(folder, rig=None, scene=None, seeds=(31, 32)):
    """The pair of pictures of a scene, the targets in it, and the numbers of the cameras."""
    os.makedirs(folder, exist_ok=True)
    pair = photographs(rig, scene, seeds)
    for side, pixels in zip(("left", "right"), pair):
        files.write_png(os.path.join(folder, f"{side}.png"), pixels)
    texts = {"targets.csv": targets_text(pair[0], rig), "true.json": json.dumps(calibration(), indent=1) + "\n"}
    for name, text in texts.items():
        with open(os.path.join(folder, name), "w") as file:
            file.write(text)


def write(folder):
    for side in ("left", "right"):
        os.makedirs(os.path.join(folder, "boards", side), exist_ok=True)
    for number, pair in enumerate(boards(), 1):
        running.progress(f"board {number} of {len(POSES)}")
        for side, pixels in zip(("left", "right"), pair):
            files.write_png(os.path.join(folder, "boards", side, f"{number:02}.png"), pixels)
    running.progress("the heap")
    write_heap(folder)


def main():
    epilog = "Example: examples/photographs/make_photographs.py /tmp/survey"
    parser = argparse.ArgumentParser(description=__doc__.split("\n\n")[0], epilog=epilog)
    parser.add_argument("folder", metavar="FOLDER", help="is made where it isn't there")
    words = parser.parse_args()
    running.need(numpy=numpy, PIL=Image, cv2=cv2)
    write(words.folder)
    print(f"{len(POSES)} pairs of the board and one of the heap with {len(TARGETS)} targets in {words.folder}")


if __name__ == "__main__":
    running.run(main)
