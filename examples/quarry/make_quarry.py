#!/usr/bin/env python3
"""Makes the photographs of a quarry and what was measured on its site: 24 pairs over 60 by 40 metres.

    examples/quarry/make_quarry.py FOLDER

The ground slopes, with a pit in it, a heap of gravel with a round top and one with a tip. Each pair looks down aslant
by two to six degrees from 14 m above the ground, and sees some 16 by 14 m. FOLDER/pairs has the pictures,
NUMBER_left.pgm and NUMBER_right.pgm, as rectified cameras see them, the right one darker, with noise of their own.

- cameras.csv: for each pair where its left camera is and a point on its axis, to a millimetre, and its roll.
- targets_NUMBER.csv, of three pairs: control points as tools/site_pose.py reads them, with places in the picture to a
  tenth of a pixel and in the site to a millimetre.
- checks.csv: places of the site whose heights are known.

The shapes are known in closed form, and so are their volumes; survey_quarry.py measures against them. The numbers here
use floating point. Needs numpy.
"""

import argparse
import dataclasses
import math
import multiprocessing
import os
import sys

HERE = os.path.dirname(os.path.abspath(__file__))
sys.path[:0] = [os.path.join(HERE, "..", "..", "tools"), os.path.join(HERE, "..", "stockpile")]

import make_stockpile as stockpile
from sgm_tools import files, poses, running
from sgm_tools.points import ONE
from sgm_tools.running import numpy

METRE = 1_000_000

# The site, and how its ground lies: the height at the south-west corner, in metres, and how far it rises by the metre.
WIDE, LONG = 60, 40
GROUND, GROUND_EAST, GROUND_NORTH = 1.2, 0.02, -0.03


@dataclasses.dataclass(frozen=True)
class Shape:
    """What stands on the ground or is dug into it within an ellipse: its middle and half axes in metres, how high it is
    above the ground (below it, where that is negative), and its form."""

    name: str
    east: float
    north: float
    wide: float
    long: float
    high: float
    form: str

    def above(self, east, north):
        """How high it is above the ground at places."""
        away = numpy.hypot((east - self.east) / self.wide, (north - self.north) / self.long)
        return self.high * FORMS[self.form][0](away)

    def volume(self):
        """The volume between it and the ground, which is never negative."""
        return math.pi * self.wide * self.long * abs(self.high) * FORMS[self.form][1]


# The part of its half axes at which a pit's wall meets its floor.
FLOOR = 0.75
# For each form how high it is at a part of its half axes, and the part of the cylinder around it that it fills.
FORMS = {
    "pit": (lambda away: ((1 - away) / (1 - FLOOR)).clip(0, 1), (1 + FLOOR + FLOOR**2) / 3),
    "round": (lambda away: (1 - away**2).clip(0, None), 1 / 2),
    "tip": (lambda away: (1 - away).clip(0, None), 1 / 3),
}
SHAPES = [
    Shape("pit", 39.5, 22.0, 9.0, 6.5, -2.5, "pit"),
    Shape("heap-round", 14.0, 10.5, 7.0, 4.5, 2.4, "round"),
    Shape("heap-tip", 15.5, 28.5, 6.0, 5.0, 3.0, "tip"),
]


def ground_at(east, north):
    return GROUND + GROUND_EAST * east + GROUND_NORTH * north


def height_at(east, north):
    """The height of the site's surface at places, in metres."""
    return ground_at(east, north) + sum(shape.above(east, north) for shape in SHAPES)


# The cameras: rectified, of one focal length in pixels, with the axis through a pixel.
WIDTH, HEIGHT, FOCAL, AXIS = 512, 448, 430, (256, 224)
BASELINE, MOUNT, OVER = 1_600_000, 14_000_000, 14.0
COLUMNS, ROWS, APART = 6, 4, 10.0
CONTROLLED = (2, 11, 17)
# How aslant they look, in degrees, how far they are turned, and how far they stand beside their raster, in metres.
LEAST_TILT, MOST_TILT, MOST_ROLL, BESIDE = 2, 6, 8, 0.5
SEED = 2026


class Numbers:
    """Numbers between 0 and 1 that look random and are the same at each run."""

    def __init__(self, seed):
        self.seed, self.at = seed, 0

    def between(self, low, high):
        self.at += 1
        drawn = sum(stockpile.noise(self.at, part, self.seed) / 256 ** (part + 1) for part in range(3))
        return low + (high - low) * drawn


@dataclasses.dataclass(frozen=True)
class Pair:
    """A pair of cameras: its number, where the left one is, a point on its axis, in micrometres, and the roll."""

    number: int
    camera: tuple
    look: tuple
    roll: float

    @property
    def name(self):
        return f"{self.number:02}"

    def pose(self):
        return poses.aimed_pose(tuple(map(float, self.camera)), tuple(map(float, self.look)), self.roll, MOUNT)

    def axes(self):
        """The right of the left camera, its top and what is behind it, as columns."""
        return numpy.array(self.pose().matrix, float).reshape(3, 3) / ONE


def pair_at(number):
    """The pair of that number, from the south-west, row by row."""
    drawn = Numbers(SEED + number)
    row, col = divmod(number, COLUMNS)
    beside = lambda: drawn.between(-BESIDE, BESIDE)
    # What both cameras see lies to the right of the left one.
    east, north = (col + 0.5) * APART - BASELINE / METRE / 2 + beside(), (row + 0.5) * APART + beside()
    up = ground_at(east, north) + OVER + beside()
    tilt, towards = drawn.between(LEAST_TILT, MOST_TILT), drawn.between(0, 2 * math.pi)
    away = OVER * math.tan(math.radians(tilt))
    look = east + away * math.sin(towards), north + away * math.cos(towards)
    # A camera that looks ahead of it is turned towards where it looks; the roll takes that back.
    roll = (180 - math.degrees(towards) + drawn.between(-MOST_ROLL, MOST_ROLL)) % 360 - 180
    micrometres = lambda place: tuple(round(METRE * it) for it in place)
    return Pair(number, micrometres((east, north, up)), micrometres((*look, ground_at(*look))), round(roll, 3))


def pairs():
    return [pair_at(number) for number in range(COLUMNS * ROWS)]


# Pictures


# Where the surface's highest place lies, and how fast a ray that goes down by a metre can come nearer to the surface
# below it at most: by that metre, and by what the steepest wall rises where the ray goes sideways at the most.
HIGHEST, FASTEST = 6.0, 2.6
# So many steps leave some micrometres of what lies between.
STEPS = 34


def rays(pair, is_right):
    """Where a camera is, in metres, and where its pixels look: to the east and to the north by the metre down."""
    y, x = numpy.mgrid[0:HEIGHT, 0:WIDTH].reshape(2, -1)
    looks = numpy.stack([(x - AXIS[0]) / FOCAL, (AXIS[1] - y) / FOCAL, -numpy.ones(x.size)])
    east, north, up = pair.axes() @ looks
    middle = numpy.array(pair.camera) + (BASELINE * pair.axes()[:, 0] if is_right else 0)
    return middle / METRE, east / -up, north / -up


def met(camera, east, north):
    """How far down each ray meets the surface first: each step is too short to pass through it."""
    down = numpy.full(east.shape, camera[2] - HIGHEST)
    for _ in range(STEPS):
        left = camera[2] - down - height_at(camera[0] + down * east, camera[1] + down * north)
        down += left / FASTEST
    return down


def grey_at(east, north, above):
    """The grey values of places of the surface, whose grains differ on the ground and on what isn't it."""
    places = [numpy.rint(METRE * it).astype(numpy.int64) for it in (east, north)]
    ground, gravel = (40 + stockpile.texture(*places, seed) * 5 // 8 for seed in (71, 81))
    return numpy.where(abs(above) < 0.005, ground, 16 + gravel)


def picture(pair, is_right):
    camera, east, north = rays(pair, is_right)
    down = met(camera, east, north)
    places = camera[0] + down * east, camera[1] + down * north
    greys = grey_at(*places, height_at(*places) - ground_at(*places))
    y, x = numpy.mgrid[0:HEIGHT, 0:WIDTH].reshape(2, -1)
    noise = stockpile.noise(x, y, 91 + 2 * pair.number + is_right) % 5
    greys = greys * 4 // 5 + 6 if is_right else greys
    return (greys + noise).clip(0, 255).astype(numpy.uint8).reshape(HEIGHT, WIDTH)


def picture_name(folder, pair, side):
    return os.path.join(folder, "pairs", f"{pair.name}_{side}.pgm")


def write_pictures(folder, pair):
    for side in ("left", "right"):
        files.write_pgm(picture_name(folder, pair, side), picture(pair, side == "right"))


# What was measured


def metres(place):
    """A place as a surveyor writes it, to a millimetre."""
    return ",".join(f"{it / METRE:.3f}" for it in place)


def cameras_text():
    lines = ["pair,camera_east,camera_north,camera_up,look_east,look_north,look_up,roll"]
    lines += [f"{it.name},{metres(it.camera)},{metres(it.look)},{it.roll:.3f}" for it in pairs()]
    return "\n".join(lines) + "\n"


# Where the targets of a pair lie, in pixels of its left picture from the middle.
TARGETS = [(-150, -160), (170, -150), (-140, 170), (190, 160), (20, -60), (40, 90), (-110, 10), (180, 10)]


def targets_text(pair):
    """Control points: where the picture shows them, and where they are."""
    lines = ["name,x,y,east,north,up"]
    camera, east, north = rays(pair, False)
    for number, (x, y) in enumerate(TARGETS, 1):
        at = (AXIS[1] + y) * WIDTH + AXIS[0] + x
        down = met(camera, east[at : at + 1], north[at : at + 1])[0]
        place = camera + down * numpy.array([east[at], north[at], -1])
        drawn = Numbers(SEED + 100 * pair.number + number)
        # The place in the picture is read off to a tenth of a pixel.
        seen = [f"{it + drawn.between(-0.05, 0.05):.1f}" for it in (AXIS[0] + x, AXIS[1] + y)]
        lines.append(f"T{number},{seen[0]},{seen[1]},{metres(METRE * place)}")
    return "\n".join(lines) + "\n"


# Two on each heap, four on the floor of the pit, and the others on the ground.
CHECKS = [(14.0, 10.5), (17.0, 11.5), (15.5, 30.0), (13.0, 27.5), (39.5, 22.0), (43.0, 24.0), (36.0, 20.0), (40.0, 19.5)]
CHECKS += [(2.5, 2.5), (57.5, 3.0), (2.5, 37.5), (57.0, 37.0), (26.5, 20.0), (25.0, 36.0), (30.0, 4.0), (54.0, 20.0)]


def checks_text():
    lines = ["name,east,north,up"]
    for number, (east, north) in enumerate(CHECKS, 1):
        up = float(height_at(numpy.array(east), numpy.array(north)))
        lines.append(f"C{number},{east:.3f},{north:.3f},{up:.3f}")
    return "\n".join(lines) + "\n"


def texts():
    made = {"cameras.csv": cameras_text(), "checks.csv": checks_text()}
    return made | {f"targets_{pairs()[number].name}.csv": targets_text(pairs()[number]) for number in CONTROLLED}


def write(folder, workers=4):
    os.makedirs(os.path.join(folder, "pairs"), exist_ok=True)
    for name, text in texts().items():
        with open(os.path.join(folder, name), "w", encoding="utf-8") as file:
            file.write(text)
    running.progress("drawing the pairs")
    with multiprocessing.Pool(workers) as pool:
        pool.starmap(write_pictures, [(folder, pair) for pair in pairs()])


def main():
    epilog = "Example: examples/quarry/make_quarry.py /tmp/quarry"
    parser = argparse.ArgumentParser(description=__doc__.split("\n\n")[0], epilog=epilog)
    parser.add_argument("folder", metavar="FOLDER", help="is made where it isn't there")
    words = parser.parse_args()
    running.need(numpy=numpy)
    write(words.folder)
    print(f"{COLUMNS * ROWS} pairs in {words.folder}")


if __name__ == "__main__":
    running.run(main)
