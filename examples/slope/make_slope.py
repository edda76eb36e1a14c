#!/usr/bin/env python3
"""Makes left.pgm and right.pgm beside this file: a heap on ground that slopes, seen by two cameras
from above.

The cameras are those of ../stockpile/make_stockpile.py, and so are grains and noise. The ground
rises by 4 in 100 to the east and falls by 3 in 100 to the north, so it slopes by 1 in 20. On it
lies a heap whose toe is a polygon with one corner that goes inwards; above each place of the ground
it is as high as a straight line from its tip to its toe has it there. So its volume is the area of
the toe's plan times the height of the tip above the ground, by three.

Lengths are whole micrometres, and the bytes are the same on every machine. compare_slope.py
measures against the numbers below. """

import argparse
import os
import sys

HERE = os.path.dirname(os.path.abspath(__file__))
sys.path.insert(0, os.path.join(HERE, "..", "stockpile"))
sys.path.insert(0, os.path.join(HERE, "..", "..", "tools"))

import make_stockpile as rig
from make_stockpile import BASELINE, HEIGHT, MOUNT, WIDTH
from sgm_tools import running

# How the ground rises, in hundredths, from height 0 below the left camera.
GROUND_EAST, GROUND_NORTH = 4, -3
# Where the tip stands, how high above the ground there, and the corners of the toe,
# counterclockwise.
TIP_X, TIP_Y, TIP_HEIGHT = 200_000, -600_000, 2_000_000
TOE = (
    (4_100_000, -1_500_000),
    (3_700_000, 1_300_000),
    (1_300_000, 1_400_000),
    (900_000, 3_300_000),
    (-2_100_000, 3_000_000),
    (-3_500_000, -900_000),
    (-1_700_000, -4_000_000),
    (2_400_000, -4_300_000),
)
# A place that was rounded may lie beside its face by as much.
BESIDE = 10


def cross(a, b):
    return a[0] * b[1] - a[1] * b[0]


def from_tip(place):
    return place[0] - TIP_X, place[1] - TIP_Y


# Each face is the corner from which it goes and that to which it goes, from the tip's foot.
FACES = [(from_tip(a), from_tip(b)) for a, b in zip(TOE, TOE[1:] + TOE[:1])]


def ground_at(x, y):
    """The ground's height in hundredths of a micrometre."""
    return GROUND_EAST * x + GROUND_NORTH * y


def heap_at(x, y):
    """How high the heap stands above the ground there, in micrometres; 0 beside it."""
    place = from_tip((x, y))
    for a, b in FACES:
        if cross(a, place) >= 0 and cross(place, b) >= 0:
            whole, edge = cross(a, b), (b[0] - a[0], b[1] - a[1])
            return max(0, TIP_HEIGHT * (whole - cross(place, edge)) / whole)
    return 0


def true_volume():
    """Of the heap, in cubic micrometres, times 6, which is a whole number."""
    return sum(cross(a, b) for a, b in FACES) * TIP_HEIGHT


def depth_of_ground(ray):
    above = ray.focal * (100 * MOUNT - GROUND_EAST * ray.camera_x)
    return above // (100 * ray.focal + GROUND_EAST * ray.right + GROUND_NORTH * ray.up)


def depth_of_face(ray, a, b):
    """The depth at which the ray meets a face of the heap, or None.

    The face's height is linear in the place, and the place is linear in the depth.
    """
    whole, edge = cross(a, b), (b[0] - a[0], b[1] - a[1])
    start = from_tip((ray.camera_x, 0))
    at_camera = 100 * whole * (MOUNT - TIP_HEIGHT) - GROUND_EAST * whole * ray.camera_x
    at_camera += 100 * TIP_HEIGHT * cross(start, edge)
    by_depth = whole * (100 * ray.focal + GROUND_EAST * ray.right + GROUND_NORTH * ray.up)
    by_depth -= 100 * TIP_HEIGHT * cross((ray.right, ray.up), edge)
    if by_depth <= 0:
        return None
    depth = at_camera * ray.focal // by_depth
    place = from_tip(ray.place(depth))
    room = BESIDE * max(map(abs, (*a, *b)))
    is_on_face = cross(a, place) >= -room and cross(place, b) >= -room
    return depth if is_on_face and cross(place, edge) <= whole + room else None


def first_surface(ray):
    """The depth and the name of the first surface that the ray meets."""
    depths = [depth_of_face(ray, a, b) for a, b in FACES]
    met = min((depth for depth in depths if depth is not None), default=None)
    ground = depth_of_ground(ray)
    return (met, "heap") if met is not None and met < ground else (ground, "ground")


def surface(ray):
    """The grey value of the first surface that the ray meets."""
    depth, name = first_surface(ray)
    x, y = ray.place(depth)
    if name == "ground":
        return 40 + rig.texture(x, y, 71) * 5 // 8
    # The heap's west side is the lighter one.
    return 56 + rig.texture(x, y, 81) * 5 // 8 + 20 * (TIP_X - x) // 4_500_000


def left_sample(x, y):
    return surface(rig.through_pixel(0, x, y)) + rig.noise(x, y, 91) % 5


def right_sample(x, y):
    return surface(rig.through_pixel(BASELINE, x, y)) * 4 // 5 + 6 + rig.noise(x, y, 92) % 5


def write_pair():
    for name, sample in (("left.pgm", left_sample), ("right.pgm", right_sample)):
        running.progress(f"making {name}")
        samples = bytes(sample(x, y) for y in range(HEIGHT) for x in range(WIDTH))
        with open(os.path.join(HERE, name), "wb") as file:
            file.write(f"P5\n{WIDTH} {HEIGHT}\n255\n".encode() + samples)


def main():
    epilog = "Example: examples/slope/make_slope.py"
    argparse.ArgumentParser(description=__doc__.split("\n\n")[0], epilog=epilog).parse_args()
    write_pair()


if __name__ == "__main__":
    running.run(main)
