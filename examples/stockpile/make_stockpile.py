#!/usr/bin/env python3
"""Makes left.pgm and right.pgm beside this file: a heap of known size, seen by two cameras from above.

Both cameras look straight down on level ground, the right one a baseline to the right of the left
one. On the ground stand a cone of gravel and, beside it, a crate, whose sides stand upright: it hides
ground from one camera that the other one sees. For each pixel of each picture the ray through it is
followed to the first surface that it meets; the grains of that surface at that place give the sample.
So the pair has hidden parts, and disparities between whole pixels, as a real one has. Each picture has
noise of its own, and the right one is darker and flatter than the left one.

Lengths are whole micrometres. Nothing is rounded by a floating point unit, so the bytes are the same
on every machine. The numbers below are the truth that compare_truth.py measures against.
"""

import argparse
import math
import os
import sys

WIDTH, HEIGHT = 320, 240

# The cameras: 160 pixels of focal length, the axis through pixel (160, 120), 8 m above the ground. The
# ground so has the disparity 160 * 1.6 / 8 = 32 pixels, and a pixel covers 50 mm of it.
FOCAL = 160
AXIS = (160, 120)
BASELINE = 1_600_000
MOUNT = 8_000_000

# The cone: the place of its axis, with x to the right and y up from the left camera's, its radius on
# the ground, and its height. The tip so has the disparity 160 * 1.6 / 4.5 = 56.9 pixels.
CONE_X, CONE_Y = 300_000, -1_100_000
CONE_RADIUS = 4_500_000
CONE_HEIGHT = 3_500_000

# The crate: west, east, south, north, height.
CRATE_WEST, CRATE_EAST, CRATE_SOUTH, CRATE_NORTH = -1_200_000, 0, 4_000_000, 4_800_000
CRATE_HEIGHT = 1_200_000


class Ray:
    """The ray from camera_x, camera_y that goes right and up by so much for each focal length of depth."""

    def __init__(self, camera_x, right, up, focal=FOCAL, camera_y=0):
        self.camera_x, self.right, self.up, self.focal = camera_x, right, up, focal
        self.camera_y = camera_y

    def place(self, depth):
        """Where the ray is at that depth below the camera."""
        x, y = self.right * depth // self.focal, self.up * depth // self.focal
        return self.camera_x + x, self.camera_y + y


def through_pixel(camera_x, x, y):
    return Ray(camera_x, x - AXIS[0], AXIS[1] - y)


def depth_of_cone(ray, mount=MOUNT):
    """The depth at which the ray enters the cone, or None, with the cameras so high above the ground.

    With Z the depth, R the radius, H the height and T the tip's depth, a place at the horizontal
    distance r from the axis lies on the cone where R (Z - T) = H r. Squared, and with the ray's place
    put in, this is a quadratic equation in Z, here multiplied by the square of the focal length. Its
    other solution belongs to the cone's mirror image above the tip, or lies behind the first one. With
    these numbers no pixel makes the square's factor 0.
    """
    tip = mount - CONE_HEIGHT
    aside, ahead = ray.focal * (ray.camera_x - CONE_X), ray.focal * (ray.camera_y - CONE_Y)
    wide, high = CONE_RADIUS**2, CONE_HEIGHT**2
    a = wide * ray.focal**2 - high * (ray.right**2 + ray.up**2)
    half_b = -wide * ray.focal**2 * tip - high * (aside * ray.right + ahead * ray.up)
    c = wide * ray.focal**2 * tip**2 - high * (aside**2 + ahead**2)
    square = half_b**2 - a * c
    if square < 0:
        return None
    root = math.isqrt(square)
    depths = [(-half_b + root) // a, (-half_b - root) // a]
    return min((depth for depth in depths if tip <= depth <= mount), default=None)


def depth_of_crate(ray, mount=MOUNT):
    """The depth at which the ray meets the crate's top or the side that is turned to it, or None."""
    top = mount - CRATE_HEIGHT
    sides = [top]
    if ray.right:
        sides += [(edge - ray.camera_x) * ray.focal // ray.right for edge in (CRATE_WEST, CRATE_EAST)]
    if ray.up:
        sides += [(edge - ray.camera_y) * ray.focal // ray.up for edge in (CRATE_SOUTH, CRATE_NORTH)]

    def is_on_crate(depth):
        # A side's depth is rounded, so the place on it may lie beside it by as much.
        x, y = ray.place(depth)
        return (
            top <= depth <= mount
            and CRATE_WEST - 9 <= x <= CRATE_EAST + 9
            and CRATE_SOUTH - 9 <= y <= CRATE_NORTH + 9
        )

    return min(filter(is_on_crate, sides), default=None)


def noise(x, y, seed):
    """A number from 0 to 255 that looks random and depends on nothing but its arguments."""
    v = (x * 374761393 + y * 668265263 + seed * 2246822519) % 2**32
    v = (v ^ (v >> 13)) * 1274126177 % 2**32
    v = (v ^ (v >> 16)) * 2654435761 % 2**32
    return v >> 24


def grains(x, y, size, seed):
    """Noise on a lattice of that size, and what lies between its nodes in proportion: 0 to 255."""
    (i, a), (j, b) = divmod(x, size), divmod(y, size)
    lower = (size - a) * noise(i, j, seed) + a * noise(i + 1, j, seed)
    upper = (size - a) * noise(i, j + 1, seed) + a * noise(i + 1, j + 1, seed)
    return ((size - b) * lower + b * upper) // size**2


def texture(x, y, seed):
    """Grains of three sizes together, about 0 to 255."""
    fine, middle, coarse = grains(x, y, 70_000, seed), grains(x, y, 160_000, seed + 1), grains(x, y, 500_000, seed + 2)
    return (3 * fine + 3 * middle + 2 * coarse) // 8


def first_surface(ray, mount=MOUNT):
    """The depth and the name of the first surface that the ray meets."""
    meets = [(mount, "ground")]
    for depth, name in ((depth_of_cone(ray, mount), "cone"), (depth_of_crate(ray, mount), "crate")):
        if depth is not None:
            meets.append((depth, name))
    return min(meets)


def surface(ray, mount=MOUNT):
    """The grey value, 30 to 220, of the first surface that the ray meets."""
    return surface_at(ray, *first_surface(ray, mount))


def surface_at(ray, depth, name):
    """The grey value of that surface where the ray meets it."""
    return grey_at(*ray.place(depth), depth, name)


def grey_at(x, y, depth, name):
    """The grey value of a place on that surface, so far below the height of these cameras."""
    if name == "ground":
        return 40 + texture(x, y, 1) * 5 // 8
    if name == "crate":
        # The depth is part of the place, so that the upright sides have grains too.
        return 30 + texture(x + 2 * depth, y + 3 * depth, 11) // 2
    # The cone's west side is the lighter one.
    return 60 + texture(x, y, 21) * 5 // 8 + 28 * (CONE_X - x) // CONE_RADIUS


def left_sample(x, y, mount=MOUNT):
    return surface(through_pixel(0, x, y), mount) + noise(x, y, 31) % 5


def right_sample(x, y, mount=MOUNT):
    return surface(through_pixel(BASELINE, x, y), mount) * 4 // 5 + 6 + noise(x, y, 32) % 5


def write_pair():
    here = os.path.dirname(os.path.abspath(__file__))
    for name, sample in (("left.pgm", left_sample), ("right.pgm", right_sample)):
        samples = bytes(sample(x, y) for y in range(HEIGHT) for x in range(WIDTH))
        with open(os.path.join(here, name), "wb") as file:
            file.write(f"P5\n{WIDTH} {HEIGHT}\n255\n".encode() + samples)


def main():
    epilog = "Example: examples/stockpile/make_stockpile.py"
    argparse.ArgumentParser(description=__doc__.split("\n\n")[0], epilog=epilog).parse_args()
    try:
        write_pair()
    except OSError as error:
        sys.exit(f"make_stockpile: {error}")


if __name__ == "__main__":
    main()
