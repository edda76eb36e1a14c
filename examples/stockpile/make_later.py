#!/usr/bin/env python3
"""Makes the pair of pictures of the same heap at a later date, when a part of it has been taken away.

    examples/stockpile/make_later.py FOLDER

writes FOLDER/left.pgm and FOLDER/right.pgm, of 320 x 240 pixels. Cameras, ground and crate are those of
make_stockpile.py, and so is the heap, but for what lay above a plane that falls to the east by one in two and
stands 2 m high at the cone's axis: a loader has eaten into the east side. What lies bare now has grains of its
own, the light is another one, and so is the noise. Whole numbers throughout: the bytes are the same on every
machine. compare_change.py holds what was measured against what is gone.
"""

import argparse
import os
import sys

sys.path.insert(0, os.path.join(os.path.dirname(os.path.abspath(__file__)), "..", "..", "tools"))

import make_stockpile as before
from make_stockpile import BASELINE, CONE_X, HEIGHT, MOUNT, WIDTH
from sgm_tools import running

# The plane: how high it stands at the cone's axis, and over which length to the east it falls by 1.
CUT_HEIGHT, CUT_LENGTH = 2_000_000, 2


def depth_of_cut(ray, mount=MOUNT):
    """The depth from which on the ray is below the plane. Each ray is steeper than it, so there is one."""
    away = CUT_LENGTH * (mount - CUT_HEIGHT) + ray.camera_x - CONE_X
    return away * ray.focal // (CUT_LENGTH * ray.focal - ray.right)


def first_surface(ray, mount=MOUNT):
    """The depth and the name of the first surface that the ray meets, with the cameras so high above the ground.

    A ray is steeper than the cone's sides and than the plane, so it is in what is left of the heap from the depth on
    at which it is in the cone and below the plane.
    """
    depth, name = before.first_surface(ray, mount)
    if name != "cone":
        return depth, name
    cut = depth_of_cut(ray, mount)
    if cut <= depth:
        return depth, name
    # Beyond the heap's old surface only the crate and the ground can be met before the plane is.
    behind = before.depth_of_crate(ray, mount)
    return min((cut, "cut"), (mount, "ground"), (behind if behind is not None else mount, "crate"))


def surface(ray):
    """The grey value of the first surface that the ray meets."""
    depth, name = first_surface(ray)
    return grey_at(*ray.place(depth), depth, name)


def grey_at(x, y, depth, name):
    """The grey value of a place on that surface, so far below the height of these cameras."""
    if name != "cut":
        # A duller day.
        return before.grey_at(x, y, depth, name) * 7 // 8 + 8
    return 56 + before.texture(x, y, 51) * 5 // 8


def left_sample(x, y):
    return surface(before.through_pixel(0, x, y)) + before.noise(x, y, 61) % 5


def right_sample(x, y):
    return surface(before.through_pixel(BASELINE, x, y)) * 4 // 5 + 6 + before.noise(x, y, 62) % 5


def write_pair(folder):
    os.makedirs(folder, exist_ok=True)
    for name, sample in (("left.pgm", left_sample), ("right.pgm", right_sample)):
        running.progress(f"making {name}")
        samples = bytes(sample(x, y) for y in range(HEIGHT) for x in range(WIDTH))
        with open(os.path.join(folder, name), "wb") as file:
            file.write(f"P5\n{WIDTH} {HEIGHT}\n255\n".encode() + samples)


def main():
    epilog = "Example: examples/stockpile/make_later.py /tmp/later"
    parser = argparse.ArgumentParser(description=__doc__.split("\n\n")[0], epilog=epilog)
    parser.add_argument("folder", metavar="FOLDER", help="where the pair goes; it is made where it isn't there")
    words = parser.parse_args()
    write_pair(words.folder)


if __name__ == "__main__":
    running.run(main)
