#!/usr/bin/env python3
"""Makes left.pgm and right.pgm beside this file: a small pair with shapes at known disparities.

The ground rises towards the viewer, from disparity 6 at the top to 22 at the bottom; a rectangle
stands in front of it at disparity 32 and a disc in front of both at 46. A nearer surface covers a
farther one in both pictures, so each shape hides a strip of what is behind it. Each surface has a
texture of its own, fixed to it, and each picture its own noise of one grey level. Whole numbers
only: the bytes are the same each time. All disparities lie within 0 to 63, the plain settings:

    ./sgm match examples/pair/left.pgm examples/pair/right.pgm - out
"""

import argparse
import os
import sys

WIDTH, HEIGHT = 320, 240


def noise(x, y, seed):
    """A number from 0 to 255 that looks random and depends on nothing but its arguments."""
    v = (x * 374761393 + y * 668265263 + seed * 2246822519) % 2**32
    v = (v ^ (v >> 13)) * 1274126177 % 2**32
    v = (v ^ (v >> 16)) * 2654435761 % 2**32
    return v >> 24


def texture(x, y, seed, brightness):
    """Grains of one pixel and of three, around a brightness."""
    return brightness + noise(x, y, seed) // 4 + noise(x // 3, y // 3, seed + 100) // 4


# The surfaces, nearest first: seed of the texture, brightness, whether the surface covers the left
# picture's pixel (x, y), and its disparity there. A surface goes on beyond the picture's sides.
SURFACES = [
    (1, 120, lambda x, y: (x - 215) ** 2 + (y - 95) ** 2 < 55**2, lambda y: 46),
    (2, 70, lambda x, y: 70 <= x < 150 and 90 <= y < 200, lambda y: 32),
    (3, 20, lambda x, y: True, lambda y: 6 + 17 * y // HEIGHT),
]


def sample(x, y, eye):
    """The pixel (x, y) of the left (eye 0) or the right (eye 1) picture: that of the nearest surface."""
    for seed, brightness, covers, disparity in SURFACES:
        at = x + eye * disparity(y)
        if covers(at, y):
            return texture(at, y, seed, brightness) + noise(x, y, 10 + eye) % 2
    raise AssertionError("the ground is everywhere")


def write_pair():
    here = os.path.dirname(os.path.abspath(__file__))
    for eye, name in enumerate(("left.pgm", "right.pgm")):
        samples = bytes(sample(x, y, eye) for y in range(HEIGHT) for x in range(WIDTH))
        with open(os.path.join(here, name), "wb") as file:
            file.write(f"P5\n{WIDTH} {HEIGHT}\n255\n".encode() + samples)


def main():
    epilog = "Example: examples/pair/make_pair.py"
    argparse.ArgumentParser(description=__doc__.split("\n\n")[0], epilog=epilog).parse_args()
    try:
        write_pair()
    except OSError as error:
        sys.exit(f"make_pair: {error}")


if __name__ == "__main__":
    main()
