#!/usr/bin/env python3
"""Turns a photograph into the grey picture (binary PGM) that sgm reads.

    tools/photo_to_pgm.py photo.jpg --out left.pgm [--shrink 2]

Reads whatever Pillow does: JPEG, PNG, TIFF and more. The picture is turned as its EXIF says that it is to be
seen, as tools/calibrate_pair.py does with those of the chessboard, so both are turned alike. --shrink N makes
each square of N x N pixels one pixel, their mean: a photograph of more than 4096 pixels a side needs it, and
the pictures of the chessboard then have to be shrunk alike, before calibrating. Needs numpy and Pillow.
"""

from sgm_tools.files import read_grey, write_pgm
from sgm_tools.pictures import shrunk
from sgm_tools.running import Image, Wrong, need, numpy, run
from sgm_tools.words import parser_of

LONGEST_SIDE = 4096


def main() -> None:
    epilog = "Example: tools/photo_to_pgm.py photo.jpg --out left.pgm --shrink 2"
    parser = parser_of(__doc__, epilog)
    parser.add_argument("file", metavar="PHOTO", help="the photograph")
    parser.add_argument("--out", required=True, metavar="FILE.pgm", help="the grey picture")
    shrink = "each N x N pixels become one, N being 1 to 16 (1)"
    parser.add_argument("--shrink", type=int, default=1, choices=range(1, 17), metavar="N", help=shrink)
    words = parser.parse_args()
    need(numpy=numpy, PIL=Image)
    grey = shrunk(read_grey(words.file), words.shrink)
    if max(grey.shape) > LONGEST_SIDE:
        least = -(-max(grey.shape) * words.shrink // LONGEST_SIDE)
        raise Wrong(f"{words.file}: sgm takes up to {LONGEST_SIDE} pixels a side: --shrink {least}")
    write_pgm(words.out, grey)
    print(f"{grey.shape[1]} x {grey.shape[0]}")


def command() -> None:
    run(main)


if __name__ == "__main__":
    command()
