#!/usr/bin/env python3
"""Turns a disparity picture (OUT.pgm) or a height grid (OUT.asc) into a PNG that a viewer shows well.

    tools/stretch.py OUT.pgm --out FILE.png
    tools/stretch.py OUT.asc --out FILE.png

OUT.pgm has 16 bits a pixel, 0 for a pixel without a disparity, so most viewers show it nearly black.
Here the values are stretched over all greys, low ones dark and high ones light; the lowest and the
highest hundredth share the end greys, so that a few outliers don't spoil the rest. Pixels or cells
without a value are magenta. The greys are a display, not a measurement; the values at both ends are
printed. Needs numpy and Pillow.
"""

from sgm_tools.files import read_disparities, write_png
from sgm_tools.grids import NO_DIFFERENCE, read_grid
from sgm_tools.pictures import PALETTE, stretched
from sgm_tools.running import Image, need, numpy, run
from sgm_tools.words import parser_of


def is_picture(name: str) -> bool:
    with open(name, "rb") as file:
        return file.read(2) == b"P5"


def main() -> None:
    epilog = "Example: tools/stretch.py heap.pgm --out heap.png"
    parser = parser_of(__doc__, epilog)
    parser.add_argument("file", metavar="OUT", help="OUT.pgm or OUT.asc, as sgm has written it")
    parser.add_argument("--out", required=True, metavar="FILE.png", help="the picture")
    words = parser.parse_args()
    # (both at once, not the one after the other)
    need(numpy=numpy, PIL=Image)
    if is_picture(words.file):
        values, filled = read_disparities(words.file)
        unit = "sixteenths of a pixel above the first disparity"
    else:
        grid = read_grid(words.file)
        what = "change" if grid.nothing == NO_DIFFERENCE else "height"
        values, filled, unit = grid.heights, grid.filled, f"micrometres of {what}"
    numbers, ends = stretched(values, filled)
    write_png(words.out, numbers, PALETTE)
    print("no value anywhere" if ends is None else f"{ends[0]} (dark) to {ends[1]} (light) {unit}")


def command() -> None:
    run(main)


if __name__ == "__main__":
    command()
