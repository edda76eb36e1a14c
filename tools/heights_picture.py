#!/usr/bin/env python3
"""Turns a height grid (OUT.asc) into a picture of the ground as a map shows it, or a difference into one.

    tools/heights_picture.py OUT.asc --out FILE.png [--zoom 4]

Low cells are green, higher ones yellow and brown, the highest white; light comes from the north-west,
so slopes that face it are lighter. Empty cells are black. The lowest and the highest hundredth of the
cells share the end colours, so that a few outliers don't spoil the rest. North is up, and each cell
becomes a square of --zoom pixels. Where the grid is a difference, as `sgm change` writes it, what rose is red and
what fell is blue, the more the darker, the same change in both ways being equally dark. It is a display, not a
measurement. Needs numpy and Pillow.
"""

from sgm_tools.files import write_png
from sgm_tools.grids import NO_DIFFERENCE, read_grid
from sgm_tools.pictures import LONGEST_SIDE, drawn, zoom_of, zoomed
from sgm_tools.running import Image, need, numpy, run
from sgm_tools.words import parser_of


def main() -> None:
    epilog = "Example: tools/heights_picture.py heap.asc --out heap.png --zoom 2"
    parser = parser_of(__doc__, epilog)
    parser.add_argument("file", metavar="OUT.asc", help="the heights, or the difference, that sgm has written")
    parser.add_argument("--out", required=True, metavar="FILE.png", help="the picture")
    side = f"side of a cell, 1 to 16 (4, or less where a side would be above {LONGEST_SIDE} pixels)"
    parser.add_argument("--zoom", type=int, choices=range(1, 17), metavar="PIXELS", help=side)
    words = parser.parse_args()
    # (both at once, not the one after the other)
    need(numpy=numpy, PIL=Image)
    grid = read_grid(words.file)
    colours, ends = drawn(grid)
    write_png(words.out, zoomed(colours, words.zoom or zoom_of(*grid.heights.shape)))
    is_change = grid.nothing == NO_DIFFERENCE
    low, high, what = ("blue", "red", "change") if is_change else ("green", "white", "height")
    print(f"{ends[0]} ({low}) to {ends[1]} ({high}) micrometres of {what}" if ends else "every cell is empty")


def command() -> None:
    run(main)


if __name__ == "__main__":
    command()
