#!/usr/bin/env python3
"""Shows whether the grids of a merge fit one another, so that a pair whose pose is off is seen at once.

    tools/merge_check.py LIST MERGED.asc [--least MILLIMETRES] [--out FILE.csv] [--picture FILE.png]

LIST is that of `sgm merge`, and MERGED.asc the grid that it has written. For each grid of the list there is a line:

    grid,name,cells,shared,mean_mm,spread_mm,others_mm,width_mm,mark

- cells: those of the grid that have a height; shared: those of them, over the merged grid, in which another grid has
  one too. Of fewer than 20 nothing more is said.
- mean_mm: by how much the grid lies above the merged one in these cells, in the mean, and spread_mm: the root of the
  mean square about that. The merged grid has the grid's own heights in it, so this is less than what is wrong.
- others_mm: the middle one (the median) of how far it lies above the mean of the other grids, and width_mm: 1.4826
  times the middle one of how far these lie from it, which is their spread where they are normal. Walls and outliers
  count little in them.
- mark: `off` where others_mm is too far from the middle one of all grids, or width_mm too far above it, as where a
  grid is tilted. Too far is 4 spreads of all grids, by the median too, but at least --least. The worst grid is marked
  first and then taken out of what the others are held against, so that it doesn't mark its neighbours.

It ends with 0 whether one is marked or not, and says on standard error how many are. Of two grids that differ nothing
says which is off, and none is marked.

--picture draws a square for each grid, row by row in the list's order, north up: red where it lies above the others,
blue where it lies below, darkest from --darkest on, and black where it shares nothing. Marked grids have a frame. A
grid that lies too high is red all over, one that is tilted goes from red to blue, and one that is moved sideways is red on
one side of each heap and blue on the other. Needs numpy, and Pillow for the picture.
"""

import csv
import io
import sys

from sgm_tools.files import write_png
from sgm_tools.grids import read_grid
from sgm_tools.merges import Merge, read_names, sheet, table
from sgm_tools.running import Image, need, numpy, progress, run
from sgm_tools.words import number_word, parser_of


def main() -> None:
    epilog = "Example: tools/merge_check.py heights.txt quarry.asc --picture check.png"
    parser = parser_of(__doc__, epilog)
    parser.add_argument("list", metavar="LIST", help="the list of the merge")
    parser.add_argument("merged", metavar="MERGED.asc", help="the grid that the merge has written")
    least = "no grid is marked that is less off than so many millimetres (5)"
    parser.add_argument("--least", type=number_word(0, 1e6), default=5.0, metavar="MILLIMETRES", help=least)
    parser.add_argument("--out", metavar="FILE.csv", help="the table, in place of standard output")
    parser.add_argument("--picture", metavar="FILE.png", help="the picture of the differences")
    darkest = "the difference that has the darkest red or blue (50)"
    parser.add_argument("--darkest", type=number_word(0.001, 1e6), default=50.0, metavar="MILLIMETRES", help=darkest)
    words = parser.parse_args()
    need(numpy=numpy, **({"PIL": Image} if words.picture else {}))
    merge = Merge(read_grid(words.merged), read_names(words.list))
    found = merge.checked(1000 * words.least)
    if words.picture:
        write_png(words.picture, sheet(merge, found, round(1000 * words.darkest)))
    progress("")
    text = io.StringIO()
    csv.writer(text, lineterminator="\n").writerows(table(found))
    if words.out is None:
        print(text.getvalue(), end="")
    else:
        with open(words.out, "w", encoding="utf-8") as file:
            file.write(text.getvalue())
    marked = sum(it.is_marked for it in found)
    print(f"merge_check: {marked} of {len(found)} grids are off", file=sys.stderr)


def command() -> None:
    run(main)


if __name__ == "__main__":
    command()
