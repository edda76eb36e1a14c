#!/usr/bin/env python3
"""Says which pixels have made a cell of the heights: those whose points fall into it, the highest first.

    tools/cell_pixels.py OUT COL ROW --calib calibration.json [--all]

Reads OUT.pgm and OUT.asc. Columns count from the west and rows from the north, both from 0, as on the page of
tools/survey_page.py. Each line has a pixel, its disparity in pixels and its point: metres to the east and to
the north of the left camera, and the height; with a `pose` they are those of the site's frame. Where a cell keeps the highest, the first line's height is the
cell's, and where it keeps the mean (`keep` of version 3), that of all lines; a height that no pixel has made is
a bridge. Without --all no more than ten are shown. tools/explain_pixel.py shows why a pixel has its disparity.
Needs numpy.
"""

from sgm_tools.calibrations import check_grid
from sgm_tools.cells import keeps_mean, pixels_in, told
from sgm_tools.exact import decimal, sixteenths
from sgm_tools.files import read_disparities, read_json
from sgm_tools.grids import read_grid
from sgm_tools.points import Points
from sgm_tools.running import Wrong, need, numpy, run
from sgm_tools.words import digits, parser_of

SHOWN = 10


def main() -> None:
    epilog = "Example: tools/cell_pixels.py /tmp/heap 53 54 --calib examples/stockpile/calibration.json"
    parser = parser_of(__doc__, epilog)
    parser.add_argument("survey", metavar="OUT", help="the last word of the match")
    parser.add_argument("col", metavar="COL", type=digits(9), help="the cell's column, from 0 at the west")
    parser.add_argument("row", metavar="ROW", type=digits(9), help="the cell's row, from 0 at the north")
    parser.add_argument("--calib", required=True, metavar="FILE.json", help="the calibration of that match")
    parser.add_argument("--all", action="store_true", help=f"all pixels, not the {SHOWN} highest alone")
    words = parser.parse_args()
    need(numpy=numpy)
    calibration = read_json(words.calib)
    points = Points(calibration)
    grid = read_grid(words.survey + ".asc")
    check_grid(calibration, grid)
    rows, cols = grid.heights.shape
    if words.col >= cols or words.row >= rows:
        raise Wrong(f"no cell {words.col} {words.row}: the grid has {cols} columns and {rows} rows")
    values, filled = read_disparities(words.survey + ".pgm")
    found = pixels_in(values, filled, points, grid, words.col, words.row)
    height = int(grid.heights[words.row, words.col]) if grid.filled[words.row, words.col] else None
    is_bridged = calibration["grid"].get("bridge", 0) != 0
    what = told(height, found, keeps_mean(calibration), is_bridged)
    if what is None:
        raise Wrong(f"{words.survey}.pgm and {words.survey}.asc aren't of one survey by {words.calib}")
    print(f"cell {words.col} {words.row}: {what}")
    for high, x, y, value, east, north in found[: None if words.all else SHOWN]:
        where = ", ".join(decimal(it, 6) for it in (east, north))
        print(f"pixel {x} {y}: disparity {sixteenths(value, points.first)}, at {where}, height {decimal(high, 6)} m")


def command() -> None:
    run(main)


if __name__ == "__main__":
    command()
