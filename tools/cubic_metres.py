#!/usr/bin/env python3
"""Turns the report (OUT.csv) into a table in metres and cubic metres, exactly, and says the volume above the ground.
Reads the volumes of `sgm change` too.

    tools/cubic_metres.py OUT.csv [--ground NAME --calibration CALIB.json [--heights OUT.asc]] [--out FILE.csv] [--digits N]

The report has whole micrometres and cubic micrometres. Fill and cut pass 2^63 at 9.22 cubic metres, and
2^53, up to which a sheet keeps whole numbers, at 0.009, so most programs round or refuse them. Here the
point is set by moving it, and no number is ever taken for a floating point one. Each line becomes

    region,cells,empty,fill_m3,cut_m3,net_m3,lowest_m,highest_m

where net is fill less cut; a report of version 3 has `bridged` behind the cells, and so has its table. With
--ground NAME a region of flat ground says from which height the others are to be measured, and each line has two
words more, `ground_m,above_m3`:

- ground_m is the mean height of the ground's cells, its base + (fill - cut) / (cells * cell * cell), to the
  nearest micrometre, halves up. Where a cell keeps the highest of its points, level ground is measured too high
  by its noise; the cells of the heap are too, and a base that is measured takes the error out of both.
- above_m3 is the region's net volume above that height (below it, where it is negative): net moves by
  cells * cell * cell for each micrometre by which the base moves. It is exactly the fill less the cut of a
  survey whose base for the region is ground_m. The ground's own line has none.

Where bases slope (rise_east and rise_north of version 3), ground_m is the height at the grid's
south-west corner, as a base is, of the ground's base when it is lifted to the mean of its cells,
and above_m3 is the volume above that sloping plane. A region whose base rises otherwise than the
ground's has no above_m3: give both one plane, as tools/opencv_calibration.py does. Of a region with
an outline the cells inside alone count.

With --heights OUT.asc, the heights of that survey, there is a third word, `plus_minus_m3`, by how much above_m3
may be off: cells * cell * cell * (2 s + 3 D) / 6, where s is what a sixteenth of a pixel is in height on the
ground, 16 Z Z / (focal * baseline) at the distance Z = mount - ground, and D the mean of how far the ground's
cells lie from their mean height, each to the nearest micrometre; where bases slope, D is of each
height less its base. Where the calibration has a `pose`, cells aren't equally far away and points move along
slanting lines of sight: s is then 16 Z A / (focal * baseline), Z being the distance along the camera's axis at the
mean place of the cells on the ground's plane, and A the height of the camera above that plane. It is taken at the
region's cells and at the ground's, and the greater counts. For level ground below a camera that looks straight down
all of this is the same number. It is meant for surveys in version 3 with
`fine` true and cells that keep the mean and are bridged; what it covers and what it doesn't is said on standard
error. Of 144 volumes of drawn heaps, at eight heights of the camera, all were within it. Those cameras looked straight
down; with cameras that look aslant it hasn't been tried so.

The volumes of a change become `both,come,gone,empty,fill_m3,cut_m3,net_m3`; they have no regions and no ground
(tools/change_volumes.py has those).

Base and cell come from the calibration of the survey. Without --digits every digit stays and zeros at the end
fall away; with it the numbers are rounded to so many decimals, halves away from 0. The table goes to standard
output where --out isn't given. Needs Python alone, and numpy for --heights.
"""

import csv
import sys

from sgm_tools.running import need, numpy, progress, run, tool_name
from sgm_tools.volumes import COVERED, Ground, made
from sgm_tools.words import add_digits, parser_of


def main() -> None:
    epilog = "Example: tools/cubic_metres.py heap.csv --ground ground --calibration heap.json --digits 3"
    parser = parser_of(__doc__, epilog)
    parser.add_argument("file", metavar="OUT.csv", help="the report, or the volumes, that sgm has written")
    parser.add_argument("--ground", metavar="NAME", help="the region of flat ground above which others are measured")
    parser.add_argument("--calibration", metavar="CALIB.json", help="the calibration of the survey; --ground needs it")
    heights = "the heights of the survey: --ground says by how much its volumes may be off"
    parser.add_argument("--heights", metavar="OUT.asc", help=heights)
    parser.add_argument("--out", metavar="FILE.csv", help="the new table (standard output if not given)")
    add_digits(parser)
    words = parser.parse_args()
    if (words.ground is None) != (words.calibration is None):
        parser.error("--ground and --calibration need each other")
    if words.heights is not None:
        if words.ground is None:
            parser.error("--heights needs --ground")
        need(numpy=numpy)
    asked = None if words.ground is None else Ground(words.ground, words.calibration, words.heights)
    lines = made(words.file, asked, words.digits)
    progress("")
    if words.heights is not None:
        print(f"{tool_name()}: {COVERED}", file=sys.stderr)
    if words.out is None:
        csv.writer(sys.stdout, lineterminator="\n").writerows(lines)
    else:
        with open(words.out, "w", newline="") as file:
            csv.writer(file, lineterminator="\n").writerows(lines)


def command() -> None:
    run(main)


if __name__ == "__main__":
    command()
