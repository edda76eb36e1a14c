#!/usr/bin/env python3
"""Says what came and went in each region between two surveys, from the difference that `sgm change` has written.

    tools/change_volumes.py OUT --calib calibration.json [--still NAME] [--digits N]

Reads OUT.asc and OUT.csv and the regions of the calibration, whose bases play no part here while
their outlines do, and writes a line for each region and one for the whole grid, `all`:

    region,cells,empty,fill_m3,cut_m3,net_m3,mean_m,spread_m

`cells` have a height in both surveys, `empty` haven't. Fill is where the later survey is higher, cut where it is
lower, net is fill less cut; mean is that of the differences, to the nearest micrometre, halves up, and spread the
root of the mean square of how far they lie from it, rounded down. With --still NAME, a region in which nothing has
changed, there is a column more, `least_m3`: the root of the mean square of that region's differences, times the
region's area (its cells). A net volume below it says nothing: it could be noise. All numbers are exact, and are
rounded by --digits alone, halves away from 0. Needs numpy.
"""

import csv
import sys

from sgm_tools.changes import still_one, table, tallies
from sgm_tools.files import read_json
from sgm_tools.running import need, numpy, progress, run
from sgm_tools.words import add_digits, parser_of

HEAD = ["region", "cells", "empty", "fill_m3", "cut_m3", "net_m3", "mean_m", "spread_m"]


def main() -> None:
    epilog = "Example: tools/change_volumes.py /tmp/change --calib calibration.json --still ground --digits 3"
    parser = parser_of(__doc__, epilog)
    parser.add_argument("change", metavar="OUT", help="the last word of the change")
    parser.add_argument("--calib", required=True, metavar="FILE.json", help="the calibration of either survey")
    parser.add_argument("--still", metavar="NAME", help="a region in which nothing has changed")
    add_digits(parser)
    words = parser.parse_args()
    need(numpy=numpy)
    named = tallies(words.change, read_json(words.calib))
    still = still_one(named, words.still) if words.still is not None else None
    head: list[object] = [*HEAD, *(["least_m3"] if still else [])]
    lines = [head, *table(named, still, words.digits)]
    progress("")
    csv.writer(sys.stdout, lineterminator="\n").writerows(lines)


def command() -> None:
    run(main)


if __name__ == "__main__":
    command()
