#!/usr/bin/env python3
"""Writes a survey, or the change between two, as one page for a browser, which needs no network.

    tools/survey_page.py OUT --calib calibration.json [--left left.pgm [--control-points]] [--out FILE.html]

Reads OUT.pgm, OUT.asc and, where the calibration has regions, OUT.csv, and writes OUT.html. A rectangle drawn
on the heights shows its lowest, mean and highest height, its empty cells, and fill and cut against a base that
is typed or taken from the mean of another rectangle, counted exactly, and gives the line for the calibration's
`regions`. With a calibration of version 3 an outline can be drawn too, and counts as the program
counts it; the base may be the plane that fits a piece of ground best; the volume above ground that
was taken so has plus or minus; and bridged cells are drawn apart: those with a height into which no
point of OUT.pgm falls. The page warns of what the guide says to check: many empty cells, a highest cell far above its
neighbours, disparities at the ends of the span, ground that slopes (in regions whose name begins with `ground`
and in the rectangle taken for the base). A grid of more than four million cells is shown reduced: the page
says so, and what a rectangle counts is then too large, while the table of the regions stays exact.

Beside the heights the map shows how sure they are: from how many points of OUT.pgm each cell has its height, and
their standard deviation; it warns where heights aren't those of the points. Where a region's name begins with
`ground`, the table of a survey of version 3 has the volumes above it with plus or minus. The map has a legend, a
scale bar and a north arrow, and the page prints on A4.

Where OUT.asc is a difference, as `sgm change` writes it, the page shows it: what rose red, what fell blue, the four
counts and both volumes of OUT.csv, and the same for the calibration's regions and for a drawn rectangle, with the
spread of its differences. A rectangle in which nothing has changed gives the base and says what is noise.

Where the calibration has a `pose`, heights, cells and points are in the site's frame, as the program's are. With
--control-points the page has the rectified left picture, as the program matched it, in full size and with the
disparities: places of the site whose east, north and height are known are clicked on it, these three are typed
beside each, and the page gives the table for tools/site_pose.py, `name,x,y,east,north,up` with x and y in pixels
of that picture and the others in metres. A calibration without a grid gives a page of control points alone; only
OUT.pgm is read then. Needs numpy and Pillow.
"""

import os

from sgm_tools.files import read_json
from sgm_tools.page import page, survey
from sgm_tools.running import Image, need, numpy, progress, run
from sgm_tools.words import parser_of

TEMPLATE = os.path.join(os.path.dirname(os.path.realpath(__file__)), "survey_page.html")


def main() -> None:
    epilog = "Example: tools/survey_page.py /tmp/heap --calib calibration.json --left left.pgm"
    parser = parser_of(__doc__, epilog)
    parser.add_argument("survey", metavar="OUT", help="the last word of the match, or of the change")
    calib = "the calibration of that match, or of either match of the change"
    parser.add_argument("--calib", required=True, metavar="FILE.json", help=calib)
    parser.add_argument("--left", metavar="FILE.pgm", help="the left picture, to be shown too")
    control = "show it rectified and in full size, for control points (needs --left)"
    parser.add_argument("--control-points", action="store_true", help=control)
    parser.add_argument("--out", metavar="FILE.html", help="the page (OUT.html)")
    parser.add_argument("--title", metavar="TEXT", help="the heading (the name of OUT)")
    words = parser.parse_args()
    if words.control_points and not words.left:
        parser.error("--control-points needs --left")
    need(numpy=numpy, PIL=Image)
    calibration = read_json(words.calib)
    known = survey(words.survey, calibration, words.left, words.control_points)
    title = words.title or f"{'Change' if known['change'] else 'Survey'} {os.path.basename(words.survey)}"
    name = words.out or words.survey + ".html"
    progress(f"writing {name}")
    text = page(TEMPLATE, title, known)
    with open(name, "w", encoding="utf-8") as file:
        file.write(text)
    if known["block"] > 1:
        which = "largest change" if known["change"] else "highest"
        print(f"shown reduced: the {which} of {known['block']} x {known['block']} cells each")
    print(f"{name}: {len(text) // 1000 + 1} kB")


def command() -> None:
    run(main)


if __name__ == "__main__":
    command()
