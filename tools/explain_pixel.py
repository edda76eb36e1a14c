#!/usr/bin/env python3
"""Shows why a pixel has the disparity that it has: eight certificates for it and for those beside it, checked.

    tools/explain_pixel.py LEFT RIGHT CALIB X Y [--sgm PATH]

An index is a disparity less the first one. The program takes the index whose sum over eight directions is the
least. Here it is asked for the certificate of each direction for that index and for the two beside it
(`sgm trace`), and each is checked against the pictures as tools/check_trace.py does, which takes nothing from
the program. A table shows what they come to; below it stands, in version 3 of the calibration, what the index's cost at
the pixel is made of, then by how much the index wins, what lies between it and its neighbours (a sixteenth of a pixel is the finest step), what the program's own disparity picture has
there (`sgm match`, without peaks or filling, in a folder that goes away again), and the point in metres where the
calibration has a camera, in the site's frame where it has a pose.

Where the calibration has `fine` true, the program is asked for its picture without that too. From
what this one has around the pixel, and from the two pictures, follows how the disparity is made
finer: how a window is laid along the surface, what each of seventeen changes scores, which one wins
or why the disparity stays as it is, and the mean with the pixels around it.

It ends with 0 where all of it holds together, and names what doesn't and ends with 1 elsewhere. The program is what
--sgm names, or the variable SGM, or the one of this repository, or the one on the PATH. Needs numpy. Takes seconds
for small pictures, a minute for large ones.
"""

from sgm_tools.certificates import Pair, calibration_of
from sgm_tools.explanations import (
    Question,
    check_certificates,
    directions_of,
    explain,
    explain_finer,
    maps_of,
    point_line,
)
from sgm_tools.programs import given_program
from sgm_tools.running import Wrong, progress, run
from sgm_tools.words import add_pair, add_pixel, parser_of


def main() -> None:
    epilog = "Example: tools/explain_pixel.py examples/stockpile/left.pgm examples/stockpile/right.pgm "
    epilog += "examples/stockpile/calibration.json 168 150"
    parser = parser_of(__doc__, epilog)
    add_pair(parser)
    add_pixel(parser)
    program = "the program (that of the variable SGM, of this repository, or of the PATH)"
    parser.add_argument("--sgm", metavar="PATH", default=given_program(), help=program)
    words = parser.parse_args()
    calibration = calibration_of(words.calib)
    pair = Pair(words.left, words.right, calibration)
    if words.x >= pair.left.width or words.y >= pair.left.height:
        raise Wrong(f"there is no pixel {words.x} {words.y}")
    asked = Question(words.left, words.right, words.calib, words.x, words.y, words.sgm)
    before, after = maps_of(asked, calibration)
    value = before.at(words.x, words.y)
    directions = directions_of(pair, asked)
    sums = [sum(it.paths[d] for it in directions) for d in range(pair.count)]
    chosen = sums.index(min(sums))
    indices = [d for d in (chosen - 1, chosen, chosen + 1) if 0 <= d < pair.count]
    check_certificates(asked, directions, indices, chosen)
    lines = list(explain(pair, asked, value, directions, indices, chosen))
    if pair.is_fine:
        lines += explain_finer(pair, asked, before, after)
    lines += point_line(calibration, asked, after.at(words.x, words.y))
    progress("")
    print("\n".join(lines))


def command() -> None:
    run(main)


if __name__ == "__main__":
    command()
