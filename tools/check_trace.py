#!/usr/bin/env python3
"""Checks a certificate of `sgm trace` from the pictures and the calibration alone.

    tools/check_trace.py LEFT RIGHT CALIB DIR X Y D TRACE

The first seven words are those of `sgm trace`, TRACE is a file with what it printed. It should hold a sequence
of indices along the line of pixels that leads in the direction DIR to the pixel (X, Y), one line for each
pixel, `X Y INDEX COST JUMP`, and on top `least E`. Here nothing is taken from the program. The pixels that
the line needs are rectified, each cost and each jump is computed and compared, and so is their sum. In version 3
of the calibration a cost is a mean along the row, so the pixels beside the line take part in it. Then
least energies are worked out along the line, pixel by pixel and for every index: no sequence that ends in D
may have less than E, and of those with E it has to be the one whose indices, looked at from the end
backwards, are the lesser ones. So there is just one certificate that holds.

It prints `the certificate holds: least E` and ends with 0, or names the first line that doesn't hold, from 1
at the top, and ends with 1. Needs numpy, which reads the pictures.
"""

from sgm_tools.certificates import DIRECTIONS, Pair, Ray, calibration_of, fault, read_trace
from sgm_tools.running import Wrong, progress, run
from sgm_tools.words import add_pair, add_pixel, digits, parser_of


def main() -> None:
    epilog = "Example: ./sgm trace l.pgm r.pgm c.json right 20 11 3 > t.txt; "
    epilog += "tools/check_trace.py l.pgm r.pgm c.json right 20 11 3 t.txt"
    parser = parser_of(__doc__, epilog)
    add_pair(parser)
    parser.add_argument("dir", metavar="DIR", choices=DIRECTIONS, help=" ".join(DIRECTIONS))
    add_pixel(parser)
    parser.add_argument("d", metavar="D", type=digits(10), help="the index in which the sequence ends")
    parser.add_argument("trace", metavar="TRACE", help="the certificate")
    words = parser.parse_args()
    text = read_trace(words.trace)
    pair = Pair(words.left, words.right, calibration_of(words.calib))
    if words.d >= pair.count:
        raise Wrong(f"there is no index {words.d}: {pair.count} are tried")
    progress("adding up")
    ray = Ray(pair, words.dir, words.x, words.y)
    found = fault(ray, words.d, text)
    if found:
        raise Wrong(f"{words.trace}: {found}")
    print(f"the certificate holds: least {ray.least[-1][words.d]}")


def command() -> None:
    run(main)


if __name__ == "__main__":
    command()
