#!/usr/bin/env python3
"""Makes the small survey that many.sh and its kin match: a dozen pairs and their calibrations, in a new folder.

    tests/make_survey.py FOLDER

The pictures are NUMBER_left.pgm and NUMBER_right.pgm, with odd letters in one of the numbers; calibration.json asks for a
grid and regions, and grid.json for a grid alone. Of two pairs the inputs are refused: pair 4 has two sizes, and the
left picture of pair 9 is no binary PGM.
"""

import argparse
import json
import os
import sys

import random_inputs
from calibration_cases import WHOLE

PAIRS = 12
ODD = {5: "05'\u00e4\"$HOME\\{1}\v"}
TWO_SIZES, NO_PICTURE = 4, 9


def pair_of(number):
    """The bytes of both pictures."""
    draw = random_inputs.Draw(2024, number)
    left, right = random_inputs.pair_of(draw, 5 + number % 4 * 3, 3 + number % 3)
    if number == TWO_SIZES:
        right = random_inputs.pair_of(draw, 4, 3)[1]
    return b"P2" + left[2:] if number == NO_PICTURE else left, right


def files():
    yield "calibration.json", json.dumps(WHOLE).encode()
    yield "grid.json", json.dumps({key: value for key, value in WHOLE.items() if key != "regions"}).encode()
    for number in range(PAIRS):
        stem = ODD.get(number, f"{number:02}")
        for side, data in zip(("left", "right"), pair_of(number)):
            yield f"{stem}_{side}.pgm", data


def main():
    parser = argparse.ArgumentParser(description=__doc__.split("\n\n")[0], epilog="Example: tests/make_survey.py /tmp/survey")
    parser.add_argument("folder", metavar="FOLDER", help="a new folder")
    words = parser.parse_args()
    try:
        os.mkdir(words.folder)
        for name, data in files():
            with open(os.path.join(words.folder, name), "wb") as file:
                file.write(data)
    except OSError as error:
        sys.exit(f"make_survey: {error}")


if __name__ == "__main__":
    main()
