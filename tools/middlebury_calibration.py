#!/usr/bin/env python3
"""Turns the calib.txt of a Middlebury pair into a calibration of sgm: disparities, camera, penalties.

    tools/middlebury_calibration.py calib.txt --out calibration.json [--adapt] [--tight] [--version 3]

calib.txt is that of the stereo datasets of 2014 and 2021: lines NAME=VALUE with cam0, cam1, doffs, baseline (in
millimetres), width, height and ndisp. The pair is rectified already, so there is no warp. The disparities are 0 to
ndisp - 1; with --tight they are vmin to vmax. Near and far are the distances of the last and the first of them,
mount is far. The calibration is of version 1, with --adapt of version 2, with --version 3 of that one (then with finer disparities, unless --no-fine is there). Convert the pictures with tools/photo_to_pgm.py, then bench/accuracy.py compares what is found with
the true disparities.
"""

import argparse
import math

from sgm_tools.calibrations import calibration_text, settings_of
from sgm_tools.kinds import Json
from sgm_tools.middlebury import FARTHEST, number, read_lines, rows_of, span_of
from sgm_tools.running import Wrong, run
from sgm_tools.words import add_settings, check_settings, parser_of


def calibration(found: dict[str, str], words: argparse.Namespace) -> Json:
    matrix, doffs, span = rows_of(found, "cam0"), number(found, "doffs"), span_of(found, words.tight)
    focal, baseline = matrix[0][0], 1000 * number(found, "baseline")
    if not (0 < focal <= 65536 and 1 <= baseline <= FARTHEST):
        raise Wrong("the focal length and the baseline aren't those of a pair")

    def distance(disparity: int) -> float:
        return focal * baseline / (disparity + doffs) if disparity + doffs > 0 else FARTHEST

    far = min(FARTHEST, math.ceil(distance(span["first"])))
    return {
        **settings_of(words, span, (9, 7)),
        "camera": {
            "focal": round(256 * focal),
            "baseline": round(baseline),
            "cx": round(256 * matrix[0][2]),
            "cy": round(256 * matrix[1][2]),
            "doffs": round(256 * doffs),
            "mount": far,
            "near": min(far, math.floor(distance(span["first"] + span["count"] - 1))),
            "far": far,
        },
    }


def words_of() -> argparse.Namespace:
    epilog = "Example: tools/middlebury_calibration.py calib.txt --adapt --out calibration.json"
    parser = parser_of(__doc__, epilog)
    parser.add_argument("file", metavar="FILE", help="calib.txt of the pair")
    parser.add_argument("--out", required=True, metavar="FILE.json", help="the calibration of sgm")
    parser.add_argument("--adapt", action="store_true", help="let P2 follow the image")
    parser.add_argument("--tight", action="store_true", help="disparities vmin to vmax in place of 0 to ndisp - 1")
    add_settings(parser)
    words = parser.parse_args()
    check_settings(parser, words)
    return words


def main() -> None:
    words = words_of()
    made = calibration(read_lines(words.file), words)
    with open(words.out, "w", encoding="ascii") as file:
        file.write(calibration_text(made))
    span, camera = made["disparities"], made["camera"]
    last = span["first"] + span["count"] - 1
    print(f"disparities {span['first']} to {last}, {camera['near']} to {camera['far']} micrometres away")


def command() -> None:
    run(main)


if __name__ == "__main__":
    command()
