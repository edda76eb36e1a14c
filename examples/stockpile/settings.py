#!/usr/bin/env python3
"""Measures what the window and the penalties cost and gain, on the example by version 3: each setting is a match.

    examples/stockpile/settings.py [SETTING..]

prints a table in Markdown: the pixels that have a disparity; the empty cells of the region `pile`; the error of
its volume above the measured ground, against the true cone; the error of the highest height; how rough the level
ground comes out (the root of the mean square about its mean); and the area of the crate, which has 0.96 square
metres seen from above: its cells higher than half of it. A SETTING is WIDTHxHEIGHT,P1,P2 (9x7,25,100), with
`,adapt` behind it where P2 follows the image; those of the guide's table without any. All else is as
calibration_3.json has it. The program is the one that the variable SGM names (./sgm of this repository
without it). The numbers are for people, and use floating point.
"""

import argparse
import json
import math
import os
import re
import statistics
import subprocess
import sys
import tempfile

import compare_truth
import make_stockpile as truth

HERE = os.path.dirname(os.path.abspath(__file__))
SGM = os.path.realpath(os.environ.get("SGM", os.path.join(HERE, "..", "..", "sgm")))
SETTINGS = (
    "9x7,25,100",
    "9x7,25,1200,adapt",
    "7x7,19,77",
    "5x5,10,39",
    "3x3,3,13",
    "9x7,5,100",
    "9x7,60,100",
    "9x7,25,25",
    "9x7,25,400",
    "9x7,25,4000",
)
METRE = 1_000_000
CUBE = METRE**3


def setting_word(word):
    """The sides of the window, p1 and p2, and whether p2 follows the image."""
    found = re.fullmatch("([3579])x([357]),([0-9]{1,4}),([0-9]{1,4})(,adapt)?", word)
    if not found or not 1 <= int(found[3]) <= int(found[4]) <= 4000:
        raise argparse.ArgumentTypeError(f"{word} isn't WIDTHxHEIGHT,P1,P2 as the calibration has them")
    return *map(int, found.groups()[:4]), found[5] is not None


def survey(setting, folder):
    """The line that the program prints, and the heights, of the example with that setting."""
    width, height, p1, p2, adapt = setting
    with open(os.path.join(HERE, "calibration_3.json"), encoding="utf-8") as file:
        calibration = json.load(file)
    penalties = {"p1": p1, "p2": p2, "adapt": adapt}
    calibration |= {"census": {"width": width, "height": height}, "penalties": penalties}
    name, out = os.path.join(folder, "c.json"), os.path.join(folder, "o")
    with open(name, "w", encoding="utf-8") as file:
        json.dump(calibration, file)
    words = [os.path.join(HERE, "left.pgm"), os.path.join(HERE, "right.pgm"), name, out]
    done = subprocess.run([SGM, "match", *words], check=True, stdout=subprocess.PIPE, text=True)
    return done.stdout, calibration["regions"], *compare_truth.read_heights(out + ".asc")


def crate_area(head, rows, base):
    """The area of the cells around the crate that are higher than half of it, in square metres."""
    size, cells = head["cellsize"], 0
    for row, heights in enumerate(rows):
        y = head["yllcorner"] + size * (head["nrows"] - 1 - row) + size // 2
        for col, height in enumerate(heights):
            x = head["xllcorner"] + size * col + size // 2
            is_near = truth.CRATE_WEST - METRE < x < truth.CRATE_EAST + METRE and truth.CRATE_SOUTH - METRE // 2 < y
            cells += is_near and height is not None and height - base > truth.CRATE_HEIGHT // 2
    return cells * (size / METRE) ** 2


def line(setting, folder):
    """A line of the table."""
    said, (pile, ground), head, rows = survey(setting, folder)
    valid, pixels = map(int, re.fullmatch("valid ([0-9]+) of ([0-9]+)\n", said).groups())
    on_ground = [height for _, height in compare_truth.cells_of(ground, head, rows) if height is not None]
    on_pile = [height for _, height in compare_truth.cells_of(pile, head, rows)]
    filled = [height for height in on_pile if height is not None]
    if not on_ground or not filled:
        raise compare_truth.NotASurvey(f"{setting}: a region has no cell with a height")
    base = statistics.mean(on_ground)
    volume = sum(height - base for height in filled) * head["cellsize"] ** 2
    rough = math.sqrt(statistics.mean((height - base) ** 2 for height in on_ground))
    width, height, p1, p2, adapt = setting
    parts = [
        f"{width} x {height}",
        p1,
        f"{p2}, adapt" if adapt else p2,
        f"{100 * valid / pixels:.1f} %",
        f"{len(on_pile) - len(filled)} of {len(on_pile)}",
        f"{100 * (volume / compare_truth.true_volume() - 1):+.1f} %",
        f"{(max(filled) - truth.CONE_HEIGHT) / 1000:+.0f} mm",
        f"{rough / 1000:.0f} mm",
        f"{crate_area(head, rows, base):.2f} m2",
    ]
    return "| " + " | ".join(map(str, parts)) + " |"


def main():
    epilog = "Example: examples/stockpile/settings.py 9x7,25,100 5x5,10,39"
    parser = argparse.ArgumentParser(description=__doc__.split("\n\n")[0], epilog=epilog)
    parser.add_argument("settings", nargs="*", type=setting_word, metavar="SETTING", help="WIDTHxHEIGHT,P1,P2[,adapt]")
    words = parser.parse_args()
    print("| Window | p1 | p2 | Pixels with a disparity | Empty cells | Volume | Height | Ground's roughness | Crate |")
    print("|---|---|---|---|---|---|---|---|---|", flush=True)
    with tempfile.TemporaryDirectory(prefix="sgm-settings.") as folder:
        for setting in words.settings or map(setting_word, SETTINGS):
            try:
                print(line(setting, folder), flush=True)
            except (OSError, ValueError, subprocess.CalledProcessError, compare_truth.NotASurvey) as error:
                sys.exit(f"settings: {error}")


if __name__ == "__main__":
    main()
