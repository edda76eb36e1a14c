#!/usr/bin/env python3
"""Calibrates a pair of cameras from pictures of a chessboard, for tools/opencv_calibration.py.

    tools/calibrate_pair.py --left FOLDER --right FOLDER --board 9x6 --square 25 --out cameras.json

--left and --right name folders or single pictures; both cameras took them at the same moments, and sorted by
name the first left one belongs to the first right one, and so on. --board counts the inner corners of the
chessboard, those where four squares meet, along a row and along a column; --square is the side of a square,
in the unit that T shall have. Take ten pairs or more, the board near and far, in every corner of the picture,
tilted this way and that. Pictures are turned as their EXIF says.

Prints which pictures show no board, how far the corners are from where the calibration has them, for each
camera and for the pair, and how far the rows of the rectified pair are apart, all in pixels. Fewer than five
pairs with a board, pictures of more than one size, and errors above --worst are refused.

Then it prints how far off the calibration can be: the standard errors of the focal length, of the baseline and of a
volume, from calibrations that leave out one board each. A volume's is that of a heap which fills most of what both
cameras see, at the mean distance of the boards and at twice that, or at the distance of --survey-distance. And it
prints where the boards lay, and which further ones would help most.

--check-distance holds a known distance, as the length of a staff, against what the cameras make of it: the places of
its first end in the left and in the right photograph, COLUMN,ROW in pixels, those of its second end, its true length,
and by how much that may be off, both in the unit of --square. It may stand several times. With --cameras in place of
the boards it is asked of cameras that were calibrated before.

The file has the camera matrices M1 and M2, the distortions D1 and D2, R and T as cv2.stereoCalibrate gives
them, and imageSize. Needs numpy, Pillow and OpenCV's package (cv2).
"""

import argparse
import json
import re

from sgm_tools import further_boards, known_distances, spreads
from sgm_tools.boards import Boards, boards_in, calibrate, cv2, refuse_bad
from sgm_tools.kinds import Floats
from sgm_tools.opencv import read_calibration
from sgm_tools.pairs import Cameras
from sgm_tools.running import Image, Wrong, need, numpy, progress, run
from sgm_tools.words import parser_of, positive_word

# The words that a calibration takes, and how many further boards are named.
FOR_BOARDS = ("left", "right", "board", "square", "out")
NAMED = 4


# Words


def board_word(word: str) -> tuple[int, int]:
    found = re.fullmatch("([0-9]{1,3})[xX]([0-9]{1,3})", word)
    if not found or min(int(found[1]), int(found[2])) < 3:
        raise argparse.ArgumentTypeError(f"{word} isn't COLUMNSxROWS of inner corners, each 3 or more")
    return int(found[1]), int(found[2])


def words_of() -> argparse.Namespace:
    epilog = """example:
  tools/calibrate_pair.py --left boards/left --right boards/right --board 9x6 --square 25 --out cameras.json
  tools/calibrate_pair.py --cameras cameras.json --check-distance 812.5,640 530.2,641.5 1310,655 1041.7,655.5 2000 1"""
    parser = parser_of(__doc__, epilog)
    option = parser.add_argument
    option("--left", nargs="+", metavar="PATH", help="folders or pictures of the left camera")
    option("--right", nargs="+", metavar="PATH", help="those of the right camera, in the same order")
    option("--board", type=board_word, metavar="COLSxROWS", help="inner corners of the chessboard")
    side = "side of a square; the baseline comes out in its unit"
    option("--square", type=positive_word, metavar="LENGTH", help=side)
    option("--out", metavar="FILE.json", help="the cameras, for tools/opencv_calibration.py")
    option("--worst", type=positive_word, default=1.0, metavar="PIXELS", help="the greatest error that is taken (1)")
    option("--k3", action="store_true", help="fit the third number of radial distortion too, for very wide lenses")
    away = "how far away you will survey, in the unit of --square (the boards' mean distance, and twice that)"
    option("--survey-distance", type=positive_word, metavar="LENGTH", help=away)
    option("--cameras", metavar="FILE.json", help="cameras that were calibrated before, for --check-distance")
    ends = ("LEFT1", "RIGHT1", "LEFT2", "RIGHT2", "LENGTH", "TOLERANCE")
    known = "a known distance: COLUMN,ROW of its first end in the left and in the right photograph, of its second end"
    known += ", how long it is, and by how much that may be off"
    option("--check-distance", action="append", nargs=6, default=[], metavar=ends, help=known)
    words = parser.parse_args()
    check_words(parser, words)
    return words


def check_words(parser: argparse.ArgumentParser, words: argparse.Namespace) -> None:
    """Ends where the words don't belong together; reads those of known distances."""
    missing = [f"--{name}" for name in FOR_BOARDS if getattr(words, name) is None]
    if words.cameras is None and missing:
        parser.error(f"the following arguments are required: {', '.join(missing)}")
    if words.cameras is not None and len(missing) < len(FOR_BOARDS):
        parser.error("--cameras stands in place of the words for boards")
    if words.cameras is not None and not words.check_distance:
        parser.error("--cameras: needs --check-distance")
    try:
        words.check_distance = [known_distances.known_of(it) for it in words.check_distance]
    except argparse.ArgumentTypeError as error:
        parser.error(f"argument --check-distance: {error}")


# Calibrating


def calibrated(words: argparse.Namespace, boards: Boards) -> dict[str, Floats]:
    """The parts of the file, whose errors are printed and aren't too large."""
    try:
        parts, errors = calibrate(boards, words.k3)
    except cv2.error as error:
        raise Wrong(f"OpenCV finds no cameras for these pictures: {error.err}")
    progress("")
    print(f"{len(boards.left)} pairs of {boards.size[0]} x {boards.size[1]} with a board")
    for name, off in errors.items():
        print(f"{name}: {off:.3f} pixels")
    refuse_bad(errors, parts["T"], words.worst)
    return parts


def write(name: str, parts: dict[str, Floats], boards: Boards) -> None:
    whole = {"imageSize": list(boards.size), **{name: part.tolist() for name, part in parts.items()}}
    with open(name, "w") as file:
        file.write("{" + ",\n ".join(f"{json.dumps(key)}: {json.dumps(value)}" for key, value in whole.items()) + "}\n")


# What it is good to


def print_spread(spread: spreads.Spread, count: int) -> None:
    """What the calibrations without one board each say."""
    print(f"standard errors, from {count} calibrations without one board each:")
    for name, off, times in (("focal length", spread.focal, 1), ("baseline", spread.baseline, 3)):
        print(f"    {name} {100 * off:.2f} %, which is {100 * times * off:.2f} % of a volume")
    volumes = ", ".join(f"{100 * off:.2f} % at a distance of {away:.4g}" for away, off in spread.volumes.items())
    print(f"    all numbers together, of a volume: {volumes}")
    print(f"    most is changed by {spread.weightiest}: without it a volume is {100 * spread.weight:+.2f} %")


def print_boards(cameras: Cameras, boards: Boards) -> None:
    """Where the boards lay."""
    lyings = further_boards.lyings_of(cameras, boards)
    away = [further_boards.middle_of(it, boards)[2] for it in lyings]
    tilts = [further_boards.tilt_of(it, boards) for it in lyings]
    line = f"boards {min(away):.4g} to {max(away):.4g} away, tilted by {min(tilts):.0f} to {max(tilts):.0f} degrees"
    for side, corners in (("left", boards.left), ("right", boards.right)):
        empty = further_boards.empty_parts(corners, boards)
        line += f"; no corner in the {side} picture's {', '.join(empty)}" if empty else ""
    print(line)


def print_further(found: list[further_boards.Further], away: float, off: float) -> None:
    """The boards that would help, and the volume's error with them."""
    if not found:
        print("no further board would be seen whole by both cameras at these distances")
        return
    print(f"further boards that help most, and the error of a volume at {away:.4g} with them:")
    for it in found[:NAMED]:
        print(f"    {it.part}, {it.away:.4g} away, {it.held}: {100 * it.remains * off:.2f} %")
    if found[-1].remains <= 0.5:
        print(f"    so {len(found)} such board{'s halve' if len(found) > 1 else ' halves'} it")


def print_sureness(words: argparse.Namespace, boards: Boards, parts: dict[str, Floats]) -> None:
    """How far off the calibration can be, and what would help."""
    cameras = Cameras.of(parts, boards.size)
    mean = further_boards.mean_distance(cameras, boards)
    distances = [words.survey_distance] if words.survey_distance else [mean, 2 * mean]
    try:
        spread = spreads.spread_of(boards, parts, words.k3, distances)
        found = further_boards.further_boards(cameras, boards, distances[-1], 5 if words.k3 else 4)
    except cv2.error as error:
        raise Wrong(f"OpenCV finds no cameras without one of the boards: {error.err}")
    progress("")
    print_spread(spread, len(boards.left))
    print_boards(cameras, boards)
    print_further(found, distances[-1], spread.volumes[distances[-1]])


def print_distances(known: list[known_distances.Known], cameras: Cameras) -> None:
    for number, it in enumerate(known, 1):
        print("\n".join(known_distances.lines_of(number, it, known_distances.measured(cameras, it))))


def main() -> None:
    words = words_of()
    need(numpy=numpy, PIL=Image, cv2=cv2)
    if words.cameras is not None:
        read = read_calibration([words.cameras], None)
        if "R" not in read or "T" not in read:
            raise Wrong(f"{words.cameras}: R and T are missing")
        lenses = (read["K1"], read["D1"], read["K2"], read["D2"])
        print_distances(words.check_distance, Cameras(*lenses, read["R"], read["T"], read["size"]))
        return
    boards = boards_in(words.left, words.right, words.board, words.square)
    parts = calibrated(words, boards)
    write(words.out, parts, boards)
    print(f"baseline: {float(numpy.linalg.norm(parts['T'])):.6g}, in the unit of --square")
    print_sureness(words, boards, parts)
    print_distances(words.check_distance, Cameras.of(parts, boards.size))


def command() -> None:
    run(main)


if __name__ == "__main__":
    command()
