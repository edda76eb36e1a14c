#!/usr/bin/env python3
"""A second, separate sgm: the same words, files, lines and statuses, from the plain definitions.

It takes the words of `sgm` and is meant for small pictures and grids: it goes pixel by pixel, needs some
microseconds for each pixel and disparity, and hundreds of bytes. compare.sh and random_cases.py set the
program against it, byte for byte. It never runs out of memory (status 6).
"""

import os
import sys

import reference_matching as matching
from reference_inputs import (
    DIRECTIONS, EMPTY, GRID_HEAD, LONGEST_CALIBRATION, LONGEST_GRID, LONGEST_IMAGE, REFUSED, UNREAD, UNWRITTEN,
    COMMANDS, Calibration, Ended, Image, read_calibration, read_grid, read_pgm, read_words,
)
from reference_lists import LONGEST_LIST, read_names
from reference_matching import VOLUME_MOST, survey, warp_fault


def generated_pair(width, height, number):
    """The pair of `demo`: a picture of noise, of which the left one is the right one shifted by parts."""

    def noise(x, y):
        v = ((number + 1) * 2654435761 + 40503 * x + 69069 * y) % 2**32
        v = v ^ (v // 32768)
        v = (1664525 * v + 1013904223) % 2**32
        return v // 16777216

    def shift(x, y):
        return 28 if 96 <= x < 160 and 64 <= y < 128 else 8 + 4 * (y // 48 % 4)

    places = [(x, y) for y in range(height) for x in range(width)]
    left = [noise(x + 64 - shift(x, y), y) for x, y in places]
    right = [noise(x + 64, y) for x, y in places]
    return Image(width, height, 255, left), Image(width, height, 255, right)


def disparity_samples(found):
    return [0 if value is None else value + 16 for row in found for value in row]


def disparity_text(found):
    head = f"P5\n{len(found[0])} {len(found)}\n65535\n".encode()
    return head + b"".join(sample.to_bytes(2, "big") for sample in disparity_samples(found))


def grid_text(grid, cells, empty=EMPTY):
    """The text of a grid, in which that number stands for an empty cell."""
    lines = [
        f"ncols {grid['cols']}",
        f"nrows {grid['rows']}",
        f"xllcorner {grid['west']}",
        f"yllcorner {grid['south']}",
        f"cellsize {grid['cell']}",
        f"NODATA_value {empty}",
    ]
    lines += [" ".join(str(empty if height is None else height) for height in row) for row in cells]
    return "".join(line + "\n" for line in lines).encode()


def table_text(regions, tallies, version=1):
    bridged = "bridged," if version > 2 else ""
    lines = [f"region,cells,{bridged}empty,fill,cut,lowest,highest"]
    lines += [",".join(map(str, [region["name"], *row])) for region, row in zip(regions, tallies)]
    return "".join(line + "\n" for line in lines).encode()


def summary_text(found):
    values = [value for row in found for value in row]
    return f"valid {sum(value is not None for value in values)} of {len(values)}\n"


def trace_text(energy, steps):
    lines = [f"least {energy}", *(" ".join(map(str, step)) for step in steps)]
    return "".join(line + "\n" for line in lines)


# What stands for a cell that isn't filled in both grids. No difference is as low.
NO_DIFFERENCE = -9999999999


def volumes_text(changed):
    return ("both,come,gone,empty,fill,cut\n" + ",".join(map(str, changed)) + "\n").encode()


def fetch(name, most, what):
    try:
        with open(name, "rb") as file:
            data = file.read(most + 1)
    # (no name that an operating system knows has a byte of 0)
    except (OSError, ValueError):
        raise Ended(UNREAD, f"sgm: cannot read {what}")
    if len(data) > most:
        raise Ended(REFUSED, f"sgm: {what} is too long")
    return data


def write(name, data, what):
    try:
        with open(name, "wb", buffering=0) as file:
            while data:
                data = data[file.write(data) :]
    except OSError:
        raise Ended(UNWRITTEN, f"sgm: cannot write {what}")


def say(text):
    try:
        while text:
            text = text[os.write(1, text.encode()) :]
    except OSError:
        raise Ended(UNWRITTEN, "sgm: cannot write summary")


def fitting(left, right, calibration):
    """Refuses two pictures that don't suit one another, or that the calibration doesn't suit."""
    if (left.width, left.height) != (right.width, right.height):
        raise Ended(REFUSED, f"sgm: sizes differ: {left.width}x{left.height} and {right.width}x{right.height}")
    cells = left.width * left.height * calibration.count
    if calibration.version < 3 and cells > VOLUME_MOST:
        raise Ended(REFUSED, f"sgm: volume of {cells} cells is above {VOLUME_MOST}")
    for side, warp in (("left", calibration.left), ("right", calibration.right)):
        fault = warp_fault(warp, left.width, left.height)
        if fault:
            raise Ended(REFUSED, f"sgm: {side} warp: {fault}")


def calibration_of(data):
    """The calibration of those bytes, or the plain settings."""
    return Calibration() if data is None else read_calibration(data)


def judged(left_data, right_data, calibration_data):
    """The two pictures and the calibration, or the first refusal."""
    left, right = read_pgm(left_data, "left"), read_pgm(right_data, "right")
    calibration = calibration_of(calibration_data)
    fitting(left, right, calibration)
    return left, right, calibration


def fetch_calibration(name):
    """The bytes of a calibration, with None for `-`."""
    return None if name == "-" else fetch(name, LONGEST_CALIBRATION, "calibration")


def fetch_inputs(left_name, right_name, calibration_name):
    """The bytes of the three inputs."""
    left = fetch(left_name, LONGEST_IMAGE, "left")
    right = fetch(right_name, LONGEST_IMAGE, "right")
    return left, right, fetch_calibration(calibration_name)


def ground_texts(calibration, cells, tallies):
    """The outputs of a grid and of its regions, where there are such."""
    outputs = []
    if cells is not None:
        outputs.append((".asc", grid_text(calibration.grid, cells), "heights"))
    if tallies is not None:
        table = table_text(calibration.regions, tallies, calibration.version)
        outputs.append((".csv", table, "report"))
    return outputs


def match_texts(left, right, calibration, **refine):
    """The outputs, each as the ending of its name, its text and its word in fault lines, and the summary."""
    found, cells, tallies = survey(left, right, calibration, **refine)
    outputs = [(".pgm", disparity_text(found), "disparity"), *ground_texts(calibration, cells, tallies)]
    return outputs, summary_text(found)


def deliver(out, outputs, summary):
    for ending, data, what in outputs:
        write(out + ending, data, what)
    say(summary)


def match(left_name, right_name, calibration_name, out, **refine):
    judged_inputs = judged(*fetch_inputs(left_name, right_name, calibration_name))
    deliver(out, *match_texts(*judged_inputs, **refine))


def certificate(left, right, calibration, direction, x, y, d):
    if x >= left.width or y >= left.height or d >= calibration.count:
        raise Ended(REFUSED, f"sgm: no pixel {x} {y} with index {d}")
    offset = matching.DIRECTIONS[DIRECTIONS.index(direction)]
    return trace_text(*matching.trace(left, right, calibration, offset, x, y, d))


def trace(left_name, right_name, calibration_name, direction, *numbers):
    judged_inputs = judged(*fetch_inputs(left_name, right_name, calibration_name))
    say(certificate(*judged_inputs, direction, *map(int, numbers)))


def judged_grids(earlier_data, later_data):
    """The numbers that two grids share, and the cells of both, or the first refusal."""
    grid, earlier = read_grid(earlier_data, "earlier")
    other, later = read_grid(later_data, "later")
    for line, (_, key, *_) in enumerate(GRID_HEAD):
        if key in grid and grid[key] != other[key]:
            raise Ended(REFUSED, f"sgm: grids differ at word {2 * line + 1}")
    return grid, earlier, later


def change_texts(grid, earlier, later):
    """The texts of the difference and of the volumes, and the summary."""
    changed = matching.changed(earlier, later, grid["cell"])
    difference = grid_text(grid, matching.differences(earlier, later), NO_DIFFERENCE)
    return difference, volumes_text(changed), f"compared {changed[0]} of {grid['cols'] * grid['rows']}\n"


def change(earlier_name, later_name, out):
    earlier = fetch(earlier_name, LONGEST_GRID, "earlier")
    later = fetch(later_name, LONGEST_GRID, "later")
    difference, volumes, summary = change_texts(*judged_grids(earlier, later))
    deliver(out, [(".asc", difference, "difference"), (".csv", volumes, "volumes")], summary)


def fetch_entry(number, name, grid):
    """An entry of a merge over that grid: the numbers of its own grid and its cells, or the first refusal."""
    what = f"grid {number}"
    entry = read_grid(fetch(name, LONGEST_GRID, what), what)
    if not matching.fits(entry[0], grid):
        raise Ended(REFUSED, f"sgm: {what}: not on the calibration's cells")
    return entry


def merge_texts(calibration, entries):
    """The outputs of a merge, and the summary."""
    cells, tallies = matching.merged(calibration, entries)
    heights = [height for row in cells for height in row]
    filled = sum(height is not None for height in heights)
    return ground_texts(calibration, cells, tallies), f"merged {filled} of {len(heights)}\n"


def merge_plan(list_data, calibration_data, out):
    """The names and the calibration that a merge asks for, or the first refusal."""
    names = read_names(list_data, [out + ending for ending in COMMANDS["merge"].endings])
    calibration = calibration_of(calibration_data)
    if calibration.grid is None:
        raise Ended(REFUSED, "sgm: calibration: grid is missing")
    return names, calibration


def merge(list_name, calibration_name, out):
    list_data = fetch(list_name, LONGEST_LIST, "list")
    calibration_data = fetch_calibration(calibration_name)
    names, calibration = merge_plan(list_data, calibration_data, out)
    entries = [fetch_entry(number, name, calibration.grid) for number, name in enumerate(names)]
    deliver(out, *merge_texts(calibration, entries))


def demo(number, **refine):
    found, _, _ = survey(*generated_pair(256, 192, int(number)), Calibration(), **refine)
    say(summary_text(found) + f"sum {sum(disparity_samples(found))}\n")


def is_text(words):
    """Whether all words are UTF-8. One that isn't comes with bytes in disguise, and then there are no words."""
    return not any("\udc80" <= letter <= "\udcff" for word in words for letter in word)


def main(words):
    if not is_text(words):
        return 1
    try:
        operands, options = read_words(words)
        if words[0] in ("match", "demo"):
            call = match if words[0] == "match" else demo
            call(*operands, peak=options["peak"], fill=options["fill"])
        else:
            call = {"trace": trace, "change": change, "merge": merge}[words[0]]
            call(*operands)
    except Ended as end:
        try:
            os.write(2, (end.line + "\n").encode())
        except OSError:
            pass
        return end.status
    return 0


if __name__ == "__main__":
    sys.exit(main(sys.argv[1:]))
