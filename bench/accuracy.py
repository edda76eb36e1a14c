#!/usr/bin/env python3
"""Measures how right the disparities are on pairs whose true disparities are known, beside OpenCV's StereoSGBM.

    bench/accuracy.py LEFT RIGHT CALIB TRUTH [--mask MASK] [--p2 P2..] [--peak N]
    bench/accuracy.py --scenes [--only SCENE..] [--p2 P2..] [--peak N]

The first matches one pair. TRUTH is PFM, as Middlebury has it, or PGM of 16 bits in sixteenths of a pixel
(--unit 256 for 1/256), 0 where nothing is known; it is of the rectified left picture. MASK is a picture that is
white where both cameras see the surface, as Middlebury's mask0nocc.png; what is black or grey inside of both
pictures counts as hidden. The second matches made-up scenes whose truth is exact: SCENES below says what each has.

For each pair it prints a table in Markdown, a line for each way of matching: the calibration with a fixed P2
(version 1), then with one that follows the image (version 2), for each P2 given, then version 3 with the penalties
that are recommended for it, fixed and following the image, each without and with finer disparities, then those of the first two with peaks taken out and holes
filled. What a program doesn't know (an older one has no version 2) is left out, and said. The columns are, of the
pixels whose truth is known: the share that has a value; the share of these values that is wrong by more than
1 and more than 2 pixels; the median error of the values that aren't wrong by more than 1, in pixels; and the
share that has a right value of the pixels that both cameras see, of those whose place in the right picture is
hidden by something nearer, and of those whose place lies outside the right picture (a band at the left); and,
without that band, the shares of values wrong by more than 1 and by more than half a pixel, and the mean error of the
values that aren't wrong by more than 1.

OpenCV matches the same pair with all eight directions (MODE_HH), where `import cv2` works (Debian:
python3-opencv) and the calibration has no warp: once bare, once with what its documentation advises against
wrong values. The program is the one that the variable SGM names (./sgm of this repository without it).
"""

import argparse
import json
import os
import re
import subprocess
import sys
import tempfile

HERE = os.path.dirname(os.path.abspath(__file__))
sys.path.insert(0, os.path.join(HERE, "..", "tools"))

from sgm_tools import files, running
from sgm_tools.running import Wrong, numpy

cv2 = running.package("cv2")
SGM = os.path.realpath(os.environ.get("SGM", os.path.join(HERE, "..", "sgm")))
PLAIN = {
    "disparities": {"first": 0, "count": 64},
    "census": {"width": 9, "height": 7},
    "penalties": {"p1": 10, "p2": 120},
}
# The penalties that are recommended for version 3: P1, P2 and whether P2 follows the image. They are those of a window
# of 9 x 7, which has 62 neighbours; for other windows they are in proportion.
THIRD, NEIGHBOURS = ((25, 100, False), (25, 1200, True)), 62
# What an older program says of what it doesn't know.
UNKNOWN = (
    "sgm: calibration: unknown version",
    "sgm: calibration: disparities.fine is out of range",
    "sgm: word 5 is not an option",
)
# What OpenCV's documentation gives as usual: penalties from the block's size, and what takes wrong values out.
BARE = {"blockSize": 3, "P1": 72, "P2": 288, "disp12MaxDiff": 1}
FILTERED = {"blockSize": 5, "P1": 200, "P2": 800, "disp12MaxDiff": 1, "preFilterCap": 63, "uniquenessRatio": 10}
FILTERED |= {"speckleWindowSize": 100, "speckleRange": 2}


# Truth


def read_pfm(name):
    """The rows of a PFM from the top, as floats; its own order is from the bottom."""
    data = files.read_bytes(name)
    head = re.match(rb"Pf\s+([0-9]{1,5})\s+([0-9]{1,5})\s+(-?[0-9.]+)[ \t\r]*\n", data)
    if not head:
        raise Wrong(f"{name}: not a PFM of one channel")
    width, height = int(head[1]), int(head[2])
    kind = "<f4" if float(head[3]) < 0 else ">f4"
    if len(data) - head.end() < 4 * width * height or not (width and height):
        raise Wrong(f"{name}: {len(data) - head.end()} bytes of samples, {4 * width * height} needed")
    rows = numpy.frombuffer(data, kind, width * height, head.end()).reshape(height, width)
    return rows[::-1].astype(numpy.float64)


def read_truth(name, unit):
    """The true disparities in pixels, NaN where they aren't known."""
    if not name.lower().endswith(".pfm"):
        samples, _ = files.read_pgm(name)
        return numpy.where(samples == 0, numpy.nan, samples / unit)
    rows = read_pfm(name)
    return numpy.where(numpy.isfinite(rows), rows, numpy.nan)


# Made-up scenes


def smooth(cells, x, y):
    """Values between those of a grid of cells, which goes on in all directions."""
    height, width = cells.shape
    i, j = numpy.floor(x).astype(int), numpy.floor(y).astype(int)
    a, b = x - i, y - j
    a, b = a * a * (3 - 2 * a), b * b * (3 - 2 * b)
    at = lambda across, down: cells[(j + down) % height, (i + across) % width]
    return (1 - b) * ((1 - a) * at(0, 0) + a * at(1, 0)) + b * ((1 - a) * at(0, 1) + a * at(1, 1))


class Surface:
    """Something that stands in the scene: its disparity and its grey at (x, y) of the left picture, and where it is.

    `disparity` and `covers` are functions of x and y, the grey is that of grains about a mean.
    """

    def __init__(self, disparity, covers, grey, contrast, draw):
        self.disparity, self.covers, self.mean, self.contrast = disparity, covers, grey, contrast
        self.grains = [draw.random((256, 256)) for _ in range(3)]

    def grey(self, x, y):
        coarse, middle, fine = (smooth(cells, x / size, y / size) for cells, size in zip(self.grains, (11, 4, 1.7)))
        return self.mean + self.contrast * (0.5 * coarse + 0.7 * middle + fine - 1.1)

    def left_column(self, u, y):
        """The column of the left picture whose point the right one shows at u."""
        x = u + 0.0
        for _ in range(60):
            x = u + self.disparity(x, y)
        return x


def seen(surfaces, places):
    """The disparity and the grey of the nearest surface at each pixel; places gives a surface's own columns."""
    nearest, grey = None, None
    for surface in surfaces:
        x, y = places(surface)
        disparity = numpy.where(surface.covers(x, y), surface.disparity(x, y), -numpy.inf)
        shade = surface.grey(x, y)
        is_nearer = numpy.ones(x.shape, bool) if nearest is None else disparity > nearest
        nearest = numpy.where(is_nearer, disparity, -numpy.inf if nearest is None else nearest)
        grey = numpy.where(is_nearer, shade, 0 if grey is None else grey)
    return nearest, grey


class Scene:
    """A pair with what is true of it. `row` is by how many rows the right camera's picture is off."""

    def __init__(self, surfaces, size, draw, noise=2.0, gain=1.0, row=0.0):
        width, height = size
        y, x = numpy.mgrid[0:height, 0:width].astype(float)
        self.truth, left = seen(surfaces, lambda surface: (x, y))
        off = y + row
        nearest, right = seen(surfaces, lambda surface: (surface.left_column(x, off), off))
        self.both = self.seen_by_both(x, nearest)
        self.left = self.picture(left, noise, draw)
        self.right = self.picture(gain * right, noise, draw)

    def seen_by_both(self, x, nearest):
        """Where the point that a pixel shows lies in the right picture with nothing nearer before it."""
        u = x - self.truth
        column = numpy.rint(u).astype(int).clip(0, x.shape[1] - 1)
        before = numpy.take_along_axis(nearest, column, axis=1)
        return (u >= 0) & (before < self.truth + 1)

    def picture(self, grey, noise, draw):
        return numpy.rint(grey + noise * draw.standard_normal(grey.shape)).clip(0, 255).astype(numpy.uint8)


def ground(draw, disparity, grey=120, contrast=90):
    return Surface(disparity, lambda x, y: numpy.ones(x.shape, bool), grey, contrast, draw)


def box(draw, size, west, north, east, south, disparity, grey, contrast=90):
    """A surface within a rectangle, whose sides are given as shares of the picture's."""
    west, east, north, south = west * size[0], east * size[0], north * size[1], south * size[1]
    covers = lambda x, y: (x >= west) & (x < east) & (y >= north) & (y < south)
    return Surface(lambda x, y: numpy.full(x.shape, float(disparity)), covers, grey, contrast, draw)


def slope(size, draw):
    return [ground(draw, lambda x, y: 6 + 0.05 * x * 320 / size[0] + 0.09 * y * 240 / size[1])]


def heap(size, draw):
    """A cone as a camera above it sees it: disparities of 24 at its foot and about 40 at its tip."""
    middle, radius = (0.55 * size[0], 0.5 * size[1]), 0.42 * size[1]

    def disparity(x, y):
        away = numpy.hypot(x - middle[0], y - middle[1]) / radius
        return 24 / (1 - 0.4 * (1 - away).clip(0, None))

    return [ground(draw, disparity)]


def wall(size, draw, contrast=90):
    """A near block with straight edges before a ground, lighter than it."""
    far = ground(draw, lambda x, y: 8 + 0.02 * y * 240 / size[1], 80, contrast)
    return [far, box(draw, size, 0.35, 0.2, 0.8, 0.75, 34.25, 165, contrast)]


def poles(size, draw):
    """Bars of some pixels before a ground, upright ones and one across."""
    made = [ground(draw, lambda x, y: 7.5 + 0.0 * x, 90)]
    for at, pixels, grey in ((0.3, 3, 200), (0.45, 4, 20), (0.6, 6, 190), (0.8, 10, 30)):
        made.append(box(draw, size, at, 0.1, at + pixels / size[0], 0.95, 21, grey, 50))
    return [*made, box(draw, size, 0.25, 0.4, 0.9, 0.4 + 5 / size[1], 22.5, 210, 50)]


# Each with what it is made of and what is wrong with its pictures.
SCENES = {
    "slope": (slope, {}),
    "heap": (heap, {}),
    "wall": (wall, {}),
    "poles": (poles, {}),
    "noise": (wall, {"noise": 12.0}),
    "faint": (lambda size, draw: wall(size, draw, 14), {}),
    "blank": (lambda size, draw: wall(size, draw, 3), {}),
    "dark": (wall, {"gain": 0.55}),
    "row": (heap, {"row": 1.0}),
}


def scene_of(name, size=(480, 360)):
    """The scene of that name, the same each time."""
    make, wrong = SCENES[name]
    draw = numpy.random.default_rng(1000 + list(SCENES).index(name))
    return Scene(make(size, draw), size, draw, **wrong)


def write_pair(folder, scene):
    """The names of its left and its right picture, which are written there."""
    names = []
    for side in ("left", "right"):
        names.append(os.path.join(folder, side + ".pgm"))
        files.write_pgm(names[-1], getattr(scene, side))
    return names


# Matching


def variants(words, calibration):
    """Names of ways of matching, each with its calibration and its options."""
    p1, p2 = (calibration["penalties"][name] for name in ("p1", "p2"))
    first = (f"fixed, P2 {p2}", in_version(1, calibration, p1, p2))
    second = [(f"adapted, P2 {more}", in_version(2, calibration, p1, max(p1, more), True)) for more in words.p2]
    made = [(*way, []) for way in (first, *second)]
    for p1, p2, is_adaptive in THIRD:
        p1, p2 = (for_window(calibration, penalty) for penalty in (p1, p2))
        name = f"version 3, {'adapted' if is_adaptive else 'fixed'}, P2 {p2}"
        made.append((name, in_version(3, calibration, p1, p2, is_adaptive), []))
        made.append((f"{name}, fine", in_version(3, calibration, p1, p2, is_adaptive, True), []))
    peak = f"peak={words.peak}"
    for name, changed in (first, second[0]):
        made.append((f"{name}, {peak}", changed, [peak]))
        made.append((f"{name}, {peak} fill=1", changed, [peak, "fill=1"]))
    return made


def for_window(calibration, penalty):
    """A penalty of a window of 9 x 7, in proportion to the neighbours of the calibration's window."""
    neighbours = calibration["census"]["width"] * calibration["census"]["height"] - 1
    return max(1, (2 * penalty * neighbours + NEIGHBOURS) // (2 * NEIGHBOURS))


def in_version(version, calibration, p1, p2, is_adaptive=False, is_fine=False):
    """The calibration in that version, with these penalties, finer where asked for, and without its grid."""
    made = {key: value for key, value in calibration.items() if key not in ("grid", "regions")}
    span = {name: made["disparities"][name] for name in ("first", "count")}
    penalties = {"p1": p1, "p2": p2}
    if version > 1:
        penalties["adapt"] = is_adaptive
    if version > 2:
        span["fine"] = is_fine
    return {**made, "version": version, "disparities": span, "penalties": penalties}


class Unknown(Exception):
    """What this program doesn't know."""


def matched(folder, left, right, calibration, options):
    """The disparities in pixels that the program finds, NaN where it finds none."""
    calib, out = os.path.join(folder, "c.json"), os.path.join(folder, "o")
    with open(calib, "w", encoding="utf-8") as file:
        json.dump(calibration, file)
    command = [SGM, "match", left, right, calib, out, *options]
    done = subprocess.run(command, stdin=subprocess.DEVNULL, stdout=subprocess.DEVNULL, stderr=subprocess.PIPE, text=True)
    line = done.stderr.strip().splitlines()[-1] if done.stderr.strip() else f"status {done.returncode}"
    if line in UNKNOWN:
        raise Unknown(line)
    if done.returncode:
        raise Wrong(line)
    values, has_value = files.read_disparities(out + ".pgm")
    return numpy.where(has_value, values / 16 + calibration["disparities"]["first"], numpy.nan)


def of_opencv(left, right, span, settings):
    """The same of OpenCV. It takes pictures of 8 bits and a multiple of 16 disparities.

    It leaves out as many columns at the left as there are disparities. So that they have values too, both pictures are
    made wider there, and what leads out of the right one has none.
    """
    first, count = span["first"], -(-span["count"] // 16) * 16
    room = max(0, first) + count
    made = cv2.StereoSGBM_create(minDisparity=first, numDisparities=count, mode=cv2.STEREO_SGBM_MODE_HH, **settings)
    wider = [cv2.copyMakeBorder(picture, 0, 0, room, 0, cv2.BORDER_REPLICATE) for picture in (left, right)]
    found = made.compute(*wider)[:, room:] / 16
    is_inside = numpy.arange(found.shape[1]) - found >= -0.5
    return numpy.where((found >= first) & is_inside, found, numpy.nan)


def in_bytes(name):
    samples, most = files.read_pgm(name)
    return (samples.astype(numpy.int64) * 255 // most).astype(numpy.uint8)


# The table


def row(*words):
    print("| " + " | ".join(words) + " |", flush=True)


def share(part, whole):
    return f"{100 * part / whole:.2f} %" if whole else "-"


def figures(found, truth, both):
    """The cells of a line."""
    known = numpy.isfinite(truth)
    has_value = known & numpy.isfinite(found)
    error = numpy.abs(numpy.where(has_value, found, 0) - numpy.where(known, truth, 0))
    right = has_value & (error <= 1)
    count = numpy.count_nonzero
    made = [share(count(has_value), count(known))]
    made += [share(count(has_value & (error > most)), count(has_value)) for most in (1, 2)]
    made.append(f"{numpy.median(error[right]):.3f}" if right.any() else "-")
    column = numpy.arange(truth.shape[1]) - numpy.where(known, truth, 0)
    is_inside = (column >= 0) & (column <= truth.shape[1] - 1)
    for part in (both & is_inside, ~both & is_inside, ~is_inside):
        made.append(share(count(right & part), count(known & part)))
    made += [share(count(has_value & (error > most) & is_inside), count(has_value & is_inside)) for most in (1, 0.5)]
    made.append(f"{error[right & is_inside].mean():.3f}" if (right & is_inside).any() else "-")
    return made


HEADS = ("Matching", "Has a value", "Wrong by > 1", "> 2", "Median error", "Right of seen by both", "of hidden", "of outside")
HEADS += ("Without the outside wrong by > 1", "> 0.5", "Mean error")


def print_rival():
    if cv2 is None:
        print("no OpenCV: `import cv2` fails")
        return
    bare, filtered = (", ".join(f"{name} {value}" for name, value in made.items()) for made in (BARE, FILTERED))
    print(f"OpenCV {cv2.__version__}, StereoSGBM, MODE_HH; bare: {bare}; filtered: {filtered}")


def compare(title, folder, left, right, calibration, truth, both, words):
    """Prints the table of a pair."""
    span, known = calibration["disparities"], numpy.isfinite(truth)
    height, width = truth.shape
    about = f"{width} x {height}, disparities {span['first']} to {span['first'] + span['count'] - 1}"
    print(f"\n{title}: {about}, truth known of {share(numpy.count_nonzero(known), known.size)}\n")
    row(*HEADS)
    row(*["---"] * len(HEADS))
    unknown = {}
    for name, changed, options in variants(words, calibration):
        running.progress(f"{title}: {name}")
        try:
            found = matched(folder, left, right, changed, options)
        except Unknown as why:
            unknown[name] = str(why)
            continue
        if found.shape != truth.shape:
            raise Wrong(f"the truth is {width} x {height}, the pictures {found.shape[1]} x {found.shape[0]}")
        running.progress("")
        row(name, *figures(found, truth, both))
    if cv2 is not None and "warp" not in calibration:
        pair = in_bytes(left), in_bytes(right)
        for name, settings in (("OpenCV, bare", BARE), ("OpenCV, filtered", FILTERED)):
            row(name, *figures(of_opencv(*pair, span, settings), truth, both))
    for name, why in unknown.items():
        print(f"\nleft out, since this program doesn't know it: {name} ({why})")


def compare_scenes(words, folder):
    print_rival()
    for name in SCENES:
        if words.only and name not in words.only:
            continue
        scene = scene_of(name, words.size)
        calibration = {**PLAIN, "disparities": {"first": 0, "count": words.count}}
        compare(name, folder, *write_pair(folder, scene), calibration, scene.truth, scene.both, words)


def compare_pair(words, folder):
    left, right, calib, truth_name = words.files
    calibration = files.read_json(calib) if calib != "-" else PLAIN
    if not {"disparities", "penalties", "census"} <= set(calibration):
        raise Wrong(f"{calib}: not a calibration of sgm")
    truth = read_truth(truth_name, words.unit)
    both = numpy.ones(truth.shape, bool)
    if words.mask:
        both = files.read_grey(words.mask) == 255
    if both.shape != truth.shape:
        raise Wrong(f"{words.mask}: its size isn't that of {truth_name}")
    print_rival()
    compare(os.path.basename(left), folder, left, right, calibration, truth, both, words)


# Words


def within(low, high):
    """A reader of whole numbers in that range."""

    def read(word):
        if not word.isdecimal() or not low <= int(word) <= high:
            raise argparse.ArgumentTypeError(f"{word} isn't a whole number from {low} to {high}")
        return int(word)

    return read


def size_word(word):
    found = re.fullmatch("([0-9]{2,4})x([0-9]{2,4})", word)
    if not found or not all(16 <= int(side) <= 4096 for side in found.groups()):
        raise argparse.ArgumentTypeError(f"{word} isn't a width x height from 16x16 to 4096x4096")
    return int(found[1]), int(found[2])


def words_of():
    epilog = """examples:
  bench/accuracy.py --scenes --p2 200 400 800
  bench/accuracy.py im0.pgm im1.pgm calibration.json disp0.pfm --mask mask0nocc.png"""
    layout = argparse.RawDescriptionHelpFormatter
    parser = argparse.ArgumentParser(description=__doc__.split("\n\n")[0], epilog=epilog, formatter_class=layout)
    option = parser.add_argument
    option("files", nargs="*", metavar="FILE", help="LEFT RIGHT CALIB TRUTH")
    option("--scenes", action="store_true", help="match the made-up scenes")
    option("--only", nargs="+", choices=SCENES, metavar="SCENE", help=f"some of them: {', '.join(SCENES)}")
    option("--size", type=size_word, default=(480, 360), metavar="WxH", help="of the scenes (480x360)")
    option("--count", type=within(1, 256), default=64, metavar="N", help="of the scenes' disparities (64)")
    option("--mask", metavar="MASK", help="white where both cameras see the surface")
    option("--unit", type=int, choices=(16, 256), default=16, help="what a pixel of disparity is in TRUTH, for PGM (16)")
    follows = "of the calibrations whose P2 follows the image (400)"
    option("--p2", type=within(1, 4000), nargs="+", default=[400], metavar="P2", help=follows)
    option("--peak", type=within(1, 16777216), default=100, metavar="N", help="the least segment that stays (100)")
    words = parser.parse_args()
    if words.scenes == bool(words.files) or (words.files and len(words.files) != 4):
        parser.error("either LEFT RIGHT CALIB TRUTH, or --scenes")
    return words


def main():
    words = words_of()
    running.need(numpy=numpy)
    with tempfile.TemporaryDirectory(prefix="sgm-accuracy.") as folder:
        (compare_scenes if words.scenes else compare_pair)(words, folder)


if __name__ == "__main__":
    running.run(main)
