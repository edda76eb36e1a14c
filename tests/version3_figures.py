#!/usr/bin/env python3
"""Matches the scenes of bench/accuracy.py in version 3 and holds what comes out to fixed figures.

    tests/version3_figures.py [--only SCENE..] [--settings NAME..] [--separate]

The scenes have 480 x 360 pixels and 64 disparities from 0 on. Each is matched with these settings:

    whole         P1 25, P2 100, `fine` false;
    fine          the same with `fine` true;
    fine_adapt    P1 25, P2 1200, which follows the image, and `fine` true;
    fine_filled   as fine, with peak=100 and fill=1 (poles alone).

The pair of examples/stockpile is matched as with `fine`, over cells of so many millimetres, with
that `keep` and that `bridge`: 125_mean_2, 125_highest_0, 50_mean_2, 50_mean_8 and 250_mean_0.

The valid pixels, the sum of the samples of OUT.pgm and the first 16 digits of its SHA-256 have to
be those below, of the heap also those of OUT.asc and the lines of OUT.csv. Three writings of the
definitions, in plain Python, C and Rust, worked them out before the program had the version.
Whatever differs is printed, and the status is 1.

The program is the one that the variable SGM names (./sgm of this repository without it). With
--separate it is the separate implementation, tests/quick_reference.py, which takes some seconds for
each match. As long as the program refuses `fine` true (TAKES_FINE of reference_inputs.py) it is
asked for `whole` alone. Needs numpy.
"""

import argparse
import hashlib
import json
import os
import subprocess
import sys
import tempfile

HERE = os.path.dirname(os.path.abspath(__file__))
sys.path[1:1] = [os.path.join(HERE, "..", name) for name in ("tools", "bench")]

import accuracy
import quick_reference
import random_cases
import reference_inputs
from sgm_tools import files, running
from sgm_tools.running import Wrong

STOCKPILE = os.path.join(HERE, "..", "examples", "stockpile")
# Of each of the settings P1, P2, whether it follows the image, `fine`, and the options.
SETTINGS = {
    "whole": (25, 100, False, False, []),
    "fine": (25, 100, False, True, []),
    "fine_adapt": (25, 1200, True, True, []),
    "fine_filled": (25, 100, False, True, ["peak=100", "fill=1"]),
}
# Of each match the valid pixels, the sum of the samples and the beginning of the digest.
FIGURES = {
    "whole": {
        "slope": (166595, 69169444, "8212cb05632c2060"),
        "heap": (164172, 70294344, "6e1e3c35abc14892"),
        "wall": (164506, 46370706, "593bf7bf411bb2f0"),
        "poles": (162090, 23475742, "ce961d2b2c8809a1"),
        "noise": (164450, 46414824, "2a636357d4d25acf"),
        "faint": (164471, 46414953, "49a007c6cafb1981"),
        "blank": (142079, 42295431, "f1de0ed2bc4a61f2"),
        "dark": (164494, 46394474, "14e857ce1b269b47"),
        "row": (164160, 70265048, "a0020e9a5df4a53b"),
    },
    "fine": {
        "slope": (166595, 69168208, "9d0ac0362f6c72e8"),
        "heap": (164172, 70315409, "9e3dd34e12b0fbbb"),
        "wall": (164506, 46505329, "b8dc9cd2dd922280"),
        "poles": (162090, 23485625, "b0ecbc15abf4ecd1"),
        "noise": (164450, 46552649, "33818e84750442ee"),
        "faint": (164471, 46545676, "1d180fe1b471ac57"),
        "blank": (142079, 42298263, "f6e743687fe4ea62"),
        "dark": (164494, 46536072, "12fffa30d487e26d"),
        "row": (164160, 70277309, "3ae978e602e89c1d"),
    },
    "fine_adapt": {
        "slope": (166602, 69134618, "c70fcd7a6bb01750"),
        "heap": (164164, 70277504, "db271a563f243ac9"),
        "wall": (164472, 46478027, "acd3317622f1e9da"),
        "poles": (161128, 24176267, "684eab456a4c3761"),
        "noise": (164320, 46521036, "0996655b21c7ee33"),
        "faint": (164471, 46470526, "2ba18148e66b8b8e"),
        "blank": (147362, 42866813, "b8b6c9b5a756f72e"),
        "dark": (164453, 46474433, "0014dddbe0b3ea41"),
        "row": (163151, 69703763, "e74614b27b87c157"),
    },
    "fine_filled": {
        "poles": (172800, 24864594, "6a07b5ea5d05de1f"),
    },
}
SCENES = [*FIGURES["whole"], "stockpile"]
# Columns and rows of the heap's grid by the cell in millimetres; of each region its column and row,
# and how many it has.
GRIDS = {
    50: ((288, 240), {"pile": (38, 46, 192, 192), "ground": (238, 60, 42, 120)}),
    125: ((115, 96), {"pile": (15, 18, 77, 78), "ground": (95, 24, 17, 48)}),
    250: ((58, 48), {"pile": (7, 9, 39, 39), "ground": (48, 12, 8, 24)}),
}
# The beginning of the digest of OUT.asc, and what the lines of OUT.csv have behind the names.
HEAPS = {
    "125_mean_2": (
        "b5d0758a646299ea",
        "6006,0,0,74360803015625000000,95624906250000000,-31373,3417644",
        "816,0,0,58861750000000000,35120500000000000,-31373,31128",
    ),
    "125_highest_0": (
        "947d6f7c5e8f7bf0",
        "6006,0,0,76725967828125000000,34248453125000000,-31373,3443826",
        "816,0,0,102562609375000000,13455328125000000,-31373,31128",
    ),
    "50_mean_2": (
        "40ed3851da4391c0",
        "36827,6086,37,74323801550000000000,89489025000000000,-31373,3440018",
        "5033,506,7,57589820000000000,35788102500000000,-31373,31128",
    ),
    "50_mean_8": (
        "f994fd9aef6c2eba",
        "36864,6123,0,74326201400000000000,88984092500000000,-31373,3440018",
        "5040,513,0,57516775000000000,35627632500000000,-31373,31128",
    ),
    "250_mean_0": (
        "a9387b7a66b7a8e0",
        "1521,0,0,74399329187500000000,80380375000000000,-20895,3392553",
        "192,0,0,46332437500000000,23474875000000000,-16913,23642",
    ),
}
for heap, (digest, pile, ground) in HEAPS.items():
    SETTINGS[heap] = SETTINGS["fine"]
    table = "region,cells,bridged,empty,fill,cut,lowest,highest", f"pile,{pile}", f"ground,{ground}"
    FIGURES[heap] = {"stockpile": (68974, 8949015, "a7084e1303759782", digest, *table)}


def calibration_of(name):
    p1, p2, is_adaptive, is_fine, _ = SETTINGS[name]
    made = {
        "version": 3,
        "disparities": {"first": 0, "count": 64, "fine": is_fine},
        "census": {"width": 9, "height": 7},
        "penalties": {"p1": p1, "p2": p2, "adapt": is_adaptive},
    }
    return heap_calibration(made, name) if name in HEAPS else made


def heap_calibration(settings, name):
    """The example's calibration with these settings, and with the cells that the name says."""
    with open(os.path.join(STOCKPILE, "calibration.json"), encoding="utf-8") as file:
        whole = json.load(file)
    cell, keep, bridge = name.split("_")
    (cols, rows), places = GRIDS[int(cell)]
    size = {"cell": 1000 * int(cell), "cols": cols, "rows": rows}
    grid = {**whole["grid"], **size, "keep": keep, "bridge": int(bridge)}
    keys = ("col", "row", "cols", "rows")
    named = [{**region, **dict(zip(keys, places[region["name"]]))} for region in whole["regions"]]
    regions = [{**region, "rise_east": 0, "rise_north": 0} for region in named]
    span = {**whole["disparities"], "fine": settings["disparities"]["fine"]}
    return {**whole, **settings, "disparities": span, "grid": grid, "regions": regions}


def run_program(words):
    """The status, what is printed, and the line of a fault."""
    command = [accuracy.SGM, *words]
    done = subprocess.run(command, stdin=subprocess.DEVNULL, capture_output=True, text=True)
    return done.returncode, done.stdout, done.stderr


def run_separate(words):
    """The same of the separate implementation, which takes `fine` whatever the program does."""
    reference_inputs.TAKES_FINE = True
    status, *streams = random_cases.run_reference(".", words, quick_reference.main)
    return status, *(stream.decode() for stream in streams)


def digest_of(path):
    return hashlib.sha256(files.read_bytes(path)).hexdigest()[:16]


def found_by(run, pair, folder, name):
    """The valid pixels as they are printed, the sum of the samples, and the digest's beginning; of a
    heap also that of its grid, and the lines of its table."""
    calib, out = os.path.join(folder, f"{name}.json"), os.path.join(folder, name)
    with open(calib, "w", encoding="utf-8") as file:
        json.dump(calibration_of(name), file)
    status, printed, fault = run(["match", *pair, calib, out, *SETTINGS[name][-1]])
    if status:
        raise Wrong(f"{' '.join(pair)}: {fault.strip() or f'status {status}'}")
    words, (samples, _) = printed.split(), files.read_pgm(out + ".pgm")
    if len(words) != 4 or printed != f"valid {words[1]} of {samples.size}\n":
        raise Wrong(f"{' '.join(pair)}: the summary is {printed!r}")
    found = int(words[1]), int(samples.sum(dtype="int64")), digest_of(out + ".pgm")
    if name not in HEAPS:
        return found
    table = files.read_bytes(out + ".csv").decode().splitlines()
    return *found, digest_of(out + ".asc"), *table


def pair_of(scene, folder):
    if scene == "stockpile":
        return [os.path.join(STOCKPILE, name) for name in ("left.pgm", "right.pgm")]
    return accuracy.write_pair(folder, accuracy.scene_of(scene))


def told(found):
    valid, total, digest, *heap = found
    return f"{valid} valid, sum {total}, digest {digest}" + "".join(f"; {part}" for part in heap)


def differing(run, scene, names):
    """How many of a scene's matches there are, and lines on those that differ."""
    names, lines = [name for name in names if scene in FIGURES[name]], []
    with tempfile.TemporaryDirectory(prefix="sgm-version3_figures.") as folder:
        pair = pair_of(scene, folder)
        for name in names:
            running.progress(f"matching {scene}, {name}")
            found, wanted = found_by(run, pair, folder, name), FIGURES[name][scene]
            if found != wanted:
                lines.append(f"{scene}, {name}: {told(found)}, where there have to be {told(wanted)}")
    return len(names), lines


def main():
    epilog = "Example: tests/version3_figures.py --only wall poles"
    parser = argparse.ArgumentParser(description=__doc__.split("\n\n")[0], epilog=epilog)
    for word, values, metavar in (("--only", SCENES, "SCENE"), ("--settings", SETTINGS, "NAME")):
        text = f"some of them: {', '.join(values)}"
        parser.add_argument(word, nargs="+", choices=values, metavar=metavar, help=text)
    separate = "by the separate implementation in place of the program"
    parser.add_argument("--separate", action="store_true", help=separate)
    words = parser.parse_args()
    running.need(numpy=running.numpy)
    takes_fine = words.separate or reference_inputs.TAKES_FINE
    names = [name for name in words.settings or SETTINGS if takes_fine or not SETTINGS[name][3]]
    run = run_separate if words.separate else run_program
    number = differ = 0
    for scene in words.only or SCENES:
        matched, lines = differing(run, scene, names)
        number, differ = number + matched, differ + len(lines)
        running.progress("")
        print("".join(line + "\n" for line in lines), end="", flush=True)
    print(f"version3_figures: {number - differ} matches as they have to be, {differ} different")
    return 1 if differ else 0


if __name__ == "__main__":
    running.run(main)
