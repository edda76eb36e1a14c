#!/usr/bin/env python3
"""Makes the cases of compare.sh: one folder for each, in a new folder.

    tests/make_cases.py FOLDER

A case has the file `words`, one word a line, and the files that the words name. The pictures are
small and drawn from fixed numbers, so the cases are the same each time. They go over sizes, spans,
windows, penalties, all versions, options, peaks and filling, warps, cameras, poses, grids, regions, and
the refusals; over certificates in all directions; over the change between two grids; and over merges, once
the program has them (HAS_MERGE of reference_inputs.py). The last case is the example with the heap.
"""

import argparse
import json
import os
import sys

import calibration_cases
import merge_cases
import random_inputs
import reference_inputs
from reference_inputs import DIRECTIONS

HEAP = os.path.join(os.path.dirname(os.path.abspath(__file__)), "..", "examples", "stockpile")


class Draw:
    """Whole numbers that look random and are the same at each run."""

    def __init__(self, seed):
        self.state = seed

    def below(self, limit):
        self.state = (6364136223846793005 * self.state + 1442695040888963407) % 2**64
        return (self.state >> 33) % limit


def pgm(width, height, maxval, samples):
    length = 1 if maxval < 256 else 2
    return f"P5\n{width} {height}\n{maxval}\n".encode() + b"".join(s.to_bytes(length, "big") for s in samples)


def scene(width, height, maxval, first, deepest, seed):
    """A pair in which the right picture is the left one shifted by steps, with a little noise."""
    draw = Draw(seed)
    wide = width + deepest + abs(first)
    texture = [[draw.below(maxval + 1) for _ in range(wide)] for _ in range(height)]
    left, right = [], []
    for y in range(height):
        for x in range(width):
            shift = deepest * (1 + (2 * y >= height) + (2 * x >= width)) // 3
            left.append(texture[y][(x + deepest) % wide])
            right.append(min(maxval, texture[y][(x + deepest + first + shift) % wide] + draw.below(2)))
    return pgm(width, height, maxval, left), pgm(width, height, maxval, right)


def shapes(width, height, maxval, first, deepest, seed):
    """A pair of shapes, each of its own grey and at its own disparity, so that edges of both lie together."""
    both = random_inputs.layered(random_inputs.Draw(seed), width, height, maxval, first, deepest)
    return [pgm(width, height, maxval, samples) for samples in both]


def second(is_adaptive, **more):
    """The same in version 2."""
    first = calibration(**more)
    return {**first, "version": 2, "penalties": {**first["penalties"], "adapt": is_adaptive}}


def third(is_adaptive, **more):
    """The same in version 3."""
    made = second(is_adaptive, **more)
    return {**made, "version": 3, "disparities": {**made["disparities"], "fine": False}}


def with_cells(settings, keep="highest", bridge=0):
    """Settings with a grid of version 3, whose cells keep that of their points and are bridged so far."""
    return {**settings, "grid": {**settings["grid"], "keep": keep, "bridge": bridge}}


def finer(settings):
    """Settings of version 3 with finer disparities."""
    return {**settings, "disparities": {**settings["disparities"], "fine": True}}


def calibration(first=0, count=8, window=(5, 5), penalties=(4, 30), **more):
    plain = calibration_cases.PLAIN
    return {
        "version": 1,
        "disparities": {**plain["disparities"], "first": first, "count": count},
        "census": {**plain["census"], "width": window[0], "height": window[1]},
        "penalties": {**plain["penalties"], "p1": penalties[0], "p2": penalties[1]},
        **more,
    }


def cases():
    """Pairs of a name and the files of the case."""
    plain = {"first": 0, "deepest": 6, "seed": 1}

    def good(name, width, height, maxval, settings, options="", make=scene, **kind):
        left, right = make(width, height, maxval, **{**plain, **kind})
        words = "match l.pgm r.pgm c.json o " + options
        return name, {"words": words, "l.pgm": left, "r.pgm": right, "c.json": json.dumps(settings)}

    left, right = scene(16, 12, 255, **plain)
    yield "plain-settings", {"words": "match l.pgm r.pgm - o", "l.pgm": left, "r.pgm": right}
    yield good("one-pixel", 1, 1, 255, calibration())
    yield good("one-row", 30, 1, 255, calibration(window=(3, 3)))
    yield good("one-column", 1, 30, 255, calibration(window=(3, 3)), "strips=64 workers=16")
    yield good("one-disparity", 20, 12, 255, calibration(count=1))
    yield good("wide-window", 30, 20, 4095, calibration(window=(9, 7)), "strips=3 workers=2")
    yield good("tall-window", 20, 30, 1, calibration(window=(3, 7)), "workers=3 strips=5")
    yield good("equal-penalties", 24, 16, 65535, calibration(penalties=(4000, 4000)))
    yield good("least-penalties", 24, 16, 100, calibration(penalties=(1, 1)), "strips=007")
    yield good("many-disparities", 40, 10, 255, calibration(count=37), deepest=30)
    yield good("more-than-wide", 12, 10, 255, calibration(count=256, window=(3, 3)))
    yield good("negative-first", 30, 20, 255, calibration(first=-5), first=-5)
    yield good("far-first", 30, 20, 255, calibration(first=-1024))
    for name, warps in warped().items():
        yield good("warp-" + name, 33, 22, 255, calibration(warp=warps))
    deep = {"left": tilted(33, 22, 4, 9), "right": shifted(300, -77, 256)}
    yield good("warp-of-two-bytes", 33, 22, 65535, calibration(first=-3, warp=deep), "strips=4 workers=2", first=-3)
    for name, (first, sections) in surveyed().items():
        yield good("survey-" + name, 40, 30, 255, calibration(first=first, **sections), first=first, deepest=7)
    yield good("everything", 40, 30, 255, everything(), "strips=5 workers=3", first=2, deepest=7)
    for name, (width, height, window) in {
        "one-pixel": (1, 1, (9, 7)),
        "one-row": (30, 1, (9, 3)),
        "one-column": (1, 30, (3, 7)),
        "two-columns": (2, 9, (3, 3)),
        "window-beyond": (4, 3, (9, 7)),
    }.items():
        settings = third(True, count=3, window=window)
        yield good("third-version-" + name, width, height, 255, settings, "fill=1", deepest=2)
        if reference_inputs.TAKES_FINE:
            yield good("finer-" + name, width, height, 255, finer(settings), "fill=1", deepest=2)
    versions = {**second_versions(), **third_versions(), **finer_versions(), **celled(), **sited()}
    for name, (maxval, seed, settings, options) in versions.items():
        yield good(name, 40, 30, maxval, settings, options, make=shapes, deepest=8, seed=seed)
    yield from refusals(left, right)
    yield from calibrations()
    yield from certificates()
    yield from changes()
    if reference_inputs.HAS_MERGE:
        yield from merges()
    yield heap()


# Warps


def projective(*matrix):
    return {"kind": "projective", "matrix": list(matrix)}


def shifted(u, v, scale):
    """Every place moved by the same fraction of a pixel."""
    return projective(scale, 0, u * scale // 256, 0, scale, v * scale // 256, 0, 0, scale)


def mesh(width, height, step, place):
    """A mesh whose node at the pixel (x, y) is place(x, y)."""
    cols, rows = (width - 1) // step + 2, (height - 1) // step + 2
    nodes = [part for j in range(rows) for i in range(cols) for part in place(i * step, j * step)]
    return {"kind": "mesh", "step": step, "cols": cols, "rows": rows, "nodes": nodes}


def tilted(width, height, step, amount):
    """A mesh that is wavy by some pixels' 256ths, as a lens and a turned camera make it."""
    draw = Draw(amount)
    wave = lambda: amount * (draw.below(33) - 16)
    return mesh(width, height, step, lambda x, y: (256 * x + wave() - 3 * y, 256 * y + wave() + 2 * x))


def warped():
    identity, same = {"kind": "identity"}, lambda x, y: (256 * x, 256 * y)
    # The exact fractions at both ends of a pixel, the sides of the picture, and what lies just beyond them.
    fractions = {number: mesh(33, 22, 8, lambda x, y: (256 * x + number, 256 * y - number)) for number in (1, 128, 255)}
    return {
        "identity": {"left": identity, "right": identity},
        "scaled-identity": {"left": projective(5, 0, 0, 0, 5, 0, 0, 0, 5), "right": mesh(33, 22, 7, same)},
        "left-alone": {"left": tilted(33, 22, 5, 6), "right": identity},
        "right-alone": {"left": identity, "right": tilted(33, 22, 5, 6)},
        "step-divides": {"left": tilted(33, 22, 11, 8), "right": tilted(33, 22, 2, 5)},
        "one-cell": {"left": tilted(33, 22, 1024, 100), "right": tilted(33, 22, 33, 3)},
        "fractions": {"left": fractions[1], "right": fractions[255]},
        "halves": {"left": fractions[128], "right": shifted(128, 128, 256)},
        "just-outside": {"left": shifted(-1, 0, 256), "right": shifted(0, 1, 256)},
        "last-column-and-row": {"left": shifted(256 * 32, 0, 1), "right": shifted(0, 256 * 21, 1)},
        "nothing-left": {"left": shifted(256 * 33, 0, 1), "right": identity},
        "turned": {"left": projective(-1, 0, 32, 0, -1, 21, 0, 0, 1), "right": projective(0, 1, 0, 1, 0, 0, 0, 0, 1)},
        "perspective": {
            "left": projective(1000, 30, -2000, 10, 990, -1500, 1, 2, 980),
            "right": projective(-970, 0, 31000, 4, 1010, -700, -1, 1, 1020),
        },
        "large-numbers": {
            "left": projective(1099511627776, -7, 31, 5, 1099511627775, -1099511627776, 0, 0, 1099511627776),
            "right": projective(1, 0, 0, 0, 1, 0, 1099511627776, 1099511627776, 1),
        },
        "far-nodes": {"left": mesh(33, 22, 3, lambda x, y: (16777216 - x, -16777216 + y)), "right": identity},
    }


# Cameras, grids and regions. With 30 pixels of focal length and a baseline of 1 m, the disparity d lies 30 / d
# metres away, and a pixel is 1 / d metres wide there.


def camera(**more):
    plain = {"focal": 7680, "baseline": 1000000, "cx": 5120, "cy": 3840, "doffs": 0}
    return {**calibration_cases.WHOLE["camera"], **plain, "mount": 15000000, "near": 1, "far": 2000000000, **more}


def grid(**more):
    plain = {"west": -10000000, "south": -8000000, "cell": 1000000, "cols": 20, "rows": 16}
    return {**calibration_cases.WHOLE["grid"], **plain, **more}


def region(name, col, row, cols, rows, base):
    numbers = {"col": col, "row": row, "cols": cols, "rows": rows, "base": base}
    return {**calibration_cases.WHOLE["regions"][0], "name": name, **numbers}


def surveyed():
    """Names, each with the first disparity and the sections of the calibration."""
    whole = [region("all", 0, 0, 20, 16, 0)]
    bases = [region(f"base {base}", 0, 0, 20, 16, base) for base in (-2000000000, 0, 5000000, 9000000, 2000000000)]
    parts = [region("north-west", 0, 0, 5, 4, 0), region("south.east", 15, 12, 5, 4, 0)]
    parts += [region("one_cell", 10, 8, 1, 1, 7)]
    one, fine = [region("a", 0, 0, 1, 1, -5)], grid(west=-2000000, south=-3000000, cell=70001, cols=60, rows=90)
    return {
        "camera-alone": (2, {"camera": camera()}),
        "grid-alone": (2, {"camera": camera(), "grid": grid()}),
        "no-regions": (2, {"camera": camera(), "grid": grid(), "regions": []}),
        "whole": (2, {"camera": camera(), "grid": grid(), "regions": whole}),
        "bases": (2, {"camera": camera(), "grid": grid(), "regions": bases}),
        "parts": (2, {"camera": camera(), "grid": grid(), "regions": parts}),
        "beginning-at-zero": (0, {"camera": camera(), "grid": grid(), "regions": whole}),
        "negative-first": (-4, {"camera": camera(), "grid": grid(), "regions": whole}),
        "offset": (-4, {"camera": camera(doffs=1300, cx=5000, cy=3777), "grid": grid(), "regions": whole}),
        "negative-offset": (2, {"camera": camera(doffs=-700), "grid": grid(), "regions": whole}),
        "near-and-far": (2, {"camera": camera(near=4000000, far=7000000), "grid": grid(), "regions": whole}),
        "one-depth": (2, {"camera": camera(near=6000000, far=6000000), "grid": grid(), "regions": whole}),
        "nothing-in-range": (2, {"camera": camera(near=1, far=1), "grid": grid(), "regions": whole}),
        "mount-of-zero": (2, {"camera": camera(mount=0), "grid": grid(), "regions": whole}),
        "beside-the-grid": (2, {"camera": camera(), "grid": grid(west=20000000), "regions": whole}),
        "one-cell": (2, {"camera": camera(), "grid": grid(west=0, cols=1, rows=1, cell=8000000), "regions": one}),
        "largest-cell": (2, {"camera": camera(), "grid": grid(west=0, south=0, cell=1000000000), "regions": whole}),
        "small-cells": (2, {"camera": camera(), "grid": fine, "regions": parts}),
        "greatest-camera": (
            2,
            {
                "camera": camera(focal=16777216, baseline=2000000000, doffs=16777216),
                "grid": grid(cell=200000000, west=-2000000000, south=-1600000000),
                "regions": whole,
            },
        ),
        "too-far": (2, {"camera": camera(focal=16777216, baseline=2000000000), "grid": grid()}),
        "odd-numbers": (
            2,
            {
                "camera": camera(focal=7681, baseline=999983, cx=-777, cy=12345, doffs=13, mount=14999999),
                "grid": grid(west=-9876543, south=-7654321, cell=987654),
                "regions": bases + parts,
            },
        ),
    }


def everything():
    """All sections; the first region is the whole grid, which has filled and empty cells."""
    warps = {"left": tilted(40, 30, 6, 7), "right": projective(1000, 3, -900, -2, 1001, 700, 0, 1, 990)}
    regions = [region("all", 0, 0, 20, 16, 6000000), region("middle", 6, 5, 9, 7, -1), region("corner", 19, 0, 1, 1, 0)]
    return calibration(first=2, warp=warps, camera=camera(doffs=-9), grid=grid(), regions=regions)


def sections_of_version_3():
    """The sections of that which stand beside the settings, with regions of version 3."""
    made = everything()
    sections = {name: made[name] for name in ("warp", "camera", "grid")}
    return {**sections, "regions": calibration_cases.level(made["regions"])}


def second_versions():
    """Names, each with the greatest sample, the number of a scene of shapes, the calibration and the options."""
    small, warps = (3, 3), {"left": tilted(40, 30, 6, 9), "right": shifted(40, 30, 256)}
    last = {"left": shifted(-300, 256 * 20, 256), "right": {"kind": "identity"}}
    made = {
        "second-version-fixed": (255, 2, second(False, penalties=(4, 90)), ""),
        "adapt-far-penalty-near-first": (255, 2, second(True, penalties=(30, 30)), ""),
        "adapt-greatest-penalties": (255, 3, second(True, penalties=(15, 4000)), ""),
        "adapt-everything": (255, 4, {**everything(), **second(True, window=small, penalties=(2, 60))}, "peak=6 fill=1"),
        "peak-above-all": (255, 5, calibration(window=small), "peak=16777216 fill=1"),
        "peak-of-all": (255, 5, calibration(count=1, window=small), "peak=1200 fill=0"),
        "fill-with-voids": (255, 6, calibration(window=small, warp=warps), "fill=1"),
        "fill-beside-voids": (255, 6, second(True, window=small, penalties=(2, 50), warp=last), "fill=1 peak=3"),
        "fill-of-negative-disparities": (255, 7, calibration(first=-6, count=12, window=small), "peak=2 fill=1"),
    }
    for number, maxval in enumerate((1, 7, 100, 255, 256, 4095, 65535)):
        made[f"adapt-of-{maxval}"] = (maxval, 10 + number, second(True, window=small, penalties=(2, 50)), "")
        made[f"adapt-of-{maxval}-warped"] = (maxval, 20 + number, second(True, penalties=(3, 60), warp=warps), "")
    for number, peak in enumerate((1, 2, 4, 9, 25, 60)):
        for fill in (0, 1):
            options = f"peak={peak} fill={fill}" if fill else f"peak={peak}"
            made[f"peak-of-{peak}-fill-of-{fill}"] = (255, 30 + number, calibration(window=small, penalties=(2, 9)), options)
    return made


def third_versions():
    """The same of version 3."""
    warps = {"left": tilted(40, 30, 6, 9), "right": shifted(40, 30, 256)}
    last = {"left": shifted(-300, 256 * 20, 256), "right": {"kind": "identity"}}
    sections = sections_of_version_3()
    made = {
        "third-version-everything": (
            255,
            50,
            with_cells(third(True, first=2, penalties=(10, 500), **sections), "mean", 2),
            "peak=6 fill=1 strips=3",
        ),
        "third-version-negative-first": (255, 51, third(False, first=-6, count=12, penalties=(25, 100)), "strips=64 workers=16"),
        "third-version-without-left": (255, 52, third(False, warp={**last, "left": shifted(256 * 40, 0, 1)}), "fill=1"),
        "third-version-beside-voids": (255, 53, third(True, penalties=(2, 50), warp=last), "fill=1 peak=3"),
        "third-version-greatest-penalties": (255, 54, third(True, penalties=(4000, 4000)), "strips=7 workers=2"),
        "third-version-one-disparity": (255, 55, third(False, count=1), ""),
    }
    for width in (3, 5, 7, 9):
        for height in (3, 5, 7):
            settings = third(width > 5, window=(width, height), penalties=(width, 60), warp=warps)
            made[f"third-version-{width}-{height}"] = (255, 60 + width + height, settings, "strips=2 workers=2")
    for number, maxval in enumerate((1, 7, 255, 256, 4095, 65535)):
        made[f"third-version-of-{maxval}"] = (maxval, 80 + number, third(True, penalties=(5, 90)), "peak=4")
    return made


def celled():
    """Surveys of version 3 by what a cell keeps and over how many cells heights are bridged."""
    regions = [region("all", 0, 0, 40, 32, 5000000), region("middle", 12, 10, 18, 14, -1), region("corner", 39, 0, 1, 1, 0)]
    regions = calibration_cases.level(regions)
    sections = {"camera": camera(), "grid": grid(cell=500000, cols=40, rows=32), "regions": regions}
    made = {}
    for keep in ("highest", "mean"):
        for bridge in range(9):
            settings = {**third(True, first=2, window=(3, 3), penalties=(10, 500)), **sections}
            options = "peak=6 strips=3" if bridge % 2 else "workers=4"
            made[f"cells-{keep}-{bridge}"] = (255, 90 + bridge, with_cells(finer(settings), keep, bridge), options)
    for name, more in {
        "no-points": {"west": 2000000000},
        "large-cell": {"cell": 1000000000},
        "one-row": {"rows": 1, "south": -2000000},
        "one-column": {"cols": 1, "west": 0},
        "small-cells": {"cell": 200001, "cols": 150, "rows": 100},
    }.items():
        settings = {**third(False, window=(3, 3)), "camera": camera(), "grid": grid(**more)}
        made["cells-" + name] = (255, 100, with_cells(settings, "mean", 3), "")
    return made


def sited():
    """Surveys of version 3 in the frame of a site: cameras that look down, aslant and level, and such that mirror."""
    regions = [region("all", 0, 0, 40, 32, 5000000), region("middle", 12, 10, 18, 14, -1), region("corner", 39, 0, 1, 1, 0)]
    regions = calibration_cases.level(regions)
    regions[0] |= {"rise_east": 100001, "rise_north": -50000}
    regions[1]["outline"] = [-4000000, -3000000, 5000000, -3000000, 1000000, 7000000]
    # What is east, what is north and what is up, as they lie in the picture.
    most, one, upright, tilt = 2000000000, 2**30, calibration_cases.UPRIGHT, calibration_cases.TILT
    eighth, level = [759250125, -759250125, 0, 759250125, 759250125, 0, 0, 0, one], [one, 0, 0, 0, 0, -one, 0, one, 0]
    sixth, over = [one, 0, 0, 0, 929887697, -(2**29), 0, 2**29, 929887697], [0, 0, -one, 0, one, 0, one, 0, 0]
    lean, wall = {"west": -10000000, "south": -16000000}, {"south": -20000000, "cell": 800000}
    poses = {
        "upright": (upright, (0, 0, 0), {}),
        "shifted": (upright, (1000001, -2000001, 77), {}),
        "far-shifted": (upright, (most, -most, 9), {"west": most - 10000000, "south": -most}),
        "quarter-turn": (calibration_cases.QUARTER_TURN, (5, -7, 9), {}),
        "eighth-turn": (eighth, (0, 0, 0), {}),
        "tilt": (tilt, (1, 2, 3), lean),
        "sixth-over": (sixth, (0, 0, 0), lean),
        "level": (level, (0, 0, 0), wall),
        "overhead": (over, (15000000, 0, 0), {"west": -1000000, "cell": 600000}),
        "mirrored": (calibration_cases.MIRRORED, (0, 0, -1), {}),
        "at-the-leeway": (calibration_cases.LONG, (0, 0, 0), {}),
        "below-the-top": (tilt, (0, 0, most - 9000000), lean),
        "above-the-bottom": (level, (0, 0, -most), wall),
        "above-the-top": (upright, (0, 0, most), {}),
    }
    made = {}
    for number, (name, (matrix, shift, sides)) in enumerate(poses.items()):
        pose = {"matrix": matrix, **dict(zip(("east", "north", "up"), shift))}
        size = grid(**{"cell": 500000, "cols": 40, "rows": 32, **sides})
        sections = {"camera": camera(), "pose": pose, "grid": size, "regions": regions}
        settings = {**third(True, first=2, window=(3, 3), penalties=(10, 500)), **sections}
        options = "peak=6 strips=3" if number % 2 else "workers=4"
        made[f"pose-{name}"] = (255, 110 + number % 3, with_cells(finer(settings), "mean", number % 3), options)
    bare = {**third(False, first=2, window=(3, 3)), "camera": camera(), "pose": pose}
    made["pose-without-grid"] = (255, 110, bare, "fill=1")
    return made


def finer_versions():
    """The same with finer disparities, where the program can make them."""
    if not reference_inputs.TAKES_FINE:
        return {}
    made = {}
    for name, (maxval, seed, settings, options) in third_versions().items():
        made[name.replace("third-version", "finer")] = (maxval, seed, finer(settings), options)
    return made


def calibrations():
    """The calibrations with one fault, and those at the ends of the ranges."""
    left, right = (bytes(row) * 3 for row in ((90, 10, 50, 20, 40), (10, 50, 20, 40, 30)))
    pair = {"words": "match l.pgm r.pgm c.json o", "l.pgm": pgm(5, 3, 255, left), "r.pgm": pgm(5, 3, 255, right)}
    for name, made, _ in calibration_cases.faults():
        yield "fault-" + name, {**pair, "c.json": json.dumps(made)}
    for name, made in calibration_cases.bounds():
        yield name, {**pair, "c.json": json.dumps(made)}
    # The smallest picture for which a mesh has more than one row of cells' corners.
    mesh_of = {"kind": "mesh", "step": 2, "cols": 3, "rows": 2, "nodes": [0, 0] * 6}
    small = {"l.pgm": pgm(2, 1, 255, [0, 255]), "r.pgm": pgm(2, 1, 255, [0, 255])}
    for side, other in (("left", "right"), ("right", "left")):
        settings = calibration(warp={side: mesh_of, other: {"kind": "identity"}})
        yield "mesh-too-wide-" + side, {**pair, **small, "c.json": json.dumps(settings)}
        for corner, below in enumerate(([1, 1, 0], [-1, 0, 4], [0, -1, 2], [-1, -1, 6])):
            bad = projective(1, 0, 0, 0, 1, 0, *below)
            settings = calibration(warp={side: bad, other: {"kind": "identity"}})
            yield f"corner-{corner}-{side}", {**pair, "c.json": json.dumps(settings)}


def certificates():
    """In each direction the certificates of a corner, a side and the middle, of pictures in which few, many or no pixels
    are void, with fixed penalties and such that follow the picture."""
    warps = {"left": tilted(23, 16, 6, 9), "right": shifted(40, 30, 256)}
    small, outside = (3, 3), {"left": shifted(256 * 23, 0, 1), "right": tilted(23, 16, 2, 1)}
    kinds = {
        "fixed": (255, shapes, calibration(first=-2, window=small, penalties=(2, 9))),
        "adapt": (255, shapes, second(True, window=small, penalties=(2, 60))),
        "adapt-voids": (4095, shapes, second(True, window=(3, 5), penalties=(3, 90), warp=warps)),
        "third-version": (255, shapes, third(False, first=-2, penalties=(8, 30))),
        "third-version-voids": (65535, shapes, third(True, window=(9, 3), penalties=(3, 90), warp=warps)),
        "pose": (255, shapes, {**third(True, penalties=(8, 30)), "camera": camera(), "pose": calibration_cases.POSE}),
        "equal-penalties": (1, shapes, calibration(window=small, penalties=(1, 1))),
        "no-codes": (255, shapes, calibration(window=small, warp=outside)),
        "even": (255, even, calibration(window=small, penalties=(5, 40))),
    }
    for kind, (maxval, make, settings) in kinds.items():
        for number, direction in enumerate(DIRECTIONS):
            left, right = make(23, 16, maxval, settings["disparities"]["first"], 8, 60 + number)
            files = {"l.pgm": left, "r.pgm": right, "c.json": json.dumps(settings)}
            for x, y, d in [(11, 8, 3), (0, 15, 0), (22, 0, 7), (21, 14, number)]:
                words = f"trace l.pgm r.pgm c.json {direction} {x} {y} {d}"
                yield f"trace-{kind}-{direction}-{x}-{y}-{d}", {"words": words, **files}
    pair = {"l.pgm": pgm(1, 1, 255, [9]), "r.pgm": pgm(1, 1, 255, [9])}
    yield "trace-plain-settings", {"words": "trace l.pgm r.pgm - upleft 0 0 63", **pair}
    for name, words in {
        "column": "c.json right 23 0 0",
        "row": "c.json right 0 16 0",
        "index": "c.json right 0 0 8",
        "direction": "c.json rightup 0 0 0",
        "number": "c.json right 0 -1 0",
        "option": "c.json right 0 0 0 workers=2",
        "few-words": "c.json right 0 0",
        "absent": "none right 0 0 0",
    }.items():
        yield "trace-wrong-" + name, {"words": "trace l.pgm r.pgm " + words, **files}


def even(width, height, maxval, first, deepest, seed):
    """A pair without any texture: all sequences of one index cost the same, and the first of them is shown."""
    return [pgm(width, height, maxval, [seed] * (width * height))] * 2


# Grids and changes


def asc(cells, west=-2000, south=3000, cell=500):
    """The text of a grid of these rows, as the program writes it."""
    head = {"ncols": len(cells[0]), "nrows": len(cells), "xllcorner": west, "yllcorner": south, "cellsize": cell}
    lines = [f"{name} {value}" for name, value in head.items()] + ["NODATA_value -2147483648"]
    return "".join(line + "\n" for line in [*lines, *(" ".join(map(str, row)) for row in cells)])


def ground(cols, rows, seed):
    """The heights of a ground with some empty cells."""
    draw = Draw(seed)
    height = lambda: -2147483648 if draw.below(6) == 0 else draw.below(4000001) - 2000000
    return [[height() for _ in range(cols)] for _ in range(rows)]


def changes():
    def good(name, earlier, later):
        return "change-" + name, {"words": "change e.asc l.asc o", "e.asc": earlier, "l.asc": later}

    first, second_one = asc(ground(12, 9, 1)), asc(ground(12, 9, 2))
    yield good("of-two", first, second_one)
    yield good("of-none", first, first)
    yield "change-with-itself", {"words": "change e.asc e.asc o", "e.asc": first}
    yield good("one-cell", asc([[7]]), asc([[-7]]))
    yield good("one-row", asc(ground(40, 1, 3)), asc(ground(40, 1, 4)))
    yield good("one-column", asc(ground(1, 40, 5)), asc(ground(1, 40, 6)))
    empty = asc([[-2147483648] * 3] * 2)
    yield good("empty", empty, empty)
    yield good("come", empty, asc([[1, 2, 3]] * 2))
    yield good("gone", asc([[1, 2, 3]] * 2), empty)
    ends = {"west": -2000000000, "south": 2000000000, "cell": 1000000000}
    low, high = ([[height] * 4 for _ in range(3)] for height in (-2000000000, 2000000000))
    yield good("greatest-rise", asc(low, **ends), asc(high, **ends))
    yield good("greatest-fall", asc(high, **ends), asc(low, **ends))
    for name, text in {
        "crlf": first.replace("\n", "\r\n"),
        "tabs": first.replace(" ", "\t \t"),
        "one-line": first.replace("\n", " "),
        "a-word-a-line": first.replace(" ", "\n"),
        "upper-case": first.upper(),
        "lower-case": first.lower(),
        "leading-zeros": first.replace(" ", " 000").replace(" 000-", " -000").replace("NODATA_value 000", "NODATA_value "),
        "no-last-line-feed": first.rstrip("\n"),
    }.items():
        yield good("read-" + name, text, second_one)
        yield good("read-later-" + name, second_one, text)
    yield from grid_faults(first)


def grid_faults(text):
    """A fault of each kind and place, in either grid."""
    words = text.split()
    made = {"nothing": "", "spaces": " \t\r\n", "cut": text[: len(text) // 2], "a-height-more": text + "0\n"}
    for at in range(12):
        made[f"cut-before-word-{at}"] = " ".join(words[:at])
        for odd in ("x", "7", "-", "1.5", "+3", "2147483648", "-2147483649"):
            made[f"word-{at}-is-{odd}"] = " ".join([*words[:at], odd, *words[at + 1 :]])
    for at in (12, 13, 12 + 12 * 9 - 1):
        made[f"no-word-{at}"] = " ".join(words[:at] + words[at + 1 :])
        for odd in ("x", "-", "1.5", "2000000000", "2000000001", "-2000000000", "-2000000001", "-9999999999", "-2147483649"):
            made[f"word-{at}-is-{odd}"] = " ".join([*words[:at], odd, *words[at + 1 :]])
    for name, fault in made.items():
        yield "change-earlier-" + name, {"words": "change e.asc l.asc o", "e.asc": fault, "l.asc": text}
        yield "change-later-" + name, {"words": "change e.asc l.asc o", "e.asc": text, "l.asc": fault}
    both = {"e.asc": made["word-7-is-x"], "l.asc": made["word-0-is-x"]}
    yield "change-two-faults", {"words": "change e.asc l.asc o", **both}
    for name, words in {
        "absent": "change e.asc none o",
        "output-is-earlier": "change o.asc e.asc o",
        "output-is-later": "change e.asc o.csv o",
        "option": "change e.asc e.asc o strips=1",
        "few-words": "change e.asc e.asc",
        "no-folder": "change e.asc e.asc none/o",
    }.items():
        yield "change-wrong-" + name, {"words": words, "e.asc": text}


def merges():
    """Each fourth of those of merge_cases.py that a folder can hold; the stored runs have them all."""
    for number, case in enumerate(merge_cases.cases()):
        words, files = case.words.split(" "), case.files()
        is_large = sum(map(len, files.values())) > 2**25
        if number % 4 == 0 and not case.devices and "" not in words and not is_large:
            yield f"merge-{number}", {"words": case.words, **files}


def heap():
    files = {"words": "match left.pgm right.pgm calibration.json out"}
    for name in ("left.pgm", "right.pgm", "calibration.json"):
        with open(os.path.join(HEAP, name), "rb") as file:
            files[name] = file.read()
    return "heap", files


def refusals(left, right):
    files = {"l.pgm": left, "r.pgm": right, "c.json": json.dumps(calibration())}

    def bad(name, words="match l.pgm r.pgm c.json o", **changed):
        more = {key.replace("_", "."): value for key, value in changed.items()}
        return name, {"words": words, **files, **more}

    yield bad("no-such-left", "match x.pgm r.pgm c.json o")
    yield bad("no-such-calibration", "match l.pgm r.pgm x.json o")
    yield bad("short-raster", r_pgm=right[:-1])
    yield bad("header-ends", l_pgm=b"P5\n16 #")
    yield bad("header-byte", l_pgm=b"P5\n16,12\n255\n" + bytes(192))
    yield bad("above-maxval", l_pgm=b"P5\n16 12\n9\n" + bytes(100) + bytes([10]) * 92)
    yield bad("sizes-differ", l_pgm=b"P5\n15 12\n255\n" + bytes(180))
    yield bad("not-json", c_json="{")
    yield bad("unknown-version", c_json=json.dumps({**calibration(), "version": 4}))
    yield bad("unknown-name", c_json=json.dumps(calibration(extra=1)))
    first = {"first": 0, "count": 257}
    yield bad("key-missing", c_json=json.dumps({"version": 1, "disparities": {"first": 0}}))
    yield bad("key-of-the-wrong-type", c_json=json.dumps(calibration(first="0")))
    yield bad("key-out-of-range", c_json=json.dumps({**calibration(), "disparities": first}))
    yield bad("penalties-exchanged", c_json=json.dumps(calibration(penalties=(30, 4))))
    yield bad("option", "match l.pgm r.pgm c.json o strips=65")
    yield bad("output-is-input", "match l.pgm o.pgm c.json o")


def write_cases(folder):
    for name, files in cases():
        os.makedirs(os.path.join(folder, name))
        for file_name, data in files.items():
            if file_name == "words":
                data = "".join(word + "\n" for word in data.split())
            with open(os.path.join(folder, name, file_name), "wb") as file:
                file.write(data if isinstance(data, bytes) else data.encode())


def main():
    parser = argparse.ArgumentParser(description=__doc__.split("\n\n")[0], epilog="Example: tests/make_cases.py /tmp/cases")
    parser.add_argument("folder", metavar="FOLDER", help="where the cases go; none of them may be there")
    words = parser.parse_args()
    try:
        write_cases(words.folder)
    except OSError as error:
        sys.exit(f"make_cases: {error}")


if __name__ == "__main__":
    main()
