#!/usr/bin/env python3
"""Equations that hold the definitions in specs/ against plain Python.

    tests/definitions.py FOLDER [--wrong]

writes into FOLDER a page of lemmas for each layer. The left side of each is a definition over small
arguments, the right side what the reference gives for them or, for path values, a trial of every sequence.
`rt check` proves each by computing alone, so it takes part in neither side: see definitions.sh. With --wrong
one right side on each page is false, and no page may be proved.
"""

import argparse
import functools
import itertools
import json
import os
import random
import re
import sys

import calibration_cases
import least_energies
import merge_cases
import random_inputs
import random_lists
import reference
import reference_inputs as inputs
import reference_lists
import reference_matching as matching
from test_reference import DIFFERENCE_TEXT, GRID_TEXT, LATER_TEXT, WORKED, WorkedThirdVersion, asc

CRATES = os.path.join(os.path.dirname(os.path.abspath(__file__)), "..", "crates")
COMMON = """◌≡◌ ℕ ℤ pos negsuc ◌+◌ ◌*◌ List [] ◌∷◌ ◌++◌ map codes slice_index Option Some None true false refl
Result Ok Err option_map""".split()


# How values are written in the language of the definitions


def whole(number):
    return f"(pos {number})" if number >= 0 else f"(negsuc {-number - 1})"


def natural(number):
    return str(number)


def listed(values, show=natural):
    return "(" + "".join(show(value) + " ∷ " for value in values) + "[])"


def option(value, show=natural):
    return "None" if value is None else f"(Some {show(value)})"


def record(**fields):
    return "(record { " + "; ".join(f"{name} = {value}" for name, value in fields.items()) + " })"


def text(data):
    """Some bytes, as text where they can be read."""
    data = data.encode() if isinstance(data, str) else data
    is_plain = all(byte == 10 or (32 <= byte < 127) for byte in data)
    return f"(codes {json.dumps(data.decode())})" if is_plain and data else listed(data)


def truth(value):
    return "true" if value else "false"


def falsified(value):
    """The value with its last number greater by one; the same where it has none."""
    return re.sub(r"(\d+)(\D*)$", lambda found: f"{int(found[1]) + 1}{found[2]}", value)


class Page:
    """Lemmas over some modules of definitions, whose names are all unfolded."""

    def __init__(self, title, imports, before="", given=""):
        self.title, self.imports, self.before, self.given, self.lemmas = title, imports, before, given, []

    def holds(self, left, right):
        self.lemmas.append((left, right))

    def unfolded(self, module):
        crate, _, name = module.partition(".")
        with open(os.path.join(CRATES, crate, "specs", name + ".antt"), encoding="utf-8") as file:
            return re.findall(r"^unfoldable pub (\S+) :", file.read(), re.M)

    def write(self, folder, is_wrong):
        # A numeral of the library computes only where its digits are unfolded.
        unfolded = ["digits"]
        lines = [f"-- {self.title}", f"use Rattle.std.proofs.Common.{{{', '.join(COMMON)}}}"]
        lines.append("use Rattle.std.specs.Fmt.{digits}")
        for module, names in self.imports.items():
            if "specs" not in module:
                found = self.unfolded(module)
                unfolded += found
                names = sorted(set(names.split()) | set(found))
                crate, _, name = module.partition(".")
                module = f"{crate}.specs.{name}"
            else:
                names = names.split()
            if names:
                lines.append(f"use Rattle.{module}.{{{', '.join(names)}}}")
        lines.append(self.before)
        binder = f"({self.given} : Float) → " if self.given else ""
        for number, (left, right) in enumerate(self.lemmas):
            if is_wrong and right != falsified(right):
                is_wrong, right = False, falsified(right)
            lines.append(f"case_{number} : {binder}{left} ≡ {right}")
            lines.append("unfolding " + " ".join(unfolded))
            lines.append(f"case_{number} {self.given} = refl".replace("  ", " "))
        with open(os.path.join(folder, self.title.capitalize() + ".antt"), "w", encoding="utf-8") as file:
            file.write("\n".join(lines) + "\n")
        return len(self.lemmas)


# The pages

DIRECTIONS = "Right Left Down DownRight DownLeft Up UpRight UpLeft"


# The module of the rules of cost, and the rule of each version of the calibration.
RULES = "sgm_census.specs.declared.rule.CostRule.TheVariants"
RULE_OF = {1: "Plain", 2: "Plain", 3: "Smoothed"}
# What the tallies of regions stand on.
REGIONS = {"sgm_report.Bases": "", "sgm_report.Outlines": "", "sgm_report.Tallies": ""}
# The module of what cells keep, with its names; and the columns of a report, by their whole names, as one of them is that
# of a rule too.
KEEPS = {"sgm_grid.specs.declared.keep.Keep.TheVariants": "Highest Mean"}
COLUMNS = "use Rattle.sgm_report.specs.declared.table.Columns.TheVariants as columns\n"
COLUMNS_OF = {1: "columns.Plain", 2: "columns.Plain", 3: "columns.Bridged"}


def penalties_of(p1, p2, is_adaptive):
    return record(p1=p1, p2=p2, adaptive=truth(is_adaptive))


def problem(costs, p1, p2, guide=None):
    """A problem whose costs are these, costs[y][x][d], and whose penalties follow the guide where there is one."""
    height, width, count = len(costs), len(costs[0]), len(costs[0][0])
    cells = listed([cost for row in costs for pixel in row for cost in pixel])
    cost = f"(λ p d. slice_index {cells} ((p.y * {width} + p.x) * {count} + d))"
    penalties = penalties_of(p1, p2, guide is not None)
    return f"(guided_problem {width} {height} {count} {cost} {penalties} {plane_of(guide or [[None] * width] * height)})"


def some_costs(draw, width, height, count, most):
    return [[[draw.randrange(most + 1) for _ in range(count)] for _ in range(width)] for _ in range(height)]


def energies(draw):
    page = Page(
        "energies",
        {
            "sgm_base.Values": "values_of",
            "sgm_energy.specs.declared.dir.Dir.TheVariants": DIRECTIONS,
            "sgm_energy.Rays": "Pixel pixel_at guided_problem",
            "sgm_energy.Energies": "below",
        },
    )
    images = [([row], p1, p2, None) for p1, p2, row in least_energies.ROWS if len(row) < 5]
    images.append((least_energies.IMAGE, *least_energies.IMAGE_PENALTIES, None))
    images.append((some_costs(draw, 3, 2, 3, 8), 2, 3, None))
    images.append(([[(0, 9, 9), (9, 9, 0)]], 1, 6, [[10, 13]]))
    images.append((some_costs(draw, 3, 2, 3, 8), 1, 9, [[10, 13, None], [12, 255, 250]]))
    images.append((some_costs(draw, 2, 3, 3, 8), 2, 30, [[0, 9], [None, 4], [4, 7]]))
    for costs, p1, p2, guide in images:
        height, width, count = len(costs), len(costs[0]), len(costs[0][0])
        whole_problem = problem(costs, p1, p2, guide)
        for direction in least_energies.OFFSETS:
            values = least_energies.path_values(costs, direction, p1, p2, guide)
            for y, x in itertools.product(range(height), range(width)):
                ray = least_energies.ray_to(width, height, direction, x, y)
                shown = listed(ray, lambda p: f"pixel_at {p[0]} {p[1]}")
                page.holds(f"ray {whole_problem} {direction} (pixel_at {x} {y})", shown)
                left = f"map (path_value {whole_problem} {direction} (pixel_at {x} {y})) (below {count})"
                page.holds(left, listed(values[y][x]))
    return page


def certificates(draw):
    """Which sequence a certificate shows, and its text."""
    page = Page(
        "certificates",
        {
            "sgm_base.Values": "values_of",
            "sgm_energy.specs.declared.dir.Dir.TheVariants": DIRECTIONS,
            "sgm_energy.Rays": "Pixel pixel_at guided_problem",
            "sgm_energy.Energies": "",
            "sgm_trace.Best": "",
            "sgm_trace.Texts": "trace_text",
        },
    )
    images = [(some_costs(draw, 3, 1, 3, 1), 1, 1, None), (some_costs(draw, 3, 3, 2, 1), 1, 2, None)]
    images += [([[(0, 9, 9), (9, 9, 0)]], 1, 6, [[10, 13]]), (some_costs(draw, 2, 3, 3, 2), 1, 9, [[0, 9], [None, 4], [4, 7]])]
    for costs, p1, p2, guide in images:
        height, width, count = len(costs), len(costs[0]), len(costs[0][0])
        whole_problem = problem(costs, p1, p2, guide)
        for name, direction in zip(DIRECTIONS.split(), matching.DIRECTIONS):
            for y, x in itertools.product(range(height), range(width)):
                ray = matching.ray_to(x, y, direction, width, height)
                # Rays of one pixel are all alike.
                for d in range(count if len(ray) > 1 else (x + y) % 2):
                    energy, steps = matching.certified(costs, guide, p1, p2, ray, d)
                    shown = listed(ray, lambda p: f"pixel_at {p[0]} {p[1]}")
                    page.holds(f"best {whole_problem} {shown} {d}", listed([step[2] for step in steps]))
                    if d == 0:
                        left = f"trace_text {whole_problem} {name} (pixel_at {x} {y}) {d}"
                        page.holds(left, text(reference.trace_text(energy, steps)))
    return page


def penalties(draw):
    """The penalty of a larger change between two grey values, and the guide of a plane."""
    page = Page("penalties", {"sgm_base.Values": "values_of", "sgm_energy.Pens": "far_of guide_of"})
    greys = [(100, 100), (100, 103), (100, 120), (None, 5), (103, 100), (5, None), (None, None), (0, 255), (255, 0), (7, 8)]
    greys += [(draw.randrange(256), draw.randrange(256)) for _ in range(12)]
    for p1, p2 in [(10, 120), (1, 6), (4000, 4000), (1, 4000)]:
        for here, before in greys:
            both = f"{option(here)} {option(before)}"
            page.holds(f"far_of {penalties_of(p1, p2, True)} {both}", natural(matching.far(p1, p2, here, before)))
            page.holds(f"far_of {penalties_of(p1, p2, False)} {both}", natural(p2))
    for maxval in (1, 3, 100, 255, 256, 65535):
        plane = [[draw.choice([None, 0, 1, maxval, draw.randrange(maxval + 1)]) for _ in range(4)] for _ in range(2)]
        page.holds(f"guide_of {plane_of(plane)} {maxval}", plane_of(matching.guide_of(plane, maxval)))
    return page


def some_plane(draw, width, height, voids):
    def value():
        return None if draw.random() < voids else draw.choice([5, 5, 6, 900])

    return [[value() for _ in range(width)] for _ in range(height)]


def plane_of(plane):
    entries = listed([value for row in plane for value in row], option)
    return f"(values_of {len(plane[0])} {len(plane)} {entries})"


def codes(draw):
    page = Page(
        "codes",
        {
            "sgm_base.Values": "values_of",
            "sgm_lanes.Middles": "",
            RULES: "Plain Smoothed",
            "sgm_census.Codes": "codes_of",
            "sgm_census.Costs": "",
            "sgm_census.Windows": "WindowSides",
        },
        "abbrev window : ℕ → ℕ → WindowSides\n"
        "window width height = record { width = width; height = height }\n",
    )
    for (across, down), voids in [((3, 3), 0.1), ((3, 3), 0), ((5, 3), 0.05), ((3, 5), 0)]:
        left, right = some_plane(draw, 6, 5, voids), some_plane(draw, 6, 5, voids)
        first, greatest = draw.choice([-2, 0, 1]), across * down - 1
        planes = [matching.census_codes(plane, (across, down)) for plane in (left, right)]
        hold_codes(page, "code_at", left, (across, down), planes[0])
        both = " ".join(f"(codes_of {plane_of(plane)} (window {across} {down}) Plain)" for plane in (left, right))
        hold_costs(page, f"census_cost {both} {whole(first)}", matching.costs_of(*planes, first, 3, greatest))
    hold_smoothed(page, draw)
    return page


def hold_codes(page, name, plane, window, codes):
    """Equations for the codes of a plane by the definition of that name."""
    bits = lambda code: listed([truth(code >> k & 1) for k in reversed(range(window[0] * window[1] - 1))], str)
    for y, x in itertools.product(range(len(plane)), range(len(plane[0]))):
        left = f"{name} {plane_of(plane)} (window {window[0]} {window[1]}) {x} {y}"
        page.holds(left, option(codes[y][x], bits))


def hold_costs(page, left, costs, rows=(1, 2)):
    """Equations for the costs of some rows."""
    for y, x in itertools.product(rows, range(len(costs[0]))):
        for d, cost in enumerate(costs[y][x]):
            page.holds(f"{left} {x} {y} {d}", natural(cost))


def hold_smoothed(page, draw):
    """Middles, codes, single costs and costs of version 3: of the worked pair whole, and of planes with voids, of one row, of
    one column and smaller than the window."""
    worked, calibration = WorkedThirdVersion("planes").planes()
    cases = [(*worked.values(), calibration.window, calibration.first)]
    for width, height, window, first in [(5, 4, (3, 3), -1), (4, 3, (5, 3), 1), (5, 1, (3, 3), 0), (1, 4, (3, 5), 0), (2, 2, (5, 5), 0)]:
        cases.append((*(some_plane(draw, width, height, 0.15) for _ in range(2)), window, first))
    for left, right, window, first in cases:
        for y, x in itertools.product(range(len(left)), range(len(left[0]))):
            if left[y][x] is not None:
                middle = natural(matching.middle_of(left, x, y))
                page.holds(f"middle_at {plane_of(left)} {x} {y} {left[y][x]}", middle)
        planes = [matching.smoothed_codes(plane, window) for plane in (left, right)]
        hold_codes(page, "smoothed_code_at", left, window, planes[0])
        single = matching.costs_of(*planes, first, 2, matching.missing_cost(window[0] * window[1] - 1))
        both = " ".join(f"(codes_of {plane_of(plane)} (window {window[0]} {window[1]}) Smoothed)" for plane in (left, right))
        rows = range(len(left))[:3]
        hold_costs(page, f"single_cost {both} {whole(first)}", single, rows)
        hold_costs(page, f"census_cost {both} {whole(first)}", matching.smoothed(single), rows)


def selection(draw):
    page = Page(
        "selection",
        {
            "sgm_base.Values": "values_of",
            "sgm_energy.Rays": "pixel_at guided_problem",
            "sgm_energy.Energies": "below",
            "sgm_select.Selection": "",
            "sgm_select.Rows": "",
        },
    )
    for before, at, after in [(7, 3, 3), (9, 3, 5), (4, 3, 9), (20, 3, 18), (18, 3, 20), (4, 3, 36), (32496, 0, 32496)]:
        page.holds(f"vertex {before} {at} {after}", whole(matching.offset(before, at, after)))
    for _ in range(24):
        width, count, first = draw.choice([1, 4, 6]), draw.choice([1, 2, 4, 5]), draw.choice([-2, -1, 0, 1])
        row = [[draw.choice([3, 3, 4, 7, 40]) for _ in range(count)] for _ in range(width)]
        sums = listed([value for pixel in row for value in pixel])
        bases = [matching.least_index(pixel) for pixel in row]
        matches = [matching.match_of(row, q, first) for q in range(width)]
        left, right = some_plane(draw, width, 1, 0.1), some_plane(draw, width, 1, 0.1)
        checked = matching.disparities([row], left, right, first)[0]
        planes = f"{listed(left[0], option)} {listed(right[0], option)}"
        rows = f"{sums} {count} {listed(bases)} {listed(matches, option)} {planes}"
        for x in range(width):
            page.holds(f"base_in {sums} {count} {x}", natural(bases[x]))
            page.holds(f"matched_in {sums} {width} {whole(first)} {count} {x}", option(matches[x]))
            page.holds(f"checked_in {rows} {whole(first)} {x}", option(checked[x]))
    sides = [(3, 2, 2, 0, False), (2, 2, 2, -1, False), (4, 1, 3, 0, False), (4, 1, 3, 1, True)]
    for width, height, count, first, has_guide in sides:
        costs = some_costs(draw, width, height, count, 3)
        planes = [some_plane(draw, width, height, 0.1) for _ in range(2)]
        guide = [[draw.choice([None, 3, 4, 6, 90]) for _ in range(width)] for _ in range(height)] if has_guide else None
        sums = matching.sums_of(costs, 1, 4, guide)
        found = matching.disparities(sums, *planes, first)
        whole_problem = problem(costs, 1, 4, guide)
        for y, x in itertools.product(range(height), range(width)):
            pixel = f"(pixel_at {x} {y})"
            page.holds(f"map (path_sum {whole_problem} {pixel}) (below {count})", listed(sums[y][x]))
            page.holds(f"base {whole_problem} {pixel}", natural(matching.least_index(sums[y][x])))
            page.holds(f"matched {whole_problem} {whole(first)} {x} {y}", option(matching.match_of(sums[y], x, first)))
            both = f"{plane_of(planes[0])} {plane_of(planes[1])}"
            page.holds(f"disparity {whole_problem} {both} {whole(first)} {pixel}", option(found[y][x]))
    return page


def some_map(draw, width, height):
    """A map of disparities, half of them linked to a neighbour, some just not."""
    return [[draw.choice([None, None, 0, 16, 32, 33, 49, 400]) for _ in range(width)] for _ in range(height)]


def places_of(pixels, width):
    return listed(sorted(y * width + x for x, y in pixels))


def refinement(draw):
    """Segments and what is kept of a map, what is met from a pixel, also by rank, and what is filled in."""
    page = Page(
        "refinement",
        {
            "sgm_base.Values": "values_of",
            "sgm_energy.Rays": "pixel_at",
            "sgm_refine.Segments": "",
            "sgm_refine.Filling": "filled",
            "sgm_refine.Refined": "refined",
        },
    )
    maps = [[[16, 16, 160, 16, 16]], [[0, 16, 32, 49]], [[49, 32, 16, 0]], [[5, None], [None, 5]]]
    maps += [some_map(draw, *sides) for sides in ((5, 1), (1, 4), (3, 2), (2, 3), (3, 2))]
    for found in maps:
        entries, width = listed([value for row in found for value in row], option), len(found[0])
        for y, x in itertools.product(range(len(found)), range(width)):
            if found[y][x] is not None:
                members = places_of(matching.segment(found, x, y), width)
                page.holds(f"segment {width} {entries} {y * width + x}", members)
        for least in (0, 1, 2, 3, 5):
            page.holds(f"kept {plane_of(found)} {least}", plane_of(matching.kept(found, least)))
    row, nobody, everywhere = [[32, None, 96]], [3 * [None]], [3 * [7]]
    cases = [(row, nobody, everywhere, 0, 2), (row, [[None, 0, None]], everywhere, 0, 2)]
    cases += [([[32, None, None]], nobody, everywhere, 0, 2), (nobody, [[0, 1, 0]], everywhere, 0, 2)]
    cases.append((row, nobody, [[7, None, 7]], 0, 2))
    for width, height in [(3, 3), (5, 2), (4, 3), (1, 4), (6, 1)]:
        count = draw.choice([1, 2, 4])
        matched = [[draw.choice([None, *range(count)]) for _ in range(width)] for _ in range(height)]
        found, left = some_map(draw, width, height), some_plane(draw, width, height, 0.1)
        cases.append((found, matched, left, draw.choice([-1, 0, 1]), count))
    for found, matched, left, first, count in cases:
        width, height = len(found[0]), len(found)
        matches = plane_of([[None if d is None else 16 * d for d in line] for line in matched])
        for y, x in itertools.product(range(height), range(width)):
            in_turn, in_order = matching.met_in_turn(found, x, y), matching.met(found, x, y)
            page.holds(f"met {plane_of(found)} (pixel_at {x} {y})", listed(in_turn))
            for number, value in enumerate([*in_order, None]):
                page.holds(f"ranked {listed(in_turn)} {number}", option(value))
            answer = matching.is_mismatched(matched[y], x, first, count)
            page.holds(f"is_mismatched {matches} {whole(first)} {count} (pixel_at {x} {y})", truth(answer))
        rest = f"{matches} {plane_of(left)} {whole(first)} {count}"
        page.holds(f"filled {plane_of(found)} {rest}", plane_of(matching.filled(found, matched, left, first, count)))
        if width * height > 6:
            continue
        for peak, fill in itertools.product((0, 2, 3), (False, True)):
            made = matching.kept(found, peak)
            made = matching.filled(made, matched, left, first, count) if fill else made
            page.holds(f"refined {plane_of(found)} {rest} {refine_of(peak, fill)}", plane_of(made))
    return page


def refine_of(peak, fill):
    return record(peak=peak, fill=truth(fill))


def warp_of(warp):
    if warp["kind"] == "identity":
        return "Identity"
    if warp["kind"] == "projective":
        return f"(Projective {listed(warp['matrix'], whole)})"
    places = zip(warp["nodes"][::2], warp["nodes"][1::2])
    nodes = listed(places, lambda place: f"({whole(place[0])}, {whole(place[1])})")
    return f"(Mesh {warp['step']} {warp['cols']} {warp['rows']} {nodes})"


def some_warp(draw, width, height):
    """A warp that suits an image of these sides, most of the time."""
    kind = draw.choice(["identity", "projective", "projective", "mesh", "mesh"])
    if kind == "projective":
        lines = [draw.randrange(-300, 301) for _ in range(6)]
        return {"kind": kind, "matrix": lines + [draw.randrange(-1, 3), draw.randrange(-1, 3), draw.randrange(0, 9)]}
    if kind == "mesh":
        step = draw.choice([2, 3, 1024])
        cols, rows = (width - 1) // step + 2 + draw.choice([0, 0, 0, 1]), (height - 1) // step + 2
        nodes = [draw.randrange(-400, 1200) for _ in range(2 * cols * rows)]
        return {"kind": kind, "step": step, "cols": cols, "rows": rows, "nodes": nodes}
    return {"kind": kind}


def picture_of(image):
    return f"(picture {image.width} {image.height} {image.maxval} {listed(image.samples)})"


def rectification(draw):
    page = Page(
        "rectification",
        {
            "sgm_base.Picture": "picture",
            "sgm_base.Values": "values_of",
            "sgm_rectify.specs.declared.warp.Warp": "Warp",
            "sgm_rectify.specs.declared.warp.Warp.TheVariants": "Identity Projective Mesh",
            "sgm_rectify.Places": "",
            "sgm_rectify.Bilinear": "",
            "sgm_rectify.Faults": "",
            "sgm_rectify.Rectified": "",
            "sgm_base.specs.declared.side.Side.TheVariants": "Left",
            "sgm_outcome.Lines": "warp_line",
        },
        "abbrev fault_line : Warp → ℕ → ℕ → Option (List ℕ)\n"
        "fault_line warp width height = option_map (warp_line Left)\n"
        "    (warp_fault warp (record { width = width; height = height }))\n",
    )
    for _ in range(60):
        width, height = draw.randrange(1, 6), draw.randrange(1, 5)
        warp = some_warp(draw, width, height)
        fault = matching.warp_fault(warp, width, height)
        line = None if fault is None else f"sgm: left warp: {fault}\n"
        page.holds(f"fault_line {warp_of(warp)} {width} {height}", option(line, text))
        if fault is None:
            x, y = draw.randrange(width), draw.randrange(height)
            u, v = matching.place(warp, x, y)
            page.holds(f"place_of {warp_of(warp)} {x} {y}", f"({whole(u)}, {whole(v)})")
            image = inputs.Image(width, height, 65535, [draw.choice([0, 1, 255, 65535]) for _ in range(width * height)])
            rows = matching.rectify(image, warp)
            page.holds(f"rectified_values {picture_of(image)} {warp_of(warp)}", plane_of(rows))
    image = inputs.Image(3, 2, 65535, [0, 65535, 3, 700, 1, 2])
    for u, v in itertools.product([-257, -1, 0, 1, 128, 255, 256, 511, 512, 513], [-1, 0, 77, 256, 257]):
        page.holds(f"bilinear {picture_of(image)} {whole(u)} {whole(v)}", option(matching.bilinear(image, u, v)))
    return page


CAMERA = "focal baseline cx cy doffs mount near far".split()


def completed(section, given):
    """The object with the worked example's value of each key that isn't given."""
    return {**calibration_cases.WHOLE[section], **given}


def camera_of(camera):
    return record(**{name: whole(value) for name, value in completed("camera", camera).items()})


def point_of(point):
    return record(x=whole(point[0]), y=whole(point[1]), h=whole(point[2]))


def points(draw):
    page = Page("points", {"sgm_height.Camera": "point_of"})
    ends = (16777216, 2000000000, -16777216, 16777216, -16777216, 2000000000, 1, 2000000000)
    far_away = dict(zip(CAMERA, ends))
    cases = [(far_away, 4095, 4095, sixteenths) for sixteenths in (-32768, 32767, 32768)]
    for near, far in ((100000, 100000), (100001, 100001), (99999, 99999)):
        cases.append((dict(zip(CAMERA, (25600, 1000, 0, 0, 0, 150000, near, far))), 2, 1, 16))
    for _ in range(60):
        limits = (draw.choice([1, 50]), draw.choice([3000, 2000000000]))
        sides = (draw.randrange(1, 4000), draw.randrange(1, 50), draw.randrange(-900, 900), draw.randrange(-900, 900))
        camera = dict(zip(CAMERA, (*sides, draw.choice([0, -16, 5, 512]), draw.randrange(5000), *limits)))
        cases.append((camera, draw.randrange(6), draw.randrange(6), draw.choice([-32, 0, 1, 2, 16, 33, 100])))
    for camera, x, y, sixteenths in cases:
        found = option(matching.point(camera, x, y, sixteenths), point_of)
        page.holds(f"point_of {camera_of(camera)} {x} {y} {whole(sixteenths)}", found)
    return page


def axes_of(matrix):
    east, north, up = (record(**dict(zip("xyh", map(whole, row)))) for row in matching.rows_of(matrix))
    return record(east=east, north=north, up=up)


def pose_of(pose):
    return record(axes=axes_of(pose["matrix"]), **{name: whole(pose[name]) for name in ("east", "north", "up")})


def poses(draw):
    page = Page("poses", {"sgm_height.Pose": "site_point"})
    one, half = 2**30, 2**29
    identity, turn = [one, 0, 0, 0, one, 0, 0, 0, one], [0, -one, 0, one, 0, 0, 0, 0, one]
    tilt = [one, 0, 0, 0, 858993459, -644245094, 0, 644245094, 858993459]
    matrices = [identity, turn, tilt, [half, *identity[1:]], [-one, *identity[1:]], 9 * [0]]
    for places in ((0, 16384), (0, 16385), (8, 16384), (8, 16385)):
        matrices.append([entry - places[1] * (index == places[0]) for index, entry in enumerate(identity)])
    matrices += [[one, off, *identity[2:]] for off in (32768, 32769, -32768, -32769)]
    for matrix in matrices:
        is_near = all(abs(off) <= 2**45 for off in inputs.from_rotation(matrix))
        page.holds(f"is_nearly_rotation {axes_of(matrix)}", truth(is_near))
    for matrix in matrices[:4]:
        for _ in range(12):
            shifts = (draw.choice([0, 7, -2000000000]), draw.randrange(-9, 9), draw.choice([0, 5, 2000000000]))
            pose = {"matrix": matrix, **dict(zip(("east", "north", "up"), shifts))}
            place = (draw.randrange(-9, 9), draw.choice([-(2**55), 3, 2**55]), draw.choice([-2000000000, -1, 0, 1, 2]))
            found = option(matching.in_site(pose, place), point_of)
            page.holds(f"site_point {pose_of(pose)} {point_of(place)}", found)
    return page


@functools.cache
def natural_fields(path):
    """The names of a struct's fields that are natural numbers in the definitions, by its source."""
    with open(os.path.join(CRATES, path), encoding="utf-8") as file:
        return re.findall(r"^ +pub (\w+): u\d+,", file.read(), re.M)


def spec_of(grid):
    naturals = natural_fields("sgm_grid/src/grid_spec.rt")
    shown = {name: natural if name in naturals else whole for name in completed("grid", grid)}
    return record(**{name: shown[name](value) for name, value in completed("grid", grid).items()})


def cells_of(grid, cells):
    heights = [height for row in cells for height in row]
    return f"(cells_of {spec_of(grid)} {listed(heights, lambda height: option(height, whole))})"


def grids(draw):
    page = Page(
        "grids",
        {
            **KEEPS,
            "sgm_grid.Cells": "cells_of",
            "sgm_base.Values": "",
            "sgm_grid.Keeping": "cell_after",
            "sgm_grid.Bridges": "bridged",
            "sgm_grid.Text": "grid_text",
        },
    )
    for cols, rows, cell in [(3, 2, 3), (1, 1, 1), (2, 4, 10)]:
        grid = dict(west=draw.randrange(-9, 9), south=draw.randrange(-9, 9), cell=cell, cols=cols, rows=rows)

        def some_point():
            x = grid["west"] + draw.randrange(-2, cols * cell + 3)
            y = grid["south"] + draw.randrange(-2, rows * cell + 3)
            return x, y, draw.choice([-2000000000, 7, -7, 2000000000])

        some = [some_point() for _ in range(12)]
        for keep in ("highest", "mean"):
            cells = matching.heights(some, grid, keep)
            for row, col in itertools.product(range(rows), range(cols)):
                height = option(cells[row][col], whole)
                given = f"{keep.capitalize()} {spec_of(grid)} {listed(some, point_of)}"
                page.holds(f"cell_after {given} {col} {row}", height)
            page.holds(f"grid_text {cells_of(grid, cells)}", text(reference.grid_text(grid, cells)))
    grid = dict(west=0, south=0, cell=4, cols=5, rows=4)
    for most in (0, 1, 2, 3, 8):
        cells = [[draw.choice([None, None, 0, 3, -5, 9]) for _ in range(5)] for _ in range(4)]
        made = matching.bridged(cells, 4, most)
        page.holds(f"bridged {most} {cells_of(grid, cells)}", cells_of(grid, made))
    return page


# The line of a grid that is refused, in the place of its fault.
GRID_LINES = (
    "abbrev with_line : Result Cells AscFault → Result Cells (List ℕ)\n"
    "with_line (Ok grid) = Ok grid\n"
    "with_line (Err fault) = Err (asc_line Later fault)\n"
)


def readings(draw):
    """The reading of a grid's text: the grid, or the line of the first fault."""
    page = Page(
        "readings",
        {
            "sgm_grid.Cells": "Cells cells_of",
            "sgm_grid.specs.declared.asc_fault.AscFault": "AscFault",
            "sgm_text.Words": "",
            "sgm_grid.Numbers": "",
            "sgm_grid.Asc": "asc_reading",
            "sgm_words.specs.declared.files.Input.TheVariants": "Later",
            "sgm_outcome.Lines": "asc_line",
        },
        GRID_LINES,
    )
    cases = [b"", b" \r\n\t", b"ncols", b"ncols -", GRID_TEXT, DIFFERENCE_TEXT, LATER_TEXT[: LATER_TEXT.rindex(b" ")]]
    cases += [asc("1 2"), asc("1"), asc("1 x 2"), asc("1 2", cols=0, nodata="x"), asc("x", nodata=0), asc("1\v2")]
    cases += [asc("-2147483648 -2000000000"), asc("1 2000000001"), asc("-2147483649 x"), asc("-0 00000000000000000000012")]
    cases += [asc("7 8", cols=1, rows=2, west=-2000000000, south=2000000000, cell=1000000000), asc("", cols=4096, rows=4096)]
    cases += [asc("1 2", **{key: end}) for key, end in [("rows", 4097), ("west", 2000000001), ("south", -2000000001), ("cell", 0)]]
    for number in range(40):
        files = random_inputs.change_case(random_inputs.Draw(7, number))[1]
        cases += [data for data in files.values() if len(data) < 250]
    for data in cases:
        try:
            answer = f"(Ok {cells_of(*inputs.read_grid(data, 'later'))})"
        except inputs.Ended as end:
            answer = f"(Err {text(end.line + chr(10))})"
        page.holds(f"with_line (asc_reading {text(data)})", answer)
    return page


def some_ground(draw, cols, rows):
    return [[draw.choice([None, 0, 7, -7, -2000000000, 2000000000]) for _ in range(cols)] for _ in range(rows)]


def changed_of(changed):
    return record(**dict(zip("both come gone empty fill cut".split(), map(natural, changed))))


def changes(draw):
    """The counts and volumes between two grids, the text of their difference, and that of the volumes."""
    page = Page("changes", {"sgm_grid.Cells": "cells_of", "sgm_change.Changes": "change_of", "sgm_change.Texts": "grids_text volumes_text"})
    for cols, rows, cell in [(1, 1, 1), (3, 2, 10), (2, 4, 1000000000), (4, 3, 7), (5, 1, 1000)]:
        grid = dict(west=draw.randrange(-9, 9), south=draw.randrange(-9, 9), cell=cell, cols=cols, rows=rows)
        earlier, later = some_ground(draw, cols, rows), some_ground(draw, cols, rows)
        both = f"{cells_of(grid, earlier)} {cells_of(grid, later)}"
        changed = matching.changed(earlier, later, cell)
        page.holds(f"change_of {both}", changed_of(changed))
        difference = reference.grid_text(grid, matching.differences(earlier, later), reference.NO_DIFFERENCE)
        page.holds(f"grids_text {both}", text(difference))
        page.holds(f"volumes_text {changed_of(changed)}", text(reference.volumes_text(changed)))
    return page


def base_of(region):
    rises = {name: whole(region.get(name, 0)) for name in ("rise_east", "rise_north")}
    return record(height=whole(region["base"]), **rises)


def corners_of(outline):
    corners = zip(outline[::2], outline[1::2])
    return listed(corners, lambda corner: f"({', '.join(map(whole, corner))})")


def area_of(region):
    numbers = {name: natural(region[name]) for name in ("col", "row", "cols", "rows")}
    outline = option(region.get("outline"), corners_of)
    return record(name=text(region["name"]), **numbers, base=base_of(region), outline=outline)


def tally_of(row):
    """The tally of a line of a report, whose cells are followed by those that are bridged in version 3 alone."""
    cells, bridged, empty, fill, cut, *ends = row if len(row) == 7 else (row[0], 0, *row[1:])
    lowest, highest = (option(None if end == "" else end, whole) for end in ends)
    return record(cells=cells, bridged=bridged, empty=empty, fill=fill, cut=cut, lowest=lowest, highest=highest)


def reports(draw):
    page = Page(
        "reports",
        {
            "sgm_grid.Cells": "cells_of",
            "sgm_report.Areas": "is_region_name",
            **REGIONS,
            "sgm_report.Tallies": "tally_of",
            "sgm_report.Table": "table_text",
        },
        COLUMNS,
    )
    grid = dict(west=0, south=0, cell=1000, cols=4, rows=3)
    for _ in range(6):
        cells = [[draw.choice([None, 5, 7, -2000000000, 2000000000]) for _ in range(4)] for _ in range(3)]
        regions = []
        for name in ("all", "a b_-.9Z", "x"):
            col, row, base = draw.randrange(4), draw.randrange(3), draw.choice([6, -3, 2000000000])
            cols, rows = draw.randrange(1, 5 - col), draw.randrange(1, 4 - row)
            regions.append(dict(name=name, col=col, row=row, cols=cols, rows=rows, base=base))
            if draw.randrange(3):
                for rise in ("rise_east", "rise_north"):
                    regions[-1][rise] = draw.randrange(-3000, 3000)
            if draw.randrange(3):
                length = 2 * draw.randrange(3, 7)
                regions[-1]["outline"] = [500 * draw.randrange(10) for _ in range(length)]
        made = [[5 if height is None and draw.randrange(2) else height for height in row] for row in cells]
        tallies = {
            1: [matching.tally(made, grid["cell"], region) for region in regions],
            3: [matching.tally_with_bridges(cells, made, grid["cell"], region) for region in regions],
        }
        for region, row in zip(regions, tallies[3]):
            page.holds(f"tally_of {cells_of(grid, made)} {cells_of(grid, cells)} {area_of(region)}", tally_of(row))
        for version, rows in tallies.items():
            table = f"table_text {COLUMNS_OF[version]} {listed(regions, area_of)} {listed(rows, tally_of)}"
            page.holds(table, text(reference.table_text(regions, rows, version)))
    for name in ["", "a", "A z_-.09", "a,b", 'a"b', "a/b", "é", "x" * 64, "x" * 65, " ", "a\nb", *"@[`{:"]:
        is_name = re.fullmatch("[A-Za-z0-9 _.-]{1,64}", name) is not None
        page.holds(f"is_region_name {listed(name.encode())}", truth(is_name))
    return page


def settings_of(calibration):
    made = record(
        span=record(first=whole(calibration.first), count=calibration.count),
        fine=truth(calibration.is_fine),
        window=record(width=calibration.window[0], height=calibration.window[1]),
        rule=RULE_OF[calibration.version],
        penalties=penalties_of(calibration.p1, calibration.p2, calibration.is_adaptive),
        left=warp_of(calibration.left),
        right=warp_of(calibration.right),
        camera=option(calibration.camera, camera_of),
        pose=option(calibration.pose, pose_of),
        grid=option(calibration.grid, spec_of),
        gridding=record(keep=calibration.keep.capitalize(), bridge=calibration.bridge),
        columns=COLUMNS_OF[calibration.version],
        regions=option(calibration.regions, lambda regions: listed(regions, area_of)),
    )
    return f"(Ok {made})"


DATA = "unsigned negative float null boolean number string array object no_items item no_members member"


def data_of(value):
    """A JSON value as the reading gives it: members in the order of their names, and any float the same."""
    if value is None:
        return "null"
    if isinstance(value, bool):
        return f"(boolean {truth(value)})"
    if isinstance(value, int):
        return f"(number (unsigned {value}))" if value >= 0 else f"(number (negative {whole(value)}))"
    if isinstance(value, float):
        return "(number (float real))"
    if isinstance(value, str):
        return f"(string {text(value)})"
    if isinstance(value, list):
        return "(array " + "".join(f"(item {data_of(it)} " for it in value) + "no_items" + ")" * (len(value) + 1)
    members = sorted(value.items(), key=lambda member: member[0].encode())
    shown = "".join(f"(member {text(name)} {data_of(it)} " for name, it in members)
    return "(object " + shown + "no_members" + ")" * (len(members) + 1)


def calibrations(draw):
    page = Page(
        "calibrations",
        {
            "std.specs.Prelude": "Float",
            "serde_json.specs.Data": DATA,
            RULES: "Plain Smoothed",
            "sgm_rectify.specs.declared.warp.Warp.TheVariants": "Identity Projective Mesh",
            "sgm_height.Pose": "",
            "sgm_report.Areas": "",
            "sgm_report.Bases": "",
            "sgm_calib.specs.declared.keys.CalibFault": "CalibFault",
            "sgm_calib.Paths": "",
            **KEEPS,
            "sgm_calib.Calibration": "Calibration",
            "sgm_calib.Checks": "",
            "sgm_calib.Numbers": "",
            "sgm_calib.Rows": "",
            "sgm_calib.Table": "",
            "sgm_calib.WarpKeys": "",
            "sgm_calib.RegionKeys": "",
            "sgm_calib.Judge": "",
            "sgm_outcome.Lines": "calib_line",
        },
        COLUMNS + "abbrev with_line : Result Calibration CalibFault → Result Calibration (List ℕ)\n"
        "with_line (Ok calib) = Ok calib\n"
        "with_line (Err fault) = Err (calib_line fault)\n",
        given="real",
    )
    cases = [json.dumps(made) for _, made, _ in calibration_cases.faults()]
    cases += [json.dumps(made) for _, made in calibration_cases.bounds()]
    cases += ["[]", "7", "null", "{}", '{"version":2,"a":2}', '{"version":3,"a":2}', '{"version":1.0}', '{"version":-0}']
    cases.append('{"version":9223372036854775808}')
    for case in cases:
        try:
            answer = settings_of(inputs.read_calibration(case.encode()))
        except inputs.Ended as end:
            answer = f"(Err {text(end.line + chr(10))})"
        page.holds(f"with_line (judged {data_of(inputs.parse_json(case.encode()))})", answer)
    return page


def words(draw):
    page = Page(
        "words",
        {
            "sgm_words.specs.declared.options.Options": "Options",
            "sgm_words.specs.declared.options.Options.TheVariants": "Match Demo Trace Change Merge",
            "sgm_words.specs.declared.usage.UsageFault": "UsageFault",
            "sgm_energy.specs.declared.dir.Dir.TheVariants": DIRECTIONS,
            "sgm_words.Commands": "",
            "sgm_words.Directions": "",
            "sgm_words.Faults": "",
            "sgm_words.Numbers": "",
            "sgm_words.Operands": "",
            "sgm_words.OptionTable": "",
            "sgm_words.Rows": "",
            "sgm_words.Settings": "",
            "sgm_words.Words": "",
            "sgm_outcome.Lines": "usage_line",
        },
        "abbrev with_line : Result Options UsageFault → Result Options (List ℕ)\n"
        "with_line (Ok asked) = Ok asked\n"
        "with_line (Err fault) = Err (usage_line fault)\n",
    )
    names = ["a", "b", "-", "o", "o.pgm", "o.csv", ""]
    numbers = ["0", "7", "007", "4294967295", "4294967296", "", "x", "+1", "é"]
    options = "strips=1 strips=064 strips=65 strips=0 strips= workers=16 workers=17 workers=2x Strips=1 1".split()
    options += "peak=0 peak=16777216 peak=16777217 peak=020 peak= fill=0 fill=1 fill=01 fill=2 fill=".split()
    cases = [[], ["match"], ["march", "a"], ["match", "a", "b", "-", "o"], ["match", "a", "b", "-"], ["demo"]]
    for _ in range(60):
        operands = draw.choices(names, weights=[4, 4, 4, 8, 1, 1, 1], k=4)
        cases.append(["match", *operands, *draw.choices(options, k=draw.randrange(4))])
        cases.append(["demo", draw.choice(numbers), *draw.choices(options, k=draw.randrange(4))])
    directions = [*inputs.DIRECTIONS, "Up", "", "rightup"]
    for number, direction in enumerate(2 * directions):
        inputs_of = ["l", "r", "-"] if number < len(directions) else draw.choices(names, weights=[4, 4, 4, 8, 1, 1, 1], k=3)
        spot = draw.choices(["0", "7", "007", "4294967295"], k=3) if number < len(directions) else draw.choices(numbers, k=3)
        cases.append(["trace", *inputs_of, direction, *spot, *draw.choices(options, k=draw.choice([0, 0, 0, 1]))])
        for command in ("change", "merge"):
            some_options = draw.choices(options, k=draw.choice([0, 0, 0, 1]))
            cases.append([command, *draw.choices(names, k=3), *some_options])
    cases += [["trace", "l", "r", "-", "up", "0", "0"], ["trace"], ["change", "a", "b"], ["change", "a", "b", "o"], ["change"]]
    cases += [["change", "o.pgm", "b", "o"], ["change", "b", "o.asc", "o"], ["change", "o.csv", "o.asc", "o"]]
    merges_of = [[], "ab", "abo", "-bo", "a-o", "aoo", ["o.pgm", "b", "o"]]
    merges_of += [["o.csv", "o.asc", "o"], ["a", "o.asc", "o"]]
    cases += [["merge", *rest] for rest in merges_of]
    for case in cases:
        try:
            operands, asked = inputs.read_words(case)
            options_of = f"{asked['strips']} {asked['workers']} {refine_of(asked['peak'], asked['fill'] == 1)}"
            made = {"match": f"(Match {options_of})", "change": "Change", "merge": "Merge"}
            if case[0] == "demo":
                made["demo"] = f"(Demo {int(operands[0])} {options_of})"
            if case[0] == "trace":
                direction = DIRECTIONS.split()[inputs.DIRECTIONS.index(operands[3])]
                made["trace"] = f"(Trace {direction} {' '.join(str(int(word)) for word in operands[4:])})"
            answer = f"(Ok {made[case[0]]})"
        except inputs.Ended as end:
            answer = f"(Err {text(end.line + chr(10))})"
        page.holds(f"with_line (read_of {listed(case, lambda word: text(word))})", answer)
    return page


def texts(draw):
    page = Page(
        "texts",
        {
            "sgm_base.Values": "values_of",
            "sgm_base.specs.declared.side.Side.TheVariants": "Left Right",
            "sgm_pgm.Write": "",
            "sgm_stages.Pair": "",
            "sgm_stages.Texts": "",
        },
    )
    for width, height in [(1, 1), (3, 2), (10, 1)]:
        found = [[draw.choice([None, 0, 16, 23, 52, 4080]) for _ in range(width)] for _ in range(height)]
        summary = reference.summary_text(found)
        page.holds(f"disparity_text {plane_of(found)}", text(reference.disparity_text(found)))
        page.holds(f"summary_text {plane_of(found)}", text(summary))
        page.holds(f"demo_text {plane_of(found)}", text(summary + f"sum {sum(reference.disparity_samples(found))}\n"))
    for number in (0, 7, 4294967295):
        left, right = reference.generated_pair(256, 192, number)
        edges = [(0, 0), (8, 0), (95, 64), (96, 63), (96, 64), (159, 127), (160, 127), (96, 128), (255, 191)]
        for x, y in [*edges, (3, 47), (3, 48), (3, 144)]:
            page.holds(f"pair_sample {number} Left {x} {y}", natural(left.at(x, y)))
            page.holds(f"pair_sample {number} Right {x} {y}", natural(right.at(x, y)))
    return page


def surveys(draw):
    """Whole surveys: the worked pair, and two that are as small, so that every sequence of a ray can be tried, with
    penalties that follow the image or don't, refined or not, and by the rule of either version."""
    page = Page(
        "surveys",
        {
            "sgm_base.Picture": "picture",
            "sgm_base.Values": "values_of",
            "sgm_rectify.specs.declared.warp.Warp.TheVariants": "Identity",
            "sgm_rectify.Places": "",
            "sgm_rectify.Bilinear": "",
            "sgm_rectify.Rectified": "",
            "sgm_lanes.Middles": "",
            RULES: "Plain Smoothed",
            "sgm_census.Codes": "",
            "sgm_census.Costs": "",
            "sgm_energy.Rays": "",
            "sgm_energy.Energies": "",
            "sgm_select.Selection": "",
            "sgm_refine.Segments": "",
            "sgm_refine.Filling": "",
            "sgm_refine.Refined": "",
            **KEEPS,
            "sgm_grid.Cells": "cells_of",
            "sgm_grid.Keeping": "",
            "sgm_grid.Bridges": "",
            **REGIONS,
            "sgm_fine.Making": "",
            "sgm_ground.Heights": "",
            "sgm_map.Maps": "",
            "sgm_ground.Tallying": "",
            "sgm_job.Survey": "survey_of",
        },
        COLUMNS,
    )
    calibration = inputs.read_calibration(WORKED["c.json"])
    pairs = [[inputs.read_pgm(WORKED[name], name) for name in ("l.pgm", "r.pgm")]]
    for width, height in [(3, 3), (4, 3)]:
        noise = [[draw.randrange(9) for _ in range(width * height)] for _ in range(2)]
        pairs.append([inputs.Image(width, height, 255, samples) for samples in noise])
    kinds = [(1, False, 0, False), (2, True, 0, False), (2, False, 2, True), (2, True, 3, True), (3, False, 0, False), (3, True, 3, True)]
    cases = [(pair, kinds[0]) for pair in pairs] + [(pairs[1], kind) for kind in kinds[1:]]
    for (left, right), (version, is_adaptive, peak, fill) in cases:
        calibration.version, calibration.is_adaptive = version, is_adaptive
        calibration.keep, calibration.bridge = ("mean", 2) if version == 3 else ("highest", 0)
        settings = settings_of(calibration)[len("(Ok ") : -len(")")]
        found, cells, tallies = matching.survey(left, right, calibration, peak=peak, fill=fill)
        answer = record(
            disp=plane_of(found),
            grid=f"(Some {cells_of(calibration.grid, cells)})",
            tallies=f"(Some {listed(tallies, tally_of)})",
        )
        page.holds(f"survey_of {picture_of(left)} {picture_of(right)} {settings} {refine_of(peak, fill)}", answer)
    return page


def calls(draw):
    """What a trace prints and what a change writes, over what is read, or the line of the first refusal."""
    page = Page(
        "calls",
        {
            "sgm_base.Picture": "picture",
            "sgm_base.Values": "values_of",
            "sgm_rectify.specs.declared.warp.Warp.TheVariants": "Identity Projective Mesh",
            "sgm_energy.specs.declared.dir.Dir.TheVariants": DIRECTIONS,
            "sgm_rectify.Places": "",
            "sgm_rectify.Bilinear": "",
            "sgm_rectify.Faults": "",
            "sgm_rectify.Rectified": "",
            "sgm_lanes.Middles": "",
            RULES: "Plain Smoothed",
            "sgm_census.Codes": "",
            "sgm_census.Costs": "",
            "sgm_energy.Rays": "",
            "sgm_energy.Energies": "",
            "sgm_energy.Pens": "",
            "sgm_trace.Best": "",
            "sgm_grid.Cells": "cells_of",
            "sgm_text.Words": "",
            "sgm_grid.Numbers": "",
            "sgm_grid.Asc": "asc_reading",
            "sgm_change.Changes": "",
            **KEEPS,
            "sgm_job.Survey": "",
            "sgm_outcome.specs.declared.outcome.Refusal": "Refusal",
            "sgm_outcome.Lines": "refusal_line",
            "sgm_stages.Refusals": "",
            "sgm_app.Refusals": "",
            "sgm_app.Certificates": "certificate_for",
            "sgm_stages.Changing": "GridTexts change_for",
        },
        COLUMNS + "abbrev with_line : {X : Type 0} → Result X Refusal → Result X (List ℕ)\n"
        "with_line (Ok made) = Ok made\n"
        "with_line (Err refusal) = Err (refusal_line refusal)\n",
    )
    calibration = inputs.read_calibration(WORKED["c.json"])
    pair = [inputs.read_pgm(WORKED[name], name) for name in ("l.pgm", "r.pgm")]
    noise = [inputs.Image(3, 3, 255, [draw.randrange(9) for _ in range(9)]) for _ in range(2)]
    moved = {"kind": "projective", "matrix": [1, 0, 1, 0, 1, 0, 0, 0, 1]}
    turned = {"kind": "projective", "matrix": [1, 0, 0, 0, 1, 0, -1, 0, 1]}
    spots = [("right", 2, 1, 1), ("down", 0, 0, 0), ("upleft", 2, 0, 0), ("left", 2, 2, 1), ("downright", 1, 1, 0)]
    outside = [("right", 5, 0, 0), ("up", 0, 3, 0), ("down", 0, 0, 2), ("left", 4294967295, 4294967295, 4294967295)]
    cases = [(pair, {}, spot) for spot in spots + outside]
    cases += [(noise, {"is_adaptive": True}, spot) for spot in spots]
    cases += [(noise, {"is_adaptive": True, "left": moved}, spot) for spot in spots[:2]]
    cases += [(pair, {"version": 3}, spot) for spot in spots] + [(noise, {"version": 3, "left": moved}, spot) for spot in spots[:2]]
    cases += [((noise[0], pair[0]), {}, outside[0]), (noise, {"right": turned}, outside[0]), (noise, {"right": turned}, spots[1])]
    for (left, right), settings, (direction, x, y, d) in cases:
        made = inputs.Calibration()
        vars(made).update({**vars(calibration), **settings})
        shown = DIRECTIONS.split()[inputs.DIRECTIONS.index(direction)]
        try:
            reference.fitting(left, right, made)
            answer = f"(Ok {text(reference.certificate(left, right, made, direction, x, y, d))})"
        except inputs.Ended as end:
            answer = f"(Err {text(end.line + chr(10))})"
        read = f"(Ok {picture_of(left)}) (Ok {picture_of(right)}) {settings_of(made)}"
        page.holds(f"with_line (certificate_for {read} {shown} {x} {y} {d})", answer)
    grids = [(GRID_TEXT, LATER_TEXT), (LATER_TEXT, GRID_TEXT), (b"", b""), (GRID_TEXT, b"ncols"), (asc("1 2"), asc("1"))]
    grids += [(asc("1 2"), asc("1 2", **{key: 9})) for key in ("west", "south", "cell")]
    grids += [(asc("1 2"), asc("1 2", cols=1, rows=2)), (asc("1 2"), asc("1 2 3 4", rows=2, cell=5))]
    for earlier, later in grids:
        try:
            difference, volumes, summary = reference.change_texts(*reference.judged_grids(earlier, later))
            answer = f"(Ok {record(difference=text(difference), volumes=text(volumes), summary=text(summary))})"
        except inputs.Ended as end:
            answer = f"(Err {text(end.line + chr(10))})"
        page.holds(f"with_line (change_for (asc_reading {text(earlier)}) (asc_reading {text(later)}))", answer)
    return page


def entry_of(entry):
    calib = None if entry.calib == "-" else entry.calib
    return record(left=text(entry.left), right=text(entry.right), calib=option(calib, text), out=text(entry.out))


def lists(draw):
    """The entries of a series' list, and the line of its first fault, or none. That a list isn't UTF-8 can't be computed
    here, since the library's definition of it has parts that have no name outside."""
    page = Page(
        "lists",
        {
            "std.specs.Option": "option_or",
            "sgm_list.Entries": "entries_of",
            "sgm_list.Faults": "line_fault count_fault clash_fault",
            "sgm_list.Lines": "fault_line",
        },
    )
    cases = [(b"", "l"), (b"a b - o", "o.csv"), (b"x\n", "l"), (b"a b c o\r\n\n\td e\t- p\n", "l"), (b"a b - -", "-")]
    cases += [(b"o.pgm b - p\na b - o\n", "l"), (b"a b - o\na b - o", "l"), (b"-.pgm b - -", "l"), (b"a b - o", "o")]
    for number in range(60):
        data, name = random_lists.list_of(5, number)
        cases += [(data, name)] if len(data) < 120 else []
    for data, name in cases:
        try:
            entries, line = reference_lists.read_list(data, name), None
            page.holds(f"entries_of {text(data)}", listed(entries, entry_of))
        except inputs.Ended as end:
            line = end.line + "\n"
        if line == "sgm_series: list is not text\n":
            continue
        faults = f"option_or (count_fault {text(data)}) (clash_fault {text(name)} {text(data)})"
        page.holds(f"option_map fault_line (option_or (line_fault {text(data)}) ({faults}))", option(line, text))
    return page


# Merges

# The modules of the names that a calibration is written with.
SETTINGS = {
    RULES: "Plain Smoothed",
    "sgm_rectify.specs.declared.warp.Warp.TheVariants": "Identity Projective Mesh",
    **KEEPS,
}


def bare_settings_of(calibration):
    return settings_of(calibration)[len("(Ok ") : -len(")")]


def plan_of(names, calibration):
    """What a merge of grids with these names is over, by that calibration."""
    settings, spec = bare_settings_of(calibration), spec_of(calibration.grid)
    return record(names=listed(names, text), calib=settings, spec=spec)


def decides_by_files(case):
    """Whether a stored case of a merge is small, and its files alone decide what comes of it."""
    names = set(case.texts)
    has_all = {"m.txt", "c.json"} <= names and not {"o.asc", "o.csv"} & names
    # (a text in one line says how often a part of it comes)
    is_small = r"\*" not in case.told()
    return case.words == merge_cases.MERGE and not case.devices and has_all and is_small


def small_merges():
    """Such cases, each with its files, and with its names and its calibration, or None where one of
    them is refused."""
    for case in filter(decides_by_files, merge_cases.cases()):
        files = case.files()
        try:
            yield case, files, reference.merge_plan(files["m.txt"], files["c.json"], "o")
        except inputs.Ended:
            yield case, files, None


def fault_line(call):
    """The line of the fault with which that ends, or None."""
    try:
        call()
    except inputs.Ended as end:
        return end.line + "\n"
    return None


MERGED = ["o.asc", "o.csv"]


def names(draw):
    """The names in the list of a merge, the line of its first fault or none, and what a merge is
    over, or its refusal. That a list isn't UTF-8 can't be computed here either."""
    page = Page(
        "names",
        {
            "std.specs.Option": "option_or",
            "sgm_list.specs.declared.names.NamesFault.TheVariants": "Line NoEntries Output",
            "sgm_list.Names": "names_in line_fault count_fault fault_of_count output_fault",
            "sgm_calib.specs.declared.keys.CalibFault.TheVariants": "Json Version",
            "sgm_calib.Paths": "",
            "sgm_calib.Table": "",
            **SETTINGS,
            "sgm_outcome.specs.declared.outcome.Refusal": "Refusal",
            "sgm_outcome.Lines": "list_line refusal_line",
            "sgm_stages.Merging": "MergePlan plan_for",
        },
        COLUMNS + "abbrev with_line : Result MergePlan Refusal → Result MergePlan (List ℕ)\n"
        "with_line (Ok plan) = Ok plan\n"
        "with_line (Err refusal) = Err (refusal_line refusal)\n",
    )
    some = [files["m.txt"] for _, files, _ in small_merges()]
    some += [random_lists.name_list_of(5, number) for number in range(80)]
    for data in dict.fromkeys(it for it in some if len(it) < 120):
        hold_names(page, data)
    for count in (0, 1, 2, 999, 1000, 1001):
        line = fault_line(lambda: reference.read_names(count * b"a\n", MERGED))
        page.holds(f"option_map list_line (fault_of_count {count})", option(line, text))
    hold_plans(page)
    return page


def hold_names(page, data):
    """Equations for the list of a merge that is text."""
    line = fault_line(lambda: reference.read_names(data, MERGED))
    if line == "sgm: list: not text\n":
        return
    if line is None:
        found = reference.read_names(data, MERGED)
        page.holds(f"names_in {text(data)}", listed(found, text))
    later = f"option_or (count_fault {text(data)}) (output_fault {text('o')} {text(data)})"
    faults = f"option_or (line_fault {text(data)}) ({later})"
    page.holds(f"option_map list_line ({faults})", option(line, text))


# Lists and calibrations with a fault, and how the faults are written.
ILL_LISTS = {b"": "NoEntries", b"a\no.asc": "(Output 1)", b"a\nb c": "(Line 2)"}
ILL_CALIBRATIONS = {b"{": "Json", b'{"version":4}': "Version"}


def hold_plans(page):
    """Equations for what merges are over, by each reading of a list and of a calibration."""
    missing = calibration_cases.MISSING
    bare = calibration_cases.changed(merge_cases.WHOLE, ("camera", missing), ("grid", missing))
    lists_read = {data: f"(Err {fault})" for data, fault in ILL_LISTS.items()}
    for data in (b"a", b"a\nb\na"):
        lists_read[data] = f"(Ok {listed(reference.read_names(data, MERGED), text)})"
    calibrations_read = {data: f"(Err {fault})" for data, fault in ILL_CALIBRATIONS.items()}
    # (without one there are the plain settings)
    for data in (json.dumps(merge_cases.WHOLE).encode(), json.dumps(bare).encode(), None):
        calibrations_read[data] = settings_of(reference.calibration_of(data))
    for data, calibration in itertools.product(lists_read, calibrations_read):
        try:
            answer = f"(Ok {plan_of(*reference.merge_plan(data, calibration, 'o'))})"
        except inputs.Ended as end:
            answer = f"(Err {text(end.line + chr(10))})"
        read = f"{lists_read[data]} {calibrations_read[calibration]}"
        page.holds(f"with_line (plan_for {read})", answer)


def entries_in(files, names):
    """The grids with these names, each its numbers and its cells, or None where one has a fault."""
    try:
        return [inputs.read_grid(files[name], "grid") for name in names]
    except (inputs.Ended, KeyError):
        return None


def far_apart(side, sign):
    """A calibration and an entry so far beyond its cells that 2^32 less would be over them."""
    sides = {"west": 0, "south": 0, "cell": 10**9, "cols": 2, "rows": 2}
    whole = merge_cases.calibration({**sides, side: -sign * 1500000000})
    entry = {**sides, "rows": 1, "cols": 1, side: sign * 1500000000}
    return inputs.read_calibration(json.dumps(whole).encode()), [(entry, [[5]])]


def merges_of_cells():
    """Names, a calibration and entries of many merges."""
    for _, files, found in small_merges():
        entries = found and entries_in(files, found[0])
        if entries:
            yield *found, entries
    for side, sign in itertools.product(("west", "south"), (1, -1)):
        yield ["e"], *far_apart(side, sign)


def merges(draw):
    """Whether grids fit, and many grids as one: over all entries at once, by what is held of them
    one after the other, and in the texts of a merge."""
    page = Page(
        "merges",
        {
            "std.specs.Prelude": "fold",
            "sgm_base.Values": "",
            **SETTINGS,
            "sgm_grid.Cells": "cells_of",
            "sgm_grid.Bridges": "",
            **REGIONS,
            "sgm_merge.Fits": "fits",
            "sgm_merge.Merged": "merged cut_to",
            "sgm_merge.Merging": "no_entries with_entry grid_in",
            "sgm_stages.Merging": "merge_texts",
        },
        COLUMNS,
    )
    found = {str((vars(it[1]), it[2])): it for it in merges_of_cells()}.values()
    pairs = [(entry[0], calibration.grid) for _, calibration, some in found for entry in some]
    for entry, grid in {str(pair): pair for pair in pairs}.values():
        page.holds(f"fits {spec_of(grid)} {spec_of(entry)}", truth(matching.fits(entry, grid)))
    for names, calibration, some in found:
        size = sum(len(row) for _, cells in some for row in cells)
        if size <= 40 and all(matching.fits(entry[0], calibration.grid) for entry in some):
            hold_merge(page, names, calibration, some)
    return page


def merged_before_bridges(calibration, entries):
    made = inputs.Calibration()
    vars(made).update({**vars(calibration), "bridge": 0, "regions": None})
    return matching.merged(made, entries)[0]


def hold_merge(page, names, calibration, entries):
    """Equations for a merge of entries that fit."""
    grid, spec = calibration.grid, spec_of(calibration.grid)
    keep, shown = calibration.keep.capitalize(), listed(entries, lambda entry: cells_of(*entry))
    made = cells_of(grid, merged_before_bridges(calibration, entries))
    page.holds(f"merged {keep} {spec} {shown}", made)
    page.holds(f"grid_in (fold with_entry (no_entries {keep} {spec}) {shown})", made)
    one = cells_of(grid, merged_before_bridges(calibration, entries[:1]))
    page.holds(f"cut_to {spec} {cells_of(*entries[0])}", one)
    outputs, summary = reference.merge_texts(calibration, entries)
    written = {ending: data for ending, data, _ in outputs}
    heights, report = text(written[".asc"]), option(written.get(".csv"), text)
    answer = record(heights=heights, report=report, summary=text(summary))
    page.holds(f"merge_texts {plan_of(names, calibration)} {shown}", answer)


def held_of(files, names):
    """What is held of files with these names."""
    held = "(λ _. None)"
    for name in dict.fromkeys(it for it in names if it in files):
        held = f"(put {text(name)} {text(files[name])} {held})"
    return held


def entries(draw):
    """What a merge writes whose grids are held as files, or the line of the first refusal."""
    page = Page(
        "entries",
        {
            "sgm_base.Values": "",
            "sgm_io.Held": "put",
            **SETTINGS,
            "sgm_grid.Asc": "",
            "sgm_grid.Bridges": "",
            **REGIONS,
            "sgm_merge.Merged": "",
            "sgm_words.specs.declared.files.Output.TheVariants": "Heights Report",
            "sgm_outcome.specs.declared.outcome.Outcome.TheVariants": "Usage Refused ReadFault",
            "sgm_outcome.Lines": "line_of",
            "sgm_stages.Merging": "",
            "sgm_stages.Outputs": "OutputFile",
            "sgm_stages.Verdict": "Verdict usage absent refused files plan_carried_out",
        },
        COLUMNS + "abbrev with_line : Verdict → Result (List OutputFile × List ℕ) (List ℕ)\n"
        "with_line (usage fault) = Err (line_of (Usage fault))\n"
        "with_line (absent input) = Err (line_of (ReadFault input))\n"
        "with_line (refused refusal) = Err (line_of (Refused refusal))\n"
        "with_line (files outputs summary) = Ok (outputs, summary)\n",
    )
    for case, files, found in small_merges():
        if found and sum(len(files.get(name, b"")) for name in found[0]) <= 420:
            asked = f"{text('o')} {held_of(files, found[0])} (Ok {plan_of(*found)})"
            page.holds(f"with_line (plan_carried_out {asked})", ending_of(case))
    return page


def ending_of(case):
    """What a merge writes and prints, or the line of its refusal."""
    shelf, status, line = merge_cases.ran(case)
    if status:
        return f"(Err {text(line)})"
    files = [
        record(output=output, name=text(name), text=text(shelf.held[name]))
        for name, output in zip(MERGED, ("Heights", "Report"))
        if name in shelf.held
    ]
    return f"(Ok ({listed(files, str)}, {text(shelf.out)}))"


PAGES = [energies, certificates, penalties, codes, selection, refinement, rectification, points, poses, grids]
PAGES += [readings, changes, reports, calibrations, words, texts, surveys, calls, lists]
PAGES += [names, merges, entries]


def write_pages(folder, is_wrong):
    titles, count = [], 0
    for make in PAGES:
        page = make(random.Random(20261127))
        count += page.write(folder, is_wrong)
        titles.append(page.title.capitalize())
    with open(os.path.join(folder, "Lib.antt"), "w", encoding="utf-8") as file:
        file.write("".join(f"pub mod {title}\n" for title in titles))
    print(f"definitions: {count} equations on {len(titles)} pages")


def main():
    parser = argparse.ArgumentParser(description=__doc__.split("\n\n")[0], epilog="Example: tests/definitions.py proofs")
    parser.add_argument("folder", metavar="FOLDER", help="where the pages go; it has to be there")
    parser.add_argument("--wrong", action="store_true", help="make one right side on each page false")
    words = parser.parse_args()
    try:
        write_pages(words.folder, words.wrong)
    except OSError as error:
        sys.exit(f"definitions: {error}")


if __name__ == "__main__":
    main()
