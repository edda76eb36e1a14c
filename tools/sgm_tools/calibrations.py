"""What tools read in a calibration, and how they write one. Numbers are Python's own."""

from __future__ import annotations

import argparse
import json

from sgm_tools.grids import Grid
from sgm_tools.kinds import Json, Size
from sgm_tools.running import Wrong


def whole(top: Json, *keys: str) -> int:
    """The whole number that stands at these keys of a calibration."""
    value: object = top
    for key in keys:
        value = value.get(key) if isinstance(value, dict) else None
    if isinstance(value, bool) or not isinstance(value, int):
        raise Wrong(f"the calibration has no whole number at {'.'.join(keys)}")
    return value


def regions_in(calibration: Json) -> list[Json]:
    listed = calibration.get("regions", [])
    if not isinstance(listed, list):
        raise Wrong("the calibration's regions aren't a list")
    if not all(isinstance(region, dict) for region in listed):
        raise Wrong("a region of the calibration isn't an object")
    return listed


def check_grid(calibration: Json, grid: Grid) -> None:
    """Stops where the calibration's grid isn't that of the heights."""
    rows, cols = grid.heights.shape
    theirs = [whole(calibration, "grid", key) for key in ("west", "south", "cell", "cols", "rows")]
    if theirs != [grid.west, grid.south, grid.cell, cols, rows]:
        raise Wrong("the calibration's grid isn't that of the heights: is it the calibration of this survey?")
    for region in regions_in(calibration):
        col, row, across, down = (whole(region, key) for key in ("col", "row", "cols", "rows"))
        if not (0 <= col < cols and 0 <= row < rows and 1 <= across <= cols - col and 1 <= down <= rows - row):
            raise Wrong("a region of the calibration sticks out of the grid")


def calibration_text(calibration: Json) -> str:
    """JSON with one line for each key of the top, and no longer than needed."""
    lines = [
        f"{json.dumps(key)}:{json.dumps(value, separators=(',', ':'))}"
        for key, value in calibration.items()
    ]
    return "{" + ",\n ".join(lines) + "}\n"


# Settings of the matching


# P1 and P2 where --penalties doesn't give them. One that follows the image is divided by differences of grey values,
# so it begins higher.
PENALTIES, ADAPTED_PENALTIES = (10, 120), (10, 400)
# The same of version 3, for a window of 9 x 7.
THIRD_PENALTIES, THIRD_ADAPTED = (25, 100), (25, 1200)


def settings_of(words: argparse.Namespace, span: dict[str, int], census: Size) -> Json:
    """The sections of the matching, in the version that is asked for; the window is a width and a height."""
    width, height = census
    window = {"width": width, "height": height}
    if words.version == 3:
        usual = THIRD_ADAPTED if words.adapt else THIRD_PENALTIES
        p1, p2 = words.penalties or (in_proportion(it, width * height - 1) for it in usual)
        penalties = {"p1": p1, "p2": p2, "adapt": words.adapt}
        return {"version": 3, "disparities": {**span, "fine": not words.no_fine}, "census": window, "penalties": penalties}
    p1, p2 = words.penalties or (ADAPTED_PENALTIES if words.adapt else PENALTIES)
    penalties = {"p1": p1, "p2": p2} | ({"adapt": True} if words.adapt else {})
    return {"version": 2 if words.adapt else 1, "disparities": span, "census": window, "penalties": penalties}


def in_proportion(penalty: int, neighbours: int) -> int:
    """A penalty of a window of 9 x 7, which has 62 neighbours, for one with others."""
    return max(1, (penalty * neighbours + 31) // 62)
