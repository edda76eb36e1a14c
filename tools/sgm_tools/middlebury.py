"""The calib.txt of a Middlebury pair."""

import math
import re

from sgm_tools.files import read_bytes
from sgm_tools.running import Wrong

MATRIX = r"\[([^;\]]+);([^;\]]+);([^;\]]+)\]"
FARTHEST = 2000000000


def read_lines(name: str) -> dict[str, str]:
    """The values by their names, as texts."""
    text = read_bytes(name).decode("ascii", "replace")
    found = dict(re.findall(r"^\s*([A-Za-z0-9_]+)\s*=\s*(.*?)\s*$", text, re.M))
    missing = {"cam0", "doffs", "baseline", "ndisp"} - set(found)
    if missing:
        raise Wrong(f"{name}: {' and '.join(sorted(missing))} missing")
    return found


def number(found: dict[str, str], key: str) -> float:
    try:
        value = float(found[key])
    except (KeyError, ValueError):
        value = math.nan
    if not abs(value) <= 1e9:
        raise Wrong(f"{key} isn't a number")
    return value


def rows_of(found: dict[str, str], key: str) -> list[list[float]]:
    """A matrix's rows of numbers."""
    lines = re.fullmatch(MATRIX, found[key])
    try:
        rows = [[float(word) for word in line.replace(",", " ").split()] for line in lines.groups()] if lines else []
    except ValueError:
        rows = []
    if [len(row) for row in rows] != [3, 3, 3] or not all(abs(value) <= 1e9 for row in rows for value in row):
        raise Wrong(f"{key} isn't a matrix of 3 x 3 numbers")
    return rows


def span_of(found: dict[str, str], is_tight: bool) -> dict[str, int]:
    if is_tight:
        first, last = math.floor(number(found, "vmin")), math.ceil(number(found, "vmax"))
    else:
        first, last = 0, math.ceil(number(found, "ndisp")) - 1
    if not (-1024 <= first <= 1024 and 1 <= last - first + 1 <= 256):
        raise Wrong(f"disparities {first} to {last}: at most 256 of them; take the pair in half its size")
    return {"first": first, "count": last - first + 1}
