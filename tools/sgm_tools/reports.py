"""The tables of a match and of a change: OUT.csv. Numbers are Python's own, whole micrometres and cubic
micrometres."""

from __future__ import annotations

import csv
import io
import re
from typing import Any

from sgm_tools.files import read_bytes
from sgm_tools.running import Wrong

# A line of a report: the region's name, and whole numbers or None.
Line = dict[str, Any]

REPORT_NAMES = ("region", "cells", "empty", "fill", "cut", "lowest", "highest")
# Those of a report of version 3, which counts the cells that are bridged.
BRIDGED_NAMES = ("region", "cells", "bridged", "empty", "fill", "cut", "lowest", "highest")


def names_in_report(text: str, name: str) -> tuple[str, ...]:
    """The names in the head of a report's text."""
    first = tuple(text.partition("\n")[0].rstrip("\r").split(","))
    if first not in (REPORT_NAMES, BRIDGED_NAMES):
        raise Wrong(f"{name}: not a report of sgm")
    return first


def read_report(name: str) -> list[Line]:
    """OUT.csv: a dict for each region by the names of its head, which has `bridged` or hasn't; its
    numbers are Python's own, lowest and highest None where it has no cells."""
    text = read_bytes(name).decode("ascii", "replace")
    names_in_report(text, name)
    try:
        lines = list(csv.DictReader(io.StringIO(text)))
    except csv.Error as error:
        raise Wrong(f"{name}: {error}")
    return [report_line(line, f"{name}: line {number} isn't one of a report") for number, line in enumerate(lines, 2)]


def report_line(line: dict[str, Any], complaint: str) -> Line:
    made = {"region": line["region"]}
    # What is more than the head has names for stands under None.
    if None in line:
        raise Wrong(complaint)
    for key in list(line)[1:]:
        word = line[key]
        may_be_empty = key in ("lowest", "highest")
        if word is None or not re.fullmatch("-?[0-9]+" + ("|" if may_be_empty else ""), word):
            raise Wrong(complaint)
        made[key] = int(word) if word else None
    return made


# Changes


VOLUME_NAMES = ("both", "come", "gone", "empty", "fill", "cut")


def read_volumes(name: str) -> dict[str, int]:
    """OUT.csv of a change, a dict of Python's own numbers."""
    lines = read_bytes(name).decode("ascii", "replace").splitlines()
    if len(lines) != 2 or lines[0] != ",".join(VOLUME_NAMES) or not re.fullmatch("[0-9]+(,[0-9]+){5}", lines[1]):
        raise Wrong(f"{name}: not the volumes of a change of sgm")
    return dict(zip(VOLUME_NAMES, map(int, lines[1].split(","))))
