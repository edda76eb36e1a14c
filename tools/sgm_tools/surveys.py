"""A match as a function: two pictures and a calibration in, arrays out.

    from sgm_tools import survey
    found = survey("left.pgm", "right.pgm", "calibration.json", workers=4)
    found.disparities, found.heights, found.report, found.line

It starts the program `sgm`, which has to be there. Needs numpy. Where the Debian package has brought the tools, this is
found with /usr/share/sgm/tools in PYTHONPATH.
"""

from __future__ import annotations

import dataclasses
import json
import os
import tempfile
from typing import Union

from sgm_tools import programs
from sgm_tools.calibrations import whole
from sgm_tools.certificates import calibration_of
from sgm_tools.files import pgm_bytes, read_disparities
from sgm_tools.grids import Grid, read_grid
from sgm_tools.kinds import Floats, Json, Samples
from sgm_tools.reports import Line, read_report
from sgm_tools.running import need, numpy

# What a picture or a calibration may be given as beside its numbers: the name of its file.
Name = Union[str, "os.PathLike[str]"]


@dataclasses.dataclass(frozen=True)
class Survey:
    """What a match has found.

    `disparities` are pixels, with NaN where a pixel has none. `heights` is the grid with its place, in whole
    micrometres, or None where the calibration has no grid; its metres() are metres, with NaN where a cell is
    empty. `report` has a dict for each region, in whole micrometres and cubic micrometres, and is empty where
    the calibration has no regions. `line` is what the program has printed: `valid N of M`.
    """

    disparities: Floats
    heights: Grid | None
    report: list[Line]
    line: str


def survey(
    left: Samples | Name,
    right: Samples | Name,
    calibration: Json | Name,
    *,
    workers: int = 1,
    strips: int | None = None,
    peak: int = 0,
    fill: bool = False,
    program: Name | None = None,
) -> Survey:
    """Matches two pictures, by the program `sgm` in a folder that goes away again.

    A picture is the name of a binary PGM, or an array of rows, of 8 or 16 bits without a sign. The calibration
    is a dict, or the name of a JSON file, or "-" for the plain settings. Workers match as many strips at a
    time; without `strips` there are four for each worker, or one where there is one worker. Neither changes
    what is found. Segments of fewer than `peak` pixels lose their disparities, and with `fill` pixels without
    one are then filled. The program is the one that `program` names, or the variable SGM, or that of the
    checkout, or the one of the PATH.

    What the program refuses or can't do is a programs.Failed with its line and its status. An array of another
    kind is a TypeError, one without two sides a ValueError, and a program that isn't there an OSError.
    """
    need(numpy=numpy)
    parts = strips if strips is not None else 1 if workers == 1 else min(64, 4 * workers)
    options = [f"strips={parts}", f"workers={workers}", f"peak={peak}", f"fill={int(fill)}"]
    with tempfile.TemporaryDirectory(prefix="sgm-survey.") as folder:
        pictures = [picture_in(it, folder, name) for it, name in ((left, "l"), (right, "r"))]
        calib = calibration_in(calibration, folder)
        out = os.path.join(folder, "o")
        named = os.fspath(program) if program is not None else programs.given_program()
        line = programs.called(named, "match", *pictures, calib, out, *options)
        known = calibration_of(calib)
        return Survey(
            disparities_in(out + ".pgm", whole(known, "disparities", "first")),
            read_grid(out + ".asc") if "grid" in known else None,
            read_report(out + ".csv") if "regions" in known else [],
            line.rstrip("\n"),
        )


def picture_in(picture: Samples | Name, folder: str, name: str) -> str:
    """The name of a picture's file: its own, or of one that is written into the folder."""
    if isinstance(picture, (str, os.PathLike)):
        return os.path.abspath(picture)
    samples = numpy.asarray(picture)
    if samples.dtype.kind != "u" or samples.dtype.itemsize > 2:
        raise TypeError(f"a picture has numbers of 8 or 16 bits without a sign, not {samples.dtype}")
    if samples.ndim != 2:
        raise ValueError(f"a picture has two sides, not {samples.ndim}")
    path = os.path.join(folder, name + ".pgm")
    with open(path, "wb") as file:
        file.write(pgm_bytes(samples))
    return path


def calibration_in(calibration: Json | Name, folder: str) -> str:
    """The same for a calibration; "-" stays."""
    if not isinstance(calibration, dict):
        return "-" if calibration == "-" else os.path.abspath(calibration)
    path = os.path.join(folder, "c.json")
    with open(path, "w", encoding="utf-8") as file:
        json.dump(calibration, file)
    return path


def disparities_in(name: str, first: int) -> Floats:
    """The disparities of OUT.pgm in pixels."""
    values, filled = read_disparities(name)
    made: Floats = numpy.where(filled, first + values / 16, numpy.nan)
    return made
