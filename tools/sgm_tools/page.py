"""A survey, or the change between two, as one page for a browser: what the page knows, and its text."""

from __future__ import annotations

import base64
import dataclasses
import datetime
import html
import json
import os
import zlib
from collections.abc import Callable, Sequence

from sgm_tools import calibrations, cells, changes, files, grids, pictures, reports, warps
from sgm_tools import points as sgm_points
from sgm_tools import regions as sgm_regions
from sgm_tools.calibrations import whole
from sgm_tools.exact import rounded
from sgm_tools.kinds import Colour, Flags, Greys, Ints, Json, Samples
from sgm_tools.points import Points
from sgm_tools.running import Wrong, numpy, progress

MOST_CELLS = 4_000_000
LONGEST_SIDE = 1600
# The colour of bridged cells, and how much of it covers theirs.
VIOLET = (150, 40, 220, 150)
# Beyond every height and every change.
BEYOND = 1 << 40
# Longer lists of a calibration are shown by how long they are.
LONGEST_LIST = 9


# The calibration


def regions_of(calibration: Json, report: list[reports.Line]) -> list[Json]:
    """The regions with their lines of the report."""
    listed = calibrations.regions_in(calibration)
    if [region.get("name") for region in listed] != [line["region"] for line in report]:
        raise Wrong("the regions of the calibration aren't those of the report: is it the calibration of this survey?")
    made = []
    for region, line in zip(listed, report):
        numbers: Json = {key: whole(region, key) for key in ("col", "row", "cols", "rows", "base")}
        numbers |= dict(zip(("rise_east", "rise_north"), sgm_regions.rises_of(region)))
        numbers["outline"] = sgm_regions.outline_of(region)
        # As text, since a browser's numbers aren't exact above 2^53.
        line = {**line, "fill": str(line["fill"]), "cut": str(line["cut"])}
        made.append({"name": region["name"], **numbers, "report": line})
    return made


def pose_in(calibration: Json) -> Json | None:
    """The calibration's pose as the page has it, or None."""
    pose = sgm_points.pose_of(calibration)
    return None if pose is None else pose.section()


def setting_words(value: object) -> str:
    """A part of a calibration in words."""
    if isinstance(value, dict):
        return ", ".join(f"{key} {setting_words(it)}" for key, it in value.items())
    if isinstance(value, list) and len(value) > LONGEST_LIST:
        return f"({len(value)} of them)"
    return json.dumps(value).strip('"')


def settings_of(calibration: Json) -> list[list[str]]:
    """What the calibration says beside its regions: each part with its words."""
    return [[key, setting_words(value)] for key, value in calibration.items() if key != "regions"]


def file_made(name: str) -> dict[str, str]:
    """A file's name, and when it was written last."""
    written = datetime.datetime.fromtimestamp(os.path.getmtime(name), datetime.timezone.utc)
    return {"name": os.path.basename(name), "date": f"{written:%Y-%m-%d %H:%M} UTC"}


# How sure cells are


@dataclasses.dataclass
class Tally:
    """What the points of the map make of cells, as arrays: how many fall into each, their mean and highest
    height, and the standard deviation of their heights, all of them about their mean; 0 without points."""

    numbers: Ints
    means: Ints
    highest: Ints
    spreads: Ints


def tallied(row: Ints, col: Ints, up: Ints, shape: Sequence[int]) -> Tally:
    """The tally of points in cells of that shape. Spreads are to the nearest micrometre, halves up, by
    floating point numbers; all else is exact."""
    at = row * shape[1] + col
    order = numpy.argsort(at, kind="stable")
    at, up = at[order], up[order]
    first = numpy.flatnonzero(numpy.diff(at, prepend=-1))
    made = Tally(*(numpy.zeros(shape, numpy.int64) for _ in range(4)))
    if not len(first):
        return made
    numbers = numpy.diff(first, append=len(at))
    means = rounded(numpy.add.reduceat(up, first), numbers)
    off = up - numpy.repeat(means, numbers)
    squares = numpy.add.reduceat(off.astype(float) ** 2, first)
    # The mean was rounded, so the deviations from it leave a rest.
    rest = numpy.add.reduceat(off, first).astype(float)
    spreads = numpy.sqrt((numbers * squares - rest**2).clip(min=0)) / numbers
    found = {"numbers": numbers, "means": means, "highest": numpy.maximum.reduceat(up, first)}
    found["spreads"] = numpy.floor(spreads + 0.5)
    for key, numbers in found.items():
        getattr(made, key).ravel()[at[first]] = numbers
    return made


def strange_cells(calibration: Json, grid: grids.Grid, tally: Tally) -> int:
    """How many cells have a height that isn't that of their points."""
    is_mean, bridge = cells.keeps_mean(calibration), calibration["grid"].get("bridge", 0)
    there = tally.numbers > 0
    strange = there & (grid.heights != (tally.means if is_mean else tally.highest))
    if not bridge:
        strange |= grid.filled & ~there
    return int(strange.sum())


def packed_text(numbers: Ints) -> str:
    """Numbers as 32 bits each, the least byte first, packed and in base 64."""
    return text_of(zlib.compress(numbers.astype("<u4").tobytes()))


# Heights


def block_of(rows: int, cols: int) -> int:
    """The least number of cells that are taken together, on either side, so that few enough are shown."""
    block = 1
    while -(-rows // block) * -(-cols // block) > MOST_CELLS:
        block += 1
    return block


def reduced(grid: grids.Grid, block: int) -> grids.Grid:
    """The grid of the highest cells of blocks, or of their largest changes. Blocks begin at the north-west."""
    if block == 1:
        return grid
    rows, cols = (-(-side // block) for side in grid.heights.shape)

    def of_blocks(beyond: int, end: Callable[..., Ints]) -> Ints:
        heights = numpy.full((rows * block, cols * block), beyond, numpy.int64)
        heights[: grid.heights.shape[0], : grid.heights.shape[1]] = numpy.where(grid.filled, grid.heights, beyond)
        return end(heights.reshape(rows, block, cols, block), axis=(1, 3))

    made = of_blocks(-BEYOND, numpy.max)
    filled = made != -BEYOND
    if grid.nothing == grids.NO_DIFFERENCE:
        lowest = of_blocks(BEYOND, numpy.min)
        made = numpy.where(filled & (-lowest > made), lowest, made)
    south = grid.south - grid.cell * (rows * block - grid.heights.shape[0])
    heights = numpy.where(filled, made, grid.nothing)
    return grids.Grid(grid.west, south, grid.cell * block, heights, filled, grid.nothing)


def heights_text(grid: grids.Grid) -> str:
    """The heights as 32 bits each, the least byte first, in base 64; differences as floating point of 64 bits."""
    is_change = grid.nothing == grids.NO_DIFFERENCE
    if grid.filled.any() and abs(grid.heights[grid.filled]).max() > (4 * 10**9 if is_change else 2**31 - 1):
        raise Wrong("heights beyond what sgm writes")
    return text_of(numpy.where(grid.filled, grid.heights, grid.nothing).astype("<f8" if is_change else "<i4").tobytes())


def bridges_of(calibration: Json, grid: grids.Grid, points: Flags) -> Flags | None:
    """Which cells are bridged, as an array; None where none can be. `points` says which have some."""
    sides = calibration.get("grid", {})
    if calibration.get("version") != 3 or not sides.get("bridge"):
        return None
    if (points & ~grid.filled).any():
        raise Wrong("the heights aren't those of the disparities by this calibration")
    return grid.filled & ~points


def marks_of(bridged: Flags | None) -> dict[str, str | None]:
    """What the page has of bridged cells: a bit each, the least first, and a picture of them
    alone."""
    if bridged is None:
        return {"bridges": None, "bridgeMap": None}
    colours = numpy.zeros((*bridged.shape, 4), numpy.uint8)
    colours[bridged] = VIOLET
    bits = numpy.packbits(bridged.ravel(), bitorder="little")
    return {"bridges": text_of(bits.tobytes()), "bridgeMap": picture_text(colours)}


# Pictures


def text_of(data: bytes) -> str:
    return base64.b64encode(data).decode("ascii")


def picture_text(pixels: Greys, palette: Sequence[Colour] | None = None) -> str:
    return "data:image/png;base64," + text_of(files.png_bytes(pixels, palette))


def thinned(pixels: Greys) -> Greys:
    """Every second, third .. pixel, so that a picture isn't larger than a screen."""
    step = -(-max(pixels.shape[:2]) // LONGEST_SIDE)
    return numpy.ascontiguousarray(pixels[::step, ::step])


def greys(samples: Samples, most: int) -> Greys:
    """Samples as greys of 8 bits. Dark pictures are spread over all of them."""
    brightest = max(1, min(most, int(samples.max())))
    return (samples.astype(numpy.int64) * 255 // brightest).astype(numpy.uint8)


def left_text(name: str) -> str:
    return picture_text(thinned(greys(*files.read_pgm(name))))


def rectified(samples: Samples, calibration: Json) -> Ints:
    """The rectified left picture; 0 where a pixel is void."""
    height, width = samples.shape
    warp, xs = warps.Warp(warps.warp_of(calibration, "left"), width, height), numpy.arange(width)
    rows = [warp.rectified(samples, xs, numpy.full(width, y)) for y in range(height)]
    return numpy.array(rows).clip(min=0)


def control_of(out: str, calibration: Json, left: str) -> Json:
    """The rectified left picture with the samples of OUT.pgm, in full size, and what makes points of them."""
    samples, most = files.read_pgm(left)
    values, filled = files.read_disparities(out + ".pgm")
    if samples.shape != values.shape:
        raise Wrong(f"{left} and {out}.pgm have different sizes: is it the left picture of this survey?")
    progress("rectifying")
    picture = rectified(samples, calibration)
    found = numpy.where(filled, values + 16, 0).astype("<u2")
    return {
        "width": values.shape[1],
        "height": values.shape[0],
        "picture": picture_text(greys(picture, most)),
        "samples": text_of(zlib.compress(found.tobytes())),
        "first": whole(calibration, "disparities", "first"),
        **{key: whole(calibration, "camera", key) for key in sgm_points.CAMERA},
    }


def span_of(calibration: Json, values: Ints, filled: Flags) -> dict[str, int]:
    """The span, and how many disparities are the least or the greatest of it."""
    first, count = whole(calibration, "disparities", "first"), whole(calibration, "disparities", "count")
    found = values[filled]
    return {
        "first": first,
        "count": count,
        "pixels": values.size,
        "valid": int(filled.sum()),
        "least": int((found <= 0).sum()),
        "greatest": int((found >= 16 * (count - 1)).sum()),
    }


# The page


def survey(out: str, calibration: Json, left: str | None, with_control: bool = False) -> Json:
    """Everything that the page knows."""
    has_grid = "grid" in calibration or not with_control
    if has_grid:
        grid = grids.read_grid(out + ".asc")
        calibrations.check_grid(calibration, grid)
    else:
        # One empty cell, which isn't shown.
        nothing = numpy.array([[grids.NO_HEIGHT]])
        grid = grids.Grid(0, 0, 1, nothing, numpy.zeros((1, 1), bool))
    is_change = grid.nothing == grids.NO_DIFFERENCE
    if is_change and with_control:
        raise Wrong("a change has no control points: take the page of one of its surveys")
    rows, cols = grid.heights.shape
    block = block_of(rows, cols)
    known = change_of(out, calibration, grid) if is_change else survey_of(out, calibration, grid, block)
    control = control_of(out, calibration, left) if with_control and left else None
    progress("drawing")
    # Blocks of cells are no bridges.
    marks = marks_of(known.get("bridged") if block == 1 else None)
    shown = reduced(grid, block)
    colours, ends = pictures.drawn(shown)
    change_scale = (pictures.BLUE, (250, 250, 250), pictures.RED)
    return {
        "version": calibration.get("version"),
        "pose": pose_in(calibration),
        "hasGrid": has_grid,
        "gridCols": cols,
        "gridRows": rows,
        "block": block,
        "west": shown.west,
        "south": shown.south,
        "gridSouth": grid.south,
        "cell": shown.cell,
        "cols": shown.heights.shape[1],
        "rows": shown.heights.shape[0],
        "map": picture_text(colours),
        "scale": {"ends": ends, "colours": change_scale if is_change else pictures.SCALE},
        "settings": settings_of(calibration),
        "made": file_made(out + (".asc" if has_grid else ".pgm")),
        "left": left_text(left) if left and not control else None,
        "control": control,
        "heights": heights_text(shown),
        **marks,
        **{key: value for key, value in known.items() if key != "bridged"},
    }


def sure_of(
    calibration: Json, grid: grids.Grid, values: Ints, filled: Flags, block: int
) -> tuple[Json, Flags]:
    """How sure the cells that are shown are, how many have a strange height, and which of the grid have
    points."""
    row, col, up = cells.points_in_grid(values, filled, Points(calibration), grid)
    tally = tallied(row, col, up, grid.heights.shape)
    strange, there = strange_cells(calibration, grid, tally), tally.numbers > 0
    if block > 1:
        tally = tallied(row // block, col // block, up, [-(-side // block) for side in grid.heights.shape])
    texts = {key: packed_text(getattr(tally, key)) for key in ("numbers", "spreads")}
    return {"sure": texts, "strange": strange}, there


def survey_of(out: str, calibration: Json, grid: grids.Grid, block: int) -> Json:
    """What is a survey's alone."""
    report = reports.read_report(out + ".csv") if "regions" in calibration else []
    regions = regions_of(calibration, report)
    values, filled = files.read_disparities(out + ".pgm")
    numbers, _ = pictures.stretched(values, filled)
    sure, points = {"sure": None, "strange": 0}, grid.filled
    if "grid" in calibration:
        progress("counting points")
        sure, points = sure_of(calibration, grid, values, filled, block)
    return {
        "change": None,
        **sure,
        "bridged": bridges_of(calibration, grid, points),
        "camera": {key: whole(calibration, "camera", key) for key in ("focal", "baseline", "mount")},
        "disparities": span_of(calibration, values, filled),
        "regions": regions,
        "disparityMap": picture_text(thinned(numbers), pictures.PALETTE),
    }


def change_of(out: str, calibration: Json, grid: grids.Grid) -> Json:
    """What is a change's alone."""
    said = reports.read_volumes(out + ".csv")
    *tallies, _ = changes.tallies(out, calibration)
    report = []
    for (name, it), (_, at, counts) in zip(tallies, changes.regions_of(calibration, grid)):
        found = grid.heights[at][grid.filled[at] & counts]
        lowest, highest = (int(found.min()), int(found.max())) if it.cells else (None, None)
        numbers = (name, it.cells, it.empty, it.fill, it.cut, lowest, highest)
        report.append(dict(zip(reports.REPORT_NAMES, numbers)))
    regions = regions_of(calibration, report)
    numbers_of_cells = {key: said[key] for key in ("both", "come", "gone")}
    volumes = {key: str(said[key]) for key in ("fill", "cut")}
    darkest = pictures.darkest_of(grid)
    return {
        "sure": None,
        "strange": 0,
        "change": {**numbers_of_cells, "neither": said["empty"], **volumes, "darkest": darkest},
        "regions": [{**region, "base": 0, "rise_east": 0, "rise_north": 0} for region in regions],
        "disparityMap": None,
    }


def page(template: str, title: str, known: Json) -> str:
    """The page's text, by the file `template`. No `<` stands in the data, so nothing there can end them."""
    with open(template, encoding="utf-8") as file:
        text = file.read()
    data = json.dumps(known, separators=(",", ":")).replace("<", "\\u003c")
    return text.replace("@TITLE@", html.escape(title)).replace("@SURVEY@", data)
