"""Reports and volumes of changes in metres and cubic metres, exactly, and the volumes above the ground."""

from __future__ import annotations

import dataclasses
import json
from collections.abc import Iterable, Iterator, Sequence
from typing import Any

from sgm_tools.calibrations import check_grid, regions_in, whole
from sgm_tools.exact import moved
from sgm_tools.files import read_bytes
from sgm_tools.grids import read_grid
from sgm_tools.kinds import Flags, Ints, Json
from sgm_tools.points import Points, pose_of
from sgm_tools.regions import (
    found_in,
    grid_in,
    ground_spread,
    middle_of,
    number_of_cells,
    outline_of,
    plus_minus,
    rises_of,
    sixteenth_aslant,
    sixteenth_at,
)
from sgm_tools.reports import Line, REPORT_NAMES, VOLUME_NAMES, names_in_report, read_report, read_volumes
from sgm_tools.running import Wrong

# The lines of a table, and the numbers of a report's line: region, cells, empty, fill, cut, lowest, highest.
Table = Sequence[Sequence[object]]
Region = Sequence[Any]

COUNTS = ("cells", "bridged", "empty")
NEW_HEAD = ["fill_m3", "cut_m3", "net_m3", "lowest_m", "highest_m"]
ABOVE_HEAD = ["ground_m", "above_m3"]
PLUS_MINUS_HEAD = ["plus_minus_m3"]
COVERED = (
    "plus_minus_m3 covers noise and how finely the pictures were matched, and neither a wrong calibration"
    " nor upright sides nor what moved between the two pictures"
)
NEW_CHANGE_HEAD = ["both", "come", "gone", "empty", "fill_m3", "cut_m3", "net_m3"]


def is_change(name: str) -> bool:
    """Whether the file has the volumes of a change, and not a report."""
    with open(name, "rb") as file:
        return file.readline().split() == [",".join(VOLUME_NAMES).encode()]


def change_table(volumes: dict[str, int], digits: int | None) -> Table:
    """The table of a change's volumes."""
    *counts, fill, cut = (volumes[key] for key in VOLUME_NAMES)
    return [NEW_CHANGE_HEAD, [*counts, *(moved(volume, 18, digits) for volume in (fill, cut, fill - cut))]]


def table(
    names: Sequence[str], lines: Iterable[Line], digits: int | None
) -> Iterator[list[object]]:
    """The table in metres and cubic metres, of a report with these names."""
    counts = [name for name in COUNTS if name in names]
    yield ["region", *counts, *NEW_HEAD]
    for line in lines:
        fill, cut = line["fill"], line["cut"]
        volumes = [moved(volume, 18, digits) for volume in (fill, cut, fill - cut)]
        heights = [line["lowest"], line["highest"]]
        heights = ["" if height is None else moved(height, 6, digits) for height in heights]
        yield [line["region"], *(line[name] for name in counts), *volumes, *heights]


# Above the ground


def size_of(area: Json, calibration: Json) -> int:
    """How many cells of the region count."""
    if outline_of(area) is None:
        return int(area["cols"] * area["rows"])
    return number_of_cells(area, grid_in(calibration))


@dataclasses.dataclass(frozen=True)
class Ground:
    """The name of the region of flat ground, and the files that say how high it lies: the calibration, and the
    heights where it is asked by how much volumes may be off."""

    name: str
    calibration: str
    heights: str | None = None


class Survey:
    """What the calibration says of the report: the side of a cell, and the regions with their bases."""

    def __init__(self, name: str) -> None:
        self.name, complaint = name, f"{name}: not a calibration of sgm with regions"
        try:
            self.whole = top = json.loads(read_bytes(name).decode("utf-8", "replace"))
            self.cell, areas = top["grid"]["cell"], top["regions"]
            self.names = [area["name"] for area in areas]
            self.sizes = [size_of(area, top) for area in areas]
            self.bases = [area["base"] for area in areas]
            self.rises = [rises_of(area) for area in areas]
        except (ValueError, KeyError, TypeError, RecursionError):
            raise Wrong(complaint) from None
        if not all(type(number) is int for number in [self.cell, *self.bases, *self.sizes]) or self.cell < 1:
            raise Wrong(complaint)

    def is_of(self, regions: Sequence[Region]) -> bool:
        """Whether the report can be one of this calibration's."""
        names = [name for name, *_ in regions]
        sizes = [cells + empty for _, cells, empty, *_ in regions]
        volumes = [volume for region in regions for volume in region[3:5]]
        return (names, sizes) == (self.names, self.sizes) and all(volume % self.cell**2 == 0 for volume in volumes)


def mean_height(region: Region, base: int, cell: int) -> int:
    """The mean height of the region's cells, to the nearest micrometre, halves up."""
    _, cells, _, fill, cut, _, _ = region
    above = (fill - cut) // cell**2
    return base + int((2 * above + cells) // (2 * cells))


def net_above(region: Region, base: int, cell: int, height: int) -> int:
    """The region's volume above that height, less what is missing below it, in cubic micrometres."""
    _, cells, _, fill, cut, _, _ = region
    return int(fill - cut + (base - height) * cells * cell * cell)


def ground_in(regions: Sequence[Region], name: str) -> int:
    """Which of the regions is the ground."""
    grounds = [number for number, region in enumerate(regions) if region[0] == name]
    if len(grounds) != 1:
        raise Wrong(f"{len(grounds) or 'no'} regions have the name {name}, one is needed")
    if regions[grounds[0]][1] == 0:
        raise Wrong(f"the region {name} has no cell with a height")
    return grounds[0]


def is_above(survey: Survey, number: int, ground: int) -> bool:
    """Whether the region is one that is measured above the ground: another one whose base rises as
    the ground's."""
    return number != ground and survey.rises[number] == survey.rises[ground]


def above_ground(
    regions: Sequence[Region], survey: Survey, ground: int, digits: int | None
) -> Iterator[list[str]]:
    """For each region the two words more."""
    height = mean_height(regions[ground], survey.bases[ground], survey.cell)
    for number, (region, base) in enumerate(zip(regions, survey.bases)):
        volume = moved(net_above(region, base, survey.cell, height), 18, digits)
        yield [moved(height, 6, digits), volume if is_above(survey, number, ground) else ""]


def is_of_heights(region: Region, cell: int, found: tuple[Ints, Ints]) -> bool:
    """Whether a region's line can be one of these heights and bases."""
    name, cells, _, fill, cut, _, _ = region
    heights, bases = found
    above = int((heights - bases).sum())
    return (cells, fill - cut) == (heights.size, above * cell * cell)


def uncertain(
    regions: Sequence[Region], survey: Survey, ground: int, heights: str, report: str
) -> Iterator[int | None]:
    """By how much the volume of each region may be off; None for one that isn't measured above the ground."""
    try:
        grid = read_grid(heights)
        check_grid(survey.whole, grid)
        areas, sides = regions_in(survey.whole), grid_in(survey.whole)
        found = [found_in(area, sides, grid.heights, grid.filled) for area in areas]
        if not all(is_of_heights(region, survey.cell, it) for region, it in zip(regions, found)):
            raise Wrong(f"not the heights of which {report} tells")
    except Wrong as error:
        text = str(error)
        raise Wrong(
            text if text.startswith(heights) else f"{heights}: {text}"
        ) from None
    height, spread = ground_spread(*found[ground])
    for number, region in enumerate(regions):
        if not is_above(survey, number, ground):
            yield None
            continue
        sixteenth = sixteenth_of(number, regions, survey, ground, (height, grid.filled))
        yield plus_minus(region[1], survey.cell, sixteenth, spread)


def sixteenth_of(
    number: int,
    regions: Sequence[Region],
    survey: Survey,
    ground: int,
    of_ground: tuple[int, Flags],
) -> int:
    """What a sixteenth of a pixel is in height on the ground of a region. Of the ground there is its height, and
    which of the grid's cells are filled."""
    height, filled = of_ground
    keys = ("focal", "baseline", "mount")
    camera = {key: whole(survey.whole, "camera", key) for key in keys}
    if camera["focal"] < 1 or camera["baseline"] < 1:
        raise Wrong(f"{survey.name}: not a calibration of sgm with a camera")
    if pose_of(survey.whole) is None:
        return sixteenth_at(height, camera)
    points, sides = Points(survey.whole), grid_in(survey.whole)
    areas = regions_in(survey.whole)
    base = mean_height(regions[ground], survey.bases[ground], survey.cell)
    plane = dict(zip(("base", "rise_east", "rise_north"), (base, *survey.rises[ground])))
    middles = [middle_of(areas[at], sides, filled) for at in (number, ground)]
    made = [sixteenth_aslant(it, plane, sides, points) for it in middles if it[0]]
    if None in made:
        raise Wrong(f"{survey.name}: by its pose the camera doesn't look down on the ground")
    return max(it for it in made if it is not None)


def columns_above(
    regions: Sequence[Region], report: str, asked: Ground, digits: int | None
) -> Iterator[Table]:
    """The columns about the ground, each line with its words, the head first."""
    survey = Survey(asked.calibration)
    try:
        if not survey.is_of(regions):
            raise Wrong(f"not the report of a survey by {asked.calibration}")
        ground = ground_in(regions, asked.name)
    except Wrong as error:
        raise Wrong(f"{report}: {error}")
    yield [ABOVE_HEAD, *above_ground(regions, survey, ground, digits)]
    if asked.heights is not None:
        found = uncertain(regions, survey, ground, asked.heights, report)
        yield [PLUS_MINUS_HEAD, *([moved(it, 18, digits) if it is not None else ""] for it in found)]


def made(report: str, asked: Ground | None, digits: int | None) -> Table:
    """All lines of the table of a report, or of the volumes of a change."""
    if is_change(report):
        if asked is not None:
            raise Wrong(f"{report}: the volumes of a change have no ground")
        return change_table(read_volumes(report), digits)
    text = read_bytes(report).decode("ascii", "replace")
    lines = read_report(report)
    blocks: list[Table] = [list(table(names_in_report(text, report), lines, digits))]
    if asked is not None:
        regions = [[line[name] for name in REPORT_NAMES] for line in lines]
        blocks += columns_above(regions, report, asked, digits)
    return [[word for part in parts for word in part] for parts in zip(*blocks)]
