"""Outlines of regions, from words, from GeoJSON and from what OGR reads, and the plane of the ground of an earlier
match."""

from __future__ import annotations

import decimal
import json
import re
from collections.abc import Iterator, Sequence
from typing import Any

from sgm_tools.calibrations import check_grid
from sgm_tools.exact import rounded
from sgm_tools.files import read_bytes, read_json
from sgm_tools.grids import read_grid
from sgm_tools.kinds import Json
from sgm_tools.regions import (
    LEAST_NUMBERS,
    MOST_LENGTH,
    MOST_NUMBERS,
    MOST_RISE,
    Plane,
    base_at,
    ground_cells,
)
from sgm_tools.running import Wrong, package

# A ring's places as a file has them, a corner in micrometres, and a polygon's name with its geometry.
Ring = list[tuple[Any, ...]]
Corner = tuple[int, int]
Feature = tuple[object, object]

# No corner of an outline is farther from the origin of the grid's frame, to the east or to the
# north.
FARTHEST_CORNER = MOST_LENGTH


def rings_of(geometry: object, name: str) -> list[Ring]:
    """The rings of a polygon's or of several polygons' coordinates."""
    given = geometry if isinstance(geometry, dict) else {}
    kind = given.get("type")
    found: Any = given.get("coordinates") if kind in ("Polygon", "MultiPolygon") else None
    polygons = [found] if kind == "Polygon" else found
    try:
        return [[tuple(place[:2]) for place in ring] for polygon in polygons for ring in polygon]
    except TypeError:
        raise Wrong(f"{name}: not a polygon")


def json_features(name: str) -> Iterator[Feature]:
    """The names and geometries of a GeoJSON file; its numbers are decimals, so nothing is
    rounded."""
    text = read_bytes(name)
    try:
        top = json.loads(
            text.decode("utf-8-sig"), parse_float=decimal.Decimal, parse_int=decimal.Decimal
        )
    except (ValueError, RecursionError) as error:
        raise Wrong(f"{name}: not JSON: {error}")
    kind = top.get("type") if isinstance(top, dict) else None
    listed = top.get("features") if kind == "FeatureCollection" else [top]
    if (
        not isinstance(listed, list)
        or not all(isinstance(it, dict) for it in listed)
        or kind is None
    ):
        raise Wrong(f"{name}: not GeoJSON")
    for it in listed:
        is_feature = it.get("type") == "Feature"
        properties = it.get("properties") if is_feature else None
        said = properties.get("name") if isinstance(properties, dict) else None
        yield said, it.get("geometry") if is_feature else it


def ogr_features(name: str) -> Iterator[Feature]:
    """The same of what OGR reads."""
    with open(name, "rb"):
        pass
    ogr = package("osgeo.ogr")
    if ogr is None:
        raise Wrong(
            f"{name}: GDAL of Python needed: apt-get install python3-gdal on Debian,"
            " or save it as GeoJSON"
        )
    ogr.UseExceptions()
    try:
        source = ogr.Open(name)
        if source is None:
            raise Wrong(f"{name}: OGR can't read it")
        # A layer and a feature belong to their source, which has to stay.
        layers = [source.GetLayer(number) for number in range(source.GetLayerCount())]
        for layer in layers:
            for feature in layer:
                keys = {key.lower(): value for key, value in feature.items().items()}
                geometry = feature.GetGeometryRef()
                text = (
                    "null"
                    if geometry is None
                    else geometry.ExportToJson(["COORDINATE_PRECISION=9"])
                )
                yield keys.get("name"), json.loads(text, parse_float=decimal.Decimal)
    except RuntimeError as error:
        raise Wrong(f"{name}: OGR can't read it: {error}")


def micrometres_of(
    place: Sequence[object], origin: Sequence[decimal.Decimal | int], name: str
) -> Corner:
    """Whole micrometres of metres, less the origin."""
    made = []
    for value, zero in zip(place, origin):
        if (
            isinstance(value, bool)
            or not isinstance(value, (int, decimal.Decimal))
            or not abs(decimal.Decimal(value)) < 10**9
        ):
            raise Wrong(f"{name}: a corner isn't two numbers")
        away = decimal.Decimal(value) - zero
        made.append(int((away * 1000000).to_integral_value(decimal.ROUND_HALF_EVEN)))
    if len(made) != 2:
        raise Wrong(f"{name}: a corner isn't two numbers")
    return made[0], made[1]


def joined(rings: Sequence[list[Corner]]) -> list[Corner]:
    """The rings as one: from the first one's begin to each other one and back, by seams that are
    run twice."""
    first, *others = rings
    made = list(first)
    for ring in others:
        made += [first[0], *ring, ring[0]]
    return made


def outline_from(name: str, source: str, origin: Sequence[decimal.Decimal | int]) -> list[int]:
    """The numbers of an outline, of its words or of a file."""
    if re.fullmatch("-?[0-9]+(,-?[0-9]+)*", source):
        outline = [int(word) for word in source.split(",")]
        if len(outline) % 2:
            raise Wrong(
                f"the outline {name} has {len(outline)} numbers,"
                " an east and a north for each corner are needed"
            )
    else:
        is_json = source.lower().endswith((".json", ".geojson"))
        features = list(json_features(source) if is_json else ogr_features(source))
        if len(features) != 1:
            features = [it for it in features if it[0] == name]
        if len(features) != 1:
            many = len(features) or "no"
            raise Wrong(
                f"{source}: {many} polygons have the name {name};"
                " one is needed, or a file of one polygon"
            )
        rings = []
        for ring in rings_of(features[0][1], source):
            corners = [micrometres_of(place, origin, source) for place in ring]
            # A ring comes back to its first corner, which an outline does by itself.
            rings.append(
                corners[:-1] if len(corners) > 1 and corners[0] == corners[-1] else corners
            )
        if not rings or not all(rings):
            raise Wrong(f"{source}: not a polygon")
        outline = [number for corner in joined(rings) for number in corner]
    if not LEAST_NUMBERS <= len(outline) <= MOST_NUMBERS:
        raise Wrong(f"the outline {name} has {len(outline) // 2} corners, 3 to 1000 are needed")
    if max(abs(it) for it in outline) > FARTHEST_CORNER:
        raise Wrong(
            f"the outline {name} is farther than 2 km from the grid's origin:"
            " --outline-origin moves it"
        )
    return outline


def is_beyond(outline: Sequence[int], grid: Json) -> bool:
    """Whether a part of the outline lies beyond the grid."""
    for part, side, count in ((outline[::2], "west", "cols"), (outline[1::2], "south", "rows")):
        if min(part) < grid[side] or max(part) > grid[side] + grid[count] * grid["cell"]:
            return True
    return False


# Planes


def base_from(heights: str, earlier: str, grid: Json) -> tuple[tuple[int, int, int], str]:
    """The plane of the ground of an earlier match, at this grid's south-west corner, and a line
    about it."""
    calibration, found = read_json(earlier), read_grid(heights)
    check_grid(calibration, found)
    cells = list(ground_cells(calibration, found))
    plane = Plane(cells).fitted(found.cell)
    if plane is None:
        raise Wrong(
            f"{heights}: the regions of {earlier} whose name begins with ground"
            " have no cells for a plane"
        )
    base, east, north = plane
    if max(abs(east), abs(north)) > MOST_RISE:
        raise Wrong(f"{heights}: the ground rises by more than one to one")
    own = {"base": base, "rise_east": east, "rise_north": north}
    away = [
        abs(height - base_at(own, {"cell": found.cell}, col, row))
        for col, row, height in cells
    ]
    moved = east * (grid["west"] - found.west) + north * (grid["south"] - found.south)
    base += rounded(moved, 1000000)
    said = f"plane of {len(cells)} cells of the ground: {base}, "
    said += f"rises {east} to the east and {north} to the north; "
    return (
        base,
        east,
        north,
    ), said + f"its cells lie {sum(away) // len(away)} micrometres from it in the mean"
