#!/usr/bin/env python3
"""Turns an OpenCV stereo calibration into a calibration of sgm: meshes, camera, disparities, grid and regions.

    tools/opencv_calibration.py FILE.. --unit mm --near N --far N --mount N --out calibration.json

FILE is JSON, or YAML or XML as cv2.FileStorage writes it; several files are taken together. They have the
camera matrices, the distortions (4, 5, 8, 12 or 14 numbers, the tilt of the sensor being 0), R and T as
cv2.stereoCalibrate and tools/calibrate_pair.py give them, the first camera being the left one, under the
names M1 D1 M2 D2 (or K1 K2, or cameraMatrix1 distCoeffs1 and so on), R, T, and the size of the pictures as
imageSize (or image_width and image_height, or --size WxH). In JSON a matrix is a list of rows or of numbers.
Where R1 R2 P1 P2 of cv2.stereoRectify are there too, they are used as they are, unless --centred or --alpha
asks for others; else they are computed.
--unit says in which unit T is.

--mount is the left camera's height above the place where heights are 0, --near and --far bound the
distances that are measured. All three are micrometres, along the axis of the rectified cameras. The
disparities are those of the distances from near to far, where --first and --count don't say otherwise.
With --adapt the penalty P2 follows the image: that is a calibration of version 2. With --version 3 it is one of version 3,
whose costs hold where texture is faint or the picture noisy, with the penalties that are recommended for it: 25 and 100, or
with --adapt 25 and 1200, for other windows than 9 x 7 in proportion. Its disparities are made finer by the grey values; with
--no-fine they aren't, and then it is no calibration for volumes. The cells of its grid keep the mean of their points, or
with --keep highest the highest one, and heights are bridged over two cells, or over as many as --bridge says.

In version 3 a region may be bounded by an outline: --outline NAME=FILE takes it from GeoJSON, or,
with Debian's python3-gdal, from a GeoPackage, a Shapefile or what else OGR reads, and --outline
NAME=E0,N0,E1,N1,.. from its corners in micrometres. A file has metres in the grid's frame, or in
that frame moved by --outline-origin. Holes and several parts become one outline, with seams that
are run twice. The region's rectangle is the least one that holds the outline. Each region has a
base plane: its height at the grid's south-west corner and its rises to the east and to the north in
micrometres a metre. --plane NAME says it for one region; --base-from OUT.asc CALIB.json gives all
others the plane that lies nearest to the cells of an earlier match, by least squares over its
regions whose name begins with `ground`. Else it is level, at the BASE of --region, or at 0.

With --version 3 --pose CALIB.json gives it the pose of an earlier calibration, as tools/site_pose.py has written
it: so the grid and its regions can be laid in the site's frame, which is known behind the first match. The camera
has to be the same one.

Needs numpy, and OpenCV's package (cv2) for YAML, for XML, and where a rectification has to be computed.
"""

import argparse
import functools
import re
from collections.abc import Iterable
from typing import Any

from sgm_tools.calibrations import calibration_text, settings_of
from sgm_tools.kinds import Json
from sgm_tools.opencv import (
    MICROMETRES,
    View,
    camera_of,
    cost,
    disparities_of,
    finest_needed,
    read_calibration,
    rectification,
)
from sgm_tools.outlines import base_from, is_beyond, outline_from
from sgm_tools.poses import pose_from
from sgm_tools.regions import MOST_RISE, is_in_range, least_rectangle, number_of_cells
from sgm_tools.running import Wrong, need, numpy, run
from sgm_tools.words import (
    add_settings,
    check_settings,
    metres_word,
    number_word,
    parser_of,
    sides_word,
    whole_word,
)

# The ranges of a grid's numbers, and of a region's base.
GRID = {
    "WEST": (-2000000000, 2000000000),
    "SOUTH": (-2000000000, 2000000000),
    "CELL": (1, 1000000000),
    "COLS": (1, 4096),
    "ROWS": (1, 4096),
}
BASE = (-2000000000, 2000000000)
# What cells keep and over how many is bridged where --keep and --bridge don't say it: so volumes are best.
KEEP, BRIDGE = "mean", 2
MOST_REGIONS = 1000
LONGEST = 16777216


# The calibration


def grid_of(words: argparse.Namespace) -> Json:
    """The grid's numbers, and in version 3 how points become its cells."""
    grid = dict(zip(("west", "south", "cell", "cols", "rows"), words.grid))
    if words.version != 3:
        return grid
    keep, bridge = words.keep or KEEP, BRIDGE if words.bridge is None else words.bridge
    return {**grid, "keep": keep, "bridge": bridge}


def region_of(values: Iterable[object]) -> Json:
    return dict(zip(("name", "col", "row", "cols", "rows", "base"), values))


def regions_of(words: argparse.Namespace) -> tuple[list[Json], list[str]]:
    """The regions, those with outlines last, and lines about them."""
    made, lines = [region_of(values) for values in words.region], list[str]()
    if words.version != 3 or words.grid is None:
        return made, lines
    grid, taken = grid_of(words), None
    for name, source in words.outline:
        outline = outline_from(name, source, words.outline_origin)
        least = least_rectangle(outline, grid)
        if least is None:
            raise Wrong(f"the outline {name} lies beyond the grid")
        if is_beyond(outline, grid):
            lines.append(f"the outline {name} reaches beyond the grid: what lies there has no part")
        made.append({**region_of([name, *least, 0]), "outline": outline})
    if words.base_from is not None:
        heights, earlier = words.base_from
        taken, said = base_from(heights, earlier, grid)
        lines.append(said)
    planes = dict(words.plane)
    for region in made:
        base, east, north = planes.get(region["name"], taken or (region["base"], 0, 0))
        bound = {"outline": region.pop("outline")} if "outline" in region else {}
        region |= {"base": base, "rise_east": east, "rise_north": north, **bound}
        if abs(base) > BASE[1] or not is_in_range(region, grid):
            raise Wrong(
                f"the base of the region {region['name']} leaves the range of heights"
                " within its rectangle"
            )
        if bound and not number_of_cells(region, grid):
            lines.append(f"no cell's middle lies in the outline {region['name']}")
    return made, lines


# Outlines and planes


def calibration(parts: Json, words: argparse.Namespace) -> tuple[Json, str]:
    """The calibration, and the lines about it."""
    r1, r2, p1, p2 = rectification(parts, words.centred, words.alpha)
    camera = camera_of(p1, p2, MICROMETRES[words.unit], words.mount, words.near, words.far)
    span = disparities_of(camera, words.first, words.count)
    views, size = [View(parts["K1"], parts["D1"], r1, p1), View(parts["K2"], parts["D2"], r2, p2)], parts["size"]
    costs = cost(size, span["count"], words.grid, words.version)
    if words.step is None:
        step, worst = finest_needed(views, size)
    else:
        step, worst = words.step, max(view.deviation(size, words.step) for view in views)
    whole = {
        **settings_of(words, span, words.census),
        "warp": {side: view.mesh(size, step) for side, view in zip(("left", "right"), views)},
        "camera": camera,
    }
    if words.pose is not None:
        whole["pose"] = pose_from(words.pose, camera)
    if words.grid is not None:
        whole["grid"] = grid_of(words)
    regions, said = regions_of(words)
    if regions:
        whole["regions"] = regions
    line = (
        f"{size[0]} x {size[1]}, focal length {camera['focal'] / 256:.2f} pixels, "
        f"baseline {camera['baseline']} micrometres, "
        f"disparities {span['first']} to {span['first'] + span['count'] - 1}, "
        f"meshes of step {step} within {worst:.3f} pixels"
    )
    return whole, "\n".join([line, costs, *said])


# Words


def region_words(values: list[str], grid: list[int] | None) -> list[Any]:
    """A region's name and numbers from its words."""
    name, *words = values
    if grid is None:
        raise argparse.ArgumentTypeError("a region is of a grid, and --grid isn't given")
    made: list[Any] = [checked_name(name)]
    for key, word in zip(("COL", "ROW", "COLS", "ROWS", "BASE"), words):
        try:
            made.append(whole_word(*range_of(key, made, grid))(word))
        except argparse.ArgumentTypeError as error:
            raise argparse.ArgumentTypeError(f"{key} {error}")
    return made


def outline_words(word: str) -> tuple[str, str]:
    """An outline's name, and its file or its numbers."""
    name, sign, source = word.partition("=")
    if not sign or not source:
        raise argparse.ArgumentTypeError(f"{word} isn't NAME=FILE or NAME=E0,N0,E1,N1,..")
    return checked_name(name), source


def plane_words(values: list[str], names: list[str]) -> tuple[str, tuple[int, ...]]:
    """A plane's name and numbers from its words."""
    name, *words = values
    if name not in names:
        raise argparse.ArgumentTypeError(f"no region has the name {name}")
    made = []
    for key, word, most in zip(
        ("BASE", "RISE_EAST", "RISE_NORTH"), words, (BASE[1], *2 * [MOST_RISE])
    ):
        try:
            made.append(whole_word(-most, most)(word))
        except argparse.ArgumentTypeError as error:
            raise argparse.ArgumentTypeError(f"{key} {error}")
    return name, tuple(made)


def checked_name(name: str) -> str:
    if not re.fullmatch("[A-Za-z0-9 _.-]{1,64}", name):
        raise argparse.ArgumentTypeError(f"NAME {name!r} isn't 1 to 64 letters, digits, spaces, _, - and .")
    return name


def range_of(key: str, made: list[Any], grid: list[int]) -> tuple[int, int]:
    """The range of a region's number, given its name and the numbers before it."""
    _, _, _, cols, rows = grid
    if key == "BASE":
        return BASE
    if key in ("COL", "ROW"):
        return 0, (cols if key == "COL" else rows) - 1
    return 1, cols - made[1] if key == "COLS" else rows - made[2]


def words_of() -> argparse.Namespace:
    """The words, in their ranges: what the program would refuse in its calibration is refused here."""
    epilog = """example:
  tools/opencv_calibration.py intrinsics.yml extrinsics.yml --size 1280x960 --unit mm \\
      --near 6000000 --far 9000000 --mount 8500000 --grid -6000000 -5000000 50000 240 200 \\
      --region pile 20 30 120 110 0 --region ground 160 40 40 60 0 --out calibration.json"""
    parser = parser_of(__doc__, epilog)
    option = parser.add_argument
    option("files", nargs="+", metavar="FILE", help="JSON, or YAML or XML of cv2.FileStorage")
    option("--out", required=True, metavar="FILE.json", help="the calibration of sgm")
    option("--unit", required=True, choices=MICROMETRES, help="the unit of T")
    distance, least = whole_word(1, 2000000000), "the least distance that is measured"
    option("--near", required=True, type=distance, metavar="MICROMETRES", help=least)
    option("--far", required=True, type=distance, metavar="MICROMETRES", help="the greatest one")
    height = "the left camera's height above the place where heights are 0"
    option("--mount", required=True, type=whole_word(0, 2000000000), metavar="MICROMETRES", help=height)
    sides = sides_word(range(1, 4097), range(1, 4097))
    option("--size", type=sides, metavar="WxH", help="of the pictures, where the files don't have it")
    option("--first", type=whole_word(-1024, 1024), help="the first disparity, in place of that of --far")
    option("--count", type=whole_word(1, 256), help="how many disparities, in place of those up to --near")
    window = sides_word((3, 5, 7, 9), (3, 5, 7))
    option("--census", type=window, default=(9, 7), metavar="WxH", help="the window: 3, 5, 7, 9 by 3, 5, 7 (9x7)")
    add_settings(parser)
    follows = "let P2 follow the image: a jump costs less where the grey values differ"
    option("--adapt", action="store_true", help=follows)
    names = tuple(GRID)
    option("--grid", type=int, nargs=5, metavar=names, help="of heights: lower left corner and cell in micrometres")
    region = "a rectangle of the grid's cells, counted from the upper left one; may come many times"
    numbers = ("NAME", "COL", "ROW", "COLS", "ROWS", "BASE")
    option("--region", nargs=6, action="append", default=[], metavar=numbers, help=region)
    outline = "with --version 3: a region bounded by an outline; may come many times"
    option("--outline", action="append", default=[], metavar="NAME=FILE", help=outline)
    origin = "where in the files of outlines the grid's frame begins, in metres (0 0)"
    origin_word = functools.partial(metres_word, signs="-")
    option("--outline-origin", type=origin_word, nargs=2, metavar=("EAST", "NORTH"), help=origin)
    plane = "with --version 3: the base plane of the region NAME; may come many times"
    rises = ("NAME", "BASE", "RISE_EAST", "RISE_NORTH")
    option("--plane", nargs=4, action="append", default=[], metavar=rises, help=plane)
    ground = (
        "with --version 3: the base plane of all other regions is that of the ground of this match"
    )
    option("--base-from", nargs=2, metavar=("OUT.asc", "CALIB.json"), help=ground)
    pose = "with --version 3: the pose that this calibration has, of the same camera"
    option("--pose", metavar="CALIB.json", help=pose)
    keep = f"with --version 3 and --grid: what a cell keeps of its points ({KEEP})"
    option("--keep", choices=("highest", "mean"), help=keep)
    bridge = f"with --version 3 and --grid: over how many cells heights are bridged, 0 to 8 ({BRIDGE})"
    option("--bridge", type=whole_word(0, 8), metavar="CELLS", help=bridge)
    option("--step", type=whole_word(2, 1024), metavar="PIXELS", help="of the meshes; chosen if not given")
    option("--centred", action="store_true", help="each picture about its own middle; doffs says by how much these differ")
    option("--alpha", type=number_word(0, 1), help="of cv2.stereoRectify: 0 fills the picture, 1 loses nothing")
    words = parser.parse_args()
    check_words(parser, words)
    read_regions(parser, words)
    words.outline_origin = words.outline_origin or (0, 0)
    return words


def check_words(parser: argparse.ArgumentParser, words: argparse.Namespace) -> None:
    """Ends where the words don't belong together, or are out of their ranges."""
    if words.near > words.far:
        parser.error("--near is above --far")
    check_settings(parser, words)
    if words.pose is not None and words.version != 3:
        parser.error("--pose: needs --version 3")
    for name in ("keep", "bridge"):
        if getattr(words, name) is not None and (words.version != 3 or words.grid is None):
            parser.error(f"--{name}: needs --version 3 and --grid")
    for (name, (low, high)), value in zip(GRID.items(), words.grid or ()):
        if not low <= value <= high:
            parser.error(f"--grid: {name} {value} isn't from {low} to {high}")
    for name in ("outline", "outline_origin", "plane", "base_from"):
        if getattr(words, name) and (words.version != 3 or words.grid is None):
            parser.error(f"--{name.replace('_', '-')}: needs --version 3 and --grid")
    if len(words.region) + len(words.outline) > MOST_REGIONS:
        parser.error(
            f"--region: {len(words.region) + len(words.outline)} of them, {MOST_REGIONS} at most"
        )


def read_regions(parser: argparse.ArgumentParser, words: argparse.Namespace) -> None:
    """Reads the words of regions, outlines and planes; ends where one isn't what it should be."""
    try:
        words.region = [region_words(values, words.grid) for values in words.region]
    except argparse.ArgumentTypeError as error:
        parser.error(f"--region: {error}")
    try:
        words.outline = [outline_words(word) for word in words.outline]
    except argparse.ArgumentTypeError as error:
        parser.error(f"--outline: {error}")
    names = [str(values[0]) for values in words.region] + [name for name, _ in words.outline]
    for name, _ in words.outline:
        if names.count(name) > 1:
            parser.error(f"--outline: {names.count(name)} regions have the name {name}")
    try:
        words.plane = [plane_words(values, names) for values in words.plane]
    except argparse.ArgumentTypeError as error:
        parser.error(f"--plane: {error}")


def main() -> None:
    words = words_of()
    need(numpy=numpy)
    try:
        with numpy.errstate(all="ignore"):
            whole, lines = calibration(read_calibration(words.files, words.size), words)
    except (ArithmeticError, ValueError, numpy.linalg.LinAlgError) as error:
        raise Wrong(f"no cameras have these numbers: {error}")
    text = calibration_text(whole)
    if len(text) > LONGEST:
        raise Wrong(f"the file would be too long, {len(text)} bytes: give a larger --step")
    with open(words.out, "w") as file:
        file.write(text)
    print(lines)


def command() -> None:
    run(main)


if __name__ == "__main__":
    command()
