#!/usr/bin/env python3
"""Makes the pose of a calibration: how the cameras stand in the site's own frame of east, north and up.

    tools/site_pose.py CALIB.json OUT.pgm POINTS.csv [--check NAME,..] [--write OUT.json]
    tools/site_pose.py CALIB.json OUT.pgm --level COL,ROW,COLS,ROWS .. [--height METRES] [--write OUT.json]
    tools/site_pose.py CALIB.json --camera E N H --look E N H [--roll DEGREES] [--write OUT.json]
    tools/site_pose.py CALIB.json --earlier EARLIER.asc LATER.asc [--still NAME,..] [--write OUT.json]

With a pose a camera may look aslant from anywhere, and all surveys of a site are in one frame, in metres from a
point of the site within 2 km. The calibration is one of version 3 with a camera; a pose that it has already is put
aside, but for --earlier. The last line that is printed is the section `pose`, and --write writes the calibration with
it.

From control points. POINTS.csv has the head name,x,y,east,north,up and a line for each target, at least three that
don't lie on one line, better six or more all over the picture and of different heights. x and y are its column and
row in the rectified left picture, in pixels, the middle of the upper left one being 0, 0, with decimals where they
are known; east, north and up its place in metres, as a tachymeter or GNSS gives it. Columns may stand in any order,
and others are passed over. OUT.pgm is a match of the pair, without fill=1: a plane through the disparities in a
window around the place says how far away it is. Places in the photograph as it was before rectification are taken
with --photograph: the rectified place is the one whose source that place is, found in numbers from the warp of the
calibration to a ten-thousandth of a pixel. Rotation and shift are those of least squares, without scale (Horn 1987).
For each point is printed how far the pose leads from its given place, in millimetres; for those of --check too, which
have no part in the pose. The scale is told that the points would want: where it isn't 1 the baseline or the
calibration is off.

From level ground. --level gives pixels of the rectified picture, counted from its upper left; it may stand several
times. The plane through all their points becomes level, at --height. North is upwards in the picture and the origin
below the left camera, so two matches have one frame only where the cameras didn't turn or move sideways.

From a known place. --camera is the middle of the left camera's lens in the site's frame, --look a point on its axis,
which is where the rectified picture shows cx, cy of the calibration, and --roll by how much the camera is turned
clockwise, as seen from behind it. With 0 the right of the picture is level; where the camera looks straight down it is
east.

From an earlier survey. --earlier brings a pose that the calibration has, of targets for instance, into the frame of an
earlier survey of the same grid, by what stayed as it was: EARLIER.asc is that survey, LATER.asc this one, matched with
CALIB.json. Still are the regions whose name begins with `ground`, or those that --still names. The plane through how
much higher LATER.asc lies there is taken off, by a turn about the middle of those cells and a shift upwards. It is one
of least squares, without the cells that lie more than three spreads from it. How far the still cells move is printed in
mm and mm/m, and refused where that is more than --worst. East, north and the turn about the upright are kept.

Coordinates of a map go beyond 2 km. --offset says what the origin of the site's frame has there, and --epsg in which
system; both go into site.json beside the file of --write, or where --site says, for tools/export_grid.py and
tools/export_points.py. With --map-coordinates the points, or --camera and --look, have that offset in them, and it is
taken off.

It ends with 0 where it is done, 1 where a file can't be read, used or written, and 2 for wrong words. Others are:

- 3: a place, or a level region, has too few disparities, or lies in no picture; still ground has too few heights
- 4: fewer than three points
- 5: the points, or the still cells, lie on one line
- 6: the points are mirrored
- 7: a point that has a part in the pose, or a still cell, lies farther from its place than --worst; a check point has a
  warning
- 8: the calibration isn't of version 3
- 9: the pose goes beyond the ranges of a calibration

Needs numpy.
"""

import argparse
import decimal
import json
import math
import os
import re
from collections.abc import Callable
from typing import NoReturn

from sgm_tools.calibrations import calibration_text
from sgm_tools.files import read_disparities, read_json
from sgm_tools.grids import read_grid
from sgm_tools.kinds import Json
from sgm_tools.points import Points, Pose, pose_of
from sgm_tools.poses import (
    NO_PLACE,
    OLD_VERSION,
    TOO_FAR,
    Fit,
    aimed_pose,
    camera_plane,
    fit_of,
    in_site,
    level_pose,
    place_in_camera,
    plane_through_all,
    read_points,
    rectified_places,
    scale_line,
    table,
    with_pose,
)
from sgm_tools.running import Wrong, need, numpy, progress, run
from sgm_tools.site import Site, add_words
from sgm_tools.still import Still, Tilt, brought_back, still_of, tilt_of
from sgm_tools.words import metres_word, number_word, parser_of


# The ways to a pose


def from_points(words: argparse.Namespace, calibration: Json, points: Points) -> Pose:
    """The pose of control points; prints what they say of it."""
    disparities = read_disparities(words.disparities)
    found = read_points(words.points)
    missing = [name for name in words.check if name not in found]
    if missing:
        raise Wrong(f"{words.points}: no point has the name {missing[0]}")
    if words.photograph:
        height, width = disparities[0].shape
        found = rectified_places(found, calibration, (width, height))
    cameras, sites = {}, {}
    for name, (place, _) in found.items():
        cameras[name] = place_in_camera(name, place, points, disparities, words.window)
    for name, (_, site) in found.items():
        sites[name] = in_site(site, words.taken_off, name)
    fit = fit_of(cameras, sites, words.check, words.upwards)
    progress("")
    lines = [*table(fit.names, words.check, fit.away), *scale_line(fit.scale, words.scale)]
    print("\n".join(lines), flush=True)
    check_lengths(words, fit)
    return fit.pose


def check_lengths(words: argparse.Namespace, fit: Fit) -> None:
    """Stops where a point with a part in the pose lies too far from its place, and warns of a check point."""
    lengths = fit.lengths()
    for at in lengths.argsort()[::-1]:
        name, length = fit.names[at], lengths[at]
        if length > words.worst and name not in words.check:
            said = f"{name} lies {length:.1f} mm from its place, --worst is {words.worst:g}"
            raise Wrong(said, TOO_FAR)
        if length > words.worst:
            print(f"WARNING: the check point {name} lies {length:.1f} mm from its place")


def from_level(words: argparse.Namespace, _: Json, points: Points) -> Pose:
    """The pose that makes the ground of some rectangles of the picture level."""
    values, filled = read_disparities(words.disparities)
    height, width = values.shape
    chosen = numpy.zeros(values.shape, bool)
    for col, row, cols, rows in words.level:
        if not (cols and rows and col + cols <= width and row + rows <= height):
            said = f"{col},{row},{cols},{rows} isn't a rectangle of the picture's pixels"
            raise Wrong(f"--level: {said}, which is {width} x {height}", NO_PLACE)
        chosen[row : row + rows, col : col + cols] = True
    ys, xs = numpy.nonzero(filled & chosen)
    needed = max(3, int(chosen.sum() + 1) // 2)
    found = plane_through_all(xs, ys, values[ys, xs], needed)
    if found is None:
        said = f"{int(chosen.sum())} pixels, of which {len(xs)} have a disparity"
        raise Wrong(f"--level: {said}: no half of them is of one plane", NO_PLACE)
    plane, kept = found
    ground = camera_plane(plane, points)
    if ground is None:
        raise Wrong("--level: the camera doesn't look down on the plane", NO_PLACE)
    pose = level_pose(ground, float(words.height * 1000000), points.mount)
    normal, away = ground
    spread = numpy.sqrt(((values[ys, xs] - plane.at(xs, ys))[kept] ** 2).mean()) / 16
    tilt = math.degrees(math.acos(min(1, normal[2])))
    progress("")
    print(f"{int(kept.sum())} of {int(chosen.sum())} pixels lie within {spread:.3f} pixels of a plane")
    print(f"the camera stands {away / 1e6:.3f} m above it and is tilted by {tilt:.2f} degrees")
    return pose


def from_camera(words: argparse.Namespace, _: Json, points: Points) -> Pose:
    """The pose of a camera whose place is known and which looks at a point."""
    centre = in_site(words.camera, words.taken_off, "--camera")
    aim = in_site(words.look, words.taken_off, "--look")
    if math.dist(centre, aim) < 1000:
        raise Wrong("--look: the point isn't a millimetre away from the camera")
    return aimed_pose(centre, aim, words.roll, points.mount)


def from_earlier(words: argparse.Namespace, calibration: Json, _: Points) -> Pose:
    """The calibration's pose, brought to the still ground of an earlier survey; prints what it moves."""
    pose = pose_of(calibration)
    if pose is None:
        raise Wrong(f"{words.calibration}: it has no pose yet: targets or level ground give one")
    earlier, later = (read_grid(name) for name in words.earlier)
    still = still_of(calibration, earlier, later, words.still)
    tilt = tilt_of(still)
    worst = float(abs(tilt.at(still.places))[tilt.kept].max()) / 1000
    progress("")
    print("\n".join(still_lines(still, tilt)))
    print(f"still cells move by {worst:.1f} mm at most", flush=True)
    if worst > words.worst:
        raise Wrong(f"a still cell lies {worst:.1f} mm from the earlier survey, --worst is {words.worst:g}", TOO_FAR)
    return brought_back(pose, tilt)


def still_lines(still: Still, tilt: Tilt) -> tuple[str, str]:
    """What the still ground says of the two surveys."""
    off = (still.higher - tilt.at(still.places))[tilt.kept]
    spread = float(numpy.sqrt((off**2).mean())) / 1000
    kept = f"{int(tilt.kept.sum())} of {len(tilt.kept)} still cells lie {spread:.1f} mm from a plane (root mean square)"
    rises = f"{1000 * tilt.east:+.2f} mm/m to the east, {1000 * tilt.north:+.2f} mm/m to the north"
    return kept, f"the later survey is {tilt.higher / 1000:+.1f} mm higher in their middle, rising {rises}"


# Words


def level_word(word: str) -> tuple[int, ...]:
    if not re.fullmatch("[0-9]{1,4}(,[0-9]{1,4}){3}", word):
        raise argparse.ArgumentTypeError(f"{word} isn't COL,ROW,COLS,ROWS")
    return tuple(map(int, word.split(",")))


def window_word(word: str) -> int:
    if not re.fullmatch("[0-9]{1,3}", word) or not 3 <= int(word) <= 101 or int(word) % 2 == 0:
        raise argparse.ArgumentTypeError(f"{word} isn't an odd number from 3 to 101")
    return int(word)


def words_of() -> argparse.Namespace:
    epilog = """example:
  tools/site_pose.py calibration.json heap.pgm targets.csv --photograph --check T4,T7 --write posed.json
  tools/site_pose.py calibration.json heap.pgm --level 20,150,80,40 --level 240,160,60,40 --write posed.json
  tools/site_pose.py calibration.json --camera 12.40 -3.15 8.02 --look 18.00 4.50 0.30 --write posed.json
  tools/site_pose.py posed.json --earlier may.asc june.asc --write june.json"""
    parser = parser_of(__doc__, epilog, ("It ends", "- 3:"))
    option = parser.add_argument
    option("calibration", metavar="CALIB.json", help="the calibration, of version 3")
    option("disparities", metavar="OUT.pgm", nargs="?", help="what a match with it has written")
    option("points", metavar="POINTS.csv", nargs="?", help="the control points")
    photograph = "x and y are places in the photograph before rectification"
    option("--photograph", action="store_true", help=photograph)
    check = "points that have no part in the pose, separated by commas"
    option("--check", metavar="NAMES", action="append", default=[], help=check)
    window = "side of the window of disparities around a place, in pixels, odd (7)"
    option("--window", type=window_word, default=7, metavar="PIXELS", help=window)
    worst = "how far a point or a still cell may lie from its place, in millimetres (50)"
    option("--worst", type=number_word(0, 1e9), default=50.0, metavar="MILLIMETRES", help=worst)
    scale = "how far from 1 the scale may be before there is a warning (0.002)"
    option("--scale", type=number_word(0, 1), default=0.002, metavar="PART", help=scale)
    upwards = "the cameras look upwards, and flat points aren't taken for mirrored ones"
    option("--upwards", action="store_true", help=upwards)
    level = "a rectangle of the rectified picture that shows level ground; may stand several times"
    rectangle = "COL,ROW,COLS,ROWS"
    option("--level", type=level_word, action="append", default=[], metavar=rectangle, help=level)
    height = "the height of the level ground (0)"
    option("--height", type=metres_word, metavar="METRES", help=height)
    place, camera = ("E", "N", "H"), "where the left camera is, in metres"
    option("--camera", type=metres_word, nargs=3, metavar=place, help=camera)
    look = "a point on its axis, in metres"
    option("--look", type=metres_word, nargs=3, metavar=place, help=look)
    roll = "by how much the camera is turned clockwise, as seen from behind it (0)"
    option("--roll", type=number_word(-360, 360), metavar="DEGREES", help=roll)
    earlier = "what an earlier survey and this one have written, of one grid"
    option("--earlier", nargs=2, metavar=("EARLIER.asc", "LATER.asc"), help=earlier)
    still = "regions that stayed as they were, separated by commas (those whose name begins with ground)"
    option("--still", metavar="NAMES", action="append", default=[], help=still)
    option("--write", metavar="OUT.json", help="the calibration with the pose")
    add_words(option, "where --offset and --epsg go (site.json beside OUT.json)")
    off = "points, camera and look have the offset in them"
    option("--map-coordinates", action="store_true", help=off)
    words = parser.parse_args()
    check_words(words, parser.error)
    return words


def names_in(words: list[str]) -> list[str]:
    """The names of words that each have some, separated by commas."""
    return [name for names in words for name in names.split(",") if name]


def choose_way(words: argparse.Namespace, error: Callable[[str], NoReturn]) -> None:
    """The way to a pose that the words ask for; ends where they ask for two, or where one is without its words."""
    if words.earlier is not None:
        if words.disparities is not None or words.level or words.camera is not None:
            error("--earlier takes neither disparities nor --level or --camera")
        words.way = from_earlier
    elif words.camera is not None:
        if words.look is None:
            error("--camera needs --look")
        if words.disparities is not None or words.level:
            error("--camera takes neither disparities nor --level")
        words.way, words.roll = from_camera, words.roll or 0.0
    elif words.level:
        if words.disparities is None or words.points is not None:
            error("--level needs CALIB.json and OUT.pgm and takes no points")
        words.way = from_level
    else:
        if words.points is None:
            error("OUT.pgm and POINTS.csv, --level, --camera or --earlier needed")
        words.way = from_points


def check_words(words: argparse.Namespace, error: Callable[[str], NoReturn]) -> None:
    """Ends where the words don't belong together."""
    words.check, words.still = map(names_in, (words.check, words.still))
    choose_way(words, error)
    if words.still and words.way != from_earlier:
        error("--still needs --earlier")
    if words.way != from_camera and (words.look is not None or words.roll is not None):
        error("--look and --roll need --camera")
    if words.height is not None and words.way != from_level:
        error("--height needs --level")
    words.height = words.height or decimal.Decimal(0)
    if words.way != from_points and (words.photograph or words.check or words.upwards):
        error("--photograph, --check and --upwards need points")
    if words.map_coordinates and words.offset is None:
        error("--map-coordinates needs --offset")
    if words.map_coordinates and words.way in (from_level, from_earlier):
        error("--map-coordinates: level or still ground has none")
    words.taken_off = words.offset if words.map_coordinates else (0, 0)
    has_site = words.offset is not None or words.epsg is not None
    if words.site is not None and not has_site:
        error("--site needs --offset or --epsg")
    if has_site and words.site is None and words.write is None:
        error("--offset and --epsg need --write or --site")
    if has_site and words.site is None:
        words.site = os.path.join(os.path.dirname(words.write), "site.json")


def main() -> None:
    words = words_of()
    need(numpy=numpy)
    calibration = read_json(words.calibration)
    version = calibration.get("version")
    if version != 3 or isinstance(version, bool):
        said = f"a pose needs a calibration of version 3, and this is one of version {version}"
        raise Wrong(f"{words.calibration}: {said}", OLD_VERSION)
    points = Points({key: value for key, value in calibration.items() if key != "pose"})
    if min(points.focal, points.baseline, points.near) < 1:
        raise Wrong(f"{words.calibration}: not a calibration of sgm with a camera")
    pose = words.way(words, calibration, points)
    if words.write is not None:
        with open(words.write, "w", encoding="utf-8") as file:
            file.write(calibration_text(with_pose(calibration, pose)))
    if words.site is not None:
        east, north = words.offset or (0, 0)
        site = Site(east, north, words.epsg)
        with open(words.site, "w", encoding="utf-8") as file:
            file.write(site.text())
    progress("")
    print(json.dumps(pose.section(), separators=(",", ":")))


def command() -> None:
    run(main)


if __name__ == "__main__":
    command()
