#!/usr/bin/env python3
"""Writes all points of a match as a point cloud (PLY) in metres, in the site's frame, with the picture's grey values.

    tools/export_points.py OUT.pgm --calib calibration.json --out FILE.ply [--left left.pgm] [--site site.json]

For CloudCompare, MeshLab, Open3D and their like. The file is binary, the least byte first. Each pixel of OUT.pgm with
a point gives a vertex: x to the east, y to the north, z up. The points are those of which the program makes cells,
each the nearest number to whole micrometres: with a `pose` in the site's frame, without one from the left camera.
They come row by row from the picture's upper left. With --left, the left picture that was matched, which is rectified
here where the calibration has a warp, each vertex has its grey value as red, green and blue.

--site, or --offset and --epsg, says where the frame lies in a map, as tools/site_pose.py writes it. x and y then have
the offset in them, as floating point of 64 bits, and a comment says so. With --float they have 32 bits and no offset,
since 32 bits don't hold coordinates of a map to a millimetre; the comment says what is to be added. Needs numpy.
"""

from sgm_tools.clouds import greys_of, write_points
from sgm_tools.files import read_disparities, read_json
from sgm_tools.points import Points
from sgm_tools.running import need, numpy, progress, run
from sgm_tools.site import add_words, site_of
from sgm_tools.words import parser_of


def main() -> None:
    epilog = "Example: tools/export_points.py /tmp/heap.pgm --calib examples/stockpile/calibration.json "
    epilog += "--left examples/stockpile/left.pgm --out /tmp/heap.ply"
    parser = parser_of(__doc__, epilog)
    option = parser.add_argument
    option("disparities", metavar="OUT.pgm", help="the disparities that sgm has written")
    option("--calib", required=True, metavar="FILE.json", help="the calibration of that match")
    option("--out", required=True, metavar="FILE.ply", help="the point cloud")
    option("--left", metavar="FILE.pgm", help="the left picture of that match, for grey values")
    option("--float", action="store_true", help="32 bits a coordinate, without the offset")
    add_words(option, "where the frame lies in a map, as tools/site_pose.py writes it")
    words = parser.parse_args()
    need(numpy=numpy)
    disparities = read_disparities(words.disparities)
    calibration = read_json(words.calib)
    points, site = Points(calibration), site_of(words)
    greys = None
    if words.left is not None:
        greys = greys_of(words.left, calibration, disparities[0].shape)
    kind = "float" if words.float else "double"
    count = write_points(words.out, disparities, points, greys, site, kind)
    progress("")
    print(f"{count} points")


def command() -> None:
    run(main)


if __name__ == "__main__":
    command()
