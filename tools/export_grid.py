#!/usr/bin/env python3
"""Turns a height grid (OUT.asc) into a GeoTIFF in metres with its place in a map, and into a hillshade and contours.

    tools/export_grid.py OUT.asc --out FILE.tif [--site site.json] [--hillshade FILE.tif] [--contours FILE --interval 0.5]

The GeoTIFF has 32-bit floating point numbers, -9999 for empty cells, and the grid's corner in metres. --site says where
the grid's frame lies in a map, as tools/site_pose.py writes it; --offset and --epsg say it in its place. The offset is
added to the corner, and the coordinate system has to be a projected one in metres. Without one there is none in the
file. Beside it a style for QGIS is written, FILE.qml: the colours of tools/heights_picture.py from the lowest to the
highest hundredth of the cells, and for a difference, as `sgm change` writes it, blue for what fell and red for what
rose.

--hillshade writes what light from the north-west shows, as a GeoTIFF of 8 bits, 0 where it is empty. --contours writes
lines of equal height, one each --interval metres, with the heights in a column `height`: as a GeoPackage, a Shapefile
or GeoJSON, which the ending of the name says. They aren't smoothed: each cell's noise is in them. A grid is better
shown with cells some times as wide as the pixels on the ground.

It ends with 3 where GDAL's package for Python isn't there (python3-gdal on Debian); it needs numpy too.
"""

import argparse
import os

from sgm_tools.exact import decimal
from sgm_tools.grids import read_grid
from sgm_tools.rasters import DRIVERS, Outputs, gdal, ogr, osr, style_name, write_all
from sgm_tools.running import Wrong, need, numpy, progress, run
from sgm_tools.site import add_words, micrometres_word, site_of
from sgm_tools.words import parser_of

NO_GDAL = 3


# Words


def interval_word(word: str) -> str:
    found = micrometres_word(word)
    if found < 1000:
        raise argparse.ArgumentTypeError(f"{word} is less than a millimetre")
    return decimal(found, 6)


def words_of() -> argparse.Namespace:
    epilog = "Example: tools/export_grid.py /tmp/heap.asc --out /tmp/heap.tif --offset 412300 5654100 --epsg 25833"
    parser = parser_of(__doc__, epilog)
    option = parser.add_argument
    option("file", metavar="OUT.asc", help="the heights, or the difference, that sgm has written")
    option("--out", required=True, metavar="FILE.tif", help="the GeoTIFF; its style goes beside it")
    add_words(option, "where the frame lies in a map, as tools/site_pose.py writes it")
    option("--hillshade", metavar="FILE.tif", help="the light on the heights, a GeoTIFF")
    option("--contours", metavar="FILE", help="lines of equal height, .gpkg, .shp or .geojson")
    option("--interval", type=interval_word, metavar="METRES", help="from one of them to the next")
    words = parser.parse_args()
    if (words.contours is None) != (words.interval is None):
        parser.error("--contours and --interval need each other")
    if words.contours is not None and os.path.splitext(words.contours)[1].lower() not in DRIVERS:
        parser.error(f"--contours: {words.contours} doesn't end in {', '.join(DRIVERS)}")
    outs = [it for it in (words.out, style_name(words.out), words.hillshade, words.contours) if it]
    if len(set(outs)) < len(outs):
        parser.error("two outputs have one name")
    return words


def main() -> None:
    words = words_of()
    need(numpy=numpy)
    grid, site = read_grid(words.file), site_of(words)
    try:
        need(GDAL=gdal)
    except Wrong as error:
        raise Wrong(str(error), NO_GDAL) from None
    for module in (gdal, ogr, osr):
        module.UseExceptions()
    try:
        outputs = Outputs(words.out, words.hillshade, words.contours, words.interval)
        write_all(outputs, grid, site)
    except RuntimeError as error:
        raise Wrong(f"{words.file}: GDAL: {' '.join(str(error).split())}") from None
    progress("")
    filled = int(grid.filled.sum())
    print(f"{filled} of {grid.heights.size} cells")


def command() -> None:
    run(main)


if __name__ == "__main__":
    command()
