"""Grids as GeoTIFF with a style, a hillshade and contours, by GDAL."""

from __future__ import annotations

import dataclasses
import os
from typing import TYPE_CHECKING, Any

from sgm_tools import pictures
from sgm_tools.exact import decimal
from sgm_tools.grids import Grid
from sgm_tools.grids import NO_DIFFERENCE, hundredths
from sgm_tools.kinds import Colour
from sgm_tools.running import Wrong, numpy, package, progress
from sgm_tools.site import Site

if TYPE_CHECKING:
    from numpy.typing import NDArray

gdal, ogr, osr = (package(f"osgeo.{name}") for name in ("gdal", "ogr", "osr"))
NOTHING = -9999.0
# The vector formats by their files' endings.
DRIVERS = {".gpkg": "GPKG", ".shp": "ESRI Shapefile", ".geojson": "GeoJSON", ".json": "GeoJSON"}
# Where GDAL writes, in memory; what is there is then written as any file.
MEMORY = "/vsimem/sgm-export"
CREATED = ["COMPRESS=DEFLATE", "PREDICTOR=3"]
QML = """<!DOCTYPE qgis PUBLIC 'http://mrcc.com/qgis.dtd' 'SYSTEM'>
<qgis version="3.0">
 <pipe>
  <rasterrenderer type="singlebandpseudocolor" band="1" opacity="1" alphaBand="-1"
    classificationMin="{low}" classificationMax="{high}">
   <rastershader>
    <colorrampshader colorRampType="INTERPOLATED" classificationMode="1" clip="0"
      minimumValue="{low}" maximumValue="{high}">
{items}
    </colorrampshader>
   </rastershader>
  </rasterrenderer>
 </pipe>
</qgis>
"""


# The grid


def system_of(site: Site) -> Any:
    """The coordinate system of the site, or None."""
    if site.epsg is None:
        return None
    system = osr.SpatialReference()
    try:
        system.ImportFromEPSG(site.epsg)
    except RuntimeError:
        raise Wrong(f"EPSG:{site.epsg}: GDAL doesn't know this coordinate system") from None
    if not system.IsProjected() or system.GetLinearUnits() != 1:
        raise Wrong(f"EPSG:{site.epsg}: not a projected coordinate system in metres")
    system.SetAxisMappingStrategy(osr.OAMS_TRADITIONAL_GIS_ORDER)
    return system


def metres(grid: Grid) -> NDArray[numpy.float32]:
    """The heights in metres, of 32 bits."""
    return numpy.where(grid.filled, grid.heights / 1e6, NOTHING).astype(numpy.float32)


def raster_of(grid: Grid, site: Site, system: Any, name: str) -> Any:
    """The grid as a GeoTIFF of GDAL, in memory."""
    rows, cols = grid.heights.shape
    driver = gdal.GetDriverByName("GTiff")
    made = driver.Create(name, cols, rows, 1, gdal.GDT_Float32, CREATED)
    west, north = grid.west + site.east, grid.south + rows * grid.cell + site.north
    cell = grid.cell / 1e6
    made.SetGeoTransform([west / 1e6, cell, 0.0, north / 1e6, 0.0, -cell])
    if system is not None:
        made.SetSpatialRef(system)
    band = made.GetRasterBand(1)
    band.SetNoDataValue(NOTHING)
    band.SetDescription("change" if grid.nothing == NO_DIFFERENCE else "height")
    band.SetUnitType("m")
    # As bytes, so that GDAL's own bridge to numpy isn't needed.
    band.WriteRaster(0, 0, cols, rows, metres(grid).tobytes(), buf_type=gdal.GDT_Float32)
    made.FlushCache()
    return made


# The style


def ramp_of(grid: Grid) -> list[tuple[int, Colour]]:
    """The values in micrometres and their colours, from low to high."""
    if grid.nothing == NO_DIFFERENCE:
        most = pictures.darkest_of(grid)
        colours = (pictures.BLUE, (250, 250, 250), pictures.RED)
        return list(zip((-most, 0, most), colours))
    low, high = hundredths(grid.heights[grid.filled]) or (0, 0)
    high, last = max(high, low + 1), len(pictures.SCALE) - 1
    return [(low + (high - low) * at // last, colour) for at, colour in enumerate(pictures.SCALE)]


def style_of(grid: Grid) -> str:
    """The text of the style."""
    ramp = [(decimal(value, 6), colour) for value, colour in ramp_of(grid)]
    items = [
        f'     <item value="{value}" label="{value}" color="#{red:02x}{green:02x}{blue:02x}" alpha="255"/>'
        for value, (red, green, blue) in ramp
    ]
    return QML.format(low=ramp[0][0], high=ramp[-1][0], items="\n".join(items))


# Hillshade and contours


def make_hillshade(raster: Any, name: str) -> None:
    """Light from the north-west at 45 degrees."""
    made = gdal.DEMProcessing(name, raster, "hillshade", computeEdges=True, creationOptions=CREATED[:1])
    made.FlushCache()


def make_contours(raster: Any, system: Any, interval: str, name: str) -> None:
    """Lines of equal height."""
    driver = ogr.GetDriverByName(DRIVERS[os.path.splitext(name)[1].lower()])
    source = driver.CreateDataSource(name)
    layer = source.CreateLayer("contours", system, ogr.wkbLineString)
    layer.CreateField(ogr.FieldDefn("id", ogr.OFTInteger))
    layer.CreateField(ogr.FieldDefn("height", ogr.OFTReal))
    options = [f"LEVEL_INTERVAL={interval}", "ID_FIELD=0", "ELEV_FIELD=1", f"NODATA={NOTHING}"]
    gdal.ContourGenerateEx(raster.GetRasterBand(1), layer, options=options)
    # A source is written where it goes.
    del layer, source


# Files


def bytes_of(name: str) -> bytes:
    """What GDAL has written into memory under that name."""
    file = gdal.VSIFOpenL(name, "rb")
    gdal.VSIFSeekL(file, 0, 2)
    size = gdal.VSIFTellL(file)
    gdal.VSIFSeekL(file, 0, 0)
    data = gdal.VSIFReadL(1, size, file) if size else b""
    gdal.VSIFCloseL(file)
    return bytes(data)


def write_from(folder: str, main: str, out: str) -> None:
    """Writes the file `main` of a folder in memory as `out`, and what stands with it there beside that."""
    for name in sorted(gdal.ReadDir(folder) or ()):
        path = out if name == main else os.path.splitext(out)[0] + os.path.splitext(name)[1]
        progress(f"writing {path}")
        with open(path, "wb") as file:
            file.write(bytes_of(f"{folder}/{name}"))


def style_name(out: str) -> str:
    return os.path.splitext(out)[0] + ".qml"


@dataclasses.dataclass(frozen=True)
class Outputs:
    """What is written: a GeoTIFF with its style, and where they are named a hillshade and contours, one each
    `interval` metres."""

    heights: str
    hillshade: str | None = None
    contours: str | None = None
    interval: str | None = None


def write_all(outputs: Outputs, grid: Grid, site: Site) -> None:
    system = system_of(site)
    raster = raster_of(grid, site, system, f"{MEMORY}/grid/made.tif")
    outs = [("grid", "made.tif", outputs.heights)]
    if outputs.hillshade is not None:
        progress("shading")
        make_hillshade(raster, f"{MEMORY}/hillshade/made.tif")
        outs.append(("hillshade", "made.tif", outputs.hillshade))
    if outputs.contours is not None and outputs.interval is not None:
        progress("drawing contours")
        main = "made" + os.path.splitext(outputs.contours)[1].lower()
        make_contours(raster, system, outputs.interval, f"{MEMORY}/contours/{main}")
        outs.append(("contours", main, outputs.contours))
    # A raster is whole where it is closed.
    del raster
    for folder, main, out in outs:
        write_from(f"{MEMORY}/{folder}", main, out)
    with open(style_name(outputs.heights), "w", encoding="utf-8") as file:
        file.write(style_of(grid))
