#!/usr/bin/env python3
"""Tries export_grid.py: what GDAL says of the GeoTIFF that it writes, the style, hillshade and contours, and how it
ends. Without GDAL's package for Python only that end is tried."""

import json
import os
import subprocess
import sys
import tempfile
import unittest
import xml.etree.ElementTree

HERE = os.path.dirname(os.path.abspath(__file__))

from sgm_tools import running

gdal = running.package("osgeo.gdal")
ogr = running.package("osgeo.ogr")

# Cells of 0.25 m; a step from 1 m to 3.000001 m, and an empty cell.
GRID = """ncols 4
nrows 3
xllcorner -500000
yllcorner 250000
cellsize 250000
NODATA_value -2147483648
1000000 1000000 3000001 3000001
1000000 1000000 3000001 -2147483648
1000000 1000000 3000001 3000001
"""
CHANGE = """ncols 2
nrows 1
xllcorner 0
yllcorner 0
cellsize 1000000
NODATA_value -9999999999
-2500000000 -9999999999
"""
SITE = {"offset": [412300, 5654100.125], "epsg": 25833}
NO_GDAL = "export_grid: GDAL of Python needed: apt-get install python3-gdal on Debian\n"


def setUpModule():
    running.need_for_tests(numpy=running.numpy)


class Tool(unittest.TestCase):
    def setUp(self):
        folder = tempfile.TemporaryDirectory()
        self.addCleanup(folder.cleanup)
        self.folder = folder.name
        for name, text in (("o.asc", GRID), ("change.asc", CHANGE), ("site.json", json.dumps(SITE))):
            with open(self.path(name), "w") as file:
                file.write(text)

    def path(self, name):
        return os.path.join(self.folder, name)

    def run_tool(self, *words, name="o.asc", **more):
        command = [sys.executable, os.path.join(HERE, "export_grid.py"), name, *words]
        done = subprocess.run(command, cwd=self.folder, capture_output=True, text=True, **more)
        return done.returncode, done.stdout, done.stderr

    def made(self, *words):
        self.assertEqual(self.run_tool("--out", "h.tif", *words), (0, "11 of 12 cells\n", ""))

    def refused(self, line, *words, status=1):
        self.assertEqual(self.run_tool(*words), (status, "", f"export_grid: {line}\n"))

    def files(self):
        return sorted(set(os.listdir(self.folder)) - {"o.asc", "change.asc", "site.json"})


class Ends(Tool):
    def test_without_gdal(self):
        """A package of that name that can't be imported."""
        os.mkdir(self.path("osgeo"))
        with open(self.path("osgeo/__init__.py"), "w") as file:
            file.write("raise ImportError\n")
        more = {"env": {**os.environ, "PYTHONPATH": self.folder, "PYTHONDONTWRITEBYTECODE": "1"}}
        # Debian's Python would be tried next, which has the same path.
        self.assertEqual(self.run_tool("--out", "h.tif", **more), (3, "", NO_GDAL))
        self.assertEqual(self.files(), ["osgeo"])

    def test_wrong_words(self):
        for words, line in [
            (("--contours", "c.gpkg"), "--contours and --interval need each other"),
            (
                ("--contours", "c.txt", "--interval", "1"),
                "--contours: c.txt doesn't end in .gpkg, .shp, .geojson, .json",
            ),
            (("--contours", "c.shp", "--interval", "0"), "argument --interval: 0 is less than a millimetre"),
            (("--hillshade", "h.tif"), "two outputs have one name"),
            (("--epsg", "3"), "argument --epsg: 3 isn't a code of EPSG"),
            (("--offset", "1", "x"), "argument --offset: x isn't a number of metres"),
        ]:
            status, out, err = self.run_tool("--out", "h.tif", *words)
            self.assertEqual((status, out), (2, ""))
            self.assertEqual(err.splitlines()[-1], f"export_grid.py: error: {line}")
        self.assertEqual(self.files(), [])


@unittest.skipUnless(gdal, "GDAL's package for Python isn't installed")
class Exports(Tool):
    def setUp(self):
        super().setUp()
        gdal.UseExceptions()

    def test_place(self):
        self.made("--site", "site.json")
        self.assertEqual(self.files(), ["h.qml", "h.tif"])
        raster = gdal.Open(self.path("h.tif"))
        # The north-west corner: three cells of 0.25 m above 0.25 m, and the offset.
        self.assertEqual(raster.GetGeoTransform(), (412299.5, 0.25, 0, 5654101.125, 0, -0.25))
        system = raster.GetSpatialRef()
        self.assertEqual((system.GetAuthorityCode(None), system.GetLinearUnits()), ("25833", 1))
        band = raster.GetRasterBand(1)
        self.assertEqual((band.DataType, band.GetNoDataValue(), band.GetUnitType()), (gdal.GDT_Float32, -9999, "m"))
        found = band.ReadRaster(0, 0, 4, 3, buf_type=gdal.GDT_Float64)
        heights = [1, 1, 3.000001, 3.000001, 1, 1, 3.000001, -9999, 1, 1, 3.000001, 3.000001]
        for value, height in zip(memoryview(found).cast("d"), heights):
            self.assertAlmostEqual(value, height, 6)

    def test_as_gdalinfo_says(self):
        """By the program, where it is there."""
        self.made("--epsg", "25833", "--offset", "1000", "-2000")
        try:
            done = subprocess.run(["gdalinfo", "h.tif"], cwd=self.folder, capture_output=True, text=True)
        except FileNotFoundError:
            self.skipTest("gdalinfo isn't installed")
        self.assertIn('ID["EPSG",25833]', done.stdout)
        self.assertRegex(done.stdout, r"Upper Left +\( +999\.500, +-1999\.000\)")
        self.assertRegex(done.stdout, r"Lower Right +\( +1000\.500, +-1999\.750\)")

    def test_without_a_place(self):
        self.made()
        raster = gdal.Open(self.path("h.tif"))
        self.assertEqual(raster.GetGeoTransform(), (-0.5, 0.25, 0, 1, 0, -0.25))
        self.assertIsNone(raster.GetSpatialRef())

    def test_words_go_before_the_site(self):
        self.made("--site", "site.json", "--epsg", "32633")
        raster = gdal.Open(self.path("h.tif"))
        self.assertEqual(raster.GetSpatialRef().GetAuthorityCode(None), "32633")
        self.assertEqual(raster.GetGeoTransform()[0], 412299.5)

    def test_style(self):
        self.made()
        tree = xml.etree.ElementTree.parse(self.path("h.qml"))
        items = [(item.get("value"), item.get("color")) for item in tree.iter("item")]
        self.assertEqual(items[0], ("1", "#468250"))
        self.assertEqual(items[-1], ("3.000001", "#fafafa"))
        self.assertEqual(len(items), 6)

    def test_change(self):
        words = ("--out", "d.tif")
        self.assertEqual(self.run_tool(*words, name="change.asc"), (0, "1 of 2 cells\n", ""))
        # A band belongs to its raster, which has to stay.
        raster = gdal.Open(self.path("d.tif"))
        band = raster.GetRasterBand(1)
        found = memoryview(band.ReadRaster(0, 0, 2, 1, buf_type=gdal.GDT_Float64)).cast("d")
        self.assertEqual(list(found), [-2500, -9999])
        self.assertEqual(band.GetDescription(), "change")
        tree = xml.etree.ElementTree.parse(self.path("d.qml"))
        items = [(item.get("value"), item.get("color")) for item in tree.iter("item")]
        self.assertEqual(items, [("-2500", "#084594"), ("0", "#fafafa"), ("2500", "#a50f15")])

    def test_hillshade(self):
        self.made("--site", "site.json", "--hillshade", "s.tif")
        raster = gdal.Open(self.path("s.tif"))
        self.assertEqual((raster.RasterXSize, raster.RasterYSize), (4, 3))
        self.assertEqual(raster.GetGeoTransform()[0], 412299.5)
        self.assertEqual(raster.GetSpatialRef().GetAuthorityCode(None), "25833")
        found = raster.GetRasterBand(1).ReadRaster(0, 0, 4, 3)
        # Level ground has the sine of 45 degrees of 254, and one; the side of the step, which looks west, more.
        self.assertEqual(found[0], 181)
        self.assertEqual(found[7], 0)

    def test_contours(self):
        for ending, driver in ((".gpkg", "GPKG"), (".shp", "ESRI Shapefile"), (".geojson", "GeoJSON")):
            words = ("--contours", f"c{ending}", "--interval", "0.75")
            self.made("--site", "site.json", *words)
            source = ogr.Open(self.path("c" + ending))
            self.assertEqual(source.GetDriver().GetName(), driver)
            layer = source.GetLayer(0)
            lines = [(feature.GetField("height"), feature.GetGeometryRef().GetEnvelope()) for feature in layer]
            # 1.5, 2.25 and 3 m lie on the step, 0.75 doesn't.
            self.assertEqual(sorted({height for height, _ in lines}), [1.5, 2.25, 3])
            for _, (west, east, south, north) in lines:
                self.assertTrue(412299.5 <= west <= east <= 412300.5, (west, east))
                self.assertTrue(5654100.375 <= south <= north <= 5654101.125, (south, north))
            self.assertEqual(layer.GetSpatialRef().GetAuthorityCode(None), "25833")
        self.assertIn("c.dbf", self.files())

    def test_refused(self):
        words = ("--out", "h.tif")
        self.refused("EPSG:4326: not a projected coordinate system in metres", *words, "--epsg", "4326")
        # Its unit is the foot.
        self.refused("EPSG:2225: not a projected coordinate system in metres", *words, "--epsg", "2225")
        self.refused("EPSG:1999: GDAL doesn't know this coordinate system", *words, "--epsg", "1999")
        self.refused("no.json: No such file or directory", *words, "--site", "no.json")
        self.refused("none/h.tif: No such file or directory", "--out", "none/h.tif")
        self.refused("No space left on device", "--out", "/dev/full")
        self.assertEqual(self.files(), [])


if __name__ == "__main__":
    unittest.main()
