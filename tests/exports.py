#!/usr/bin/env python3
"""Shows other programs what the export tools write of the example's survey: QGIS the GeoTIFF with its style and the
contours, MeshLab the point cloud.

    tests/exports.py

QGIS has to read the grid's place, its coordinate system and the contours, to take the style for its own, and to draw
the lowest cells, the highest ones and the empty ones in their colours. MeshLab has to read each point with its grey
value; it keeps 32 bits a coordinate, so a cloud with a map's coordinates comes back rounded to a part of a metre, and
one of --float doesn't. QGIS is Debian's python3-qgis, without a screen; MeshLab is its meshlabserver, under xvfb-run.
What isn't there is skipped, and said. Needs numpy, Pillow and GDAL's package for Python.
"""

import json
import os
import shutil
import subprocess
import sys
import tempfile
import unittest

TOP = os.path.realpath(os.path.join(os.path.dirname(os.path.abspath(__file__)), ".."))
HEAP = os.path.join(TOP, "examples", "stockpile")
sys.path.insert(0, os.path.join(TOP, "tools"))

from sgm_tools import clouds, files, grids, points, running
from sgm_tools.running import numpy

# Qt asks for a screen otherwise.
os.environ.setdefault("QT_QPA_PLATFORM", "offscreen")
qgis = running.package("qgis.core")
MESHLAB = shutil.which("meshlabserver"), shutil.which("xvfb-run")
# The colours of the lowest and of the highest cells, as docs/GUIDE.md has them: green and white.
LOW, HIGH = (70, 130, 80), (250, 250, 250)
SITE = {"offset": [412300, 5654100], "epsg": 25833}


def setUpModule():
    running.need_for_tests(numpy=numpy, PIL=running.Image, GDAL=running.package("osgeo.gdal"))


class Exports(unittest.TestCase):
    def setUp(self):
        folder = tempfile.TemporaryDirectory()
        self.addCleanup(folder.cleanup)
        self.folder = folder.name
        with open(self.path("site.json"), "w") as file:
            json.dump(SITE, file)

    def path(self, name):
        return os.path.join(self.folder, name)

    def run_tool(self, name, *words):
        command = [sys.executable, os.path.join(TOP, "tools", name), *words]
        done = subprocess.run(command, cwd=self.folder, capture_output=True, text=True)
        self.assertEqual((done.returncode, done.stderr), (0, ""))


@unittest.skipUnless(qgis, "QGIS isn't installed (Debian: python3-qgis)")
class Qgis(Exports):
    def setUp(self):
        super().setUp()
        # One application for all; it goes with the process.
        if qgis.QgsApplication.instance() is None:
            type(self).application = qgis.QgsApplication([], False)
            self.application.initQgis()
        words = [os.path.join(HEAP, "expected", "out.asc"), "--out", "h.tif", "--site", "site.json"]
        self.run_tool("export_grid.py", *words, "--contours", "h.gpkg", "--interval", "0.5")
        self.grid = grids.read_grid(words[0])
        self.layer = qgis.QgsRasterLayer(self.path("h.tif"), "heights")

    def test_grid(self):
        rows, cols = self.grid.heights.shape
        self.assertTrue(self.layer.isValid())
        self.assertEqual((self.layer.width(), self.layer.height()), (cols, rows))
        self.assertEqual(self.layer.crs().authid(), "EPSG:25833")
        extent, (east, north) = self.layer.extent(), SITE["offset"]
        wanted = [east + self.grid.west / 1e6, north + self.grid.south / 1e6]
        wanted += [wanted[0] + cols * self.grid.cell / 1e6, wanted[1] + rows * self.grid.cell / 1e6]
        found = [extent.xMinimum(), extent.yMinimum(), extent.xMaximum(), extent.yMaximum()]
        for a, b in zip(found, wanted):
            self.assertAlmostEqual(a, b, 6)

    def test_contours(self):
        contours = qgis.QgsVectorLayer(self.path("h.gpkg"), "contours")
        self.assertTrue(contours.isValid())
        self.assertEqual(contours.crs().authid(), "EPSG:25833")
        self.assertGreater(contours.featureCount(), 0)

    def drawn(self):
        """The picture that QGIS draws of the layer, a pixel for each cell: red, green, blue and what covers."""
        from qgis.PyQt.QtCore import QSize, Qt
        from qgis.PyQt.QtGui import QImage

        settings = qgis.QgsMapSettings()
        settings.setLayers([self.layer])
        settings.setDestinationCrs(self.layer.crs())
        settings.setExtent(self.layer.extent())
        settings.setOutputSize(QSize(self.layer.width(), self.layer.height()))
        settings.setBackgroundColor(Qt.transparent)
        job = qgis.QgsMapRendererSequentialJob(settings)
        job.start()
        job.waitForFinished()
        self.assertEqual(job.errors(), [])
        job.renderedImage().convertToFormat(QImage.Format_RGBA8888).save(self.path("drawn.png"))
        return numpy.array(running.Image.open(self.path("drawn.png")).convert("RGBA"))

    def test_style(self):
        # The style beside the file is taken without being asked for.
        self.assertEqual(self.layer.renderer().type(), "singlebandpseudocolor")
        self.assertEqual(self.layer.loadNamedStyle(self.path("h.qml")), ("", True))
        drawn, heights = self.drawn(), self.grid.heights
        self.assertEqual(drawn.shape[:2], heights.shape)
        filled = self.grid.filled
        self.assertTrue(0 < filled.sum() < filled.size)
        # Nothing covers an empty cell.
        self.assertTrue(((drawn[..., 3] == 255) == filled).all())
        # The ramp goes from the lowest hundredth of the heights to the highest one.
        low, high = grids.hundredths(heights[filled])
        for chosen, colour in ((heights <= low, LOW), (heights >= high, HIGH)):
            found = drawn[filled & chosen][:, :3].astype(int)
            self.assertTrue((abs(found - colour) <= 1).all(), found)


@unittest.skipUnless(all(MESHLAB), "meshlabserver and xvfb-run aren't installed (Debian: meshlab xvfb xauth)")
class Meshlab(Exports):
    def come_back(self, *words):
        """The points of a cloud as MeshLab has read and written them, and those of the survey, both in metres."""
        survey = [os.path.join(HEAP, "expected", "out.pgm"), "--calib", os.path.join(HEAP, "calibration.json")]
        survey += ["--left", os.path.join(HEAP, "left.pgm")]
        self.run_tool("export_points.py", *survey, "--out", "p.ply", *words)
        command = [MESHLAB[1], "-a", MESHLAB[0], "-i", "p.ply", "-o", "back.ply", "-m", "vc"]
        done = subprocess.run(command, cwd=self.folder, capture_output=True, text=True, timeout=300)
        self.assertEqual(done.returncode, 0, done.stdout + done.stderr)
        return vertices_of(self.path("back.ply")), self.survey()

    def survey(self):
        """East, north, up in metres and the grey value of each point of the example."""
        calibration = files.read_json(os.path.join(HEAP, "calibration.json"))
        values, filled = files.read_disparities(os.path.join(HEAP, "expected", "out.pgm"))
        xs, ys, _, *place = points.Points(calibration).in_picture(values, filled)
        greys = clouds.greys_of(os.path.join(HEAP, "left.pgm"), calibration, values.shape)(xs, ys)
        return numpy.stack(place, axis=-1) / 1e6, greys

    def away(self, found, wanted):
        """How far points lie from where they should, in metres, at most."""
        self.assertEqual(found[0].shape, wanted[0].shape)
        for colour in found[1].T:
            self.assertTrue((colour == wanted[1]).all())
        return abs(found[0] - wanted[0]).max()

    def test_own_frame(self):
        self.assertLess(self.away(*self.come_back()), 1e-6)

    def test_map(self):
        found, (places, greys) = self.come_back("--site", "site.json")
        there = places + [*SITE["offset"], 0]
        self.assertTrue(0.1 < self.away(found, (there, greys)) <= 0.25)
        found, _ = self.come_back("--site", "site.json", "--float")
        self.assertLess(self.away(found, (places, greys)), 1e-6)


def vertices_of(name):
    """The places and the colours of a binary PLY's vertices."""
    head, _, body = files.read_bytes(name).partition(b"end_header\n")
    kinds, fields, count, element = {"float": "<f4", "double": "<f8", "uchar": "u1"}, [], 0, None
    for words in map(str.split, head.decode().splitlines()):
        if words[0] == "element":
            element = words[1]
            count = int(words[2]) if element == "vertex" else count
        elif words[0] == "property" and element == "vertex":
            fields.append((words[2], kinds[words[1]]))
    found = numpy.frombuffer(body, numpy.dtype(fields), count)
    places = numpy.stack([found[axis].astype(float) for axis in "xyz"], axis=-1)
    return places, numpy.stack([found[colour] for colour in ("red", "green", "blue")], axis=-1)


if __name__ == "__main__":
    unittest.main()
