#!/usr/bin/env python3
"""Tries the page of tools/survey_page.py in a real browser, headless Chromium (Debian: chromium, chromium-driver,
python3-selenium).

    tests/survey_page.py [--screenshot FILE.png]

The page is that of examples/stockpile/expected. Rectangles are drawn with the mouse, moved by keys and picked by
their names; bases are typed and taken from the mean of the ground. What the page counts is compared with OUT.csv
and with what this script counts in OUT.asc, digit by digit. Pages of other surveys have to warn of what is wrong
with them, and a page of a difference is drawn on as well. The words of an outline that was drawn on examples/slope
go through tools/opencv_calibration.py into a calibration, by which its pair is matched again: by the program that
the variable SGM names, or else by the separate implementation. The same pair with a pose is counted on too, and
control points are set on its left picture by mouse and by keyboard, whose table has to be the expected one.
The example's survey of version 3 shows numbers of points and spreads, which are counted here too, its legend, scale
bar and north arrow, and volumes above its ground as tools/cubic_metres.py has them; the picture is of this page.
Pages are printed to PDF, which has to be A4 and one or two sheets with nothing cut off.
Nothing may be fetched, and the browser may not complain. Without --screenshot the picture goes into a new file,
whose name is printed. Takes a minute or two.
"""

import argparse
import base64
import csv
import json
import math
import os
import random
import re
import shutil
import statistics
import subprocess
import sys
import tempfile
import types
import urllib.parse

HERE = os.path.dirname(os.path.abspath(__file__))
TOP = os.path.dirname(HERE)
HEAP = os.path.join(TOP, "examples", "stockpile")
SLOPE = os.path.join(TOP, "examples", "slope")
sys.path.insert(0, os.path.join(TOP, "tools"))

import opencv_calibration
import reference_matching
import survey_page
from sgm_tools import exact, files, grids, reports, running
from sgm_tools import page as sgm_page
from sgm_tools import regions as sgm_regions
from sgm_tools.running import Wrong, numpy

webdriver = running.package("selenium.webdriver")
EMPTY = -(2**31)
SIZE = (1280, 1180)
# Of the window for the picture, so that the map is on it whole.
PICTURED = (1280, 1560)
# The page warns where heights aren't those of the map's points, as those of made-up surveys here aren't.
STRANGE = "isn't that of the points of OUT.pgm"
# A4 in points of 1/72 inch, and what its width leaves between the margins of 12 mm, in CSS pixels.
SHEET = (210 / 25.4 * 72, 297 / 25.4 * 72)
BETWEEN = round((210 - 2 * 12) / 25.4 * 96)


def browser():
    """Chromium without a window."""
    from selenium.common.exceptions import WebDriverException
    from selenium.webdriver.chrome.service import Service

    options = webdriver.ChromeOptions()
    options.binary_location = "/usr/bin/chromium"
    options.set_capability("goog:loggingPrefs", {"browser": "ALL"})
    # A process of root has no sandbox of Chromium's; a page without network needs none.
    for word in ("--headless=new", "--no-sandbox", "--disable-gpu", f"--window-size={SIZE[0]},{SIZE[1]}"):
        options.add_argument(word)
    try:
        return webdriver.Chrome(options=options, service=Service("/usr/bin/chromedriver"))
    except WebDriverException as error:
        raise Wrong(f"Chromium doesn't start: {error.msg}")


class Page:
    """The page in the browser, and what a person does there."""

    def __init__(self, driver, name):
        self.driver = driver
        driver.get("file://" + name)

    def element(self, key):
        return self.driver.find_element("id", key)

    def exact(self, key):
        text = self.element(key).get_attribute("data-exact")
        return None if text is None else int(text)

    def shown(self):
        """What is counted, under the names of the report."""
        return {key: self.exact(key) for key in reports.REPORT_NAMES[1:]}

    def place(self, col, row):
        """Where the middle of a shown cell is in the window."""
        script = """const at = new DOMPoint(arguments[0] + .5, arguments[1] + .5)
            .matrixTransform(document.getElementById("map").getScreenCTM()); return [at.x, at.y];"""
        return [round(part) for part in self.driver.execute_script(script, col, row)]

    def draw(self, first, last):
        """Drags the mouse from one cell to another."""
        from selenium.webdriver.common.actions.action_builder import ActionBuilder

        self.driver.execute_script('document.getElementById("map").scrollIntoView({block: "center"})')
        actions = ActionBuilder(self.driver)
        mouse = actions.pointer_action
        mouse.move_to_location(*self.place(*first)).pointer_down()
        # By way of another cell, as a hand goes.
        mouse.move_to_location(*self.place(first[0], last[1])).move_to_location(*self.place(*last)).pointer_up()
        actions.perform()

    def keys(self, *keys):
        from selenium.webdriver.common.keys import Keys

        held, keys = [getattr(Keys, key) for key in keys[:-1]], getattr(Keys, keys[-1])
        chain = webdriver.ActionChains(self.driver)
        for key in held:
            chain.key_down(key)
        chain.send_keys(keys)
        for key in held:
            chain.key_up(key)
        chain.perform()

    def type(self, key, text):
        from selenium.webdriver.common.keys import Keys

        self.element(key).send_keys(Keys.CONTROL, "a")
        self.element(key).send_keys(text)

    def region(self):
        """The line for the calibration."""
        return json.loads(self.element("json").get_attribute("value"))

    def warnings(self, key="warnings", of_map=False):
        """What the page warns of, without its line on strange heights, or that alone."""
        lines = [it.text for it in self.element(key).find_elements("tag name", "li")]
        return [line for line in lines if (STRANGE in line) == of_map]

    def is_shown(self, key):
        return self.element(key).is_displayed()

    def wait_for_sure(self):
        """Until the numbers of points are unpacked."""
        from selenium.webdriver.support.ui import WebDriverWait

        there = lambda driver: driver.execute_script('return document.body.classList.contains("sure")')
        WebDriverWait(self.driver, 20).until(there)

    def fetched(self):
        script = "return performance.getEntriesByType('resource').map((it) => it.name)"
        return [name for name in self.driver.execute_script(script) if not name.startswith("data:")]


def counted(grid, region, base):
    """A line of the report, counted here, and the mean of the heights."""
    rows, cols = (slice(region[key], region[key] + region[key + "s"]) for key in ("row", "col"))
    heights = [int(it) for it in grid.heights[rows, cols][grid.filled[rows, cols]]]
    area = grid.cell**2
    line = {"cells": len(heights), "empty": region["rows"] * region["cols"] - len(heights)}
    line["fill"] = sum(height - base for height in heights if height > base) * area
    line["cut"] = sum(base - height for height in heights if height < base) * area
    line |= {"lowest": min(heights, default=None), "highest": max(heights, default=None)}
    return line, (2 * sum(heights) + len(heights)) // (2 * len(heights)) if heights else None


class Checks:
    def __init__(self):
        self.passed, self.failed = 0, 0

    def equal(self, what, found, wanted):
        if found == wanted:
            self.passed += 1
            return
        self.failed += 1
        print(f"survey_page: {what}: {found!r}, not {wanted!r}")

    def has(self, what, lines, part):
        self.equal(what + f" ({part})", any(part in line for line in lines), True)


def corners(region):
    first = (region["col"], region["row"])
    return first, (region["col"] + region["cols"] - 1, region["row"] + region["rows"] - 1)


def try_mouse(page, check, grid, regions, report):
    """Each region of the calibration, drawn: the report's numbers, and the calibration's line."""
    for region, line in zip(regions, report):
        page.draw(*corners(region))
        page.type("base", exact.decimal(region["base"], 6))
        page.type("name", region["name"])
        check.equal(f"{region['name']} drawn", page.shown(), {key: line[key] for key in page.shown()})
        check.equal(f"{region['name']}'s line", page.region(), region)
        numbers = " ".join(str(region[key]) for key in ("col", "row", "cols", "rows", "base"))
        words = page.element("words").get_attribute("value")
        check.equal(f"{region['name']}'s words", words, f"--region {region['name']} {numbers}")
        # From the other corner it is the same rectangle.
        page.draw(*reversed(corners(region)))
        check.equal(f"{region['name']} drawn backwards", page.region(), region)


# On paper


def sheets_of(driver):
    """How many sheets the page's PDF has, and the width and the height of each, in points."""
    printed = driver.execute_cdp_cmd("Page.printToPDF", {"preferCSSPageSize": True})
    pdf = base64.b64decode(printed["data"])
    boxes = re.findall(rb"/MediaBox\s*\[0 0 ([0-9.]+) ([0-9.]+)\]", pdf)
    return len(re.findall(rb"/Type\s*/Page\b", pdf)), [tuple(map(float, it)) for it in boxes]


# What of the page sticks out of the sheet at the right or at the left, or of a box that cuts it off.
STICKING_OUT = """const wide = document.documentElement.clientWidth, found = [];
    const told = (it) => it.id || `${it.tagName} ${it.textContent.slice(0, 30)}`;
    for (const it of document.body.querySelectorAll("*:not(svg *):not(option)")) {
        const box = it.getBoundingClientRect();
        if (box.width && box.height && (box.right > wide + 1 || box.left < -1)) found.push(told(it));
        const cuts = getComputedStyle(it).overflowX !== "visible";
        if (cuts && it.scrollWidth > it.clientWidth + 1) found.push(told(it));
    }
    const map = document.getElementById("map"), frame = map.getBoundingClientRect();
    for (const it of map.querySelectorAll("text, rect, path, image")) {
        const box = it.getBoundingClientRect();
        const isOut = box.right > frame.right + 1 || box.bottom > frame.bottom + 1;
        if (box.width && isOut) found.push(`map: ${told(it)}`);
    }
    return found;"""


def try_paper(page, check, what, regions, has_grid=True):
    """On paper the regions keep their names, what can't be pressed there is away, nothing is cut off, and
    one or two sheets of A4 are enough."""
    driver = page.driver
    number, sheets = sheets_of(driver)
    check.equal(f"{what} on {number} sheets", (1 <= number <= 2, len(sheets)), (True, number))
    off = max((abs(a - b) for sheet in sheets for a, b in zip(sheet, SHEET)), default=math.inf)
    check.equal(f"{what} on A4, not {sheets}", off < 1, True)
    driver.execute_cdp_cmd("Emulation.setEmulatedMedia", {"media": "print"})
    metrics = {"width": BETWEEN, "height": 1000, "deviceScaleFactor": 1, "mobile": False}
    driver.execute_cdp_cmd("Emulation.setDeviceMetricsOverride", metrics)
    check.equal(f"{what}: cut off", driver.execute_script(STICKING_OUT), [])
    controls = driver.find_elements("css selector", "button, input, select, textarea, canvas")
    names = [it.text for it in controls if it.is_displayed()]
    check.equal(f"{what}: controls on paper", names, [region["name"] for region in regions] if has_grid else [])
    parts = ("dated", "settings", *(("map", "legend-bar", "north", "regions", "fill", "place") if has_grid else ()))
    check.equal(f"{what}: on paper", [part for part in parts if not page.is_shown(part)], [])
    driver.execute_cdp_cmd("Emulation.clearDeviceMetricsOverride", {})
    driver.execute_cdp_cmd("Emulation.setEmulatedMedia", {"media": ""})
    check.equal(f"{what}: on the screen", (page.is_shown("ground"), page.is_shown("place")), (has_grid, False))


def try_names(page, check, regions, report):
    buttons = page.driver.find_elements("css selector", "#regions button")
    check.equal("names of the regions", [it.text for it in buttons], [region["name"] for region in regions])
    for button, region, line in zip(buttons, regions, report):
        button.click()
        check.equal(f"{region['name']} picked", page.shown(), {key: line[key] for key in page.shown()})
        check.equal(f"{region['name']}'s base", page.region(), region)


def try_bases(page, check, grid, regions):
    """A base that is typed, one that can't be, and one from the ground's mean."""
    pile, ground = regions[:2]
    page.draw(*corners(pile))
    for text, base in (("1.234567", 1234567), ("-0,5", -500000), ("2000", 2000000000)):
        page.type("base", text)
        check.equal(f"base {text}", page.shown(), counted(grid, pile, base)[0])
    before = page.shown()
    for text in ("2000.1", "x", " "):
        page.type("base", text)
        check.equal(f"base {text!r} is marked", page.element("base").get_attribute("aria-invalid"), "true")
        check.equal(f"base {text!r} counts nothing", page.shown(), before)
    page.type("base", "1.2345678")
    check.equal("a seventh decimal is marked", page.element("base").get_attribute("aria-invalid"), "true")
    # A piece of the slope, whose mean isn't a round number.
    for taken in (ground, {**pile, "col": pile["col"] + 20, "cols": 9, "rows": 31}):
        page.draw(*corners(taken))
        page.element("ground").click()
        line, mean = counted(grid, taken, 0)
        check.equal("mean", page.exact("mean"), mean)
        check.equal("base from the mean", page.region()["base"], mean)
        page.draw(*corners(pile))
        check.equal("pile over that base", page.shown(), counted(grid, pile, mean)[0])
    return mean


def try_keys(page, check, grid):
    page.type("base", "0")
    page.draw((40, 30), (49, 39))
    wanted = {"col": 40, "row": 30, "cols": 10, "rows": 10}
    for keys, change in (
        (("ARROW_RIGHT",), {"col": 41}),
        (("ARROW_DOWN",), {"row": 31}),
        (("CONTROL", "ARROW_LEFT"), {"col": 31}),
        (("SHIFT", "ARROW_RIGHT"), {"cols": 11}),
        (("SHIFT", "ARROW_UP"), {"rows": 9}),
        (("CONTROL", "SHIFT", "ARROW_DOWN"), {"rows": 19}),
        (("ARROW_UP",), {"row": 30}),
    ):
        page.keys(*keys)
        wanted |= change
        check.equal(" ".join(keys), {key: page.region()[key] for key in wanted}, wanted)
        check.equal(" ".join(keys) + " counts", page.shown(), counted(grid, wanted, 0)[0])
    for key, number in (("col", 3), ("rows", 60)):
        page.type(key, str(number))
        wanted[key] = number
    check.equal("typed", {key: page.region()[key] for key in wanted}, wanted)
    check.equal("typed counts", page.shown(), counted(grid, wanted, 0)[0])


# How sure cells are, and what stands around the map


def millimetres(micrometres):
    """Millimetres with a decimal, halves away from 0, as the legend and a cell's line have them."""
    size = (abs(micrometres) + 50) // 100
    return ("-" if micrometres < 0 < size else "") + f"{size // 10}.{size % 10} mm"


def points_in_cells(calibration, out):
    """The heights of the points in each cell, {(column, row): [..]}, by the plain definitions."""
    values, filled = files.read_disparities(out + ".pgm")
    grid, first, cells = calibration["grid"], calibration["disparities"]["first"], {}
    for y, x in numpy.argwhere(filled).tolist():
        point = point_at(calibration, x, y, 16 * first + int(values[y, x]))
        if point is None:
            continue
        col, south = (point[0] - grid["west"]) // grid["cell"], (point[1] - grid["south"]) // grid["cell"]
        if 0 <= col < grid["cols"] and 0 <= south < grid["rows"]:
            cells.setdefault((col, grid["rows"] - 1 - south), []).append(point[2])
    return cells


def told_cell(col, row, heights, height):
    """The line on a cell."""
    where = f"Column {col}, row {row}: "
    if height is None:
        return where + "empty"
    where += f"height {to_millimetres(height)} m, "
    if not heights:
        return where + "bridged: no point falls into it"
    if len(heights) == 1:
        return where + "1 point, so no spread"
    spread = math.floor(statistics.pstdev(heights) + 0.5)
    return where + f"{len(heights)} points, standard deviation {millimetres(spread)}"


def some_cells(cells, grid):
    """An empty cell, a bridged one, one with a point and two with more, where there are such."""
    kinds = {}
    rows, cols = grid.heights.shape
    for row in range(rows):
        for col in range(cols):
            number = len(cells.get((col, row), []))
            kinds.setdefault(min(number, 3) if grid.filled[row, col] else "empty", (col, row))
    return kinds


def hover(page, col, row):
    from selenium.webdriver.common.actions.action_builder import ActionBuilder

    actions = ActionBuilder(page.driver)
    actions.pointer_action.move_to_location(*page.place(col, row))
    actions.perform()


def try_cells(page, check, calibration, out, grid):
    """The numbers of cells under the mouse and under the cross."""
    cells, driver = points_in_cells(calibration, out), page.driver
    page.wait_for_sure()
    driver.execute_script('document.getElementById("map").scrollIntoView({block: "center"})')
    height = lambda col, row: int(grid.heights[row, col]) if grid.filled[row, col] else None
    told = lambda col, row: told_cell(col, row, cells.get((col, row)), height(col, row))
    kinds = some_cells(cells, grid)
    check.equal("kinds of cells", {"empty", 0, 1, 2, 3} - kinds.keys(), set())
    for kind, (col, row) in kinds.items():
        hover(page, col, row)
        check.equal(f"a cell with {kind}", page.element("cell").text, told(col, row))
    # By keyboard, from the middle of the grid.
    page.element("mode-cell").click()
    check.equal("the cell's button", page.element("mode-cell").get_attribute("aria-pressed"), "true")
    driver.execute_script("document.getElementById('map').focus()")
    before = page.region()
    col, row = grid.heights.shape[1] // 2, grid.heights.shape[0] // 2
    for keys, across, down in (
        (("ARROW_LEFT",), -1, 0),
        (("ARROW_DOWN",), 0, 1),
        (("CONTROL", "ARROW_RIGHT"), 10, 0),
        (("SHIFT", "ARROW_UP"), 0, -1),
    ):
        page.keys(*keys)
        col, row = col + across, row + down
        check.equal(" ".join(keys) + " of the cross", page.element("cell").text, told(col, row))
        check.equal("its numbers are spoken", page.element("cell").get_attribute("aria-live"), "polite")
    for _ in range(1 + grid.heights.shape[1] // 10):
        page.keys("CONTROL", "ARROW_LEFT")
    check.equal("the cross stays on the grid", page.element("cell").text, told(0, row))
    click(page, 7.5, 4.5)
    check.equal("the cross by a click", page.element("cell").text, told(7, 4))
    check.equal("the rectangle stays", page.region(), before)
    if calibration["version"] == 3:
        page.element("mode-outline").click()
        page.element("anew").click()
        driver.execute_script("document.getElementById('map').focus()")
        page.keys("ARROW_RIGHT")
        check.equal("the outline's cross", page.element("cell").text, told(8, 4))
    page.element("mode-rectangle").click()


def colours_on(driver, cells):
    """The colours of the map's picture in these cells."""
    script = """const [cells, done] = arguments, image = new Image();
        image.onload = () => {
            const canvas = document.createElement("canvas");
            [canvas.width, canvas.height] = [image.width, image.height];
            const pen = canvas.getContext("2d");
            pen.drawImage(image, 0, 0);
            const { data, width } = pen.getImageData(0, 0, image.width, image.height);
            done(cells.map(([col, row]) => [...data.slice(4 * (row * width + col)).slice(0, 4)]));
        };
        image.src = document.querySelector("#map image").getAttribute("href");"""
    return [tuple(it) for it in driver.execute_async_script(script, cells)]


def legend_of(page):
    """The title and the texts along the scale."""
    spans = page.driver.find_elements("css selector", "#legend-ticks span")
    return page.element("legend-title").text, [it.text for it in spans]


def try_layers(page, check, calibration, out, grid):
    """Numbers of points and spreads beside the heights, and their legends."""
    driver, cells = page.driver, points_in_cells(calibration, out)
    page.wait_for_sure()
    heights = sorted(int(it) for it in grid.heights[grid.filled])
    spare = len(heights) // 100
    title, ends = legend_of(page)
    wanted = [f"{to_millimetres(heights[at])} m" for at in (spare, -1 - spare)]
    check.equal("the legend of the heights", (title[:17], ends[0], ends[-1]), ("Heights in metres", *wanted))
    before = driver.find_element("css selector", "#map image").get_attribute("href")

    # By keyboard from one layer to the next.
    driver.execute_script("document.getElementById('layer-heights').focus()")
    page.keys("ARROW_RIGHT")
    check.equal("the layer by keys", page.element("layer-numbers").is_selected(), True)
    numbers = sorted(map(len, cells.values()))
    most = numbers[-1 - len(numbers) // 100]
    title, ends = legend_of(page)
    check.has("the legend of the numbers", [title], "Points of the disparity map that fall into a cell")
    check.equal("its ends", (ends[0], ends[-1]), ("1", str(most)))
    kinds = some_cells(cells, grid)
    many = next(at for at, found in cells.items() if len(found) >= most)
    shown = colours_on(driver, [kinds["empty"], kinds[0], kinds[1], many])
    wanted = [(0, 0, 0, 255), (154, 160, 166, 255), (255, 247, 188, 255), (8, 29, 88, 255)]
    check.equal("colours of numbers", shown, wanted)

    page.keys("ARROW_RIGHT")
    spreads = {at: math.floor(statistics.pstdev(found) + 0.5) for at, found in cells.items() if len(found) > 1}
    sizes = sorted(spreads.values())
    most = sizes[-1 - len(sizes) // 100]
    title, ends = legend_of(page)
    check.has("the legend of the spreads", [title], "Spread of the points of a cell in millimetres: ")
    check.equal("the ends of the spreads", (ends[0], ends[-1]), ("0.0 mm", millimetres(most)))
    check.has("which spread", [title], "the standard deviation of their heights")
    wide = next(at for at, found in spreads.items() if found >= most)
    shown = colours_on(driver, [kinds["empty"], kinds[0], kinds[1], wide])
    wanted[2:] = [(154, 160, 166, 255), (110, 0, 30, 255)]
    check.equal("colours of spreads", shown, wanted)
    keys = lambda: [it.text for it in driver.find_elements("css selector", ".keys li") if it.is_displayed()]
    check.has("what grey means", keys(), "grey: fewer than two points, no spread")
    check.has("what violet means", keys(), "violet: bridged, no point falls into it")
    page.element("show-bridges").click()
    check.equal("no violet", [it for it in keys() if "violet" in it], [])
    page.element("show-bridges").click()
    page.element("layer-heights").click()
    again = driver.find_element("css selector", "#map image").get_attribute("href")
    check.equal("the heights again", (again == before, legend_of(page)[0][:7]), (True, "Heights"))
    check.equal("grey no more", [it for it in keys() if "grey" in it], [])


def try_foot(page, check, calibration, north):
    """The scale bar is as long as it says, and the page says which way north is."""
    grid, driver = calibration["grid"], page.driver
    width = grid["cols"] * grid["cell"]
    long = max(it * 10**power for power in range(14) for it in (1, 2, 5) if 4 * it * 10**power <= width)
    check.equal("the scale bar's length", page.exact("scale-bar"), long)
    script = "return arguments[0].getBoundingClientRect().width"
    parts = [driver.find_element("css selector", it) for it in ("#scale-bar", "#map image")]
    bar, whole = (driver.execute_script(script, part) for part in parts)
    # The bar has a line around it.
    check.equal(f"its length on the map, {bar} of {whole}", abs(bar / whole * width / long - 1) < 0.03, True)
    texts = [it.text for it in driver.find_elements("css selector", "#map text")]
    words = f"{exact.decimal(long, 6)} m"
    check.equal("its text and north's", (words in texts, "N" in texts), (True, True))
    script = """const boxOf = (it) => document.getElementById(it).getBoundingClientRect();
        const [arrow, map] = ["north-arrow", "map"].map(boxOf);
        return arrow.width > 0 && arrow.bottom <= map.bottom && arrow.right <= map.right;"""
    check.equal("the arrow", driver.execute_script(script), True)
    check.has("which north", [page.element("north").text], north)


def try_above(page, check, out, calibration, ground):
    """The volumes above the ground and plus or minus are those of tools/cubic_metres.py."""
    with open(out + ".json", "w") as file:
        json.dump(calibration, file)
    command = [sys.executable, os.path.join(TOP, "tools", "cubic_metres.py"), out + ".csv", "--ground", ground]
    more = ["--calibration", out + ".json", "--heights", out + ".asc"]
    done = subprocess.run([*command, *more], capture_output=True, text=True, check=True)
    lines = list(csv.DictReader(done.stdout.splitlines()))
    check.equal("above what", page.element("above-name").text, ground)
    for row, line in zip(page.driver.find_elements("css selector", "#regions tbody tr"), lines):
        shown = [it.get_attribute("data-exact") for it in row.find_elements("css selector", ".of-above")]
        shown = ["" if it is None else exact.decimal(int(it), 18) for it in shown]
        check.equal(f"{line['region']} above the ground", shown, [line["above_m3"], line["plus_minus_m3"]])


def try_sure(driver, check, folder, screenshot):
    """The example's survey in version 3, of which the picture is too."""
    with open(os.path.join(HEAP, "calibration_3.json")) as file:
        calibration = json.load(file)
    out = matched("heap_3", calibration, folder, HEAP)
    grid, regions = grids.read_grid(out + ".asc"), calibration["regions"]
    page = page_of(driver, out, calibration, os.path.join(HEAP, "left.pgm"), title="The stockpile")
    page.wait_for_sure()
    # The whole picture, as it stands when it is opened.
    driver.set_window_size(*PICTURED)
    driver.save_screenshot(screenshot)
    driver.set_window_size(*SIZE)
    check.equal("strange heights of version 3", page.warnings(of_map=True), [])
    pattern, written = r"heap_3\.asc was written on \d{4}-\d\d-\d\d \d\d:\d\d UTC\.", page.element("dated").text
    check.equal(f"the date in {written}", re.fullmatch(pattern, written) is not None, True)
    check.has("the settings", [page.element("settings").text], "first 28, count 36, fine true")
    try_layers(page, check, calibration, out, grid)
    try_foot(page, check, calibration, "up in the left picture")
    try_cells(page, check, calibration, out, grid)
    try_above(page, check, out, calibration, "ground")
    try_paper(page, check, "the heap of version 3", regions)
    page.element("digits").click()
    page.element("layer-spreads").click()
    try_paper(page, check, "every digit of it", regions)
    # A dozen regions, one of them with the longest name and another ground.
    more = [{**regions[0], "name": name, "row": 20 + at} for at, name in enumerate((64 * "m", *"abcdefghi"))]
    more = [{**it, "rows": 40} for it in more]
    crowded = {**calibration, "regions": [*regions, *more, {**regions[1], "name": "ground east", "rows": 9}]}
    out = matched("crowded", crowded, folder, HEAP)
    page = page_of(driver, out, crowded, os.path.join(HEAP, "left.pgm"))
    try_paper(page, check, "many regions", crowded["regions"])
    try_above(page, check, out, crowded, "ground")
    page.element("above-ground").send_keys("ground e")
    try_above(page, check, out, crowded, "ground east")


# Surveys that are made up


def write_survey(folder, name, heights, regions, report=None):
    """OUT.pgm, OUT.asc and OUT.csv of a grid of cells of 0.5 m, 5 m below cameras whose step there is 0.1 m."""
    heights, out = numpy.array(heights, numpy.int64), os.path.join(folder, name)
    rows, cols = heights.shape
    calibration = {
        "disparities": {"first": 10, "count": 20},
        "camera": {
            "focal": 128000, "baseline": 500000, "cx": 0, "cy": 0, "doffs": 0,
            "mount": 5000000, "near": 1, "far": 6000000,
        },
        "grid": {"west": 0, "south": -1000000, "cell": 500000, "cols": cols, "rows": rows},
        "regions": regions,
    }
    with open(out + ".asc", "w") as file:
        file.write(f"ncols {cols}\nnrows {rows}\nxllcorner 0\nyllcorner -1000000\ncellsize 500000\n")
        file.write(f"NODATA_value {EMPTY}\n")
        file.write("".join(" ".join(map(str, row)) + "\n" for row in heights))
    grid = grids.read_grid(out + ".asc")
    with open(out + ".csv", "w") as file:
        file.write(",".join(reports.REPORT_NAMES) + "\n")
        for region in regions:
            line = report or counted(grid, region, region["base"])[0]
            words = [region["name"], *("" if value is None else value for value in line.values())]
            file.write(",".join(map(str, words)) + "\n")
    samples = numpy.full((10, 10), 160, ">u2")
    samples[0, :5] = 16
    with open(out + ".pgm", "wb") as file:
        file.write(b"P5\n10 10\n65535\n" + samples.tobytes())
    return out, calibration, grid


def page_of(driver, out, calibration, *more, title="a <title> & more"):
    name = out + ".html"
    with open(name, "w", encoding="utf-8") as file:
        known = sgm_page.survey(out, calibration, *(more or [None]))
        file.write(sgm_page.page(survey_page.TEMPLATE, title, known))
    return Page(driver, name)


def region_of(name, grid_rows, grid_cols, base=0):
    return {"name": name, "col": 0, "row": 0, "cols": grid_cols, "rows": grid_rows, "base": base}


def try_warnings(driver, check, folder):
    flat = numpy.full((20, 30), 1000)
    region = region_of("ground", 20, 30)
    found = page_of(driver, *write_survey(folder, "flat", flat, [region])[:2]).warnings()
    check.equal("warnings of flat ground", len(found), 1)
    strange = page_of(driver, *write_survey(folder, "flat", flat, [region])[:2]).warnings(of_map=True)
    check.has("strange heights", strange, "in 600 cells the height isn't that of the points")
    check.has("the span", found, "5.0 % of the disparities are the least one, 10")
    slope = flat + 20000 * numpy.arange(30)
    found = page_of(driver, *write_survey(folder, "slope", slope, [region])[:2]).warnings()
    check.has("a slope", found, "ground: the ground slopes: it rises by 0.600 m to the east and 0.000 m to the north")
    # The same as a heap: only ground has to be flat.
    heap = region_of("heap", 20, 30)
    found = page_of(driver, *write_survey(folder, "heap", slope, [heap])[:2]).warnings()
    check.equal("warnings of a heap that slopes", len(found), 1)
    spike = flat.copy()
    spike[7, 11] = 1800000
    found = page_of(driver, *write_survey(folder, "spike", spike, [heap])[:2]).warnings()
    check.has("a spike", found, "heap: the highest cell (column 11, row 7) stands 1.799 m above its neighbours")
    holes = flat.copy()
    holes[:, 3:6] = EMPTY
    found = page_of(driver, *write_survey(folder, "holes", holes, [heap])[:2]).warnings()
    check.has("holes", found, "heap: 10.0 % of the cells are empty (60 of 600): their volume is missing")
    other = {"cells": 600, "empty": 0, "fill": 1, "cut": 0, "lowest": 1000, "highest": 1000}
    found = page_of(driver, *write_survey(folder, "other", flat, [heap], other)[:2]).warnings()
    check.has("another report", found, "heap: OUT.csv says something else than the cells of OUT.asc")


def try_bridged(driver, check, folder):
    """The regions' table has the bridged cells where the report has them."""
    region = region_of("heap", 20, 30)
    out, calibration, _ = write_survey(folder, "bridged", numpy.full((20, 30), 1000), [region])
    shown = lambda page, of: [it.text for it in page.driver.find_elements("css selector", f"#regions {of}") if it.is_displayed()]
    page = page_of(driver, out, calibration)
    both = shown(page, "th"), shown(page, "td")
    check.equal("columns", (both[0][:3], both[1][:3]), (["region", "cells", "empty"], ["heap", "600", "0"]))
    lines = [line.split(",") for line in files.read_bytes(out + ".csv").decode().splitlines()]
    with open(out + ".csv", "w") as file:
        for word, line in zip(("bridged", "17"), lines):
            file.write(",".join([*line[:2], word, *line[2:]]) + "\n")
    page = page_of(driver, out, calibration)
    columns = ["region", "cells", "bridged", "empty"]
    check.equal("bridged", (shown(page, "th"), shown(page, "td")), (columns + both[0][3:], ["heap", "600", "17", "0"] + both[1][3:]))
    check.equal("warnings with bridges", len(page.warnings()), 1)


# Version 3: outlines, bases that slope, plus or minus


THIRD = {"west": 0, "south": -1000000, "cell": 500000, "cols": 30, "rows": 20}


def counted_inside(grid, region):
    """A line of the report, of the cells inside from their bases, and plus or minus's parts of it
    as a ground."""
    heights, bases = sgm_regions.found_in(region, THIRD, grid.heights, grid.filled)
    above = [int(high) - int(low) for high, low in zip(heights, bases)]
    line = {
        "cells": len(heights),
        "empty": sgm_regions.number_of_cells(region, THIRD) - len(heights),
    }
    for key, sign in (("fill", 1), ("cut", -1)):
        line[key] = sum(max(0, sign * it) for it in above) * THIRD["cell"] ** 2
    return line | {
        "lowest": int(heights.min()),
        "highest": int(heights.max()),
    }, sgm_regions.ground_spread(heights, bases)


def write_third(folder):
    """A heap on ground that slopes by 1 in 20, with some noise: OUT, its calibration and its
    grid."""
    draw = random.Random(23)
    heights = [
        [12500 * (2 * col + 1) + draw.randint(-900, 900) for col in range(30)] for _ in range(20)
    ]
    for row in range(5, 15):
        for col in range(8, 18):
            heights[row][col] += 300000
    heights[9][9] = EMPTY
    bounds = {
        "name": "heap",
        "col": 8,
        "row": 5,
        "cols": 10,
        "rows": 10,
        "base": 5,
        "rise_east": 50000,
        "rise_north": 0,
    }
    regions = [
        {
            **bounds,
            "outline": [4000000, 1500000, 9000000, 1500000, 9000000, 4200000, 6000000, 6500000],
        },
        {**bounds, "name": "ground", "col": 20, "row": 0, "cols": 10, "rows": 20, "base": 0},
    ]
    out, calibration, grid = write_survey(folder, "third", heights, regions)
    calibration |= {"version": 3}
    calibration["grid"] |= {"keep": "mean", "bridge": 0}
    with open(out + ".csv", "w") as file:
        file.write(",".join(reports.BRIDGED_NAMES) + "\n")
        for region in regions:
            line, _ = counted_inside(grid, region)
            file.write(
                ",".join(map(str, [region["name"], line["cells"], 0, *list(line.values())[1:]]))
                + "\n"
            )
    return out, calibration, grid


def corner_words(page):
    return [
        it.get_attribute("aria-label")
        for it in page.driver.find_elements("css selector", ".corner")
    ]


def click(page, x, y):
    """Clicks a place of the map, in cells."""
    from selenium.webdriver.common.actions.action_builder import ActionBuilder

    actions = ActionBuilder(page.driver)
    actions.pointer_action.move_to_location(*page.place(x - 0.5, y - 0.5)).click()
    actions.perform()


def drawn_region(page):
    """The region of the page, with the outline that the words for the calibration tool have."""
    region = page.region()
    words = page.element("words").get_attribute("value").split(" ")
    name, _, numbers = words[1].partition("=")
    return region, (words[0], name, [int(it) for it in numbers.split(",")], words[2:])


def try_outlines(driver, check, folder):
    out, calibration, grid = write_third(folder)
    page = page_of(driver, out, calibration)
    heap, ground = calibration["regions"]
    check.equal(
        "warnings of an outline", [it for it in page.warnings() if "disparities" not in it], []
    )
    # Both regions are picked by their names, and counted as the program counts them.
    for button, region in zip(
        driver.find_elements("css selector", "#regions button"), (heap, ground)
    ):
        button.click()
        check.equal(f"{region['name']} of version 3", page.shown(), counted_inside(grid, region)[0])
        check.equal(f"{region['name']}'s line of version 3", page.region(), region)
    check.equal(
        "words of a plane",
        page.element("words").get_attribute("value"),
        "--region ground 20 0 10 20 0 --plane ground 0 50000 0",
    )

    # The ground's plane becomes the base of an outline that is drawn by the mouse.
    page.element("plane").click()
    cells = [
        (col, 19 - row, int(grid.heights[row, col]))
        for col, row in sgm_regions.cells_of(ground, THIRD)
    ]
    base, east, north = sgm_regions.Plane(cells).fitted(THIRD["cell"])
    flat = {"base": base, "rise_east": east, "rise_north": north}
    check.equal("the plane of the ground", {key: page.region()[key] for key in flat}, flat)
    mean, spread = counted_inside(grid, {**ground, **flat})[1]
    sixteenth = sgm_regions.sixteenth_at(mean, calibration["camera"])
    page.element("mode-outline").click()
    page.element("anew").click()
    page.driver.execute_script('document.getElementById("map").scrollIntoView({block: "center"})')
    places = [(8, 4), (19, 5), (17, 15), (12, 10), (7, 16)]
    for place in places:
        click(page, *place)
    check.equal("corners by the mouse", len(corner_words(page)), 5)
    click(page, *places[0])
    page.type("name", "new")

    def same_as_python(what):
        region, (option, name, outline, rest) = drawn_region(page)
        check.equal(
            f"{what}: the least rectangle",
            [region[key] for key in ("col", "row", "cols", "rows")],
            list(sgm_regions.least_rectangle(region["outline"], THIRD)),
        )
        line, _ = counted_inside(grid, region)
        check.equal(f"{what}: counts", page.shown(), line)
        check.equal(
            f"{what}: words",
            (option, name, outline),
            ("--outline", region["name"], region["outline"]),
        )
        check.equal(
            f"{what}: plane", rest, ["--plane", region["name"], str(base), str(east), str(north)]
        )
        sure = sgm_regions.plus_minus(line["cells"], THIRD["cell"], sixteenth, spread)
        check.equal(f"{what}: plus or minus", page.exact("plus-minus"), sure)
        return region["outline"]

    outline = same_as_python("mouse")
    near = [
        abs(at * 500000 - e) + abs((18 - y) * 500000 - n)
        for (at, y), e, n in zip(places, outline[::2], outline[1::2])
    ]
    check.equal("corners where the mouse was", max(near) < 100000, True)

    # The second corner moves by keys, the third goes, and the mouse moves the first one.
    second, third = driver.find_elements("css selector", ".corner")[1:3]
    driver.execute_script("arguments[0].focus()", second)
    page.keys("ARROW_LEFT")
    page.keys("CONTROL", "ARROW_DOWN")
    page.keys("SHIFT", "ARROW_UP")
    moved = same_as_python("keys")
    wanted = [*outline[:2], outline[2] - 500000, outline[3] - 5000000 + 50000, *outline[4:]]
    check.equal("a corner moved by keys", moved, wanted)
    check.equal("it keeps the focus", driver.switch_to.active_element == second, True)
    style = driver.execute_script("return getComputedStyle(arguments[0]).outlineStyle", second)
    check.equal("a focus to be seen", style, "solid")
    driver.execute_script("arguments[0].focus()", third)
    page.keys("DELETE")
    check.equal("a corner gone", same_as_python("gone"), [*moved[:4], *moved[6:]])

    # From the first corner to the last by keys alone. The cross stays on the grid.
    page.element("anew").click()
    driver.execute_script("document.getElementById('map').focus()")
    for keys in (
        ("ENTER",),
        ("CONTROL", "ARROW_LEFT"),
        ("ENTER",),
        ("CONTROL", "ARROW_UP"),
        ("ENTER",),
        ("ENTER",),
    ):
        page.keys(*keys)
    page.keys("BACK_SPACE")
    check.equal("corners by keys", len(corner_words(page)), 3)
    check.has("not closed", [page.element("outline-note").text], "not closed yet")
    driver.execute_script("document.getElementById('map').focus()")
    page.keys("ENTER")
    page.keys("BACK_SPACE")
    webdriver.ActionChains(driver).send_keys("c").perform()
    region = page.region()
    e, n = region["outline"][:2]
    check.equal("an outline by keys", region["outline"], [e, n, 0, n, 0, n + 5000000])
    check.equal("keys counted", page.shown(), counted_inside(grid, region)[0])
    # Rises are typed, and a base from nowhere has no plus or minus.
    page.type("rise-north", "-0.0125")
    check.equal(
        "a rise that is typed",
        (page.region()["rise_north"], page.exact("plus-minus")),
        (-12500, None),
    )
    page.type("rise-north", "1.1")
    check.equal(
        "a rise that is too steep", page.element("rise-north").get_attribute("aria-invalid"), "true"
    )
    # Back to rectangles, in which the outline has no part.
    page.element("mode-rectangle").click()
    page.draw((3, 4), (9, 12))
    region = page.region()
    check.equal(
        "a rectangle beside an outline",
        (region["col"], region["rows"], "outline" in region),
        (3, 9, False),
    )
    check.equal("its counts", page.shown(), counted_inside(grid, region)[0])


def matched(name, calibration, folder, example=SLOPE):
    """Matches the pair of an example with a calibration: OUT. By the program that the variable SGM names, or
    else by the separate implementation."""
    out = os.path.join(folder, name)
    with open(out + ".json", "w") as file:
        json.dump(calibration, file)
    reference = [sys.executable, os.path.join(HERE, "quick_reference.py")]
    program = [os.environ["SGM"]] if "SGM" in os.environ else reference
    pair = [os.path.join(example, side) for side in ("left.pgm", "right.pgm")]
    subprocess.run([*program, "match", *pair, out + ".json", out], check=True, capture_output=True)
    return out


def region_of_words(words, grid):
    """The region that the tool for calibrations makes of the page's words."""
    name, source = opencv_calibration.outline_words(words[words.index("--outline") + 1])
    at = words.index("--plane")
    plane = opencv_calibration.plane_words(words[at + 1 : at + 5], [name])
    numbers = [grid[key] for key in ("west", "south", "cell", "cols", "rows")]
    told = types.SimpleNamespace(
        region=[],
        version=3,
        grid=numbers,
        keep=grid["keep"],
        bridge=grid["bridge"],
        outline=[(name, source)],
        outline_origin=None,
        plane=[plane],
        base_from=None,
    )
    (made,), lines = opencv_calibration.regions_of(told)
    return made, lines


def try_again(driver, check, folder):
    """An outline is drawn over measured heights, on the plane of measured ground; its words become a
    calibration, and the pair is matched again: the report says what the page said."""
    with open(os.path.join(SLOPE, "calibration.json")) as file:
        calibration = json.load(file)
    out = matched("slope", calibration, folder)
    page = page_of(driver, out, calibration)
    names = [it["name"] for it in calibration["regions"]]
    driver.find_elements("css selector", "#regions button")[names.index("ground")].click()
    page.element("plane").click()
    page.element("mode-outline").click()
    page.element("anew").click()
    driver.execute_script('document.getElementById("map").scrollIntoView({block: "center"})')
    cols, rows = (calibration["grid"][key] for key in ("cols", "rows"))
    places = [(0.3, 0.3), (0.65, 0.25), (0.7, 0.6), (0.5, 0.5), (0.35, 0.75)]
    for east, south in places:
        click(page, round(east * cols), round(south * rows))
    click(page, *(round(part * side) for part, side in zip(places[0], (cols, rows))))
    page.type("name", "again")
    words = page.element("words").get_attribute("value").split(" ")
    region, lines = region_of_words(words, calibration["grid"])
    check.equal("what the tool says of the page's words", lines, [])
    check.equal("the tool's region is the page's", region, page.region())
    again = matched("again", {**calibration, "regions": [region]}, folder)
    (line,) = reports.read_report(again + ".csv")
    shown = page.shown()
    check.equal("matched again", {key: line[key] for key in shown}, shown)
    check.equal("some cells", line["cells"] > 1000, True)
    check.equal("bridged again", page.exact("bridged"), line["bridged"])


# A pose: the site's frame


ONE = 1 << 30
# Tilted by 12 degrees and turned by 30.
ASLANT = [929887697, -525138994, 111621739, 536870912, 909567419, -193334523]
ASLANT += [0, 223243478, 1050277989]
POSE = {"matrix": ASLANT, "east": 12000000, "north": -7000000, "up": 431000000}


def site_point(pose, point):
    """East, north and height by their definition; None where the height is out of range."""
    rows = [pose["matrix"][at : at + 3] for at in (0, 3, 6)]
    sums = [sum(a * b for a, b in zip(row, point)) for row in rows]
    made = [pose[key] + (2 * it + ONE) // (2 * ONE) for key, it in zip(("east", "north", "up"), sums)]
    return made if abs(made[2]) <= 2000000000 else None


def point_at(calibration, x, y, sixteenths):
    """The point of a pixel, in the site's frame where there is a pose."""
    found = reference_matching.point(calibration["camera"], x, y, sixteenths)
    pose = calibration.get("pose")
    return site_point(pose, found) if found and pose else found


def slanting_calibration():
    """The calibration of examples/slope with a pose, and a grid and regions that suit it."""
    with open(os.path.join(SLOPE, "calibration.json")) as file:
        calibration = json.load(file)
    grid = {"west": 4500000, "south": -15500000, "cell": 50000, "cols": 320, "rows": 320}
    outline = [9000000, -11000000, 15000000, -11500000, 18000000, -4000000, 10000000, -3000000]
    regions = [
        {"name": "part", "col": 80, "row": 50, "cols": 200, "rows": 180, "base": 430500000,
         "rise_east": -40000, "rise_north": 30000, "outline": outline},
        {"name": "ground", "col": 40, "row": 100, "cols": 50, "rows": 40, "base": 430500000,
         "rise_east": -90000, "rise_north": 60000},
    ]
    made = {**calibration, "grid": {**calibration["grid"], **grid}, "regions": regions, "pose": POSE}
    return made


def written_by_definition(out, calibration, map_of):
    """OUT.pgm of another survey of the pair, and OUT.asc and OUT.csv of this calibration, by the
    plain definitions."""
    shutil.copy(map_of + ".pgm", out + ".pgm")
    values, filled = files.read_disparities(out + ".pgm")
    grid, regions = calibration["grid"], calibration["regions"]
    first, points = calibration["disparities"]["first"], []
    for y, x in numpy.argwhere(filled).tolist():
        points.append(point_at(calibration, x, y, 16 * first + int(values[y, x])))
    there = [it for it in points if it is not None]
    before = reference_matching.heights(there, grid, grid["keep"])
    cells = reference_matching.bridged(before, grid["cell"], grid["bridge"])
    with open(out + ".asc", "w") as file:
        for name, key in zip(("ncols", "nrows", "xllcorner", "yllcorner", "cellsize"), ("cols", "rows", "west", "south", "cell")):
            file.write(f"{name} {grid[key]}\n")
        file.write(f"NODATA_value {EMPTY}\n")
        for row in cells:
            file.write(" ".join(str(EMPTY if it is None else it) for it in row) + "\n")
    corner = grid["west"], grid["south"]
    with open(out + ".csv", "w") as file:
        file.write(",".join(reports.BRIDGED_NAMES) + "\n")
        for region in regions:
            line = reference_matching.tally_with_bridges(before, cells, grid["cell"], region, corner)
            file.write(",".join(map(str, [region["name"], *line])) + "\n")


def slanting_survey(folder):
    """OUT and its calibration, of the pair that was matched without a pose."""
    calibration, out = slanting_calibration(), os.path.join(folder, "slanting")
    written_by_definition(out, calibration, os.path.join(folder, "slope"))
    return out, calibration


def sixteenth_aslant(calibration, grid, region, plane):
    """What a sixteenth of a pixel is in height at the middle of a region's cells, on a plane of the
    ground: by the distance along the camera's axis, and how high the camera is above that plane."""
    sides, camera, pose = (calibration[key] for key in ("grid", "camera", "pose"))
    cells = [
        (2 * col + 1, 2 * (sides["rows"] - row) - 1)
        for col, row in sgm_regions.cells_of(region, sides)
        if grid.filled[row, col]
    ]
    across, along = (sum(part) for part in zip(*cells))
    rounded, cell, many = exact.rounded, grid.cell, len(cells)
    rise = (plane["rise_east"] * across + plane["rise_north"] * along) * cell
    place = [grid.west + rounded(across * cell, 2 * many), grid.south + rounded(along * cell, 2 * many)]
    place.append(plane["base"] + rounded(rise, 2000000 * many))
    shift = [pose[key] for key in ("east", "north", "up")]
    off = sum(m * (a - b) for m, a, b in zip(pose["matrix"][2::3], place, shift))
    east, north, up = site_point(pose, (0, 0, camera["mount"]))
    rise = plane["rise_east"] * (east - grid.west) + plane["rise_north"] * (north - grid.south)
    above = up - plane["base"] - rounded(rise, 10**6)
    away = camera["mount"] - rounded(off, ONE)
    return rounded(16 * away * above, camera["focal"] * camera["baseline"])


def try_pose(driver, check, folder):
    """A survey with a pose: what is counted is what OUT.csv has, plus or minus comes from the distance
    along the camera's axis, and bridged cells are known."""
    out, calibration = slanting_survey(folder)
    again = matched("slanting_again", calibration, folder)
    for ending in (".pgm", ".asc", ".csv"):
        same = files.read_bytes(out + ending) == files.read_bytes(again + ending)
        check.equal(f"the match with a pose by the definitions: {ending}", same, True)
    page, report = page_of(driver, out, calibration), reports.read_report(out + ".csv")
    grid, regions = grids.read_grid(out + ".asc"), calibration["regions"]
    said = [it for it in page.warnings() if "OUT.csv" in it]
    check.equal("the cells and the report of a survey with a pose", said, [])
    check.equal("cells enough", report[0]["cells"] > 10000 and report[1]["cells"] > 1000, True)
    check.equal("some are bridged", report[0]["bridged"] > 100, True)
    for button, region, line in zip(driver.find_elements("css selector", "#regions button"), regions, report):
        button.click()
        found = {**page.shown(), "bridged": page.exact("bridged")}
        check.equal(f"{region['name']} with a pose", found, {key: line[key] for key in found})
        check.equal(f"{region['name']}'s line with a pose", page.region(), region)
    note = [it.text for it in driver.find_elements("css selector", ".of-site") if it.is_displayed()]
    check.has("the site's frame", note, "East, north and height are the site's")
    check.equal("the camera's frame", [it for it in driver.find_elements("css selector", ".of-camera") if it.is_displayed()], [])

    # The ground is the second region: its plane becomes the base of a rectangle.
    page.element("plane").click()
    plane = page.region()
    ground = {**regions[1], **{key: plane[key] for key in ("base", "rise_east", "rise_north")}}
    found = sgm_regions.found_in(ground, calibration["grid"], grid.heights, grid.filled)
    spread = sgm_regions.ground_spread(*found)[1]
    page.element("mode-rectangle").click()
    page.draw((120, 80), (240, 200))
    places = ground, page.region()
    sixteenth = max(sixteenth_aslant(calibration, grid, it, plane) for it in places)
    sure = sgm_regions.plus_minus(page.exact("cells"), grid.cell, sixteenth, spread)
    check.equal("plus or minus with a pose", page.exact("plus-minus"), sure)
    region = page.region()
    found, bases = sgm_regions.found_in(region, calibration["grid"], grid.heights, grid.filled)
    above = [int(a) - int(b) for a, b in zip(found, bases)]
    fill = sum(max(0, it) for it in above) * grid.cell**2
    check.equal("a rectangle with a pose", (page.exact("cells"), page.exact("fill")), (len(above), fill))
    try_steps(driver, check, out, calibration)
    page = page_of(driver, out, calibration, os.path.join(SLOPE, "left.pgm"))
    check.equal("strange heights with a pose", page.warnings(of_map=True), [])
    try_foot(page, check, calibration, "North, N, is the site's")
    try_cells(page, check, calibration, out, grid)
    try_above(page, check, out, calibration, "ground")
    try_paper(page, check, "the slanting survey", regions)


def try_steps(driver, check, out, calibration):
    """What a step of disparity is worth in height, by which the page warns, is how much higher the
    pixel's point is for one more."""
    values, filled = files.read_disparities(out + ".pgm")
    grid, first = calibration["grid"], calibration["disparities"]["first"]
    for near in ((60, 30), (160, 120), (250, 210)):
        x, y = pixel_with(filled, True, near)
        sixteenths = 16 * first + int(values[y, x])
        east, north, high = point_at(calibration, x, y, sixteenths)
        col = (east - grid["west"]) // grid["cell"]
        row = grid["rows"] - 1 - (north - grid["south"]) // grid["cell"]
        lower, upper = (point_at(calibration, x, y, sixteenths + by)[2] for by in (-8, 8))
        step = driver.execute_script("return depthStep(...arguments)", high, col, row)
        check.equal(f"a step at {x}, {y}", abs(step / (upper - lower) - 1) < 0.01, True)


# Control points


class Photo:
    """The left picture on the page, its cross and its points."""

    def __init__(self, page):
        from selenium.webdriver.support.ui import WebDriverWait

        self.page, self.driver = page, page.driver
        ready = lambda driver: driver.find_element("id", "photo").get_attribute("data-ready")
        WebDriverWait(page.driver, 20).until(ready)

    def text(self, key):
        return self.page.element(key).text

    def table(self):
        return self.page.element("control-csv").get_attribute("value").splitlines()[1:]

    def focus(self):
        self.driver.execute_script('document.getElementById("photo").focus()')

    def spot(self, x, y):
        """Where a place in pixels is in the window."""
        script = """const photo = document.getElementById("photo"), box = photo.getBoundingClientRect();
            const [x, y] = onScreen({ x: 1000 * arguments[0], y: 1000 * arguments[1] });
            return [box.left + photo.clientLeft + x, box.top + photo.clientTop + y];"""
        return self.driver.execute_script(script, x, y)

    def mouse(self, first, last=None, off=0):
        """Clicks a place, or drags from one to another; `off` are screen pixels beside it."""
        from selenium.webdriver.common.actions.action_builder import ActionBuilder

        self.driver.execute_script('document.getElementById("photo").scrollIntoView({block: "center"})')
        actions = ActionBuilder(self.driver)
        mouse = actions.pointer_action
        mouse.move_to_location(*(round(part + off) for part in self.spot(*first))).pointer_down()
        if last is not None:
            middle = [(a + b) / 2 for a, b in zip(first, last)]
            for place in (middle, last):
                mouse.move_to_location(*(round(part) for part in self.spot(*place)))
        mouse.pointer_up()
        actions.perform()

    def press(self, *texts):
        self.focus()
        for text in texts:
            webdriver.ActionChains(self.driver).send_keys(text).perform()

    def rows(self):
        return self.driver.find_elements("css selector", "#control-points tbody tr")

    def fields(self, row):
        return self.rows()[row].find_elements("tag name", "input")

    def type(self, row, at, text):
        from selenium.webdriver.common.keys import Keys

        self.fields(row)[at].send_keys(Keys.CONTROL, "a")
        self.fields(row)[at].send_keys(text or Keys.DELETE)

    def shown(self, row):
        """The disparity and the point of a row."""
        cells = self.rows()[row].find_elements("tag name", "td")
        return cells[3].text, cells[4].text


def told_point(calibration, values, x, y):
    """The disparity and the point of a pixel, as the page shows them."""
    sixteenths = 16 * calibration["disparities"]["first"] + int(values[y, x])
    point = point_at(calibration, x, y, sixteenths)
    return f"{sixteenths / 16:.4f}", ", ".join(to_millimetres(it) for it in point)


def to_millimetres(micrometres):
    """Metres with three decimals, halves away from 0."""
    size = (abs(micrometres) + 500) // 1000
    return ("-" if micrometres < 0 < size else "") + f"{size // 1000}.{size % 1000:03}"


def pixel_with(filled, wanted, near):
    """The pixel that is nearest to a place among those that have a disparity, as have those beside
    it, or haven't."""
    rows, cols = filled.shape
    each = [
        (x, y)
        for y in range(2, rows - 2)
        for x in range(2, cols - 2)
        if (filled[y, x] == wanted) and (not wanted or filled[y - 1 : y + 2, x - 1 : x + 2].all())
    ]
    return min(each, key=lambda it: math.hypot(it[0] - near[0], it[1] - near[1]))


def try_control(driver, check, folder):
    """Control points by mouse and by keyboard, on the left picture of the survey with a pose."""
    from selenium.webdriver.common.keys import Keys

    calibration, out = slanting_calibration(), os.path.join(folder, "slanting")
    left = os.path.join(SLOPE, "left.pgm")
    values, filled = files.read_disparities(out + ".pgm")
    page = page_of(driver, out, calibration, left, True)
    photo = Photo(page)
    first, second = pixel_with(filled, True, (70, 60)), pixel_with(filled, True, (240, 180))
    gone = pixel_with(filled, False, (160, 120))
    check.equal("the middle", photo.text("control-cross").split(":")[0], "Cross at 160, 120")

    # Clicks, to whole pixels while the picture is small.
    photo.mouse(first)
    check.equal("a click", photo.table(), [f"p1,{first[0]},{first[1]},,,"])
    check.equal("its point in the site's frame", photo.shown(0), told_point(calibration, values, *first))
    photo.mouse(gone)
    check.equal("no disparity", photo.text("control-said"), f"No point at {gone[0]}, {gone[1]}: the pixel {gone[0]}, {gone[1]} has no disparity.")
    check.has("the cross without one", [photo.text("control-cross")], "has no disparity")
    check.equal("nothing is set there", len(photo.table()), 1)

    # By keyboard: the cross goes from there to the second place.
    across, down = (b - a for a, b in zip(gone, second))
    ways = [(across, Keys.ARROW_RIGHT, Keys.ARROW_LEFT), (down, Keys.ARROW_DOWN, Keys.ARROW_UP)]
    for far, ahead, back in ways:
        way, (tens, ones) = ahead if far > 0 else back, divmod(abs(far), 10)
        photo.focus()
        chain = webdriver.ActionChains(driver).key_down(Keys.SHIFT)
        chain.send_keys(tens * way).key_up(Keys.SHIFT).send_keys(ones * way).perform()
    check.equal("the cross by keys", photo.text("control-cross").split(":")[0], f"Cross at {second[0]}, {second[1]}")
    photo.press(Keys.ENTER)
    check.equal("a point by keys", photo.table()[1:], [f"p2,{second[0]},{second[1]},,,"])
    check.equal("nothing said", photo.text("control-said"), "")
    check.equal("its point", photo.shown(1), told_point(calibration, values, *second))
    check.equal("the picture keeps the focus", driver.switch_to.active_element.get_attribute("id"), "photo")
    photo.press(Keys.ENTER)
    check.equal("the same place again", (photo.text("control-said"), len(photo.table())), ("p2 is there already.", 2))

    # Half pixels, by keys and by a click where the zoom has made them wide; and a pixel is then all of one colour.
    photo.press("+", "+", "+", "+")
    check.has("a zoom", [photo.text("zoom")], "8 screen pixels for a pixel")
    photo.focus()
    webdriver.ActionChains(driver).key_down(Keys.CONTROL).send_keys(Keys.ARROW_LEFT).key_up(Keys.CONTROL).perform()
    half = f"{second[0] - 0.5:g}, {second[1]}"
    check.equal("half a pixel by keys", photo.text("control-cross").split(":")[0], f"Cross at {half}")
    wide = (second[0] + 3.5, second[1] + 2.5)
    photo.mouse(wide, off=1)
    check.equal("a click between pixels", photo.table()[2:], [f"p3,{wide[0]:g},{wide[1]:g},,,"])
    photo.mouse((second[0] - 4, second[1] + 3), off=1)
    check.equal("a click on a pixel", photo.table()[3:], [f"p4,{second[0] - 4},{second[1] + 3},,,"])
    page.element("show-missing").click()
    at = (second[0] + 7, second[1] - 5)
    script = """const [x, y] = onScreen({ x: 1000 * arguments[0], y: 1000 * arguments[1] });
        const dots = window.devicePixelRatio, pen = document.getElementById("photo").getContext("2d");
        const half = Math.floor(3 * dots), found = pen.getImageData(Math.round(x * dots) - half, Math.round(y * dots) - half, 2 * half, 2 * half).data;
        return [...new Set(Array.from({ length: found.length / 4 }, (_, it) => found.slice(4 * it, 4 * it + 3).join(",")))];"""
    samples, most = files.read_pgm(left)
    grey = int(samples[at[1], at[0]]) * 255 // min(most, int(samples.max()))
    check.equal("sharp pixels", driver.execute_script(script, *at), [f"{grey},{grey},{grey}"])

    # A point is dragged, one is removed by its key, and one by its button.
    photo.mouse((second[0] - 4, second[1] + 3), (second[0] - 9, second[1] + 6))
    check.equal("a point that was dragged", photo.table()[3:], [f"p4,{second[0] - 9},{second[1] + 6},,,"])
    photo.press(Keys.DELETE)
    check.equal("a point removed by its key", len(photo.table()), 3)
    photo.rows()[1].find_element("tag name", "button").click()
    check.equal("a point removed by its button", [it.split(",")[0] for it in photo.table()], ["p1", "p3"])

    # What is typed beside them.
    for row, at, text in [
        (0, 0, "mast, north"), (0, 3, "2600012.5"), (0, 4, "-7,125"), (0, 5, "431"),
        (1, 3, "1.5"), (1, 4, "x"), (1, 1, "40"), (1, 2, "50.25"),
    ]:
        photo.type(row, at, text)
    wanted = [f'"mast, north",{first[0]},{first[1]},2600012.5,-7.125,431', "p3,40,50.25,1.5,,"]
    check.equal("typed", photo.table(), wanted)
    faults = page.warnings("control-faults")
    check.equal("what isn't taken", faults, ["p3: north isn't taken: it isn't a number of metres with up to six decimals"])
    check.equal("it is marked", photo.fields(1)[4].get_attribute("aria-invalid"), "true")
    check.has("how many", [photo.text("control-count")], "2 points, 1 with east, north and height")
    photo.type(1, 1, str(gone[0]))
    photo.type(1, 2, str(gone[1]))
    check.has("a place that is typed and has no disparity", page.warnings("control-faults"), "has no disparity")
    photo.type(1, 2, "50.25")
    photo.type(1, 1, "41")
    photo.type(1, 4, "2")
    photo.type(1, 0, "mast, north")
    check.equal("a name twice", page.warnings("control-faults"), ["two points are called mast, north"])
    photo.type(1, 0, "")
    check.equal("no name", page.warnings("control-faults"), ["the point in line 2 has no name"])
    photo.type(1, 0, "kerb")
    photo.type(1, 5, "-0.25")
    wanted[1] = "kerb,41,50.25,1.5,2,-0.25"
    check.equal("typed again", (photo.table(), page.warnings("control-faults")), (wanted, []))

    # The table is downloaded, and loaded again with a point that has no disparity.
    driver.execute_script("HTMLAnchorElement.prototype.click = function () { window.saved = [this.href, this.download]; };")
    page.element("save-control").click()
    href, name = driver.execute_script("return window.saved")
    text = urllib.parse.unquote(href.partition(",")[2])
    check.equal("downloaded", (text.splitlines()[1:], name), (wanted, "control_points.csv"))
    saved = os.path.join(folder, "points.csv")
    with open(saved, "w") as file:
        file.write(text + f"bush,{gone[0]},{gone[1]},1,2,3\n")
    photo.rows()[0].find_element("tag name", "button").click()
    check.equal("removed before", len(photo.table()), 1)
    page.element("load-control").send_keys(saved)
    from selenium.webdriver.support.ui import WebDriverWait

    WebDriverWait(driver, 10).until(lambda _: len(photo.table()) == 2)
    check.equal("loaded", photo.table(), wanted)
    place = f"{gone[0]}, {gone[1]}"
    check.equal("left out", photo.text("control-said"), f"bush at {place} is left out: the pixel {place} has no disparity.")
    with open(saved, "w") as file:
        file.write("a,b\n1,2\n")
    page.element("load-control").send_keys(saved)
    WebDriverWait(driver, 10).until(lambda _: photo.text("control-said").startswith("Nothing"))
    check.equal("another file", photo.table(), wanted)
    page.element("copy-control").click()
    photo.type(0, 0, Keys.CONTROL + "v")
    name = photo.fields(0)[0].get_attribute("value")
    check.equal("copied", name[:22], "name,x,y,east,north,up")
    check.equal("fetched for control points", page.fetched(), [])


def try_no_grid(driver, check, folder):
    """The page of a first match, which has no grid and no pose: control points alone."""
    calibration, out = slanting_calibration(), os.path.join(folder, "bare")
    for key in ("grid", "regions", "pose"):
        del calibration[key]
    shutil.copy(os.path.join(folder, "slope.pgm"), out + ".pgm")
    page = page_of(driver, out, calibration, os.path.join(SLOPE, "left.pgm"), True)
    photo = Photo(page)
    headings = [it.text for it in driver.find_elements("tag name", "h2") if it.is_displayed()]
    check.equal("headings without a grid", headings, ["Control points", "Pictures", "Settings"])
    try_paper(page, check, "control points", [], has_grid=False)
    check.has("no heights", [photo.text("summary")], "The calibration has no grid: there are no heights yet.")
    values, filled = files.read_disparities(out + ".pgm")
    place = pixel_with(filled, True, (100, 100))
    photo.mouse(place)
    check.equal("a point without a grid", photo.shown(0), told_point(calibration, values, *place))
    check.has("its frame", [it.text for it in driver.find_elements("css selector", "#control-points th")], "left camera's frame")
    try_site_pose(page, photo, check, out, calibration)


def try_site_pose(page, photo, check, out, calibration):
    """Five pixels whose places in the site are known: their table gives the pose to tools/site_pose.py."""
    values, filled = files.read_disparities(out + ".pgm")
    photo.rows()[0].find_element("tag name", "button").click()
    for row, near in enumerate(((50, 40), (280, 40), (280, 200), (50, 200), (165, 110))):
        x, y = pixel_with(filled, True, near)
        sixteenths = 16 * calibration["disparities"]["first"] + int(values[y, x])
        photo.mouse((x, y))
        place = point_at({**calibration, "pose": POSE}, x, y, sixteenths)
        for at, length in enumerate(place):
            photo.type(row, 3 + at, exact.decimal(length, 6))
    check.has("all are known", [photo.text("control-count")], "5 points, 5 with east, north and height")
    with open(out + ".points.csv", "w") as file:
        file.write(page.element("control-csv").get_attribute("value"))
    with open(out + ".json", "w") as file:
        json.dump(calibration, file)
    command = [sys.executable, os.path.join(TOP, "tools", "site_pose.py"), out + ".json", out + ".pgm"]
    done = subprocess.run([*command, out + ".points.csv"], capture_output=True, text=True)
    check.equal("tools/site_pose.py", (done.returncode, done.stderr), (0, ""))
    found = json.loads(done.stdout.splitlines()[-1])
    turned = max(abs(a - b) for a, b in zip(found["matrix"], POSE["matrix"])) / ONE
    moved = max(abs(found[key] - POSE[key]) for key in ("east", "north", "up"))
    # A sixteenth of a pixel is 16 mm here, and the points are some metres apart.
    check.equal(f"the pose of the points ({turned:.4f}, {moved} um)", turned < 0.005 and moved < 30000, True)


def try_large_numbers(driver, check, folder):
    """The highest and the lowest that can be, in cells of half a metre: sums far above 2^53."""
    heights = numpy.full((40, 50), 1999999999)
    heights[::2, ::3] = -1999999997
    region = region_of("all", 40, 50, -2000000000)
    out, calibration, grid = write_survey(folder, "large", heights, [region])
    page = page_of(driver, out, calibration)
    check.equal("title", (driver.title, page.driver.find_element("tag name", "h1").text), 2 * ("a <title> & more",))
    line, mean = counted(grid, region, region["base"])
    check.equal("large numbers", (page.shown(), page.exact("mean")), (line, mean))
    page.element("digits").click()
    text = page.element("fill").text
    check.equal("every digit", text.split(" ")[0], exact.decimal(line["fill"], 18))


def try_reduced(driver, check, folder):
    heights = numpy.arange(11 * 9).reshape(11, 9) * 1000
    region = {"name": "a", "col": 4, "row": 2, "cols": 5, "rows": 9, "base": 0}
    out, calibration, _ = write_survey(folder, "reduced", heights, [region])
    most, sgm_page.MOST_CELLS = sgm_page.MOST_CELLS, 30
    try:
        page = page_of(driver, out, calibration)
    finally:
        sgm_page.MOST_CELLS = most
    check.has("reduced", [page.element("scale").text], "each cell here is the highest of 2 x 2")
    wanted = {key: region[key] for key in ("col", "row", "cols", "rows")}
    check.equal("its region", {key: page.region()[key] for key in wanted}, wanted)
    page.draw((0, 0), (0, 0))
    # The highest of rows 0 and 1, columns 0 and 1, is 10 * 1000.
    check.equal("a block", (page.exact("highest"), page.region()["cols"]), (10000, 2))
    page.draw((4, 5), (4, 5))
    check.equal("the last block", (page.exact("highest"), page.region()["rows"]), (98000, 1))
    page.wait_for_sure()
    for at, told in (((0, 0), "Column 0 to 1, row 0 to 1: height 0.010 m"), ((4, 5), "Column 8, row 10: height 0.098 m")):
        hover(page, *at)
        check.equal("a block's line", page.element("cell").text, f"{told}, no point falls into it")


def write_change(folder, name, changes, regions):
    """OUT.asc and OUT.csv of a change, by differences with None where there is none, and its calibration."""
    rows, cols = len(changes), len(changes[0])
    out, area = os.path.join(folder, name), 250000**2
    nothing = grids.NO_DIFFERENCE
    with open(out + ".asc", "w") as file:
        file.write(f"ncols {cols}\nnrows {rows}\nxllcorner 0\nyllcorner -1000000\ncellsize 250000\nNODATA_value {nothing}\n")
        file.write("".join(" ".join(str(nothing if it is None else it) for it in row) + "\n" for row in changes))
    found = [it for row in changes for it in row if it is not None]
    fill, cut = (sum(max(0, sign * it) for it in found) * area for sign in (1, -1))
    missing = rows * cols - len(found)
    with open(out + ".csv", "w") as file:
        file.write(f"both,come,gone,empty,fill,cut\n{len(found)},{missing},0,0,{fill},{cut}\n")
    calibration = {"regions": regions, "grid": {"west": 0, "south": -1000000, "cell": 250000, "cols": cols, "rows": rows}}
    return out, calibration, {"both": len(found), "come": missing, "gone": 0, "neither": 0, "fill": fill, "cut": cut}


def try_change(driver, check, folder):
    """A difference: its counts, its regions, and rectangles, with changes up to the largest that can be."""
    draw = random.Random(19)
    changes = [[draw.choice([None, *4 * [draw.randint(-40000, 50000)]]) for _ in range(50)] for _ in range(40)]
    changes[3][5], changes[30][44], changes[30][45] = 4000000000, -4000000000, -3999999999
    regions = [
        {"name": "pile", "col": 3, "row": 2, "cols": 44, "rows": 37, "base": 5},
        {"name": "still", "col": 10, "row": 8, "cols": 20, "rows": 15, "base": -7},
    ]
    out, calibration, wanted = write_change(folder, "change", changes, regions)
    page, grid = page_of(driver, out, calibration), grids.read_grid(out + ".asc")
    check.equal("the change's counts", {key: page.exact("change-" + key) for key in wanted}, wanted)
    check.equal("a change's headings", [it.text for it in driver.find_elements("tag name", "h2")][1], "Change")
    check.equal("warnings of a change", len(page.warnings()), 2)
    check.has("cells that aren't there", page.warnings(), "pile: ")
    check.equal("layers of a change", (page.is_shown("layer-numbers"), page.is_shown("mode-cell")), (False, True))
    check.has("a change's legend", [page.element("legend-title").text], "Change in millimetres")
    ends = [it.text for it in driver.find_elements("css selector", "#legend-ticks span")]
    known = sorted(it for row in changes for it in row if it is not None)
    most = max(-known[len(known) // 100], known[-1 - len(known) // 100])
    check.equal("its ends", (ends[0], ends[-1]), (f"-{millimetres(most)}", millimetres(most)))
    try_paper(page, check, "a change", regions)
    lines = [counted(grid, region, 0)[0] for region in regions]
    try_names(page, check, [{**region, "base": 0} for region in regions], lines)
    for region, line in zip(regions, lines):
        page.draw(*corners(region))
        check.equal(f"{region['name']} of a change drawn", page.shown(), {key: line[key] for key in page.shown()})
    # The second one is drawn: nothing has changed there.
    page.element("ground").click()
    line, mean = counted(grid, regions[1], 0)
    check.equal("the still piece's mean", page.exact("mean"), mean)
    numbers = [it for row in changes[8:23] for it in row[10:30] if it is not None]
    spread = round(math.sqrt(math.fsum((it - mean) ** 2 for it in numbers) / len(numbers)))
    check.equal("the still piece's spread", page.exact("spread"), spread)
    page.draw(*corners(regions[0]))
    line, _ = counted(grid, regions[0], mean)
    check.equal("above the still piece", page.shown(), line)
    check.equal("noise", page.exact("noise"), spread * line["cells"] * 250000**2)
    page.type("base", "0")
    check.equal("no noise without it", page.exact("noise"), None)


def run(screenshot, folder):
    check = Checks()
    with open(os.path.join(HEAP, "calibration.json")) as file:
        calibration = json.load(file)
    for ending in ("pgm", "asc", "csv"):
        shutil.copy(os.path.join(HEAP, "expected", f"out.{ending}"), os.path.join(folder, f"heap.{ending}"))
    out, left = os.path.join(folder, "heap"), os.path.join(HEAP, "left.pgm")
    known = sgm_page.survey(out, calibration, left)
    with open(out + ".html", "w", encoding="utf-8") as file:
        file.write(sgm_page.page(survey_page.TEMPLATE, "The stockpile", known))
    grid, report = grids.read_grid(out + ".asc"), reports.read_report(out + ".csv")
    regions = calibration["regions"]
    driver = browser()
    try:
        page = Page(driver, out + ".html")
        check.equal("title", driver.title, "The stockpile")
        check.equal("strange heights", page.warnings(of_map=True), [])
        try_paper(page, check, "the heap", regions)
        try_names(page, check, regions, report)
        try_mouse(page, check, grid, regions, report)
        try_bases(page, check, grid, regions)
        try_keys(page, check, grid)
        check.equal("fetched", page.fetched(), [])
        try_sure(driver, check, folder, screenshot)
        try_warnings(driver, check, folder)
        try_bridged(driver, check, folder)
        try_outlines(driver, check, folder)
        try_again(driver, check, folder)
        try_pose(driver, check, folder)
        try_control(driver, check, folder)
        try_no_grid(driver, check, folder)
        try_large_numbers(driver, check, folder)
        try_reduced(driver, check, folder)
        try_change(driver, check, folder)
        check.equal("the browser's complaints", driver.get_log("browser"), [])
    finally:
        driver.quit()
    return check


def main():
    epilog = "Example: tests/survey_page.py --screenshot /tmp/page.png"
    parser = argparse.ArgumentParser(description=__doc__.split("\n\n")[0], epilog=epilog)
    parser.add_argument("--screenshot", metavar="FILE.png", help="where the picture goes")
    words = parser.parse_args()
    running.need(numpy=numpy, PIL=running.Image, selenium=webdriver)
    screenshot = words.screenshot
    if screenshot is None:
        made, screenshot = tempfile.mkstemp(prefix="sgm-survey_page.", suffix=".png")
        os.close(made)
    with tempfile.TemporaryDirectory(prefix="sgm-survey_page.") as folder:
        check = run(os.path.abspath(screenshot), folder)
    print(f"survey_page: {check.passed} passed, {check.failed} failed; {screenshot}")
    return 1 if check.failed else 0


if __name__ == "__main__":
    running.run(main)
