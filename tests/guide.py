#!/usr/bin/env python3
"""Runs all commands of docs/GUIDE.md, in their order.

    tests/guide.py [--keep FOLDER]

The commands are those that stand between ```sh and ```; they are run as they stand from the top of the
repository, with `./sgm` and `./sgm_series` being the programs that the variables SGM and SGM_SERIES name (they
themselves without them), and /tmp/survey and /tmp/heap being in a new folder. Each has to end with 0 and to write
the files that it names, and the grids in metres have to be the survey's and the change's. Other blocks that begin
with ``` show what is printed; in the chapters on certificates, on change and on many pairs, whose numbers no package
has a part in, each line of such a block has to be printed by one of the commands, and in the one from photographs to
a volume too, where OpenCV is of the version that printed it. Needs what the tools need, and GDAL. Takes a minute.
"""

import argparse
import json
import os
import re
import shutil
import subprocess
import sys
import tempfile

sys.path.insert(0, os.path.join(os.path.dirname(os.path.abspath(__file__)), "..", "tools"))

from sgm_tools import running

cv2 = running.package("cv2")

TOP = os.path.realpath(os.path.join(os.path.dirname(os.path.abspath(__file__)), ".."))
GUIDE = os.path.join(TOP, "docs", "GUIDE.md")
BLOCK = re.compile(r"^```sh\n(.*?)^```$", re.M | re.S)
# The chapters in which all that is shown is printed.
PRINTED = ("## 11. ", "## 12. ", "## 13. ")
# The one whose numbers depend on OpenCV, and the version that they are of.
BY_OPENCV, OPENCV = "## From photographs", "4.6.0"
# The folders of the guide.
FOLDERS = ("/tmp/survey", "/tmp/heap")


def commands(text):
    """The commands of the guide: lines, with those that they go on with."""
    for block in BLOCK.findall(text):
        for command in block.replace("\\\n", " ").splitlines():
            if command.strip():
                yield re.sub(" +", " ", command)


def shown(text):
    """The lines of blocks that show what is printed, in the chapters in which all of them do."""
    kind, chapter = None, ""
    chapters = (*PRINTED, BY_OPENCV) if cv2 and cv2.__version__ == OPENCV else PRINTED
    for line in text.splitlines():
        if line.startswith("```"):
            kind = line[3:] if kind is None else None
        elif line.startswith("## "):
            chapter = line
        elif kind == "" and chapter.startswith(chapters):
            yield line


def put_into(folder, command):
    """The command on this folder's files."""
    for name in FOLDERS:
        command = re.sub(re.escape(name) + r"(?![\w-])", os.path.join(folder, os.path.basename(name)), command)
    command = re.sub(r"^\./sgm(?= )", '"$SGM"', command)
    return re.sub(r"^\./sgm_series(?= )", '"$SGM_SERIES"', command)


def written(command, folder):
    """The files of the folder that a command names, which are there after it."""
    names = re.findall(re.escape(folder) + r"/[\w./-]+\.\w+", command)
    return [name for name in names if not os.path.exists(name) or not os.path.getsize(name)]


def run(folder, environment):
    """How many commands there are, and the first one that failed with what it said, or None."""
    with open(GUIDE, encoding="utf-8") as file:
        text = file.read()
    given, printed = list(commands(text)), set()
    for number, command in enumerate(given):
        mine = put_into(folder, command)
        words = ["bash", "-eu", "-o", "pipefail", "-c", mine]
        done = subprocess.run(words, cwd=TOP, env=environment, stdin=subprocess.DEVNULL, capture_output=True, text=True)
        missing = written(mine, folder)
        if done.returncode or missing:
            said = done.stderr or f"{', '.join(missing)}: not there or empty"
            return number, f"{command}\nends with {done.returncode}\n{said}"
        printed.update(done.stdout.splitlines())
        print(f"ran  {command}", flush=True)
    missing = [line for line in shown(text) if line not in printed]
    return len(given), f"nothing prints\n{missing[0]}" if missing else None


def metres_fault(folder, name):
    """What is wrong with a grid in metres: its corners, and its lowest and highest number; None where nothing is."""
    words = ["gdalinfo", "-json", "-mm", os.path.join(folder, "survey", name + ".tif")]
    found = json.loads(subprocess.run(words, capture_output=True, check=True).stdout)
    band, corners = found["bands"][0], found["cornerCoordinates"]
    with open(os.path.join(folder, "survey", name + ".asc"), encoding="ascii") as file:
        numbers = file.read().split()
    cols, rows, west, south, cell, empty = map(int, numbers[1:12:2])
    heights = [int(word) for word in numbers[12:] if int(word) != empty]
    wanted = [west, south + rows * cell, west + cols * cell, south, min(heights), max(heights)]
    got = [*corners["upperLeft"], *corners["lowerRight"], band["computedMin"], band["computedMax"]]
    # gdalinfo gives the lowest and the highest with three decimals.
    near = [abs(a * 1e6 - b) < limit for a, b, limit in zip(got, wanted, [1, 1, 1, 1, 501, 501])]
    return None if all(near) else f"{name}.tif has {got}, not {wanted} micrometres"


def main():
    parser = argparse.ArgumentParser(description=__doc__.split("\n\n")[0], epilog="Example: tests/guide.py")
    parser.add_argument("--keep", metavar="FOLDER", help="a folder for the files, which is kept")
    words = parser.parse_args()
    names = {"SGM": "sgm", "SGM_SERIES": "sgm_series"}
    programs = {name: os.path.realpath(os.environ.get(name, os.path.join(TOP, file))) for name, file in names.items()}
    if words.keep:
        os.makedirs(words.keep, exist_ok=True)
    folder = os.path.realpath(words.keep) if words.keep else tempfile.mkdtemp(prefix="sgm-guide.")
    try:
        count, fault = run(folder, {**os.environ, **programs})
        fault = fault or metres_fault(folder, "heap") or metres_fault(folder, "change")
    finally:
        if not words.keep:
            shutil.rmtree(folder)
    if fault:
        sys.exit(f"guide: {fault}")
    # A guide without commands would pass for nothing.
    if count < 10:
        sys.exit(f"guide: {count} commands found in {GUIDE}")
    print(f"guide: {count} commands run")


if __name__ == "__main__":
    main()
