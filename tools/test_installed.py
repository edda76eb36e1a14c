#!/usr/bin/env python3
"""Tries what `pip install ./tools` makes, in a folder of its own and without a network: the commands under the names
that the Debian package gives them, and the package. Needs pip, setuptools and wheel.
"""

import importlib.util
import os
import re
import shutil
import subprocess
import sys
import tempfile
import unittest

from sgm_tools import running

HERE = os.path.dirname(os.path.abspath(__file__))
TOP = os.path.join(HERE, "..")
HEAP = os.path.join(TOP, "examples", "stockpile")


def setUpModule():
    running.need_for_tests(numpy=running.numpy, PIL=running.Image)
    for name in ("pip", "setuptools", "wheel"):
        if importlib.util.find_spec(name) is None:
            sys.exit(f"test_installed: {name} of Python needed: apt-get install python3-{name} on Debian")


def debian_names():
    """The scripts' names by those of the commands."""
    with open(os.path.join(TOP, "packaging", "names.txt")) as file:
        pairs = [line.split() for line in file if line.strip()]
    return {name: tool for tool, name in pairs}


class Installed(unittest.TestCase):
    @classmethod
    def setUpClass(cls):
        folder = tempfile.TemporaryDirectory()
        cls.addClassCleanup(folder.cleanup)
        # pip writes beside what it installs.
        source = os.path.join(folder.name, "source")
        ignored = shutil.ignore_patterns("__pycache__", "build", "*.egg-info", ".*")
        shutil.copytree(HERE, os.path.join(source, "tools"), ignore=ignored)
        shutil.copy(os.path.join(TOP, "VERSION"), source)
        cls.folder = os.path.join(folder.name, "installed")
        command = [sys.executable, "-m", "pip", "install", "--quiet", "--no-deps", "--no-build-isolation"]
        command += ["--no-index", "--disable-pip-version-check", "--target", cls.folder, os.path.join(source, "tools")]
        done = subprocess.run(command, capture_output=True, text=True)
        if done.returncode:
            raise AssertionError(done.stdout + done.stderr)

    def ended(self, command):
        other = {**os.environ, "PYTHONPATH": self.folder}
        done = subprocess.run(command, env=other, cwd=self.folder, capture_output=True, text=True)
        return done.returncode, done.stdout, done.stderr

    def run_command(self, name, *words):
        return self.ended([os.path.join(self.folder, "bin", name), *words])

    def test_names(self):
        found = sorted(os.listdir(os.path.join(self.folder, "bin")))
        self.assertEqual(found, sorted(debian_names()))

    def test_no_tests(self):
        commands = os.listdir(os.path.join(self.folder, "sgm_tools", "commands"))
        self.assertEqual([it for it in commands if it.startswith("test_") or it == "setup.py"], [])

    def test_version(self):
        with open(os.path.join(TOP, "VERSION")) as file:
            version = file.read().strip().replace("~dev", ".dev0")
        self.assertTrue(os.path.isdir(os.path.join(self.folder, f"sgm_tools-{version}.dist-info")))

    def test_help(self):
        """Each says what its script says, with the names of the commands."""
        for name, tool in debian_names().items():
            wide = {**os.environ, "COLUMNS": "1000"}
            script = [sys.executable, os.path.join(HERE, tool + ".py"), "--help"]
            said = subprocess.run(script, env=wide, capture_output=True, text=True, check=True).stdout
            for other, script_name in debian_names().items():
                said = said.replace(f"tools/{script_name}.py", other).replace(f"{script_name}.py", other)
            command = [os.path.join(self.folder, "bin", name), "--help"]
            other = {**wide, "PYTHONPATH": self.folder}
            done = subprocess.run(command, env=other, capture_output=True, text=True, check=True)
            self.assertEqual(re.sub(r"\s+", " ", done.stdout), re.sub(r"\s+", " ", said.replace("./sgm ", "sgm ")), name)

    def test_commands(self):
        out = os.path.join(self.folder, "made.png")
        heights = os.path.join(HEAP, "expected", "out.asc")
        status, said, err = self.run_command("sgm-heights", heights, "--out", out)
        self.assertEqual((status, err), (0, ""))
        self.assertRegex(said, "^[-0-9]+ \\(green\\) to [-0-9]+ \\(white\\) micrometres of height\n$")
        self.assertTrue(os.path.exists(out))
        report = os.path.join(HEAP, "expected", "out.csv")
        words = [report, "--ground", "ground", "--calibration", os.path.join(HEAP, "calibration.json"), "--digits", "3"]
        status, said, err = self.run_command("sgm-cubic-metres", *words)
        self.assertEqual((status, err), (0, ""))
        self.assertEqual(said.splitlines()[1], "pile,6005,1,77.910,0.003,77.907,-0.016,3.454,0.036,74.574")
        # The page has a file beside it.
        page = os.path.join(self.folder, "made.html")
        calibration = os.path.join(HEAP, "calibration.json")
        status, _, err = self.run_command("sgm-page", os.path.join(HEAP, "expected", "out"), "--calib", calibration, "--out", page)
        self.assertEqual((status, err), (0, ""))

    def test_errors(self):
        line = "sgm-stretch: none: No such file or directory\n"
        self.assertEqual(self.run_command("sgm-stretch", "none", "--out", "o"), (1, "", line))
        self.assertEqual(self.run_command("sgm-stretch")[0], 2)

    def test_missing_package(self):
        """What has to be installed, in pip's words."""
        script = "from sgm_tools import running; running.tool_name = lambda: 'tool'\n"
        script += "def main():\n    running.need(PIL=None, cv2=None)\nrunning.run(main)\n"
        line = "tool: PIL and cv2 of Python needed: pip install pillow opencv-python-headless\n"
        self.assertEqual(self.ended([sys.executable, "-c", script]), (1, "", line))

    def test_survey(self):
        """The package's function from elsewhere, with the program that its words name."""
        program = os.environ.get("SGM") or os.path.join(TOP, "tests", "reference.py")
        script = "import sys, numpy\nfrom sgm_tools import survey\nrow = numpy.array([90, 10, 50, 20, 40], numpy.uint8)\n"
        script += "found = survey(numpy.tile(row, (3, 1)), numpy.tile(row, (3, 1)), '-', program=sys.argv[1])\n"
        script += "print(found.disparities.shape, found.heights, found.report, found.line)"
        status, said, err = self.ended([sys.executable, "-c", script, os.path.abspath(program)])
        self.assertEqual((status, err), (0, ""))
        self.assertRegex(said, r"^\(3, 5\) None \[\] valid [0-9]+ of 15\n$")


if __name__ == "__main__":
    unittest.main()
