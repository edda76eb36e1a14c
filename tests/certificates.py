#!/usr/bin/env python3
"""Asks the program for certificates of random pixels (`sgm trace`) and checks them from the pictures alone.

    tests/certificates.py [--seed S] [--cases N]

Pictures and calibrations are those of random_cases.py (surveys and scenes): voids, warps, all versions, both kinds of
penalty, 8 and 16 bits. The directions take turns, pixel and index are drawn. Each certificate has to hold by
tools/check_trace.py. Then each of its digits in turn is made another one, a line is left out, and one is written
twice: none of these may hold. For some of them tools/check_trace.py runs as a command too, on the certificate and on
one that was changed. The program is the one that the variable SGM names (./sgm of this repository without it).
"""

import argparse
import os
import subprocess
import sys
import tempfile

HERE = os.path.dirname(os.path.abspath(__file__))
TOOLS = os.path.join(HERE, "..", "tools")
SGM = os.path.realpath(os.environ.get("SGM", os.path.join(HERE, "..", "sgm")))
CHECKER = os.path.join(TOOLS, "check_trace.py")
sys.path.insert(0, TOOLS)

import random_inputs
from sgm_tools import certificates, running
from sgm_tools.running import Wrong

# Every so many cases the checker runs as a command.
EVERY = 20
DIRECTIONS = list(certificates.DIRECTIONS)


def others(draw, text):
    """The certificate with each of its digits changed in turn, a line left out, and one twice."""
    for at, letter in enumerate(text):
        if letter.isdigit():
            yield text[:at] + draw.of([digit for digit in "0123456789" if digit != letter]) + text[at + 1 :]
    lines = text.splitlines(keepends=True)
    at = draw.below(len(lines))
    yield "".join(lines[:at] + lines[at + 1 :])
    yield "".join(lines[: at + 1] + lines[at:])


class Case:
    """Files of a random pair in a folder, a pixel, a direction and an index."""

    def __init__(self, seed, number, folder):
        self.draw = random_inputs.Draw(seed, number)
        make = self.draw.of([random_inputs.scene_case, random_inputs.scene_case, random_inputs.survey_case])
        _, files = make(self.draw)
        for name, data in files.items():
            with open(os.path.join(folder, name), "wb") as file:
                file.write(data)
        self.folder, self.direction = folder, DIRECTIONS[number % 8]
        self.given = [os.path.join(folder, name) for name in ("l.pgm", "r.pgm", "c.json")]

    def words(self, x, y, d):
        return [*self.given, self.direction, *map(str, (x, y, d))]

    def run(self, *words):
        done = subprocess.run([SGM, "trace", *words], stdin=subprocess.DEVNULL, capture_output=True, text=True)
        return done.returncode, done.stdout, done.stderr

    def is_refused(self):
        """Whether the program refuses this pair: the cases have pairs of two sizes and wrong warps among them."""
        status, out, err = self.run(*self.words(0, 0, 0))
        if status not in (0, 3) or (status == 3 and (out or not err)):
            raise Wrong(f"trace of the pixel 0 0 ends with {status}, {out!r}, {err!r}")
        return status == 3

    def check(self, as_command):
        """The kinds of this case; raises Wrong where a certificate doesn't hold or one that was changed does."""
        # The checker takes what the program has accepted, and numbers as they stand in any JSON.
        pair = certificates.Pair(*self.given[:2], certificates.calibration_of(self.given[2]))
        x, y, d = (self.draw.below(it) for it in (pair.left.width, pair.left.height, pair.count))
        words = self.words(x, y, d)
        status, text, err = self.run(*words)
        if status != 0 or err:
            raise Wrong(f"{' '.join(words[3:])}: the program ends with {status}: {err}")
        ray = certificates.Ray(pair, self.direction, x, y)
        found = certificates.fault(ray, d, text)
        if found:
            raise Wrong(f"{' '.join(words[3:])}: {found}")
        wrong = list(others(self.draw, text))
        for other in wrong:
            if certificates.fault(ray, d, other) is None:
                raise Wrong(f"{' '.join(words[3:])}: what was changed holds too:\n{other}")
        if as_command:
            self.check_as_command(words, text, self.draw.of(wrong))
        has_void = any(pair.left.value(*pixel) is None for pixel in ray.pixels)
        kinds = {"adaptive": pair.follows, "third": pair.version == 3, "void": has_void, "long": len(ray.pixels) > 8}
        return {**kinds, "changed": len(wrong)}

    def check_as_command(self, words, text, other):
        for given, status in ((text, 0), (other, 1)):
            name = os.path.join(self.folder, "trace")
            with open(name, "w", newline="") as file:
                file.write(given)
            done = subprocess.run([sys.executable, CHECKER, *words, name], capture_output=True, text=True)
            if done.returncode != status or (done.stdout != "") != (status == 0):
                raise Wrong(f"check_trace.py ends with {done.returncode}: {done.stdout}{done.stderr}")


def main():
    epilog = "Example: tests/certificates.py --cases 1000"
    parser = argparse.ArgumentParser(description=__doc__.split("\n\n")[0], epilog=epilog)
    parser.add_argument("--seed", type=int, default=0, help="another one gives other cases (0)")
    parser.add_argument("--cases", type=int, default=300, metavar="N", help="how many (300)")
    words = parser.parse_args()
    running.need(numpy=running.numpy)
    seen = {"adaptive": 0, "third": 0, "void": 0, "long": 0, "changed": 0}
    number = held = 0
    while held < words.cases:
        with tempfile.TemporaryDirectory(prefix="sgm-certificates.") as folder:
            case = Case(words.seed, number, folder)
            if not case.is_refused():
                try:
                    kinds = case.check(held % EVERY == 0)
                except Wrong as error:
                    raise Wrong(f"seed {words.seed}, case {number}: {error}")
                held += 1
                for kind, times in kinds.items():
                    seen[kind] += times
        number += 1
        if number > 2 * words.cases + 20:
            raise Wrong(f"of {number} pairs {number - held} were refused")
    if words.cases >= 100 and min(seen.values()) < words.cases // 10:
        raise Wrong(f"too few of a kind: {seen}")
    what = f"{seen['adaptive']} with penalties that follow the picture, {seen['third']} of version 3, "
    what += f"{seen['void']} with voids, {seen['long']} of more than 8 pixels"
    print(f"certificates: {held} hold ({what}), and of {seen['changed']} that were changed none does")


if __name__ == "__main__":
    running.run(main)
