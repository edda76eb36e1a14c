#!/usr/bin/env python3
"""Interrupts runs by SIGINT and SIGTERM, at moments from their start to their end, and looks at what stands.

    tests/interrupted.py [--runs N]

The match is the worked example's with a grid of 2000 x 2000 cells, whose OUT.asc has 48 megabytes; another match is the
worked pair's of version 3 with everything on and as large a grid; the change is that between two grids of 1500 x 1500
cells, whose OUT.asc has 25; and the merge is that of both over the grid of the first match, once the program has it
(HAS_MERGE of reference_inputs.py). Half of the runs begin with no outputs and half with older ones; half are interrupted at a moment of their time, and half as soon as OUT.asc has begun to change. Afterwards each
output has to be as it was, or to hold the beginning of the text that an undisturbed run writes, perhaps all of it; only
the last one that changed may be short of its end; the inputs are as they were; standard error is empty; and the summary
stands only where all outputs are whole. The program is the one that the variable SGM names (./sgm of this repository
without it).
"""

import argparse
import json
import os
import shutil
import signal
import subprocess
import sys
import tempfile
import time

import hostile_calibrations as worked
import reference_inputs

HERE = os.path.dirname(os.path.abspath(__file__))
TOP = os.path.join(HERE, "..")
EXAMPLE = os.path.join(TOP, "crates", "sgm_cli", "data")
SGM = os.path.realpath(os.environ.get("SGM", os.path.join(TOP, "sgm")))
OLDER = b"what stood here before\n"
# The output whose first change is waited for.
WATCHED = "o.asc"
# The longest run, in seconds.
PATIENCE = 60


def write_calibration(folder):
    """The worked example's, with a grid of 2000 x 2000 cells."""
    with open(os.path.join(EXAMPLE, "c.json"), encoding="utf-8") as file:
        calibration = json.load(file)
    calibration["grid"].update(cols=2000, rows=2000)
    with open(os.path.join(folder, "c.json"), "w", encoding="utf-8") as file:
        json.dump(calibration, file)


def write_grids(folder, west=0, south=0, cell=1):
    head = f"ncols 1500 nrows 1500 xllcorner {west} yllcorner {south} cellsize {cell} nodata_value -2147483648"
    for name, height in zip(("e.asc", "l.asc"), ("0", "2000000000")):
        with open(os.path.join(folder, name), "w", encoding="utf-8") as file:
            file.write(head + f" {height}" * 1500 * 1500)


class Match:
    inputs = ["l.pgm", "r.pgm", "c.json"]
    outputs = ["o.pgm", "o.asc", "o.csv"]
    words = ["match", *inputs, "o", "strips=3", "workers=2"]
    summary = b"valid 15 of 15\n"

    @staticmethod
    def write_inputs(folder):
        for name in ("l.pgm", "r.pgm"):
            shutil.copyfile(os.path.join(EXAMPLE, name), os.path.join(folder, name))
        write_calibration(folder)


class Third(Match):
    """The worked pair of version 3 with everything on. Its regions stay in the grid's south-west."""

    words = [*Match.words, "peak=2", "fill=1"]
    summary = b"valid 12 of 15\n"

    @staticmethod
    def write_inputs(folder):
        grid = {**worked.ALL["grid"], "cols": 2000, "rows": 2000}
        down = 2000 - worked.ALL["grid"]["rows"]
        regions = [{**region, "row": region["row"] + down} for region in worked.ALL["regions"]]
        whole = {**worked.ALL, "grid": grid, "regions": regions}
        for name, data in {**worked.FILES, "c.json": json.dumps(whole).encode()}.items():
            with open(os.path.join(folder, name), "wb") as file:
                file.write(data)


class Change:
    inputs = ["e.asc", "l.asc"]
    outputs = ["o.asc", "o.csv"]
    words = ["change", *inputs, "o"]
    summary = b"compared 2250000 of 2250000\n"

    @staticmethod
    def write_inputs(folder):
        write_grids(folder)


class Merge:
    inputs = ["m.txt", "c.json", "e.asc", "l.asc"]
    outputs = ["o.asc", "o.csv"]
    words = ["merge", "m.txt", "c.json", "o"]
    summary = b"merged 2250000 of 4000000\n"

    @staticmethod
    def write_inputs(folder):
        write_calibration(folder)
        write_grids(folder, west=2000, south=-2000, cell=1000)
        with open(os.path.join(folder, "m.txt"), "w", encoding="utf-8") as file:
            file.write("e.asc\nl.asc\n")


def begin(kind, folder, has_older):
    """The inputs, and perhaps older outputs, in a new folder."""
    os.mkdir(folder)
    kind.write_inputs(folder)
    for name in kind.outputs if has_older else []:
        with open(os.path.join(folder, name), "wb") as file:
            file.write(OLDER)


def held(folder, names):
    """The bytes under each name, or None."""
    made = {}
    for name in names:
        try:
            with open(os.path.join(folder, name), "rb") as file:
                made[name] = file.read()
        except FileNotFoundError:
            made[name] = None
    return made


def start(kind, folder):
    # Signals that the caller ignores would be ignored by the program too.
    return subprocess.Popen(
        [SGM, *kind.words],
        cwd=folder,
        stdin=subprocess.DEVNULL,
        stdout=subprocess.PIPE,
        stderr=subprocess.PIPE,
        preexec_fn=lambda: [signal.signal(it, signal.SIG_DFL) for it in (signal.SIGINT, signal.SIGTERM)],
    )


def wait_for_a_change(folder, process, has_older):
    """Waits until the output isn't what it was, or the run has ended."""
    path, length = os.path.join(folder, WATCHED), len(OLDER) if has_older else None
    while process.poll() is None:
        try:
            if os.stat(path).st_size != length:
                return
        except FileNotFoundError:
            pass


def faults(kind, before, after, whole, out, err):
    """Lines on what isn't as it has to be, and how many outputs are whole."""
    lines, count, is_over = [], 0, False
    for name in kind.outputs:
        if after[name] == whole[name] and not is_over:
            count += 1
        elif after[name] == before[name]:
            is_over = True
        elif is_over or after[name] is None or not whole[name].startswith(after[name]):
            lines.append(f"{name} is neither as before nor the beginning of its text, or one before it isn't whole")
        else:
            is_over = True
    lines += [f"{name} changed" for name in kind.inputs if after[name] != before[name]]
    lines += [f"standard error has {err!r}"] if err else []
    if not kind.summary.startswith(out) or (out and count < len(kind.outputs)):
        lines.append(f"standard output has {out!r}, with {count} outputs whole")
    return lines, count


def try_run(kind, folder, number, has_older, takes, whole):
    """Interrupts a run; gives its status, how many outputs are whole, and lines on what is wrong."""
    begin(kind, folder, has_older)
    before = held(folder, kind.inputs + kind.outputs)
    process = start(kind, folder)
    if number % 2:
        time.sleep(takes)
    else:
        wait_for_a_change(folder, process, has_older)
    wanted = signal.SIGINT if number % 4 < 2 else signal.SIGTERM
    process.send_signal(wanted)
    out, err = process.communicate(timeout=PATIENCE)
    lines, count = faults(kind, before, held(folder, kind.inputs + kind.outputs), whole, out, err)
    if process.returncode not in (0, -wanted):
        lines.append(f"status {process.returncode}")
    if process.returncode == 0 and (count < len(kind.outputs) or out != kind.summary):
        lines.append(f"status 0 with {count} outputs whole and {out!r}")
    return process.returncode, count, lines


def undisturbed(kind, folder):
    """The files of a run to its end, and its seconds."""
    begin(kind, folder, False)
    before = time.monotonic()
    out, err = start(kind, folder).communicate(timeout=PATIENCE)
    takes = time.monotonic() - before
    whole = held(folder, kind.outputs)
    if out != kind.summary or err or None in whole.values():
        sys.exit(f"interrupted: {SGM} doesn't run: {err.decode(errors='replace').strip()}")
    return whole, takes


def try_runs(kind, runs):
    """Interrupts so many runs; gives a text on how they ended, and how many were wrong."""
    name, ended, is_done, wrong = kind.__name__.lower(), [0] * (len(kind.outputs) + 1), 0, 0
    with tempfile.TemporaryDirectory(prefix="sgm-interrupted.") as work:
        undisturbed(kind, os.path.join(work, "first"))
        whole, takes = undisturbed(kind, os.path.join(work, "whole"))
        for number in range(runs):
            folder = os.path.join(work, "made")
            status, count, lines = try_run(kind, folder, number, number % 8 < 4, takes * number / runs, whole)
            if status == 0:
                is_done += 1
            else:
                ended[count] += 1
            if lines:
                wrong += 1
                print(f"interrupted: {name}, run {number}: " + "; ".join(lines))
            shutil.rmtree(folder)
    by_count = ", ".join(f"{times} with {count}" for count, times in enumerate(ended))
    return f"{runs} runs of {name}, {is_done} done and {sum(ended)} ended by a signal (by whole outputs: {by_count})", wrong


def natural(word):
    number = int(word)
    if number < 0:
        raise ValueError(word)
    return number


def main():
    parser = argparse.ArgumentParser(description=__doc__.split("\n\n")[0], epilog="Example: tests/interrupted.py --runs 400")
    parser.add_argument("--runs", type=natural, default=120, metavar="N", help="how many runs of each command (120)")
    words = parser.parse_args()
    try:
        kinds = [Match, Third, Change] + ([Merge] if reference_inputs.HAS_MERGE else [])
        texts, wrong = zip(*(try_runs(kind, words.runs) for kind in kinds))
        print(f"interrupted: {'; '.join(texts)}; {sum(wrong)} wrong")
        return 1 if any(wrong) else 0
    except (OSError, subprocess.TimeoutExpired) as error:
        sys.exit(f"interrupted: {error}")


if __name__ == "__main__":
    sys.exit(main())
