#!/usr/bin/env python3
"""Holds the program to the reference on random words, pictures and calibrations.

    tests/random_cases.py [--seed S] [--cases N] [--case NUMBER] [--keep FOLDER] [--series] [--jobs N]

Each case is a folder of files and the words of a run. The program and the separate implementation
(reference.py) run on a copy each, and everything has to be the same: the status, both streams, and all
that stands in the folder afterwards. The kinds of cases take turns:

    words         faults of the words, and words that only look like faults;
    pictures      PGM in all its forms, cut, and with bytes changed, put in or taken out;
    calibrations  a key missing, of another type, at the ends of its range and beyond, doubled, moved,
                  nested, in another order or spelling, and texts with bytes changed;
    surveys       pairs from 1 x 1 on with voids, warps, grids and regions, strips and workers;
    scenes        pairs of shapes at several disparities, mostly with penalties that follow the image, with peaks
                  and filling;
    cells         surveys of version 3 with grids in which cells keep the highest point or the mean, and are bridged,
                  and with regions that have sloping bases and outlines, half of them in the frame of a site;
    traces        certificates of the pixels of such pairs in all directions, and of places beside them;
    changes       two grids' texts in any white space and case, of one ground or not, cut, with bytes or words
                  changed, and with numbers at the ends of their ranges and beyond;
    merges        up to five grids of one ground over, beside and between the cells of another one, and lists of
                  them with faults, once the program has them (HAS_MERGE of reference_inputs.py);
    places        inputs and outputs that are absent, folders, links or devices.

A case is made from the seed and its number alone, so --case runs it again. What differs is printed, and
its folder stays: `given` before the runs, `program` and `reference` after them. --jobs makes so many cases at once,
whose lines may then come in another order. The program is the one that
the variable SGM names (./sgm of this repository without it). With --series the cases are whole series, of up to 20
entries, and the program is the one that SGM_SERIES names (./sgm_series without it). ./sgm and what is installed answer
the first words -h and --help themselves: their help is taken as right then.
"""

import argparse
import functools
import multiprocessing
import os
import shlex
import shutil
import stat
import subprocess
import sys
import tempfile
import time

import random_inputs
import random_lists
import reference
import reference_series

HERE = os.path.dirname(os.path.abspath(__file__))
# The longest run of the program, in seconds.
PATIENCE = 120


class Single:
    """The program sgm, its reference, its cases, and its line without words."""

    path = os.path.realpath(os.environ.get("SGM", os.path.join(HERE, "..", "sgm")))
    main = staticmethod(reference.main)
    case_of = staticmethod(random_inputs.case_of)
    line = b"sgm: no command\n"
    help = os.path.join(HERE, "..", "packaging", "help.txt")


class Series:
    """The same of sgm_series."""

    path = os.path.realpath(os.environ.get("SGM_SERIES", os.path.join(HERE, "..", "sgm_series")))
    main = staticmethod(reference_series.main)
    case_of = staticmethod(random_lists.case_of)
    line = b"sgm_series: no list\n"
    help = os.path.join(HERE, "..", "packaging", "help_sgm_series.txt")


def write_case(folder, case):
    os.makedirs(folder)
    for name, content in case.files.items():
        path = os.path.join(folder, name)
        if content is random_inputs.FOLDER:
            os.mkdir(path)
        elif isinstance(content, random_inputs.Link):
            os.symlink(content.to, path)
        else:
            with open(path, "wb") as file:
                file.write(content)


def run_program(path, folder, words):
    """The status and both streams; a status that no program has where it takes too long."""
    # The program has no part in a word's encoding: words go out as the bytes that they came from.
    command = [os.fsencode(path), *map(os.fsencode, words)]
    try:
        done = subprocess.run(command, cwd=folder, stdin=subprocess.DEVNULL, capture_output=True, timeout=PATIENCE)
    except subprocess.TimeoutExpired:
        return "no end", b"", b""
    return done.returncode, done.stdout, done.stderr


def run_reference(folder, words, main=reference.main):
    """The same of the reference, which runs in a process that is forked off, as it needs its own streams."""
    with tempfile.TemporaryFile() as out, tempfile.TemporaryFile() as err:
        child = os.fork()
        if child == 0:
            status = 99
            try:
                os.chdir(folder)
                os.dup2(out.fileno(), 1)
                os.dup2(err.fileno(), 2)
                status = main(words)
            finally:
                os._exit(status)
        status = os.waitstatus_to_exitcode(os.waitpid(child, 0)[1])
        out.seek(0)
        err.seek(0)
        return status, out.read(), err.read()


def standing(folder):
    """What stands in a folder: for each name its bytes, or what else it is."""
    found = {}
    for entry in sorted(os.scandir(folder), key=lambda entry: entry.name):
        if entry.is_symlink():
            found[entry.name] = "a link to " + os.readlink(entry.path)
        elif entry.is_dir():
            found[entry.name] = "a folder"
        elif stat.S_ISREG(entry.stat().st_mode):
            with open(entry.path, "rb") as file:
                found[entry.name] = file.read()
        else:
            found[entry.name] = "something else"
    return found


def shown(value):
    text = repr(value)
    return text if len(text) <= 200 else text[:150] + f".. ({len(value)} long)"


def differences(made, wanted, folders):
    """Lines on what isn't the same."""
    for what, ours, theirs in zip(("status", "standard output", "standard error"), made, wanted):
        if ours != theirs:
            yield f"{what}: {shown(ours)}, the reference has {shown(theirs)}"
    ours, theirs = map(standing, folders)
    for name in sorted(set(ours) | set(theirs)):
        if ours.get(name) != theirs.get(name):
            yield f"{name}: {shown(ours.get(name))}, the reference has {shown(theirs.get(name))}"


def is_help(program, words, made):
    """Whether a launcher was asked for its help and has printed it."""
    if words[:1] not in (["-h"], ["--help"]):
        return False
    with open(program.help, "rb") as file:
        return made == (0, file.read(), b"")


def try_case(program, case, folder):
    """The reference's status, and the lines on what differs."""
    given, ours, theirs = (os.path.join(folder, name) for name in ("given", "program", "reference"))
    for name in (given, ours, theirs):
        write_case(name, case)
    with open(os.path.join(folder, "command"), "wb") as file:
        file.write(os.fsencode(" ".join(map(shlex.quote, [program.path, *case.words]))) + b"\n")
    made, wanted = run_program(program.path, ours, case.words), run_reference(theirs, case.words, program.main)
    if is_help(program, case.words, made):
        made = wanted
    return wanted[0], list(differences(made, wanted, (ours, theirs)))


def keep(folder, name):
    """Moves a case's folder out of the one that goes away, and gives its new place."""
    place = tempfile.mkdtemp(prefix=f"sgm-random_cases.{name}.")
    shutil.rmtree(place)
    shutil.copytree(folder, place, symlinks=True)
    return place


def try_number(program, words, work, number):
    """The number of a case, its kind, the reference's status, the lines on what differs, and where its folder stays."""
    case = program.case_of(words.seed, number)
    folder = words.keep or os.path.join(work, str(number))
    status, lines = try_case(program, case, folder)
    place = words.keep
    if place is None:
        place = keep(folder, f"{words.seed}.{number}") if lines else None
        shutil.rmtree(folder)
    return number, case.kind, status, lines, place


def tried(program, words, work, numbers):
    """What try_number gives of each number, made by as many processes as are asked for."""
    one = functools.partial(try_number, program, words, work)
    if words.jobs == 1:
        yield from map(one, numbers)
        return
    with multiprocessing.Pool(words.jobs) as pool:
        yield from pool.imap_unordered(one, numbers, chunksize=16)


def try_cases(program, words):
    numbers = range(words.cases) if words.case is None else [words.case]
    statuses, differ, begin = {}, 0, time.monotonic()
    with tempfile.TemporaryDirectory(prefix="sgm-random_cases.") as work:
        for number, kind, status, lines, place in tried(program, words, work, numbers):
            statuses[status] = statuses.get(status, 0) + 1
            if lines:
                differ += 1
                print(f"random_cases: seed {words.seed}, case {number}, {kind}: kept in {place}")
                print("".join(f"    {line}\n" for line in lines), end="", flush=True)
            if words.verbose:
                print(f"case {number}, {kind}: status {status}, {time.monotonic() - begin:.1f} s", flush=True)
    by_status = ", ".join(f"{statuses[status]} of status {status}" for status in sorted(statuses))
    print(f"random_cases: seed {words.seed}: {len(numbers) - differ} the same, {differ} different ({by_status})")
    return 1 if differ else 0


def runs(program):
    """Whether the program runs: without words it ends with 2 and a line. What has to be built is built here."""
    with subprocess.Popen([program.path], stdin=subprocess.DEVNULL, stderr=subprocess.PIPE) as process:
        for line in process.stderr:
            if line != program.line:
                sys.stderr.buffer.write(line)
                sys.stderr.flush()
    return process.returncode == 2


def natural(word):
    number = int(word)
    if number < 0:
        raise ValueError(word)
    return number


def main():
    parser = argparse.ArgumentParser(
        description=__doc__.split("\n\n")[0],
        epilog="Example: tests/random_cases.py --seed 7 --cases 1000, and then --seed 7 --case 312 --keep /tmp/case",
    )
    parser.add_argument("--seed", type=natural, default=1, help="what the cases are made from (1)")
    parser.add_argument("--cases", type=natural, default=300, metavar="N", help="how many, from number 0 on (300)")
    parser.add_argument("--case", type=natural, metavar="NUMBER", help="this case alone")
    parser.add_argument("--keep", metavar="FOLDER", help="where the folder of --case stays, a new one")
    parser.add_argument("--series", action="store_true", help="whole series, by the program sgm_series")
    parser.add_argument("--jobs", type=natural, default=1, metavar="N", help="so many cases at once (1)")
    parser.add_argument("--verbose", action="store_true", help="a line for each case")
    words = parser.parse_args()
    if words.keep is not None and words.case is None:
        parser.error("--keep takes --case")
    if words.jobs == 0:
        parser.error("--jobs takes 1 or more")
    program = Series if words.series else Single
    try:
        if not runs(program):
            sys.exit(f"random_cases: {program.path} doesn't run")
        return try_cases(program, words)
    except OSError as error:
        sys.exit(f"random_cases: {error}")


if __name__ == "__main__":
    sys.exit(main())
