#!/usr/bin/env python3
"""Gives the program what means no good to it: calibrations, lists and grids with all that came with version 3.

    tests/hostile.py [--series] [WORD..]

The calibrations (hostile_calibrations.py) have for each key values of every other type, both ends of its range and
what lies beyond, equal names, names of other versions, outlines of up to 2000 numbers that are alike, cross themselves
or enclose nothing, and up to 16 MiB; matches, certificates and merges judge them. The lists and grids
(hostile_grids.py) are those of `merge` and `change`: a thousand entries with a fault in the last one, heads with
numbers of any size, texts that are cut, too long or separated by anything.

Each case has the status and the line that docs/FORMATS.md gives, written out by hand. The separate implementation
(reference.py) has to give the same, and the program has to do what it does: the status, both streams, and all that
stands in the folder afterwards. What differs is printed, and its folder stays. With WORDs only the cases run whose
names have one of them. The program is the one that the variable SGM names (./sgm of this repository without it).

With --series all calibrations are entries of lists, and the program is the one that SGM_SERIES names (./sgm_series
without it), with one worker and with two; reference_series.py is the separate implementation.

For example: tests/hostile.py outline, and then SGM=/tmp/other tests/hostile.py "list: 999"
"""

import argparse
import contextlib
import itertools
import os
import shutil
import sys
import tempfile

import hostile_calibrations
import hostile_grids
import random_cases
import reference
import reference_series
from hostile_calibrations import Case, Hollow
from random_inputs import Case as Files
from test_reference_pose import FILES

# In a list so many calibrations at most, and none that is longer.
ENTRIES, LONGEST = 1000, 1 << 20


def write_case(folder, case):
    """The files of a case in a new folder."""
    plain = {name: data for name, data in case.files.items() if not isinstance(data, Hollow)}
    random_cases.write_case(folder, Files("hostile", case.words, plain))
    for name in case.files.keys() - plain.keys():
        with open(os.path.join(folder, name), "wb") as file:
            file.truncate(case.files[name].length)


@contextlib.contextmanager
def folders(work, case):
    """Two folders with the files of a case, which go away."""
    made = [os.path.join(work, name) for name in ("program", "reference")]
    for folder in made:
        write_case(folder, case)
    yield made
    for folder in made:
        shutil.rmtree(folder)


def of_reference(main, folder, case):
    """What the reference ends with there. What it has no time for was worked out by hand, and is written there."""
    if case.outputs is None:
        return random_cases.run_reference(folder, case.words, main)
    for name, data in case.outputs.items():
        with open(os.path.join(folder, name), "wb") as file:
            file.write(data)
    return case.ends[0], case.summary.encode(), case.ends[1].encode()


def try_case(program, main, case, work):
    """The status, and lines on what isn't as it has to be."""
    with folders(work, case) as (ours, theirs):
        wanted = of_reference(main, theirs, case)
        lines = []
        if (wanted[0], wanted[2].decode()) != case.ends:
            lines.append(f"the reference ends with {wanted[0]}, {wanted[2]!r}, not with {case.ends}")
        made = random_cases.run_program(program.path, ours, case.words)
        lines += random_cases.differences(made, wanted, (ours, theirs))
        if lines:
            # Of a series whole lists may differ.
            lines = lines[:9]
            place = random_cases.keep(work, "hostile")
            lines.append(f"kept in {place}; the words are {' '.join(case.words)}")
    return wanted[0], lines


def single_cases():
    yield from hostile_calibrations.cases()
    yield from hostile_grids.cases()


def series_case(name, calibrations, workers):
    """The series of matches with these calibrations."""
    files = {f"c{number}.json": it.text for number, it in enumerate(calibrations)}
    entries = [f"l.pgm r.pgm c{number}.json o{number}" for number in range(len(calibrations))]
    told = [it.told() for it in calibrations if it.line]
    line = "\nsgm: ".join([*told, ""])[: -len("sgm: ")] + f"sgm_series: {len(told)} entries refused"
    files |= {**FILES, "list.txt": "\n".join(entries).encode()}
    return Case(f"series {name}, {workers}", ("list.txt", f"workers={workers}"), files, line.removeprefix("sgm: "))


def series_cases():
    every = itertools.chain(hostile_calibrations.typed(), hostile_calibrations.others())
    calibrations = (it for it in every if len(it.text) <= LONGEST)
    for number in itertools.count():
        some = list(itertools.islice(calibrations, ENTRIES))
        if not some:
            return
        for workers in (1, 2):
            yield series_case(number, some, workers)


def try_cases(program, main, cases):
    """Tries each; gives how many, how many of each status, and how many were wrong."""
    statuses, wrong = {}, 0
    with tempfile.TemporaryDirectory(prefix="sgm-hostile.") as work:
        for case in cases:
            status, lines = try_case(program, main, case, work)
            statuses[status] = statuses.get(status, 0) + 1
            if lines:
                wrong += 1
                print(f"hostile: {case.name}:", *lines, sep="\n    ", flush=True)
    return statuses, wrong


def main():
    parser = argparse.ArgumentParser(
        description=__doc__.split("\n\n")[0], epilog='Example: tests/hostile.py outline "list: 999"'
    )
    parser.add_argument("words", metavar="WORD", nargs="*", help="only the cases whose names have one of these words")
    parser.add_argument("--series", action="store_true", help="all calibrations by the program sgm_series")
    words = parser.parse_args()
    program, of_program, cases = random_cases.Single, reference.main, single_cases()
    if words.series:
        program, of_program, cases = random_cases.Series, reference_series.main, series_cases()
    chosen = (case for case in cases if not words.words or any(word in case.name for word in words.words))
    try:
        if not random_cases.runs(program):
            sys.exit(f"hostile: {program.path} doesn't run")
        statuses, wrong = try_cases(program, of_program, chosen)
    except OSError as error:
        sys.exit(f"hostile: {error}")
    by_status = ", ".join(f"{statuses[status]} of status {status}" for status in sorted(statuses))
    print(f"hostile: {sum(statuses.values())} trials ({by_status}), {wrong} wrong")
    return 1 if wrong or not statuses else 0


if __name__ == "__main__":
    sys.exit(main())
