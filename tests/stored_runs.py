#!/usr/bin/env python3
"""Holds the stored whole runs (the cases `run` of crates/sgm_cases/stdin) against the reference.

    tests/stored_runs.py [--write]

Each case names words and files, and its answer says the status, the three outputs and both streams; the form
is that of crates/sgm_cases/src/run.rt. Cases in which a call or a stream fails are passed over, since the
reference has no such devices. With --write what differs is replaced by the reference's answer: the answers are
never taken from the program. Takes about a minute.

Where the program makes finer disparities (TAKES_FINE of reference_inputs.py), each run of `match`
in version 3 that ends well has to stand there with `fine` true as well. Those that are missing
count as different, and --write adds them with their answers, each behind the other.
"""

import argparse
import functools
import os
import re
import sys
import tempfile

import random_cases
import reference_inputs
import reference_lists
from test_reference import WORKED

STORED = os.path.join(os.path.dirname(os.path.abspath(__file__)), "..", "crates", "sgm_cases", "stdin")
OUTPUTS = ("o.pgm", "o.asc", "o.csv")
# How many of a command's words name inputs.
INPUTS = {"match": 3, "trace": 3, "change": 2, "merge": 2}
# The most bytes of a file that an answer shows.
ROOM = 4096
ESCAPE = re.compile(rb"\\(?:x(..)|\*(\d+):((?:[^\\]|\\[^*.])*)\\\.|(.))", re.S)
PLAIN = {b"n": b"\n", b"r": b"\r", b"t": b"\t"}


def unescaped(text):
    """The bytes that a text in one line stands for."""

    def replaced(found):
        byte, copies, piece, letter = found.groups()
        if byte:
            return bytes([int(byte, 16)])
        return int(copies) * unescaped(piece) if copies else PLAIN.get(letter, letter)

    return ESCAPE.sub(replaced, text)


def quoted(data):
    def shown(byte):
        if byte in b"\n\\":
            return "\\n" if byte == 10 else "\\\\"
        return chr(byte) if 32 <= byte < 127 else f"\\x{byte:02x}"

    return '"' + "".join(map(shown, data)) + '"'


def given(case):
    """The words and the files of a case, and what an absent file shows; None where a call or a stream fails."""
    words, *fields = case.removeprefix("run").removeprefix(" ").split(" ; ")
    files, absent = dict(WORKED), "absent"
    for field in fields:
        kind, _, rest = field.partition(" ")
        if kind == "file":
            name, _, text = rest.partition(" ")
            files[name] = unescaped(text.encode())
        elif kind == "sure":
            # On a shelf where nothing fails every name is held.
            absent = quoted(b"")
        else:
            return None
    words = words.split(" ") if words else []
    if absent != "absent" and words:
        for name in [*words[1 : 1 + INPUTS.get(words[0], 0)], *listed(words, files)]:
            if name and name != "-" and "/" not in name:
                files.setdefault(name, b"")
    return words, files, absent


def listed(words, files):
    """The names in the list of a merge, where it has no fault."""
    try:
        return reference_lists.read_names(files[words[1]], ()) if words[0] == "merge" else []
    except (IndexError, KeyError, reference_inputs.Ended):
        return []


def without_splits(words):
    """The words without strips and workers, which have no part in an answer; the same words where they have a fault."""
    try:
        reference_inputs.read_words(words)
    except reference_inputs.Ended:
        return words
    begin = 1 + reference_inputs.COMMANDS[words[0]].operands
    return words[:begin] + [word for word in words[begin:] if not word.startswith(("strips=", "workers="))]


@functools.cache
def answer(words, files, absent):
    """How the reference ends on them, in the form of the stored answers. The files are pairs of a name and its bytes."""
    with tempfile.TemporaryDirectory(prefix="sgm-stored_runs.") as folder:
        for name, data in files:
            with open(os.path.join(folder, name), "wb") as file:
                file.write(data)
        status, out, err = random_cases.run_reference(folder, words)
        held = {}
        for name in OUTPUTS:
            path = os.path.join(folder, name)
            if os.path.exists(path):
                with open(path, "rb") as file:
                    held[name] = file.read()
    return ended(status, held, out, err, absent)


def ended(status, held, out, err, absent="absent"):
    """The answer to a case: its status, the outputs that are held then, and what both streams have received."""

    def shown(name):
        if name not in held:
            return absent
        return quoted(held[name]) if len(held[name]) <= ROOM else "too long"

    parts = [str(status), *(f"{name} {shown(name)}" for name in OUTPUTS)]
    return " | ".join([*parts, f"out {quoted(out)}", f"err {quoted(err)}"])


def hold_cases(name, wanted, beginning, is_writing):
    """Compares the stored cases with these, or puts these in their place, in front of all others. There
    are no other ones with that beginning. The name is that of the script whose cases they are."""
    with open(STORED, encoding="utf-8", newline="") as file:
        lines = file.read().split("\n")
    stored = [lines[at : at + 2] for at in range(0, len(lines) - 1, 2)]
    names = {case for case, _ in wanted}
    is_ours = lambda case: case in names or case.startswith(beginning)
    ours = [pair for pair in stored if is_ours(pair[0])]
    if is_writing:
        others = [pair for pair in stored if not is_ours(pair[0])]
        with open(STORED, "w", encoding="utf-8", newline="") as file:
            file.writelines(line + "\n" for pair in [*wanted, *others] for line in pair)
        print(f"{name}: {len(wanted)} cases written")
        return 0
    if sorted(ours) == sorted(wanted):
        print(f"{name}: {len(wanted)} cases the same")
        return 0
    differ = [case for case, answer in wanted if [case, answer] not in ours]
    print(f"{name}: {len(differ)} of {len(wanted)} cases differ or are missing")
    return 1


def with_finer(lines):
    """The lines, and behind each run that ends well in version 3 the same with finer disparities,
    with no answer yet, where it is missing."""
    made, cases = [], set(lines[::2])
    for case, answered in zip(lines[::2], lines[1::2]):
        made += [case, answered]
        is_third = case.startswith("run match ") and '"version":3' in case
        finer = case.replace('"fine":false', '"fine":true')
        if is_third and answered.startswith("0 | ") and finer not in cases:
            made += [finer, ""]
    return made + lines[len(lines) // 2 * 2 :]


def hold(is_writing):
    with open(STORED, encoding="utf-8", newline="") as file:
        lines = file.read().split("\n")
    if reference_inputs.TAKES_FINE:
        lines = with_finer(lines)
    same, passed_over, differ = 0, 0, []
    for at in range(0, len(lines) - 1, 2):
        if not re.match("run( |$)", lines[at]):
            continue
        case = given(lines[at])
        if case is None:
            passed_over += 1
            continue
        words, files, absent = case
        made = answer(tuple(without_splits(words)), tuple(files.items()), absent)
        if made == lines[at + 1]:
            same += 1
            continue
        differ.append(at + 1)
        lines[at + 1] = made
    if is_writing and differ:
        with open(STORED, "w", encoding="utf-8", newline="") as file:
            file.write("\n".join(lines))
    for number in differ:
        print(f"stored_runs: line {number}: " + ("written anew" if is_writing else "the reference ends otherwise"))
    print(f"stored_runs: {same} the same, {len(differ)} different, {passed_over} with devices that fail passed over")
    return 1 if differ and not is_writing else 0


def main():
    parser = argparse.ArgumentParser(description=__doc__.split("\n\n")[0], epilog="Example: tests/stored_runs.py")
    parser.add_argument("--write", action="store_true", help="put the reference's answer where another one stands")
    words = parser.parse_args()
    try:
        return hold(words.write)
    except OSError as error:
        sys.exit(f"stored_runs: {error}")


if __name__ == "__main__":
    sys.exit(main())
