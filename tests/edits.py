#!/usr/bin/env python3
"""Tries the must-fail edits that stand outside the gate, below tests/edits/.

    tests/edits.py                       # all of them: well over an hour of processor time
    tests/edits.py sgm_pgm sgm_grid      # those of two crates
    tests/edits.py --apply               # only whether each can be applied: no time at all

Each edit changes the meaning of a public function by a line or two, and the prover has to refuse it. The gate tries
the ones that tell most (crates/NAME/must-fail); these are the others, apart so that the gate stays fast. They are
tried on a copy of the repository's crates, by `rt must-fail`. What `rt check` has proved in this checkout is copied
too, up to 6 GB, and isn't proved anew; where that is nothing the crates are proved first. An edit is a file with a line
`file: PATH` (below its crate) and pairs of lines `old: TEXT` and `new: TEXT`; each old TEXT stands in that file once.

Prints a line for each edit and last `N passed, M failed`; one that is refused only because a proof names what it took
away has failed. Status: 0 where all were refused (with --apply: where all can be applied), 1 where one wasn't, 2 for
wrong words.
"""

import argparse
import os
import shutil
import subprocess
import sys
import tempfile

HERE = os.path.dirname(os.path.abspath(__file__))
TOP = os.path.realpath(os.path.join(HERE, ".."))
EDITS = os.path.join(HERE, "edits")
PARTS = ("src", "specs", "proofs", "out")
REFUSED = ": refused, as it must be"
# What rt says of an edit that is refused by a name which it takes away, and so perhaps not for what it changes.
BY_A_NAME = "this says little of the contract"


def crates_with_edits():
    return sorted(os.listdir(EDITS))


def edits_of(crate):
    folder = os.path.join(EDITS, crate)
    return [os.path.join(folder, name) for name in sorted(os.listdir(folder)) if name.endswith(".edit")]


def reason_against(edit, crate):
    """Why an edit can't be applied to its crate, or None where it can."""
    with open(edit) as file:
        lines = [line.rstrip("\n").split(": ", 1) for line in file if ": " in line]
    told = {word: [text for name, text in lines if name == word] for word in ("file", "old", "new")}
    if len(told["file"]) != 1 or not told["old"] or len(told["old"]) != len(told["new"]):
        return "it doesn't have one file and pairs of old and new"
    path = os.path.join(TOP, "crates", crate, told["file"][0])
    try:
        with open(path) as file:
            text = file.read()
    except OSError as error:
        return f"{told['file'][0]}: {error.strerror}"
    for old, new in zip(told["old"], told["new"]):
        if text.count(old) != 1:
            return f"{told['file'][0]} has its old text {text.count(old)} times"
        text = text.replace(old, new)
    return None


def apply(crates):
    """Says of each edit whether it can be applied; the numbers of those that can and can't."""
    counts = {True: 0, False: 0}
    for crate in crates:
        for edit in edits_of(crate):
            reason = reason_against(edit, crate)
            counts[reason is None] += 1
            if reason:
                print(f"{crate}/{os.path.basename(edit)}: {reason}")
    return counts[True], counts[False]


def copy_crates(folder, crates):
    """Copies what proofs need, and what is proved, into an empty folder, with these crates' edits in the place of the
    gate's."""
    # The toolchain looks for the repository's top up to a .git.
    os.mkdir(os.path.join(folder, ".git"))
    for name in ("crates.txt", "HANDLES"):
        shutil.copy(os.path.join(TOP, name), folder)
    for crate in os.listdir(os.path.join(TOP, "crates")):
        for part in PARTS:
            source = os.path.join(TOP, "crates", crate, part)
            if os.path.isdir(source):
                shutil.copytree(source, os.path.join(folder, "crates", crate, part), symlinks=True)
    for crate in crates:
        shutil.copytree(os.path.join(EDITS, crate), os.path.join(folder, "crates", crate, "must-fail"))


def prove_first(folder):
    """Proves the library above all that have edits, and those below it, side by side, where nothing is proved yet:
    `rt must-fail` would prove one after the other."""
    if not os.path.isdir(os.path.join(folder, "crates", "sgm_base", "out")):
        words = ["rt", "all", "check", "--jobs", str(3 * len(os.sched_getaffinity(0)) // 2)]
        subprocess.run(words, cwd=os.path.join(folder, "crates", "sgm_series"), stdout=subprocess.DEVNULL, check=True)


def try_all(crates):
    """Has the prover try the edits; the numbers of those that it refused and of the others."""
    refused = 0
    with tempfile.TemporaryDirectory(prefix="sgm-edits.") as folder:
        copy_crates(folder, crates)
        if crates == crates_with_edits():
            prove_first(folder)
        words = ["rt", "must-fail", *crates]
        with subprocess.Popen(words, cwd=folder, stdin=subprocess.DEVNULL, stdout=subprocess.PIPE, text=True) as tried:
            for line in tried.stdout:
                print(line, end="", flush=True)
                refused += REFUSED in line and BY_A_NAME not in line
    return refused, sum(len(edits_of(crate)) for crate in crates) - refused


def main():
    parser = argparse.ArgumentParser(description=__doc__, formatter_class=argparse.RawDescriptionHelpFormatter)
    parser.add_argument("crates", nargs="*", metavar="CRATE", help="only the edits of these crates")
    parser.add_argument("--apply", action="store_true", help="only say whether each can be applied")
    given = parser.parse_args()
    known = crates_with_edits()
    for crate in given.crates:
        if crate not in known:
            parser.error(f"there are no edits of {crate}")
    if not given.apply and shutil.which("rt") is None:
        print("edits: the toolchain's command rt isn't on the PATH", file=sys.stderr)
        return 1
    passed, failed = (apply if given.apply else try_all)(given.crates or known)
    print(f"{passed} passed, {failed} failed")
    return 0 if failed == 0 else 1


if __name__ == "__main__":
    sys.exit(main())
