#!/usr/bin/env python3
"""Tells where the time of a crate's proof goes.

    bench/proof_time.py sgm_io                       # the slowest modules of the crate
    bench/proof_time.py sgm_io files::Files::make    # the goals of one function

The first checks the crate from nothing, and takes the seconds of each module from the times at which the prover wrote
what it had checked. Of a function Rattle makes several modules: `Lts`, `Tie` and `Reads` grow with its body, and most of
all with what it holds on its ways out; `Proof` has the searches for its goals; `Answers` and files of lemmas are written
by hand.

The second answers each goal that has no answer yet in a module of its own, in a copy of the crate, by the tactics that
Rattle tries, and tells its seconds. One that they don't close is marked open: Rattle takes an invariant apart first, or
closes it by what a `#[tactic]` names, so its time is a hint. A goal of several seconds is worth an answer.

`rt check` makes the libraries below the crate first, where they aren't there. The seconds are those of the wall clock:
run it alone. Status 1 where the crate or the function isn't there or isn't proved.
"""

import argparse
import os
import re
import shutil
import subprocess
import sys
import tempfile

TOP = os.path.realpath(os.path.join(os.path.dirname(os.path.abspath(__file__)), ".."))
TACTICS = [
    "search rules",
    "grind (arith, common_steps) steps 2000000",
    "grind (arith, common_steps, not_there) steps 2000000",
    "grind (arith, elements) steps 2000000",
    "grind (arith, moves) steps 2000000",
]
USES = """use Rattle.std.proofs.Common.{rules, arith}
use Rattle.std.proofs.lemmas.Grind.{common_steps, not_there, elements, moves}
"""


class Stop(Exception):
    """Why there are no figures."""


def crates():
    """Each crate of the repository and those that it names."""
    found = {}
    with open(f"{TOP}/crates.txt", encoding="utf-8") as file:
        for line in file:
            name, colon, below = line.partition("#")[0].partition(":")
            if colon:
                found[name.strip()] = below.split()
    return found


def below(name, found):
    """The crates of the repository below a crate."""
    seen = []
    for other in found[name]:
        if other in found:
            seen += [it for it in [*below(other, found), other] if it not in seen]
    return seen


def words(name, kit):
    """The words of a check of the crate over built libraries."""
    found = crates()
    if name not in found:
        raise Stop(f"no crate {name} in crates.txt")
    rlib = lambda it: f"{TOP}/crates/{it}/out/rlib/{it}.rlib" if it in found else f"{kit}/rlibs/{it}.rlib"
    is_program = os.path.exists(f"{TOP}/crates/{name}/src/main.rt")
    made = ["rattle", "check", "--crate-name", name, "src/main.rt" if is_program else "src/lib.rt"]
    for it in ["std", *found[name]]:
        made += ["--extern", f"{it}={rlib(it)}"]
    for it in below(name, found):
        made += ["-L", f"dependency={os.path.dirname(rlib(it))}"]
    made += ["-L", f"dependency={kit}/rlibs", "--antt-project", f"{kit}/rattle/logic/antt-project.json"]
    made += ["--logic-built", f"{kit}/logic_built", "--jobs", "1"]
    return made + ["--test"] * name.endswith("_tests")


def run(command, folder):
    """Runs the command there, and gives its status and its lines."""
    ran = subprocess.run(command, cwd=folder, stdout=subprocess.PIPE, stderr=subprocess.STDOUT, text=True, errors="replace")
    return ran.returncode, ran.stdout.split("\n")


def seconds(kept):
    """The seconds of each module that was written there, by the times of their files."""
    written = []
    for folder, _, names in os.walk(kept):
        if os.path.basename(folder) != "records":
            written += [(os.stat(f"{folder}/{it}").st_mtime, it[: -len(".oantt")]) for it in names if it.endswith(".oantt")]
    written.sort()
    return [(at - before, module) for (before, _), (at, module) in zip(written, written[1:])]


def of_modules(name, command, most):
    """The slowest modules of the crate, and the seconds by kind."""
    with tempfile.TemporaryDirectory() as kept:
        status, lines = run([*command, "--incremental", kept], f"{TOP}/crates/{name}")
        if status:
            raise Stop("\n".join([f"{name} isn't proved:", *lines[-12:]]))
        times = seconds(kept)
    kinds = {}
    for took, module in times:
        kind = module.rpartition(".")[2] if ".Lts." not in module else "Lts"
        kinds[kind] = kinds.get(kind, 0) + took
    print(f"{sum(kinds.values()):7.1f} all of {name}, of which")
    for kind in ("Lts", "Tie", "Reads", "Proof", "Answers"):
        print(f"{kinds.get(kind, 0):7.1f} {kind}")
    print()
    for took, module in sorted(times, reverse=True)[:most]:
        print(f"{took:7.2f} {module.removeprefix(f'Rattle-{name}-')}")


def goals_of(function, command, room):
    """The folder of the function's proof, below proofs/, and each of its goals with its arguments."""
    run([*command, "--start", function, "--generated", f"{room}/start"], room)
    place = function.replace("::", "/")
    for folder, _, names in os.walk(f"{room}/start"):
        if folder.endswith(f"-proofs/{place}") and "AnswersOffered.antt" in names:
            with open(f"{folder}/AnswersOffered.antt", encoding="utf-8") as file:
                return place, re.findall(r"^pub (\S+) : goal\.\S+\n\S+ (.*) = \?", file.read(), re.M)
    raise Stop(f"no goals of a function {function}: name it by its path, as files::Files::make")


def with_goals(text, module, asked):
    """The text of an Answers.antt to which the goals are added, each answered by a module of its own."""
    lines = text.split("\n")
    head = [it for it in lines if it.startswith(("use ", "mod ", "pub mod "))]
    body = [it for it in lines if it not in head]
    if not any(it.endswith(".Goals as goal") for it in head):
        head.append(f"use {module}.Goals as goal")
    head = sorted(head, key=lambda it: it.startswith("use "))
    mods = [f"mod G{number}" for number in range(len(asked))]
    uses = [f"use {module}.Answers.G{number} as g{number}" for number in range(len(asked))]
    added = [f"\npub {goal} : goal.{goal}\n{goal} = g{number}.answer" for number, (goal, _) in enumerate(asked)]
    return "\n".join([*mods, *head, *uses, *body, *added, ""])


def of_goals(name, function, command):
    """The seconds of each goal of the function."""
    with tempfile.TemporaryDirectory() as room:
        for part in ("src", "specs", "proofs"):
            if os.path.isdir(f"{TOP}/crates/{name}/{part}"):
                shutil.copytree(f"{TOP}/crates/{name}/{part}", f"{room}/{part}")
        place, goals = goals_of(function, command, room)
        answers, text = f"{room}/proofs/{place}/Answers.antt", ""
        if os.path.exists(answers):
            with open(answers, encoding="utf-8") as file:
                text = file.read()
        # (what a call needs of lifetimes is never slow)
        asked = [it for it in goals if f"\npub {it[0]} :" not in f"\n{text}" and not it[1].endswith("κs")]
        module = f"Rattle.{name}.proofs.{place.replace('/', '.')}"
        os.makedirs(f"{room}/proofs/{place}/Answers", exist_ok=True)
        for number, (goal, arguments) in enumerate(asked):
            with open(f"{room}/proofs/{place}/Answers/G{number}.antt", "w", encoding="utf-8") as file:
                tries = ", ".join(TACTICS)
                file.write(f"{USES}use {module}.Goals as goal\n\npub answer : goal.{goal}\nanswer {arguments} = first_of ({tries})\n")
        with open(answers, "w", encoding="utf-8") as file:
            file.write(with_goals(text, module, asked))
        _, lines = run([*command, "--only", function, "--incremental", f"{room}/kept"], room)
        is_open = set(re.findall(r"Answers/G(\d+)\.antt:\d+:\d+: error", "\n".join(lines)))
        for took, written in sorted(seconds(f"{room}/kept"), reverse=True):
            number = re.search(r"\.Answers\.G(\d+)$", written)
            if number:
                print(f"{took:7.2f} {asked[int(number[1])][0]}{'   open' if number[1] in is_open else ''}")


def main():
    parser = argparse.ArgumentParser(description=__doc__, formatter_class=argparse.RawDescriptionHelpFormatter)
    parser.add_argument("crate", help="a crate of this repository, as sgm_io")
    parser.add_argument("function", nargs="?", help="a function by its path in the crate, as files::Files::make")
    parser.add_argument("--most", type=int, default=40, help="how many modules are printed (40)")
    asked = parser.parse_args()
    try:
        found = shutil.which("rt")
        if not found:
            raise Stop("the toolchain's rt isn't on the path")
        command = words(asked.crate, os.path.dirname(os.path.dirname(os.path.realpath(found))))
        status, lines = run(["rt", "check"], f"{TOP}/crates/{asked.crate}")
        if status:
            raise Stop("\n".join([f"rt check in {asked.crate} failed:", *lines[-12:]]))
        if asked.function:
            of_goals(asked.crate, asked.function, command)
        else:
            of_modules(asked.crate, command, asked.most)
    except (Stop, OSError) as error:
        print(f"proof_time: {error}", file=sys.stderr)
        return 1
    return 0


if __name__ == "__main__":
    sys.exit(main())
