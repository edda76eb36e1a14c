#!/usr/bin/env python3
"""Runs the gate from nothing and tells where its processor time goes, crate by crate.

    bench/gate_time.py [--out gate.md] [-- rt ci --anew]

Runs `rt ci --anew` at the top of this repository (or the command behind `--`), whose lines go to standard output
as they come, and then prints a Markdown table: the processor minutes of each crate's proof, of its tests, of the check
that its edits begin with (the seed, and the look at it once all were tried), and of its edits; of these also the number
and the seconds of one; and the whole run's minutes.

The figures are those of /proc, read every second, of each process that the gate starts, so of each the last second
at most is missing; behind the table stands the system's own sum of all, which lacks nothing. Run it alone on the
machine: times taken beside other work say little. Its status is the gate's.

The last line tells how fast the machine was: every 20 seconds this script does the same small piece of work, and the
line has the median of its processor times. Where two runs differ in it, the machine or what else ran there differed,
and their minutes can't be compared.
"""

import argparse
import collections
import os
import re
import resource
import statistics
import subprocess
import sys
import time

TOP = os.path.realpath(os.path.join(os.path.dirname(os.path.abspath(__file__)), ".."))
TICKS = os.sysconf("SC_CLK_TCK")
KINDS = ("proof", "tests", "seed", "edits")
# Seconds between two pieces of work that tell how fast the machine is.
PULSE = 20


def processes():
    """Each process: the one that started it, its seconds of the processor, and when it began."""
    found = {}
    for name in os.listdir("/proc"):
        if name.isdigit():
            try:
                with open(f"/proc/{name}/stat") as file:
                    fields = file.read().rpartition(")")[2].split()
            except OSError:
                continue
            found[int(name)] = int(fields[1]), (int(fields[11]) + int(fields[12])) / TICKS, fields[19]
    return found


def below(root, found):
    """The processes that this one has started, and those that they have."""
    children = collections.defaultdict(list)
    for process, (parent, _, _) in found.items():
        children[parent].append(process)
    todo = list(children[root])
    while todo:
        process = todo.pop()
        yield process
        todo += children[process]


def words(process):
    """A process's words and the folder that it runs in; empty where it has ended."""
    try:
        with open(f"/proc/{process}/cmdline", "rb") as file:
            line = file.read().replace(b"\0", b" ").decode(errors="replace")
        return line, os.readlink(f"/proc/{process}/cwd")
    except OSError:
        return "", ""


def task_of(line, folder):
    """The crate that a process of the prover works on, and what for. Others, as compilers, have no name of their own."""
    name = re.search(r"--crate-name (\w+)", line)
    if not name:
        return None
    if os.path.basename(folder).startswith("rt-edit-"):
        over = re.search(r"--incremental \S*/(\w+)( |$)", line)
        if over and over[1] == "seed":
            return name[1], "seed", None
        # (a crate with one edit has no seed)
        return name[1], "edits", over[1] if over else "from nothing"
    return name[1], "tests" if " --test " in line else "proof", None


def pulse():
    """The processor seconds of a small piece of work: sums from all over a list, and a table that grows."""
    begin = time.process_time()
    values = list(range(200_000))
    total = sum(values[at * 7919 % 200_000] & 255 for at in range(0, 200_000, 3))
    found = {number * 2_654_435_761 & 0xFFFFF: total for number in range(60_000)}
    assert found
    return time.process_time() - begin


def watch(gate):
    """The seconds of each process of the gate, by what it works on; and those of each pulse."""
    seconds, tasks, parents, pulses, begin = {}, {}, {}, [], time.monotonic()
    while gate.poll() is None:
        found = processes()
        for process in below(gate.pid, found):
            parent, spent, began = found[process]
            key = process, began
            seconds[key] = spent
            if tasks.get(key) is None:
                # What a crate's process starts works for the same crate.
                tasks[key] = task_of(*words(process)) or parents.get(parent)
            parents[process] = tasks[key]
        if time.monotonic() - begin >= PULSE * len(pulses):
            pulses.append(pulse())
        time.sleep(1)
    return seconds, tasks, pulses


def table(seconds, tasks):
    """The lines of the table."""
    spent = collections.defaultdict(lambda: dict.fromkeys(KINDS, 0))
    edits = collections.defaultdict(set)
    for key, of_process in seconds.items():
        if tasks[key]:
            crate, kind, edit = tasks[key]
            spent[crate][kind] += of_process
            if edit is not None:
                edits[crate].add(edit)
    yield "| Crate | Proof | Tests | Seed | Edits | Together | Edits tried | Seconds of one |"
    yield "|---|---|---|---|---|---|---|---|"
    for crate in sorted(spent):
        yield row(crate, [spent[crate][kind] for kind in KINDS], len(edits[crate]))
    sums = [sum(of_crate[kind] for of_crate in spent.values()) for kind in KINDS]
    yield row("all", sums, sum(len(numbers) for numbers in edits.values()))


def row(name, figures, edits):
    cells = [f"{figure / 60:.1f}" if figure >= 3 else "" for figure in figures]
    one = f"{figures[KINDS.index('edits')] / edits:.0f}" if edits else ""
    return f"| {name} | {' | '.join(cells)} | {sum(figures) / 60:.1f} | {edits or ''} | {one} |"


def main():
    parser = argparse.ArgumentParser(description=__doc__, formatter_class=argparse.RawDescriptionHelpFormatter)
    parser.add_argument("--out", metavar="FILE", help="write the table there too")
    parser.add_argument("command", nargs="*", help="in place of rt ci --anew, behind --")
    given = parser.parse_args()
    begin = time.monotonic()
    try:
        gate = subprocess.Popen(given.command or ["rt", "ci", "--anew"], cwd=TOP, stdin=subprocess.DEVNULL)
    except OSError as error:
        print(f"gate_time: {error.filename}: {error.strerror}", file=sys.stderr)
        return 1
    seconds, tasks, pulses = watch(gate)
    lines = list(table(seconds, tasks))
    used = resource.getrusage(resource.RUSAGE_CHILDREN)
    wall, busy = (time.monotonic() - begin) / 60, (used.ru_utime + used.ru_stime) / 60
    lines.append(f"\n{wall:.1f} minutes, {busy:.1f} of processor time by the system's count.")
    if pulses:
        middle, least, most = statistics.median(pulses), min(pulses), max(pulses)
        lines.append(f"The piece of work took {1000 * middle:.0f} ms of it ({least * 1000:.0f} to {most * 1000:.0f}).")
    text = "\n".join(lines) + "\n"
    print(text, end="")
    if given.out:
        with open(given.out, "w") as file:
            file.write(text)
    return gate.returncode


if __name__ == "__main__":
    sys.exit(main())
