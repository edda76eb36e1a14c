#!/usr/bin/env python3
"""Proves the crates of a program side by side, builds it, and tells how far that is.

    packaging/first_build.py [--cpu NAME] [--into FILE] PROGRAM CRATE [-- WORD..]

For example: packaging/first_build.py sgm sgm_cli -- demo 0. So packaging/launcher.sh calls it for
./sgm. The crates below the program's are proved on a copy of their sources, in a folder that is
removed at the end, by `rt ci`: side by side, as many as there are processors and memory for, and
first those with the longest chain of others behind them. It reads of a crate below only what that
states, where `rt check` reads its proofs too, and keeps each proved crate beside the toolchain, by
the checksums of all that its proof read: for a start after one that was stopped, for the other
program and for the gate. Then `rattle build` proves the program's crate over these libraries and
compiles it, `rattle-link` links it, and it is started once, with the WORDs. If that ends well it
becomes crates/CRATE/out/CRATE, or FILE.

All that these say goes to crates/CRATE/out/build.txt. Standard error gets the progress: one line
that is rewritten where it is a terminal, else a line for each crate when it ends. Nothing goes to
standard output. Status 1 where a crate isn't proved or the program isn't built; the last lines of
what was said of it, but for those of what is well, then stand on standard error. SIGINT, SIGTERM
and SIGHUP end all that was started, and then this with 130, 143 or 129.

How the time left is reckoned: packaging/build_times.txt has the seconds of each crate; one that
has no line there counts as their mean. rt begins as many crates as there are processors, first
those with the longest chain behind them. This is gone through with the seconds of the table, which
tells when the first crate ends, when the second, and so on; behind the last is the program's
building. The time left is what this still has behind as many crates as have ended, times how much
longer they took here than by the table (as long as no tenth of the whole is done, as long as
there), less the time since the last of them ended. A crate that was kept counts as none.
"""

import argparse
import collections
import contextlib
import os
import re
import select
import shutil
import signal
import subprocess
import sys
import tempfile
import time

TOP = os.path.normpath(os.path.join(os.path.dirname(os.path.abspath(__file__)), ".."))
TIMES = os.path.join(TOP, "packaging", "build_times.txt")
# In the table, what stands for the program's own crate: its proof and the building of the program.
BUILDING = "program"
# What is said once it is.
BUILT = "the program is built"
# What a proof reads of a crate.
PARTS = ("src", "specs", "proofs")
# The machine that a program is linked for.
TARGET = "x86_64-unknown-linux-gnu"
# How many of the last lines are shown where something fails, and how much of a line. What is well
# stands behind the errors and is left out: each function that is proved, and what was loaded.
LAST, WIDEST = 20, 400
WELL = re.compile(rb".*: proved|(logic|statements|library|crate) .*=\d+.*")
# Of what rt ci says: whose proof the next lines are of, and what came of it.
HEAD = re.compile(rb"== (\w+)(: its tests)?")
VERDICT = re.compile(rb"rt: (\w+)(: its tests are)? (proved|NOT PROVED|is kept)(: .*)?")
# Seconds between two looks, and between two rewritings of the line.
LOOK, REWRITE = 0.2, 1
# How long what was started has for ending by itself.
PATIENCE = 2
# The share of the whole from which on the machine's pace is taken from what was done.
ENOUGH = 0.1
# How many processes at most prove the program's crate, which is the last, and the memory of each.
MOST, EACH = 4, 1500 << 20


class Stopped(Exception):
    """A signal came that ends the build."""


class Failed(Exception):
    """What isn't proved or built, and the last lines of what was said of it."""


# Signals


class Signals:
    """The signals that came, noted as they come and looked at between two steps."""

    came, parent = [], 0

    @classmethod
    def note(cls):
        """A shell has SIGINT ignored by what it starts in the background, so that is set anew."""
        cls.parent = os.getppid()
        for number in (signal.SIGINT, signal.SIGTERM, signal.SIGHUP, signal.SIGTSTP):
            if number == signal.SIGINT or signal.getsignal(number) != signal.SIG_IGN:
                signal.signal(number, lambda number, _: cls.came.append(number))


def members(session):
    """The processes of a session, by their numbers. One that has ended is none, read or not."""
    found = []
    for name in filter(str.isdigit, os.listdir("/proc")):
        try:
            with open(f"/proc/{name}/stat", "rb") as file:
                fields = file.read().rpartition(b")")[2].split()
        except OSError:
            continue
        if int(fields[3]) == session and fields[0] not in (b"Z", b"X"):
            found.append(int(name))
    return found


def signal_all(session, number):
    """Sends each process of the session the signal, and returns how many there were."""
    found = members(session)
    for process in found:
        with contextlib.suppress(ProcessLookupError):
            os.kill(process, number)
    return len(found)


def end(child):
    """Ends each process of the child's session, and returns once there is none."""
    until = time.monotonic() + PATIENCE
    while signal_all(child.pid, signal.SIGTERM if time.monotonic() < until else signal.SIGKILL):
        child.poll()
        time.sleep(LOOK / 4)
    child.wait()
    child.stdout.close()


def attend(child):
    """Does what the signals that came ask for; the loss of the process that waits is one too."""
    if os.getppid() != Signals.parent:
        Signals.came.append(signal.SIGTERM)
    ending = [it for it in Signals.came if it != signal.SIGTSTP]
    if ending:
        raise Stopped(ending[0])
    if Signals.came:
        Signals.came.clear()
        signal_all(child.pid, signal.SIGSTOP)
        os.kill(os.getpid(), signal.SIGSTOP)
        signal_all(child.pid, signal.SIGCONT)


def run(command, folder, log, hear, look):
    """Runs the command in a session of its own, of which nothing is left when this returns.

    What it says goes to the log, and each line to hear; look is called every now and then.
    Returns its status.
    """
    rest, is_open = b"", True
    how = {"stdin": subprocess.DEVNULL, "stdout": subprocess.PIPE, "stderr": subprocess.STDOUT}
    child = subprocess.Popen(command, cwd=folder, start_new_session=True, **how)
    try:
        while is_open or child.poll() is None:
            attend(child)
            if select.select([child.stdout] * is_open, [], [], LOOK)[0]:
                said = os.read(child.stdout.fileno(), 1 << 16)
                log.write(said)
                is_open = bool(said)
                *lines, rest = (rest + said).split(b"\n")
                for line in lines:
                    hear(line)
            elif child.poll() is not None:
                break
            look()
    finally:
        end(child)
    if rest:
        hear(rest)
    return child.returncode


# Crates


def named_crates():
    """The crates that crates.txt names, each with its line there and what it uses."""
    named = {}
    with open(os.path.join(TOP, "crates.txt"), encoding="utf-8") as file:
        for line in file:
            line = line.partition("#")[0].strip()
            head, colon, uses = line.partition(":")
            if colon and head:
                named[head.split()[0]] = line, uses.split()
    return named


def crates_of(name):
    """The crate and those below it as crates.txt has them, each with those below it.

    A crate comes after those that it uses.
    """
    named, below = named_crates(), {}

    def visit(crate):
        if crate not in below:
            uses = [it for it in named.get(crate, ("", []))[1] if it in named]
            for it in uses:
                visit(it)
            below[crate] = list(dict.fromkeys(sum([[*below[it], it] for it in uses], [])))

    visit(name)
    return {it: below[it] for it in sorted(below, key=lambda it: len(below[it]))}


def copy_crates(names, room):
    """Copies what the proofs of these crates read to a folder, as a repository of its own."""
    named = named_crates()
    with open(os.path.join(room, "crates.txt"), "w", encoding="utf-8") as file:
        file.writelines(f"{named[it][0]}\n" for it in names)
    shutil.copy(os.path.join(TOP, "HANDLES"), room)
    for name in names:
        for part in PARTS:
            source = os.path.join(TOP, "crates", name, part)
            if os.path.isdir(source):
                shutil.copytree(source, os.path.join(room, "crates", name, part))


# Times


def seconds_of(crates):
    """The seconds of each crate, and of the building of the program, by the table."""
    table = {}
    if os.path.exists(TIMES):
        with open(TIMES, encoding="utf-8") as file:
            for line in file:
                words = line.partition("#")[0].split()
                if words:
                    table[words[0]] = float(words[1])
    mean = sum(table.values()) / len(table) if table else 0
    return {it: table.get(it, mean) for it in [*crates, BUILDING]}


def schedule(crates, seconds, places):
    """The moments at which these crates end, one after the other, where each takes its seconds in
    one of so many places, and of those that can begin that with the longest chain behind it does.
    """
    behind = {}
    for name in reversed(crates):
        above = [behind[it] for it in behind if name in crates[it]]
        behind[name] = seconds[name] + max(above, default=0)
    waiting, running, ends, now = sorted(crates, key=lambda it: -behind[it]), {}, [], 0
    while waiting or running:
        can = [it for it in waiting if not {*crates[it]} & {*waiting, *running}]
        for name in can[: places - len(running)]:
            waiting.remove(name)
            running[name] = now + seconds[name]
        name = min(running, key=lambda it: running[it])
        now = running.pop(name)
        ends.append(now)
    return ends


def processors():
    return len(os.sched_getaffinity(0))


def provers():
    """How many processes prove the program's crate: one for each processor, as memory allows."""
    with open("/proc/meminfo", encoding="ascii") as file:
        free = next(int(it.split()[1]) << 10 for it in file if it.startswith("MemAvailable:"))
    return max(min(MOST, processors(), free // EACH), 1)


class Times:
    """What has ended, and what the table reckons of that and of the rest."""

    def __init__(self, name):
        self.name, self.crates = name, crates_of(name)
        self.seconds = seconds_of(self.crates)
        self.begin, self.last, self.ended = time.monotonic(), 0, {}

    def gone(self):
        return time.monotonic() - self.begin

    def end_of(self, name, is_kept=False):
        now = self.gone()
        if is_kept:
            self.seconds[name] = 0
        else:
            self.last = now
        self.ended[name] = now

    def left(self):
        """The seconds that are left, as the head of this file says."""
        libraries = {it: below for it, below in self.crates.items() if it != self.name}
        moments = [0, *schedule(libraries, self.seconds, processors())]
        done = moments[len(libraries.keys() & self.ended.keys())]
        whole = moments[-1] + self.seconds[BUILDING]
        pace = self.last / done if done > ENOUGH * whole and self.last else 1
        since = self.gone() - max([0, *self.ended.values()])
        return max((whole - done) * pace - since, 0)


def clock(seconds):
    minutes, seconds = divmod(int(seconds), 60)
    hours, minutes = divmod(minutes, 60)
    return f"{hours}:{minutes:02}:{seconds:02}" if hours else f"{minutes}:{seconds:02}"


def roughly(seconds):
    """In minutes, or in tens of seconds where they are few."""
    if seconds >= 90:
        return f"about {round(seconds / 60)} minutes"
    return f"about {10 * round(seconds / 10)} seconds" if seconds >= 15 else "some seconds"


# What is said


class Teller:
    """Says on standard error how far the build is. Nothing hangs on whether that can be written."""

    def __init__(self, program, times):
        self.program, self.times, self.phase = program, times, ""
        self.is_terminal, self.is_open, self.shown = os.isatty(2), False, 0

    def write(self, text):
        with contextlib.suppress(OSError):
            os.write(2, text.encode(errors="replace"))

    def say(self, text):
        """A line of its own, behind the one that is rewritten."""
        self.write("\n" * self.is_open + f"{self.program}: {text}\n")
        self.is_open = False

    def far(self, name=""):
        """How far it is, with the name of what has just ended."""
        times, left = self.times, f"{roughly(self.times.left())} left"
        left = self.phase if self.phase == BUILT else ", ".join(filter(None, [self.phase, left]))
        of = f"{len(times.ended)} of {len(times.crates)} crates checked{name and f' ({name})'}"
        return f"{of}, {clock(times.gone())} gone, {left}"

    def show(self, is_due=False):
        """Rewrites the terminal's line where that is due; it is never wider than the terminal."""
        now = time.monotonic()
        if self.is_terminal and (is_due or now - self.shown >= REWRITE):
            width = 80
            with contextlib.suppress(OSError):
                width = os.get_terminal_size(2).columns or width
            self.write(f"\r{f'{self.program}: {self.far()}'[: width - 1]}\033[K")
            self.is_open, self.shown = True, now

    def tell(self, name=""):
        """What has just come to be: a line where there is no terminal."""
        if self.is_terminal:
            self.show(is_due=True)
        else:
            self.say(self.far(name))


class Listener:
    """What is said, line by line: which crate has ended, and the last lines of each."""

    def __init__(self, teller):
        self.teller, self.times, self.at, self.failed = teller, teller.times, "", []
        self.said = collections.defaultdict(lambda: collections.deque(maxlen=LAST))

    def hear(self, line):
        head, verdict = HEAD.fullmatch(line), VERDICT.fullmatch(line)
        if head:
            self.at = head[1].decode()
        elif verdict:
            self.hear_verdict(verdict[1].decode(), *verdict.groups()[1:])
        elif not WELL.fullmatch(line):
            self.said[self.at].append(line)
        if re.match(rb"rt: \w+(: its tests)?: another run on this machine ", line):
            self.teller.say(line.decode(errors="replace"))

    def hear_verdict(self, name, of_tests, word, why):
        """A crate's tests count for nothing here, nor does one above another that isn't proved."""
        self.at = ""
        if of_tests or name not in self.times.crates:
            return
        if word != b"NOT PROVED":
            self.end_of(name, word == b"is kept")
        elif not why:
            self.failed.append(name)

    def end_of(self, name, is_kept=False):
        self.times.end_of(name, is_kept)
        self.teller.tell(name)

    def last(self, at):
        """The last lines of what was said of a crate, for the eye."""
        lines = [it.decode(errors="replace") for it in self.said[at]]
        return "".join(f"{it[:WIDEST]}{' ..' * (len(it) > WIDEST)}\n" for it in lines)


# The build


def prove(listener, names, room, log):
    """Proves these crates in the folder; Failed says which one isn't proved.

    `rt ci` runs the tests that stand in them too, which are the gate's matter.
    """
    copy_crates(names, room)
    status = run(["rt", "ci"], room, log, listener.hear, listener.teller.show)
    if status and not listener.times.ended.keys() >= {*names}:
        failed = ", ".join(listener.failed)
        at = next((it for it in listener.failed if it in listener.said), listener.at)
        why = f"not proved: {failed}" if failed else f"`rt ci` ended with {status}"
        raise Failed(why, listener.last(at))


def toolchain():
    """The toolchain's folder, which holds the page that `rt doc` names."""
    how = {"stdin": subprocess.DEVNULL, "capture_output": True, "text": True, "check": True}
    return os.path.dirname(subprocess.run(["rt", "doc"], **how).stdout.strip())


def commands_of_build(crate, crates, room, cpu):
    """What proves and compiles the program's crate, and what links it to the file `program`.

    The libraries stand in the folder where `rt ci` has proved them. The words are those with which
    it has a program checked and compiled, but for the number of processes, and the processor.
    """
    kit, line = toolchain(), named_crates()[crate][1]
    rlibs = {it: f"{room}/crates/{it}/out/rlib" for it in crates[crate]}
    words = ["--crate-name", crate, "src/main.rt"]
    for name in ["std", *line]:
        words += ["--extern", f"{name}={rlibs.get(name, f'{kit}/rlibs')}/{name}.rlib"]
    for folder in [f"{kit}/rlibs", *rlibs.values()]:
        words += ["-L", f"dependency={folder}"]
    words += ["--antt-project", f"{kit}/rattle/logic/antt-project.json"]
    words += ["--logic-built", f"{kit}/logic_built", "--jobs", f"{provers()}", "--links", f"{crate}="]
    words += [f"--cpu={cpu}"] if cpu else []
    words += ["--toolchain", f"{kit}/toolchain", "--backend", "llvm", "-o", f"{room}/program.o"]
    link = ["--target", TARGET, "--toolchain", f"{kit}/toolchain", "-o", f"{room}/program"]
    link += [f"{room}/program.o", f"{kit}/c/libos_c.a", f"{kit}/c/liblibc_c.a"]
    return [f"{kit}/bin/rattle", "build", *words], [f"{kit}/bin/rattle-link", *link]


def build(listener, crate, room, log, given):
    """Proves the program's crate, builds the program over the libraries, and starts it once."""
    teller, listener.at = listener.teller, BUILDING
    teller.phase = "building the program"
    teller.show()
    commands = commands_of_build(crate, listener.times.crates, room, given.cpu)
    folder = os.path.join(TOP, "crates", crate)
    for command in (*commands, [f"{room}/program", *given.words]):
        status = run(command, folder, log, listener.hear, teller.show)
        if status:
            begin = " ".join([os.path.basename(command[0]), *command[1:2]])
            raise Failed(f"not built: `{begin} ..` ended with {status}", listener.last(BUILDING))
    listener.times.ended.setdefault(crate, listener.times.gone())


def put(made, to, moment):
    """Has the file take the place of the one of that name at once, which may be running.

    It gets the time of the moment at which the sources were copied, so one that changes while this
    builds is newer.
    """
    new = f"{to}.new.{os.getpid()}"
    shutil.copy(made, new)
    os.utime(new, (moment, moment))
    os.replace(new, to)


def greet(teller, is_first, file):
    """What is going to happen, and where what the prover says is to be read."""
    times = teller.times
    if is_first:
        several = "s" * (processors() > 1)
        number = f"{len(times.crates)} crates on {processors()} processor{several}"
        whole = f"{roughly(times.left())} where none is proved"
        teller.say(f"first build: this proves {number}, {whole} ({file});")
        teller.say("later starts take no time until a source changes")
    else:
        what = "proving and building what has changed"
        teller.say(f"a source is newer than the program: {what} ({file})")


def new_file(path):
    """The file, opened anew: another build may still write to the one of that name."""
    with contextlib.suppress(FileExistsError):
        os.mkdir(os.path.dirname(path))
    with contextlib.suppress(FileNotFoundError):
        os.remove(path)
    return open(path, "wb", buffering=0)


def make(given):
    """Proves and builds; the status to end with."""
    folder = os.path.join(TOP, "crates", given.crate, "out")
    into = given.into or os.path.join(folder, given.crate)
    path = os.path.join(folder, "build.txt")
    shown = os.path.relpath(path)
    shown = path if shown.startswith("..") else shown
    teller = Teller(given.program, Times(given.crate))
    listener = Listener(teller)
    try:
        moment = time.time()
        with new_file(path) as log, tempfile.TemporaryDirectory(prefix="sgm-build-") as room:
            greet(teller, not os.path.exists(into), shown)
            teller.show()
            prove(listener, [it for it in teller.times.crates if it != given.crate], room, log)
            build(listener, given.crate, room, log, given)
            put(f"{room}/program", into, moment)
    except Stopped as stopped:
        teller.say("stopped: the next start takes over the crates that are kept")
        return 128 + stopped.args[0]
    except Failed as failed:
        why, last = failed.args
        teller.say(f"{why}. What was said last, of which {shown} has all:")
        teller.write(last)
        return 1
    except OSError as error:
        teller.say(f"{error.filename or shown}: {error.strerror}")
        return 1
    teller.phase = BUILT
    teller.tell()
    teller.write("\n" * teller.is_open)
    return 0


def main():
    way = argparse.RawDescriptionHelpFormatter
    parser = argparse.ArgumentParser(description=__doc__, formatter_class=way)
    parser.add_argument("--cpu", metavar="NAME", help="the processor that the program is for")
    parser.add_argument("--into", metavar="FILE", help="where the program is put")
    parser.add_argument("program", metavar="PROGRAM", help="the name that messages begin with")
    parser.add_argument("crate", metavar="CRATE", help="the crate that the program is made of")
    parser.add_argument("words", metavar="WORD", nargs="*", help="of the run that tries it")
    given = parser.parse_args()
    # What is opened here shall not take the place of a stream that was closed.
    while os.open(os.devnull, os.O_RDWR) < 3:
        pass
    Signals.note()
    try:
        return make(given)
    except (OSError, ValueError, subprocess.CalledProcessError) as error:
        print(f"first_build: {error}", file=sys.stderr)
        return 1


if __name__ == "__main__":
    sys.exit(main())
