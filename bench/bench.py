#!/usr/bin/env python3
"""Measures the time and the memory of `sgm match`, beside OpenCV's StereoSGBM where that is installed.

    bench/bench.py [--only 640x480] [--strips 1 7 64] [--workers 1 4] [--builds] [--parts] [--runs 3]
    bench/bench.py --turns 5 --strips 8 16 64 --workers 1 4 [--beside OTHER_SGM] [--versions 2 3]

Makes pairs of three sizes, runs the program on each with 64 and, for the two larger sizes, 128
disparities, and prints a Markdown table: the least seconds of some runs, how many times as fast that is
as the fastest row of one worker above it, cells a second (width * height * disparities / seconds), the
greatest memory that a run held and the least processor seconds. The program's seconds are
those of the whole run, with reading and writing files. Where `import cv2` works (Debian:
python3-opencv, for /usr/bin/python3), StereoSGBM with all eight directions (MODE_HH) and one thread
matches the same pairs in the same run; its seconds are those of the matching alone. The program is
the one that the variable SGM names (./sgm of this repository without it). bench/README.md says how
to read the tables.
"""

import argparse
import itertools
import json
import os
import random
import shutil
import statistics
import subprocess
import sys
import tempfile
import time

HERE = os.path.dirname(os.path.abspath(__file__))
SGM = os.path.realpath(os.environ.get("SGM", os.path.join(HERE, "..", "sgm")))
CRATE = os.path.realpath(os.path.join(HERE, "..", "crates", "sgm_cli"))
# The processor that the gate builds for, the better one that the launcher takes where it can, and what that needs.
GATE, BETTER = "x86-64-v2", "x86-64-v3"
NEEDED = set("avx avx2 bmi1 bmi2 f16c fma abm movbe".split())
# What the launcher sets, so that programs that are started without it are measured alike.
TUNABLES = ":".join(
    "glibc.malloc." + setting
    for setting in ("hugetlb=1", "mmap_threshold=1073741824", "top_pad=67108864")
)
CASES = [(640, 480, 64), (1280, 720, 64), (1280, 720, 128), (1920, 1080, 64), (1920, 1080, 128)]
DEEPEST = 60
OPENCV = """
import cv2, sys, time
cv2.setNumThreads(1)
left, right = (cv2.imread(name, cv2.IMREAD_GRAYSCALE) for name in sys.argv[1:3])
matcher = cv2.StereoSGBM_create(
    minDisparity=0, numDisparities=int(sys.argv[3]), blockSize=3, P1=72, P2=288,
    disp12MaxDiff=1, mode=cv2.STEREO_SGBM_MODE_HH)
start, busy = time.perf_counter(), time.process_time()
matcher.compute(left, right)
print(time.perf_counter() - start, time.process_time() - busy)
"""


def write_pair(folder, width, height):
    """A texture of noise in bands, each at its own disparity, with a nearer block in the middle."""
    draw = random.Random(1)
    left, right = bytearray(), bytearray()
    for y in range(height):
        texture = draw.randbytes(width + DEEPEST)
        shift = 8 + 4 * (8 * y // height)
        row = bytearray(texture[DEEPEST - shift :][:width])
        if height // 3 <= y < 2 * height // 3:
            # The block lies at the deepest disparity.
            row[width // 3 : 2 * width // 3] = texture[width // 3 : 2 * width // 3]
        left += row
        right += texture[DEEPEST:]
    names = []
    for side, samples in (("left", left), ("right", right)):
        names.append(os.path.join(folder, f"{side}-{width}x{height}.pgm"))
        with open(names[-1], "wb") as file:
            file.write(f"P5\n{width} {height}\n255\n".encode() + samples)
    return names


def warp_of(kind, width, height):
    """A warp of that kind which turns a picture by a third of a degree and moves it by two pixels."""
    if kind == "identity":
        return {"kind": kind}
    if kind == "projective":
        return {"kind": kind, "matrix": [10**9, 5817764, -2 * 10**9, -5817764, 10**9, 2 * 10**9, 11, 7, 10**9]}
    step = 16
    cols, rows = (width - 1) // step + 2, (height - 1) // step + 2
    corners = itertools.product(range(0, rows * step, step), range(0, cols * step, step))
    places = ((256 * x + y * 3 // 2 - 512, 256 * y - x * 3 // 2 + 512) for y, x in corners)
    return {"kind": kind, "step": step, "cols": cols, "rows": rows, "nodes": list(itertools.chain(*places))}


def write_calibration(folder, count, version=1, warp=None):
    """The name of a calibration of that version and so many disparities. Version 3 has the penalties that are recommended
    for it, the others have the plain ones; P2 is fixed in all. Both pictures have the warp, if one is given."""
    if count == 64 and version == 1 and warp is None:
        return "-"
    span, penalties = {"first": 0, "count": count}, {"p1": 10, "p2": 120}
    if version == 3:
        span["fine"], penalties = False, {"p1": 25, "p2": 100}
    if version > 1:
        penalties["adapt"] = False
    name = os.path.join(folder, f"calibration-{version}-{count}.json")
    with open(name, "w") as file:
        made = {"version": version, "disparities": span, "census": {"width": 9, "height": 7}, "penalties": penalties}
        if warp is not None:
            made["warp"] = {"left": warp, "right": warp}
        json.dump(made, file)
    return name


def measured(command):
    """Seconds, greatest memory in megabytes, standard output and processor seconds of a run that has to succeed."""
    start = time.perf_counter()
    process = subprocess.Popen(command, stdout=subprocess.PIPE)
    said = process.stdout.read().decode()
    _, status, usage = os.wait4(process.pid, 0)
    seconds = time.perf_counter() - start
    process.returncode = os.waitstatus_to_exitcode(status)
    if process.returncode:
        sys.exit(f"bench: {' '.join(command)} ended with {process.returncode}")
    return seconds, usage.ru_maxrss * 1024 / 1e6, said, usage.ru_utime + usage.ru_stime


def python_with_opencv():
    """A Python that has OpenCV, and its version; None and an empty text where there is none."""
    for python in (sys.executable, "/usr/bin/python3"):
        command = [python, "-c", "import cv2; print(cv2.__version__)"]
        try:
            found = subprocess.run(command, stdout=subprocess.PIPE, stderr=subprocess.DEVNULL).stdout.decode().strip()
        except OSError:
            continue
        if found:
            return python, found
    return None, ""


def of_processor(name):
    """The value of a line of /proc/cpuinfo, or an empty text."""
    with open("/proc/cpuinfo") as file:
        return next((line.partition(":")[2].strip() for line in file if line.startswith(name)), "")


def processor():
    return f"{len(os.sched_getaffinity(0))} x {of_processor('model name') or 'unknown processor'}"


# Builds


def build(cpu, folder):
    """The program as the toolchain builds it for a processor, in the folder."""
    flags = [] if cpu == GATE else ["--cpu", cpu]
    done = subprocess.run(["rt", "run", *flags, "--", "demo", "0"], cwd=CRATE, stdout=subprocess.DEVNULL)
    if done.returncode:
        sys.exit(f"bench: the program can't be built for {cpu}: see above")
    made = os.path.join(folder, "sgm-" + cpu)
    shutil.copy2(os.path.join(CRATE, "out", "sgm_cli"), made)
    return made


def builds(folder):
    """Pairs of a name and a program: the gate's build, and the launcher's where it is another, which stays."""
    if shutil.which("rt") is None:
        sys.exit("bench: --builds takes rt, the toolchain's command")
    names = [GATE, BETTER] if NEEDED <= set(of_processor("flags").split()) else [GATE]
    made = [(name, build(name, folder)) for name in names]
    os.utime(os.path.join(CRATE, "out", "sgm_cli"))
    return made


# Where the time goes


def samples_of(data):
    """Pairs of a count of samples and the function that ran, from perf's file."""
    command = ["perf", "report", "-i", data, "--stdio", "-F", "sample,dso,sym", "-t", "|"]
    text = subprocess.run(command, stdout=subprocess.PIPE, stderr=subprocess.DEVNULL, check=True).stdout.decode()
    for line in text.splitlines():
        words = [word.strip() for word in line.split("|", 2)]
        if line.startswith("#") or len(words) < 3 or not words[0].isdigit():
            continue
        count, where, function = int(words[0]), words[1], words[2].partition("] ")[2]
        if where.startswith("[kernel"):
            function = "the system"
        elif not where.startswith("sgm"):
            function = f"{function} ({where})"
        # What a function was compiled for is no part of its name.
        yield count, function.partition("::<#")[0]


def print_parts(command, folder, title, opencv):
    """Where a run's processor time goes, by function, from its samples; beside OpenCV's."""
    data = os.path.join(folder, "samples")
    record = ["perf", "record", "-q", "-e", "cpu-clock", "-F", "5000", "-o", data, "--", *command]
    if subprocess.run(record, stdout=subprocess.DEVNULL, stderr=subprocess.DEVNULL).returncode:
        sys.exit("bench: --parts: perf can't watch a run here (/proc/sys/kernel/perf_event_paranoid)")
    counts = {}
    for count, function in samples_of(data):
        counts[function] = counts.get(function, 0) + count
    whole = sum(counts.values())
    beside = f", OpenCV {1000 * opencv:.0f} ms" if opencv else ""
    print(f"\n{title}: {whole / 5:.0f} ms of processor time in {whole} samples{beside}\n")
    row("Function", "ms", "Share", *(["Share of OpenCV's time"] if opencv else []))
    row("---", "---", "---", *(["---"] if opencv else []))
    few = {function: count for function, count in counts.items() if count >= whole / 100}
    few["all others"] = whole - sum(few.values())
    for function, count in sorted(few.items(), key=lambda it: (it[0] == "all others", -it[1])):
        more = [f"{100 * count / 5000 / opencv:.1f} %"] if opencv else []
        row(function, f"{count / 5:.1f}", f"{100 * count / whole:.1f} %", *more)


# The tables


def row(*words):
    print("| " + " | ".join(words) + " |", flush=True)


def beside(python, pair, count, runs):
    """The seconds, the memory and the processor's seconds of OpenCV on a pair; nothing where there is none."""
    if python is None:
        return []
    made = [measured([python, "-c", OPENCV, *pair, str(count)]) for _ in range(runs)]
    seconds, busy = (min(float(said.split()[at]) for _, _, said, _ in made) for at in (0, 1))
    return [seconds, max(memory for _, memory, _, _ in made), busy]


def splits(words):
    """Pairs of strips and workers: each number of the one with each of the other, or strips that suit the workers."""
    if words.strips:
        return [(strips, workers) for strips in words.strips for workers in words.workers]
    return [(1 if workers == 1 else min(64, 4 * workers), workers) for workers in words.workers]


def heads(words, has_opencv):
    made = ["Size", "Disparities", "Strips, workers", "Seconds", "Speed-up", "Million cells/s", "Memory, MB", "Processor, seconds"]
    if has_opencv:
        made += ["OpenCV, seconds", "OpenCV, MB", "OpenCV, processor", "Seconds / OpenCV's", "Processor / OpenCV's"]
    return ["Build", *made] if words.builds else made


def measure(words, cases, programs, python, folder):
    for width, height, count in cases:
        pair = write_pair(folder, width, height)
        calibration, out = write_calibration(folder, count), os.path.join(folder, "out")
        opencv = beside(python, pair, count, words.runs)
        for build_name, program in programs:
            alone = None
            for strips, workers in splits(words):
                command = [program, "match", *pair, calibration, out, f"strips={strips}", f"workers={workers}"]
                runs = [measured(command) for _ in range(words.runs)]
                seconds, memory, busy = min(run[0] for run in runs), max(run[1] for run in runs), min(run[3] for run in runs)
                if workers == 1:
                    alone = min(seconds, alone or seconds)
                speed_up = f"{alone / seconds:.2f}" if alone else "-"
                cells = [f"{width} x {height}", str(count), f"{strips}, {workers}", f"{seconds:.2f}", speed_up]
                cells += [f"{width * height * count / seconds / 1e6:.1f}", f"{memory:.0f}", f"{busy:.2f}"]
                if opencv:
                    cells += [f"{opencv[0]:.2f}", f"{opencv[1]:.0f}", f"{opencv[2]:.2f}"]
                    cells += [f"{seconds / opencv[0]:.2f}", f"{busy / opencv[2]:.2f}"]
                row(*([build_name] if words.builds else []), *cells)
                yield f"{width} x {height}, {count} disparities, {strips}, {workers}, {build_name}", command, opencv


def turns_of(words, programs, case, python, folder):
    """The seconds of OpenCV, and the runs by their program's name, version and workers, and then by their strips."""
    width, height, count = case
    pair = write_pair(folder, width, height)
    warp = warp_of(words.warp, width, height) if words.warp else None
    calibrations = [(version, write_calibration(folder, count, version, warp)) for version in words.versions]
    rival, runs, out = [], {}, os.path.join(folder, "out")
    for _ in range(words.turns):
        rival += beside(python, pair, count, 1)[:1]
        # The versions run one behind the other, so that both meet the same moods of the machine.
        for (name, program), (strips, workers), (version, calibration) in itertools.product(programs, splits(words), calibrations):
            command = [program, "match", *pair, calibration, out, f"strips={strips}", f"workers={workers}"]
            of_key = runs.setdefault((name, version, workers), {})
            of_key.setdefault(strips, []).append(measured(command))
    return rival, runs


def best_of(by_strips):
    """The best number of strips, the medians of its seconds and processor seconds, and the greatest memory of all runs."""
    median = lambda strips, at: statistics.median(run[at] for run in by_strips[strips])
    best = min(by_strips, key=lambda strips: median(strips, 0))
    memory = max(run[1] for runs in by_strips.values() for run in runs)
    return best, median(best, 0), median(best, 3), memory


def in_turns(words, cases, programs, python, folder):
    """A table of medians: in each turn OpenCV and every program with every version, number of strips and of workers run
    once. With versions each is set beside the first one."""
    has_names, has_versions = len(programs) > 1, words.versions != [1]
    made = ["Size", "Disparities", *(["Program"] if has_names else []), *(["Version"] if has_versions else []), "Workers", "Strips"]
    made += ["Seconds", "Memory, MB", "OpenCV, seconds", "OpenCV / program"]
    beside_first = f"version {words.versions[0]}'s"
    made += ["Processor, seconds", f"Seconds / {beside_first}", f"Processor / {beside_first}"] if has_versions else []
    row(*made)
    row(*["---"] * len(made))
    for width, height, count in cases:
        rival, runs = turns_of(words, programs, (width, height, count), python, folder)
        for (name, _), workers, version in itertools.product(programs, words.workers, words.versions):
            strips, seconds, busy, memory = best_of(runs[name, version, workers])
            cells = [f"{width} x {height}", str(count), *([name] if has_names else []), *([str(version)] if has_versions else [])]
            cells += [str(workers), str(strips), f"{seconds:.3f}", f"{memory:.0f}"]
            cells += [f"{statistics.median(rival):.3f}", f"{statistics.median(rival) / seconds:.2f}"] if rival else ["", ""]
            if has_versions:
                _, first_seconds, first_busy, _ = best_of(runs[name, words.versions[0], workers])
                cells += [f"{busy:.3f}", f"{seconds / first_seconds:.3f}", f"{busy / first_busy:.3f}"]
            row(*cells)


def within(low, high):
    """A reader of whole numbers in that range."""

    def read(word):
        if not word.isdecimal() or not low <= int(word) <= high:
            raise argparse.ArgumentTypeError(f"{word} isn't a whole number from {low} to {high}")
        return int(word)

    return read


def words_of():
    epilog = "Example: bench/bench.py --only 1280x720 --strips 1 16 64 --workers 1 2 4 --builds --parts"
    parser = argparse.ArgumentParser(description=__doc__.split("\n\n")[0], epilog=epilog)
    sizes = sorted({f"{width}x{height}" for width, height, _ in CASES}, key=len)
    parser.add_argument("--only", choices=sizes, help="one size instead of all three")
    help_strips = "1 to 64; without it 1 for one worker and four for each where there are more"
    parser.add_argument("--strips", type=within(1, 64), nargs="+", metavar="N", help=help_strips)
    help_workers = "1 to 16; without it 1, 2 and 4"
    parser.add_argument("--workers", type=within(1, 16), nargs="+", metavar="N", default=[1, 2, 4], help=help_workers)
    parser.add_argument("--builds", action="store_true", help=f"build and measure the gate's program ({GATE}) and the launcher's")
    parser.add_argument("--parts", action="store_true", help="print where the time goes too, by functions (needs Linux's perf)")
    parser.add_argument("--runs", type=within(1, 1000), metavar="N", default=3, help="take the least of so many runs (3)")
    help_turns = "in place of the table above one of medians of N turns, in each of which OpenCV and the program run once"
    parser.add_argument("--turns", type=within(1, 1000), metavar="N", help=help_turns + ", with the best number of strips")
    parser.add_argument("--beside", metavar="PROGRAM", help="another program that runs in each turn too (with --turns)")
    help_versions = "versions of the calibration that run in each turn, each set beside the first one (with --turns; 1 without it)"
    parser.add_argument("--versions", type=int, choices=(1, 2, 3), nargs="+", metavar="N", default=[1], help=help_versions)
    help_warp = "how both pictures are rectified (with --turns; not at all without it)"
    parser.add_argument("--warp", choices=("identity", "projective", "mesh"), help=help_warp)
    words = parser.parse_args()
    if words.beside and not words.turns:
        parser.error("--beside takes --turns")
    if words.versions != [1] and not words.turns:
        parser.error("--versions takes --turns")
    if words.warp and not words.turns:
        parser.error("--warp takes --turns")
    if len(set(words.versions)) < len(words.versions):
        parser.error("--versions: one of them stands twice")
    return words


def main():
    words = words_of()
    cases = [case for case in CASES if words.only in (None, f"{case[0]}x{case[1]}")]
    if words.parts and shutil.which("perf") is None:
        sys.exit("bench: --parts takes perf (Debian: linux-perf)")
    python, version = python_with_opencv()
    with tempfile.TemporaryDirectory(prefix="sgm-bench.") as folder:
        # What has to be built is built here, outside the measured time.
        programs = builds(folder) if words.builds else [(os.path.basename(SGM), SGM)]
        if words.builds:
            os.environ.setdefault("GLIBC_TUNABLES", TUNABLES)
        programs += [(words.beside, os.path.realpath(words.beside))] if words.beside else []
        for _, program in programs:
            measured([program, "demo", "0"])
        rival = f"OpenCV {version}, one thread" if python else "no OpenCV: `import cv2` fails"
        if words.turns:
            print(f"Processor: {processor()}. Medians of {words.turns} turns. {rival}.\n")
            return in_turns(words, cases, programs, python, folder)
        print(f"Processor: {processor()}. Least of {words.runs} runs. {rival}.\n")
        row(*heads(words, python))
        row(*["---"] * len(heads(words, python)))
        done = list(measure(words, cases, programs, python, folder))
        for title, command, opencv in done if words.parts else ():
            print_parts(command, folder, title, opencv[2] if opencv else None)


if __name__ == "__main__":
    try:
        main()
    except OSError as error:
        sys.exit(f"bench: {error}")
