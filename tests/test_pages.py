#!/usr/bin/env python3
"""Tests tests/pages.py on small pages: those that hold have no fault, and each that is broken in
one place has the one that names it.

    tests/test_pages.py
"""

import os
import subprocess
import tempfile
import unittest

import pages

README = """# small

A page with a [link](docs/GUIDE.md#1-first-steps), docs/GUIDE.md, section 1, and sgm_low.

```
./small examples/a.txt
.ci/run
```

See docs/PROVED.md, "Words".
"""
GUIDE = """# Guide

## 1. First steps

Section 1 calls `low_call` in `crates/sgm_low/src/lib.rt`, or `src/*.rt`, and `tests/small.sh`.

```sh
./small \\
    examples/a.txt
```
"""
PROVED = """# What is proved

## Words

| Word | What it means |
|---|---|
| page | this |

## The program: the call `run` of sgm_top

- It is done (`done`) and says so (`said`, law `one_end`).

## Crate by crate

| Crate | Proved, with the clauses | Tested only |
|---|---|---|
| sgm_low | `low_call` is exact (`exact`; law `low_law`) | |
| sgm_top | `run` as above | |
| sgm_cases | | 2 stored cases: 1 calibrations, 0 command lines, 0 texts of grids, \
0 of the six kernels, 0 of finer disparities, 0 of means alone, \
0 of points in the frame of a site, 0 of points, cells and bridges, \
0 of regions with sloping bases and outlines, \
1 whole runs (1 matches, 0 certificates, 0 changes, 0 demos) |
"""
CONTRACTS = """# Contracts

| Crate | Edits in the gate | Outside |
|---|---|---|
| sgm_low | 1 | 1 |
| sgm_top | | |
| sgm_cases | | |

| Body | Refused by the test |
|---|---|
| nothing done | `it_is_done` |
"""
ARCHITECTURE = """# Architecture

| Crate | What it does | Stands on (sgm_; other crates in brackets) |
|---|---|---|
| **Ground** | *little* | |
| sgm_low | little | none (itoa) |
| sgm_top | more | low |
| sgm_cases | tests | low, top |
"""
LOW = """pub fn low_call() -> bool
    ensures exact { result ≡ true }
{
    true
}
"""
TOP = """pub fn run() -> bool
    ensures done { result ≡ true }
    ensures said { result ≡ true }
{
    low_call()
}

fn helper()
    ensures helped { true ≡ true }
{}

#[test]
fn it_is_done() {}
"""
LAW = "pub fn {}()\n    ensures all {{ true ≡ true }}\n{{}}\n"
FILES = {
    "README.md": README,
    "docs/GUIDE.md": GUIDE,
    "docs/PROVED.md": PROVED,
    "docs/CONTRACTS.md": CONTRACTS,
    "docs/ARCHITECTURE.md": ARCHITECTURE,
    ".ci/run": "#!/usr/bin/env bash\n",
    "examples/a.txt": "",
    "crates.txt": "sgm_low: itoa\nsgm_top: sgm_low\nsgm_cases: sgm_low sgm_top\n",
    "crates/sgm_low/src/lib.rt": LOW,
    "crates/sgm_low/src/laws.rt": LAW.format("low_law"),
    "crates/sgm_low/must-fail/one_way.edit": "file: src/lib.rt\n",
    "crates/sgm_top/src/lib.rt": TOP,
    "crates/sgm_top/src/laws.rt": LAW.format("one_end"),
    "crates/sgm_cases/stdin": "calib {}\nok\nrun match a b - c\nok\n",
    "tests/edits/sgm_low/other_way.edit": "file: src/lib.rt\n",
    "tests/small.sh": "#!/usr/bin/env bash\n",
}
# Where pages are broken: what stands there, what takes its place, and the beginning of the fault.
BROKEN = {
    "README.md": [
        ("docs/GUIDE.md#1", "docs/GUIDES.md#1", "docs/GUIDES.md#1-first-steps: there is no such"),
        ("#1-first-steps", "#2-first-steps", "docs/GUIDE.md#2-first-steps: no heading"),
        (", section 1,", ", section 2,", "docs/GUIDE.md has no section 2"),
        ('"Words"', '"Names"', 'docs/PROVED.md has no heading "Names"'),
        ("sgm_low.", "sgm_lower.", "sgm_lower: there is no such crate"),
        ("and sgm_low", "and docs/SPEED.md", "docs/SPEED.md: there is no such page"),
        ("small examples/a", "small examples/b", "./small examples/b.txt: no test runs this"),
        ("and sgm_low.", "and sgm_low.\n" * 121, "131 lines, more than 120"),
        ("and sgm_low", "The Worked example `twice`", "'the worked example twice' is back"),
    ],
    "docs/GUIDE.md": [
        ("Section 1", "See section 3", "docs/GUIDE.md has no section 3"),
        ("`low_call`", "`high_call`", "high_call: nothing has that name"),
        ("low/src/lib.rt", "low/src/call.rt", "crates/sgm_low/src/call.rt: there is no such file"),
        ("`src/*.rt`", "`proofs/*.antt`", "proofs/*.antt: there is no such file"),
        ("`tests/small.sh`", "`small.py`", "small.py: no file has that name"),
    ],
    "docs/PROVED.md": [
        ("(`done`)", "(`done`, `exact`)", "run has no clause, and its crate no law, `exact`"),
        ("(`done`)", "(`helped`)", "run has no clause, and its crate no law, `helped`"),
        ("(`done`)", "", "the clause `done` of run isn't told"),
        ("`one_end`", "`low_law`", "run has no clause, and its crate no law, `low_law`"),
        ("(`exact`;", "(`done`;", "sgm_low has no clause `done`"),
        ("law `low_law`", "law `one_end`", "sgm_low has no law `one_end`"),
        ("`low_call` is", "`run` is", "sgm_low has no call `run`"),
        ("| sgm_top | `run` as above | |\n", "", "sgm_top has no row"),
        ("| sgm_top | `run`", "| sgm_low | `low_call`", "sgm_low: no crate, or not its only row"),
        ("2 stored cases", "12 stored cases", "there are 2 stored cases"),
        ("1 matches", "2 matches", "there are 1 matches"),
        ("says so", "says so as `Nobody`", "Nobody: nothing has that name"),
    ],
    "docs/CONTRACTS.md": [
        ("| 1 | 1 |", "| 2 | 1 |", "Edits in the gate: sgm_low has 1 edits there"),
        ("| 1 | 1 |", "| 1 | |", "Outside: sgm_low has 1 edits there"),
        ("`it_is_done`", "`low_call`", "low_call: there is no such test"),
    ],
    "docs/ARCHITECTURE.md": [
        ("none (itoa)", "none", "sgm_low stands on itoa"),
        ("low, top", "top", "sgm_cases stands on sgm_low sgm_top"),
    ],
}


def faults_in(folder):
    repository = pages.Repository(folder)
    found = repository.pages.values()
    return [(page.path, fault) for page in found for _, fault in pages.faults_of(repository, page)]


class Pages(unittest.TestCase):
    def setUp(self):
        made = tempfile.TemporaryDirectory()
        self.addCleanup(made.cleanup)
        self.folder = made.name
        for path, text in FILES.items():
            self.write(path, text)

    def write(self, path, text):
        whole = os.path.join(self.folder, path)
        os.makedirs(os.path.dirname(whole), exist_ok=True)
        with open(whole, "w", encoding="utf-8") as file:
            file.write(text)

    def test_pages_that_hold(self):
        self.assertEqual(faults_in(self.folder), [])

    def test_broken_pages(self):
        for path, places in BROKEN.items():
            for old, new, wanted in places:
                self.assertEqual(FILES[path].count(old), 1, (path, old))
                self.write(path, FILES[path].replace(old, new))
                found = faults_in(self.folder)
                self.assertTrue(
                    any(it == path and fault.startswith(wanted) for it, fault in found),
                    (wanted, found),
                )
                # What is changed in one page breaks no other, but where that one names it.
                self.assertTrue({it for it, _ in found} <= {path, "README.md"}, (wanted, found))
            self.write(path, FILES[path])

    def test_each_sentence_that_went(self):
        for phrase in pages.GONE:
            self.write("README.md", README + phrase.upper() + "\n")
            self.assertIn(("README.md", f"{phrase!r} is back"), faults_in(self.folder))

    def test_commits(self):
        git = ["git", "-C", self.folder, "-c", "user.name=a", "-c", "user.email=a@b"]
        commit = ["commit", "-q", "--allow-empty", "-m", "one"]
        for words in (["init", "-q"], commit):
            subprocess.run([*git, *words], check=True)
        known = subprocess.check_output([*git, "rev-parse", "HEAD"], text=True)[:7]
        self.write("README.md", README + f"At {known}, or 1234567.\n")
        self.assertEqual(faults_in(self.folder), [])
        self.write("README.md", README + "At 0a0a0a0.\n")
        wanted = [("README.md", "0a0a0a0: there is no such commit")]
        self.assertEqual(faults_in(self.folder), wanted)

    def test_past_versions_may_name_what_went(self):
        self.write("CHANGELOG.md", "# Changelog\n\n- `sgm_gone` in `tests/gone.sh`\n")
        self.assertEqual(faults_in(self.folder), [])
        self.write("CHANGELOG.md", "# Changelog\n\n- [gone](docs/GONE.md)\n")
        wanted = [("CHANGELOG.md", "docs/GONE.md: there is no such file")]
        self.assertEqual(faults_in(self.folder), wanted)

    def test_anchors(self):
        wanted = "1-what-sgm-does-and-how"
        self.assertEqual(pages.anchor("1. What `sgm` does, and how"), wanted)
        self.assertEqual(pages.anchor("An_input [or](a.md) output"), "an_input-or-output")

    def ended(self):
        script = os.path.join(pages.TOP, "tests", "pages.py")
        return subprocess.run([script, "--top", self.folder], capture_output=True, text=True)

    def test_wide_lines(self):
        path = "crates/sgm_low/src/lib.rt"
        self.write(path, FILES[path] + f"// {'x' * 97}\n#[{'x' * 99}]\n// \"{'x' * 99}\"\n")
        self.assertEqual(self.ended().returncode, 0)
        self.write(path, FILES[path] + f"// {'x' * 98}\n")
        done = self.ended()
        line = FILES[path].count("\n") + 1
        self.assertEqual(done.returncode, 1)
        self.assertEqual(done.stdout, f"{path}:{line}: wider than 100 columns\n")

    def test_status(self):
        self.assertEqual(self.ended().returncode, 0)
        self.write("README.md", README.replace("sgm_low.", "sgm_lower."))
        done = self.ended()
        self.assertEqual(done.returncode, 1)
        self.assertEqual(done.stdout, "README.md:3: sgm_lower: there is no such crate\n")
        self.assertEqual(done.stderr, "pages: 1 faults in 5 pages\n")


if __name__ == "__main__":
    unittest.main()
