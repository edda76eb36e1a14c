#!/usr/bin/env python3
"""Holds the pages of the repository to what they speak of.

    tests/pages.py
    tests/pages.py --top FOLDER    # those of another copy

Every link between pages leads to a file and a heading; a named section stands in its page; every
crate, file, test, edit and name of the code that stands in backquotes exists, and so does every
commit that is named. No line of code, clauses or definitions is wider than 100 columns, but for
strings, attributes and patterns of macros. The clauses that docs/PROVED.md names stand in the
contracts, and all those of the two top calls stand in the page. The tables of crates have each
crate once, with what it stands on as in crates.txt, and the numbers of its edits and of the stored
cases as they are. The commands of README.md are among those of docs/GUIDE.md and docs/MANY.md,
which tests run, and it has at most 120 lines. Sentences that went don't come back.

Prints a line for each fault, `PAGE:LINE: what is wrong`, or how much holds. Status: 0 where nothing
is wrong, 1 else, 2 for wrong words. For example: tests/pages.py
"""

import argparse
import glob
import os
import re
import shutil
import subprocess
import sys

from pages_read import CODE, LINK, Repository, read

TOP = os.path.realpath(os.path.join(os.path.dirname(os.path.abspath(__file__)), ".."))
# What is said there of versions of the past may have gone since.
OF_THE_PAST = ("CHANGELOG.md",)
README_LINES = 120
COLUMNS = 100

# Sentences that were wrong once, or told of what isn't there any more, whatever their letters and
# backquotes.
GONE = (
    "sgm_job_tests",
    "the worked example twice",
    "No clause of run_series says which names it leaves begun",
    "none says which names are begun and not finished",
    "Of the names that are being written or were left unfinished no clause",
    'README, "What is proved"',
    'README.md, "What is proved"',
    "39 small crates",
    "the 43 that stand outside",
    "(earlier code)",
)

# The folders whose files pages name by their whole path, and those of a crate.
FOLDERS = ("crates", "docs", "tests", "tools", "bench", "packaging", "examples", ".ci")
PARTS = ("src", "specs", "proofs", "must-fail")
# What is made there and not kept.
MADE = ("packaging/out",)
# The pages in which all names in backquotes are of the code, those of one word too.
OF_THE_CODE = (
    "docs/ARCHITECTURE.md",
    "docs/CONTRACTS.md",
    "docs/DECISIONS.md",
    "docs/DEFINITIONS.md",
    "docs/PROVED.md",
)
# Names of other programs, systems and libraries.
FOREIGN = ("clear_page_erms", "Lends", "map_indices", "stereo_calib", "trim_threshold")
# Commands of README.md that no test runs as they stand, with what does.
RUN_ELSEWHERE = {".ci/run": "the gate itself"}
# What docs/PROVED.md counts of the stored cases, with the first words of these cases.
CASES = {
    "stored cases": [],
    "calibrations": ["calib"],
    "command lines": ["words"],
    "texts of grids": ["asc"],
    "of the six kernels": ["kernel"],
    "of finer disparities": ["fine"],
    "of means alone": ["mean"],
    "of points in the frame of a site": ["point"],
    "of points, cells and bridges": ["cells"],
    "of regions with sloping bases and outlines": ["regions"],
    "whole runs": ["run"],
    "matches": ["run", "match"],
    "certificates": ["run", "trace"],
    "changes": ["run", "change"],
    "demos": ["run", "demo"],
}

NAME = re.compile(r"[A-Za-z]\w*(::\w+)*")
LONG_NAME = re.compile(r"[a-z0-9]+(_[a-z0-9]+)+|\w+(::\w+)+")
CRATE = re.compile(r"\bsgm_[a-z0-9_]+\b")
FILE = re.compile(r"[\w-]+\.(py|sh|rt|antt|md|edit)")
PAGE = re.compile(r"\b(?:docs|bench|examples)/[\w/]+\.md\b")
PLACEHOLDER = re.compile(r"(?<![A-Za-z0-9])[A-Z]{2,}(?![A-Za-z0-9]|\.md)")
SECTION = re.compile(r"(?:([\w./]+\.md)[`)]*, )?\bsections? (\d+)\b")
QUOTED = re.compile(r"\b((?:docs/)?[A-Z]+\.md)[`)]*, (?:under )?\"([^\"]+)\"")
COMMIT = re.compile(r"\b(?=[0-9a-f]*[0-9])(?=[0-9a-f]*[a-f])[0-9a-f]{7}\b")
BRACKET = re.compile(r"\(([^()]*`[^()]*)\)")
NAMES_ALONE = re.compile(r"`\w+`(, `\w+`)*")
LAWS = re.compile(r"\blaws? (`\w+`(?:(?:,| and) `\w+`)*)")
TOP_CALL = re.compile(r"the call `(\w+)` of (sgm_\w+)")


def anchor(heading):
    """The anchor that a heading gets: letters, digits and `_` as they are, spaces as hyphens, and
    the rest left out."""
    text = LINK.sub(r"\1", heading).replace("`", "").lower()
    return re.sub(r"[^\w\- ]", "", text).replace(" ", "-")


def link_faults(repository, page):
    for number, line in page.prose:
        for _, target in LINK.findall(CODE.sub("", line)):
            if re.match(r"\w+:", target):
                continue
            repository.count += 1
            path, _, mark = target.partition("#")
            path = os.path.normpath(os.path.join(page.folder, path)) if path else page.path
            if not os.path.exists(os.path.join(repository.top, path)):
                yield number, f"{target}: there is no such file"
            elif mark and mark not in map(anchor, repository.pages[path].headings):
                yield number, f"{target}: no heading of {path} has that name"


def page_named(repository, page, name):
    """The page that a sentence of another one names, or None where there is none."""
    if not name:
        return page
    paths = [os.path.normpath(os.path.join(page.folder, name)), name, f"docs/{name}"]
    return next((repository.pages[path] for path in paths if path in repository.pages), None)


def section_faults(repository, page):
    """Sections that are named by their number or their heading."""
    for number, line in page.prose:
        for name, section in SECTION.findall(line):
            other = page_named(repository, page, name)
            repository.count += 1
            if other is None or not other.has_section(section):
                yield number, f"{name or page.path} has no section {section}"
        for name, heading in QUOTED.findall(line):
            other = page_named(repository, page, name)
            repository.count += 1
            if other is None or not other.is_headed(heading):
                yield number, f'{name} has no heading "{heading}"'


def crate_faults(repository, page):
    for number, line in [*page.prose, *((at, line) for at, line, _ in page.blocks)]:
        for name in CRATE.findall(line):
            repository.count += 1
            if name not in repository.crates and name not in repository.names:
                yield number, f"{name}: there is no such crate"


def alternatives(word):
    """The words that one with braces stands for."""
    found = re.search(r"\{([^{}]*)\}", word)
    if not found:
        return [word]
    before, after = word[: found.start()], word[found.end() :]
    return [it for part in found[1].split(",") for it in alternatives(before + part + after)]


def path_faults(repository, number, text):
    """The paths among the words of a text, which begin at the top or in a crate. What is written in
    capitals stands for any name."""
    for word in re.findall(r"[^\s\"'|;()<>]+", text):
        word = word.removeprefix("./").rstrip(".,:")
        first = word.split("/")[0]
        if "/" not in word or first not in (*FOLDERS, *PARTS) or word in MADE:
            continue
        repository.count += 1
        for one in alternatives(word):
            pattern = PLACEHOLDER.sub("*", one)
            if not repository.exists(pattern if first in FOLDERS else f"crates/*/{pattern}"):
                yield number, f"{one}: there is no such file"


def file_faults(repository, page):
    for number, code in page.codes():
        yield from path_faults(repository, number, code)
        if FILE.fullmatch(code) and code not in repository.bases:
            yield number, f"{code}: no file has that name"
    for number, line, _ in page.blocks:
        yield from path_faults(repository, number, line)
    for number, line in page.prose:
        for path in PAGE.findall(CODE.sub("", line)):
            if not repository.exists(path):
                yield number, f"{path}: there is no such page"


def name_faults(repository, page):
    """Names of the code. Elsewhere than in the pages of the code only those that look like some."""
    for number, code in page.codes():
        if not (NAME if page.path in OF_THE_CODE else LONG_NAME).fullmatch(code):
            continue
        repository.count += 1
        for part in code.split("::"):
            if not (part in repository.words or part in repository.names or part in FOREIGN):
                yield number, f"{code}: nothing has that name"


def commit_faults(repository, page):
    """Commits that are named, where the copy has them all."""

    def git(*words):
        command = ["git", "-C", repository.top, *words]
        return subprocess.run(command, capture_output=True, text=True)

    has_git = shutil.which("git") is not None
    if not has_git or git("rev-parse", "--is-shallow-repository").stdout != "false\n":
        return
    for number, line in page.prose:
        for commit in COMMIT.findall(line):
            repository.count += 1
            if git("cat-file", "-e", f"{commit}^{{commit}}").returncode != 0:
                yield number, f"{commit}: there is no such commit"


def gone_faults(_, page):
    text = page.text.replace("`", "").lower()
    for phrase in GONE:
        at = text.find(phrase.lower())
        if at >= 0:
            yield text.count("\n", 0, at) + 1, f"{phrase!r} is back"


def names_in(text):
    return re.findall(r"`(\w+)`", text)


def claimed(line):
    """The clauses and the laws that a line names. The clauses are names alone in brackets, or
    between semicolons there; laws may stand beside them."""
    laws = [name for group in LAWS.findall(line) for name in names_in(group)]
    clauses = []
    for bracket in BRACKET.findall(line):
        for part in LAWS.sub("", bracket).split(";"):
            if NAMES_ALONE.fullmatch(part.strip(" ,")):
                clauses += names_in(part)
    return clauses, laws


def call_faults(repository, page):
    """In the section of a top call: its clauses, all of them, and the laws of its crate."""
    call, crate, begun, told = None, None, 0, set()
    for number, line in [*page.prose, (0, "## ")]:
        if line.startswith("## "):
            for name in sorted(crate.clauses.get(call, set()) - told) if crate else ():
                yield begun, f"the clause `{name}` of {call} isn't told"
            found = TOP_CALL.search(line)
            call, crate = (found[1], repository.crates.get(found[2])) if found else (None, None)
            begun, told = number, set()
        elif crate:
            clauses, laws = claimed(line)
            told |= set(clauses)
            wrong = [name for name in clauses if name not in crate.clauses.get(call, set())]
            for name in wrong + [name for name in laws if name not in crate.laws]:
                yield number, f"{call} has no clause, and its crate no law, `{name}`"


def proved_faults(repository, page):
    """In the table of crates: the clauses, laws and calls of each row's crate."""
    for number, row in page.rows("Crate"):
        crate, text = repository.crates.get(row["Crate"]), row.get("Proved, with the clauses", "")
        if not crate:
            continue
        clauses, laws = claimed(text)
        calls = [name for name in names_in(BRACKET.sub("", text)) if name not in laws]
        for what, names, known in (
            ("clause", clauses, crate.all_clauses()),
            ("law", laws, crate.laws),
            ("call", calls, crate.words),
        ):
            for name in names:
                if name not in known:
                    yield number, f"{row['Crate']} has no {what} `{name}`"


def row_faults(repository, page):
    """The tables of crates have each crate once; rows of layers are in bold."""
    rows = [(number, row["Crate"]) for number, row in page.rows("Crate")]
    rows = [(number, name) for number, name in rows if not name.startswith("**")]
    names = [name for _, name in rows]
    for number, name in rows:
        if name not in repository.crates or names.count(name) != 1:
            yield number, f"{name}: no crate, or not its only row"
    for name in repository.crates if rows else ():
        if name not in names:
            yield rows[0][0], f"{name} has no row"


def edit_faults(repository, page):
    """The numbers of edits in the table of crates."""
    for number, row in page.rows("Crate"):
        crate = repository.crates.get(row["Crate"])
        if not crate or "Edits in the gate" not in row:
            continue
        heads = {"Edits in the gate": crate.edits, "Outside": crate.edits_outside}
        for head, edits in heads.items():
            if row.get(head) != (str(len(edits)) if edits else ""):
                yield number, f"{head}: {row['Crate']} has {len(edits)} edits there"


def stand_faults(repository, page):
    """What each crate stands on, in the table of crates."""
    for number, row in page.rows("Crate"):
        told = [cell for head, cell in row.items() if head.startswith("Stands on")]
        if not told or row["Crate"] not in repository.crates:
            continue
        own, _, others = told[0].rstrip(")").partition("(")
        own = own.strip().removesuffix("none")
        names = [f"sgm_{name}" for name in own.split(", ") if name] + others.split(", ")
        wanted = repository.stands_on[row["Crate"]]
        if sorted(filter(None, names)) != sorted(wanted):
            yield number, f"{row['Crate']} stands on {' '.join(wanted)}"


def case_faults(repository, page):
    """The numbers of stored cases in the row of sgm_cases."""
    path = os.path.join(repository.top, "crates", "sgm_cases", "stdin")
    for number, row in page.rows("Crate"):
        if row["Crate"] != "sgm_cases" or "Tested only" not in row:
            continue
        cases = [line.split(" ") for line in read(path).splitlines()[::2]]
        for what, words in CASES.items():
            count = sum(case[: len(words)] == words for case in cases)
            if not re.search(rf"(?<![\d,]){count:,} {what}\b", row["Tested only"]):
                yield number, f"there are {count:,} {what}"


def test_faults(repository, page):
    """Names in a column of tests are names of tests."""
    tests = set().union(*(crate.tests for crate in repository.crates.values()))
    for number, row in page.rows("Body"):
        for name in names_in(row.get("Refused by the test", "")):
            if name not in tests:
                yield number, f"{name}: there is no such test"


def readme_faults(repository, page):
    """The commands of README.md, and its length."""
    given = set(RUN_ELSEWHERE)
    for path in ("docs/GUIDE.md", "docs/MANY.md"):
        if path in repository.pages:
            given |= {command for _, command in repository.pages[path].commands("sh")}
    for number, command in page.commands():
        repository.count += 1
        if command not in given:
            yield number, f"{command}: no test runs this"
    lines = page.text.count("\n")
    if lines > README_LINES:
        yield lines, f"{lines} lines, more than {README_LINES}"


def wide_lines(top):
    """Lines of code and definitions too wide: strings, attributes, patterns of macros may be."""
    for pattern in ("src/**/*.rt", "specs/**/*.antt"):
        for path in glob.glob(os.path.join(top, "crates", "*", pattern), recursive=True):
            for number, line in enumerate(read(path).splitlines(), 1):
                spared = '"' in line or line.lstrip().startswith(("#[", "($"))
                if len(line) > COLUMNS and not spared:
                    yield f"{os.path.relpath(path, top)}:{number}: wider than {COLUMNS} columns"


def faults_of(repository, page):
    """The faults of a page, each with its line."""
    checks = [link_faults, gone_faults]
    if page.path not in OF_THE_PAST:
        checks += [section_faults, crate_faults, file_faults, name_faults, commit_faults]
        checks += [row_faults, edit_faults, stand_faults, case_faults, test_faults]
        checks += [proved_faults, call_faults]
    if page.path == "README.md":
        checks.append(readme_faults)
    return sorted(fault for check in checks for fault in check(repository, page))


def main():
    parser = argparse.ArgumentParser(
        description=__doc__.split("\n\n")[0], epilog="Example: tests/pages.py"
    )
    parser.add_argument(
        "--top", metavar="FOLDER", default=TOP, help="the top of the copy that is looked at"
    )
    repository = Repository(parser.parse_args().top)
    count = 0
    for page in repository.pages.values():
        for number, fault in faults_of(repository, page):
            print(f"{page.path}:{number}: {fault}")
            count += 1
    for fault in wide_lines(repository.top):
        print(fault)
        count += 1
    # A copy without pages would pass for nothing.
    if count or not repository.pages:
        sys.exit(f"pages: {count} faults in {len(repository.pages)} pages")
    looked = f"{repository.count} links, names and commands"
    print(f"pages: {len(repository.pages)} pages, {looked}, all hold")


if __name__ == "__main__":
    main()
