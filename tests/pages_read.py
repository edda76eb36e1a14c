"""What tests/pages.py knows of pages, and of what they speak of: the pages by lines, blocks of code
and tables; the crates by their clauses, laws, tests and edits; the files and the words of the
repository.
"""

import glob
import os
import re

PAGES = (
    "README.md",
    "CONTRIBUTING.md",
    "CHANGELOG.md",
    "docs/*.md",
    "bench/README.md",
    "examples/*/README.md",
)
SOURCES = (".rt", ".antt", ".edit", ".py", ".sh", ".bash", ".c", ".html", ".txt", ".json", ".1")
# Folders of which nothing is kept.
UNKEPT = (".git", "out", "__pycache__")

LINK = re.compile(r"\[([^\[\]]*)\]\(([^()\s]+)\)")
CODE = re.compile(r"`([^`]+)`")
HEADING = re.compile(r"^#{1,6} (.*)$")
LEAD = re.compile(r"^\*\*([^*]+?)[.:,]?\*\*")
TEST = re.compile(r"#\[test\]\s*(?:#\[[^\n]*\s*)*fn (\w+)")


def read(path):
    with open(path, encoding="utf-8", errors="replace") as file:
        return file.read()


class Page:
    """A page by its path from the top: its lines with their numbers, those in blocks of code apart,
    its headings, and the bold beginnings of its paragraphs."""

    def __init__(self, top, path):
        self.path = path
        self.folder = os.path.dirname(path)
        self.text = read(os.path.join(top, path))
        self.prose, self.blocks, self.headings, self.leads = [], [], [], []
        language = None
        for number, line in enumerate(self.text.splitlines(), 1):
            if line.startswith("```"):
                language = line[3:] if language is None else None
            elif language is not None:
                self.blocks.append((number, line, language))
            else:
                self.prose.append((number, line))
                self.headings += HEADING.findall(line)
                self.leads += LEAD.findall(line)

    def has_section(self, number):
        return any(heading.startswith(f"{number}. ") for heading in self.headings)

    def is_headed(self, text):
        """Whether a heading, or the bold beginning of a paragraph, says this."""
        return text.replace("`", "") in [it.replace("`", "") for it in self.headings + self.leads]

    def codes(self):
        """What stands in backquotes, with the numbers of the lines."""
        for number, line in self.prose:
            for code in CODE.findall(line):
                yield number, code

    def commands(self, language=None):
        """The commands of its blocks, or of those in a language, each with all of its lines."""
        begun = ""
        for number, line, mine in self.blocks:
            begun += line.removesuffix("\\")
            if line.endswith("\\"):
                continue
            if begun.strip() and language in (None, mine):
                yield number, re.sub(" +", " ", begun.strip())
            begun = ""

    def rows(self, head):
        """The rows of the tables whose first head is this one: the line's number, and the cells by
        their heads."""
        heads = None
        for number, line in self.prose:
            if not line.startswith("|"):
                heads = None
                continue
            cells = [cell.strip() for cell in line.strip().strip("|").split("|")]
            if heads is None:
                heads = cells
            elif heads[0] == head and not set(line) <= set("|- "):
                yield number, dict(zip(heads, cells))


class Crate:
    """What a crate has: its clauses by the function, its laws, its tests, its edits, and all words
    of its code."""

    def __init__(self, top, name):
        self.clauses, self.laws, self.tests, self.words = {}, set(), set(), set()
        folder = os.path.join(top, "crates", name)
        for path in glob.glob(f"{folder}/src/**/*.rt", recursive=True):
            text = read(path)
            self.words |= set(re.findall(r"\w+", text))
            self.tests |= set(TEST.findall(text))
            self.laws |= set(re.findall(r"^\s*ghost (\w+): \{", text, re.M))
            if os.path.basename(path) == "laws.rt":
                self.laws |= set(re.findall(r"^pub fn (\w+)", text, re.M))
            self.add_clauses(text)
        self.edits = edits_in(f"{folder}/must-fail")
        self.edits_outside = edits_in(os.path.join(top, "tests", "edits", name))

    def add_clauses(self, text):
        function = None
        for line in text.splitlines():
            begun = re.match(r"\s*(?:pub(?:\(\w+\))? )?fn (\w+)", line)
            if begun:
                function = begun[1]
            clause = re.match(r"\s*ensures (\w+) \{", line)
            if clause and function:
                self.clauses.setdefault(function, set()).add(clause[1])

    def all_clauses(self):
        return set().union(*self.clauses.values())


def edits_in(folder):
    return {os.path.basename(path) for path in glob.glob(f"{folder}/*.edit")}


class Repository:
    """A copy of the repository: its pages, its crates and what each stands on, its files and its
    words. `count` is how much the checks have looked at."""

    def __init__(self, top):
        self.top = top
        found = [path for it in PAGES for path in sorted(glob.glob(it, root_dir=top))]
        self.pages = {path: Page(top, path) for path in found}
        self.stands_on = self.read_crates()
        self.crates = {name: Crate(top, name) for name in self.stands_on}
        self.bases, self.words = self.read_files()
        self.names = {os.path.splitext(base)[0] for base in self.bases}
        self.count = 0

    def read_crates(self):
        """The crates of crates.txt, with what each stands on."""
        found = {}
        for line in read(os.path.join(self.top, "crates.txt")).splitlines():
            name, _, words = line.partition("#")[0].partition(":")
            if name.strip():
                found[name.split()[0]] = words.split()
        return found

    def read_files(self):
        """The names of the files that are kept, and the words of the sources among them."""
        bases, words = set(), set()
        for folder, inner, names in os.walk(self.top):
            inner[:] = [name for name in inner if name not in UNKEPT]
            bases |= set(names)
            # A package of Python is named by its folder.
            if "__init__.py" in names:
                bases.add(os.path.basename(folder))
            for name in names:
                path = os.path.join(folder, name)
                is_source = name.endswith(SOURCES) or "." not in name
                if is_source and os.path.getsize(path) < 2**20:
                    words |= set(re.findall(r"\w+", read(path)))
        return bases, words

    def exists(self, pattern):
        return bool(glob.glob(pattern, root_dir=self.top))
