#!/usr/bin/env python3
"""Writes the man page of a tool from what the tool says of itself: the text at its head and its --help.

    packaging/tool_page.py tools/stretch.py --names packaging/names.txt > sgm-stretch.1

names.txt has on each line a tool's file, without its ending, and the name under which it is installed. The page
goes to standard output. Each tool is called by its installed name in it.
"""

import argparse
import ast
import os
import re
import subprocess
import sys


class Wrong(Exception):
    """What stands in the way, in words."""


def installed_names(file):
    with open(file, encoding="utf-8") as lines:
        pairs = [line.split() for line in lines if line.strip()]
    if any(len(pair) != 2 for pair in pairs):
        raise Wrong(f"{file}: a line has a tool's file and its name")
    return dict(pairs)


def renamed(text, names):
    """The text with the program and each tool under the name that it has where it is installed."""
    text = text.replace("./sgm ", "sgm ").replace("./sgm_series ", "sgm_series ")
    for tool, name in names.items():
        text = re.sub(rf"(?:\btools/)?\b{tool}\.py\b", name, text)
    return text


def escaped(text):
    text = text.replace("\\", "\\e").replace("-", "\\-")
    return "\n".join("\\&" + line if line[:1] in (".", "'") else line for line in text.split("\n"))


def block(lines):
    """Lines that stay as they are."""
    width = min(len(line) - len(line.lstrip()) for line in lines if line.strip())
    return [".PP", ".nf", ".RS", *(escaped(line[width:]) for line in lines), ".RE", ".fi"]


def paragraphs(text):
    """The text of a tool's head as lines of a man page: paragraphs, lists whose points begin with `-`, blocks."""
    made = []
    for part in text.split("\n\n"):
        lines = part.split("\n")
        if lines[0].startswith("    "):
            made += block(lines)
        elif lines[0].startswith("- "):
            for point in re.split(r"(?m)^- ", part)[1:]:
                made += [".IP \\(bu 2", escaped(" ".join(point.split()))]
        else:
            made += [".PP", escaped(" ".join(part.split()))]
    return made


def sections_of(help_text):
    """The usage, the words as pairs of (word, what it is), and the example's lines, of an argparse help."""
    usage = re.match(r"usage: \S+ ?(.*)\n", help_text)
    if not usage:
        raise Wrong("its --help begins with no usage")
    words = []
    for heading in ("positional arguments", "options"):
        found = re.search(rf"(?m)^{heading}:\n((?:  .*\n)+)", help_text)
        for line in found[1].splitlines() if found else ():
            if line.startswith("   "):
                words[-1] = (words[-1][0], f"{words[-1][1]} {line.strip()}".strip())
            else:
                word, _, what = line.strip().partition("  ")
                words.append((word, what.strip()))
    example = re.search(r"(?ms)^[Ee]xample: *(.*)\Z", help_text)
    if not example:
        raise Wrong("its --help has no example")
    return usage[1], words, example[1].rstrip("\n").lstrip("\n").split("\n")


def page(tool, names):
    with open(tool, encoding="utf-8") as file:
        head = ast.get_docstring(ast.parse(file.read()))
    if not head:
        raise Wrong("it has no text at its head")
    ended = subprocess.run(
        [sys.executable, "-B", tool, "--help"], env={**os.environ, "COLUMNS": "1000"}, capture_output=True, text=True, check=False
    )
    if ended.returncode != 0:
        raise Wrong(f"its --help ends with {ended.returncode}")
    what, *rest = renamed(head, names).split("\n\n")
    # Behind the first line stands how the tool is called, which the usage says as well.
    if rest and rest[0].startswith("    "):
        del rest[0]
    usage, words, example = sections_of(renamed(ended.stdout, names))
    name = names[os.path.basename(tool).removesuffix(".py")]
    what = " ".join(what.split()).rstrip(".")
    lines = [f'.TH {name.upper()} 1 "" "sgm" "User Commands"', ".SH NAME"]
    lines += [f"{escaped(name)} \\- {escaped(what[0].lower() + what[1:])}"]
    lines += [".SH SYNOPSIS", f".B {escaped(name)}", escaped(usage)]
    lines += [".SH DESCRIPTION", *paragraphs("\n\n".join(rest))]
    lines += [".SH OPTIONS"]
    for word, meaning in words:
        lines += [".TP", f".B {escaped(word)}", escaped(meaning) or "\\&"]
    lines += [".SH EXIT STATUS", "0 where it is done, 1 where a file can't be read, used or written, which one line"]
    others = " Others stand in the description." if re.search(r"(?m)^It ends with", head) else ""
    lines += [f"on standard error then says, 2 for wrong words.{others}"]
    lines += [".SH EXAMPLES", *block(example), ".SH SEE ALSO", ".BR sgm (1),", "/usr/share/doc/sgm/docs/GUIDE.md"]
    return "\n".join(lines) + "\n"


def main():
    epilog = "Example: packaging/tool_page.py tools/stretch.py --names packaging/names.txt > sgm-stretch.1"
    parser = argparse.ArgumentParser(description=__doc__.split("\n\n", maxsplit=1)[0], epilog=epilog)
    parser.add_argument("tool", metavar="TOOL.py", help="the tool")
    parser.add_argument("--names", required=True, metavar="FILE", help="under which names the tools are installed")
    words = parser.parse_args()
    try:
        names = installed_names(words.names)
        if os.path.basename(words.tool).removesuffix(".py") not in names:
            raise Wrong(f"{words.names} has no name for it")
        sys.stdout.write(page(words.tool, names))
        sys.stdout.flush()
    except (OSError, ValueError, SyntaxError, Wrong) as error:
        reason = error.strerror if isinstance(error, OSError) and error.strerror else error
        print(f"tool_page: {words.tool}: {reason}", file=sys.stderr)
        return 1
    return 0


if __name__ == "__main__":
    sys.exit(main())
