"""Words of the command line that several tools have, and readers of words for argparse.

A reader gives what a word means, or raises what argparse makes a message and the status 2 of.
"""

import argparse
import decimal
import importlib.metadata
import re
import sys
from collections.abc import Callable, Container

# Decimals that the tables in metres are written with at most.
MOST_DIGITS = 18


# Readers


def digits(most: int) -> Callable[[str], int]:
    """A reader of numbers of so many digits at most."""

    # argparse names the reader where a word is none of these.
    def digits(word: str) -> int:
        if not re.fullmatch(f"[0-9]{{1,{most}}}", word):
            raise ValueError
        return int(word)

    return digits


def whole_word(low: int, high: int) -> Callable[[str], int]:
    """A reader of whole numbers in that range."""

    def read(word: str) -> int:
        if not re.fullmatch("-?[0-9]+", word) or not low <= int(word) <= high:
            raise argparse.ArgumentTypeError(f"{word} isn't a whole number from {low} to {high}")
        return int(word)

    return read


def number_word(low: float, high: float) -> Callable[[str], float]:
    """A reader of numbers in that range."""

    def read(word: str) -> float:
        try:
            if low <= float(word) <= high:
                return float(word)
        except ValueError:
            pass
        raise argparse.ArgumentTypeError(f"{word} isn't a number from {low:g} to {high:g}")

    return read


def positive_word(word: str) -> float:
    """A number above 0."""
    try:
        if 0 < float(word) <= 1e9:
            return float(word)
    except ValueError:
        pass
    raise argparse.ArgumentTypeError(f"{word} isn't a number above 0")


def metres_word(word: str, signs: str = "+-") -> decimal.Decimal:
    """A number of metres, as a decimal; before it one of the signs may stand."""
    if not re.fullmatch(rf"[{signs}]?[0-9]{{1,9}}(\.[0-9]{{1,9}})?", word):
        raise argparse.ArgumentTypeError(f"{word} isn't a number of metres")
    return decimal.Decimal(word)


def sides_word(
    widths: Container[int], heights: Container[int]
) -> Callable[[str], tuple[int, int]]:
    """A reader of WxH, each among so many."""

    def read(word: str) -> tuple[int, int]:
        found = re.fullmatch("([0-9]+)[xX]([0-9]+)", word)
        if not found or int(found[1]) not in widths or int(found[2]) not in heights:
            raise argparse.ArgumentTypeError(f"{word} isn't a width x height in range")
        return int(found[1]), int(found[2])

    return read


# Words


class Parser(argparse.ArgumentParser):
    """A parser whose --help names the scripts as they are called where pip has installed them."""

    def format_help(self) -> str:
        return as_installed(super().format_help())


def parser_of(text: str | None, example: str, also: tuple[str, ...] = ()) -> Parser:
    """A parser whose --help begins with the first paragraph of a script's text, and with those that begin
    as `also` says, and ends with the example, which stays as it is where it has several lines."""
    first, *others = (text or "").split("\n\n")
    said = "\n\n".join([first, *(it for it in others if also and it.startswith(also))])
    layout = argparse.RawDescriptionHelpFormatter if "\n" in example else argparse.HelpFormatter
    return Parser(description=said, epilog=example, formatter_class=layout)


def as_installed(text: str) -> str:
    """The text with the names under which pip installs the scripts, where they are installed so."""
    if "sgm_tools.commands" not in sys.modules:
        return text
    for it in importlib.metadata.entry_points(group="console_scripts"):
        module, _, name = it.value.partition(":")[0].rpartition(".")
        if module == "sgm_tools.commands":
            text = text.replace(f"tools/{name}.py", it.name)
    return text.replace("./sgm ", "sgm ")


def add_pair(parser: argparse.ArgumentParser) -> None:
    """The words for both pictures and the calibration."""
    parser.add_argument("left", metavar="LEFT", help="the left picture (PGM)")
    parser.add_argument("right", metavar="RIGHT", help="the right picture (PGM)")
    parser.add_argument("calib", metavar="CALIB", help="the calibration, or - for the plain settings")


def add_pixel(parser: argparse.ArgumentParser) -> None:
    """The words for a pixel of the left picture."""
    column, row = "the pixel's column, from 0 at the left", "the pixel's row, from 0 at the top"
    parser.add_argument("x", metavar="X", type=digits(10), help=column)
    parser.add_argument("y", metavar="Y", type=digits(10), help=row)


def add_digits(parser: argparse.ArgumentParser) -> None:
    """The word for the decimals of a table in metres."""
    said = f"decimals, 0 to {MOST_DIGITS} (all if not given)"
    parser.add_argument("--digits", type=int, choices=range(MOST_DIGITS + 1), metavar="N", help=said)


def add_settings(parser: argparse.ArgumentParser) -> None:
    """The words for the version of a calibration and for its penalties; `adapt` is each tool's own."""
    option = parser.add_argument
    later = "the calibration's version, in place of 1, or 2 with --adapt"
    option("--version", type=int, choices=(3,), help=later)
    as_they_are = "with --version 3: disparities that aren't made finer"
    option("--no-fine", action="store_true", help=as_they_are)
    usual = "1 to 4000 each (10 120; with --adapt 10 400; in version 3 25 100, with --adapt 25 1200)"
    option("--penalties", type=whole_word(1, 4000), nargs=2, metavar=("P1", "P2"), help=usual)


def check_settings(parser: argparse.ArgumentParser, words: argparse.Namespace) -> None:
    """Ends where these words don't belong together."""
    if words.penalties and words.penalties[0] > words.penalties[1]:
        parser.error("--penalties: P1 is above P2")
    if words.no_fine and words.version != 3:
        parser.error("--no-fine: needs --version 3")
