#!/usr/bin/env python3
"""Lists what is left of a series: the entries whose outputs aren't whole, as a list again.

    tools/series_left.py LIST [--part K/N] [--why]
    tools/series_left.py LIST --grids

LIST is read as `sgm_series` reads it: text in UTF-8, at most 1,048,576 bytes and 1000 entries; a line that has words has
four, LEFT RIGHT CALIB OUT, with spaces, TABs or CRs between them. A list that the program refuses is refused here, with
the same words. Names are looked for from the folder at hand, as the program does.

An entry is done where its outputs are whole, and is left elsewhere:

- OUT.pgm is a disparity picture of the size of LEFT, with all of its bytes;
- OUT.asc, where CALIB has a grid, has the head of that grid and all of its rows;
- OUT.csv, where CALIB has regions, has a line for each of them, in their order.

So an output that is absent, was cut short, or is of another size is made again. An entry that the program refuses gets no
outputs, so it is left. What stood before the series began can't be told from what it has made, and neither can outputs of
other pictures of the same size: take older outputs away first.

The entries that are left go to standard output, their four words with a space between them, in the list's order. That is
a list that the program accepts where it accepts LIST, since entries that are taken away take clashes with them and bring
none. Where nothing is left nothing is printed, and the status is 0 too. --part looks at every N-th entry alone, beginning
with entry K - 1, counted from 0: for N machines, the N parts are each entry once. --why says on standard error what isn't
whole.

--grids prints, in place of what is left, the grids that are done, OUT.asc of each entry whose calibration asks for one: a
list for `sgm merge`. Where entries are left that is said, and the status is 3, so that `&&` merges whole series alone.

Needs Python alone. Takes a second for thousands of small grids, a few for one of 4096 x 4096.
"""

import argparse
import re
import sys

from sgm_tools.running import progress, run, tool_name
from sgm_tools.series import Entry, fault, has_grid, read_list
from sgm_tools.words import parser_of

# The status where the grids are asked for and entries are left.
UNDONE = 3


def part_word(word: str) -> tuple[int, int]:
    found = re.fullmatch("([0-9]{1,9})/([0-9]{1,9})", word)
    if not found or not 1 <= int(found[1]) <= int(found[2]):
        raise argparse.ArgumentTypeError(f"not K/N with K from 1 to N: {word}")
    return int(found[1]), int(found[2])


def shown(entry: Entry, is_done: bool, has_grids: bool) -> bytes:
    """The line of an entry that is left, or with grids of one that is done; nothing for the others."""
    if has_grids:
        return entry.out + b".asc\n" if is_done and has_grid(entry) else b""
    return b"" if is_done else b" ".join(entry) + b"\n"


def main() -> int:
    epilog = "Example: tools/series_left.py list > left, and then sgm_series left"
    parser = parser_of(__doc__, epilog)
    parser.add_argument("list", metavar="LIST", help="the list of the series, which isn't changed")
    parser.add_argument("--part", type=part_word, default=(1, 1), metavar="K/N", help="part K of N alone, K being 1 to N")
    parser.add_argument("--why", action="store_true", help="say on standard error what isn't whole")
    grids = "the grids of the entries that are done, as a list of `sgm merge`; status 3 where entries are left"
    parser.add_argument("--grids", action="store_true", help=grids)
    words = parser.parse_args()
    part, parts = words.part
    mine, left = read_list(words.list)[part - 1 :: parts], 0
    for number, entry in enumerate(mine):
        progress(f"looking at {number + 1} of {len(mine)}")
        why = fault(entry)
        progress("")
        left += why is not None
        sys.stdout.buffer.write(shown(entry, why is None, words.grids))
        if words.why and why is not None:
            print(f"{tool_name()}: {why}", file=sys.stderr)
    if words.why or (words.grids and left):
        print(f"{tool_name()}: {left} of {len(mine)} entries are left", file=sys.stderr)
    return UNDONE if words.grids and left else 0


def command() -> None:
    run(main)


if __name__ == "__main__":
    command()
