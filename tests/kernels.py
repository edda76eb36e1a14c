#!/usr/bin/env python3
"""Holds the stored runs of the kernels (the cases `kernel` of crates/sgm_cases/stdin) against plain loops.

    tests/kernels.py [--write]

For each kernel of sgm_lanes there is a case for each length from 1 to 130, for `hamming`, `hamming_to` and `add` also
for 0, over numbers of the generator below. Their answers are worked out here, number by number, and never taken from
the program. With --write the cases and their answers are put in front of the stored runs anew.

Status: 0 where all cases stand there with these answers, and no other of their kind; 1 else.
"""

import argparse
import os
import sys

STORED = os.path.join(os.path.dirname(os.path.abspath(__file__)), "..", "crates", "sgm_cases", "stdin")
LENGTHS = 130
# The greatest path value and cost, the greatest sum that a path value can be added to, and the penalties.
PATH_VALUE, COST, SUM, P1, P2 = 4062, 62, 65535 - 4062, 700, 1500


class Numbers:
    """The generator of crates/sgm_cases/src/kernel.rt: a linear congruential one over 64 bits."""

    def __init__(self, length):
        self.state = length

    def word(self):
        self.state = (self.state * 6364136223846793005 + 1442695040888963407) % 2**64
        return self.state

    def words(self, length):
        return [self.word() for _ in range(length)]

    def numbers(self, length, most):
        return [(self.word() >> 33) % (most + 1) for _ in range(length)]


def bits(one, other):
    return bin(one ^ other).count("1")


def stepped(prev, costs):
    """The recurrence of path values, term by term; a neighbour that isn't there gives none."""
    low, made = min(prev), []
    for d, cost in enumerate(costs):
        ways = [prev[d], low + P2]
        if d > 0:
            ways.append(prev[d - 1] + P1)
        if d + 1 < len(prev):
            ways.append(prev[d + 1] + P1)
        made.append(cost + min(ways) - low)
    return made


def joined(numbers):
    return " ".join(map(str, numbers))


def hamming(length):
    drawn = Numbers(length)
    words = drawn.words(length)
    return joined(bits(one, other) for one, other in zip(words, drawn.words(length)))


def hamming_to(length):
    drawn = Numbers(length)
    word = drawn.word()
    return joined(bits(word, other) for other in drawn.words(length))


def add(length):
    drawn = Numbers(length)
    values = drawn.numbers(length, PATH_VALUE)
    return joined(value + its_sum for value, its_sum in zip(values, drawn.numbers(length, SUM)))


def least(length):
    return str(min(Numbers(length).numbers(length, PATH_VALUE)))


def step(length):
    drawn = Numbers(length)
    prev = drawn.numbers(length, PATH_VALUE)
    return joined(stepped(prev, drawn.numbers(length, COST)))


def add_step(length):
    drawn = Numbers(length)
    prev = drawn.numbers(length, PATH_VALUE)
    made = stepped(prev, drawn.numbers(length, COST))
    # What the values are written over is drawn before the sums.
    drawn.numbers(length, PATH_VALUE)
    sums = drawn.numbers(length, SUM)
    return f"{joined(made)} | {joined(map(sum, zip(sums, made)))}"


def add_step_back(length):
    """The greater indices come first, and nothing else is written."""
    return add_step(length)


# Each kernel with its least length.
KERNELS = ((hamming, 0), (hamming_to, 0), (add, 0), (least, 1), (step, 1), (add_step, 1), (add_step_back, 1))


def cases():
    """The lines of all cases and their answers."""
    lines = []
    for kernel, first in KERNELS:
        for length in range(first, LENGTHS + 1):
            lines += [f"kernel {kernel.__name__} {length}", kernel(length)]
    return lines


def main():
    parser = argparse.ArgumentParser(description=__doc__.split("\n\n")[0], epilog="Example: tests/kernels.py")
    parser.add_argument("--write", action="store_true", help="write the cases and their answers anew")
    words = parser.parse_args()
    with open(STORED, encoding="utf-8", newline="") as file:
        lines = file.read().split("\n")
    stored, others = [], []
    for at in range(0, len(lines) - 1, 2):
        (stored if lines[at].startswith("kernel ") else others).extend(lines[at : at + 2])
    wanted = cases()
    if words.write:
        with open(STORED, "w", encoding="utf-8", newline="") as file:
            file.write("\n".join([*wanted, *others, *lines[len(lines) // 2 * 2 :]]))
        print(f"kernels: {len(wanted) // 2} cases written")
        return 0
    if stored == wanted:
        print(f"kernels: {len(wanted) // 2} cases the same")
        return 0
    differ = [case for case, answer in zip(wanted[::2], wanted[1::2]) if [case, answer] not in pairs_of(stored)]
    print(f"kernels: {len(differ)} of {len(wanted) // 2} cases differ or are missing: {differ[:5]}")
    return 1


def pairs_of(lines):
    return [lines[at : at + 2] for at in range(0, len(lines), 2)]


if __name__ == "__main__":
    try:
        sys.exit(main())
    except OSError as error:
        sys.exit(f"kernels: {error}")
