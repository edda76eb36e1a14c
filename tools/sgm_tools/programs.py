"""The program sgm, as the tools start it."""

from __future__ import annotations

import os
import subprocess

from sgm_tools.running import Wrong

TOP = os.path.join(os.path.dirname(os.path.abspath(__file__)), "..", "..")
# The program of the checkout that the tools are of.
PROGRAM = os.path.normpath(os.path.join(TOP, "sgm"))


class Failed(Exception):
    """What the program says where it doesn't do what it is asked for: its line, and the status that it ends with,
    less than 0 where a signal has ended it."""

    def __init__(self, line: str, status: int) -> None:
        super().__init__(line)
        self.line, self.status = line, status

    def __reduce__(self) -> tuple[type[Failed], tuple[str, int]]:
        # So that it comes back whole from another process.
        return Failed, (self.line, self.status)


def given_program() -> str:
    """The program where no word names one: that of the variable SGM, of this repository, or of the PATH."""
    return os.environ.get("SGM") or (PROGRAM if os.access(PROGRAM, os.X_OK) else "sgm")


def called(program: str, *words: object) -> str:
    """What the program prints, or a Failed with its last line."""
    command = [program, *map(str, words)]
    done = subprocess.run(command, stdin=subprocess.DEVNULL, capture_output=True, text=True, check=False)
    if done.returncode:
        said = done.stderr.strip().splitlines()
        raise Failed(said[-1] if said else "", done.returncode)
    return done.stdout


def run_program(program: str, *words: object) -> str:
    """The same for a tool, to which a program that fails is a Wrong."""
    try:
        return called(program, *words)
    except Failed as error:
        said = error.line or "and says nothing"
        raise Wrong(f"{program} {words[0]} ends with {error.status}: {said}") from None
