"""Exact numbers: rounding, and decimal texts."""

from __future__ import annotations

from typing import Any, overload

from sgm_tools.kinds import Ints


@overload
def rounded(a: int, b: int) -> int: ...
@overload
def rounded(a: Ints, b: Ints | int) -> Ints: ...
@overload
def rounded(a: int, b: Ints) -> Ints: ...
def rounded(a: Any, b: Any) -> Any:
    """To the nearest whole number, halves up."""
    return (2 * a + b) // (2 * b)


def decimal(number: int, places: int) -> str:
    """The decimal text of number / 10^places with every digit that it needs."""
    text = str(abs(number)).rjust(places + 1, "0")
    whole, part = text[: len(text) - places], text[len(text) - places :].rstrip("0")
    return ("-" if number < 0 else "") + whole + ("." + part if part else "")


def moved(number: int, places: int, digits: int | None) -> str:
    """The decimal text of number / 10^places; all digits that it needs, or `digits` decimals."""
    decimals = places
    if digits is not None:
        spare = places - digits
        if spare > 0:
            half = 10**spare // 2
            number = (abs(number) + half) // 10**spare * (-1 if number < 0 else 1)
        else:
            number *= 10**-spare
        decimals = digits
    text = str(abs(number)).rjust(decimals + 1, "0")
    whole, part = text[: len(text) - decimals], text[len(text) - decimals :]
    if digits is None:
        part = part.rstrip("0")
    return ("-" if number < 0 else "") + whole + ("." + part if part else "")


def sixteenths(value: int, first: int) -> str:
    """A disparity in pixels, as text."""
    return decimal((16 * first + value) * 10000 // 16, 4)
