"""What both formats have: words with their lines, and what is said of names, numbers and the text after the end."""

from __future__ import annotations

from collections.abc import Iterable
from typing import NamedTuple

from mpslp._portable._names import arithmetic
from mpslp._portable._numbers import is_near_whole, nearest_if_lost
from mpslp._portable._remarks import PUBLISHED, Found, Program
from mpslp._text._published import COEFFICIENT_OF_0, COEFFICIENTS_OF_HIGHS, COEFFICIENTS_OF_SCIP, UPPER_BOUND_OF_HIGHS


class Word(NamedTuple):
    """A word of a line, or a line."""

    line: int
    text: str


def first_text(rest: Iterable[str], first: int, comment: str) -> Word | None:
    """The first line after the end that is neither empty nor a comment; the first of these lines has a number.

    Byte 26 is what old programs end a file with.
    """
    for number, line in enumerate(rest, first):
        text = line.strip(" \t\r\x1a")
        if text and not text.startswith(comment):
            return Word(number, text)
    return None


def of_rest(rest: Word | None, keyword: str, programs: tuple[Program, ...]) -> Found:
    if rest is not None:
        yield rest.line, f"the text after {keyword} is ignored", programs


def of_names(names: Iterable[Word], programs: tuple[Program, ...]) -> Found:
    for line, name in names:
        why = arithmetic(name)
        if why is not None:
            yield line, f"{name} is one name; {why}", programs


def of_numbers(numbers: Iterable[Word], programs: tuple[Program, ...]) -> Found:
    for line, number in numbers:
        nearest = nearest_if_lost(number)
        if nearest is not None:
            yield line, f"{number} is exact; as a double it is {nearest}", programs


def of_coefficients(coefficients: Iterable[Word]) -> Found:
    """What is published of coefficients in rows that are very small or very large."""
    for line, number in coefficients:
        size = abs(float(number))
        if size <= COEFFICIENT_OF_0:
            yield line, f"the coefficient {number} in a row is 0 for HiGHS and SCIP by their documents", PUBLISHED
        elif size >= COEFFICIENTS_OF_SCIP:
            said = f"the coefficient {number} in a row is too large for HiGHS and SCIP by their documents"
            yield line, said, PUBLISHED
        elif size >= COEFFICIENTS_OF_HIGHS:
            yield line, f"the coefficient {number} in a row is too large for HiGHS by its documents", ("highs",)


def of_semi_continuous(columns: Iterable[tuple[str, Iterable[Word]]]) -> Found:
    """What is published of the upper bounds of semi-continuous columns."""
    for name, bounds in columns:
        for line, number in bounds:
            if float(number) > UPPER_BOUND_OF_HIGHS:
                said = f"{name} is semi-continuous, and {number} is too large for its upper bound in HiGHS"
                yield line, f"{said} by its documents", ("highs",)


def of_whole_columns(columns: Iterable[tuple[str, Iterable[Word]]], programs: tuple[Program, ...]) -> Found:
    """Bounds near whole numbers of columns that are not continuous."""
    for name, bounds in columns:
        for line, number in bounds:
            if is_near_whole(number):
                said = (
                    f"{name} is not continuous, and its bound {number} is nearly whole: cbc rounds it, glpsol rejects"
                )
                yield line, f"{said} it, and HiGHS and SCIP have tolerances", (*programs, *PUBLISHED)
