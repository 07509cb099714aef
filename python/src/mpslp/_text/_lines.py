"""The lines of a text by their numbers, without a list of all."""

from __future__ import annotations

from collections.abc import Iterable, Iterator
from typing import NamedTuple

from mpslp import _mpslp

LONGEST_LINE = 1_048_576
"""The most bytes of a line, without its end."""

_BLOCK = 1 << 20


class Line(NamedTuple):
    """A line of a text, without its end."""

    number: int
    start: int
    content: bytes


def line_at(content: bytes, number: int) -> Line:
    """The line with a number, from 1."""
    start = _start_of_line(content, number)
    return Line(number, start, _line_from(content, start))


def line_with(content: bytes, place: int) -> Line:
    """The line that has the byte at a place."""
    start = content.rfind(b"\n", 0, place) + 1
    return Line(content.count(b"\n", 0, start) + 1, start, _line_from(content, start))


def numbers_of(content: bytes, places: Iterable[int]) -> Iterator[int]:
    """The numbers of the lines that have bytes at places, which rise."""
    number, before = 1, 0
    for place in places:
        number, before = number + _mpslp.count_line_feeds(content, before, place), place
        yield number


def _line_from(content: bytes, start: int) -> bytes:
    end = content.find(b"\n", start)
    return content[start:] if end < 0 else content[start:end].removesuffix(b"\r")


def _start_of_line(content: bytes, number: int) -> int:
    """The place of a line. Line ends are counted in blocks, which takes a fraction of the time of looking for each."""
    start, left = 0, number - 1
    while left:
        in_block = content.count(b"\n", start, start + _BLOCK)
        if in_block >= left:
            break
        start, left = start + _BLOCK, left - in_block
    for _ in range(left):
        start = content.index(b"\n", start) + 1
    return start
