"""MPS: the fields of each section in columns; comments, the NAME line and the order of lines as they were written."""

from __future__ import annotations

from collections.abc import Iterable, Iterator, Sequence

from mpslp._format._numbers import plain
from mpslp._text._mps import MpsText
from mpslp._text._mps_words import MARKER, VALUED

_GAP = "  "
_STEP = 8
_WIDEST = 40
"""A longer field does not move the fields of other lines."""

_Line = tuple[str, ...] | str
"""The fields of a data line, or another line as it is written."""


def formatted_mps(content: bytes) -> bytes:
    """An MPS text that is accepted, formatted. What follows ENDATA stays as it is."""
    text = MpsText(content)
    lines = list(_written("", content[: text.start]))
    for keyword, header in text.headers.items():
        lines.append(header.text.rstrip("\r").rstrip(" \t") if keyword == "NAME" else _GAP.join(header.text.split()))
        start, end = text.sections[keyword.encode("ascii")]
        lines += _written(keyword, content[start + 1 : end + 1])
    return "\n".join([*lines, "ENDATA", ""]).encode("latin-1") + text.rest


def _lines(keyword: str, content: bytes) -> Iterator[_Line]:
    """The lines of a section; of several empty ones the first."""
    is_after_empty_line = False
    for line in content.decode("latin-1").split("\n")[:-1]:
        fields = line.split()
        if line.startswith("*"):
            yield line.rstrip("\r")
        elif fields:
            yield _with_plain_numbers(keyword, fields)
        elif not is_after_empty_line:
            yield ""
        is_after_empty_line = not fields


def _written(keyword: str, content: bytes) -> Iterator[str]:
    """The lines of a section, with the fields in columns."""
    has_types = keyword in ("ROWS", "BOUNDS")
    lines = list(_lines(keyword, content))
    widths = _widths((line for line in lines if isinstance(line, tuple)), has_types)
    indent = " " if has_types else "    "
    for line in lines:
        yield line if isinstance(line, str) else indent + _padded(line, widths)


def _with_plain_numbers(keyword: str, fields: list[str]) -> tuple[str, ...]:
    """The fields of a data line with its numbers as number text."""
    for place in _places_of_numbers(keyword, fields):
        fields[place] = plain(fields[place])
    return tuple(fields)


def _places_of_numbers(keyword: str, fields: Sequence[str]) -> Iterable[int]:
    if keyword == "COLUMNS":
        return () if fields[1] == MARKER else range(2, len(fields), 2)
    if keyword in ("RHS", "RANGES"):
        return range(1 + len(fields) % 2, len(fields), 2)
    if keyword == "BOUNDS" and fields[0] in VALUED:
        return (len(fields) - 1,)
    return ()


def _widths(lines: Iterable[tuple[str, ...]], has_types: bool) -> list[int]:
    """How wide each field of a section is, if another one follows: a multiple of 8, except for the types of rows and
    bounds.
    """
    longest: list[int] = []
    for lengths in {tuple(map(len, fields[:-1])) for fields in lines}:  # few are different
        longest += [0] * (len(lengths) - len(longest))
        for place, length in enumerate(lengths):
            if longest[place] < length <= _WIDEST:
                longest[place] = length
    return [
        width if has_types and place == 0 else -(-max(width, 1) // _STEP) * _STEP for place, width in enumerate(longest)
    ]


def _padded(fields: Sequence[str], widths: Sequence[int]) -> str:
    return _GAP.join([*map(str.ljust, fields[:-1], widths), fields[-1]])
