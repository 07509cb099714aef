"""The lines of an MPS file as fields with their places, the sections that they are in, and how they are written.

A rule gives a line other fields. Only the printer here makes text of them, and it separates fields by spaces: fields
cannot run together. A line that gets no other fields keeps its bytes.
"""

from __future__ import annotations

import re
from collections.abc import Sequence
from dataclasses import dataclass, field

FIELD = re.compile(r"[^ \t]+")
Fields = tuple[str, ...]


class Line:
    """A line of the source, or one that is added: its number in the source, from 1, and what ends it."""

    __slots__ = ("number", "source", "end", "_written", "is_indented", "is_dropped")

    def __init__(self, number: int, source: str, end: str, written: Fields | None = None) -> None:
        self.number = number
        self.source = source
        self.end = end
        self._written = written
        self.is_indented = False
        self.is_dropped = False

    def fields(self) -> Fields:
        """The fields as they are to be written."""
        return tuple(FIELD.findall(self.source)) if self._written is None else self._written

    def places(self) -> list[int]:
        """The columns, from 0, in which the fields of the source start."""
        return [found.start() for found in FIELD.finditer(self.source)]

    def is_comment(self) -> bool:
        return self.source.startswith("*")

    def is_empty(self) -> bool:
        return not self.source.strip(" \t") and self._written is None

    def is_data(self) -> bool:
        return self.source[:1] in (" ", "\t") or self.is_indented

    def put(self, fields: Sequence[str]) -> None:
        """Gives the line other fields."""
        self._written = tuple(fields)

    def indent(self) -> None:
        """Makes a line that starts in the first column a data line."""
        self.is_indented = True

    def drop(self) -> None:
        """Makes the line a comment."""
        self.is_dropped = True

    @property
    def text(self) -> str:
        """The line as it is written."""
        body = self.source if self._written is None else _printed(self.source, self._written)
        return ("*" if self.is_dropped else "") + (" " if self.is_indented else "") + body


def added_data(number: int, fields: Sequence[str], end: str, indent: str = "    ") -> Line:
    """A data line that the source has not."""
    return Line(number, indent, end, tuple(fields))


def _printed(source: str, fields: Fields) -> str:
    """Fields in the layout of a line: spaces stay where the number of fields does."""
    spans = [found.span() for found in FIELD.finditer(source)]
    if len(fields) < len(spans) and fields == tuple(source[start:stop] for start, stop in spans[: len(fields)]):
        return source[: spans[len(fields) - 1][1]]
    if len(fields) == len(spans):
        starts = [0] + [stop for _, stop in spans]
        gaps = [source[stop:start] for stop, (start, _) in zip(starts, spans)]
        return "".join(gap + each for gap, each in zip(gaps, fields)) + source[starts[-1] :]
    indent = source[: len(source) - len(source.lstrip(" \t"))]
    return (indent if len(indent) <= 4 else "    ") + "  ".join(fields)


@dataclass
class Section:
    """The lines of a section: the header and what comes after it, comments and empty lines too."""

    name: str
    lines: list[Line] = field(default_factory=list)

    def data(self) -> list[Line]:
        return [line for line in self.lines if line.is_data() and not line.is_dropped and not line.is_empty()]


class Sections:
    """The sections of a file in the order in which they are written; of a name, the first one is found."""

    def __init__(self, first: Section) -> None:
        self.all = [first]
        self._first = {first.name: first}

    def found(self, name: str) -> Section | None:
        return self._first.get(name)

    def append(self, section: Section) -> None:
        self.all.append(section)
        self._first.setdefault(section.name, section)

    def insert_before(self, other: Section, section: Section) -> None:
        """Inserts, before another one, a section whose name no other one has."""
        self.all.insert(self.all.index(other), section)
        self._first[section.name] = section


def lines_of(text: str) -> list[Line]:
    """The lines of a text in latin-1."""
    lines = []
    for number, part in enumerate(text.split("\n"), 1):
        end = "\r\n" if part.endswith("\r") else "\n"
        lines.append(Line(number, part[:-1] if end == "\r\n" else part, end))
    last = lines[-1]
    if last.source or last.end == "\r\n":
        last.source, last.end = (last.source + "\r" if last.end == "\r\n" else last.source), ""
    else:
        lines.pop()
    return lines


def joined(lines: Sequence[Line]) -> str:
    """The text of lines, of which only the last may have no end."""
    return "".join(line.text + (line.end or "\n") for line in lines[:-1]) + "".join(
        line.text + line.end for line in lines[-1:]
    )
