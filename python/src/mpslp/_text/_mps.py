"""Where the sections and comments of an MPS file are, and the fields of its lines.

The file has been accepted, so nothing of it is tested here.
"""

from __future__ import annotations

import re
from collections.abc import Iterator, Sequence
from functools import cached_property
from itertools import pairwise, product
from typing import AnyStr, NamedTuple

from mpslp import _mpslp
from mpslp._text._lines import numbers_of
from mpslp._text._mps_words import BOUND_TYPES, UNVALUED

_WORD = re.compile(rb"[A-Z]+")
_ROW = re.compile(rb"^[ \t]+N[ \t]+(\S+)", re.M)
_DATA_LINE = re.compile(rb"\n[ \t]+(\S+)[ \t]+(\S+)")
_MOST_READ_AT_THE_END = 1 << 13
_BLOCK = 1 << 20
_TYPES_WITHOUT_NUMBER = " ".join(UNVALUED).encode()


class Section(NamedTuple):
    """The lines of a section: from the line feed before the first one to that before the next header."""

    start: int
    end: int


class DataLine(NamedTuple):
    """The fields of a line, its number, from 1, and the whole line."""

    number: int
    fields: list[str]
    text: str


class BoundLine(NamedTuple):
    """What a line of BOUNDS says; the number is empty if the type has none."""

    type: str
    column: str
    number: str


def pairs_of(fields: Sequence[AnyStr]) -> Iterator[tuple[AnyStr, AnyStr]]:
    """The rows and numbers of a line of RHS or RANGES, whose set name is optional."""
    first = len(fields) % 2
    return zip(fields[first::2], fields[first + 1 :: 2])


def bound_of(fields: Sequence[str]) -> BoundLine:
    """What a line of BOUNDS says, whose set name is optional."""
    if BOUND_TYPES[fields[0]].has_number:
        return BoundLine(fields[0], fields[-2], fields[-1])
    return BoundLine(fields[0], fields[1] if len(fields) == 2 else fields[2], "")


class Pair(NamedTuple):
    """A number of RHS, and where its line starts."""

    place: int
    row: bytes
    number: bytes


class MpsText:
    """Finds headers and comments, which start in the first column."""

    def __init__(self, content: bytes) -> None:
        self.content = content
        self.comments: list[Section] = []
        self.sections: dict[bytes, Section] = {}
        """The sections by their headers, without ENDATA."""
        self.start = 0
        """Where the first header starts."""
        self.end = len(content)
        """Where the line after ENDATA starts."""
        self._find()

    def _find(self) -> None:
        header, start = b"", 0
        for place in self._first_columns():
            line_end = self._end_of_line(place)
            if self.content[place] == ord("*"):
                self.comments.append(Section(place, line_end))
                continue
            if header:
                self.sections[header] = Section(start, place - 1)
            else:
                self.start = place
            word = _WORD.match(self.content, place)
            header, start = (b"" if word is None else word[0]), line_end
            if header == b"ENDATA":
                self.end = min(line_end + 1, len(self.content))
                return

    def _first_columns(self) -> Iterator[int]:
        if self.content[:1] not in (b"", b"\n", b" ", b"\t", b"\r"):
            yield 0
        place, end = 0, len(self.content)
        while (distance := _mpslp.find_first_column(self.content, place, end)) >= 0:
            place += distance
            yield place

    def _end_of_line(self, place: int) -> int:
        end = self.content.find(b"\n", place)
        return len(self.content) if end < 0 else end

    @cached_property
    def headers(self) -> dict[str, DataLine]:
        """The lines of the headers, without ENDATA, with the fields after them."""
        places = [self.start_of_line(section.start) for section in self.sections.values()]
        lines = [self.line_at(place).decode("latin-1") for place in places]
        return {
            header.decode("ascii"): DataLine(number, line.split()[1:], line)
            for header, number, line in zip(self.sections, numbers_of(self.content, places), lines)
        }

    def data_lines(self, header: str) -> Iterator[DataLine]:
        """The lines of a section that have fields, from that of its header on if it has a field after it."""
        if header not in self.headers:
            return
        first = self.headers[header]
        if first.fields:
            yield first
        start, end = self.sections[header.encode("ascii")]
        for number, line in enumerate(self.content[start + 1 : end].decode("latin-1").split("\n"), first.number + 1):
            fields = [] if line.startswith("*") else line.split()
            if fields:
                yield DataLine(number, fields, line)

    @property
    def numbered_comments(self) -> Iterator[tuple[int, str]]:
        """The lines of comments, with their numbers."""
        numbers = numbers_of(self.content, [start for start, _ in self.comments])
        return ((number, self.content[slice(*each)].decode("latin-1")) for number, each in zip(numbers, self.comments))

    def blocks(self, section: Section) -> Iterator[Section]:
        """Parts of a section of some megabyte each, so that the words of one part only are in memory."""
        start = section.start
        while start < section.end:
            found = self.content.find(b"\n", start + _BLOCK, section.end)
            end = section.end if found < 0 else found
            yield Section(start, end)
            start = end

    def lines_with(self, word: bytes, section: Section) -> Iterator[Section]:
        """The lines of a section that contain a word, each from the line feed before it to its end."""
        place = self.content.find(word, *section)
        while place >= 0:
            line = Section(self.start_of_line(place) - 1, min(self._end_of_line(place), section.end))
            yield line
            place = self.content.find(word, line.end, section.end)

    def start_of_line(self, place: int) -> int:
        return self.content.rfind(b"\n", 0, place) + 1

    def line_at(self, place: int) -> bytes:
        """The line that starts at a place."""
        return self.content[place : self._end_of_line(place)]

    @cached_property
    def is_maximised(self) -> bool:
        return self._word_of(b"OBJSENSE").startswith(b"MAX")

    @cached_property
    def objective(self) -> bytes:
        """The name of the objective."""
        named = self._word_of(b"OBJNAME")
        if named:
            return named
        row = _ROW.search(self.content, *self.sections[b"ROWS"])
        return b"obj" if row is None else row[1]

    def _word_of(self, header: bytes) -> bytes:
        """The word of a section, on the line of its header or below it; empty if there is no such section."""
        section = self.sections.get(header)
        if section is None:
            return b""
        lines = self.content[self.start_of_line(section.start) : section.end].split(b"\n")
        return b" ".join(line for line in lines if not line.startswith(b"*")).split()[1]

    def right_hand_sides(self, row: bytes) -> Iterator[Pair]:
        """The numbers that RHS has for a row."""
        section = self.sections.get(b"RHS")
        if section is None:
            return
        line = -1
        for found in self._places_of(row, section):
            if found < line:
                continue  # the name is on this line once more
            place, line = self.start_of_line(found), self._end_of_line(found)
            for name, number in pairs_of(self.line_at(place).split()):
                if name == row and self.content[place] != ord("*"):
                    yield Pair(place, name, number)

    def _places_of(self, word: bytes, section: Section) -> list[int]:
        """Where a word is between spaces or tabs; bytes are found much faster than a pattern."""
        blanks = (b" ", b"\t") if self.content.find(b"\t", *section) >= 0 else (b" ",)
        places: list[int] = []
        for before, after in product(blanks, blanks):
            found = self.content.find(before + word + after, *section)
            while found >= 0:
                places.append(found + 1)
                found = self.content.find(before + word + after, found + 1, section.end)
        return sorted(places)

    def unbounded_columns(self) -> Iterator[tuple[int, list[bytes]]]:
        """For each part between markers: where it starts, and its columns that BOUNDS does not have."""
        for start, end in self._marked_parts():
            left = [name for name in _mpslp.first_fields(self.content, start, end) if name not in self.bounded]
            if left:
                yield start, left

    def _marked_parts(self) -> Iterator[Section]:
        """The lines between INTORG and INTEND."""
        for marker, following in pairwise(self._markers):
            if self._is_opening(marker):
                yield Section(marker.end, following.start - 1)

    @property
    def open_marker(self) -> Section | None:
        """The marker INTORG after which no INTEND comes."""
        return self._markers[-1] if self._markers and self._is_opening(self._markers[-1]) else None

    def _is_opening(self, marker: Section) -> bool:
        return b"'INTORG'" in self.line_at(marker.start)

    @cached_property
    def _markers(self) -> list[Section]:
        return list(self._found_markers())

    def _found_markers(self) -> Iterator[Section]:
        """The lines of markers; a comment and a name may have the word, too."""
        place, end = self.sections[b"COLUMNS"]
        while (distance := _mpslp.find_marker(self.content, place, end)) >= 0:
            start, place = self.start_of_line(place + distance), self._end_of_line(place + distance)
            if self.content[start] != ord("*") and self.content[start:place].split()[1] == b"'MARKER'":
                yield Section(start, place)

    def line_of(self, column: bytes, start: int) -> int:
        """Where the first line of a column starts, from a place on."""
        found = re.compile(rb"\n[ \t]+" + re.escape(column) + rb"[ \t]").search(self.content, start)
        return start if found is None else found.start() + 1

    @property
    def last_column(self) -> tuple[int, bytes]:
        """The column of the last line of COLUMNS that has one, and where its first line starts,
        among the last lines.
        """
        start, end = self.sections[b"COLUMNS"]
        first = max(start, end - _MOST_READ_AT_THE_END)
        lines = [match for match in _DATA_LINE.finditer(self.content, first, end) if match[2] != b"'MARKER'"]
        if not lines:
            return start, b""
        name = lines[-1][1]
        return next(match.start(1) for match in lines if match[1] == name), name

    @cached_property
    def bounded(self) -> frozenset[bytes]:
        """The columns that BOUNDS has."""
        section = self.sections.get(b"BOUNDS")
        if section is None:
            return frozenset()
        return frozenset(_mpslp.bounded_columns(self.content, *section, _TYPES_WITHOUT_NUMBER))

    @property
    def number_of_rest(self) -> int:
        """The number of the line after ENDATA."""
        return next(numbers_of(self.content, [self.end]))

    @property
    def rest(self) -> bytes:
        """The text after ENDATA."""
        return self.content[self.end :]
