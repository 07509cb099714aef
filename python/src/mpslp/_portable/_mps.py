"""What an MPS file says, with its lines. The file has been accepted, so nothing of it is tested here."""

from __future__ import annotations

from collections.abc import Callable
from enum import Enum
from functools import partial
from typing import NamedTuple

from mpslp._portable._numbers import is_doubtful, may_be_extreme
from mpslp._portable._words import Word, first_text
from mpslp._text._mps import DataLine, MpsText, bound_of, pairs_of
from mpslp._text._mps_words import INTORG, MARKER
from mpslp._text._numbers import is_infinite, parts

_FIXED_SECTIONS = ("COLUMNS", "RHS", "RANGES")
_FIRST_NAME, _SECOND_NAME = slice(4, 12), slice(14, 22)
"""The columns of a line that have the two names of fixed columns; those between are empty."""


class Pair(NamedTuple):
    """A number of RHS or RANGES."""

    line: int
    row: str
    number: str


class Bound(NamedTuple):
    """A line of BOUNDS; the number is empty if the type has none."""

    line: int
    type: str
    number: str


class Fixed(Enum):
    """What a line is to CoinUtils as long as it reads in fixed columns."""

    IN_PLACE = "its names are in their places, or it does not begin in the first name's and is read by fields"
    JOINED = "the place of the first name has several fields"
    NOT_FIXED = "it cannot be read so: from this line on all are read by fields"


class Column(NamedTuple):
    """The first line of a column, and whether it is between markers."""

    line: int
    is_marked: bool


class MpsFile:
    """Takes the lines of the sections, in the order of the file."""

    def __init__(self, content: bytes) -> None:
        text = MpsText(content)
        self.comments = [Word(*comment) for comment in text.numbered_comments]
        self.sense: Word | None = None
        self.is_sense_in_header = False
        """Whether the word is on the line of OBJSENSE."""
        self.objective = text.objective.decode("ascii")
        self.types: dict[str, Word] = {}
        """The types of the rows, by names, N rows among them."""
        self.columns: dict[str, Column] = {}
        self.sides: list[Pair] = []
        self.ranges: list[Pair] = []
        self.bounds: dict[str, list[Bound]] = {}
        """The lines of BOUNDS by columns."""
        self.coefficients: list[Word] = []
        """The coefficients of rows that are not 0 and may be very small or very large."""
        self.numbers: list[Word] = []
        """The numbers that a double may not hold; of the infinite ones none."""
        self.empty_markers: list[int] = []
        """The lines of INTORG without a column before INTEND."""
        self.joined: list[Word] = []
        """The fields that are in the columns of the first name, if CoinUtils reads the lines in fixed columns."""
        self.rest = first_text(text.rest.decode("latin-1").split("\n"), text.number_of_rest, "*")
        """The first text after the end."""
        self.headers = {header: line.number for header, line in text.headers.items()}
        """The lines of the section headers."""
        self._is_marked = False
        self._marker: int | None = None
        """The line of an INTORG that no column has followed."""
        self._is_fixed = "NAME" not in text.headers or "FREE" not in text.headers["NAME"].fields[1:]
        """Whether CoinUtils still reads in fixed columns."""
        takes: dict[str, Callable[[DataLine], None]] = {
            "OBJSENSE": self._sense,
            "ROWS": self._row,
            "COLUMNS": self._coefficients,
            "RHS": partial(self._pairs, self.sides),
            "RANGES": partial(self._pairs, self.ranges),
            "BOUNDS": self._bound,
        }
        for header in text.headers:
            for line in text.data_lines(header) if header in takes else ():
                if self._is_fixed and header in _FIXED_SECTIONS and MARKER not in line.fields:
                    self._look_at_columns(line)
                takes[header](line)

    def type_of(self, row: str) -> str:
        """The type of a row; the objective that a file without an N row gets is one."""
        return self.types[row].text if row in self.types else "N"

    def _sense(self, line: DataLine) -> None:
        self.sense = Word(line.number, line.fields[0])
        self.is_sense_in_header = line.number == self.headers["OBJSENSE"]

    def _row(self, line: DataLine) -> None:
        self.types[line.fields[1]] = Word(line.number, line.fields[0])

    def _coefficients(self, line: DataLine) -> None:
        name, row = line.fields[:2]
        if row == MARKER:
            self._is_marked = line.fields[2] == INTORG
            if not self._is_marked and self._marker is not None:
                self.empty_markers.append(self._marker)
            self._marker = line.number if self._is_marked else None
            return
        self._marker = None
        if name not in self.columns:
            self.columns[name] = Column(line.number, self._is_marked)
        for row, number in zip(line.fields[1::2], line.fields[2::2]):
            self._number(line, number)
            if may_be_extreme(number) and row != self.objective and parts(number)[0]:
                self.coefficients.append(Word(line.number, number))

    def _pairs(self, found: list[Pair], line: DataLine) -> None:
        for row, number in pairs_of(line.fields):
            found.append(Pair(line.number, row, number))
            if not is_infinite(number):
                self._number(line, number)

    def _bound(self, line: DataLine) -> None:
        kind, column, number = bound_of(line.fields)
        self.bounds.setdefault(column, []).append(Bound(line.number, kind, number))
        if number and not is_infinite(number):
            self._number(line, number)

    def _look_at_columns(self, line: DataLine) -> None:
        kind = _in_fixed_columns(line.text)
        if kind is Fixed.JOINED:
            self.joined.append(Word(line.number, line.text[_FIRST_NAME].strip()))
        self._is_fixed = kind is not Fixed.NOT_FIXED

    def _number(self, line: DataLine, number: str) -> None:
        if is_doubtful(number):
            self.numbers.append(Word(line.number, number))


def _in_fixed_columns(line: str) -> Fixed:
    """How CoinUtils takes a line of COLUMNS, RHS or RANGES, as long as it reads in fixed columns."""
    if line[:4].strip() or line[4:5].isspace():
        return Fixed.IN_PLACE
    if line[12:13].strip():
        return Fixed.NOT_FIXED
    if len(line[_FIRST_NAME].split()) > 1:
        return Fixed.JOINED
    is_in_place = not line[13:14].strip() and not line[14:15].isspace() and len(line[_SECOND_NAME].split()) == 1
    return Fixed.IN_PLACE if is_in_place else Fixed.NOT_FIXED
