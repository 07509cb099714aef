"""What is known of an MPS file at one of its lines."""

from __future__ import annotations

from collections.abc import Sequence
from typing import NamedTuple

from mpslp._adapt._changes import Log
from mpslp._adapt._mps_dialects import MpsDialect
from mpslp._adapt._mps_lines import Line, Section
from mpslp._adapt._names import Names
from mpslp._text._mps_words import MARKER, UNVALUED, VALUED
from mpslp._text._names import is_mps_name
from mpslp._text._numbers import LITERAL, is_decimal

NAMED_SECTIONS = ("ROWS", "COLUMNS", "RHS", "RANGES", "BOUNDS")


class Bound(NamedTuple):
    """A line of BOUNDS: its type, its number, if it has one, and its line."""

    kind: str
    number: str
    line: int


class Row(NamedTuple):
    """The type of a row, and its line."""

    kind: str
    line: int


class State:
    """The rows, columns, sets and bounds of the lines so far."""

    def __init__(self, lines: Sequence[Line], dialect: MpsDialect, log: Log) -> None:
        self.lines = lines
        self.dialect = dialect
        self.log = log
        self.names = Names(is_mps_name, lambda: {each for line in lines for each in line.fields()})
        self.section = Section("")
        self.rows: dict[str, Row] = {}
        self.objective: str | None = None
        self.objective_named: str | None = None
        self.sense: str | None = None
        self.columns: dict[str, bool] = {}  # whether each is between markers
        self.column_lines: list[int] = []  # where each of them is first
        self.bounds_only: dict[str, int] = {}  # columns that are in BOUNDS only, and their first lines
        self.is_marked = False
        self.marker_line = 0
        self.has_empty_block = False
        self.empty_block_line = 0
        self.column = ""
        self.sets: dict[str, str] = {}
        self.set_lines: dict[str, int] = {}  # where the set of a section is first
        self.bounded: dict[str, list[Bound]] = {}
        self._named: frozenset[str] | None = None

    def is_column(self, field: str) -> bool:
        return field in self.columns or field in self.bounds_only

    @property
    def named(self) -> frozenset[str]:
        """The names of all rows and columns of the file, those of later lines, too."""
        if self._named is None:
            self._named = frozenset(_names_in(self.lines))
        return self._named


def is_number(field: str) -> bool:
    return LITERAL.fullmatch(field) is not None and is_decimal(field)


def is_pair(state: State, fields: Sequence[str], at: int) -> bool:
    return at + 1 < len(fields) and fields[at] in state.rows and LITERAL.fullmatch(fields[at + 1]) is not None


def pairs_end(state: State, fields: Sequence[str], start: int) -> int | None:
    """Where one or two pairs of a row and a number end, or None if there is no first pair."""
    if not is_pair(state, fields, start):
        return None
    return start + 4 if is_pair(state, fields, start + 2) else start + 2


def is_plain(state: State, fields: Sequence[str], start: int, counts: Sequence[int]) -> bool:
    """Whether a line is one or two pairs of a row and a number, after its first fields."""
    return (
        len(fields) in counts
        and pairs_end(state, fields, start) == len(fields)
        and all(is_decimal(each) for each in fields[start + 1 :: 2])
    )


def is_plain_bound(state: State, fields: Sequence[str]) -> bool:
    if fields[0] in VALUED:
        return len(fields) in (3, 4) and state.is_column(fields[-2]) and is_number(fields[-1])
    at = 1 if len(fields) == 2 else 2
    return fields[0] in UNVALUED and len(fields) in (2, 3, 4) and state.is_column(fields[at])


def _names_in(lines: Sequence[Line]) -> set[str]:
    section = ""
    found: set[str] = set()
    for line in lines:
        fields = line.fields()
        if line.is_comment() or not fields:
            continue
        if not line.is_data() and fields[0].rstrip(":").upper() in (*NAMED_SECTIONS, "ENDATA"):
            section = fields[0].rstrip(":").upper()
            if section == "ENDATA":
                break
        elif section == "ROWS":
            found.update(fields[1:2])
        elif section == "COLUMNS" and MARKER not in fields:
            found.add(fields[0])
    return found
