"""What a file says itself. The rest of its model is defaults of the format, which the model does not show.

The file has been accepted, so nothing of it is tested here: docs/FORMATS.md says what it can have.
"""

from __future__ import annotations

import re
from collections import Counter
from dataclasses import dataclass, field

from mpslp import _mpslp
from mpslp._files._sources import Text
from mpslp._text._lp import LpTokens
from mpslp._text._lp_words import BINARIES, BOUNDS, INFINITIES, OBJECTIVE, ROWS
from mpslp._text._mps import MpsText, bound_of, pairs_of
from mpslp._text._mps_words import BOUND_TYPES, INTORG, MARKER
from mpslp._text._numbers import digits_of, is_infinite

LOWER, UPPER = 1, 2
BOTH = LOWER | UPPER
"""Which bounds of a column are given."""


@dataclass
class Declared:
    """What a file says, as far as the report has a rule about it."""

    is_mps: bool
    problem: str = ""
    """The rest of the line of NAME."""
    has_sense: bool = False
    sense_in_comment: str = ""
    """The word after ``*SENSE:``, a comment of PuLP, which is ignored."""
    has_objname: bool = False
    has_objective: bool = False
    """In MPS, whether there is an N row for the objective; in LP, whether the objective has a label."""
    has_constant: bool = False
    """In MPS, whether RHS has an entry on the objective."""
    coefficients: int = 0
    """How many coefficients are written, those that are 0 among them."""
    row_types: dict[str, str] = field(default_factory=dict)
    """In MPS, the types of the rows without the objective."""
    with_rhs: set[str] = field(default_factory=set)
    """In MPS, the rows of which RHS has an entry."""
    infinite_sides: int = 0
    """How many right-hand sides are infinite; in LP, sides of rows."""
    ranges: Counter[tuple[str, int]] = field(default_factory=Counter)
    """How many ranges there are, by the type of the row and the sign of the number."""
    labels: int = 0
    """How many rows have a label in LP."""
    bounds: dict[str, int] = field(default_factory=dict)
    """Which bounds are given, of the columns of which any is."""
    bound_types: Counter[str] = field(default_factory=Counter)
    """How many lines of BOUNDS there are of each type."""
    infinite_bounds: int = 0
    """How many bounds are given as infinite numbers, or as ``inf``."""
    marked: dict[str, None] = field(default_factory=dict)
    """The columns between markers in MPS, in their order."""
    binaries: dict[str, None] = field(default_factory=dict)
    """The columns under Binaries in LP, in their order."""
    goes_on: bool = False
    """Whether there is more after the end."""

    def give(self, column: str, bounds: int) -> None:
        self.bounds[column] = self.bounds.get(column, 0) | bounds

    def columns_with_upper_1(self) -> set[str]:
        """The columns whose default upper bound is 1, with no other given."""
        binaries = {column for column in self.binaries if not self.bounds.get(column, 0) & UPPER}
        return binaries | (self.marked.keys() - self.bounds.keys())


def declared_by(text: Text, objective: str) -> Declared:
    """What a text says; ``objective`` is the name of the objective of its model."""
    if text.format == _mpslp.MPS:
        return _Mps(text.content, objective).declared
    return _Lp(text.content.decode("latin-1")).declared


def _sign(literal: str) -> int:
    sign, digits, _ = digits_of(literal)
    return 0 if not digits else -1 if sign else 1


class _Mps:
    """Takes the lines of each section of an MPS file."""

    _UNUSUAL = re.compile(rb"\n(?:\*|[ \t\r]*(?:\n|\Z))")  # a comment, or an empty line
    _SENSE = re.compile(r"\*\s*SENSE\s*:\s*(\w+)", re.IGNORECASE)

    def __init__(self, content: bytes, objective: str) -> None:
        self._text = text = MpsText(content)
        self._objective = objective
        self._in_integers = False
        self.declared = Declared(
            is_mps=True,
            problem=" ".join(each for line in text.data_lines("NAME") for each in line.fields),
            has_sense="OBJSENSE" in text.headers,
            has_objname="OBJNAME" in text.headers,
            goes_on=bool(text.rest.strip()),
        )
        for _, comment in text.numbered_comments:
            self._comment(comment)
        self._rows()
        self._columns()
        self._sides()
        self._bounds()

    def _comment(self, line: str) -> None:
        found = self._SENSE.match(line)
        if found:
            self.declared.sense_in_comment = found[1]

    def _rows(self) -> None:
        for line in self._text.data_lines("ROWS"):
            kind, name = line.fields
            if name == self._objective:
                self.declared.has_objective = True
            else:
                self.declared.row_types[name] = kind

    def _columns(self) -> None:
        """Takes the lines of COLUMNS, which are most of a file, many at once."""
        text = self._text
        for block in text.blocks(text.sections[b"COLUMNS"]):
            start = block.start
            for line in text.lines_with(MARKER.encode(), block):
                self._column_lines(start, line.start)
                self._column(text.content[line.start + 1 : line.end])
                start = line.end
            self._column_lines(start, block.end)

    def _column_lines(self, start: int, end: int) -> None:
        """Takes lines without markers, from the line feed before the first one.

        Each has a column, and one or two pairs.
        """
        content = self._text.content
        if self._UNUSUAL.search(content, start, end):
            for line in content[start:end].split(b"\n"):
                self._column(line)
            return
        self.declared.coefficients += (
            len(content[start:end].split()) - _mpslp.count_line_feeds(content, start, end)
        ) // 2
        if self._in_integers:
            self.declared.marked.update(
                (name.decode("ascii"), None) for name in _mpslp.first_fields(content, start, end)
            )

    def _column(self, line: bytes) -> None:
        fields = [] if line.startswith(b"*") else line.decode("ascii").split()
        if not fields:
            return
        if fields[1] == MARKER:
            self._in_integers = fields[2] == INTORG
            return
        self.declared.coefficients += len(fields) // 2
        if self._in_integers:
            self.declared.marked[fields[0]] = None

    def _sides(self) -> None:
        types = self.declared.row_types
        for line in self._text.data_lines("RHS"):
            for row, number in pairs_of(line.fields):
                if row == self._objective:
                    self.declared.has_constant = True
                    continue
                self.declared.with_rhs.add(row)
                self.declared.infinite_sides += types[row] != "N" and is_infinite(number)
        for line in self._text.data_lines("RANGES"):
            self.declared.ranges.update((types[row], _sign(number)) for row, number in pairs_of(line.fields))

    def _bounds(self) -> None:
        for line in self._text.data_lines("BOUNDS"):
            name, column, number = bound_of(line.fields)
            kind = BOUND_TYPES[name]
            self.declared.bound_types[name] += 1
            self.declared.infinite_bounds += number != "" and is_infinite(number)
            self.declared.give(column, LOWER * kind.gives_lower | UPPER * kind.gives_upper)


class _Lp:
    """Takes the tokens of an LP file."""

    def __init__(self, content: str) -> None:
        self.declared = Declared(is_mps=False, has_sense=True)
        self._side = ""
        self._is_side = False
        self._bound_so_far: list[str] = []
        self._bounded = ""
        takes = {OBJECTIVE: self._objective, ROWS: self._row, BOUNDS: self._bound, BINARIES: self._binary}
        tokens = LpTokens(content)
        for section, sort, text, _ in tokens:
            if section in takes:  # of general and semi-continuous columns the model has all
                takes[section](sort, text)
        self.declared.goes_on = bool(content[tokens.end :].strip())

    def _objective(self, sort: str, text: str) -> None:
        if sort == "word":
            self.declared.coefficients += 1
        elif sort == "colon":
            self.declared.coefficients -= 1
            self.declared.has_objective = True

    def _row(self, sort: str, text: str) -> None:
        if sort == "word" and text.lower() not in INFINITIES:
            self.declared.coefficients += 1
        elif sort == "colon":
            self.declared.coefficients -= 1
            self.declared.labels += 1
        elif sort == "word" or (sort == "number" and self._is_side):
            self.declared.infinite_sides += sort == "word" or is_infinite(text)
        elif sort == "relation" and self._side:
            self.declared.infinite_sides += is_infinite(self._side)
        # A number is a side if it is next to a relation, apart from signs.
        self._side = text if sort == "number" and not self._is_side else ""
        self._is_side = sort == "relation" or (sort == "sign" and self._is_side)

    def _bound(self, sort: str, text: str) -> None:
        so_far = self._bound_so_far
        if sort == "sign":
            return
        if sort == "relation":
            # Without anything before it, it is the second one of a bound: side, relation, name, relation, side.
            so_far[:] = [*(so_far or [self._bounded]), text]
            return
        is_infinity = sort == "word" and text.lower() in INFINITIES
        is_side = sort == "number" or is_infinity
        if is_side:
            self.declared.infinite_bounds += is_infinity or is_infinite(text)
        if not so_far:
            so_far.append("" if is_side else text)
            return
        if len(so_far) == 1:
            self.declared.give(so_far[0], BOTH)  # the word is `free`
        elif is_side:
            self.declared.give(so_far[0], _given_by(so_far[1], UPPER, LOWER))
        else:
            self._bounded = text
            self.declared.give(text, _given_by(so_far[1], LOWER, UPPER))
        so_far.clear()

    def _binary(self, sort: str, text: str) -> None:
        self.declared.binaries[text] = None


def _given_by(relation: str, at_most: int, at_least: int) -> int:
    """The bounds that a relation gives: those of ``<`` or ``>`` in any spelling, or both for ``=``."""
    return at_most if "<" in relation else at_least if ">" in relation else BOTH
