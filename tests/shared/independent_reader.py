#!/usr/bin/env python3
"""A second reader of MPS and LP files, to be read beside docs/FORMATS.md.

It was written only from docs/FORMATS.md and the order of errors in docs/ERRORS.md, by an author
who knew neither the code nor the specification of mpslp, and it shares nothing with them. It has to
stay so: where it and mpslp differ, the two documents decide; where they leave it open, they are made
plainer first, and the reader follows them.

Each function is one rule, in the order of the documents, and cites the heading that it follows as
[Heading]. [Which error is reported], [The order of the kinds], [Within an MPS line] and [Within an LP
line] are in the appendix of docs/ERRORS.md, the other headings in docs/FORMATS.md. Numbers are exact.

    independent_reader.py FORMAT FILE [--to mps|lp|show]
"""

from __future__ import annotations

import argparse
import re
import sys
from collections.abc import Callable, Iterator
from dataclasses import dataclass, field
from pathlib import Path
from typing import Literal, NamedTuple

# --------------------------------------------------------------------------------------------------
# [The model], [Limits], [Errors]


class Number(NamedTuple):
    """The exact decimal mantissa * 10^exponent in normal form. [Numbers]"""

    mantissa: int
    exponent: int


class Infinity(NamedTuple):
    """Plus or minus infinity, as a row limit or a column bound."""

    sign: int


ZERO, ONE = Number(0, 0), Number(1, 0)
MINUS, PLUS = Infinity(-1), Infinity(1)
Limit = Number | Infinity


class Column(NamedTuple):
    kind: str  # "continuous", "integer" or "semi"
    lower: Limit
    upper: Limit


@dataclass(frozen=True)
class Model:
    """[The model]. Rows and columns are in byte order of their names; coefficients are nonzero."""

    sense: str  # "minimize" or "maximize"
    objective: str
    constant: Number
    rows: dict[str, tuple[Limit, Limit]]  # name -> lower limit, upper limit
    columns: dict[str, Column]
    coefficients: dict[tuple[str, str], Number]  # (column, row or objective) -> number


@dataclass(frozen=True)
class Fault:
    """[Errors]: the one error of a rejected file. Line 0 is the whole file."""

    kind: str
    line: int
    name: str | None = None

    def __str__(self) -> str:
        where = f"line {self.line}" if self.line else "file"
        return f"{where}: {self.kind}" + (f" {self.name}" if self.name is not None else "")


@dataclass(frozen=True)
class NotLp:
    """[Names that are not legal in LP]: the first name of a model that is not legal in LP."""

    where: str  # "objective", "row" or "column"
    number: int | None = None  # from 0 in byte order

    def __str__(self) -> str:
        return self.where + (f" {self.number}" if self.number is not None else "") + ": NotLp"


NAME_BYTES = 255
LITERAL_BYTES = 255
DIGITS = 36
EXPONENTS = range(-500, 501)
LINE_BYTES = 1_048_576
FILE_BYTES = 1_073_741_824
INFINITE_EXPONENT = 20  # 10^20 and above is infinite as a given limit or bound
LAST_COUNT = 2**64 - 1  # where line numbers and the positions of LP rows stay

Kinds = set[str]  # the kinds that a line, or a token, makes; empty if it is in order


# --------------------------------------------------------------------------------------------------
# [Numbers]

LITERAL = re.compile(r"([+-]?)(?:([0-9]+)(?:\.([0-9]*))?|\.([0-9]+))(?:[eE]([+-]?[0-9]+))?")


def normal_form(mantissa: int, exponent: int) -> Number:
    """[Numbers]: m is not divisible by 10; zero is m = 0, e = 0."""
    if mantissa == 0:
        return ZERO
    digits = str(abs(mantissa))
    zeros = len(digits) - len(digits.rstrip("0"))
    return Number(mantissa // 10**zeros, exponent + zeros)


def too_many_digits(number: Number) -> bool:
    return len(str(abs(number.mantissa))) > DIGITS


def exponent_range(number: Number) -> bool:
    return number.exponent not in EXPONENTS


def within_the_limits_of_numbers(number: Number) -> bool:
    return not too_many_digits(number) and not exponent_range(number)


def number_literal(text: str) -> Number | str:
    """[Numbers]: the value of a literal, or the first kind that applies to it."""
    match = LITERAL.fullmatch(text)
    if not match:
        return "BadNumber"
    if len(text) > LITERAL_BYTES:
        return "LongNumber"
    sign, whole, after_whole, after_point, exponent = (part or "" for part in match.groups())
    fraction = after_whole or after_point
    value = normal_form(int(whole + fraction), int(exponent or "0") - len(fraction))
    if too_many_digits(value):
        return "TooManyDigits"
    if exponent_range(value):
        return "ExponentRange"
    return negated(value) if sign == "-" else value


def negated(number: Number) -> Number:
    return Number(-number.mantissa, number.exponent)


def magnitude(number: Number) -> Number:
    return Number(abs(number.mantissa), number.exponent)


def sum_of(a: Number, b: Number) -> Number:
    """The exact sum, in normal form; it may lie outside the limits of numbers."""
    exponent = min(a.exponent, b.exponent)
    of_a = a.mantissa * 10 ** (a.exponent - exponent)
    of_b = b.mantissa * 10 ** (b.exponent - exponent)
    return normal_form(of_a + of_b, exponent)


def difference(a: Number, b: Number) -> Number:
    return sum_of(a, negated(b))


def below(a: Limit, b: Limit) -> bool:
    """Whether a < b."""
    if isinstance(a, Number) and isinstance(b, Number):
        return difference(a, b).mantissa < 0
    return (a.sign if isinstance(a, Infinity) else 0) < (b.sign if isinstance(b, Infinity) else 0)


def infinite_magnitude(number: Number) -> bool:
    """Whether the absolute value is 10^20 or more. [Limits]"""
    return number != ZERO and len(str(abs(number.mantissa))) + number.exponent > INFINITE_EXPONENT


# --------------------------------------------------------------------------------------------------
# [Lines and bytes], for both formats


def lines_of(data: bytes) -> Iterator[tuple[int, str]]:
    """[Lines and bytes]: the lines and their numbers, without LF or CRLF; each byte is one character."""
    pieces = data.split(b"\n")
    last = pieces.pop()
    for number, piece in enumerate(pieces, start=1):
        yield min(number, LAST_COUNT), piece.removesuffix(b"\r").decode("latin-1")
    if last:
        yield min(len(pieces) + 1, LAST_COUNT), last.decode("latin-1")


ILLEGAL_BYTE = re.compile(r"[^ -~\t]")


def line_too_long(line: str) -> bool:
    return len(line) > LINE_BYTES


def bad_byte(text: str) -> bool:
    """[Lines and bytes]: outside comments the bytes are 32 to 126 and tab."""
    return ILLEGAL_BYTE.search(text) is not None


# --------------------------------------------------------------------------------------------------
# [MPS files]

KEYWORDS = {"NAME", "OBJSENSE", "OBJNAME", "ROWS", "COLUMNS", "RHS", "RANGES", "BOUNDS", "ENDATA"}
WORD_SECTIONS = {"OBJSENSE", "OBJNAME"}
SENSE_WORDS = {"MAX": "maximize", "MAXIMIZE": "maximize", "MIN": "minimize", "MINIMIZE": "minimize"}
MARKER = "'MARKER'"


def mps_fields(line: str) -> list[str]:
    """[Lines and bytes]: the fields are separated by runs of spaces and tabs."""
    return line.replace("\t", " ").split()


def unknown_keyword(keyword: str) -> str:
    """[Headers and their order]: the kind of a header that is no keyword of this format."""
    if keyword in {"QSECTION", "QMATRIX", "QUADOBJ", "QCMATRIX", "CSECTION"}:
        return "Quadratic"
    if keyword in {"SOS", "SOS1", "SOS2"}:
        return "Sos"
    return "Indicator" if keyword == "INDICATORS" else "UnknownSection"


def mps_name(name: str) -> Kinds:
    """[MPS names]: the kinds of names, where a name is declared."""
    kinds: Kinds = set()
    if len(name) > NAME_BYTES:
        kinds.add("NameLength")
    if name == MARKER:
        kinds.add("NameMarker")
    return kinds


def pairs_of(fields: list[str]) -> list[tuple[str, str]]:
    """[COLUMNS], [RHS and RANGES]: one or two pairs of a row and a number."""
    return list(zip(fields[0::2], fields[1::2]))


class MpsReader:
    """[MPS files], [Within an MPS line]: checks one line after the other, and declares what it says.

    Each method returns the kinds of its line. It may leave out a kind if it has one of less rank.
    After a line with an error the state is never used again, so it need not be undone.
    """

    def __init__(self) -> None:
        self.declared = Declared()
        self.seen: set[str] = set()
        self.section: str | None = None
        self.wants_word = False  # OBJSENSE or OBJNAME without its word yet
        self.objective_name: str | None = None  # the word of OBJNAME
        self.types: dict[str, str] = {}  # the rows as declared, the objective included
        self.rhs: dict[str, Number] = {}
        self.ranges: dict[str, Number] = {}
        self.column: str | None = None  # of the line just before, None after a marker line
        self.integer_part = False
        self.sets: dict[str, str] = {}  # section -> the set name of its first line

    # [Lines and bytes]

    def line(self, line: str) -> Kinds:
        if line_too_long(line):
            return {"LineTooLong"}
        if line.startswith("*"):
            return set()
        if bad_byte(line):
            return {"BadByte"}
        fields = mps_fields(line)
        if not fields:
            return set()
        return self.data_line(fields) if line[0] in " \t" else self.header(fields)

    def ended(self) -> bool:
        return "ENDATA" in self.seen

    # [Headers and their order]

    def header(self, fields: list[str]) -> Kinds:
        keyword = fields[0]
        if keyword not in KEYWORDS:
            return {unknown_keyword(keyword)}
        if self.wants_word:
            return {"SectionOrder"}
        if keyword in self.seen:
            return {"SectionRepeated"}
        if not self.in_order(keyword):
            return {"SectionOrder"}
        if keyword != "NAME" and len(fields) > (2 if keyword in WORD_SECTIONS else 1):
            return {"FieldCount"}
        self.seen.add(keyword)
        self.section = keyword
        if keyword == "COLUMNS":
            return self.columns_header()
        if keyword in WORD_SECTIONS:
            self.wants_word = True
            return self.word_line(fields[1:]) if len(fields) == 2 else set()
        return set()

    def in_order(self, keyword: str) -> bool:
        """[Headers and their order], the table: whether a section not seen yet may come here."""
        if keyword == "NAME":
            return not self.seen
        if keyword in WORD_SECTIONS:
            return "ROWS" not in self.seen
        if keyword == "ROWS":
            return True
        return ("ROWS" if keyword == "COLUMNS" else "COLUMNS") in self.seen

    def data_line(self, fields: list[str]) -> Kinds:
        """[Headers and their order]: a data line, in the section that it is in."""
        if self.section in WORD_SECTIONS and self.wants_word:
            return self.word_line(fields)
        rule = {
            "ROWS": self.rows_line,
            "COLUMNS": self.columns_line,
            "RHS": self.rhs_line,
            "RANGES": self.ranges_line,
            "BOUNDS": self.bounds_line,
        }.get(self.section)
        return {"SectionOrder"} if rule is None else rule(fields)

    # [OBJSENSE], [OBJNAME]

    def word_line(self, fields: list[str]) -> Kinds:
        """The word, on the header's line or on the data line after it."""
        if len(fields) != 1:
            return {"FieldCount"}
        self.wants_word = False
        if self.section == "OBJNAME":
            self.objective_name = fields[0]
            return set()
        if fields[0] not in SENSE_WORDS:
            return {"BadType"}
        self.declared.sense = SENSE_WORDS[fields[0]]
        return set()

    # [ROWS]

    def rows_line(self, fields: list[str]) -> Kinds:
        if len(fields) != 2:
            return {"FieldCount"}
        type_, name = fields
        kinds = mps_name(name)
        if type_ not in {"N", "L", "G", "E"}:
            kinds.add("BadType")
        if name in self.types:
            kinds.add("DuplicateRow")
        self.types[name] = type_
        return kinds

    def columns_header(self) -> Kinds:
        """[ROWS], [OBJNAME]: the COLUMNS header finds the objective among the N rows."""
        free = [name for name, type_ in self.types.items() if type_ == "N"]
        if self.objective_name is not None:
            if self.types.get(self.objective_name) != "N":
                return {"UnknownRow"}
            self.declared.objective = self.objective_name
        elif free:
            self.declared.objective = free[0]
        elif "obj" in self.types:
            return {"DuplicateRow"}
        else:
            self.types["obj"] = "N"
        return set()

    # [COLUMNS]

    def columns_line(self, fields: list[str]) -> Kinds:
        if len(fields) >= 2 and fields[1] == MARKER:
            return self.marker_line(fields)
        if len(fields) not in (3, 5):
            return {"FieldCount"}
        column = fields[0]
        kinds = mps_name(column)
        if column in self.declared.columns and column != self.column:
            kinds.add("ColumnSplit")
        self.column = column
        self.declared.columns.setdefault(column, DeclaredColumn(marked=self.integer_part))
        for row, literal in pairs_of(fields[1:]):
            kinds |= self.coefficient(column, row, literal)
        return kinds

    def coefficient(self, column: str, row: str, literal: str) -> Kinds:
        number = number_literal(literal)
        if isinstance(number, str):
            return {number}
        if row not in self.types:
            return {"UnknownRow"}
        if (column, row) in self.declared.coefficients:
            return {"DuplicateEntry"}
        self.declared.coefficients[column, row] = number
        return set()

    def marker_line(self, fields: list[str]) -> Kinds:
        """[COLUMNS], marker lines."""
        third = fields[2] if len(fields) > 2 else ""
        if third in {"'SOSORG'", "'SOSEND'"}:
            return {"Sos"}
        if len(fields) != 3:
            return {"FieldCount"}
        if third != ("'INTEND'" if self.integer_part else "'INTORG'"):
            return {"BadMarker"}
        self.integer_part = not self.integer_part
        self.column = None
        return set()

    # [RHS and RANGES], [Set names]

    def set_and_pairs(self, fields: list[str]) -> tuple[Kinds, list[tuple[str, str]]]:
        """[RHS and RANGES]: two or four fields without a set name, three or five with one."""
        if not 2 <= len(fields) <= 5:
            return {"FieldCount"}, []
        names = len(fields) % 2
        return self.set_name(fields[0] if names else ""), pairs_of(fields[names:])

    def set_name(self, name: str) -> Kinds:
        """[Set names]: all lines of a section carry the set name of its first line."""
        return {"SecondSet"} if self.sets.setdefault(self.section, name) != name else set()

    def rhs_line(self, fields: list[str]) -> Kinds:
        kinds, pairs = self.set_and_pairs(fields)
        for row, literal in pairs:
            kinds |= self.right_hand_side(row, literal)
        return kinds

    def right_hand_side(self, row: str, literal: str) -> Kinds:
        number = number_literal(literal)
        if isinstance(number, str):
            return {number}
        if row not in self.types:
            return {"UnknownRow"}
        if self.types[row] == "N" and row != self.declared.objective:
            return set()
        if row in self.rhs:
            return {"DuplicateRhs"}
        self.rhs[row] = number
        return set()

    def ranges_line(self, fields: list[str]) -> Kinds:
        kinds, pairs = self.set_and_pairs(fields)
        for row, literal in pairs:
            kinds |= self.range(row, literal)
        return kinds

    def range(self, row: str, literal: str) -> Kinds:
        number = number_literal(literal)
        if isinstance(number, str):
            return {number}
        if row not in self.types:
            return {"UnknownRow"}
        kinds: Kinds = set()
        if row in self.ranges:
            kinds.add("DuplicateRange")
        if self.types[row] == "N":
            kinds.add("RangeOnFree")
        if infinite_magnitude(number):
            kinds.add("InfiniteValue")
        self.ranges[row] = number  # also if it is rejected: [Within an MPS line], two pairs of one line
        return kinds

    # [BOUNDS]

    def bounds_line(self, fields: list[str]) -> Kinds:
        type_ = fields[0]
        if type_ in {"LO", "UP", "FX", "LI", "UI", "SC"}:
            if len(fields) not in (3, 4):
                return {"FieldCount"}
            set_name, column, literal = ["", *fields[1:]][-3:]
            number = number_literal(literal)
        elif type_ in {"FR", "MI", "PL", "BV"}:
            if len(fields) not in (2, 3, 4):
                return {"FieldCount"}
            set_name, column = ["", *fields[1:]][:2] if len(fields) == 2 else fields[1:3]
            number = ZERO
        else:
            return {"BadType"}
        kinds = self.set_name(set_name)
        if isinstance(number, str):
            kinds.add(number)
        if column not in self.declared.columns:
            return kinds | {"UnknownColumn"}
        return kinds | self.bound(type_, self.declared.columns[column], number)

    def bound(self, type_: str, column: DeclaredColumn, number: Number | str) -> Kinds:
        """[BOUNDS], the second table."""
        kinds: Kinds = set()
        column.integer |= type_ in {"BV", "LI", "UI"}
        column.semi |= type_ == "SC"
        if semi_continuous(column):
            kinds.add("SemiContinuous")
        if isinstance(number, str):
            return kinds
        value = given(number)
        lower, upper = {
            "LO": (value, None),
            "UP": (None, value),
            "FX": (value, value),
            "FR": (MINUS, PLUS),
            "MI": (MINUS, None),
            "PL": (None, PLUS),
            "BV": (ZERO, ONE),
            "LI": (value, None),
            "UI": (None, value),
            "SC": (None, value),
        }[type_]
        return kinds | declare_sides(column, lower, upper)

    # [RHS and RANGES], when all lines are read

    def all_declared(self) -> Declared:
        declared = self.declared
        for name, type_ in self.types.items():
            if name != declared.objective:
                declared.rows[name] = DeclaredRow(type_, given(self.rhs.get(name, ZERO)), self.ranges.get(name))
        declared.constant = negated(self.rhs.get(declared.objective, ZERO))
        return declared


# --------------------------------------------------------------------------------------------------
# [Rows, bounds and defaults in both formats]


@dataclass
class DeclaredRow:
    """An MPS row has a type, a right-hand side and an optional range; an LP row states its limits."""

    type: str = ""  # "N", "L", "G" or "E" in MPS
    rhs: Limit = ZERO
    range: Number | None = None
    stated: tuple[Limit, Limit] = (MINUS, PLUS)


@dataclass
class DeclaredColumn:
    lower: Limit | None = None  # the declared side, None if it is not declared
    upper: Limit | None = None
    marked: bool = False
    integer: bool = False
    binary: bool = False
    semi: bool = False


@dataclass
class Declared:
    """What the lines of a file declare."""

    sense: str = "minimize"
    objective: str = "obj"
    constant: Number = ZERO
    rows: dict[str, DeclaredRow] = field(default_factory=dict)
    columns: dict[str, DeclaredColumn] = field(default_factory=dict)
    coefficients: dict[tuple[str, str], Number] = field(default_factory=dict)  # zeros included


def given(number: Number) -> Limit:
    """[Infinity]: a given limit or bound of magnitude 10^20 or more is infinite, by its sign."""
    if infinite_magnitude(number):
        return PLUS if number.mantissa > 0 else MINUS
    return number


def infinite_value(lower: Limit | None, upper: Limit | None) -> bool:
    """[What rows must satisfy], [Column bounds]: a lower side of plus, an upper side of minus infinity."""
    return lower == PLUS or upper == MINUS


def limit_given_by_range(row: DeclaredRow) -> Number | None:
    """[Rows by type]: the limit that the range computes, None if it computes none."""
    if row.range is None or isinstance(row.rhs, Infinity):
        return None
    if row.type == "L" or (row.type == "E" and row.range.mantissa < 0):
        return difference(row.rhs, magnitude(row.range))
    if row.type == "G" or (row.type == "E" and row.range.mantissa > 0):
        return sum_of(row.rhs, magnitude(row.range))
    return None


def row_limits(row: DeclaredRow) -> tuple[Limit, Limit]:
    """[Rows by type]: the lower and the upper limit."""
    if row.type == "":
        return row.stated
    if row.type == "N":
        return MINUS, PLUS
    computed = limit_given_by_range(row)
    if row.type == "L":
        return (MINUS if computed is None else computed), row.rhs
    if row.type == "G":
        return row.rhs, (PLUS if computed is None else computed)
    if computed is None:
        return row.rhs, row.rhs
    return (computed, row.rhs) if row.range.mantissa < 0 else (row.rhs, computed)


def upper_minus_lower(row: DeclaredRow) -> Number | None:
    """[What rows must satisfy]: the difference of the limits if both are finite."""
    lower, upper = row_limits(row)
    if isinstance(lower, Infinity) or isinstance(upper, Infinity):
        return None
    return difference(upper, lower)


def infinite_limit(row: DeclaredRow) -> bool:
    """[What rows must satisfy], MPS: the right-hand side leaves nothing, or is infinite beside a range."""
    if not isinstance(row.rhs, Infinity):
        return False
    return row.type == "E" or row.range is not None or row.rhs == {"L": MINUS, "G": PLUS}.get(row.type)


def computed_numbers(row: DeclaredRow) -> list[Number]:
    """The limit that a range gives, and upper minus lower."""
    return [n for n in (limit_given_by_range(row), upper_minus_lower(row)) if n is not None]


def range_inexact(row: DeclaredRow) -> bool:
    return any(not within_the_limits_of_numbers(number) for number in computed_numbers(row))


def limit_too_large(row: DeclaredRow) -> bool:
    return any(infinite_magnitude(number) for number in computed_numbers(row))


def limits_crossed(row: DeclaredRow) -> bool:
    between = upper_minus_lower(row)
    return between is not None and between.mantissa < 0


def column_bounds(column: DeclaredColumn) -> tuple[Limit, Limit]:
    """[Column bounds]: the declared sides and their defaults."""
    lower = ZERO if column.lower is None else column.lower
    if column.upper is not None:
        return lower, column.upper
    if column.binary or (column.marked and column.lower is None):
        return lower, ONE
    return lower, PLUS


def negative_upper(column: DeclaredColumn) -> bool:
    return column.lower is None and below(column_bounds(column)[1], ZERO)


def bounds_crossed(column: DeclaredColumn) -> bool:
    lower, upper = column_bounds(column)
    return below(upper, lower)


def binary_bounds(column: DeclaredColumn) -> bool:
    lower, upper = column_bounds(column)
    return column.binary and (below(lower, ZERO) or below(ONE, upper))


def semi_bounds(column: DeclaredColumn) -> bool:
    lower, upper = column_bounds(column)
    return column.semi and (below(lower, ZERO) or upper == PLUS or not below(ZERO, upper))


def declare_sides(column: DeclaredColumn, lower: Limit | None, upper: Limit | None) -> Kinds:
    """[Duplicates], [Column bounds]: declares the sides that are not None."""
    kinds: Kinds = set()
    if lower is not None and column.lower is not None or upper is not None and column.upper is not None:
        kinds.add("DuplicateBound")
    if infinite_value(lower, upper):
        kinds.add("InfiniteValue")
    column.lower = column.lower if lower is None else lower
    column.upper = column.upper if upper is None else upper
    return kinds


def column_kind(column: DeclaredColumn) -> str:
    """[Column bounds]: integer, semi-continuous or continuous."""
    if column.semi:
        return "semi"
    return "integer" if column.marked or column.integer or column.binary else "continuous"


def semi_continuous(column: DeclaredColumn) -> bool:
    """[Column bounds]: no column is both integer and semi-continuous."""
    return column.semi and (column.marked or column.integer or column.binary)


def model_of(declared: Declared) -> Model:
    """[The model]: what the file defines, in byte order, without its zero coefficients."""
    return Model(
        declared.sense,
        declared.objective,
        declared.constant,
        {name: row_limits(row) for name, row in sorted(declared.rows.items())},
        {name: Column(column_kind(c), *column_bounds(c)) for name, c in sorted(declared.columns.items())},
        {pair: n for pair, n in sorted(declared.coefficients.items()) if n != ZERO},
    )


# --------------------------------------------------------------------------------------------------
# [LP files]: tokens

SYMBOLS = "!\"#$%&()/,.;?@_'`{}|~"
LETTERS = "A-Za-z"
WORD_START = "[" + LETTERS + re.escape(SYMBOLS.replace(".", "")) + "]"
WORD_REST = "[" + LETTERS + "0-9" + re.escape(SYMBOLS) + "]"
WORD = re.compile(f"{WORD_START}{WORD_REST}*")
TOKEN = re.compile(
    r"(?P<number>(?:[0-9]+(?:\.[0-9]*)?|\.[0-9]+)(?:[eE][+-]?[0-9]+)?)"
    f"|(?P<word>{WORD.pattern})"
    r"|(?P<relation><=|=<|>=|=>|[<>=])"
    r"|(?P<rejected>::|->|[\[\]^*])"
    r"|(?P<sign>[+-])"
    r"|(?P<colon>:)"
    r"|(?P<period>\.)"
)

# [Reserved words]: the first word of each -> its meaning, which is the kind of its token.
RESERVED = {
    word: meaning
    for meaning, words in {
        "min": "min minimize minimum",
        "max": "max maximize maximum",
        "rows": "subject such st s.t. st.",
        "bounds": "bound bounds",
        "generals": "general generals gen integer integers int",
        "binaries": "binary binaries bin",
        "end": "end",
        "infinity": "inf infinity",
        "free": "free",
        "semis": "semi semis",
        "sos": "sos sos1 sos2",
    }.items()
    for word in words.split()
}
FOLLOWED_BY = {"subject": "to", "such": "that"}
SECTIONS = {"min", "max", "rows", "bounds", "generals", "binaries", "semis", "end"}
RELATIONS = {"<": "<", "<=": "<", "=<": "<", ">": ">", ">=": ">", "=>": ">", "=": "="}
SIGNS = {"+", "-"}


class Token(NamedTuple):
    """The kind is the meaning of a reserved word, "name", "number", a relation's family, or the text."""

    kind: str
    text: str
    line: int
    value: Number = ZERO  # of a number


def like_exponent(word: str) -> bool:
    """[LP names]: e or E, or a word that begins with e or E and a digit."""
    return word[0] in "eE" and (len(word) == 1 or word[1] in "0123456789")


def lp_word(word: str) -> Kinds:
    """[LP names], [Within an LP line]: the kinds of a word by itself."""
    meaning = RESERVED.get(word.lower())
    if meaning is not None:
        return {"Sos"} if meaning == "sos" else set()
    kinds = mps_name(word)
    if like_exponent(word):
        kinds.add("NameLikeExponent")
    return kinds


def rejected_token(text: str) -> str:
    """[Tokens]: the tokens that are rejected wherever they are."""
    return {"::": "Sos", "->": "Indicator"}.get(text, "Quadratic")


def lp_token(sort: str, text: str, line: int) -> Token | Kinds:
    """[Within an LP line], first the line by itself: one token, or its kinds."""
    if sort == "rejected":
        return {rejected_token(text)}
    if sort == "number":
        number = number_literal(text)
        return {number} if isinstance(number, str) else Token("number", text, line, number)
    if sort == "word":
        return lp_word(text) or Token(RESERVED.get(text.lower(), "name"), text, line)
    return Token(RELATIONS.get(text, text), text, line)


def without_comment(line: str) -> str:
    """[Lines, bytes and comments]: a backslash begins a comment to the end of the line."""
    return line.partition("\\")[0]


def lp_line(number: int, line: str) -> list[Token] | Kinds:
    """[Within an LP line], first the line by itself: its tokens, or its kinds."""
    if line_too_long(line):
        return {"LineTooLong"}
    text = without_comment(line)
    if bad_byte(text):
        return {"BadByte"}
    tokens: list[Token] = []
    kinds: Kinds = set()
    for match in TOKEN.finditer(text):
        token = lp_token(match.lastgroup, match[0], number)
        if isinstance(token, Token):
            tokens.append(token)
        else:
            kinds |= token
    return kinds or tokens


def lp_tokens(data: bytes) -> tuple[list[Token], Fault | None]:
    """The tokens of all lines before the first line that has an error by itself, and that error."""
    tokens: list[Token] = []
    for number, line in lines_of(data):
        found = lp_line(number, line)
        if isinstance(found, set):
            return tokens, Fault(least(found), number)
        tokens += found
    return tokens, None


# --------------------------------------------------------------------------------------------------
# [LP files]: the grammar over the tokens


class Rejected(Exception):
    """A token makes an error."""

    def __init__(self, kinds: Kinds, token: Token) -> None:
        self.fault = Fault(least(kinds), token.line)


class OutOfTokens(Exception):
    """The tokens end before the file does."""


class LpReader:
    """[Grammar], [Within an LP line], then from left to right: one method for each rule."""

    def __init__(self, tokens: list[Token]) -> None:
        self.tokens = tokens
        self.at = 0
        self.seen: set[str] = set()
        self.declared = Declared()
        self.has_constant = False
        self.position = 0  # of the row, among all rows

    # The next token

    def kind_ahead(self, places: int) -> str | None:
        """The kind of a token ahead, which is not checked."""
        place = self.at + places
        return self.tokens[place].kind if place < len(self.tokens) else None

    def next(self) -> Token:
        """The next token, which is not taken. A section's word is checked wherever it is."""
        if self.at == len(self.tokens):
            raise OutOfTokens
        token = self.tokens[self.at]
        if token.kind in SECTIONS:
            self.section_word(token)
        return token

    def take(self) -> Token:
        token = self.next()
        self.at += 1
        return token

    def take_kind(self, *kinds: str) -> Token:
        """Takes the next token if it has one of these kinds; else it is BadToken."""
        token = self.next()
        if token.kind not in kinds:
            raise Rejected({"BadToken"}, token)
        return self.take()

    # Section words

    def section_word(self, token: Token) -> None:
        """[Within an LP line]: SectionRepeated if the section was seen, else SectionOrder."""
        section = self.section_of(token)
        if section in self.seen:
            raise Rejected({"SectionRepeated"}, token)
        if not self.in_order(section):
            raise Rejected({"SectionOrder"}, token)

    def section_of(self, token: Token) -> str:
        return "objective" if token.kind in {"min", "max"} else token.kind

    def in_order(self, section: str) -> bool:
        """[Grammar], the file: the objective, the rows, the other sections in any order, end."""
        if section == "objective":
            return not self.seen
        if section == "rows":
            return self.seen == {"objective"}
        return "objective" in self.seen and "end" not in self.seen

    def open(self, *kinds: str) -> Token:
        """Takes a section's first word; the section is seen from there on."""
        word = self.take_kind(*kinds)
        self.seen.add(self.section_of(word))
        return word

    def second_word(self, text: str) -> None:
        """[Reserved words]: to after subject, that after such, continuous after semi and a dash."""
        word = self.next()
        if word.kind != "name" or word.text.lower() != text:
            raise Rejected({"BadToken"}, word)
        self.take()

    # file = objective [ row section ] { bounds | generals | binaries | semis } end

    def file(self) -> None:
        self.objective()
        while (section := self.next().kind) != "end":
            {
                "rows": self.row_section,
                "bounds": self.bounds,
                "generals": self.generals,
                "binaries": self.binaries,
                "semis": self.semis,
            }[section]()
        self.end()

    def end(self) -> None:
        """[Grammar], the file: end is the last token of its line."""
        word = self.open("end")
        if self.at < len(self.tokens) and self.tokens[self.at].line == word.line:
            raise Rejected({"BadToken"}, self.next())

    # objective = minimise word or maximise word [ name : ] { item }

    def objective(self) -> None:
        word = self.open("min", "max")
        self.declared.sense = {"min": "minimize", "max": "maximize"}[word.kind]
        self.declared.objective = self.label() or "obj"
        terms: dict[str, Number] = {}
        first = True
        while self.next().kind not in SECTIONS:
            number, name = self.item(first)
            if name is None:
                self.constant(number)
            else:
                self.term(terms, number, name)
            first = False
        self.coefficients(self.declared.objective, terms)

    def label(self) -> str | None:
        """A name before a colon."""
        if self.kind_ahead(0) != "name" or self.kind_ahead(1) != ":":
            return None
        name = self.take().text
        self.take()
        return name

    # item = { sign } [ number ] name | { sign } number

    def item(self, first: bool) -> tuple[Number, Token | None]:
        """[Grammar], items: the number and the name, which is None if no name follows the number."""
        if not first and self.next().kind not in SIGNS:
            raise Rejected({"BadToken"}, self.next())
        sign = self.signs()
        number = ONE
        if self.next().kind == "number":
            number = self.take().value
            if self.next().kind != "name":
                return Number(sign * number.mantissa, number.exponent), None
        return Number(sign * number.mantissa, number.exponent), self.take_kind("name")

    def signs(self) -> int:
        """[Grammar], items: several signs are multiplied."""
        sign = 1
        while self.next().kind in SIGNS:
            sign *= self.sign()
        return sign

    def sign(self) -> int:
        return -1 if self.take_kind("+", "-").kind == "-" else 1

    def constant(self, number: Number) -> None:
        """[Within an LP line], the table of the next token: a number in the objective."""
        after = self.next()
        if after.kind not in SIGNS | SECTIONS:
            raise Rejected({"BadToken"}, after)
        if self.has_constant:
            raise Rejected({"DuplicateRhs"}, after)
        self.has_constant = True
        self.declared.constant = number

    def term(self, terms: dict[str, Number], number: Number, name: Token) -> None:
        """[Grammar], columns: at most one term of a column in one row or in the objective."""
        if name.text in terms:
            raise Rejected({"DuplicateEntry"}, name)
        terms[name.text] = number
        self.column(name)

    def column(self, name: Token) -> DeclaredColumn:
        """[Grammar], columns: every such name is a column."""
        return self.declared.columns.setdefault(name.text, DeclaredColumn())

    def coefficients(self, row: str, terms: dict[str, Number]) -> None:
        for column, number in terms.items():
            self.declared.coefficients[column, row] = number

    # row section = opening words { row }

    def row_section(self) -> None:
        word = self.open("rows").text.lower()
        if word in FOLLOWED_BY:
            self.second_word(FOLLOWED_BY[word])
        while self.next().kind not in SECTIONS:
            self.row()

    # row = [ name : ] terms relation side
    #     | [ name : ] side < terms < side
    #     | [ name : ] side > terms > side

    def row(self) -> None:
        self.position = min(self.position + 1, LAST_COUNT)
        name = self.label() or f"c{self.position}"
        lower, upper = MINUS, PLUS
        first_relation = None
        if self.left_side_ahead():
            left, _ = self.side()
            first_relation = self.relation()
            lower, upper = limits_of_left_side(left, first_relation.kind)
        terms = self.terms()
        relation = self.relation()
        if first_relation is not None:
            self.same_family(first_relation, relation)
        right, last = self.side()
        lower, upper = limits_of_right_side(relation.kind, right, lower, upper)
        self.complete_row(name, terms, lower, upper, last)

    def left_side_ahead(self) -> bool:
        """[Within an LP line], the table of the next token: at most one sign, a number, a relation."""
        places = 1 if self.kind_ahead(0) in SIGNS else 0
        if self.kind_ahead(places) == "number":
            return self.kind_ahead(places + 1) in RELATIONS.values()
        return self.kind_ahead(places) == "infinity"

    def terms(self) -> dict[str, Number]:
        """terms = one or more terms"""
        terms: dict[str, Number] = {}
        while not terms or self.next().kind not in RELATIONS.values():
            number, name = self.item(first=not terms)
            if name is None:
                self.constant_in_row()
            self.term(terms, number, name)
        return terms

    def constant_in_row(self) -> None:
        """[Within an LP line], the table of the next token: a number among the terms of a row."""
        after = self.next()
        if after.kind in SIGNS or after.kind in RELATIONS.values():
            raise Rejected({"ConstantInRow"}, after)
        raise Rejected({"BadToken"}, after)

    def relation(self) -> Token:
        return self.take_kind("<", ">", "=")

    def same_family(self, first: Token, second: Token) -> None:
        """[The order of the kinds]: after = every second relation is MixedSenses."""
        if first.kind == "=" or second.kind != first.kind:
            raise Rejected({"MixedSenses"}, second)

    def side(self) -> tuple[Limit, Token]:
        """[Grammar]: an optional sign and then a number, inf or infinity; and its last token."""
        sign = self.sign() if self.next().kind in SIGNS else 1
        last = self.take_kind("number", "infinity")
        if last.kind == "infinity":
            return Infinity(sign), last
        return given(Number(sign * last.value.mantissa, last.value.exponent)), last

    def complete_row(self, name: str, terms: dict[str, Number], lower: Limit, upper: Limit, last: Token) -> None:
        """[Within an LP line]: DuplicateRow and InfiniteValue at the row's last token."""
        kinds: Kinds = set()
        if name in self.declared.rows or name == self.declared.objective:
            kinds.add("DuplicateRow")
        if infinite_value(lower, upper):
            kinds.add("InfiniteValue")
        if kinds:
            raise Rejected(kinds, last)
        self.declared.rows[name] = DeclaredRow(stated=(lower, upper))
        self.coefficients(name, terms)

    # bounds = opening word { bound }

    def bounds(self) -> None:
        self.open("bounds")
        while self.next().kind not in SECTIONS:
            self.bound()

    # bound = name relation side | name free | side relation name | side < name < side | side > name > side

    def bound(self) -> None:
        if self.next().kind == "name":
            name = self.take()
            if self.next().kind == "free":
                self.declare(name, MINUS, PLUS, self.take())
            else:
                self.right_bound(name, self.relation())
        else:
            left, _ = self.side()
            relation = self.relation()
            name = self.take_kind("name")
            self.declare(name, *sides_of_left(left, relation.kind), name)
            if self.next().kind in RELATIONS.values():
                self.same_family(relation, self.next())
                self.right_bound(name, self.relation())

    def right_bound(self, name: Token, relation: Token) -> None:
        value, last = self.side()
        self.declare(name, *sides_of_right(relation.kind, value), last)

    def declare(self, name: Token, lower: Limit | None, upper: Limit | None, last: Token) -> None:
        """[Within an LP line]: DuplicateBound and InfiniteValue at the token that completes the side."""
        kinds = declare_sides(self.column(name), lower, upper)
        if kinds:
            raise Rejected(kinds, last)

    # generals = opening word { name }, binaries = opening word { name }, semis = opening words { name }

    def generals(self) -> None:
        self.open("generals")
        for name in self.names():
            self.column(name).integer = True
            self.one_kind(name)

    def binaries(self) -> None:
        self.open("binaries")
        for name in self.names():
            self.column(name).binary = True
            self.one_kind(name)

    def semis(self) -> None:
        word = self.open("semis")
        if word.text.lower() == "semi" and self.next().kind == "-":
            self.take()
            self.second_word("continuous")
        for name in self.names():
            self.column(name).semi = True
            self.one_kind(name)

    def names(self) -> Iterator[Token]:
        while self.next().kind not in SECTIONS:
            yield self.take_kind("name")

    def one_kind(self, name: Token) -> None:
        """[Grammar]: a column both integer and semi-continuous, at the later of the two names."""
        if semi_continuous(self.column(name)):
            raise Rejected({"SemiContinuous"}, name)


def sides_of_right(relation: str, value: Limit) -> tuple[Limit | None, Limit | None]:
    """[Grammar], bounds: the lower and the upper side that `x relation value` declares."""
    return (None if relation == "<" else value), (None if relation == ">" else value)


def sides_of_left(value: Limit, relation: str) -> tuple[Limit | None, Limit | None]:
    """[Grammar], bounds: the same for `value relation x`."""
    return sides_of_right({"<": ">", ">": "<", "=": "="}[relation], value)


def limits_of_right_side(relation: str, value: Limit, lower: Limit, upper: Limit) -> tuple[Limit, Limit]:
    """[Grammar], rows: the limits after `terms relation value`."""
    declared_lower, declared_upper = sides_of_right(relation, value)
    return (lower if declared_lower is None else declared_lower, upper if declared_upper is None else declared_upper)


def limits_of_left_side(value: Limit, relation: str) -> tuple[Limit, Limit]:
    """[Grammar], rows: the limits after `value relation`; no row is completed after `value =`."""
    lower, upper = sides_of_left(value, relation)
    return (MINUS if lower is None else lower), (PLUS if upper is None else upper)


# --------------------------------------------------------------------------------------------------
# [Canonical MPS]


def entries(model: Model, place: int) -> dict[str, list[tuple[str, Number]]]:
    """The coefficients by column (place 0) or by row (place 1), each list in byte order."""
    found: dict[str, list[tuple[str, Number]]] = {}
    for pair, number in model.coefficients.items():
        found.setdefault(pair[place], []).append((pair[1 - place], number))
    return found


def row_form(lower: Limit, upper: Limit) -> str:
    """[Canonical MPS], rows: E, L, G, N, or R for a ranged row."""
    if lower == MINUS:
        return "N" if upper == PLUS else "L"
    if upper == PLUS:
        return "G"
    return "E" if lower == upper else "R"


def mps_rhs_of_row(lower: Limit, upper: Limit) -> Number:
    return {"E": upper, "L": upper, "G": lower, "R": lower, "N": ZERO}[row_form(lower, upper)]


def mps_column_lines(model: Model, column: str, entries_of: list[tuple[str, Number]]) -> Iterator[str]:
    """[Canonical MPS], columns: the objective first, then the rows."""
    if not entries_of:
        yield f"    {column}  {model.objective}  0"
    for row, number in sorted(entries_of, key=lambda entry: entry[0] != model.objective):
        yield f"    {column}  {row}  {number_text(number)}"


def mps_bound_lines(name: str, column: Column) -> Iterator[str]:
    """[Canonical MPS], bounds: both tables."""
    kind, lower, upper = column
    if kind == "semi":
        if lower != ZERO:
            yield f" LO  BND  {name}  {number_text(lower)}"
        yield f" SC  BND  {name}  {number_text(upper)}"
    elif lower == upper:
        yield f" FX  BND  {name}  {number_text(lower)}"
    elif (lower, upper) == (MINUS, PLUS):
        yield f" FR  BND  {name}"
    else:
        if lower == MINUS:
            yield f" MI  BND  {name}"
        elif lower != ZERO:
            yield f" LO  BND  {name}  {number_text(lower)}"
        if upper != PLUS:
            yield f" UP  BND  {name}  {number_text(upper)}"
        elif kind == "integer":
            yield f" PL  BND  {name}"


def part(header: str, lines: list[str]) -> list[str]:
    """A header and its lines if there are lines."""
    return [header, *lines] if lines else []


def canonical_mps(model: Model) -> list[str]:
    """[Canonical MPS], the table of the parts."""
    by_column = entries(model, 0)
    ranged = {name: limits for name, limits in model.rows.items() if row_form(*limits) == "R"}
    rhs = {model.objective: negated(model.constant)}
    rhs.update((name, mps_rhs_of_row(*limits)) for name, limits in model.rows.items())

    def column_lines(integer: bool) -> list[str]:
        return [
            line
            for name, column in model.columns.items()
            if (column.kind == "integer") == integer
            for line in mps_column_lines(model, name, by_column.get(name, []))
        ]

    lines = ["NAME"]
    lines += part("OBJSENSE", ["    MAX"] if model.sense == "maximize" else [])
    lines += ["ROWS", f" N  {model.objective}"]
    lines += [f" {row_form(*limits).replace('R', 'G')}  {name}" for name, limits in model.rows.items()]
    lines += ["COLUMNS", *column_lines(integer=False)]
    if integers := column_lines(integer=True):
        lines += ["    MARKER  'MARKER'  'INTORG'", *integers, "    MARKER  'MARKER'  'INTEND'"]
    lines += part("RHS", [f"    RHS  {name}  {number_text(n)}" for name, n in rhs.items() if n != ZERO])
    lines += part("RANGES", [f"    RNG  {name}  {number_text(difference(u, l))}" for name, (l, u) in ranged.items()])
    lines += part("BOUNDS", [line for item in model.columns.items() for line in mps_bound_lines(*item)])
    lines += ["ENDATA"]
    return lines


# --------------------------------------------------------------------------------------------------
# [Canonical LP]


def is_lp_name(name: str) -> bool:
    """[LP names]: the five points."""
    return (
        len(name) <= NAME_BYTES
        and WORD.fullmatch(name) is not None
        and not like_exponent(name)
        and name != MARKER
        and name.lower() not in RESERVED
    )


def first_name_not_legal(model: Model) -> NotLp | None:
    """[Names that are not legal in LP]: the objective; else the least row; else the least column."""
    if not is_lp_name(model.objective):
        return NotLp("objective")
    for where, names in (("row", model.rows), ("column", model.columns)):
        for number, name in enumerate(names):
            if not is_lp_name(name):
                return NotLp(where, number)
    return None


def signed_text(number: Number) -> str:
    """A sign, a space and the absolute value, as in a term line and the constant."""
    return f"{'-' if number.mantissa < 0 else '+'} {number_text(magnitude(number))}"


def term_line(name: str, number: Number) -> str:
    return f"  {signed_text(number)} {name}"


def lp_row_lines(name: str, limits: tuple[Limit, Limit], terms: list[tuple[str, Number]], first: str) -> list[str]:
    """[Canonical LP], a row: its label, its left side, its terms and its last line."""
    lower, upper = limits
    form = row_form(lower, upper)
    lines = [f" {name}:"]
    if form == "R":
        lines.append(f"  {number_text(lower)} <=")
    lines += [term_line(column, number) for column, number in terms or [(first, ZERO)]]
    if form == "N":
        return [*lines, "  >= -1e20"]
    relation, value = {"E": ("=", upper), "L": ("<=", upper), "G": (">=", lower), "R": ("<=", upper)}[form]
    return [*lines, f"  {relation} {number_text(value)}"]


def lp_bound_lines(name: str, column: Column) -> list[str]:
    """[Canonical LP], bounds."""
    _, lower, upper = column
    if lower == upper:
        return [f" {name} = {number_text(lower)}"]
    if lower == MINUS:
        return [f" {name} free" if upper == PLUS else f" -infinity <= {name} <= {number_text(upper)}"]
    if upper != PLUS:
        return [f" {number_text(lower)} <= {name} <= {number_text(upper)}"]
    return [f" {name} >= {number_text(lower)}"] if lower != ZERO else []


def canonical_lp(model: Model) -> list[str] | NotLp:
    """[Canonical LP], the table of the parts."""
    not_lp = first_name_not_legal(model)
    if not_lp is not None:
        return not_lp
    by_row, by_column = entries(model, 1), entries(model, 0)
    in_objective = dict(by_row.get(model.objective, []))
    in_objective.update((name, ZERO) for name in model.columns if name not in by_column)
    lines = ["Minimize" if model.sense == "minimize" else "Maximize", f" {model.objective}:"]
    lines += [term_line(name, number) for name, number in sorted(in_objective.items())]
    if model.constant != ZERO:
        lines.append(f"  {signed_text(model.constant)}")
    lines.append("Subject To")
    for name, limits in model.rows.items():
        lines += lp_row_lines(name, limits, by_row.get(name, []), next(iter(model.columns)))
    lines += part("Bounds", [line for item in model.columns.items() for line in lp_bound_lines(*item)])
    lines += part("Generals", [f" {name}" for name, column in model.columns.items() if column.kind == "integer"])
    lines += part("Semi-Continuous", [f" {name}" for name, column in model.columns.items() if column.kind == "semi"])
    lines += ["End"]
    return lines


def text_of(lines: list[str]) -> bytes:
    """Each line ends by LF."""
    return "".join(f"{line}\n" for line in lines).encode("ascii")


def canonical(model: Model, format: Literal["mps", "lp"]) -> bytes | NotLp:
    """The canonical text of a model, or the first name that is not legal in LP."""
    lines = canonical_mps(model) if format == "mps" else canonical_lp(model)
    return lines if isinstance(lines, NotLp) else text_of(lines)


# --------------------------------------------------------------------------------------------------
# [Number text]


def number_text(number: Number) -> str:
    digits, exponent = str(abs(number.mantissa)), number.exponent
    if 0 <= exponent <= 5:
        text = digits + "0" * exponent
    elif -18 <= exponent <= -1:
        digits = digits.rjust(1 - exponent, "0")
        text = f"{digits[:exponent]}.{digits[exponent:]}"
    else:
        text = f"{digits}e{exponent}"
    return ("-" if number.mantissa < 0 else "") + text


# --------------------------------------------------------------------------------------------------
# [The text of show]


def limit_text(limit: Limit) -> str:
    if isinstance(limit, Number):
        return number_text(limit)
    return "inf" if limit == PLUS else "-inf"


def show_row(lower: Limit, upper: Limit) -> tuple[str, Number, Number]:
    """[The text of show]: SENSE, B and G."""
    form = row_form(lower, upper)
    rhs = {"N": ZERO, "G": lower}.get(form, upper)
    return form, rhs, difference(upper, lower) if form == "R" else ZERO


def show(model: Model) -> bytes:
    by_column = entries(model, 0)
    number_of = {name: number for number, name in enumerate(model.rows)}
    nonzeros = sum(row != model.objective for _, row in model.coefficients)
    lines = [
        f"sense {model.sense}",
        f"objective {model.objective} constant {number_text(model.constant)}"
        f" offset {number_text(negated(model.constant))}",
        f"rows {len(model.rows)} columns {len(model.columns)} elements {nonzeros}",
    ]
    for number, (name, (lower, upper)) in enumerate(model.rows.items()):
        sense, rhs, range_ = show_row(lower, upper)
        limits = f"{limit_text(lower)} {limit_text(upper)}"
        lines.append(f"row {number} {name} {sense} {limits} rhs {number_text(rhs)} range {number_text(range_)}")
    for number, (name, (kind, lower, upper)) in enumerate(model.columns.items()):
        in_objective = number_text(model.coefficients.get((name, model.objective), ZERO))
        bounds = f"{limit_text(lower)} {limit_text(upper)}"
        lines.append(f"column {number} {name} {kind} {bounds} objective {in_objective}")
        for row, value in by_column.get(name, []):
            if row != model.objective:
                lines.append(f"entry {number} {number_of[row]} {number_text(value)}")
    return text_of(lines)


# --------------------------------------------------------------------------------------------------
# [Appendix: the order of errors]: [The order of the kinds], [Which error is reported]

# [The order of the kinds]: rank 1 first.
KINDS = """
    LineTooLong BadByte Quadratic Sos Indicator SemiContinuous UnknownSection SectionOrder
    SectionRepeated FieldCount BadToken BadType BadMarker NameLength NameByte NameMarker
    NameLikeExponent BadNumber LongNumber TooManyDigits ExponentRange SecondSet UnknownRow
    UnknownColumn ColumnSplit DuplicateRow DuplicateEntry DuplicateRhs DuplicateRange DuplicateBound
    RangeOnFree ConstantInRow MixedSenses InfiniteValue MissingEnd NoColumns InfiniteLimit
    RangeInexact LimitTooLarge LimitsCrossed NegativeUpper BoundsCrossed BinaryBounds SemiBounds
""".split()
RANK = {kind: place for place, kind in enumerate(KINDS, start=1)}


def least(kinds: Kinds) -> str:
    """The kind that decides if there are several. [The order of the kinds]"""
    return min(kinds, key=RANK.__getitem__)


def read_mps(data: bytes) -> Model | Fault:
    """[Which error is reported]: the first line that has an error, else the whole file."""
    reader = MpsReader()
    for number, line in lines_of(data):
        kinds = reader.line(line)
        if kinds:
            return Fault(least(kinds), number)
        if reader.ended():
            break
    declared = reader.all_declared()
    return whole_file(declared, reader.ended()) or model_of(declared)


def read_lp(data: bytes) -> Model | Fault:
    """[Which error is reported], [Within an LP line]: the first line that has an error, else the whole file."""
    tokens, fault = lp_tokens(data)
    reader = LpReader(tokens)
    try:
        reader.file()
    except Rejected as rejected:
        return rejected.fault
    except OutOfTokens:
        return fault or Fault("MissingEnd", 0)
    return whole_file(reader.declared, ended=True) or model_of(reader.declared)


def least_name(table: dict, breaks: Callable) -> str | None:
    """[Which error is reported]: the least name in byte order that breaks a rule."""
    return min((name for name, thing in table.items() if breaks(thing)), default=None)


def whole_file(declared: Declared, ended: bool) -> Fault | None:
    """[Which error is reported], 2: the kinds MissingEnd to SemiBounds, the least rank first."""
    if not ended:
        return Fault("MissingEnd", 0)
    if not declared.columns:
        return Fault("NoColumns", 0)
    for kind, table, breaks in (
        ("InfiniteLimit", declared.rows, infinite_limit),
        ("RangeInexact", declared.rows, range_inexact),
        ("LimitTooLarge", declared.rows, limit_too_large),
        ("LimitsCrossed", declared.rows, limits_crossed),
        ("NegativeUpper", declared.columns, negative_upper),
        ("BoundsCrossed", declared.columns, bounds_crossed),
        ("BinaryBounds", declared.columns, binary_bounds),
        ("SemiBounds", declared.columns, semi_bounds),
    ):
        name = least_name(table, breaks)
        if name is not None:
            return Fault(kind, 0, name)
    return None


def read(data: bytes, format: Literal["mps", "lp"], most: int = FILE_BYTES) -> Model | Fault:
    """The model that the bytes define, or their first error. [Errors]: TooLong comes before all others."""
    if len(data) > most:
        return Fault("TooLong", 0)
    return {"mps": read_mps, "lp": read_lp}[format](data)


# --------------------------------------------------------------------------------------------------
# The command line


def arguments(words: list[str]) -> argparse.Namespace:
    parser = argparse.ArgumentParser(description="Reads a model file by docs/FORMATS.md, without mpslp.")
    parser.add_argument("format", choices=("mps", "lp"))
    parser.add_argument("file", help="a path, or - for standard input")
    parser.add_argument(
        "--to", choices=("mps", "lp", "show"), help="what to print; the canonical text of its own format if left out"
    )
    return parser.parse_args(words)


def main(words: list[str]) -> int:
    """[Errors]: prints the text, or the error on standard error with exit status 2."""
    options = arguments(words)
    data = sys.stdin.buffer.read() if options.file == "-" else Path(options.file).read_bytes()
    model = read(data, options.format)
    if isinstance(model, Fault):
        answer = model
    elif options.to == "show":
        answer = show(model)
    else:
        answer = canonical(model, options.to or options.format)
    if isinstance(answer, bytes):
        sys.stdout.buffer.write(answer)
        return 0
    print(answer, file=sys.stderr)
    return 2


if __name__ == "__main__":
    sys.exit(main(sys.argv[1:]))
