"""The rules of data lines of MPS: functions from what is known and a line to the fields to write.

A rule returns None if it has nothing to do. Numbers and names are never dropped; for text after the last field see
_mps_trailing.
"""

from __future__ import annotations

from collections.abc import Callable, Sequence

from mpslp._adapt._changes import AdaptError
from mpslp._adapt._mps_lines import Line
from mpslp._adapt._mps_state import State, is_number, is_pair, pairs_end
from mpslp._adapt._mps_trailing import Place, reason_to_keep
from mpslp._text._mps_words import BOUND_TYPES, MARKER, MARKERS, ROW_TYPES, UNVALUED, VALUED
from mpslp._text._numbers import BEYOND_LIMITS, INFINITE, LITERAL, fraction, infinity, is_decimal, is_infinite

NewFields = Sequence[str] | None
Rule = Callable[[State, Line], NewFields]
"""The fields to write; none if the line becomes a comment; or None."""


def kind_of(rule: Rule) -> str:
    """The kind of the changes that a rule makes: its name, if it has no other."""
    return _KINDS.get(rule.__name__, rule.__name__.replace("_", "-"))


_KINDS = {
    "row_trailing": "trailing-text",
    "pair_trailing": "trailing-text",
    "marker_trailing": "trailing-text",
    "bound_trailing": "trailing-text",
    "column_trailing": "trailing-text",
    "upper_row_type": "letter-case",
    "upper_bound_type": "letter-case",
    "upper_marker": "letter-case",
    "numbers": "number",
    "bound_number": "number",
}


# ---- rows and markers


def upper_row_type(state: State, line: Line) -> NewFields:
    """Types of rows are in upper case."""
    fields = line.fields()
    return [fields[0].upper(), *fields[1:]] if fields[0].upper() in ROW_TYPES else None


def row_trailing(state: State, line: Line) -> NewFields:
    """After the name of a row is a comment."""
    fields = line.fields()
    return fields[:2] if len(fields) > 2 and reason_to_keep(state, line, 2, Place.ROW) is None else None


def upper_marker(state: State, line: Line) -> NewFields:
    """Words of markers are in upper case."""
    return [each.upper() if each.startswith("'") else each for each in line.fields()]


def marker_name(state: State, line: Line) -> NewFields:
    """A marker line has a first field."""
    fields = line.fields()
    return ["MARKER", *fields] if fields[0] == MARKER else None


def marker_trailing(state: State, line: Line) -> NewFields:
    """After the marker is a comment."""
    fields = line.fields()
    is_marker = len(fields) > 3 and fields[2] in MARKERS
    return fields[:3] if is_marker and reason_to_keep(state, line, 3, Place.MARKER) is None else None


# ---- pairs of a row and a number


def numbers(state: State, line: Line) -> NewFields:
    """The numbers after the names of rows, as mpslp reads them."""
    fields = line.fields()
    is_side = state.section.name == "RHS"
    return fields[:1] + tuple(
        number_of(line, field, is_side and state.rows[before].kind != "N")
        if before in state.rows and field not in state.rows
        else field
        for before, field in zip(fields, fields[1:])
    )


def number_of(line: Line, field: str, is_limit: bool) -> str:
    """A number as mpslp reads it: with an exponent E, no fraction, and 1e30 for infinity."""
    number = infinity(field) or fraction(field) or field
    if not LITERAL.fullmatch(number):
        number = _with_e(number)
    if "/" in field and number == field and field.replace("/", "").strip("+-").isdigit():
        raise AdaptError(line.number, f"{field} is not a finite decimal: scale the row")
    if not LITERAL.fullmatch(number):
        return field
    if infinity(field) and not is_limit:
        raise AdaptError(line.number, f"{field} is infinite: only limits and bounds may be")
    if is_decimal(number):
        return number
    if is_limit and is_infinite(number):
        return ("-" if number.startswith("-") else "") + INFINITE
    raise AdaptError(line.number, f"{field} has {BEYOND_LIMITS}: round it, or scale the row")


_EXPONENTS = {ord("d"): "e", ord("D"): "E"}


def _with_e(field: str) -> str:
    """A Fortran exponent with the letter E."""
    changed = field.translate(_EXPONENTS)
    return changed if LITERAL.fullmatch(changed) else field


def continued_column(state: State, line: Line) -> NewFields:
    """A line without a column goes on with the last one."""
    fields = line.fields()
    named, continued = pairs_end(state, fields, 1), pairs_end(state, fields, 0)
    if named is not None and continued is not None:
        raise AdaptError(line.number, "a row has a number as its name: give the column on each line")
    return [state.column, *fields] if continued is not None and state.column else None


def column_trailing(state: State, line: Line) -> NewFields:
    """After the last number of a column is a comment."""
    return _without_trailing(state, line, 1, pairs_end(state, line.fields(), 1))


def pair_trailing(state: State, line: Line) -> NewFields:
    """After the last number is a comment, with a set or without."""
    fields = line.fields()
    with_set, without = pairs_end(state, fields, 1), pairs_end(state, fields, 0)
    if with_set is not None and without is not None:
        raise AdaptError(line.number, "a row has a number as its name: remove the text after the last number")
    return _without_trailing(state, line, 0 if with_set is None else 1, with_set or without)


def _without_trailing(state: State, line: Line, start: int, end: int | None) -> NewFields:
    fields = line.fields()
    if end is None or end == len(fields):
        return None
    place = Place.TWO_PAIRS if is_pair(state, fields, start + 2) and start == 1 else Place.ONE_PAIR
    return fields[:end] if reason_to_keep(state, line, end, place) is None else None


def range_on_free(state: State, line: Line) -> NewFields:
    """A range on an N row holds nothing, for glpsol and lp_solve too."""
    fields = line.fields()
    start = len(fields) % 2
    kept = [
        each
        for at in range(start, len(fields), 2)
        if not is_declared_free(state, fields[at])
        for each in fields[at : at + 2]
    ]
    return [*fields[:start], *kept] if kept else []


def is_declared_free(state: State, name: str) -> bool:
    """Whether ROWS has an N row of this name; the objective of a file without N rows may be a row that is lost."""
    row = state.rows[name]
    return row.kind == "N" and row.line > 0


# ---- bounds


def upper_bound_type(state: State, line: Line) -> NewFields:
    """Types of bounds are in upper case."""
    fields = line.fields()
    kind = fields[0].upper()
    if kind in ("SI", "SN"):
        raise AdaptError(line.number, "a semi-integer column: mpslp has integer and semi-continuous ones")
    return [kind, *fields[1:]] if kind in BOUND_TYPES else None


def bound_number(state: State, line: Line) -> NewFields:
    """The number of a bound, as mpslp reads it."""
    fields = line.fields()
    at = next((at for at in (3, 2) if at < len(fields) and state.is_column(fields[at - 1])), None)
    if at is None or fields[0] not in VALUED:
        return None
    return [*fields[:at], number_of(line, fields[at], True), *fields[at + 1 :]]


def bound_value(state: State, line: Line) -> NewFields:
    """A type without a number has none, if the set is left out: in fixed columns all programs ignore it."""
    fields = line.fields()
    is_read = (
        len(fields) == 3 and fields[0] in UNVALUED and state.is_column(fields[1]) and not state.is_column(fields[2])
    )
    places = line.places()
    is_in_columns = len(places) == 3 and places[0] in (1, 2) and 14 <= places[1] < 22 and 24 <= places[2] < 36
    return fields[:2] if is_read and is_number(fields[2]) and is_in_columns else None


def bound_trailing(state: State, line: Line) -> NewFields:
    """After the bound is a comment."""
    fields = line.fields()
    count = 1 if fields[0] in VALUED else 0
    ends = [
        at + 1 + count
        for at in (1, 2)
        if at + count < len(fields) and state.is_column(fields[at]) and (not count or is_number(fields[at + 1]))
    ]
    if len(ends) != 1 or ends[0] >= len(fields):
        return None
    return fields[: ends[0]] if reason_to_keep(state, line, ends[0], Place.BOUND) is None else None
