"""Why a line of MPS is left: the field that is wrong, and the name that may be meant."""

from __future__ import annotations

import difflib
from collections.abc import Collection, Sequence

from mpslp._adapt._changes import AdaptError
from mpslp._adapt._mps_lines import Line
from mpslp._adapt._mps_state import State, is_pair
from mpslp._adapt._mps_trailing import Place, reason_to_keep
from mpslp._text._mps_words import BOUND_TYPES, MARKER, MARKERS, ROW_TYPES, UNVALUED, VALUED
from mpslp._text._numbers import LITERAL

_MOST_NAMES = 20_000
"""Nearest names are looked for among as many at most."""


def nearest(name: str, names: Collection[str]) -> str:
    """A question after the nearest name, or nothing."""
    if len(names) > _MOST_NAMES:
        return ""
    folded = next((each for each in names if each.lower() == name.lower()), None)
    found = [folded] if folded is not None else difflib.get_close_matches(name, names, 1)
    return f"; is it {found[0]}?" if found else ""


def no_row(state: State, field: str) -> str:
    return f"{field} is not a row{nearest(field, state.rows)}"


def no_column(state: State, field: str) -> str:
    return f"{field} is not a column{nearest(field, [*state.columns, *state.bounds_only])}"


def no_number(field: str) -> str:
    if field.replace(",", ".") != field and LITERAL.fullmatch(field.replace(",", ".", 1)):
        return f"{field} is not a number: write a point for a decimal comma"
    return f"{field} is not a number"


def wrong_row(state: State, line: Line) -> AdaptError:
    """Why a line of ROWS is left."""
    fields = line.fields()
    if fields[0].upper() not in ROW_TYPES:
        return AdaptError(line.number, f"{fields[0]} is not a type of row: write N, L, G or E")
    if len(fields) == 1:
        return AdaptError(line.number, f"a row of the type {fields[0]} without a name")
    reason = reason_to_keep(state, line, 2, Place.ROW)
    return AdaptError(line.number, f"this line is not a type and a name: {reason}")


def wrong_pairs(state: State, line: Line, start: int, what: str) -> AdaptError:
    """Why a line of COLUMNS, RHS or RANGES is left: the first field that is wrong from ``start`` on."""
    fields = line.fields()
    if start and not state.column and is_pair(state, fields, 0) and state.section.name == "COLUMNS":
        return AdaptError(line.number, "a line without a column, and no column before it")
    if len(fields) <= start:
        return AdaptError(line.number, f"a line with only {' '.join(fields)}: {what}, a row and a number are needed")
    for at in range(start, min(len(fields), start + 4), 2):
        reason = _wrong_pair(state, line, at, start, what)
        if reason is not None:
            return AdaptError(line.number, reason)
    return AdaptError(
        line.number, reason_to_keep(state, line, start + 4, Place.TWO_PAIRS) or "text after the second number"
    )


def _wrong_pair(state: State, line: Line, at: int, start: int, what: str) -> str | None:
    """What is wrong with the pair that starts at a field."""
    fields = line.fields()
    row, is_last = fields[at], at + 1 == len(fields)
    if row not in state.rows:
        if at > start and (is_last or not LITERAL.fullmatch(fields[at + 1])):
            return reason_to_keep(state, line, at, Place.ONE_PAIR) or f"text after the number: {row}"
        return f"{row}, where a row is expected, is a number" if LITERAL.fullmatch(row) else no_row(state, row)
    if is_last:
        return f"there is no number after the row {row}"
    return None if LITERAL.fullmatch(fields[at + 1]) else no_number(fields[at + 1])


def wrong_marker(state: State, line: Line) -> AdaptError:
    """Why a marker line is left."""
    fields = line.fields()
    if len(fields) > 3 and fields[2] in MARKERS:
        return AdaptError(line.number, reason_to_keep(state, line, 3, Place.MARKER) or "text after the marker")
    words = " ".join(each for each in fields[1:] if each != MARKER)
    return AdaptError(
        line.number,
        f"{words or MARKER} is not a marker: write a name, 'MARKER', and 'INTORG' or 'INTEND', with the quotes",
    )


def wrong_bound(state: State, line: Line) -> AdaptError:
    """Why a line of BOUNDS is left."""
    fields = line.fields()
    kind = fields[0]
    if kind not in BOUND_TYPES:
        return AdaptError(line.number, f"{kind} is not a type of bound: write one of {', '.join(BOUND_TYPES)}")
    at = next((at for at in (1, 2) if at < len(fields) and state.is_column(fields[at])), None)
    if at is None:
        return AdaptError(line.number, _no_column_in(state, fields))
    if kind in UNVALUED:
        reason = reason_to_keep(state, line, at + 1, Place.BOUND)
        return AdaptError(line.number, reason or f"more than a set and a column after {kind}")
    if at + 1 == len(fields):
        return AdaptError(line.number, f"a bound of the type {kind} on {fields[at]} without a number")
    if not LITERAL.fullmatch(fields[at + 1]):
        return AdaptError(line.number, no_number(fields[at + 1]))
    return AdaptError(line.number, reason_to_keep(state, line, at + 2, Place.BOUND) or "text after the bound")


def _no_column_in(state: State, fields: Sequence[str]) -> str:
    """Which field of a bound should be the column."""
    if len(fields) < 2:
        return f"a bound of the type {fields[0]} without a column"
    valued = fields[0] in VALUED
    has_set = len(fields) > 3 or (not valued and len(fields) == 3)
    if not has_set and len(fields) == 3 and not LITERAL.fullmatch(fields[2]):
        has_set = True
    return no_column(state, fields[2 if has_set else 1])


def second_row(state: State, line: Line, name: str) -> AdaptError:
    """A row that is declared again."""
    reason = f"a second row {name}, first in line {state.rows[name].line}"
    if len(name) == 8 and line.places()[:2] in ([1, 4], [2, 4]):
        reason += ": fixed columns cut names to 8 characters; write free MPS, with lp_solve -wfmps or glpsol --wfreemps"
    return AdaptError(line.number, reason)
