"""Special ordered sets and indicator constraints as rows with binary columns, in the notation of LP, for the columns of
the file.

The bounds are those of the model that the file has without them, which the proved reader reads. They are a help for
whoever writes the rows: mpslp writes none of them into a file.
"""

from __future__ import annotations

import re
from collections.abc import Iterator, Mapping, Sequence
from fractions import Fraction
from typing import NamedTuple

from mpslp import _mpslp
from mpslp._errors._faults import ModelFileError
from mpslp._messages._case import FOUND, Case, Found
from mpslp._messages._lp_sums import Term, decimal_text, sum_of, terms_of, value_of, with_term
from mpslp._messages._tokens import tokens_of
from mpslp._text._numbers import LARGE

_MOST_READ = 2**22
"""The model of a larger file is not read for the bounds of its columns."""
_MOST_MEMBERS = 8
_FIRST_MEMBERS = 3
_UPPER = "UPPER"
_LARGEST = "M"
"""Words for numbers that the file does not have."""
_NEXT_SECTION = re.compile(
    rb"(?im)^[ \t]*(?:bounds?|generals?|gen|integers?|int|binar(?:y|ies)|bin|semis?|semi-continuous|end)[ \t\r]*$"
)
_NEXT_HEADER = re.compile(rb"(?m)^[^\s*]")
_SET = re.compile(
    r"(?:(?P<name>[^\s:]+)[ \t]*:[ \t]*)?(?:(?P<type>[Ss][12])[ \t]*::)?"
    r"(?P<members>(?:\s*[^\s:,<>=]+[ \t]*:[ \t]*[\d.]+(?:[eE][+-]?\d+)?[ \t]*,?)+)"
)
_SET_TYPES = ("S1", "S2")
_SET_MARKER = re.compile(rb"(?m)^[^\n]*'SOS(?:ORG|END)'[^\n]*\n")
_MEMBER = re.compile(r"([^\s:,]+)[ \t]*:[ \t]*([\d.]+(?:[eE][+-]?\d+)?)")
_ARROW = re.compile(rb"(?m)^[^\n]*->[^\n]*$")
_INDICATOR = re.compile(
    r"\s*(?:(?P<label>[^\s:]+)\s*:)?\s*(?P<column>[^\s=]+)\s*=\s*(?P<value>[01])\s*->\s*(?P<row>.*)$"
)
_ROW = re.compile(r"(.*?)(<=|>=|=<|=>|<|>|=)\s*([-+]?\s*[\d.]+(?:[eE][+-]?\d+)?)\s*$")


class Bounds(NamedTuple):
    """The bounds of a column; None for one that is infinite or not known."""

    lower: Fraction | None
    upper: Fraction | None
    is_binary: bool


_UNKNOWN = Bounds(Fraction(0), None, False)


class OrderedSet(NamedTuple):
    """A special ordered set: its name, its type, and its columns in the order of their weights."""

    name: str
    type: int
    columns: Sequence[str]


# ---- special ordered sets


def special_set(case: Case) -> Found:
    """The first set of the section, as rows."""
    if case.is_mps and not case.is_header:
        return _set_of_markers(case)
    end = _end_of_section(case)
    found = next(_mps_sets(case, end) if case.is_mps else _lp_sets(case, end), None)
    rest = case.content[: case.line.start] + b"\n" + case.content[end:]
    return FOUND if found is None else _set_as_rows(case, found, rest)


def _set_as_rows(case: Case, found: OrderedSet, rest: bytes) -> Found:
    """A set as rows, for the bounds of the text without it."""
    if len(found.columns) < 2:
        return FOUND
    most = "one" if found.type == 1 else "two, which are neighbours,"
    bounds = _bounds_of(case, rest, found.columns)
    detail = f"set {found.name}: at most {most} of {_listed(found.columns)} may be other than 0"
    rows = list(_rows_of(found, bounds, case))
    note = (
        [f"{_UPPER}: the greatest value that the column of the row may have"]
        if any(_UPPER in row for row in rows)
        else []
    )
    return Found(detail, written="\n".join([*_shortened(rows), *note]))


def _end_of_section(case: Case) -> int:
    after = case.line.start + len(case.line.content)
    match = (_NEXT_HEADER if case.is_mps else _NEXT_SECTION).search(case.content, after)
    return len(case.content) if match is None else match.start()


def _lp_sets(case: Case, end: int) -> Iterator[OrderedSet]:
    start = case.line.start + len(case.line.content)
    heading = case.line.content.decode("latin-1")
    of_heading = re.search(r"[12]", heading.partition(":")[0])
    for match in _SET.finditer(case.content[start : min(end, start + _MOST_READ)].decode("latin-1")):
        weights = [(value_of(weight), name) for name, weight in _MEMBER.findall(match["members"])]
        members = sorted((weight, name) for weight, name in weights if weight is not None)
        of_name = re.match(r"(?i)sos([12])", match["name"] or "")
        kind = int(match["type"][1] if match["type"] else of_heading[0] if of_heading else of_name[1] if of_name else 1)
        yield OrderedSet(match["name"] or "set1", kind, [name for _, name in members])


def _mps_sets(case: Case, end: int) -> Iterator[OrderedSet]:
    """The first set of a section, if its members are columns: a line of a member has a column and its weight, another
    one the type and the name of a set.
    """
    start = case.line.start + len(case.line.content)
    name, kind, members = "set1", 2 if case.field.endswith("2") else 1, list[tuple[Fraction, str]]()
    for line in case.content[start : min(end, start + _MOST_READ)].decode("latin-1").splitlines():
        fields = line.replace(":", " ").split()
        member = _member(case, fields)
        if member is not None:
            members.append(member)
        elif fields and not line.startswith("*"):
            if members:
                break
            kind = int(fields[0][1]) if fields[0] in _SET_TYPES else kind
            name = next((each for each in reversed(fields) if each not in _SET_TYPES and value_of(each) is None), name)
    if members:
        yield OrderedSet(name, kind, [column for _, column in sorted(members)])


def _member(case: Case, fields: Sequence[str]) -> tuple[Fraction, str] | None:
    """The weight and the column of a member, or None if a line has none."""
    weight = value_of(fields[-1]) if len(fields) > 1 else None
    return None if weight is None or fields[-2] not in case.mps.columns else (weight, fields[-2])


def _set_of_markers(case: Case) -> Found:
    """The set that a marker opens, in the MPS of CPLEX: its members are the columns up to the next marker."""
    start = case.line.start + len(case.line.content)
    end = min(x for x in (case.content.find(b"'MARKER'", start), len(case.content)) if x >= 0)
    lines = (line.split() for line in case.content[start : min(end, start + _MOST_READ)].decode("latin-1").splitlines())
    columns = list(dict.fromkeys(fields[0] for fields in lines if len(fields) > 2))
    if "'SOSORG'" not in case.texts or not columns:
        return FOUND
    kind = next((text for text in case.texts if text in _SET_TYPES), None)
    if kind is None:
        return Found(f"its members are the columns up to 'SOSEND': {_listed(columns)}")
    name = next((text for text in case.texts if text not in _SET_TYPES), "set1")
    rest = _SET_MARKER.sub(b"", case.content)
    return _set_as_rows(case, OrderedSet("set1" if name == "'MARKER'" else name, int(kind[1]), columns), rest)


def _rows_of(found: OrderedSet, bounds: Mapping[str, Bounds], case: Case) -> Iterator[str]:
    columns = found.columns
    if found.type == 1 and all(bounds[column].is_binary for column in columns):
        yield f"{found.name}: {' + '.join(columns)} <= 1"
        return
    count = len(columns) if found.type == 1 else len(columns) - 1
    binaries = [
        _new_name(case, f"{columns[at]}_on" if found.type == 1 else f"{found.name}_{at + 1}") for at in range(count)
    ]
    for at, column in enumerate(columns):
        near = [binaries[at]] if found.type == 1 else binaries[max(0, at - 1) : at + 1]
        yield f"{found.name}_{column}: {column} {_times(bounds[column].upper, near, '-')} <= 0"
        lower = bounds[column].lower
        if lower is None or lower < 0:
            yield f"{found.name}_{column}_low: {column} {_times(None if lower is None else -lower, near, '+')} >= 0"
    yield f"{found.name}: {' + '.join(binaries)} <= 1"
    yield "Binaries"
    yield f" {' '.join(binaries)}"


def _times(value: Fraction | None, names: Sequence[str], sign: str) -> str:
    number = _UPPER if value is None else decimal_text(value) or _UPPER
    return " ".join(f"{sign} {number} {name}" for name in names)


def _new_name(case: Case, name: str) -> str:
    while name.encode("latin-1") in case.content:
        name += "_"
    return name


def _listed(names: Sequence[str]) -> str:
    return (
        ", ".join(names)
        if len(names) <= _MOST_MEMBERS
        else f"{', '.join(names[:_FIRST_MEMBERS])} and {len(names) - _FIRST_MEMBERS} more"
    )


def _shortened(lines: list[str]) -> list[str]:
    """The lines, or the first and the last ones of many."""
    most = 2 * _MOST_MEMBERS
    if len(lines) > most:
        lines = [*lines[:_FIRST_MEMBERS], "...", *lines[-_FIRST_MEMBERS:]]
    return [line if len(line) <= 200 else f"{line[:200]} ..." for line in lines]


# ---- indicators


def indicator(case: Case) -> Found:
    """The row of an indicator in one line, with a large coefficient of its column."""
    match = _INDICATOR.match(case.line.content.decode("latin-1"))
    row = None if match is None or case.is_mps else _ROW.match(match["row"])
    terms = None if row is None else terms_of(tokens_of(row[1].encode("latin-1")))
    if match is None or row is None or not terms or any(not term.name for term in terms):
        return FOUND
    bounds = _bounds_of(case, _ARROW.sub(b"", case.content), [term.name for term in terms])
    number = value_of(row[3].replace(" ", ""))
    if number is None:
        return FOUND
    lines = list(_relaxed(match["label"] or "", match["column"], match["value"] == "1", terms, row[2], number, bounds))
    note = (
        [f"{_LARGEST}: at least what the left side may differ from {decimal_text(number)} by"]
        if any(f" {_LARGEST} " in line for line in lines)
        else []
    )
    return Found(f"it holds only if {match['column']} is {match['value']}", written="\n".join([*lines, *note]))


def _relaxed(
    label: str,
    column: str,
    is_one: bool,
    terms: Sequence[Term],
    relation: str,
    number: Fraction,
    bounds: Mapping[str, Bounds],
) -> Iterator[str]:
    directions = [1] if "<" in relation else [-1] if ">" in relation else [1, -1]
    for direction in directions:
        mark = "<=" if direction > 0 else ">="
        name = f"{label}{('_le' if direction > 0 else '_ge') if len(directions) > 1 else ''}: " if label else ""
        farthest = _farthest(terms, bounds, direction)
        if farthest is None:
            limit = (
                f"{decimal_text(number)} {'+' if direction > 0 else '-'} {_LARGEST}"
                if is_one
                else f"{decimal_text(number)}"
            )
            sign = "+" if is_one == (direction > 0) else "-"
            if all(term.name != column for term in terms):
                yield f"{name}{sum_of(terms)} {sign} {_LARGEST} {column} {mark} {limit}"
            continue
        room = farthest - number  # what the left side may exceed the number by, in the direction
        if room * direction <= 0:
            yield f"{name}{sum_of(terms)} {mark} {decimal_text(number)}"
            continue
        coefficient = room if is_one else -room
        side = decimal_text(number + room if is_one else number)
        yield f"{name}{sum_of(with_term(terms, column, coefficient))} {mark} {side}"


def _farthest(terms: Sequence[Term], bounds: Mapping[str, Bounds], direction: int) -> Fraction | None:
    """The greatest value of the left side, or the least one; None if it has none."""
    total = Fraction(0)
    for term in terms:
        value = term.value
        bound = None if value is None else bounds[term.name].upper if value * direction > 0 else bounds[term.name].lower
        if value is None or bound is None:
            return None
        total += value * bound
    return total


# ---- bounds


def _bounds_of(case: Case, content: bytes, columns: Sequence[str]) -> dict[str, Bounds]:
    """The bounds of columns in a text that has no more sets or indicators, as far as it can be read."""
    try:
        arrays = None if len(content) > _MOST_READ else _mpslp.load(content, case.text.format)
    except ModelFileError:
        arrays = None
    return {column: _UNKNOWN if arrays is None else _bounds_in(arrays, column) for column in columns}


def _bounds_in(arrays: _mpslp.Arrays, column: str) -> Bounds:
    number = arrays.find_column(column)
    if number is None:
        return _UNKNOWN
    _, kind, lower, upper, _ = arrays.column(number)
    low, high = (None if abs(each) >= LARGE else Fraction(each) for each in (lower, upper))
    return Bounds(low, high, kind == _mpslp.INTEGER and low == 0 and high == 1)
