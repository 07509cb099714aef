"""A check of what is written of an LP file, which knows none of the rules.

The source and the text that was made of it are read by one permissive reading of all declarations: signs, numbers,
names, relations and sections. Both have to declare the same. The reading is independent of the reader that the rules
have, since it is here to find the mistakes of that one: it shares neither its tokens nor its grammar.
"""

from __future__ import annotations

from collections import Counter
from collections.abc import Mapping, Sequence
from dataclasses import dataclass, field
from fractions import Fraction
from typing import NamedTuple

from mpslp._adapt._changes import AdaptError, Log
from mpslp._adapt._check import INTERNAL_ERROR, Difference
from mpslp._adapt._check_lp_lines import says_the_same
from mpslp._adapt._check_lp_text import (
    INFINITE_SIDES,
    Limit,
    LpToken,
    Side,
    Unreadable,
    comment_constant,
    is_large,
    sections_of,
    side_of,
    tokens_of,
    value_of,
)
from mpslp._adapt._check_words import difference_in_lp

_INFINITE = float("inf")
_FLIPPED = {"<": ">", ">": "<", "=": "="}


class RowReading(NamedTuple):
    """A row: all terms on the left, with those of one column added, and its limits."""

    label: str | None
    terms: dict[str, Fraction]
    lower: Limit
    upper: Limit
    line: int
    last_line: int


@dataclass
class Reading:
    """What a text declares."""

    is_max: bool = False
    label: str | None = None
    objective: dict[str, Fraction] = field(default_factory=dict)
    constant: Limit = Fraction(0)
    rows: list[RowReading] = field(default_factory=list)
    bounds: dict[str, dict[str, set[Limit]]] = field(default_factory=dict)
    listed: Counter[tuple[str, str]] = field(default_factory=Counter)
    lines: dict[str, int] = field(default_factory=dict)
    """Where the bounds of a column are."""
    on_the_left: set[str] = field(default_factory=set)
    """The columns of rows, without those on the right of others."""
    on_the_right: dict[str, list[int]] = field(default_factory=dict)
    """The lines of the rows that have a column on the right of others."""


def check_lp(source: str, written: str, dialect: str | None, names: Mapping[str, str], log: Log) -> None:
    """Raises AdaptError if the text written does not declare what the source does, with the names written for names
    given.
    """
    if says_the_same(source, written, dialect, names, log):
        return
    try:
        words = tokens_of(source, dialect)
        before = readings(words, dialect)
    except Unreadable as error:
        raise AdaptError(error.line, f"the file has more than one reading, or none: {error.reason}") from error
    try:
        words_written = tokens_of(written, None)
        after = readings(words_written, None, is_of_mpslp=True)
    except Unreadable as error:
        raise AdaptError(1, f"{INTERNAL_ERROR}: line {error.line} of the result: {error.reason}") from error
    found = (
        differences(before, after, names)
        or _lone_word(before)
        or difference_in_lp(words, words_written, dialect, names, log)
    )
    if found is not None:
        raise AdaptError(found.line, f"{INTERNAL_ERROR}: {found.text}")


# ---- the comparison

# What else a change may account for, beside names: a term of 0 in a row that has no terms. What a dialect means without
# writing it is part of the reading of the source.


def differences(before: Reading, after: Reading, names: Mapping[str, str]) -> Difference | None:
    """The first difference of two readings, or None."""
    if before.is_max != after.is_max:
        return Difference(1, "the sense of the objective")
    if _written(before.label, names) != after.label or _mapped(before.objective, names) != after.objective:
        return Difference(1, "the terms of the objective")
    if before.constant != after.constant:
        return Difference(1, f"the constant of the objective: {before.constant} and {after.constant}")
    if len(before.rows) != len(after.rows):
        return Difference(1, f"the number of rows: {len(before.rows)} and {len(after.rows)}")
    for first, second in zip(before.rows, after.rows):
        if not _is_same_row(first, second, names):
            return Difference(first.line, f"row {first.label or first.line}")
    bounds = {names.get(name, name): sides for name, sides in before.bounds.items()}
    if bounds != after.bounds:
        name = next(name for name in [*bounds, *after.bounds] if bounds.get(name) != after.bounds.get(name))
        return Difference(before.lines.get(name, 1), f"the bounds of {name}")
    if (
        Counter({(section, names.get(name, name)): count for (section, name), count in before.listed.items()})
        != after.listed
    ):
        return Difference(1, "the columns that are integer, binary or semi-continuous")
    return None


def _lone_word(reading: Reading) -> Difference | None:
    """The first word that is on the right of one row, and nowhere else: it may be a number that is mistyped."""
    elsewhere = {*reading.objective, *reading.on_the_left, *reading.bounds, *(name for _, name in reading.listed)}
    for name, lines in reading.on_the_right.items():
        if len(lines) == 1 and name not in elsewhere:
            return Difference(lines[0], f"{name} is only on the right of a row")
    return None


def _written(label: str | None, names: Mapping[str, str]) -> str | None:
    return None if label is None else names.get(label, label)


def _mapped(terms: Mapping[str, Fraction], names: Mapping[str, str]) -> dict[str, Fraction]:
    return {names.get(name, name): value for name, value in terms.items()}


def _is_same_row(before: RowReading, after: RowReading, names: Mapping[str, str]) -> bool:
    if (before.lower, before.upper) != (after.lower, after.upper) or _written(before.label, names) != after.label:
        return False
    if not before.terms and len(after.terms) == 1:
        return set(after.terms.values()) == {Fraction(0)}
    return _mapped(before.terms, names) == after.terms


# ---- the reading


def readings(tokens: Sequence[LpToken], dialect: str | None, is_of_mpslp: bool = False) -> Reading:
    """What the tokens of a text declare; raises Unreadable where it has no reading, or two. For mpslp a number after a
    relation ends its row.
    """
    reading = Reading()
    ranges = {token.line for token in tokens if token.kind == "range"} if dialect == "qsopt" else set()
    found = sections_of([token for token in tokens if token.kind not in ("range", "constant", "negated")], dialect)
    end = found[1].line if len(found) > 1 else _INFINITE
    comments = [token for token in tokens if token.kind == "negated" or (token.kind == "constant" and token.line < end)]
    for name, body, _ in found:
        if name in ("min", "max"):
            reading.is_max = name == "max"
            _read_objective(reading, body, comments, dialect)
        elif name == "rows":
            _read_rows(reading, body, is_of_mpslp)
        elif name == "bounds":
            _read_bounds(reading, body)
        elif name != "end":
            reading.listed.update((name, token.text) for token in body)
    if ranges:
        reading.rows = _with_ranges(reading.rows, ranges)
    _settle_bounds(reading, dialect)
    return reading


def _read_objective(
    reading: Reading, body: Sequence[LpToken], comments: Sequence[LpToken], dialect: str | None
) -> None:
    if len(body) > 1 and body[1].kind == "colon":
        reading.label, body = body[0].text, body[2:]
    side = side_of(body)
    reading.objective, reading.constant = side.terms, side.constant
    if dialect == "glpsol" and not side.constants:
        reading.constant = comment_constant(comments)
    is_negated = any(token.kind == "negated" for token in comments)
    if dialect == "coinutils" and not reading.is_max and not is_negated:
        reading.constant = -side.constant


def _read_rows(reading: Reading, body: Sequence[LpToken], is_of_mpslp: bool) -> None:
    """The rows of a section: those between two labels are taken apart by their relations."""
    starts = [at - 1 for at, token in enumerate(body) if at and token.kind == "colon"]
    first = starts[0] if starts else len(body)
    if first:
        _read_block(reading, None, body[:first], is_of_mpslp)
    for start, end in zip(starts, [*starts[1:], len(body)]):
        _read_block(reading, body[start].text, body[start + 2 : end], is_of_mpslp)


def _read_block(reading: Reading, label: str | None, body: Sequence[LpToken], is_of_mpslp: bool) -> None:
    relations = [at for at, token in enumerate(body) if token.kind == "relation"]
    if not relations:
        raise Unreadable(body[0].line if body else 1, "a row without a relation")
    start, at = 0, 0
    while at < len(relations):
        used, end = 1, len(body)
        if at + 1 < len(relations):
            gap = body[relations[at] + 1 : relations[at + 1]]
            first, second = (body[relations[place]] for place in (at, at + 1))
            if _is_between(body[start : relations[at]], gap, first, second):
                used = 2
        if at + used < len(relations):
            last = relations[at + used - 1] + 1
            gap = body[last : relations[at + used]]
            end = last + (side_length(gap) if is_of_mpslp else split_of(gap))
        marks = relations[at : at + used]
        sides = [
            side_of(body[first:last]) for first, last in zip([start, *(mark + 1 for mark in marks)], [*marks, end])
        ]
        _take_columns(reading, sides, body[start].line)
        reading.rows.append(_row(label, sides, [body[mark] for mark in marks], body[start], body[end - 1]))
        start, at, label = end, at + used, None


def _take_columns(reading: Reading, sides: Sequence[Side], line: int) -> None:
    is_moved = len(sides) == 2 and sides[0].terms and sides[1].terms
    for side in sides[:1] if is_moved else sides:
        reading.on_the_left.update(side.terms)
    for name in sides[1].terms if is_moved else ():
        reading.on_the_right.setdefault(name, []).append(line)


def _is_between(left: Sequence[LpToken], gap: Sequence[LpToken], first: LpToken, second: LpToken) -> bool:
    """Whether terms are between two numbers."""
    if not left or any(token.kind == "name" for token in left) or not any(token.kind == "name" for token in gap):
        return False
    if first.text != second.text or first.text == "=":
        return False
    return not any(atom.is_unsigned for atom in atoms_of(gap)[1:])


class Atom(NamedTuple):
    """A term or a constant: where it starts and ends, whether it has no sign, and where its name is after a number, or
    None.
    """

    start: int
    end: int
    is_unsigned: bool
    name: int | None


def atoms_of(tokens: Sequence[LpToken]) -> list[Atom]:
    atoms, at = [], 0
    while at < len(tokens):
        start = at
        while at < len(tokens) and tokens[at].kind == "sign":
            at += 1
        is_unsigned, name = at == start, None
        words = at
        while at < len(tokens) and tokens[at].kind != "sign":
            kind = tokens[at].kind
            before = tokens[at - 1].kind if at > words else ""
            if before and kind != "star" and before != "star" and not (before == "number" and kind == "name"):
                break
            if before == "number" and kind == "name":
                name = at
            at += 1
        if at == words:
            raise Unreadable(tokens[start].line, "a sign without a term")
        atoms.append(Atom(start, at, is_unsigned, name))
    return atoms


def side_length(tokens: Sequence[LpToken]) -> int:
    """How many tokens a right-hand side of mpslp's LP format has: a number and at most one sign."""
    length = 2 if tokens and tokens[0].kind == "sign" else 1
    if len(tokens) < length or tokens[length - 1].kind != "number":
        raise Unreadable(tokens[0].line if tokens else 1, "no number after a relation")
    return length


def split_of(tokens: Sequence[LpToken]) -> int:
    """Where, between two relations, a row ends and the next one starts: in one way, or in one way at the start of a
    line.
    """
    atoms = atoms_of(tokens)
    unsigned = [atom.start for atom in atoms[1:] if atom.is_unsigned]
    if len(unsigned) == 1:
        return unsigned[0]
    line = tokens[0].line if tokens else 1
    if unsigned or not atoms:
        raise Unreadable(line, "no sign between terms")
    places = {atom.start for atom in atoms[1:]} | {atom.name for atom in atoms if atom.name is not None}
    at_lines = [place for place in places if tokens[place].line != tokens[place - 1].line]
    chosen = places if len(places) == 1 else at_lines
    if len(chosen) != 1:
        raise Unreadable(line, "rows that may be taken apart in several ways: start each row on a new line")
    return next(iter(chosen))


def _row(
    label: str | None, sides: Sequence[Side], relations: Sequence[LpToken], first: LpToken, last: LpToken
) -> RowReading:
    terms, senses = dict(sides[0].terms), [relation.text for relation in relations]
    if len(sides) == 3:
        limits = [_limit(side, sides[1]) for side in (sides[0], sides[2])]
        lower, upper = limits if senses[0] == "<" else limits[::-1]
        return RowReading(label, sides[1].terms, lower, upper, first.line, last.line)
    left, right = sides
    sense = senses[0]
    if not left.terms and right.terms:
        left, right, sense = right, left, _FLIPPED[sense]
        terms = dict(left.terms)
    for name, value in right.terms.items():
        terms[name] = terms.get(name, Fraction(0)) - value
    limit = _limit(right, left)
    return RowReading(
        label, terms, -_INFINITE if sense == "<" else limit, _INFINITE if sense == ">" else limit, first.line, last.line
    )


def _limit(side: Side, terms: Side) -> Limit:
    """The limit that a side is, less the constant among the terms; a single number of 10^20 or more is infinite."""
    if side.constants == 1 and is_large(side.constant):
        return _INFINITE if side.constant > 0 else -_INFINITE
    return side.constant - terms.constant


def _read_bounds(reading: Reading, body: Sequence[LpToken]) -> None:
    at = 0
    while at < len(body):
        first, name, sides = body[at], None, []
        while True:
            start = at
            while at < len(body) and body[at].kind == "sign":
                at += 1
            if at == len(body):
                raise Unreadable(first.line, "a bound that does not end")
            is_name = body[at].kind == "name" and body[at].text.lower() not in INFINITE_SIDES
            at += 1
            sides.append(body[start:at])
            name = sides[-1][0].text if is_name else name
            if at < len(body) and is_name and body[at].text.lower() == "free" and len(sides) == 1:
                _bound(reading, name, "free", _INFINITE, first.line)
                at += 1
                break
            if len(sides) == 5 or at == len(body) or body[at].kind != "relation":
                break
            if len(sides) == 3 and sides[0][0].text == name:
                break
            sides.append(body[at : at + 1])
            at += 1
        _take_bound(reading, name, sides, first)


def _take_bound(reading: Reading, name: str | None, sides: Sequence[Sequence[LpToken]], first: LpToken) -> None:
    if name is None or len(sides) == 1 and not reading.bounds.get(name, {}).get("free"):
        raise Unreadable(first.line, "no bound")
    for at in range(1, len(sides), 2):
        sense = sides[at][0].text
        before, after = sides[at - 1], sides[at + 1]
        if after[0].text == name and after[0].kind == "name":
            before, after, sense = after, before, _FLIPPED[sense]
        if after[-1].kind == "name" and after[-1].text.lower() not in INFINITE_SIDES:
            raise Unreadable(first.line, "a bound between two columns")
        value = value_of(after)
        for side, other in (("upper", ">"), ("lower", "<")):
            if sense != other:
                _bound(reading, name, side, value, first.line)


def _bound(reading: Reading, name: str | None, side: str, value: Limit, line: int) -> None:
    assert name is not None
    reading.bounds.setdefault(name, {}).setdefault(side, set()).add(value)
    reading.lines.setdefault(name, line)


def _settle_bounds(reading: Reading, dialect: str | None) -> None:
    """A column that is free has both bounds, if it is not given others; above a lower bound that is given, it has no
    other one than each column; and what QSopt_ex means by bounds that are left
    out.
    """
    for sides in reading.bounds.values():
        if sides.pop("free", None) is not None and "lower" not in sides:
            sides["lower"] = {-_INFINITE}
            sides.setdefault("upper", {_INFINITE})
        if dialect == "qsopt" and "lower" not in sides and min(sides["upper"]) < 0:
            sides["lower"] = {-_INFINITE}
    if dialect == "qsopt":
        for section, name in reading.listed:
            if section == "generals" and name not in reading.bounds:
                reading.bounds[name] = {"upper": {Fraction(1)}}


def _with_ranges(rows: Sequence[RowReading], lines: set[int]) -> list[RowReading]:
    """QSopt_ex writes a row with two limits as two rows, and says so in a comment after the first."""
    kept: list[RowReading] = []
    for row in rows:
        before = kept[-1] if kept else None
        if before is not None and row.label is None and before.last_line in lines and before.terms == row.terms:
            lower, upper = max(before.lower, row.lower), min(before.upper, row.upper)
            if _INFINITE not in (-lower, upper) and before.lower != before.upper:
                kept[-1] = before._replace(lower=lower, upper=upper)
                continue
        kept.append(row)
    return kept
