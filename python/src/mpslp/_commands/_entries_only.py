"""What diff prints of rows and columns that one model has: their coefficients, or their name in the other one."""

from __future__ import annotations

from collections.abc import Callable, Hashable, Iterable, Iterator, Mapping
from dataclasses import dataclass
from decimal import Decimal
from itertools import islice
from typing import Literal, TypeAlias, TypeVar

from mpslp._models._differences import ColumnOnly, Difference, RowOnly
from mpslp._models._numbers import number_text

_MOST_ENTRIES = 10
_MOST_DIFFERENCES = 10_000
"""Among so many differences, the first ones, rows and columns that have another name are looked for."""


@dataclass(frozen=True)
class Renamed:
    """A row or a column that has another name in the second model. As text: ``row LIM1: name LIM1 -> LIM2``."""

    of: Literal["row", "column"]
    first: str
    second: str

    def __str__(self) -> str:
        return f"{self.of} {self.first}: name {self.first} -> {self.second}"


Shown: TypeAlias = Difference | Renamed
Only = TypeVar("Only", RowOnly, ColumnOnly)


def with_renamed(differences: Iterable[Difference]) -> Iterator[Shown]:
    """The differences. Rows of both models, or columns, that differ in nothing but their names are one difference."""
    rest = iter(differences)
    first = list(islice(rest, _MOST_DIFFERENCES))
    rows = _pairs([each for each in first if isinstance(each, RowOnly)], _row)
    columns = _pairs([each for each in first if isinstance(each, ColumnOnly)], _column)
    others = {id(second) for _, second in (*rows.values(), *columns.values())}
    for each in first:
        if id(each) in rows:
            one, other = rows[id(each)]
            yield Renamed("row", one.row.name, other.row.name)
        elif id(each) in columns:
            before, after = columns[id(each)]
            yield Renamed("column", before.column.name, after.column.name)
        elif id(each) not in others:
            yield each
    yield from rest


def lines_of(each: Shown, are_all: bool) -> Iterator[str]:
    """The lines of a difference; after a row or a column that one model has, its coefficients, all or the first."""
    yield str(each)
    if not isinstance(each, (RowOnly, ColumnOnly)):
        return
    sign = str(each)[0]
    entries = entries_of(each)
    shown = islice(entries.items(), None if are_all else _MOST_ENTRIES)
    for name, value in shown:
        place = f"{each.row.name} {name}" if isinstance(each, RowOnly) else f"{name} {each.column.name}"
        yield f"{sign} entry {place}: {number_text(value)}"
    others = 0 if are_all else len(entries) - _MOST_ENTRIES
    if others > 0:
        name = each.row.name if isinstance(each, RowOnly) else each.column.name
        yield f"{sign} {others} more {'entry' if others == 1 else 'entries'} of {name}: --all prints them"


def entries_of(each: RowOnly | ColumnOnly) -> Mapping[str, Decimal]:
    """The coefficients of a row or a column."""
    return each.row.entries if isinstance(each, RowOnly) else each.column.entries


def _pairs(found: list[Only], content: Callable[[Only], Hashable]) -> dict[int, tuple[Only, Only]]:
    """Pairs of one content that no other one of its model has, by the identity of the first one."""
    sides: dict[str, dict[Hashable, list[Only]]] = {"first": {}, "second": {}}
    for each in found:
        sides[each.which].setdefault(content(each), []).append(each)
    both = ((ones, sides["second"].get(key, [])) for key, ones in sides["first"].items())
    return {id(ones[0]): (ones[0], others[0]) for ones, others in both if len(ones) == len(others) == 1}


def _row(each: RowOnly) -> Hashable:
    return each.row.lower, each.row.upper, tuple(each.row.entries.items())


def _column(each: ColumnOnly) -> Hashable:
    column = each.column
    return column.kind, column.lower, column.upper, column.cost, tuple(column.entries.items())
