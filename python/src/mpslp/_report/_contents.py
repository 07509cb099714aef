"""What is counted of a model: exactly, by the extension module where there is much to count."""

from __future__ import annotations

from bisect import bisect_right
from collections import Counter
from collections.abc import Iterable, Iterator
from dataclasses import dataclass, field
from decimal import Decimal
from typing import NamedTuple

from mpslp._models._arrays import Arrays
from mpslp._models._model import Model


class Extreme(NamedTuple):
    """A number of the least or greatest magnitude, and the names of the row or column, or of both, that have it."""

    number: Decimal
    where: tuple[str, ...]


@dataclass(frozen=True)
class Magnitudes:
    """The magnitudes of the finite numbers of one sort."""

    what: str
    powers: Counter[int]
    """How many nonzero numbers there are by their power of ten."""
    zeros: int
    smallest: Extreme | None
    largest: Extreme | None

    @property
    def count(self) -> int:
        """How many nonzero numbers there are."""
        return sum(self.powers.values())


class Lengths(NamedTuple):
    """How many nonzeros the rows, or the columns, have."""

    least: int
    median: int
    most: int
    longest: str
    """The first row or column with the most nonzeros."""
    empty: list[str]
    singles: int
    """How many have one nonzero."""


@dataclass
class Contents:
    """What is counted of a model."""

    row_kinds: Counter[str]
    columns: Counter[tuple[str, str]]
    """How many columns there are by their bounds and their type."""
    coefficients: Magnitudes
    costs: Magnitudes
    limits: Magnitudes
    bounds: Magnitudes
    row_lengths: Lengths | None
    """None if there are no rows."""
    column_lengths: Lengths | None
    fixed_at_0: list[str] = field(default_factory=list)
    negative_upper: list[str] = field(default_factory=list)
    unused: list[str] = field(default_factory=list)
    """The columns without any coefficient."""
    only_costs: list[str] = field(default_factory=list)
    """The columns that have a coefficient in the objective, and in no row."""

    @property
    def magnitudes(self) -> tuple[Magnitudes, ...]:
        return self.coefficients, self.costs, self.limits, self.bounds


# In the order of their numbers in the extension module and the library.
ROW_KINDS = ("equation", "at most", "at least", "ranged", "free")
COLUMN_KINDS = ("continuous", "integer", "semi-continuous")
_BOUNDS = ("fixed", "upper bound only", "lower bound only", "lower and upper bound", "free", "0 to infinity", "0 to 1")

COLUMN_BOUNDS = (
    "0 to infinity",
    "0 to 1",
    "lower and upper bound",
    "lower bound only",
    "upper bound only",
    "fixed",
    "free",
)


def contents_of(model: Model, arrays: Arrays) -> Contents:
    """Counts a model, whose arrays are given too."""
    exact, row_names, column_names = model._arrays, arrays.row_names or (), arrays.column_names or ()
    row_kinds, bounds = exact.kinds()
    starts, kinds = memoryview(arrays.indptr), memoryview(arrays.integrality)
    lengths = [after - start for start, after in zip(starts, starts[1:])]
    coefficients, costs, limits, of_columns = _magnitudes(model, arrays)
    contents = Contents(
        row_kinds=Counter({ROW_KINDS[kind]: count for kind, count in Counter(row_kinds).items()}),
        columns=Counter(
            {(_BOUNDS[each], COLUMN_KINDS[kind]): count for (each, kind), count in Counter(zip(bounds, kinds)).items()}
        ),
        coefficients=coefficients,
        costs=costs,
        limits=limits,
        bounds=of_columns,
        row_lengths=_lengths(row_names, list(map(exact.row_len, range(len(row_names))))) if row_names else None,
        column_lengths=_lengths(column_names, lengths),
    )
    for number, upper in enumerate(memoryview(arrays.upper)):
        if upper <= 0:  # a number that is nearest to the double 0 may be on either side of 0
            _take_upper(contents, *exact.column(number))
    for number, length in enumerate(lengths):
        if not length:
            name, *_, cost = exact.column(number)
            (contents.only_costs if cost else contents.unused).append(name)
    return contents


def _take_upper(contents: Contents, name: str, kind: int, lower: Decimal, upper: Decimal, cost: Decimal) -> None:
    if upper < 0:
        contents.negative_upper.append(name)
    elif lower == upper == 0:
        contents.fixed_at_0.append(name)


def _magnitudes(model: Model, arrays: Arrays) -> Iterator[Magnitudes]:
    """The magnitudes of coefficients, costs, row limits and column bounds."""
    rows, columns = arrays.row_names or (), arrays.column_names or ()

    def names_of(what: str, number: int) -> tuple[str, ...]:
        if what == "coefficients":
            return rows[arrays.indices[number]], columns[bisect_right(arrays.indptr, number) - 1]
        return (rows[number] if what == "row limits (RHS)" else columns[number],)

    sorts = ("coefficients", "objective coefficients", "row limits (RHS)", "column bounds")
    for what, (powers, zeros, *extremes) in zip(sorts, model._arrays.magnitudes()):
        smallest, largest = (None if each is None else Extreme(each[0], names_of(what, each[1])) for each in extremes)
        yield Magnitudes(what, Counter(powers), zeros, smallest, largest)


def _lengths(names: Iterable[str], lengths: list[int]) -> Lengths:
    in_order = sorted(lengths)
    most = in_order[-1]
    longest = next(name for name, length in zip(names, lengths) if length == most)
    empty = [name for name, length in zip(names, lengths) if not length]
    return Lengths(in_order[0], in_order[len(in_order) // 2], most, longest, empty, lengths.count(1))
