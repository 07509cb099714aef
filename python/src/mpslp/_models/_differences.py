"""In what two models differ."""

# Annotations are evaluated here: the classes say that they are of the package, whose names are fewer.

import os
from collections.abc import Callable, Iterable, Iterator, Mapping
from dataclasses import dataclass
from decimal import Decimal
from functools import partial
from itertools import islice, zip_longest
from operator import eq
from typing import TYPE_CHECKING, Literal, NamedTuple, TypeAlias

from mpslp import _mpslp
from mpslp._errors._faults import ModelFileError
from mpslp._files._sources import Format, Source, Text, naming, read
from mpslp._models._model import Column, Kind, Model, Row, Sense, model_of
from mpslp._models._numbers import ZERO, is_near, number_text
from mpslp._models._positions import Names, names_by_position
from mpslp._text._numbers import MOST_DIGITS

if TYPE_CHECKING:
    from mpslp._matching._partners import Matched

__unittest = True  # unittest shows no lines of this module where a test fails

Which: TypeAlias = Literal["first", "second"]
"""Which of two models."""

Verdict: TypeAlias = Literal["same", "same but for names", "close", "not the same"]
"""What is said of two models."""

_SIGNS: dict[Which, str] = {"first": "-", "second": "+"}
_LIMITS: tuple[Literal["lower", "upper"], ...] = ("lower", "upper")
_MOST_LINES = 100
NO_NAME = ""
"""What is at a position that has no name: no row and no column has it."""

_Numbers: TypeAlias = tuple[int | None, int | None]
_Search: TypeAlias = Callable[[int, _mpslp.Arrays, int], tuple[int, int, int] | None]


@dataclass(frozen=True)
class ModelDifference:
    """The sense, the name of the objective, or its constant. As text: ``sense: minimize -> maximize``."""

    what: Literal["sense", "objective", "constant"]
    first: Sense | str | Decimal
    second: Sense | str | Decimal

    def __str__(self) -> str:
        return f"{self.what}: {_change(self.first, self.second)}"


@dataclass(frozen=True)
class RowOnly:
    """A row that only one of the models has.

    As text: ``- row LIM1: -inf to 4, 2 entries``, with ``+`` if it is the second.
    """

    which: Which
    row: Row

    def __str__(self) -> str:
        row = self.row
        return (
            f"{_SIGNS[self.which]} row {row.name}: {number_text(row.lower)} to {number_text(row.upper)},"
            f" {_entries(len(row.entries))}"
        )


@dataclass(frozen=True)
class RowDifference:
    """A limit of a row. As text: ``row MYG: lower 1 -> 2``."""

    name: str
    what: Literal["lower", "upper"]
    first: Decimal
    second: Decimal

    def __str__(self) -> str:
        return f"row {self.name}: {self.what} {_change(self.first, self.second)}"


@dataclass(frozen=True)
class ColumnOnly:
    """A column that only one of the models has. As text: ``+ column Z: integer, 0 to 9, cost 2, 1 entry``."""

    which: Which
    column: Column

    def __str__(self) -> str:
        column = self.column
        bounds = f"{number_text(column.lower)} to {number_text(column.upper)}"
        return (
            f"{_SIGNS[self.which]} column {column.name}: {column.kind}, {bounds}, cost {number_text(column.cost)}, "
            f"{_entries(len(column.entries))}"
        )


@dataclass(frozen=True)
class ColumnDifference:
    """The kind, a bound or the cost of a column. As text: ``column X: kind continuous -> integer``."""

    name: str
    what: Literal["kind", "lower", "upper", "cost"]
    first: Kind | Decimal
    second: Kind | Decimal

    def __str__(self) -> str:
        return f"column {self.name}: {self.what} {_change(self.first, self.second)}"


@dataclass(frozen=True)
class EntryDifference:
    """A coefficient of a row and a column that both models have; 0 if there is none.

    As text: ``entry MYG Y: 1.5 -> 0``.
    """

    row: str
    column: str
    first: Decimal
    second: Decimal

    def __str__(self) -> str:
        return f"entry {self.row} {self.column}: {_change(self.first, self.second)}"


Difference: TypeAlias = ModelDifference | RowOnly | RowDifference | ColumnOnly | ColumnDifference | EntryDifference
"""One difference of two models."""


class _Rules(NamedTuple):
    """What counts as a difference."""

    is_equal: Callable[[Decimal, Decimal], bool]
    ignores_objective_name: bool
    names: tuple[Names, Names] | None
    """The names of both models, where those at one position are one, and NO_NAME has none; None where names count."""
    matched: "Matched | None" = None
    """How many are matched, if names do not count."""
    is_exact: bool = True
    """Whether numbers are equal only if they are the same."""


class Differences(Iterable[Difference]):
    """The differences of two models, in order: of the models themselves, of rows, of columns, and of entries by
    columns.

    They are found when they are looked at, each time anew, and take no memory. The object is true if there is one, and
    as text it has a line for each. Names are those of the first model, or of the second for what only that one has.

    first, second
        The models.
    verdict
        ``"same"`` if and only if the models are the same; ``"same but for names"`` if they are so with ``any_names``;
        ``"close"`` if they are neither, but no difference counts because of ``digits``, ``by_position`` or
        ``ignore_objective_name``; else ``"not the same"``.
    matched
        With ``any_names`` how many rows and columns were matched by name and by shape; else None.
    """

    __slots__ = ("first", "second", "_first", "_second", "_rules")

    first: Model
    second: Model

    def __init__(self, first: Model, second: Model, rules: _Rules) -> None:
        self.first = first
        self.second = second
        # Where most is equal, these are looked at, which is faster than to make rows and columns of them.
        self._first = first._arrays
        self._second = second._arrays
        self._rules = rules

    def __iter__(self) -> Iterator[Difference]:
        if self.first != self.second:
            yield from self._of_models()
            yield from self._of_rows()
            yield from self._of_columns()
            yield from self._of_entries()

    def __bool__(self) -> bool:
        return next(iter(self), None) is not None

    def __str__(self) -> str:
        return "\n".join(map(str, self))

    def __repr__(self) -> str:
        return f"<mpslp.Differences: {self.verdict}>"

    @property
    def verdict(self) -> Verdict:
        """``"same"``, ``"same but for names"``, ``"close"`` or ``"not the same"``."""
        if self.first == self.second:
            return "same"
        if self:
            return "not the same"
        return "close" if self.matched is None or not self._rules.is_exact else "same but for names"

    @property
    def matched(self) -> "Matched | None":
        """How many rows and columns were matched, with ``any_names``."""
        return self._rules.matched

    def _of_models(self) -> Iterator[Difference]:
        first, second = self.first, self.second
        if first.sense != second.sense:
            yield ModelDifference("sense", first.sense, second.sense)
        if first.objective != second.objective and not self._rules.ignores_objective_name:
            yield ModelDifference("objective", first.objective, second.objective)
        if not self._rules.is_equal(first.constant, second.constant):
            yield ModelDifference("constant", first.constant, second.constant)

    def _of_rows(self) -> Iterator[Difference]:
        for i, k in self._row_numbers():
            if i is not None and k is not None:
                name, *limits = self._first.row(i)
                _, *others = self._second.row(k)
                if limits != others:
                    yield from self._of_row(name, limits, others)
            elif i is not None:
                yield RowOnly("first", self.first.rows[self._first.row_name(i)])
            elif k is not None:
                yield RowOnly("second", self.second.rows[self._second.row_name(k)])

    def _of_row(self, name: str, limits: list[Decimal], others: list[Decimal]) -> Iterator[Difference]:
        for what, limit, other in zip(_LIMITS, limits, others):
            if not self._rules.is_equal(limit, other):
                yield RowDifference(name, what, limit, other)

    def _of_columns(self) -> Iterator[Difference]:
        for j, k in self._column_numbers():
            if j is not None and k is not None:
                name, other = self._first.column_name(j), self._second.column_name(k)
                yield from self._of_column(self.first.columns[name], self.second.columns[other])
            elif j is not None:
                yield ColumnOnly("first", self.first.columns[self._first.column_name(j)])
            elif k is not None:
                yield ColumnOnly("second", self.second.columns[self._second.column_name(k)])

    def _of_column(self, one: Column, other: Column) -> Iterator[Difference]:
        is_equal = self._rules.is_equal
        if one.kind != other.kind:
            yield ColumnDifference(one.name, "kind", one.kind, other.kind)
        if not is_equal(one.lower, other.lower):
            yield ColumnDifference(one.name, "lower", one.lower, other.lower)
        if not is_equal(one.upper, other.upper):
            yield ColumnDifference(one.name, "upper", one.upper, other.upper)
        if not is_equal(one.cost, other.cost):
            yield ColumnDifference(one.name, "cost", one.cost, other.cost)

    def _of_entries(self) -> Iterator[Difference]:
        names = self._rules.names
        renamed = None if names is None else _partners(names[1].rows, names[0].rows)
        is_in_both = self._is_row_of_both if renamed is None else frozenset(renamed.values()).__contains__
        for j, k in self._column_numbers():
            if j is None or k is None:
                continue
            entries, others = self._first.column_entries(j), self._second.column_entries(k)
            if renamed is not None:
                others = [(renamed[row], value) for row, value in others if row in renamed]
            if entries != others:
                yield from self._of_entries_of(self._first.column_name(j), dict(entries), dict(others), is_in_both)

    def _of_entries_of(
        self, column: str, entries: dict[str, Decimal], others: dict[str, Decimal], is_in_both: Callable[[str], bool]
    ) -> Iterator[Difference]:
        for row in sorted(entries.keys() | others.keys()):
            value, other = entries.get(row, ZERO), others.get(row, ZERO)
            if not self._rules.is_equal(value, other) and is_in_both(row):
                yield EntryDifference(row, column, value, other)

    def _is_row_of_both(self, row: object) -> bool:
        return row in self.first.rows and row in self.second.rows

    def _row_numbers(self) -> Iterator[_Numbers]:
        """The numbers in both models of the rows that may differ; None where there is no such row."""
        first, second, names = self._first, self._second, self._rules.names
        if names is None:
            return _differing(first.next_row_difference, second)
        return zip_longest(map(first.find_row, names[0].rows), map(second.find_row, names[1].rows))

    def _column_numbers(self) -> Iterator[_Numbers]:
        first, second, names = self._first, self._second, self._rules.names
        if names is None:
            has_same_rows = first.has_same_rows(second)
            return _differing(lambda j, other, k: first.next_column_difference(j, other, k, has_same_rows), second)
        return zip_longest(map(first.find_column, names[0].columns), map(second.find_column, names[1].columns))


def diff(
    first: Model | Source,
    second: Model | Source,
    first_format: Format | None = None,
    second_format: Format | None = None,
    *,
    ignore_objective_name: bool = False,
    digits: int | None = None,
    by_position: bool = False,
    any_names: bool = False,
) -> Differences:
    """Returns the differences of two models, each a :class:`Model` or a text.

    ``ignore_objective_name``: the name of the objective is no difference.

    ``digits``: numbers are equal if they agree to this many significant digits, 1 to 36: if they differ by less than
    one unit in that digit of the larger.

    ``by_position``: the names of the objective are equal, and those of two rows or two columns at one position.
    Positions in MPS text are the order of ROWS and of COLUMNS, in LP text the order of rows and that of the first
    appearance of columns, and in a :class:`Model` the order of its mappings.

    ``any_names``: names do not count. Rows and columns with one name are matched, and others that have one possible
    partner by their shape: limits, bounds, costs and coefficients. Names are those of the first model; ``matched`` says
    how many there are.

    A format may be left out for a path that ends in ``.mps`` or ``.lp``.

    Raises ModelFileError where a text declares no model; ``which`` says which one.

    >>> print(mpslp.diff(b"min x + 2 y\\nend\\n", b"min x + 3 y\\nend\\n", "lp", "lp"))
    column y: cost 2 -> 3
    """
    is_equal = _equality(digits)
    if by_position and any_names:
        raise ValueError("names are those at one position, or any: by_position does not go with any_names")
    if by_position:
        (one, names), (other, other_names) = (
            _loaded_by_position(first, first_format, "first"),
            _loaded_by_position(second, second_format, "second"),
        )
        return Differences(one, other, _Rules(is_equal, True, (names, other_names)))
    one, other = loaded(first, first_format, "first"), loaded(second, second_format, "second")
    if any_names:
        return Differences(one, other, _any_names(one, other, is_equal, digits is None))
    return Differences(one, other, _Rules(is_equal, ignore_objective_name, None))


def _any_names(one: Model, other: Model, is_equal: Callable[[Decimal, Decimal], bool], is_exact: bool) -> _Rules:
    """The rules where names do not count: the partners of rows and columns have one position."""
    from mpslp._matching._call import partners

    found = partners(one._arrays, other._arrays)
    (rows, columns), (other_rows, other_columns) = one._arrays.names(), other._arrays.names()
    (left_rows, right_rows), (left_columns, right_columns) = (
        _aligned(rows, other_rows, found.rows),
        _aligned(columns, other_columns, found.columns),
    )
    return _Rules(
        is_equal, True, (Names(left_rows, left_columns), Names(right_rows, right_columns)), found.matched, is_exact
    )


def _aligned(names: list[str], others: list[str], partners: Mapping[str, str]) -> tuple[list[str], list[str]]:
    """Names of both models, partners at one position."""
    found = frozenset(partners.values())
    rest = [other for other in others if other not in found]
    return [*names, *([NO_NAME] * len(rest))], [*(partners.get(name, NO_NAME) for name in names), *rest]


def _partners(names: list[str], others: list[str]) -> dict[str, str]:
    """The names that are at the positions of names, where there are both."""
    return {name: other for name, other in zip(names, others) if NO_NAME not in (name, other)}


def assert_same_model(
    first: Model | Source,
    second: Model | Source,
    first_format: Format | None = None,
    second_format: Format | None = None,
    *,
    ignore_objective_name: bool = False,
    digits: int | None = None,
    by_position: bool = False,
) -> None:
    """Raises AssertionError if :func:`diff` finds a difference; its message has the differences, the first 100 of them.

    >>> mpslp.assert_same_model("examples/small.mps", "examples/small.lp")  # doctest: +SKIP
    """
    __tracebackhide__ = True  # pytest shows the test that fails, and not this line
    differences = diff(
        first,
        second,
        first_format,
        second_format,
        ignore_objective_name=ignore_objective_name,
        digits=digits,
        by_position=by_position,
    )
    lines = [str(each) for each in islice(differences, _MOST_LINES + 1)]
    if lines:
        if len(lines) > _MOST_LINES:
            lines[_MOST_LINES] = "..."
        raise AssertionError(
            "\n  ".join([f"{_shown(first, 'first')} and {_shown(second, 'second')} are not the same model:", *lines])
        )


def _shown(source: Model | Source, which: Which) -> str:
    """The path of a model, or which one it is."""
    return os.fsdecode(source) if isinstance(source, (str, os.PathLike)) else f"the {which}"


def _equality(digits: int | None) -> Callable[[Decimal, Decimal], bool]:
    if digits is None:
        return eq
    if not isinstance(digits, int) or not 1 <= digits <= MOST_DIGITS:
        raise ValueError(f"digits is a whole number from 1 to {MOST_DIGITS}, not {digits!r}")
    return partial(is_near, digits=digits)


def loaded(source: Model | Source, format: Format | None, which: Which) -> Model:
    """One of two models. The text is not kept."""
    return source if isinstance(source, Model) else _loaded_text(read(source, format), which)


def _loaded_by_position(source: Model | Source, format: Format | None, which: Which) -> tuple[Model, Names]:
    """One of two models, with its names by position."""
    if isinstance(source, Model):
        return source, names_by_position(None, source)
    text = read(source, format)
    model = _loaded_text(text, which)
    return model, names_by_position(text, model)


def _loaded_text(text: Text, which: Which) -> Model:
    try:
        with naming(text):
            return model_of(_mpslp.load(text.content, text.format))
    except ModelFileError as error:
        error.which = which
        raise


def _differing(next_difference: _Search, other: _mpslp.Arrays) -> Iterator[_Numbers]:
    """The numbers of what differs in two models, which have names in byte order.

    All that is the same is skipped at once.
    """
    i = k = 0
    while (found := next_difference(i, other, k)) is not None:
        i, k, order = found
        yield (i if order <= 0 else None), (k if order >= 0 else None)
        i, k = i + (order <= 0), k + (order >= 0)


def _change(first: str | Decimal, second: str | Decimal) -> str:
    return " -> ".join(each if isinstance(each, str) else number_text(each) for each in (first, second))


def _entries(count: int) -> str:
    return f"{count} entry" if count == 1 else f"{count} entries"
