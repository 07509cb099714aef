"""The items of a model that a merge decides one by one, and what one model changes in another."""

# Annotations are evaluated here: the classes say that they are of the package, whose names are fewer.

from collections.abc import Iterator, Mapping
from dataclasses import dataclass
from decimal import Decimal
from typing import Literal, NamedTuple, TypeAlias, cast

from mpslp._models._differences import (
    ColumnDifference,
    ColumnOnly,
    Difference,
    EntryDifference,
    ModelDifference,
    RowDifference,
    RowOnly,
    diff,
)
from mpslp._models._model import Column, Kind, Model, Row, Sense
from mpslp._models._numbers import ZERO, number_text


@dataclass(frozen=True, slots=True)
class ModelItem:
    """The sense, the name of the objective, its constant, or the number of columns. As text: ``sense``."""

    what: Literal["sense", "objective", "constant", "columns"]

    def __str__(self) -> str:
        return {"objective": "name of the objective", "columns": "number of columns"}.get(self.what, self.what)


@dataclass(frozen=True, slots=True)
class RowItem:
    """A property of a row; ``"limits"`` are both limits where these are no limits of a row together.

    As text: ``row flour, upper limit``.
    """

    name: str
    what: Literal["existence", "lower", "upper", "limits"]

    def __str__(self) -> str:
        return f"{self.named}, {_named(self.what, 'limit')}"

    @property
    def named(self) -> str:
        """The row. As text: ``row flour``."""
        return f"row {self.name}"


@dataclass(frozen=True, slots=True)
class ColumnItem:
    """A property of a column; ``"bounds"`` are its kind and bounds where these do not fit each other. As text: ``column
    x, cost``.
    """

    name: str
    what: Literal["existence", "kind", "lower", "upper", "cost", "bounds"]

    def __str__(self) -> str:
        return f"{self.named}, {_named(self.what, 'bound')}"

    @property
    def named(self) -> str:
        """The column. As text: ``column x``."""
        return f"column {self.name}"


@dataclass(frozen=True, slots=True)
class EntryItem:
    """The coefficient of a column in a row. As text: ``row flour, coefficient of x``."""

    row: str
    column: str

    def __str__(self) -> str:
        return f"row {self.row}, coefficient of {self.column}"


@dataclass(frozen=True, slots=True)
class NameItem:
    """A name that is that of the objective on one side, and that of a row on the other. As text: ``name profit``."""

    name: str

    def __str__(self) -> str:
        return f"name {self.name}"


class Sides(NamedTuple):
    """Both limits of a row, or the kind and the bounds of a column. As text: ``0 to 40``, or ``integer, 0 to 40``."""

    kind: Kind | None
    lower: Decimal
    upper: Decimal

    def __str__(self) -> str:
        return f"{'' if self.kind is None else f'{self.kind}, '}{number_text(self.lower)} to {number_text(self.upper)}"


Item: TypeAlias = ModelItem | RowItem | ColumnItem | EntryItem | NameItem
"""What a merge decides by itself."""

ItemValue: TypeAlias = Decimal | str | bool | Sides | None
"""The value of an item in a model; None where its row or column is not in the model."""

Changes: TypeAlias = dict[Item, ItemValue]
"""Items with the values that they get."""


def changes(base: Model, other: Model) -> Changes:
    """The items that another model changes, with its values.

    Of a row or column that it removes there is the existence only.
    """
    found: Changes = {}
    for each in diff(base, other):
        found.update(_changed(each))
    return found


def value_in(model: Model, item: Item) -> ItemValue:
    """The value of an item in a model; None where its row or column is not in the model."""
    if isinstance(item, ModelItem):
        return Decimal(len(model.columns)) if item.what == "columns" else cast(ItemValue, getattr(model, item.what))
    if isinstance(item, RowItem):
        row = model.rows.get(item.name)
        return (
            None
            if row is None
            else Sides(None, row.lower, row.upper)
            if item.what == "limits"
            else cast(Decimal, getattr(row, item.what))
        )
    if isinstance(item, NameItem):
        return "objective" if item.name == model.objective else "row" if item.name in model.rows else None
    column = model.columns.get(item.name if isinstance(item, ColumnItem) else item.column)
    if column is None:
        return None
    if isinstance(item, EntryItem):
        return column.entries.get(item.row, ZERO) if item.row in model.rows else None
    return (
        Sides(column.kind, column.lower, column.upper)
        if item.what == "bounds"
        else cast(ItemValue, getattr(column, item.what))
    )


def is_there(model: Model, item: RowItem | ColumnItem) -> bool:
    """Whether the row or the column of an item is in a model."""
    return item.name in (model.rows if isinstance(item, RowItem) else model.columns)


def applied(base: Model, given: Mapping[Item, ItemValue]) -> Model:
    """The model with these items changed. Raises ValueError if that is no model."""
    parts = _Parts(base, given)
    sense = given.get(ModelItem("sense"), base.sense)
    objective = given.get(ModelItem("objective"), base.objective)
    constant = given.get(ModelItem("constant"), base.constant)
    rows, columns = parts.changed_rows(), parts.changed_columns()
    if not parts.removed_rows and not parts.removed_columns:
        return base.replace(
            sense=cast(Sense, sense),
            objective=cast(str, objective),
            constant=cast(Decimal, constant),
            rows=rows,
            columns=columns,
        )
    all_rows = [
        *(row for name, row in base.rows.items() if name not in rows and name not in parts.removed_rows),
        *rows.values(),
    ]
    kept = (
        column for name, column in base.columns.items() if name not in columns and name not in parts.removed_columns
    )
    return Model(
        cast(Sense, sense), cast(str, objective), cast(Decimal, constant), all_rows, [*kept, *columns.values()]
    )


class _Parts:
    """The rows and columns that changes of items concern."""

    def __init__(self, base: Model, given: Mapping[Item, ItemValue]) -> None:
        self._base = base
        self._rows: dict[str, dict[str, ItemValue]] = {}
        self._columns: dict[str, dict[str, ItemValue]] = {}
        self._entries: dict[str, dict[str, Decimal]] = {}
        for item, value in given.items():
            if isinstance(item, EntryItem):
                self._entries.setdefault(item.column, {})[item.row] = cast(Decimal, value)
            elif isinstance(item, RowItem):
                self._rows.setdefault(item.name, {})[item.what] = value
            elif isinstance(item, ColumnItem):
                self._columns.setdefault(item.name, {})[item.what] = value
        self.removed_rows = {name for name, values in self._rows.items() if values.get("existence") is False}
        self.removed_columns = {name for name, values in self._columns.items() if values.get("existence") is False}

    def changed_rows(self) -> dict[str, Row]:
        return {name: self._row(name, values) for name, values in self._rows.items() if name not in self.removed_rows}

    def changed_columns(self) -> dict[str, Column]:
        of_removed_rows = (
            column for row in self.removed_rows if row in self._base.rows for column in self._base.rows[row].entries
        )
        names = dict.fromkeys((*self._columns, *self._entries, *of_removed_rows))
        return {name: self._column(name) for name in names if name not in self.removed_columns}

    def _row(self, name: str, values: Mapping[str, ItemValue]) -> Row:
        before = self._base.rows.get(name) or Row(name)
        return Row(name, *(cast(Decimal, values.get(what, getattr(before, what))) for what in ("lower", "upper")))

    def _column(self, name: str) -> Column:
        before = self._base.columns.get(name) or Column(name)
        values = self._columns.get(name, {})
        kind, lower, upper, cost = (
            values.get(what, getattr(before, what)) for what in ("kind", "lower", "upper", "cost")
        )
        entries = {**before.entries, **self._entries.get(name, {})}
        kept = {row: value for row, value in entries.items() if row not in self.removed_rows}
        return Column(name, cast(Kind, kind), cast(Decimal, lower), cast(Decimal, upper), cast(Decimal, cost), kept)


def _changed(each: Difference) -> Iterator[tuple[Item, ItemValue]]:
    """The items of a difference, with their values in the second model."""
    if isinstance(each, ModelDifference):
        yield ModelItem(each.what), each.second
    elif isinstance(each, RowDifference):
        yield RowItem(each.name, each.what), each.second
    elif isinstance(each, ColumnDifference):
        yield ColumnItem(each.name, each.what), each.second
    elif isinstance(each, EntryDifference):
        yield EntryItem(each.row, each.column), each.second
    elif isinstance(each, RowOnly):
        yield RowItem(each.row.name, "existence"), each.which == "second"
        if each.which == "second":
            yield from _of_row(each.row)
    elif isinstance(each, ColumnOnly):
        yield ColumnItem(each.column.name, "existence"), each.which == "second"
        if each.which == "second":
            yield from _of_column(each.column)


def _of_row(row: Row) -> Iterator[tuple[Item, ItemValue]]:
    yield RowItem(row.name, "lower"), row.lower
    yield RowItem(row.name, "upper"), row.upper
    for column, value in row.entries.items():
        yield EntryItem(row.name, column), value


def _of_column(column: Column) -> Iterator[tuple[Item, ItemValue]]:
    yield ColumnItem(column.name, "kind"), column.kind
    yield ColumnItem(column.name, "lower"), column.lower
    yield ColumnItem(column.name, "upper"), column.upper
    yield ColumnItem(column.name, "cost"), column.cost
    for row, value in column.entries.items():
        yield EntryItem(row, column.name), value


def _named(what: str, side: str) -> str:
    return f"{what} {side}" if what in ("lower", "upper") else what
