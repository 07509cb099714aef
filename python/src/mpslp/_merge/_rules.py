"""What becomes of each item: the value of the side that changed it, or a conflict."""

from __future__ import annotations

from collections.abc import Callable, Iterable, Iterator, Mapping
from decimal import Decimal
from typing import NamedTuple, cast

from mpslp._merge._conflicts import SIDES, Conflict, Side
from mpslp._merge._items import (
    Changes,
    ColumnItem,
    EntryItem,
    Item,
    ItemValue,
    ModelItem,
    NameItem,
    RowItem,
    Sides,
    applied,
    changes,
    is_there,
    value_in,
)
from mpslp._models._model import Column, Kind, Model, Row

_LIMITS = ("lower", "upper")
_BOUNDS = ("kind", "lower", "upper")


class Three(NamedTuple):
    """The models of a merge."""

    base: Model
    ours: Model
    theirs: Model

    def values(self, item: Item) -> tuple[ItemValue, ItemValue, ItemValue]:
        """The values of an item in these models."""
        return value_in(self.base, item), value_in(self.ours, item), value_in(self.theirs, item)

    def conflict(self, item: Item) -> Conflict:
        """A conflict about an item, which says what of it a side removed."""
        parts = [part for part in _parts_of(item) if is_there(self.base, part)]
        removed = (part for part in parts if not (is_there(self.ours, part) and is_there(self.theirs, part)))
        return Conflict(item, *self.values(item), tuple(removed))


class Decided:
    """The decisions about all items that a side changed: the changes that are merged, and the conflicts."""

    def __init__(self, models: Three) -> None:
        self.models = models
        self.of_ours = changes(models.base, models.ours)
        self.of_theirs = changes(models.base, models.theirs)
        self.merged: Changes = {}
        self._conflicts: dict[Item, Conflict] = {}
        for item in {**self.of_ours, **self.of_theirs}:
            self._decide(item)
        self._check_sides()
        self._check_model()

    @property
    def conflicts(self) -> tuple[Conflict, ...]:
        """In the order of the items: of the model, of rows, of columns, of coefficients."""
        return tuple(sorted(self._conflicts.values(), key=_order))

    # ---- item by item

    def _decide(self, item: Item) -> None:
        is_ours, is_theirs = item in self.of_ours, item in self.of_theirs
        if isinstance(item, (RowItem, ColumnItem)) and item.what == "existence":
            self.merged[item] = self.of_ours[item] if is_ours else self.of_theirs[item]
            return
        base, ours, theirs = self.models.values(item)
        if (is_ours and self._is_removed("theirs", item)) or (is_theirs and self._is_removed("ours", item)):
            self._conflicts[item] = self.models.conflict(item)
        elif ours == theirs or _is_unchanged(theirs, base):
            self.merged[item] = ours
        elif _is_unchanged(ours, base):
            self.merged[item] = theirs
        else:
            self._conflicts[item] = self.models.conflict(item)

    def _is_removed(self, side: Side, item: Item) -> bool:
        """Whether a side removed the row or the column of an item."""
        of_side = self.of_ours if side == "ours" else self.of_theirs
        return any(of_side.get(part) is False for part in _parts_of(item))

    # ---- what the values are together

    def _check_sides(self) -> None:
        """Limits of a row, and kinds and bounds of a column, that do not fit each other are a conflict as a whole."""
        for name in _changed_by_both(RowItem, _LIMITS, self.of_ours, self.of_theirs):
            self._check_side(RowItem(name, "limits"), [RowItem(name, "lower"), RowItem(name, "upper")], _is_row)
        for name in _changed_by_both(ColumnItem, _BOUNDS, self.of_ours, self.of_theirs):
            parts = [ColumnItem(name, "kind"), ColumnItem(name, "lower"), ColumnItem(name, "upper")]
            self._check_side(ColumnItem(name, "bounds"), parts, _is_column)

    def _check_side(self, whole: Item, parts: Iterable[Item], is_legal: Callable[[list[ItemValue]], bool]) -> None:
        if all(is_legal([self._resolved(part, side) for part in parts]) for side in SIDES):
            return
        for part in parts:
            self.merged.pop(part, None)
            self._conflicts.pop(part, None)
        self._conflicts[whole] = self.models.conflict(whole)

    def _resolved(self, item: Item, side: Side) -> ItemValue:
        """The value of an item if conflicts have that of a side."""
        if item in self._conflicts:
            return cast(ItemValue, getattr(self._conflicts[item], side))
        return self.merged[item] if item in self.merged else value_in(self.models.base, item)

    def _check_model(self) -> None:
        """A name is that of the objective or of a row, and a model has a column."""
        objective = self.merged.get(ModelItem("objective"), self.models.base.objective)
        for model in self.models[1:]:
            clash = NameItem(str(objective))
            if value_in(model, clash) == "row" and self.merged.get(RowItem(clash.name, "existence")) is not False:
                self._conflicts[clash] = self.models.conflict(clash)
        removed = sum(
            isinstance(item, ColumnItem) and item.what == "existence" and value is False
            for item, value in self.merged.items()
        )
        has_new = any(
            isinstance(item, ColumnItem) and item.what == "existence" and value is True
            for item, value in self.merged.items()
        )
        if removed == len(self.models.base.columns) and not has_new:
            self._conflicts[ModelItem("columns")] = self.models.conflict(ModelItem("columns"))

    # ---- models

    def model(self) -> Model:
        """The merged model, of a merge without conflicts."""
        return applied(self.models.base, self.merged)

    def model_of(self, side: Side) -> Model:
        """The merged model in which each conflict has the value of a side."""
        own: Model = getattr(self.models, side)
        try:
            return applied(self.models.base, self._changes_of(side, own))
        except ValueError:  # the values of the conflicts are none of one model
            return own

    def _changes_of(self, side: Side, own: Model) -> Changes:
        found = dict(self.merged)
        for conflict in self._conflicts.values():
            item = conflict.item
            for part in _parts_of(item):
                if is_there(own, part) and found.get(part) is False:
                    del found[part]  # the other side removed what this side changed or uses
            found.update(_values_of(item, cast(ItemValue, getattr(conflict, side))))
            if isinstance(item, NameItem):
                found[ModelItem("objective")] = own.objective
                if item.name not in own.rows:
                    found = {each: value for each, value in found.items() if not _is_of_row(each, item.name)}
        return found


def merged_by(of_ours: Mapping[Item, ItemValue], of_theirs: Mapping[Item, ItemValue]) -> Changes | None:
    """All that two sides change, or None if they change an item to different values."""
    if any(of_theirs[item] != value for item, value in of_ours.items() if item in of_theirs):
        return None
    return {**of_ours, **of_theirs}


def _is_unchanged(value: ItemValue, base: ItemValue) -> bool:
    """Whether a side has the value of the base, or does not have the row or the column at all."""
    return value is None or value == base


def _parts_of(item: Item) -> tuple[RowItem | ColumnItem, ...]:
    """The existence of the row and the column of an item."""
    if isinstance(item, EntryItem):
        return RowItem(item.row, "existence"), ColumnItem(item.column, "existence")
    if isinstance(item, RowItem):
        return (RowItem(item.name, "existence"),)
    return (ColumnItem(item.name, "existence"),) if isinstance(item, ColumnItem) else ()


def _changed_by_both(
    of: type[RowItem] | type[ColumnItem], what: tuple[str, ...], ours: Changes, theirs: Changes
) -> Iterator[str]:
    """The names of the rows or columns of which both sides change one of these items."""
    found, others = (dict.fromkeys(_names_of(of, what, each)) for each in (ours, theirs))
    return (name for name in found if name in others)


def _names_of(of: type[RowItem] | type[ColumnItem], what: tuple[str, ...], items: Iterable[Item]) -> Iterator[str]:
    for item in items:
        if isinstance(item, (RowItem, ColumnItem)) and type(item) is of and item.what in what:
            yield item.name


def _is_row(values: list[ItemValue]) -> bool:
    return _is_legal(lambda: Row("r", *cast("list[Decimal]", values)))


def _is_column(values: list[ItemValue]) -> bool:
    kind, lower, upper = values
    return _is_legal(lambda: Column("x", cast(Kind, kind), cast(Decimal, lower), cast(Decimal, upper)))


def _is_legal(make: Callable[[], Row | Column]) -> bool:
    try:
        make()
    except ValueError:
        return False
    return True


def _values_of(item: Item, value: ItemValue) -> Changes:
    """An item with the value of a side, where it has one, as changes of items that a model has."""
    if value is None or isinstance(item, NameItem):
        return {}
    if isinstance(value, Sides) and isinstance(item, RowItem):
        return {RowItem(item.name, "lower"): value.lower, RowItem(item.name, "upper"): value.upper}
    if isinstance(value, Sides) and isinstance(item, ColumnItem):
        lower, upper = ColumnItem(item.name, "lower"), ColumnItem(item.name, "upper")
        return {ColumnItem(item.name, "kind"): value.kind, lower: value.lower, upper: value.upper}
    return {item: value}


def _is_of_row(item: Item, name: str) -> bool:
    return name == (item.row if isinstance(item, EntryItem) else item.name if isinstance(item, RowItem) else None)


def _order(conflict: Conflict) -> tuple[int, str, str]:
    item = conflict.item
    if isinstance(item, EntryItem):
        return 3, item.column, item.row
    number = 1 if isinstance(item, RowItem) else 2 if isinstance(item, ColumnItem) else 0
    return number, getattr(item, "name", ""), getattr(item, "what", "")
