"""What both sides of a merge disagree about."""

# Annotations are evaluated here: the class says that it is of the package, whose names are fewer.

from dataclasses import dataclass
from decimal import Decimal
from typing import Literal, TypeAlias

from mpslp._merge._items import ColumnItem, EntryItem, Item, ItemValue, RowItem
from mpslp._models._numbers import number_text

Side: TypeAlias = Literal["ours", "theirs"]
"""One of the two models that are merged."""

SIDES: tuple[Side, Side] = ("ours", "theirs")


@dataclass(frozen=True, slots=True)
class Conflict:
    """An item with the values of the base and of both sides. As text: ``conflict: row flour, upper limit: base 40, ours
    42, theirs 44``.

    A value is None, and as text ``none`` or ``removed``, where the row or column of the item is not in that model.
    ``removed`` has the existence of the row, of the column, or of both, that one side removed; as text ``theirs removed
    row flour``.
    """

    item: Item
    base: ItemValue
    ours: ItemValue
    theirs: ItemValue
    removed: tuple[RowItem | ColumnItem, ...] = ()

    def __str__(self) -> str:
        base, ours, theirs = _shown(self.base, "none"), self._of_side(self.ours), self._of_side(self.theirs)
        return f"conflict: {self.item}: base {base}, ours {ours}, theirs {theirs}"

    def _of_side(self, value: ItemValue) -> str:
        if not self.removed:
            return _shown(value, "none")
        # The item of a row or a column names it; that of a coefficient has both.
        what = " and ".join(each.named for each in self.removed) if isinstance(self.item, EntryItem) else ""
        return _shown(value, f"removed {what}".rstrip())

    @property
    def names(self) -> frozenset[str]:
        """The names of the row and the column that it concerns."""
        item = self.item
        if isinstance(item, EntryItem):
            return frozenset((item.row, item.column))
        name = getattr(item, "name", None)
        return frozenset() if name is None else frozenset((name,))


def _shown(value: ItemValue, missing: str) -> str:
    return missing if value is None else number_text(value) if isinstance(value, Decimal) else str(value)
