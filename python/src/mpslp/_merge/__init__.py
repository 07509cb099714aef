"""Merges of models: two models that were made of one base become one, item by item.

``_items`` has the items of a model and what one model changes in another, ``_rules`` decides for each item,
``_conflicts`` has what is reported where both sides disagree, ``_check`` compares the result with both sides, and
``_texts`` merges the texts.
"""

from mpslp._merge._call import Merged, merge
from mpslp._merge._conflicts import Conflict
from mpslp._merge._items import ColumnItem, EntryItem, Item, ItemValue, ModelItem, NameItem, RowItem, Sides

__all__ = [
    "ColumnItem",
    "Conflict",
    "EntryItem",
    "Item",
    "ItemValue",
    "Merged",
    "ModelItem",
    "NameItem",
    "RowItem",
    "Sides",
    "merge",
]
