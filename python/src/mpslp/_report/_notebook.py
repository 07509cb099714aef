"""A model in a notebook: its counts, and its first rows as formulas."""

from __future__ import annotations

from itertools import islice

from mpslp._models._model import Model
from mpslp._models._positions import Names
from mpslp._report._formulas import bounds_as_formulas, rows_as_formulas
from mpslp._report._markup import element, joined, many

_MOST_ROWS = 10
_MOST_COLUMNS = 10_000
"""A model with more columns is not shown as formulas: its objective takes long to write."""


def html_of(model: Model) -> str:
    """The model as HTML, which needs no style sheet."""
    counts = element("p", repr(model))
    if len(model.columns) > _MOST_COLUMNS:
        return counts
    order = Names(list(islice(model.rows, _MOST_ROWS)), list(model.columns))
    is_cut = len(model.rows) > _MOST_ROWS
    caption = f": the first {_MOST_ROWS} of {many(len(model.rows), 'row')}" if is_cut else ""
    parts = [counts, rows_as_formulas(model, order, caption)]
    if not is_cut:
        parts.append(bounds_as_formulas(model, order, ""))
    return joined(parts, "\n")
