"""The order in which a text has the names of its rows and columns; a model has them in byte order."""

from __future__ import annotations

import re
from collections.abc import Iterable
from typing import TYPE_CHECKING, NamedTuple

from mpslp import _mpslp
from mpslp._files._sources import Text
from mpslp._text._lp import LpTokens
from mpslp._text._lp_words import VALUES
from mpslp._text._mps import MpsText

if TYPE_CHECKING:
    from mpslp._models._model import Model

# The name of a row after its type, and that of a column in lines of the column: a line of a marker has no row.
_MPS_ROW = re.compile(rb"\n[ \t]+\S+[ \t]+(\S+)")
_MPS_COLUMN = re.compile(rb"\n[ \t]+(\S+)[ \t]+(?!'MARKER'[ \t])\S[^\n]*(?:\n[ \t]+\1[ \t]+(?!'MARKER'[ \t])[^\n]*)*")


class Names(NamedTuple):
    """Names in the order of their positions."""

    rows: list[str]
    columns: list[str]


def names_by_position(text: Text | None, model: Model) -> Names:
    """The names of a model in the order of its text; in byte order if it has none.

    Rows are in the order of their declarations. Columns are in the order of their first appearance in LP, and in that
    of COLUMNS in MPS.
    """
    if text is None:
        return Names(list(model.rows), list(model.columns))
    names = (
        _mps_names(text.content, model)
        if text.format == _mpslp.MPS
        else _lp_names(text.content.decode("latin-1"), model)
    )
    if sorted(names.rows) != list(model.rows) or sorted(names.columns) != list(model.columns):
        raise AssertionError("the positions of the names were not found in the text")
    return names


def _mps_names(content: bytes, model: Model) -> Names:
    text = MpsText(content)
    rows = (name.decode("ascii") for name in _MPS_ROW.findall(content, *text.sections[b"ROWS"]))
    columns: dict[bytes, None] = {}
    for block in text.blocks(text.sections[b"COLUMNS"]):
        columns.update(dict.fromkeys(_MPS_COLUMN.findall(content, *block)))
    return Names([row for row in rows if row != model.objective], [name.decode("ascii") for name in columns])


def _lp_names(content: str, model: Model) -> Names:
    """A row without a label has its position in its name, as ``c3``; the other positions are those of the labels in
    turn.
    """
    labels: list[str] = []
    columns: dict[str, None] = {}
    name = ""
    for _, sort, word, _ in LpTokens(content):
        if sort == "colon":
            labels.append(name)
            name = ""
        elif sort == "word" and word.lower() not in VALUES:
            columns[name] = None
            name = word
    columns[name] = None
    del columns[""]
    rows = [label for label in labels if label != model.objective]
    return Names(_with_unlabelled(rows, model.rows), list(columns))


def _with_unlabelled(labelled: list[str], all_rows: Iterable[str]) -> list[str]:
    """All rows by position, of those that have a label, in order, and of those that are named by their position."""
    named = {int(name[1:]) - 1: name for name in set(all_rows).difference(labelled)}
    labels = iter(labelled)
    return [named[position] if position in named else next(labels) for position in range(len(named) + len(labelled))]
