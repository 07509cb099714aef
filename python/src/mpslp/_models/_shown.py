"""The text of ``mpslp show``."""

from __future__ import annotations

from collections.abc import Iterator

from mpslp._models._model import Model
from mpslp._models._numbers import number_text


def shown(model: Model) -> Iterator[str]:
    """The text, as docs/FORMATS.md says it, in blocks of whole lines, each without its last end of line."""
    rows, columns, elements = model._arrays.counts()
    yield f"sense {model.sense}"
    yield (
        f"objective {model.objective} constant {number_text(model.constant)} offset"
        f" {number_text(model.constant.copy_negate())}"
    )
    yield f"rows {rows} columns {columns} elements {elements}"
    done, total = 0, rows + columns + elements
    while done < total:
        block, done = model._arrays.lines(done)
        yield block
