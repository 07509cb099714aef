"""The section on the differences of two models."""

from __future__ import annotations

from collections import Counter
from collections.abc import Iterable

import mpslp
from mpslp import _mpslp
from mpslp._files._sources import Format
from mpslp._report._markup import Markup, code, element, joined, many, table
from mpslp._report._subjects import Subject

_MOST_SHOWN = 100
_FORMATS: dict[int, Format] = {_mpslp.MPS: "mps", _mpslp.LP: "lp"}

_READING = (
    "A number of the first file -> that of the second one; - is what only the first has, + what only the second has."
)

# What the classes of differences are about.
_SORTS = {
    "ModelDifference": "sense, name and constant of the objective",
    "RowOnly": "rows that only one model has",
    "RowDifference": "limits of rows",
    "ColumnOnly": "columns that only one model has",
    "ColumnDifference": "types, bounds and objective coefficients of columns",
    "EntryDifference": "coefficients in rows",
}


def differences(first: Subject, second: Subject, digits: int | None, by_position: bool) -> Markup:
    """Whether two files define the same model, and if not, the differences."""
    if first.model == second.model:
        return element("p", "The files define the same model.")
    sorts: Counter[str] = Counter()
    shown: list[Markup] = []
    for each in found_differences(first, second, digits, by_position):
        sorts[type(each).__name__] += 1
        if len(shown) < _MOST_SHOWN:
            shown.append(element("li", code(str(each))))
    count = sum(sorts.values())
    compared = _compared(digits, by_position)
    if not count:
        return element("p", f"The files define different models, but there is no difference{compared}.")
    lines = [(_SORTS.get(sort, sort), number) for sort, number in sorts.items()]
    return joined(
        (
            element("p", f"The files define different models: {many(count, 'difference')}{compared}."),
            table(f"Differences of {first.label} and {second.label}", ["what", "differences"], lines),
            element(
                "details",
                element("summary", _shown(count, len(shown))),
                element("p", _READING, class_="soft"),
                element("ol", joined(shown, "\n")),
                open="",
            ),
        ),
        "\n",
    )


def found_differences(first: Subject, second: Subject, digits: int | None, by_position: bool) -> Iterable[object]:
    """The differences of two models."""
    if not by_position:
        return mpslp.diff(first.model, second.model, digits=digits)
    # Positions are those of the texts.
    texts = first.text, second.text
    formats = [_FORMATS[text.format] for text in texts]
    return mpslp.diff(texts[0].content, texts[1].content, formats[0], formats[1], digits=digits, by_position=True)


def _compared(digits: int | None, by_position: bool) -> str:
    """How the models are compared, if it is not exactly and by names."""
    ways = []
    if digits is not None:
        ways.append(f"to {many(digits, 'digit')}")
    if by_position:
        ways.append("by position")
    return f" if they are compared {' and '.join(ways)}" if ways else ""


def _shown(count: int, shown: int) -> str:
    return "The differences" if count == shown else f"The first {shown:,} differences; mpslp-tools diff prints all"
