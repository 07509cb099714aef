"""A model as formulas: its objective, its rows, and the bounds of its columns, written as on paper.

Only small models have them: whoever reads the page of a large one looks for counts.
"""

from __future__ import annotations

from collections.abc import Iterator, Sequence
from decimal import Decimal

from mpslp._models._model import Column, Kind, Model, Row
from mpslp._models._numbers import ONE, ZERO, number_text
from mpslp._models._positions import Names
from mpslp._report._markup import Content, Heading, Markup, code, element, joined, many, names, table

MOST_ROWS = 30
"""A model with more rows is not shown as formulas."""
_MOST_TERMS = 40
_MOST_NAMES = 30
_MOST_GROUPS = 40

_LESS, _GREATER, _MINUS = "\N{LESS-THAN OR EQUAL TO}", "\N{GREATER-THAN OR EQUAL TO}", "\N{MINUS SIGN}"
_ELEMENT_OF = "\N{ELEMENT OF}"

_TYPES: dict[Kind, str] = {
    "continuous": "continuous",
    "integer": "integer",
    "semi-continuous": "semi-continuous: 0, or within the bounds",
}


def rows_as_formulas(model: Model, order: Names, of_file: str) -> Markup:
    """The table of the objective and the rows, in the order of the file. ``of_file`` ends the caption."""
    places = {name: place for place, name in enumerate(order.columns)}
    lines: list[Sequence[Content]] = [
        [joined((f"{model.sense} ", code(model.objective))), _objective(model, order)],
        *([code(name), _row(model.rows[name], places)] for name in order.rows),
    ]
    return table(f"Objective and rows{of_file}", ["name", Heading("formula", "formula")], lines, class_="formulas")


def bounds_as_formulas(model: Model, order: Names, of_file: str) -> Markup:
    """The table of the columns by their bounds and types; nothing if there are none."""
    groups: dict[tuple[Kind, Decimal, Decimal], list[str]] = {}
    for name in order.columns:
        column = model.columns[name]
        groups.setdefault((column.kind, column.lower, column.upper), []).append(name)
    if not groups:
        return Markup()
    shown = list(groups.items())[:_MOST_GROUPS]
    lines = [(_bounds(found, model.columns[found[0]]), _TYPES[kind]) for (kind, _, _), found in shown]
    head: list[Content | Heading] = [Heading("bounds", "words"), Heading("type", "words")]
    shown_table = table(f"Bounds and types of columns{of_file}", head, lines, class_="formulas")
    others = len(order.columns) - sum(len(found) for _, found in shown)
    if not others:
        return shown_table
    return joined((shown_table, element("p", f"{many(others, 'more column')} with other bounds.", class_="soft")))


def _objective(model: Model, order: Names) -> Markup:
    costs = ((name, model.columns[name].cost) for name in order.columns)
    return _sum([(name, cost) for name, cost in costs if cost], model.constant)


def _row(row: Row, places: dict[str, int]) -> Markup:
    terms = _sum(sorted(row.entries.items(), key=lambda entry: places[entry[0]]))
    if row.lower.is_infinite() and row.upper.is_infinite():
        return joined((terms, ", without a limit"))
    return _limited(terms, row.lower, row.upper)


def _limited(what: Content, lower: Decimal, upper: Decimal) -> Markup:
    """What has at least one finite limit, between its limits."""
    if lower == upper:
        return joined((what, f" = {_number(lower)}"))
    if upper.is_infinite():
        return joined((what, f" {_GREATER} {_number(lower)}"))
    before = "" if lower.is_infinite() else f"{_number(lower)} {_LESS} "
    return joined((before, what, f" {_LESS} {_number(upper)}"))


def _sum(terms: Sequence[tuple[str, Decimal]], constant: Decimal = ZERO) -> Markup:
    """A sum of terms, each of which stays on one line if it fits there."""
    pieces: list[tuple[bool, Content]] = [
        (value < 0, joined((_factor(value.copy_abs()), code(name)))) for name, value in terms[:_MOST_TERMS]
    ]
    others = len(terms) - _MOST_TERMS
    if others > 0:
        pieces.append((False, many(others, "other term")))
    if constant or not pieces:
        pieces.append((constant < 0, _number(constant.copy_abs())))
    return joined(_signed(pieces), " ")


def _signed(pieces: Sequence[tuple[bool, Content]]) -> Iterator[Markup]:
    for place, (is_negative, piece) in enumerate(pieces):
        sign = (f"{_MINUS} " if is_negative else "+ ") if place else (_MINUS if is_negative else "")
        yield element("span", sign, piece, class_="term")


def _factor(magnitude: Decimal) -> str:
    return "" if magnitude == ONE else f"{number_text(magnitude)} "


def _number(number: Decimal) -> str:
    return number_text(number).replace("-", _MINUS, 1) if number < 0 else number_text(number)


def _bounds(found: Sequence[str], column: Column) -> Markup:
    """The bounds of columns that have those of this one."""
    listed = names(found, _MOST_NAMES)
    lower, upper = column.lower, column.upper
    if lower.is_infinite() and upper.is_infinite():
        return joined((listed, " free"))
    if column.kind == "integer" and (lower, upper) == (ZERO, ONE):
        return joined((listed, f" {_ELEMENT_OF} {{0, 1}}"))
    return _limited(listed, lower, upper)
