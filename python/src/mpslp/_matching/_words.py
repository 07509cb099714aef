"""The first difference of two models that does not depend on names, in words."""

from __future__ import annotations

from bisect import bisect_right
from collections import Counter
from collections.abc import Callable, Iterable
from decimal import Decimal
from typing import NamedTuple

from mpslp import _mpslp
from mpslp._matching._colours import Shape, indexes_of, words_of
from mpslp._models._numbers import number_text

_KINDS = {_mpslp.CONTINUOUS: "continuous", _mpslp.INTEGER: "integer", _mpslp.SEMI_CONTINUOUS: "semi-continuous"}
_SENSES = {_mpslp.MINIMIZE: "minimize", _mpslp.MAXIMIZE: "maximize"}


class ShapeDifference(NamedTuple):
    """A difference that does not depend on names."""

    text: str
    """It in words, such as ``5 rows with limits 0 and 4, 6 in the other``; ``the other`` is the second model."""


class _Side(NamedTuple):
    """One of the models."""

    arrays: _mpslp.Arrays
    shape: Shape


def first_difference(first: _mpslp.Arrays, one: Shape, second: _mpslp.Arrays, other: Shape) -> ShapeDifference:
    """The first difference of two models whose colours differ."""
    sides = _Side(first, one), _Side(second, other)
    for find in (
        _of_models,
        _of_sizes,
        _of_rows,
        _of_bounds,
        _of_costs,
        _of_values,
        _of_row_lengths,
        _of_column_lengths,
    ):
        text = find(*sides)
        if text:
            return ShapeDifference(text)
    return ShapeDifference(_of_rounds(*sides))


def _of_models(one: _Side, other: _Side) -> str:
    (sense, _, constant), (other_sense, _, other_constant) = one.arrays.objective(), other.arrays.objective()
    if sense != other_sense:
        return f"{_SENSES[sense]}, {_SENSES[other_sense]} in the other"
    if constant != other_constant:
        return f"the constant {number_text(constant)}, {number_text(other_constant)} in the other"
    return ""


def _of_sizes(one: _Side, other: _Side) -> str:
    for what, count, other_count in zip(("row", "column"), one.arrays.counts(), other.arrays.counts()):
        if count != other_count:
            return f"{counted(count, what)}, {other_count} in the other"
    return ""


def _of_rows(one: _Side, other: _Side) -> str:
    def words(side: _Side, row: int) -> tuple[tuple[Decimal, ...], str]:
        _, lower, upper = side.arrays.row(row)
        return (lower, upper), f"row|with limits {number_text(lower)} and {number_text(upper)}"

    return _of_counts(one, other, lambda side: words_of(side.shape.graph.row_colours), words)


def _of_bounds(one: _Side, other: _Side) -> str:
    def words(side: _Side, column: int) -> tuple[tuple[Decimal, ...], str]:
        _, kind, lower, upper, _ = side.arrays.column(column)
        return (
            lower,
            upper,
            Decimal(kind),
        ), f"{_KINDS[kind]} column|with bounds {number_text(lower)} and {number_text(upper)}"

    return _of_counts(one, other, lambda side: words_of(side.shape.bounds), words)


def _of_costs(one: _Side, other: _Side) -> str:
    def words(side: _Side, column: int) -> tuple[tuple[Decimal, ...], str]:
        _, kind, lower, upper, cost = side.arrays.column(column)
        bounds = f"bounds {number_text(lower)} and {number_text(upper)}"
        return (cost, lower, upper, Decimal(kind)), f"{_KINDS[kind]} column|with {bounds} and cost {number_text(cost)}"

    return _of_counts(one, other, lambda side: words_of(side.shape.graph.column_colours), words)


def _of_values(one: _Side, other: _Side) -> str:
    parts = {id(side): (words_of(side.shape.graph.starts), indexes_of(side.shape.graph.rows)) for side in (one, other)}

    def words(side: _Side, number: int) -> tuple[tuple[Decimal, ...], str]:
        starts, rows = parts[id(side)]
        value = side.arrays.entry(rows[number], bisect_right(starts, number) - 1)
        assert value is not None
        return (value,), f"coefficient|{number_text(value)}"

    return _of_counts(one, other, lambda side: words_of(side.shape.graph.values), words)


def _of_row_lengths(one: _Side, other: _Side) -> str:
    def keys(side: _Side) -> list[tuple[int, int]]:
        counts = Counter(indexes_of(side.shape.graph.rows))
        return [(colour, counts[row]) for row, colour in enumerate(words_of(side.shape.graph.row_colours))]

    def words(side: _Side, row: int) -> tuple[tuple[Decimal, ...], str]:
        _, lower, upper = side.arrays.row(row)
        count = side.arrays.row_len(row)
        limits = f"limits {number_text(lower)} and {number_text(upper)}"
        return (Decimal(count), lower, upper), f"row|with {limits} and {counted(count, 'coefficient')}"

    return _of_counts(one, other, keys, words)


def _of_column_lengths(one: _Side, other: _Side) -> str:
    def keys(side: _Side) -> list[tuple[int, int]]:
        starts = words_of(side.shape.graph.starts)
        return [
            (colour, starts[j + 1] - starts[j]) for j, colour in enumerate(words_of(side.shape.graph.column_colours))
        ]

    def words(side: _Side, column: int) -> tuple[tuple[Decimal, ...], str]:
        _, kind, lower, upper, cost = side.arrays.column(column)
        count = side.arrays.column_len(column)
        bounds = f"bounds {number_text(lower)} and {number_text(upper)}, cost {number_text(cost)}"
        return (
            Decimal(count),
            cost,
            lower,
            upper,
            Decimal(kind),
        ), f"{_KINDS[kind]} column|with {bounds} and {counted(count, 'coefficient')}"

    return _of_counts(one, other, keys, words)


def _of_rounds(one: _Side, other: _Side) -> str:
    """How many rows and columns have no partner as soon as some have none."""
    graph, other_graph, rounds = one.shape.graph, other.shape.graph, 0
    while sorted(graph.colours) == sorted(other_graph.colours):
        graph, other_graph, rounds = graph.refined(1), other_graph.refined(1), rounds + 1
    rows = (Counter(words_of(graph.row_colours)) - Counter(words_of(other_graph.row_colours))).total()
    columns = (Counter(words_of(graph.column_colours)) - Counter(words_of(other_graph.column_colours))).total()
    counts = (
        f"{rows} of {counted(graph.num_rows, 'row')} and {columns} of"
        f" {counted(len(graph.column_colours) // 8, 'column')}"
    )
    return f"{counts} have no partner in the other: their coefficients are with other columns and rows"


def _of_counts(
    one: _Side,
    other: _Side,
    keys_of: Callable[[_Side], Iterable[object]],
    words_of_key: Callable[[_Side, int], tuple[tuple[Decimal, ...], str]],
) -> str:
    """The first, by its numbers, of what there is another number of in the other model.

    ``words_of_key`` gets where one is.
    """
    counts, others = Counter(keys_of(one)), Counter(keys_of(other))
    differing = {key for key in counts.keys() | others.keys() if counts[key] != others[key]}
    if not differing:
        return ""
    found: dict[object, tuple[tuple[Decimal, ...], str]] = {}
    for side in (one, other):
        for number, key in enumerate(keys_of(side)):
            if key in differing and key not in found:
                found[key] = words_of_key(side, number)
    key, (_, words) = min(found.items(), key=lambda item: item[1])
    what, _, rest = words.partition("|")
    return f"{counted(counts[key], what)} {rest}, {others[key]} in the other"


def counted(count: int, what: str) -> str:
    """A count and its word, as ``1 row`` or ``2 rows``."""
    return f"{count} {what}" if count == 1 else f"{count} {what}s"
