"""Partners of rows and columns in two models that differ, also under other names.

Rows and columns with one name are partners. Of the others those are that have a colour of their own in both models.
Each pair gives its neighbours a place that they can be known by, so colours are looked at again after each step: first
those of limits, bounds, costs and coefficients; then, for what was changed itself, those of coefficients only, and at
last of where coefficients are.
"""

from __future__ import annotations

from array import array
from collections import Counter
from collections.abc import Callable, Iterator, Mapping
from typing import NamedTuple

from mpslp import _mpslp
from mpslp._matching._colours import Graph, mixed, shape_of
from mpslp._matching._map import NameMap
from mpslp._matching._words import counted

_MOST_STEPS = 60
"""How often colours are looked at."""
_ROUNDS = 4
"""How many rounds of colours are looked at after a pair was found."""
_PAIRED, _ROW, _COLUMN, _VALUE = range(4)
"""What is mixed into colours that are not those of the models."""


class Matched(NamedTuple):
    """How many rows and columns of two models were matched."""

    rows_by_name: int
    columns_by_name: int
    rows_by_shape: int
    columns_by_shape: int

    def __str__(self) -> str:
        return (
            f"matched: {counted(self.rows_by_name, 'row')} and {counted(self.columns_by_name, 'column')} by name, "
            f"{counted(self.rows_by_shape, 'row')} and {counted(self.columns_by_shape, 'column')} by shape"
        )


class Partners(NamedTuple):
    """The names of rows and of columns of the first model, each with that of its partner in the second."""

    rows: Mapping[str, str]
    columns: Mapping[str, str]

    @property
    def matched(self) -> Matched:
        rows, columns = (sum(name == other for name, other in each.items()) for each in self)
        return Matched(rows, columns, len(self.rows) - rows, len(self.columns) - columns)


def partners_of_map(names: NameMap) -> Partners:
    """The partners in two models that are the same but for names."""
    return Partners(names.rows, names.columns)


def partners_of(first: _mpslp.Arrays, second: _mpslp.Arrays) -> Partners:
    """The partners in two models that differ."""
    sides = _Side(first), _Side(second)
    for v, w in _with_one_name(*sides):
        _pair(sides, v, w)
    steps = iter(range(_MOST_STEPS))
    while any(_match_by(sides, level, steps) for level in _LEVELS):
        pass
    one, other = sides
    pairs = [(one.names[v], other.names[w]) for v, w in enumerate(one.partners) if w >= 0]
    rows = sum(w >= 0 for w in one.partners[: one.graph.num_rows])
    return Partners(dict(pairs[:rows]), dict(pairs[rows:]))


class _Side:
    """One of the models, and the partners of its rows and columns that are known."""

    def __init__(self, arrays: _mpslp.Arrays) -> None:
        rows, columns = arrays.names()
        self.names = [*rows, *columns]
        self.graph = shape_of(arrays).graph
        self.partners = array("q", [-1]) * len(self.names)
        self.marks: dict[int, int] = {}
        """The colours of those that have a partner, which has the same."""

    def graph_with(self, level: _Level) -> Graph:
        """The graph with the first colours of a level, and the marks."""
        graph = level(self.graph)
        colours = graph.colours
        for v, mark in self.marks.items():
            colours[v] = mark
        return graph.with_colours(colours)


_Level = Callable[[Graph], Graph]


def _as_it_is(graph: Graph) -> Graph:
    return graph


def _without_limits(graph: Graph) -> Graph:
    """A graph in which all rows have one colour, and all columns."""
    rows, columns = graph.num_rows, len(graph.column_colours) // 8
    return graph.with_colours(array("Q", [mixed(0, _ROW)]) * rows + array("Q", [mixed(0, _COLUMN)]) * columns)


def _without_numbers(graph: Graph) -> Graph:
    """The same, and all coefficients are equal."""
    return _without_limits(graph)._replace(values=(array("Q", [mixed(0, _VALUE)]) * (len(graph.values) // 8)).tobytes())


_LEVELS: tuple[_Level, ...] = (_as_it_is, _without_limits, _without_numbers)


def _with_one_name(one: _Side, other: _Side) -> Iterator[tuple[int, int]]:
    """The rows of both sides with one name, and the columns."""
    rows, other_rows = one.graph.num_rows, other.graph.num_rows
    for begin, end, other_begin, other_end in (
        (0, rows, 0, other_rows),
        (rows, len(one.names), other_rows, len(other.names)),
    ):
        places = {name: w for w, name in enumerate(other.names[other_begin:other_end], other_begin)}
        for v, name in enumerate(one.names[begin:end], begin):
            if name in places:
                yield v, places[name]


def _pair(sides: tuple[_Side, _Side], v: int, w: int) -> None:
    one, other = sides
    one.partners[v], other.partners[w] = w, v
    one.marks[v] = other.marks[w] = mixed(mixed(0, _PAIRED), v)


def _match_by(sides: tuple[_Side, _Side], level: _Level, steps: Iterator[int]) -> bool:
    """Whether a pair was found by the colours of a level, in some rounds."""
    graphs = [side.graph_with(level) for side in sides]
    for _ in range(_ROUNDS + 1):
        if next(steps, None) is None:
            return False
        found = list(_only_ones(sides, graphs))
        for v, w in found:
            _pair(sides, v, w)
        if found:
            return True
        graphs = [graph.refined(1) for graph in graphs]
    return False


def _only_ones(sides: tuple[_Side, _Side], graphs: list[Graph]) -> Iterator[tuple[int, int]]:
    """Rows and columns without a partner, each the only one with its colour in both models."""
    free = [
        [(v, colour) for v, colour in enumerate(graph.colours) if side.partners[v] < 0]
        for side, graph in zip(sides, graphs)
    ]
    counts = [Counter(colour for _, colour in each) for each in free]
    places = {colour: w for w, colour in free[1] if counts[1][colour] == 1}
    for v, colour in free[0]:
        if counts[0][colour] == 1 and colour in places:
            yield v, places[colour]
