"""Pairs of components without igraph: one vertex after the other gets a colour of its own, until all colours differ.

Which vertex of the second component is that of the first is tried out one at a time, and not reconsidered later. So
this finds pairs where the vertices of one colour are interchangeable, as in most models; where they are not it gives
up.
"""

from __future__ import annotations

import time
from array import array
from collections.abc import Iterator
from typing import NamedTuple

from mpslp._matching._colours import Graph, mixed, refined_together
from mpslp._matching._components import Component
from mpslp._matching._errors import NotFound

MOST_SECONDS = 20.0
"""How long the components of one colour may take."""
_OWN = 0x5EED
"""What is mixed into the colour of the vertex that gets its own."""


def paired(components: list[Component], partners: list[Component], where: str) -> Iterator[tuple[Component, Component]]:
    """The components with their partners, both in orders that fit each other.

    Raises NotFound if no partner of one is found; its text ends with ``where``, which says why this is tried.
    """
    end = _End(time.monotonic() + MOST_SECONDS, where)
    left = list(partners)
    for component in components:
        for number, partner in enumerate(left):
            found = _in_orders_that_fit(component, partner, end)
            if found is not None:
                left[number] = left[-1]
                left.pop()
                yield found
                break
        else:
            raise NotFound(f"all colours are the same, but no map is found {where}")


class _End(NamedTuple):
    """When the search gives up."""

    time: float
    where: str

    def check(self) -> None:
        if time.monotonic() > self.time:
            raise NotFound(f"all colours are the same, but no map is found in time {self.where}")


def _in_orders_that_fit(component: Component, partner: Component, end: _End) -> tuple[Component, Component] | None:
    """Both components in the order of colours that all differ; None if there are no such colours on the way that is
    tried.
    """
    one, other = _graph_of(component), _graph_of(partner)
    while True:
        end.check()
        both = refined_together(one.graph, other.graph)
        if both is None:
            return None
        one, other = one.with_graph(both[0]), other.with_graph(both[1])
        colour = _smallest_cell(one.graph)
        if colour is None:
            return _ordered(component, one), _ordered(partner, other)
        first = one.graph.colours.index(colour)
        marked = _marked(one.graph, first)
        for candidate in (v for v, each in enumerate(other.graph.colours) if each == colour):
            end.check()
            tried = refined_together(marked, _marked(other.graph, candidate))
            if tried is not None:
                one, other = one.with_graph(tried[0]), other.with_graph(tried[1])
                break
        else:
            return None


class _Placed:
    """A component as a graph whose rows come first, and where these vertices are in the component."""

    def __init__(self, graph: Graph, places: list[int]) -> None:
        self.graph = graph
        self.places = places

    def with_graph(self, graph: Graph) -> _Placed:
        return _Placed(graph, self.places)


def _graph_of(component: Component) -> _Placed:
    columns: dict[int, list[tuple[int, int]]] = {}
    for row, column, value in component.edges:
        columns.setdefault(column, []).append((row, value))
    if not columns:  # a vertex of its own, which is a row or a column
        columns = {place: [] for place in range(len(component.vertices))}
    rows = [place for place in range(len(component.vertices)) if place not in columns]
    numbers = {place: number for number, place in enumerate(rows)}
    starts, indexes, values = array("Q", [0]), array("I"), array("Q")
    for entries in columns.values():
        for row, value in entries:
            indexes.append(numbers[row])
            values.append(value)
        starts.append(len(indexes))
    places = [*rows, *columns]
    colours = array("Q", [component.colours[place] for place in places])
    graph = Graph(starts.tobytes(), indexes.tobytes(), values.tobytes(), b"", b"")
    graph = graph._replace(row_colours=colours[: len(rows)].tobytes(), column_colours=colours[len(rows) :].tobytes())
    return _Placed(graph, places)


def _smallest_cell(graph: Graph) -> int | None:
    """A colour that the fewest vertices have, of those that several have; None if there is none."""
    counts: dict[int, int] = {}
    for colour in graph.colours:
        counts[colour] = counts.get(colour, 0) + 1
    cells = [(count, colour) for colour, count in counts.items() if count > 1]
    return min(cells)[1] if cells else None


def _marked(graph: Graph, vertex: int) -> Graph:
    colours = graph.colours
    colours[vertex] = mixed(colours[vertex], _OWN)
    return graph.with_colours(colours)


def _ordered(component: Component, placed: _Placed) -> Component:
    colours = placed.graph.colours
    return component.in_order([placed.places[v] for v in sorted(range(len(colours)), key=colours.__getitem__)])
