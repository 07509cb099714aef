"""The connected parts of a graph."""

from __future__ import annotations

from array import array
from collections.abc import Iterator
from dataclasses import dataclass

from mpslp._matching._colours import Graph, indexes_of, words_of


@dataclass(frozen=True)
class Component:
    """Vertices that are joined to each other and to no others, in the order of their colours."""

    vertices: list[int]
    """The vertices of the graph."""
    colours: list[int]
    """Their colours."""
    edges: list[tuple[int, int, int]]
    """For each entry, where its row and its column are in the list of vertices, and the hash of its value."""

    @property
    def key(self) -> bytes:
        """What is the same in both graphs for components that are paired: how many entries there
        are, and the colours.
        """
        return array("Q", [len(self.edges), *self.colours]).tobytes()

    @property
    def has_distinct_colours(self) -> bool:
        return len(set(self.colours)) == len(self.colours)

    def in_order(self, order: list[int]) -> Component:
        """The component with its vertices in another order, given as places in the list of vertices."""
        places = {place: number for number, place in enumerate(order)}
        edges = [(places[row], places[column], value) for row, column, value in self.edges]
        return Component([self.vertices[place] for place in order], [self.colours[place] for place in order], edges)

    def pairs_with(self, partner: Component) -> Iterator[tuple[int, int]]:
        """The vertices of both that are at the same places."""
        return zip(self.vertices, partner.vertices)


def components_of(graph: Graph) -> list[Component]:
    """The components of a graph."""
    num_rows, colours = graph.num_rows, graph.colours
    starts, rows, values = words_of(graph.starts), indexes_of(graph.rows), words_of(graph.values)
    roots = _roots(num_rows, len(colours), starts, rows)
    vertices: dict[int, list[int]] = {}
    for v, root in enumerate(roots):
        vertices.setdefault(root, []).append(v)
    places = array("q", [0]) * len(colours)
    for each in vertices.values():
        each.sort(key=colours.__getitem__)
        for place, v in enumerate(each):
            places[v] = place
    edges: dict[int, list[tuple[int, int, int]]] = {root: [] for root in vertices}
    for column in range(len(colours) - num_rows):
        v = num_rows + column
        found, place = edges[roots[v]], places[v]
        found.extend((places[rows[k]], place, values[k]) for k in range(starts[column], starts[column + 1]))
    return [Component(each, [colours[v] for v in each], edges[root]) for root, each in vertices.items()]


def _roots(num_rows: int, count: int, starts: array[int], rows: array[int]) -> list[int]:
    """One vertex of the component of each vertex."""
    parents = list(range(count))

    def root_of(v: int) -> int:
        while parents[v] != v:
            parents[v] = parents[parents[v]]
            v = parents[v]
        return v

    for column in range(count - num_rows):
        root = root_of(num_rows + column)
        for k in range(starts[column], starts[column + 1]):
            row = root_of(rows[k])
            if row != root:
                parents[row] = root  # a tree of rows below columns; halving keeps it flat
    return [root_of(v) for v in range(count)]
