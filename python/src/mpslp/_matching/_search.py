"""The search for the pairs of two graphs whose colours are the same.

A colour that there is one of makes a pair. What is left is made smaller, alike in both graphs: rows and columns that
are interchangeable, since they have the same colour and the same coefficients with the same others, become one; and
what is joined to nothing else that is left is a component, which is paired as a whole. In most components all colours
differ. The others need a search, for which there is a library. All of this may be wrong without harm: the caller checks
the pairs.
"""

from __future__ import annotations

from array import array
from collections import Counter
from collections.abc import Iterable, Sequence
from typing import NamedTuple, TypeAlias

from mpslp._matching import _by_igraph, _by_refinement
from mpslp._matching._colours import Graph, indexes_of, mixed, refined_together, repeated, words_of
from mpslp._matching._components import Component, components_of
from mpslp._matching._words import ShapeDifference

Pairs: TypeAlias = Sequence[int]
"""For each vertex of the first graph that of the second. Rows are the first vertices, and columns come after them."""

_MOST_PASSES = 8
"""How often what is left is made smaller."""


class _Left(NamedTuple):
    """What of a graph is not paired yet."""

    graph: Graph
    members: list[list[int]]
    """The vertices of the whole graph that each vertex is in place of: several if they are interchangeable."""


def pairs_of(one: Graph, other: Graph) -> Pairs | ShapeDifference:
    """The pairs of two graphs whose colours are the same, or a difference that shows up on the way.

    Raises NotFound if the search gives up.
    """
    pairs = array("q", [-1]) * len(one.colours)
    both = _without_singles(one, other, pairs)
    for _ in range(_MOST_PASSES):
        if both is None:
            return pairs
        left = len(both[0].members)
        merged = _merged(both[0]), _merged(both[1])
        graphs = refined_together(merged[0].graph, merged[1].graph)
        if graphs is None:
            return ShapeDifference("interchangeable rows or columns are not the same in number")
        both = _without_paired(_Left(graphs[0], merged[0].members), _Left(graphs[1], merged[1].members), pairs)
        if both is not None and len(both[0].members) == left:
            break
    return pairs if both is None else _paired_by_components(*both, pairs)


# ---- colours that there is one of


def _without_singles(one: Graph, other: Graph, pairs: array[int]) -> tuple[_Left, _Left] | None:
    """Pairs the vertices of whole graphs that have a colour of their own, and returns what is left;
    None if nothing is.
    """
    colours, others = one.colours, other.colours
    shared = repeated(colours)
    place = {colour: number for number, colour in enumerate(others) if colour not in shared}
    for number, colour in enumerate(colours):
        if colour not in shared:
            pairs[number] = place[colour]
    if not shared:
        return None
    left, right = ([number for number, colour in enumerate(each) if colour in shared] for each in (colours, others))
    return _Left(_part(one, left), [[v] for v in left]), _Left(_part(other, right), [[v] for v in right])


def _without_paired(one: _Left, other: _Left, pairs: array[int]) -> tuple[_Left, _Left] | None:
    """The same for what is left."""
    colours, others = one.graph.colours, other.graph.colours
    shared = repeated(colours)
    place = {colour: number for number, colour in enumerate(others) if colour not in shared}
    for number, colour in enumerate(colours):
        if colour not in shared:
            _pair(one.members[number], other.members[place[colour]], pairs)
    if not shared:
        return None
    return _kept(one, [v for v, c in enumerate(colours) if c in shared]), _kept(
        other, [v for v, c in enumerate(others) if c in shared]
    )


def _pair(members: Iterable[int], partners: Iterable[int], pairs: array[int]) -> None:
    for member, partner in zip(members, partners):
        pairs[member] = partner


def _kept(left: _Left, vertices: list[int]) -> _Left:
    return _Left(_part(left.graph, vertices), [left.members[v] for v in vertices])


def _part(graph: Graph, vertices: list[int]) -> Graph:
    """The graph of some of the vertices, which are given in order."""
    num_rows = graph.num_rows
    starts, rows, values, colours = (
        words_of(graph.starts),
        indexes_of(graph.rows),
        words_of(graph.values),
        graph.colours,
    )
    numbers = array("q", [-1]) * num_rows
    count = 0
    for v in vertices:
        if v >= num_rows:
            break
        numbers[v] = count
        count += 1
    new_starts, new_rows, new_values = array("Q", [0]), array("I"), array("Q")
    for v in vertices[count:]:
        first, end = starts[v - num_rows], starts[v - num_rows + 1]
        for k in range(first, end):
            row = numbers[rows[k]]
            if row >= 0:
                new_rows.append(row)
                new_values.append(values[k])
        new_starts.append(len(new_rows))
    new_colours = array("Q", [colours[v] for v in vertices])
    return Graph(
        new_starts.tobytes(),
        new_rows.tobytes(),
        new_values.tobytes(),
        new_colours[:count].tobytes(),
        new_colours[count:].tobytes(),
    )


# ---- rows and columns that are interchangeable


def _merged(left: _Left) -> _Left:
    """What is left with one vertex in place of interchangeable ones. How many these are is mixed into its colour."""
    graph = left.graph
    num_rows, num_columns = graph.num_rows, len(graph.column_colours) // 8
    # With numbers for colours on one side, the colours of the other side after one round are those of the whole
    # neighbourhood.
    columns = graph._replace(row_colours=array("Q", range(num_rows)).tobytes()).refined(1).column_colours
    rows = graph._replace(column_colours=array("Q", range(num_columns)).tobytes()).refined(1).row_colours
    members: list[list[int]] = []
    kept: list[int] = []
    place: dict[int, int] = {}
    for v, key in enumerate(words_of(rows + columns)):
        if key in place:
            members[place[key]].extend(left.members[v])
        else:
            place[key] = len(kept)
            kept.append(v)
            members.append(list(left.members[v]))
    part = _part(graph, kept)
    colours = part.colours
    for number, each in enumerate(members):
        if len(each) > 1:
            colours[number] = mixed(colours[number], len(each))
    return _Left(part.with_colours(colours), members)


# ---- components


def _paired_by_components(one: _Left, other: _Left, pairs: array[int]) -> Pairs | ShapeDifference:
    left, right = components_of(one.graph), components_of(other.graph)
    if Counter(each.key for each in left) != Counter(each.key for each in right):
        return ShapeDifference("the rows and columns are joined in other groups")
    partners = _by_key(right)
    with _by_igraph.Igraph() as igraph:
        for key, components in _by_key(left).items():
            for component, partner in _paired(components, partners[key], igraph):
                for v, w in component.pairs_with(partner):
                    _pair(one.members[v], other.members[w], pairs)
    return pairs


def _paired(
    components: list[Component], partners: list[Component], igraph: _by_igraph.Igraph
) -> Iterable[tuple[Component, Component]]:
    """Components whose colours are the same, each with one of the other graph, in orders that fit each other."""
    if components[0].has_distinct_colours:
        return zip(components, partners)
    if not _by_igraph.is_installed():
        return _by_refinement.paired(components, partners, "without igraph: install python3-igraph, or mpslp[names]")
    try:
        return igraph.paired(components, partners)
    except _by_igraph.TookTooLong:
        return _by_refinement.paired(
            components, partners, f"and igraph takes more than {_by_igraph.MOST_SECONDS} seconds"
        )


def _by_key(components: Iterable[Component]) -> dict[bytes, list[Component]]:
    found: dict[bytes, list[Component]] = {}
    for each in components:
        found.setdefault(each.key, []).append(each)
    return found
