"""Pairs of components by igraph: two components are the same if and only if they are equal in the order of its
canonical permutation.
"""

from __future__ import annotations

import subprocess
import sys
from array import array
from collections import Counter
from contextlib import suppress
from importlib.util import find_spec
from types import TracebackType

from mpslp._matching import _canonical_order
from mpslp._matching._components import Component
from mpslp._matching._errors import NotFound

MOST_SECONDS = 60
"""How long igraph may use a processor for two models."""


class TookTooLong(Exception):
    """igraph took too long, or its process ended."""


def is_installed() -> bool:
    """Whether igraph is installed, and there is a Python to run it."""
    return bool(sys.executable) and find_spec("igraph") is not None


def _form(component: Component) -> int:
    """A hash of the colours and entries in order; pairs are checked, so two that are equal by chance do no harm."""
    return hash((tuple(component.colours), tuple(component.edges)))


class Igraph:
    """igraph in a process of its own, which is started when it is needed, and which the system ends when it takes too
    long.
    """

    def __init__(self) -> None:
        self._process: subprocess.Popen[bytes] | None = None

    def __enter__(self) -> Igraph:
        return self

    def __exit__(
        self, kind: type[BaseException] | None, error: BaseException | None, trace: TracebackType | None
    ) -> None:
        if self._process is not None:
            self._process.kill()
            self._process.wait()
            for pipe in filter(None, (self._process.stdin, self._process.stdout)):
                with suppress(BrokenPipeError):  # by what is left of a graph
                    pipe.close()

    def paired(self, components: list[Component], partners: list[Component]) -> list[tuple[Component, Component]]:
        """The components with their partners, both in canonical order.

        Raises NotFound if one has no partner, and TookTooLong.
        """
        left: dict[int, list[Component]] = {}
        found: list[tuple[Component, Component]] = []
        for partner in partners:
            ordered = self._in_canonical_order(partner)
            left.setdefault(_form(ordered), []).append(ordered)
        for component in components:
            ordered = self._in_canonical_order(component)
            same = left.get(_form(ordered))
            if not same:
                raise NotFound("all colours are the same, but igraph finds no map")
            found.append((ordered, same.pop()))
        return found

    def _started(self) -> subprocess.Popen[bytes]:
        if self._process is None:
            words = [sys.executable, _canonical_order.__file__, str(MOST_SECONDS)]
            self._process = subprocess.Popen(
                words, stdin=subprocess.PIPE, stdout=subprocess.PIPE, stderr=subprocess.DEVNULL
            )
        return self._process

    def _in_canonical_order(self, component: Component) -> Component:
        plain = _PlainGraph(component)
        found = component.in_order(plain.in_order(self._order_of(plain.edges, plain.colours)))
        found.edges.sort()
        return found

    def _order_of(self, edges: array[int], colours: array[int]) -> array[int]:
        """The canonical number of each vertex."""
        process = self._started()
        source, target = process.stdout, process.stdin
        assert source is not None and target is not None
        size = _canonical_order.ITEM * len(colours)
        try:
            target.write(
                b"".join((array("q", [len(colours), len(edges) // 2]).tobytes(), colours.tobytes(), edges.tobytes()))
            )
            target.flush()
            answer = source.read(size)
        except BrokenPipeError:
            answer = b""
        if len(answer) != size:
            raise TookTooLong
        return array("q", answer)


class _PlainGraph:
    """A component as a graph of edges without values, and with colours from 0.

    Of the values between the vertices of two colours the most frequent one is that of a plain edge. Each other edge
    gets a vertex, whose colour is that of its value. Likewise a column with two coefficients is an edge between its
    rows if it is like most columns between rows of these colours: so the graph of an assignment has rows only.
    """

    def __init__(self, component: Component) -> None:
        numbers = {colour: number for number, colour in enumerate(dict.fromkeys(component.colours))}  # they are sorted
        self._classes = [numbers[colour] for colour in component.colours]
        self._arcs = self._plain_arcs(component)
        """The rows of each column that is an edge."""
        self._kept = [place for place in range(len(self._classes)) if place not in self._arcs]
        self.edges = array("q")
        self.colours = array("q", [self._classes[place] for place in self._kept])
        places = {place: number for number, place in enumerate(self._kept)}
        for first, second in self._arcs.values():
            self.edges.extend((places[first], places[second]))
        entries = [
            (places[row], places[column], value) for row, column, value in component.edges if column not in self._arcs
        ]
        self._add(entries, len(numbers))

    def _plain_arcs(self, component: Component) -> dict[int, tuple[int, int]]:
        """The two rows of columns that are edges."""
        entries: dict[int, list[tuple[int, int, int]]] = {}
        for row, column, value in component.edges:
            entries.setdefault(column, []).append((self._classes[row], value, row))
        labels: dict[int, tuple[int, ...]] = {}
        for column, found in entries.items():
            if len(found) == 2:
                (one, value, _), (other, other_value, _) = sorted(found)
                if one != other or value == other_value:  # else the edge would have a direction
                    labels[column] = (one, other, self._classes[column], value, other_value)
        best: dict[tuple[int, ...], tuple[int, tuple[int, ...]]] = {}
        for label, count in Counter(labels.values()).items():
            best[label[:2]] = max(best.get(label[:2], (0, ())), (count, label))
        # Two such columns with the same rows would be interchangeable, and one by now, so no edge is there twice.
        return {
            column: (entries[column][0][2], entries[column][1][2])
            for column, label in labels.items()
            if best[label[:2]][1] == label
        }

    def _add(self, entries: list[tuple[int, int, int]], num_classes: int) -> None:
        """Adds the edges of entries, given as vertices with a value."""
        colours = self.colours
        counts = Counter((colours[row], colours[column], value) for row, column, value in entries)
        plain: dict[tuple[int, int], tuple[int, int]] = {}
        for (row, column, value), count in counts.items():
            plain[row, column] = max(plain.get((row, column), (0, 0)), (count, value))
        others = sorted({value for row, column, value in counts if plain[row, column][1] != value})
        of_value = {value: number for number, value in enumerate(others, num_classes)}
        for row, column, value in entries:
            if plain[colours[row], colours[column]][1] == value:
                self.edges.extend((row, column))
            else:
                self.edges.extend((row, len(colours), len(colours), column))
                colours.append(of_value[value])

    def in_order(self, order: array[int]) -> list[int]:
        """The places of the component in an order that the canonical number of each vertex gives."""
        numbers = {place: order[number] for number, place in enumerate(self._kept)}
        arcs = [
            (*sorted((numbers[one], numbers[other])), self._classes[column], column)
            for column, (one, other) in self._arcs.items()
        ]
        return [*sorted(self._kept, key=numbers.__getitem__), *(arc[-1] for arc in sorted(arcs))]
