"""Colours of rows and columns: hashes of 64 bits that do not depend on names.

At first the colour of a row is that of its limits, and the colour of a column that of its kind, bounds and cost. Each
round adds to a colour those of the rows or columns that it has coefficients with, and the coefficients. Equal models
have equal colours whatever their names are, so colours that differ are a proof that the models are not equal.
python/README.md has the definition.
"""

from __future__ import annotations

import sys
from array import array
from collections.abc import Iterable
from typing import NamedTuple

from mpslp import _mpslp

ROUNDS_OF_DIGEST = 16
"""How many rounds the digest has. It is part of the definition of the digest."""
_BATCHES = (4, 4, 8, 16, 32)
"""How many rounds come between two looks at whether there are more colours than before."""
_MASK = (1 << 64) - 1


class Graph(NamedTuple):
    """Rows and columns with their colours, and the entries of each column, as arrays in the form that the extension
    module takes.
    """

    starts: bytes
    """Where the entries of each column begin, and their number: of 64 bits."""
    rows: bytes
    """The row of each entry: of 32 bits."""
    values: bytes
    """The hash of the coefficient of each entry: of 64 bits, as are colours."""
    row_colours: bytes
    column_colours: bytes

    def refined(self, rounds: int) -> Graph:
        """The graph with the colours after so many rounds more."""
        rows, columns = _mpslp.refined(
            self.starts, self.rows, self.values, self.row_colours, self.column_colours, rounds
        )
        return self._replace(row_colours=rows, column_colours=columns)

    @property
    def colours(self) -> array[int]:
        """The colours of the rows, and then those of the columns."""
        return words_of(self.row_colours + self.column_colours)

    @property
    def num_rows(self) -> int:
        return len(self.row_colours) // 8

    def with_colours(self, colours: array[int]) -> Graph:
        """The same graph with other colours, those of the rows first."""
        rows = self.num_rows
        return self._replace(row_colours=colours[:rows].tobytes(), column_colours=colours[rows:].tobytes())


class Shape(NamedTuple):
    """What of a model does not depend on names."""

    graph: Graph
    bounds: bytes
    """The hash of the kind and the bounds of each column."""
    model: int
    """The hash of the sense and the constant."""


def shape_of(arrays: _mpslp.Arrays) -> Shape:
    """The shape of a model, with the first colours."""
    starts, rows, values, row_colours, bounds, column_colours, model = arrays.shape()
    return Shape(Graph(starts, rows, values, row_colours, column_colours), bounds, words_of(model)[0])


def words_of(content: bytes) -> array[int]:
    """Numbers of 64 bits."""
    return array("Q", content)


def indexes_of(content: bytes) -> array[int]:
    """Numbers of 32 bits."""
    return array("I", content)


def mixed(colour: int, word: int) -> int:
    """A colour with a word added, as the extension module adds them."""
    found = ((colour ^ word) + 0x9E3779B97F4A7C15) & _MASK
    found = (found ^ found >> 30) * 0xBF58476D1CE4E5B9 & _MASK
    found = (found ^ found >> 27) * 0x94D049BB133111EB & _MASK
    return found ^ found >> 31


def refined_together(one: Graph, other: Graph) -> tuple[Graph, Graph] | None:
    """Both graphs after as many rounds as there are more colours after them; None if the colours of the two are not the
    same.
    """
    count = _count_if_equal(one, other)
    for rounds in _BATCHES:
        if count is None:
            return None
        # Also if all colours differ: whether the coefficients between them are the same is seen in the next round.
        one, other, before = one.refined(rounds), other.refined(rounds), count
        count = _count_if_equal(one, other)
        if count == before:
            break
    return None if count is None else (one, other)


def _count_if_equal(one: Graph, other: Graph) -> int | None:
    """How many colours there are, if those of two graphs are the same; else None."""
    if one.num_rows != other.num_rows:
        return None
    colours = sorted(one.colours)
    return len(set(colours)) if colours == sorted(other.colours) else None


def repeated(colours: Iterable[int]) -> set[int]:
    """The colours that there are more than one of."""
    seen, found = set[int](), set[int]()
    for colour in colours:
        (found if colour in seen else seen).add(colour)
    return found


def digest_of(arrays: _mpslp.Arrays) -> str:
    """The SHA-256 of the sorted colours, as 64 hexadecimal digits: the same for models that are equal but for names."""
    from hashlib import sha256  # it breaks further interpreters of CPython 3.12.1, and is wanted here only

    shape = shape_of(arrays)
    graph = shape.graph.refined(ROUNDS_OF_DIGEST)
    found = sha256(_bytes_of(array("Q", [shape.model, graph.num_rows])))
    for colours in (graph.row_colours, graph.column_colours):
        found.update(_bytes_of(array("Q", sorted(words_of(colours)))))
    return found.hexdigest()


def _bytes_of(words: array[int]) -> bytes:
    """The words as bytes, the least significant first."""
    if sys.byteorder == "big":
        words.byteswap()
    return words.tobytes()
