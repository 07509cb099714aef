"""The picture of the nonzeros of a model: an SVG, which has a PNG within it if the model is large."""

from __future__ import annotations

import struct
import zlib
from base64 import b64encode
from collections import Counter
from collections.abc import Iterator, Sequence
from itertools import chain
from math import ceil, log
from typing import NamedTuple

from mpslp._models._arrays import Arrays
from mpslp._models._model import Model
from mpslp._models._numbers import number_text
from mpslp._models._positions import Names
from mpslp._report._markup import Markup, element, joined, many

MOST_LABELLED = 40
"""With so many rows and columns at most, each place is drawn and has its names."""

# All lengths are in pixels.
_CELL = 18
_FONT_WIDTH = 6.7
_MOST_LABEL = 16
_LONGEST_SIDE = 640
_MARGIN = 22
# The picture is at most so many times as wide as it is high, and the other way round.
_MOST_WIDE, _MOST_HIGH = 4.0, 2.0

_INK = (47, 111, 171)
_SHADES = 16
_PALEST, _DARKEST = 96, 255


class Matrix(NamedTuple):
    """The nonzeros of a model, with rows and columns in the order of its file."""

    model: Model
    arrays: Arrays
    rows: Sequence[str]
    columns: Sequence[str]
    row_places: list[int]
    """The place in that order of each row, by its number in the arrays."""
    column_numbers: list[int]
    """The number in the arrays of each column in that order."""


def matrix_of(model: Model, arrays: Arrays, order: Names) -> Matrix:
    """The matrix of a model, with its arrays, and with its names in the order of its file."""
    places = {name: place for place, name in enumerate(order.rows)}
    numbers = {name: number for number, name in enumerate(arrays.column_names or ())}
    row_places = [places[name] for name in arrays.row_names or ()]
    return Matrix(model, arrays, order.rows, order.columns, row_places, [numbers[name] for name in order.columns])


class Cells(NamedTuple):
    """The places of a matrix as a grid of cells, each with the number of its nonzeros."""

    width: int
    height: int
    counts: list[Counter[int]]
    """Of each column of cells, how many nonzeros there are by the row of cells."""

    @property
    def most(self) -> int:
        return max((count for counts in self.counts for count in counts.values()), default=0)


def picture(matrix: Matrix, title: str, number: int) -> Markup:
    """The figure of a matrix with rows; no other figure of a page has the same number."""
    is_small = max(len(matrix.rows), len(matrix.columns)) <= MOST_LABELLED
    drawing, meaning = _labelled(matrix) if is_small else _sampled(matrix)
    caption = f"{meaning} Rows and columns are in the order of the file."
    name = f"picture-{number}"
    head = joined((element("title", title, id=f"{name}-title"), element("desc", caption, id=f"{name}-text")))
    svg = element(
        "svg",
        head,
        drawing.content,
        xmlns="http://www.w3.org/2000/svg",
        viewBox=f"0 0 {drawing.width:.0f} {drawing.height:.0f}",
        width=f"{drawing.width:.0f}",
        role="img",
        aria_labelledby=f"{name}-title {name}-text",
    )
    return element("figure", svg, element("figcaption", caption))


class _Drawing(NamedTuple):
    width: float
    height: float
    content: Markup


def _labelled(matrix: Matrix) -> tuple[_Drawing, str]:
    rows, columns = matrix.rows, matrix.columns
    left, top = (8 + _FONT_WIDTH * max(len(_short(name)) for name in names) for names in (rows, columns))
    width, height = left + _CELL * len(columns), top + _CELL * len(rows)
    content = joined(
        (
            *(_text(_short(name), left - 5, top + _CELL * i + 13, text_anchor="end") for i, name in enumerate(rows)),
            *(_upright(_short(name), left + _CELL * j + 13, top - 5) for j, name in enumerate(columns)),
            _frame(left, top, _CELL * len(columns), _CELL * len(rows)),
            *_squares(matrix, left, top),
        ),
        "\n",
    )
    return _Drawing(width + 1, height + 1, content), "Each square is a nonzero; a hollow one is negative."


def _squares(matrix: Matrix, left: float, top: float) -> Iterator[Markup]:
    places = {name: place for place, name in enumerate(matrix.rows)}
    for j, column in enumerate(matrix.columns):
        for row, value in matrix.model.columns[column].entries.items():
            i = places[row]
            yield element(
                "rect",
                element("title", f"{row}, {column}: {number_text(value)}"),
                x=f"{left + _CELL * j + 3.5:.1f}",
                y=f"{top + _CELL * i + 3.5:.1f}",
                width=f"{_CELL - 7}",
                height=f"{_CELL - 7}",
                class_="negative" if value < 0 else "positive",
            )


def _sampled(matrix: Matrix) -> tuple[_Drawing, str]:
    rows, columns = len(matrix.rows), len(matrix.columns)
    ratio = min(max(columns / rows, 1 / _MOST_HIGH), _MOST_WIDE)
    width, height = (
        (_LONGEST_SIDE, round(_LONGEST_SIDE / ratio)) if ratio >= 1 else (round(_LONGEST_SIDE * ratio), _LONGEST_SIDE)
    )
    cells = cells_of(matrix, min(columns, width), min(rows, height))
    image = element(
        "image",
        href=f"data:image/png;base64,{b64encode(png(cells)).decode()}",
        x=str(_MARGIN),
        y=str(_MARGIN),
        width=str(width),
        height=str(height),
        preserveAspectRatio="none",
        class_="sharp" if cells.width < width and cells.height < height else "smooth",
    )
    content = joined(
        (
            _text(many(columns, "column"), _MARGIN, _MARGIN - 7),
            _upright(many(rows, "row"), _MARGIN - 7, _MARGIN + height),
            image,
            _frame(_MARGIN, _MARGIN, width, height),
        ),
        "\n",
    )
    return _Drawing(_MARGIN + width + 1, _MARGIN + height + 1, content), _sampled_caption(cells, rows, columns)


def _sampled_caption(cells: Cells, rows: int, columns: int) -> str:
    if (cells.width, cells.height) == (columns, rows):
        return "Each point is a nonzero."
    down, across = many(ceil(rows / cells.height), "row"), many(ceil(columns / cells.width), "column")
    return f"Each point covers up to {down} and {across}: the palest has 1 nonzero, the darkest {cells.most:,}."


def cells_of(matrix: Matrix, width: int, height: int) -> Cells:
    """Counts the nonzeros in a grid of so many cells, all of which hold the same part of the rows and columns."""
    rows, columns = len(matrix.rows), len(matrix.columns)
    cell_of_row = [place * height // rows for place in matrix.row_places]
    # Views give Python's own numbers, with which it is faster.
    starts, indices = memoryview(matrix.arrays.indptr), memoryview(matrix.arrays.indices)
    counts: list[Counter[int]] = []
    first = 0
    for x in range(width):
        # The columns whose place times width, divided by the number of columns, is x.
        end = -(-columns * (x + 1) // width)
        rows_of = chain.from_iterable(
            indices[starts[number] : starts[number + 1]] for number in matrix.column_numbers[first:end]
        )
        counts.append(Counter(map(cell_of_row.__getitem__, rows_of)))
        first = end
    return Cells(width, height, counts)


def png(cells: Cells) -> bytes:
    """A PNG of the cells: the more nonzeros, the less transparent, by the logarithm of their number."""
    pixels = [bytearray(cells.width) for _ in range(cells.height)]
    shade_of = _shades(cells.most)
    for x, counts in enumerate(cells.counts):
        for y, count in counts.items():
            pixels[y][x] = shade_of[count]
    alphas = bytes([0, *(round(_PALEST + (_DARKEST - _PALEST) * shade / (_SHADES - 1)) for shade in range(_SHADES))])
    return b"".join(
        (
            b"\x89PNG\r\n\x1a\n",
            # Each pixel is a byte, the number of a colour of the palette.
            _chunk(b"IHDR", struct.pack(">IIBBBBB", cells.width, cells.height, 8, 3, 0, 0, 0)),
            _chunk(b"PLTE", bytes(_INK) * len(alphas)),
            _chunk(b"tRNS", alphas),
            _chunk(b"IDAT", zlib.compress(b"".join(b"\0" + line for line in pixels), 9)),
            _chunk(b"IEND", b""),
        )
    )


def _shades(most: int) -> list[int]:
    """The number of the colour in the palette for each number of nonzeros; 0 is the transparent one."""
    if most <= 1:
        return [0, _SHADES]
    return [0, *(1 + round((_SHADES - 1) * log(count) / log(most)) for count in range(1, most + 1))]


def _chunk(kind: bytes, content: bytes) -> bytes:
    return struct.pack(">I", len(content)) + kind + content + struct.pack(">I", zlib.crc32(kind + content))


def _frame(x: float, y: float, width: float, height: float) -> Markup:
    return element("rect", x=f"{x:.1f}", y=f"{y:.1f}", width=f"{width:.1f}", height=f"{height:.1f}", class_="frame")


def _text(text: str, x: float, y: float, **attributes: str) -> Markup:
    return element("text", text, x=f"{x:.1f}", y=f"{y:.1f}", **attributes)


def _upright(text: str, x: float, y: float) -> Markup:
    """Text that is read from below."""
    return _text(text, x, y, transform=f"rotate(-90 {x:.1f} {y:.1f})")


def _short(name: str) -> str:
    return name if len(name) <= _MOST_LABEL else name[: _MOST_LABEL - 1] + "…"
