"""A model as arrays of doubles, in the form that solvers use."""

# Annotations are evaluated here, because the class appears as one of the package, which has fewer names.

import math
import warnings
from array import array
from bisect import bisect_right
from collections.abc import Callable, Iterator, Sequence
from decimal import Decimal
from importlib import import_module
from operator import index
from typing import Any, Literal, NamedTuple

from mpslp import _mpslp

# Each whole number up to this one is a double.
_MOST_WHOLE = 2**53
# The type codes of integers in the machine's own byte order.
_INTEGERS = frozenset("bBhHiIlLqQ?")


class Arrays(NamedTuple):
    """A model as arrays: numpy's if numpy is installed, otherwise those of the module ``array``.

    Rows and columns are numbered in the order of the arrays. :meth:`Model.arrays` gives them in byte order of names,
    with each number as the nearest double; :func:`from_arrays` takes any sequences.
    """

    c: Any
    """The objective coefficient of each column."""
    indptr: Any
    """Where the coefficients of each column begin in ``indices`` and ``data``, followed by their total number."""
    indices: Any
    """The row of each nonzero coefficient, column after column."""
    data: Any
    """The nonzero coefficients."""
    row_lower: Any
    """The lower limit of each row; minus infinity if there is none."""
    row_upper: Any
    """The upper limit of each row; infinity if there is none."""
    lower: Any = None
    """The lower bound of each column; minus infinity if there is none. Left out, all are 0."""
    upper: Any = None
    """The upper bound of each column; infinity if there is none. Left out, all are infinity."""
    integrality: Any = None
    """0 for a continuous column, 1 for an integer one, 2 for a semi-continuous one. Left out, all are continuous."""
    row_names: Sequence[str] | None = None
    """The names of the rows; left out, they are r0, r1 and so on, with as many digits as the last one."""
    column_names: Sequence[str] | None = None
    """The names of the columns; left out, they are x0, x1 and so on, with as many digits as the last one."""
    sense: Literal["minimize", "maximize"] = "minimize"
    objective: str = "obj"
    """The name of the objective."""
    constant: float = 0.0
    """The constant that is added to the objective."""

    def __repr__(self) -> str:
        sizes = f"{len(self.row_lower)} rows, {len(self.c)} columns, {len(self.data)} entries"
        return f"<mpslp.Arrays: {self.sense} {self.objective}, {sizes}>"

    @property
    def matrix(self) -> Any:
        """The coefficients of the rows as a ``scipy.sparse.csc_matrix``; needs scipy."""
        return import_module("scipy.sparse").csc_matrix(
            (self.data, self.indices, self.indptr), shape=(len(self.row_lower), len(self.c))
        )


def arrays_of(arrays: _mpslp.Arrays, sense: Literal["minimize", "maximize"]) -> Arrays:
    """The arrays of doubles of a model."""
    costs, starts, rows, values, row_lower, row_upper, lower, upper, kinds = arrays.doubles()
    row_names, column_names = arrays.names()
    _, objective, constant = arrays.objective()
    for said in _not_held(arrays, array("i", starts), array("i", rows), constant):
        warnings.warn(said, RuntimeWarning, stacklevel=3)
    make = _maker()
    return Arrays(
        make("d", costs),
        make("i", starts),
        make("i", rows),
        make("d", values),
        make("d", row_lower),
        make("d", row_upper),
        make("d", lower),
        make("d", upper),
        make("b", kinds),
        row_names,
        column_names,
        sense,
        objective,
        arrays.nearest_constant(),
    )


def _not_held(arrays: _mpslp.Arrays, starts: Sequence[int], rows: Sequence[int], constant: Decimal) -> Iterator[str]:
    """What is said of numbers that no double is near: those that are infinite or 0 as one.

    The first of each sort is named.
    """

    def element(at: int) -> str:
        return (
            f"the coefficient of {arrays.column_name(bisect_right(starts, at) - 1)} in the row"
            f" {arrays.row_name(rows[at])}"
        )

    sorts: tuple[Callable[[int], str], ...] = (
        element,
        lambda at: f"the cost of {arrays.column_name(at)}",
        lambda at: f"a limit of {arrays.row_name(at)}",
        lambda at: f"a bound of {arrays.column_name(at)}",
    )
    for (_, _, smallest, largest), named in zip(arrays.magnitudes(), sorts):
        for found in dict.fromkeys((smallest, largest)):
            if found is not None and not _is_held(found[0]):
                yield _said(found[0], named(found[1]))
    if constant and not _is_held(constant):
        yield _said(constant, "the constant of the objective")


def _is_held(number: Decimal) -> bool:
    return 0 < abs(float(number)) < math.inf


def _said(number: Decimal, of: str) -> str:
    return f"{number}, {of}, is {'0' if float(number) == 0 else 'infinite'} as a double"


def listed(values: Any) -> list[Any]:
    """A sequence as a list of Python's own numbers."""
    return list(values.tolist() if hasattr(values, "tolist") else values)


def doubles_of(values: Any) -> bytes | None:
    """The memory of an array of doubles that are equal to the numbers of a sequence, or None if one is equal to no
    double.
    """
    if _code(values) == "d":
        return memoryview(values).tobytes()
    numbers = listed(values)
    return array("d", numbers).tobytes() if all(map(_is_double, numbers)) else None


def integers_of(name: str, values: Any) -> bytes | None:
    """The memory of an array of 64-bit integers that are those of a sequence, or None if one does not fit.

    Raises TypeError for a sequence of anything else: an index is exact.
    """
    code = _code(values)
    try:
        if code == "q":
            return memoryview(values).tobytes()
        return array("q", memoryview(values) if code in _INTEGERS else _whole_numbers(name, values)).tobytes()
    except OverflowError:
        return None


def _whole_numbers(name: str, values: Any) -> list[int]:
    """A sequence as a list of whole numbers, of an array in another byte order, too."""
    if getattr(getattr(values, "dtype", None), "kind", "") == "O":
        raise TypeError(f"{name} is an array of objects, not of integers")
    return [_whole_number(name, number) for number in listed(values)]


def _whole_number(name: str, number: Any) -> int:
    try:
        return index(number)
    except TypeError:
        raise TypeError(f"{name}: {number!r} is not an integer") from None


def bytes_of(values: Any) -> bytes | None:
    """The numbers of a sequence as bytes, or None if one is no byte."""
    try:
        return bytes(listed(values))
    except (TypeError, ValueError):
        return None


def _code(values: Any) -> str:
    """The type code of a buffer of one dimension; empty for other sequences."""
    try:
        view = memoryview(values)
    except (TypeError, ValueError):  # the second is that of arrays of times
        return ""
    return view.format if view.ndim == 1 else ""


def _is_double(number: object) -> bool:
    return type(number) is float or (type(number) is int and abs(number) <= _MOST_WHOLE)


def _maker() -> Any:
    """A function that makes an array from a type code and bytes."""
    try:
        import numpy
    except ImportError:
        return lambda code, content: array(code, bytes(content))
    return lambda code, content: numpy.frombuffer(content, dtype=code)
