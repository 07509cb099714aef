"""The models of scipy.optimize.milp."""

# Annotations are evaluated here: the call appears as one of the package, which has fewer names.

from collections.abc import Iterable
from importlib import import_module
from typing import Any

from mpslp._models._arrays import Arrays, listed
from mpslp._models._model import Model, from_arrays

_SEMI_INTEGER = 3


def from_milp(
    c: Any,
    constraints: Any = (),
    bounds: Any = None,
    integrality: Any = 0,
    *,
    row_names: Iterable[str] | None = None,
    column_names: Iterable[str] | None = None,
) -> Model:
    """Returns the model of the arguments of scipy's ``milp``, with each double as the decimal of its shortest text.

    ``constraints`` is a ``LinearConstraint``, a tuple ``(A, lb, ub)`` for one, or a sequence of these; ``bounds`` is a
    ``Bounds`` or a tuple ``(lb, ub)``, and without it all columns are from 0. Limits of magnitude 10^20 or more are
    infinite, as they are for milp. Rows and columns are named r0, r1 and x0, x1, as :func:`from_arrays` names them, if
    no names are given. Several numbers for one place of a sparse matrix are added. Needs scipy.

    Raises ValueError for arrays that do not match each other, for a semi-integer column (3), and for what no model has.

    >>> from scipy.optimize import Bounds, LinearConstraint
    >>> model = mpslp.from_milp([-3, -1], LinearConstraint([[0.5, 1]], ub=4), Bounds(0, [10, 2.5]), [1, 0])
    >>> model.rows["r0"].entries, model.columns["x0"].kind, model.columns["x1"].upper
    ({'x0': Decimal('0.5'), 'x1': Decimal('1')}, 'integer', Decimal('2.5'))
    """
    numpy, optimize = import_module("numpy"), import_module("scipy.optimize")
    costs = numpy.atleast_1d(numpy.asarray(c))
    if costs.ndim != 1:
        raise ValueError("c has several dimensions")
    limits = _made("bounds", optimize.Bounds, (0, numpy.inf) if bounds is None else bounds)
    parts = [
        _made("constraints", optimize.LinearConstraint, each) for each in _each(optimize.LinearConstraint, constraints)
    ]
    matrix = _matrix([part.A for part in parts], len(costs))
    rows = [part.A.shape[0] for part in parts]
    kinds = _spread("integrality", integrality, len(costs))
    if _SEMI_INTEGER in listed(kinds):
        raise ValueError("integrality: 3 is a semi-integer column, which no model has")
    return from_arrays(
        Arrays(
            c=costs,
            indptr=matrix.indptr,
            indices=matrix.indices,
            data=matrix.data,
            row_lower=_joined("lb", [(part.lb, count) for part, count in zip(parts, rows)]),
            row_upper=_joined("ub", [(part.ub, count) for part, count in zip(parts, rows)]),
            lower=_spread("bounds.lb", limits.lb, len(costs)),
            upper=_spread("bounds.ub", limits.ub, len(costs)),
            integrality=kinds,
            row_names=None if row_names is None else list(row_names),
            column_names=None if column_names is None else list(column_names),
        )
    )


def _each(constraint: type, given: Any) -> list[Any]:
    """The constraints of what milp takes: one, a tuple for one, or a sequence of both."""
    if isinstance(given, constraint):
        return [given]
    parts = list(given)
    # A sequence of three tuples is no tuple for a constraint, whose sides are numbers or arrays of them.
    is_one = (
        isinstance(given, tuple)
        and 1 < len(parts) <= 3
        and not any(isinstance(each, (constraint, tuple)) for each in parts)
    )
    return [given] if is_one else parts


def _made(what: str, wanted: type, given: Any) -> Any:
    """An object of scipy, which may be given as a tuple of its parts."""
    if isinstance(given, wanted):
        return given
    try:
        return wanted(*given)
    except (TypeError, ValueError) as error:
        raise ValueError(f"{what}: {given!r} is no {wanted.__name__}: {error}") from None


def _matrix(blocks: list[Any], columns: int) -> Any:
    """Matrices above each other, in compressed columns, with one number for each place."""
    sparse = import_module("scipy.sparse")
    made = [sparse.csc_matrix(block) for block in blocks]
    for block in made:
        if block.shape[1] != columns:
            raise ValueError(f"a matrix of the constraints has {block.shape[1]} columns, and c has {columns}")
    matrix = sparse.vstack(made, format="csc", dtype=float).copy() if made else sparse.csc_matrix((0, columns))
    matrix.sum_duplicates()
    return matrix


def _joined(what: str, sides: list[tuple[Any, int]]) -> Any:
    """The sides of all constraints, one after the other; a number is that of each row."""
    numpy = import_module("numpy")
    return numpy.concatenate([numpy.zeros(0), *(_spread(what, side, count) for side, count in sides)])


def _spread(what: str, given: Any, count: int) -> Any:
    """An array of so many numbers; one number is that of each."""
    numpy = import_module("numpy")
    try:
        return numpy.broadcast_to(given, (count,))
    except ValueError:
        raise ValueError(f"{what} has {numpy.size(given)} numbers, and not 1 or {count}") from None
