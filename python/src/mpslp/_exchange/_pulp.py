"""The models of PuLP."""

# Annotations are evaluated here: the calls appear as those of the package, which has fewer names.

import re
from collections.abc import Iterator, MutableMapping
from dataclasses import replace
from importlib import import_module
from itertools import chain, count
from math import isinf
from typing import Any

from mpslp._matching import renamed
from mpslp._models._arrays import Arrays, listed
from mpslp._models._model import Column, Kind, Model, Row, from_arrays
from mpslp._models._numbers import INFINITY

_OBJECTIVE = "OBJ"
"""What PuLP calls an objective without a name in the files that it writes."""
_KINDS: dict[str, Kind] = {"Continuous": "continuous", "Integer": "integer"}
_REPLACED = re.compile(r"[-+\[\] >/]")
"""The bytes of names that PuLP replaces by an underscore."""


def from_pulp(problem: Any) -> Model:
    """Returns the model of a ``pulp.LpProblem``, with each float as the decimal of its shortest text.

    Files that PuLP writes have 12 digits of each number and no constant of the objective; this model has all. An
    objective without a name is called OBJ, as in these files. As for the solvers of PuLP, variables belong to the
    problem that are in a constraint or in the objective, or were added to it.

    Raises TypeError for anything else, and ValueError for special ordered sets and for what no model has, such as two
    variables of one name.

    >>> import pulp
    >>> problem, x = pulp.LpProblem("week", pulp.LpMaximize), pulp.LpVariable("x", 0, 7.5)
    >>> problem += 0.1 * x + 3
    >>> problem += x <= 4, "hours"
    >>> model = mpslp.from_pulp(problem)
    >>> model.columns["x"].cost, model.constant, model.rows["hours"].upper
    (Decimal('0.1'), Decimal('3'), Decimal('4'))
    """
    pulp = import_module("pulp")
    if not isinstance(problem, pulp.LpProblem):
        raise TypeError(f"a problem is a pulp.LpProblem, not {type(problem).__name__}")
    if problem.sos1 or problem.sos2:
        raise ValueError("the problem has special ordered sets, which no model has")
    objective = pulp.LpAffineExpression() if problem.objective is None else problem.objective
    # What PuLP adds when it writes a problem with an empty objective or row; it is fixed at 0.
    dummy = getattr(problem, "dummyVar", None)
    variables = [variable for variable in problem.variables() if variable is not dummy]
    return Model(
        "maximize" if problem.sense == pulp.LpMaximize else "minimize",
        objective.name or _OBJECTIVE,
        objective.constant,
        [_row(name, constraint, dummy) for name, constraint in problem.constraints.items()],
        [_column(variable, objective.get(variable, 0)) for variable in variables],
    )


def _column(variable: Any, cost: Any) -> Column:
    if variable.cat not in _KINDS:
        raise ValueError(f"column {variable.name!r}: the category {variable.cat!r} is none of {', '.join(_KINDS)}")
    lower = -INFINITY if variable.lowBound is None else variable.lowBound
    upper = INFINITY if variable.upBound is None else variable.upBound
    return Column(variable.name, _KINDS[variable.cat], lower, upper, cost)


def _row(name: str, constraint: Any, dummy: Any) -> Row:
    lower, upper = constraint.getLb(), constraint.getUb()
    return Row(
        name,
        -INFINITY if lower is None else lower,
        INFINITY if upper is None else upper,
        entries={variable.name: value for variable, value in constraint.items() if variable is not dummy},
    )


# ---- to PuLP


def to_pulp(model: Model, names: MutableMapping[str, str] | None = None) -> Any:
    """Returns a model as a ``pulp.LpProblem``, with the nearest double of each number.

    What PuLP does not have is written in another way, with the same optimum: a row with two limits is two constraints,
    the second named as the row and ``_upper``; a semi-continuous column has a binary one, named as it and ``_used``,
    and two constraints; a row without limits is left out. PuLP replaces some bytes of names, such as brackets:
    ``names`` gets the names that are replaced, with the new ones. Nothing else changes: :func:`from_pulp` has to read
    the same model from the problem before it is returned.

    A RuntimeWarning says which number is infinite or 0 as a double and is neither in the model.

    >>> problem = mpslp.to_pulp(mpslp.load(b"max 3 x + y\\nst limit: 1 <= x + y <= 4\\nend\\n", "lp"))
    >>> [(name, constraint.getLb(), constraint.getUb()) for name, constraint in problem.constraints.items()]
    [('limit', 1.0, None), ('limit_upper', None, 4.0)]
    """
    if not isinstance(model, Model):
        raise TypeError(f"a model is a mpslp.Model, not {type(model).__name__}")
    own = {model.objective, *model.rows, *model.columns}
    plain = _with_legal_names(
        _without_ranges(_without_semi_continuous(_without_free_rows(model), own), own), own, names
    )
    arrays = plain.arrays()
    problem = _problem(arrays)
    if from_pulp(problem) != from_arrays(arrays):
        raise RuntimeError("internal error: the problem is not the model")
    return problem


def _without_free_rows(model: Model) -> Model:
    free = [row.name for row in model.rows.values() if row.lower.is_infinite() and row.upper.is_infinite()]
    return model.replace(remove_rows=free)


def _without_semi_continuous(model: Model, names: set[str]) -> Model:
    """A model in which binary columns decide whether others are 0; with the lower bound 0 these are continuous."""
    rows: list[Row] = []
    columns: list[Column] = []
    for name, column in model.columns.items():
        if column.kind == "semi-continuous":
            columns.append(replace(column, kind="continuous", lower=0))
            if column.lower:
                used = _new(f"{name}_used", names)
                columns.append(Column(used, "integer", 0, 1))
                rows += [
                    Row(_new(f"{used}_lower", names), lower=0, entries={name: 1, used: column.lower.copy_negate()}),
                    Row(_new(f"{used}_upper", names), upper=0, entries={name: 1, used: column.upper.copy_negate()}),
                ]
    return model.replace(rows=rows, columns=columns)


def _without_ranges(model: Model, names: set[str]) -> Model:
    """A model in which each row has one relation."""
    rows: list[Row] = []
    for name, row in model.rows.items():
        if row.lower.is_finite() and row.upper.is_finite() and row.lower != row.upper:
            rows += [Row(name, row.lower), Row(_new(f"{name}_upper", names), upper=row.upper, entries=row.entries)]
    return model.replace(rows=rows)


def _with_legal_names(model: Model, own: set[str], names: MutableMapping[str, str] | None) -> Model:
    """A model whose names PuLP does not change."""
    changed: dict[str, str] = {}
    for name in (model.objective, *model.rows, *model.columns):
        if name not in changed and (text := _REPLACED.sub("_", name)) != name:
            changed[name] = _new(text, own)
    if names is not None:
        names.update(changed)
    return renamed(model, changed) if changed else model


def _new(wanted: str, names: set[str]) -> str:
    """A name that is not among these, and is from now on."""
    numbered = chain([wanted], (f"{wanted}_{number}" for number in count(2)))
    found = next(name for name in numbered if name not in names)
    names.add(found)
    return found


def _problem(arrays: Arrays) -> Any:
    pulp = import_module("pulp")
    variables = [
        pulp.LpVariable(name, _side(lower), _side(upper), pulp.LpInteger if is_integer else pulp.LpContinuous)
        for name, lower, upper, is_integer in zip(
            *map(listed, (arrays.column_names, arrays.lower, arrays.upper, arrays.integrality))
        )
    ]
    problem = pulp.LpProblem("model", pulp.LpMaximize if arrays.sense == "maximize" else pulp.LpMinimize)
    problem.addVariables(variables)
    costs = [(variable, cost) for variable, cost in zip(variables, listed(arrays.c)) if cost]
    problem += pulp.LpAffineExpression(costs, constant=arrays.constant), arrays.objective
    terms = _terms(arrays, variables)
    for name, lower, upper in zip(*map(listed, (arrays.row_names, arrays.row_lower, arrays.row_upper))):
        sense = pulp.LpConstraintEQ if lower == upper else pulp.LpConstraintLE if isinf(lower) else pulp.LpConstraintGE
        problem.addConstraint(
            pulp.LpConstraint(pulp.LpAffineExpression(next(terms)), sense, name, upper if isinf(lower) else lower)
        )
    return problem


def _terms(arrays: Arrays, variables: list[Any]) -> Iterator[list[tuple[Any, float]]]:
    """The terms of each row."""
    found: list[list[tuple[Any, float]]] = [[] for _ in arrays.row_lower]
    starts, rows, values = listed(arrays.indptr), listed(arrays.indices), listed(arrays.data)
    for column, (start, end) in enumerate(zip(starts, starts[1:])):
        for row, value in zip(rows[start:end], values[start:end]):
            found[row].append((variables[column], value))
    return iter(found)


def _side(bound: float) -> float | None:
    return None if isinf(bound) else bound
