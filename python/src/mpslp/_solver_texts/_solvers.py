"""What each solver reads, by its program (see python/tests/solver_texts.py) or by what is published about it."""

from __future__ import annotations

import re
from collections.abc import Mapping
from dataclasses import dataclass, replace
from enum import Enum
from typing import Literal

from mpslp._text import _published

TextFormat = Literal["mps", "lp", "glp"]
"""A format of a text for a solver; glp is the format of GLPK itself."""


_OTHERS = re.compile(r"[^A-Za-z0-9.!\"#%&(),;?@_'`{}~]")
"""The bytes that are not in the names of all measured languages."""


class Constant(Enum):
    """How the constant of the objective is written, so that the solver adds it."""

    SAME = "as a number with its sign"
    NEGATED = "as a number with the opposite sign"
    COLUMN = "as the cost of a column that is fixed at 1"


class SemiContinuous(Enum):
    """Which semi-continuous columns a solver has. With the lower bound 0 they are the same as continuous ones."""

    NONE = "none"
    ABOVE_0 = "those with a lower bound above 0"
    ALL = "all"


@dataclass(frozen=True)
class Language:
    """What a solver reads of a format."""

    format: TextFormat
    minimised: Constant = Constant.SAME
    """How it takes the constant of an objective that is minimised."""
    maximised: Constant | None = Constant.SAME
    """How it takes that of one that is maximised; None if it minimises every objective."""
    header: str = "NAME"
    """The first line, in MPS."""
    has_ranged_rows: bool = True
    needs_row: bool = False
    """Whether a model needs a row with a limit, and a term in it or in the objective."""
    free_row: str | None = "N"
    """How a row without limits is written in MPS: as a further N row, or as an L row with this limit, which is
    infinite. None if neither is kept.
    """
    smallest: float = 0.0
    """Numbers below this magnitude are read as 0."""
    most_bytes: int = 255
    """The longest name that is read."""
    name: re.Pattern[str] | None = None
    """The names that are read, if not all are."""
    replaced: re.Pattern[str] = _OTHERS
    """The bytes for which a name that is not read gets an underscore."""
    has_equal_bounds: bool = True
    """Whether a fixed column may be written as an equation under Bounds, in LP."""


@dataclass(frozen=True)
class Solver:
    """A solver: its languages, the preferred one first, and what its models have."""

    languages: tuple[Language, ...]
    has_integers: bool = True
    semi_continuous: SemiContinuous = SemiContinuous.NONE
    is_exact: bool = False
    """Whether numbers are exact, and not the nearest doubles."""
    largest: float = 1e30
    """Numbers of this magnitude and more are infinite."""
    rounds_integer_bounds: bool = False
    """Whether a bound of an integer or semi-continuous column that is near a whole number is read as that number."""
    needs_whole_bounds: bool = False
    """Whether a bound of an integer column has to be a whole number: with others glpsol finds no optimum, and lp_solve
    another one.
    """
    for_integers_without_bound: str = ""
    """An option for integer columns without a lower or an upper bound: glpsol 5.0 aborts on some that have no solution.
    """
    for_semi_continuous: str = ""
    """An option that models with semi-continuous columns need."""
    largest_semi_continuous: float = float("inf")
    """A semi-continuous column has no upper bound above this."""
    coefficients: tuple[float, float] = (0, float("inf"))
    """The coefficients of rows are above the first magnitude, at which they are 0, and below the second one."""
    is_measured: bool = True
    """Whether tests give the texts to the solver. Otherwise what it reads is taken from what is published about it."""
    called: str = ""
    """How messages call the solver, if not by its name."""


_NO_DOLLAR = re.compile(r"[^$].*")
_NO_SIGN = re.compile(r"(?![-+]$).*")
_COIN_NAME = re.compile(r"[^/|]*")
"""Of the names of LP."""

# What readers may take in several ways is avoided: the constant is a cost, and a row without limits has an infinite
# one.
_CAREFUL_MPS = Language("mps", Constant.COLUMN, Constant.COLUMN, free_row="1e30", name=_NO_DOLLAR)
_CAREFUL_LP = Language(
    "lp",
    Constant.COLUMN,
    Constant.COLUMN,
    has_ranged_rows=False,
    name=_published.LP_NAME,
    replaced=re.compile(r"[^A-Za-z0-9_.]"),
    has_equal_bounds=False,
)

_HIGHS = Solver(
    (_CAREFUL_MPS, _CAREFUL_LP),
    semi_continuous=SemiContinuous.ALL,
    largest=1e20,
    rounds_integer_bounds=True,
    largest_semi_continuous=_published.UPPER_BOUND_OF_HIGHS,
    coefficients=(_published.COEFFICIENT_OF_0, _published.COEFFICIENTS_OF_HIGHS),
    is_measured=False,
)
_SCIP = replace(
    _HIGHS,
    largest_semi_continuous=float("inf"),
    coefficients=(_published.COEFFICIENT_OF_0, _published.COEFFICIENTS_OF_SCIP),
)
_SHORT_NAMES = 64
"""Xpress has names of up to so many bytes."""

_COIN_MPS = Language(
    "mps",
    Constant.NEGATED,
    None,
    header="NAME  ANY  FREE",
    free_row="1e30",
    smallest=1e-14,
    most_bytes=161,
    name=_NO_SIGN,
)
_CLP_LP = Language("lp", Constant.NEGATED, has_ranged_rows=False, most_bytes=100, name=_COIN_NAME)

SOLVERS: Mapping[str, Solver] = {
    "glpsol": Solver(
        (Language("glp"), Language("mps", maximised=None, free_row=None, smallest=1e-12, name=_NO_DOLLAR)),
        needs_whole_bounds=True,
        for_integers_without_bound="--nointopt",
    ),
    "clp": Solver((_COIN_MPS, _CLP_LP), has_integers=False),
    "cbc": Solver(
        (_COIN_MPS, replace(_CLP_LP, minimised=Constant.COLUMN)),
        semi_continuous=SemiContinuous.ABOVE_0,
        rounds_integer_bounds=True,
        for_semi_continuous="-preprocess off",
    ),
    "lp_solve": Solver(
        (Language("mps", free_row="1e30", smallest=1e-11),), semi_continuous=SemiContinuous.ALL, needs_whole_bounds=True
    ),
    "esolver": Solver(
        (Language("mps", Constant.COLUMN, Constant.COLUMN, needs_row=True, name=_NO_DOLLAR),),
        has_integers=False,
        is_exact=True,
        largest=float("inf"),
    ),
    "highs": _HIGHS,
    "scip": _SCIP,
    "portable": replace(
        _HIGHS,
        languages=tuple(replace(each, most_bytes=_SHORT_NAMES) for each in (_CAREFUL_MPS, _CAREFUL_LP)),
        called="some solver",
    ),
}
"""The solvers by the names of their programs; ``portable`` is what HiGHS, Gurobi, CPLEX and Xpress read alike."""
