"""What each program means by an MPS file beside its text, as measured with the versions of docs/SOLVERS.md."""

from __future__ import annotations

from dataclasses import dataclass
from enum import Enum


class ObjectiveSide(Enum):
    """What the number on the objective in RHS is."""

    NEGATED_CONSTANT = "the negative of the constant, as for mpslp"
    CONSTANT = "the constant"
    CONSTANT_OF_A_MINIMUM = "the constant, except under OBJSENSE MAX: there its negative"


class FurtherSets(Enum):
    """What programs make of a second set of RHS, RANGES or BOUNDS.

    A file with one is left: it may be a name misspelt.
    """

    UNCLEAR = "glpsol rejects it, clp, cbc and esolver skip it and lp_solve reads all sets as one"
    SKIPPED = "esolver skips it"
    READ_AS_ONE = "lp_solve reads all sets as one"
    LOSES_SECTIONS = "clp and cbc skip it, and after RHS and RANGES the sections that follow"


@dataclass(frozen=True)
class MpsDialect:
    """The habits of one program; the defaults are those of a file whose writer is not known."""

    name: str | None = None
    objective_side: ObjectiveSide = ObjectiveSide.NEGATED_CONSTANT
    further_sets: FurtherSets = FurtherSets.UNCLEAR
    integers_have_no_upper_bound: bool = False
    negative_upper_is_free_below: bool = False
    columns_may_be_in_bounds_only: bool = False
    sense_is_in_a_comment: bool = False
    sense_is_not_written: bool = False
    dollar_is_a_comment: bool = False


_DIALECTS = (
    MpsDialect(),
    MpsDialect("coinutils", further_sets=FurtherSets.LOSES_SECTIONS, negative_upper_is_free_below=True),
    MpsDialect("glpsol", objective_side=ObjectiveSide.CONSTANT, sense_is_not_written=True, dollar_is_a_comment=True),
    MpsDialect(
        "lp_solve",
        objective_side=ObjectiveSide.CONSTANT_OF_A_MINIMUM,
        further_sets=FurtherSets.READ_AS_ONE,
        integers_have_no_upper_bound=True,
        columns_may_be_in_bounds_only=True,
    ),
    MpsDialect("pulp", sense_is_in_a_comment=True),
    MpsDialect(
        "qsopt", further_sets=FurtherSets.SKIPPED, negative_upper_is_free_below=True, columns_may_be_in_bounds_only=True
    ),
)


def mps_dialect(name: str | None) -> MpsDialect:
    """The habits of a program; those of a file whose writer is not known for None or a program
    without habits in MPS.
    """
    return next((each for each in _DIALECTS if each.name == name), _DIALECTS[0])
