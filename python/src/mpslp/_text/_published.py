"""What is published of solvers that are not measured, as docs/SOLVERS.md lists it."""

import re

COEFFICIENT_OF_0 = 1e-9
"""A coefficient of a row of at most this magnitude is 0 for HiGHS and SCIP."""
COEFFICIENTS_OF_HIGHS, COEFFICIENTS_OF_SCIP = 1e15, 1e20
"""A coefficient of a row of this magnitude is too large."""
UPPER_BOUND_OF_HIGHS = 1e5
"""A semi-continuous column has no larger upper bound in HiGHS."""
TOLERANCE = 1e-4
"""A number that is nearer to a whole number may be one for an integer column."""

_KEYWORDS_OF_LP = (
    "abs|and|bin|binaries|binary|bounds?|constraints|cos|end|exp|free|gc|general_constraints|generals?|gen|inf|infinity"
    "|int|integers?|lazy_constraints|log|max|maximi[sz]e|maximum|min|minimi[sz]e|minimum"
    "|multi-objectives|norm|or|partial"
    "|pow|pwl|pwlobj|ranges|scenario|sec|semi|semis|sin|sos|sos1|sos2|st|subject|such|tan|user_cuts|ucs"
)
LP_NAME = re.compile(rf"(?!(?i:{_KEYWORDS_OF_LP})$)(?![eE]\d)[A-Za-z_][A-Za-z0-9_.]*")
"""A name that is no keyword and no number in any dialect of LP."""
