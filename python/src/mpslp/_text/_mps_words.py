"""The words of MPS."""

from __future__ import annotations

from typing import NamedTuple

HEADERS = ("NAME", "OBJSENSE", "OBJNAME", "ROWS", "COLUMNS", "RHS", "RANGES", "BOUNDS", "ENDATA")
"""What the lines of headers start with."""
SENSES = ("MAX", "MAXIMIZE", "MIN", "MINIMIZE")
"""The words of OBJSENSE."""
ROW_TYPES = ("N", "L", "G", "E")
MARKER = "'MARKER'"
"""The second field of the lines around integer columns."""
MARKERS = INTORG, INTEND = "'INTORG'", "'INTEND'"
"""The third fields of these lines, before and after the columns."""


class BoundType(NamedTuple):
    """What a line of BOUNDS has and gives, by its type."""

    has_number: bool
    gives_lower: bool
    gives_upper: bool


BOUND_TYPES = {
    "LO": BoundType(has_number=True, gives_lower=True, gives_upper=False),
    "UP": BoundType(has_number=True, gives_lower=False, gives_upper=True),
    "FX": BoundType(has_number=True, gives_lower=True, gives_upper=True),
    "LI": BoundType(has_number=True, gives_lower=True, gives_upper=False),
    "UI": BoundType(has_number=True, gives_lower=False, gives_upper=True),
    "SC": BoundType(has_number=True, gives_lower=False, gives_upper=True),
    "FR": BoundType(has_number=False, gives_lower=True, gives_upper=True),
    "MI": BoundType(has_number=False, gives_lower=True, gives_upper=False),
    "PL": BoundType(has_number=False, gives_lower=False, gives_upper=True),
    "BV": BoundType(has_number=False, gives_lower=True, gives_upper=True),
}

VALUED = tuple(name for name, kind in BOUND_TYPES.items() if kind.has_number)
"""Types of bounds with a number."""
UNVALUED = tuple(name for name, kind in BOUND_TYPES.items() if not kind.has_number)
"""Types of bounds without a number."""
LOWER = tuple(name for name, kind in BOUND_TYPES.items() if kind.gives_lower)
"""Types of bounds that give a lower bound."""
UPPER = tuple(name for name, kind in BOUND_TYPES.items() if kind.gives_upper)
"""Types of bounds that give an upper bound."""
