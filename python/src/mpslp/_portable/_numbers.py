"""Numbers that lose digits as doubles, and limits that are infinite."""

from __future__ import annotations

from mpslp._text._numbers import LITERAL, exact, is_infinite, parts
from mpslp._text._published import TOLERANCE

MOST_DIGITS = 17
"""No double needs more digits, and one with more is another number than the text."""

_USUAL_LENGTH = 9
"""A number of so many bytes, without an exponent, is neither at most 1e-9 nor at least 1e15."""
_USUAL_INFINITY = 1e30
_SMALLEST = 2.0**-1022
"""Below it doubles have fewer digits."""


def is_doubtful(literal: str) -> bool:
    """Whether a number may be one that a double does not hold: a fast test that most numbers fail."""
    return len(literal) > MOST_DIGITS or "e" in literal or "E" in literal


def is_large(literal: str) -> bool:
    """Whether a limit or a bound is infinite, but smaller than the 1e30 that many programs write for infinity."""
    return is_infinite(literal) and abs(float(literal)) < _USUAL_INFINITY


def nearest_if_lost(literal: str) -> str | None:
    """The double that is nearest to a number, if it does not hold the number; or None."""
    assert LITERAL.fullmatch(literal)
    mantissa, _ = parts(literal)
    nearest = float(literal)
    if abs(nearest) == float("inf"):
        return "infinite"
    is_tiny = mantissa != 0 and abs(nearest) < _SMALLEST
    return repr(nearest) if is_tiny or len(str(abs(mantissa))) > MOST_DIGITS else None


def may_be_extreme(literal: str) -> bool:
    """Whether a number may be very small or very large: a fast test that most numbers fail."""
    return len(literal) > _USUAL_LENGTH or "e" in literal or "E" in literal


def is_near_whole(literal: str) -> bool:
    """Whether a number is none that is whole, but nearly."""
    number = exact(literal)
    return number is not None and 0 < abs(number - number.to_integral_value()) < TOLERANCE
