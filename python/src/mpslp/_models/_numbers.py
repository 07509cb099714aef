"""Exact decimals of Python's numbers."""

import math
from decimal import MAX_EMAX, MIN_EMIN, Context, Decimal
from fractions import Fraction
from functools import lru_cache
from numbers import Integral, Rational, Real
from typing import TypeAlias

from mpslp._text import _numbers as literals
from mpslp._text._numbers import LARGEST_EXPONENT, MOST_DIGITS

Number: TypeAlias = int | float | Decimal | Fraction
"""What may be given as a number: a float is the decimal of its shortest text, such as 0.1."""

# Enough precision for each sum of two numbers of a model. Neither importing the package nor loading a model uses the
# current context of decimal: in CPython 3.11 an interpreter that used its own and has ended may leave it, freed, to the
# others.
EXACT = Context(prec=4 * LARGEST_EXPONENT, Emax=MAX_EMAX, Emin=MIN_EMIN)
ZERO, ONE = Decimal(0, EXACT), Decimal(1, EXACT)
INFINITY, MINUS_INFINITY = Decimal("Infinity", EXACT), Decimal("-Infinity", EXACT)
LARGE = Decimal(literals.LARGE, EXACT)
"""A limit or a bound of this magnitude or more is infinite."""

# The maximum number of zeros that are written out after digits, as in the extension module.
_MOST_ZEROS = 20

# The same in canonical texts, and the most decimal places there; other numbers have an exponent.
_MOST_ZEROS_OF_TEXT = 5
_MOST_PLACES_OF_TEXT = 18


def fraction(number: Number) -> Fraction | None:
    """Returns a number as a Fraction, exactly, and None for an infinite one."""
    is_finite = (
        number.is_finite() if isinstance(number, Decimal) else not isinstance(number, float) or math.isfinite(number)
    )
    return Fraction(number) if is_finite else None


@lru_cache(maxsize=4096)
def _of_float(number: float) -> Decimal:
    """The same for a float, cached because many floats of a model are equal."""
    return _checked(Decimal(float.__repr__(number)))


def decimal_of(number: Number) -> Decimal:
    """The decimal that equals a number, in normal form; an infinite number is unchanged.

    Raises ValueError if no decimal of a model equals the number, and TypeError for what is not a number.
    """
    return _of_float(number) if type(number) is float else _checked(_decimal(number))


def _checked(found: Decimal) -> Decimal:
    if found.is_infinite():
        return found
    if found.is_nan():
        raise ValueError(f"{found} is not a number")
    return _normal(found)


def limit_of(number: Number) -> Decimal:
    """The same for a limit or a bound, which is infinite, by its sign, from a magnitude of 10^20."""
    found = decimal_of(number)
    return found if found.copy_abs() < LARGE else INFINITY.copy_sign(found)


def is_near(first: Decimal, second: Decimal, digits: int) -> bool:
    """Whether two numbers differ by less than one unit in this significant digit of the larger; those that are equal
    do.
    """
    if first == second:
        return True
    if first.is_infinite() or second.is_infinite():
        return False
    larger = max(first.copy_abs(), second.copy_abs())
    return EXACT.subtract(first, second).adjusted() <= larger.adjusted() - digits


def number_text(number: Decimal) -> str:
    """The number text of docs/FORMATS.md, as it is in canonical texts; ``inf`` or ``-inf`` for what is infinite."""
    sign, digits, exponent = number.as_tuple()
    minus = "-" if sign and number else ""
    if not isinstance(exponent, int):
        return f"{minus}inf"
    written = "".join(map(str, digits)).lstrip("0")
    significant = written.rstrip("0")
    exponent += len(written) - len(significant)
    if not significant:
        return "0"
    if 0 <= exponent <= _MOST_ZEROS_OF_TEXT:
        return f"{minus}{significant}{'0' * exponent}"
    if -_MOST_PLACES_OF_TEXT <= exponent < 0:
        padded = significant.rjust(1 - exponent, "0")
        return f"{minus}{padded[:exponent]}.{padded[exponent:]}"
    return f"{minus}{significant}e{exponent}"


def difference(upper: Decimal, lower: Decimal) -> Decimal:
    """The exact difference of two finite numbers; raises ValueError if it is not a decimal of a model."""
    return _normal(EXACT.subtract(upper, lower))


def _decimal(number: Number) -> Decimal:
    if isinstance(number, Decimal):
        return number
    if isinstance(number, float):
        return Decimal(float.__repr__(number))
    if isinstance(number, bool):
        raise TypeError(f"{number!r} is not a number")
    if isinstance(number, Integral):
        return Decimal(int(number))
    if isinstance(number, Rational):
        return _decimal_of_fraction(number)
    if isinstance(number, Real):
        return Decimal(repr(float(number)))
    raise TypeError(f"a number is an int, a float, a Decimal or a Fraction, not {type(number).__name__}")


def _decimal_of_fraction(number: Rational) -> Decimal:
    left, twos, fives = int(number.denominator), 0, 0
    while left % 2 == 0:
        left, twos = left // 2, twos + 1
    while left % 5 == 0:
        left, fives = left // 5, fives + 1
    if left != 1:
        raise ValueError(f"{number!r} is not a finite decimal")
    places = max(twos, fives)
    return _scaled(int(number.numerator) * 2 ** (places - twos) * 5 ** (places - fives), -places)


def _scaled(mantissa: int, exponent: int) -> Decimal:
    sign, digits, _ = Decimal(mantissa).as_tuple()
    return Decimal((sign, digits, exponent))


def _normal(number: Decimal) -> Decimal:
    """A finite number without trailing zeros, except those that a whole number is printed with."""
    sign, digits, exponent = number.as_tuple()
    assert isinstance(exponent, int)
    if not number:
        return Decimal(0)
    last = len(digits)
    while digits[last - 1] == 0:
        last -= 1
    first = next(place for place, digit in enumerate(digits) if digit != 0)
    exponent += len(digits) - last
    if last - first > MOST_DIGITS:
        raise ValueError(f"{number} has more than {MOST_DIGITS} digits")
    if abs(exponent) > LARGEST_EXPONENT:
        raise ValueError(f"{number} has an exponent beyond {LARGEST_EXPONENT}")
    zeros = exponent if 0 <= exponent <= _MOST_ZEROS else 0
    return Decimal((sign, digits[first:last] + (0,) * zeros, exponent - zeros))
