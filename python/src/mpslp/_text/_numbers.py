"""Exact decimals, as mpslp reads them."""

from __future__ import annotations

import re
from decimal import Context, Decimal, Inexact
from typing import NamedTuple

MOST_DIGITS = 36
MOST_BYTES = 255
LARGEST_EXPONENT = 500
LARGE = 10**20
"""From this magnitude on a limit or a bound is infinite."""
_DIGITS_OF_LARGE = 21

TOO_MANY_DIGITS = f"over {MOST_DIGITS} digits"
BEYOND_LIMITS = f"{TOO_MANY_DIGITS}, or an exponent over {LARGEST_EXPONENT}"
"""What messages say of a number beyond the limits."""

INFINITE = "1e30"
"""The literal that is written for infinity."""

_SUMS = Context(prec=2000, Emin=-(10**6), Emax=10**6, traps=[Inexact])
"""More digits than a sum of numbers within the limits has."""

_QUOTIENTS = Context(prec=MOST_DIGITS, Emin=-(10**6), Emax=10**6, traps=[Inexact])
"""A quotient of more digits is no literal."""

ZERO, ONE = Decimal(0, _SUMS), Decimal(1, _SUMS)

LITERAL = re.compile(r"[+-]?(?:[0-9]+(?:\.[0-9]*)?|\.[0-9]+)(?:[eE][+-]?[0-9]+)?")
_PARTS = re.compile(r"([+-]?)([0-9]*)(?:\.([0-9]*))?(?:[eE]([+-]?[0-9]+))?")
_MOST_DIGITS_OF_EXPONENT = 18
_ENDLESS = 10**18
_INFINITY = re.compile(r"([+-]?)(?:inf|infinity|infty|1\.?#inf|1e\+?inf)", re.IGNORECASE)


class Digits(NamedTuple):
    """A literal in normal form: its sign, its digits, without zeros at both ends, and its exponent.

    Those of 0 are none, and 0.
    """

    sign: str
    digits: str
    exponent: int


def digits_of(literal: str) -> Digits:
    """The digits of any literal. They stay text: a file may have more of them than Python makes a number of."""
    found = _PARTS.fullmatch(literal)
    assert found is not None
    decimals = found[3] or ""
    digits = (found[2] + decimals).lstrip("0")
    significant = digits.rstrip("0")
    if not significant:
        return Digits("", "", 0)
    exponent = len(digits) - len(significant) - len(decimals) + exponent_of(found[4] or "0")
    return Digits("-" if found[1] == "-" else "", significant, exponent)


def parts(literal: str) -> tuple[int, int]:
    """The mantissa and the exponent of a literal within the limits: 0 and 0, or a mantissa that 10 does not divide."""
    sign, digits, exponent = digits_of(literal)
    return int(f"{sign}{digits or 0}"), exponent


def exponent_of(text: str) -> int:
    """The number after the letter E; one with very many digits is as large as no file has digits."""
    digits = text.lstrip("+-0") or "0"
    size = int(digits) if len(digits) <= _MOST_DIGITS_OF_EXPONENT else _ENDLESS
    return -size if text.startswith("-") else size


def is_decimal(literal: str) -> bool:
    """Whether a literal is within the limits of mpslp."""
    if len(literal) <= MOST_DIGITS and "e" not in literal and "E" not in literal:
        return True
    _, digits, exponent = digits_of(literal)
    return len(literal) <= MOST_BYTES and len(digits) <= MOST_DIGITS and abs(exponent) <= LARGEST_EXPONENT


def is_infinite(literal: str) -> bool:
    """Whether a literal is of a magnitude that is infinite in a limit or a bound; most are too short for it."""
    if len(literal) < _DIGITS_OF_LARGE and "e" not in literal and "E" not in literal:
        return False
    _, digits, exponent = digits_of(literal)
    return digits != "" and len(digits) + exponent >= _DIGITS_OF_LARGE


def infinity(word: str) -> str | None:
    """The literal for a word of infinity, or None."""
    found = _INFINITY.fullmatch(word)
    return None if found is None else ("-" if found[1] == "-" else "") + INFINITE


def exact(literal: str) -> Decimal | None:
    """The value of a literal within the limits, or None."""
    return _SUMS.create_decimal(literal) if is_decimal(literal) else None


def added(first: Decimal, second: Decimal) -> Decimal:
    """The exact sum. The operators of Decimal round to the digits of the current context."""
    return _SUMS.add(first, second)


def subtracted(first: Decimal, second: Decimal) -> Decimal:
    """The exact difference."""
    return _SUMS.subtract(first, second)


def text(value: Decimal) -> str | None:
    """The shortest literal of a value within the limits, or None."""
    written = str(_SUMS.normalize(value))
    if "E" not in written and len(written) <= MOST_DIGITS:
        return written if value else "0"
    sign, digits, exponent = digits_of(written)
    if len(digits) > MOST_DIGITS or abs(exponent) > LARGEST_EXPONENT:
        return None
    return sign + _placed(digits, exponent)


def _placed(digits: str, exponent: int) -> str:
    if 0 <= exponent <= 5:
        return digits + "0" * exponent
    if -18 <= exponent <= -1:
        digits = digits.rjust(1 - exponent, "0")
        return f"{digits[:exponent]}.{digits[exponent:]}"
    return f"{digits}e{exponent}"


def fraction(word: str) -> str | None:
    """The literal of a fraction of two whole numbers, such as 3/4, if it is a finite decimal; or None."""
    found = re.fullmatch(r"([+-]?[0-9]{1,255})/([0-9]{1,255})", word)
    if found is None or not int(found[2]):
        return None
    try:
        return text(_QUOTIENTS.divide(_SUMS.create_decimal(found[1]), _SUMS.create_decimal(found[2])))
    except Inexact:
        return None
