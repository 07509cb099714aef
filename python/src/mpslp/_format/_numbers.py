"""Number text for the literals of a file."""

from __future__ import annotations

import re
from decimal import Decimal
from functools import lru_cache

from mpslp._models._numbers import number_text
from mpslp._text._numbers import parts

_PLAIN = re.compile(r"0|-?(?:[1-9](?:[0-9]*[1-9])?0{0,5}|(?:0|[1-9][0-9]*)\.[0-9]{0,17}[1-9])")
"""Literals that are number text, of whole numbers and of decimals; most are, and need no second look."""


@lru_cache(maxsize=1 << 16)
def plain(literal: str) -> str:
    """The number text, as in canonical texts, of a literal of a file that is accepted."""
    if _PLAIN.fullmatch(literal):
        return literal
    mantissa, exponent = parts(literal)
    digits = tuple(map(int, str(abs(mantissa))))
    return number_text(Decimal((int(mantissa < 0), digits, exponent)))
