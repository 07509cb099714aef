"""Number literals in the mix that model files have.

Most numbers of a model file are 1, small whole numbers and short decimals.
The rest are measured or computed values, printed by tools with many digits,
with trailing zeros or with an exponent. All literals here are nonzero, have at
most 15 significant digits, and so fit a double as well as an exact decimal.
"""

from itertools import accumulate


def one(source):
    return source.choice(("1", "1", "1", "1.0", "1."))


def whole(source):
    return str(digits(source, source.randint(1, 6)))


def short_decimal(source):
    count = source.randint(1, 6)
    text = str(digits(source, count))
    places = source.randint(0, count)
    integer, fraction = text[: count - places], text[count - places :]
    if integer and not fraction:
        return integer + source.choice((".", ".0"))
    return (integer or source.choice(("", "0"))) + "." + fraction


def padded_decimal(source):
    """Printed with a fixed number of places, like 3.0000000000."""
    return f"{digits(source, source.randint(1, 4))}.{source.choice((0, 5, 25)):0<10}"


def computed(source):
    """A computed value, printed by %g with the precisions of common tools."""
    precision = source.choice((7, 8, 10, 12, 12, 15, 15, 15))
    return f"{magnitude(source):.{precision}g}"


def exponent(source):
    precision = source.choice((0, 1, 2, 5, 6, 10, 14))
    letter = source.choice("eeeE")
    return f"{magnitude(source):.{precision}{letter}}"


def digits(source, count):
    """A whole number of exactly so many digits."""
    return source.randrange(10 ** (count - 1), 10**count)


def magnitude(source):
    return source.uniform(1, 10) * 10.0 ** source.randint(-5, 8)


STYLES = (one, whole, short_decimal, padded_decimal, computed, exponent)
STYLE_WEIGHTS = tuple(accumulate((20, 25, 25, 8, 16, 6)))
NEGATIVE_SHARE = 0.3


def unsigned_literal(source):
    return source.choices(STYLES, cum_weights=STYLE_WEIGHTS)[0](source)


def literal(source):
    sign = "-" if source.random() < NEGATIVE_SHARE else ""
    return sign + unsigned_literal(source)
