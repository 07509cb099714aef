#!/usr/bin/env python3
"""decimals.py PROGRAM: what mpslp_from_double makes of doubles, against Python's own shortest and exact decimals.

PROGRAM is tests/c/header.c, compiled. Exits with 1 if a decimal differs.
"""

import math
import random
import struct
import subprocess
import sys
from decimal import Context, Decimal

MOST_DIGITS = 36
EXACT = Context(prec=2000, Emin=-10000, Emax=10000)


def doubles():
    yield from (
        0.0,
        1.0,
        -1.0,
        0.1,
        -0.5,
        1e22,
        1e23,
        5e-324,
        2.0**-1022,
        sys.float_info.max,
        1 / 3,
        123456789.0,
        1e100,
        2.0**119,
        2.0**-36,
    )
    yield from (
        math.ldexp(digits, twos)
        for twos in range(-1074, 971)
        for digits in (1, 2**53 - 1)
        if digits == 1 or twos % 8 == 0
    )
    # Two decimals with the fewest digits are as near.
    yield from (2.0**50 + 0.25, 2.0**50 + 0.75, 2.0**49 + 0.125, 2.0**49 + 0.375)
    for _ in range(3000):
        value = struct.unpack("<d", random.randbytes(8))[0]
        if math.isfinite(value):
            yield value
        yield math.ldexp(random.randrange(2**53), random.randrange(-60, 70)) * random.choice((-1, 1))
        yield random.randrange(-(10**6), 10**6) / 10 ** random.randrange(8)


def text(number):
    """A decimal as mpslp_number_text writes it, or - if no number of a model is it."""
    number = EXACT.normalize(number)
    sign, digits, exponent = number.as_tuple()
    if len(digits) > MOST_DIGITS:
        return "-"
    return f"{'-' if sign and number else ''}{''.join(map(str, digits))}e{exponent}"


def main():
    random.seed(2)
    values = list(doubles())
    given = "".join(f"{value.hex()}\n" for value in values)
    done = subprocess.run([sys.argv[1], "doubles"], input=given, capture_output=True, text=True, check=True)
    lines = done.stdout.splitlines()
    if len(lines) != len(values):
        sys.exit(f"{len(lines)} lines of {len(values)} doubles")
    for value, line in zip(values, lines):
        wanted = f"{text(Decimal(repr(value)))} {text(Decimal(value))}"
        if line != wanted:
            sys.exit(f"{value!r}: {line}, not {wanted}")
    exact = sum(not line.endswith(" -") for line in lines)
    print(f"{len(lines)} doubles have their shortest decimals, {exact} an exact one")


if __name__ == "__main__":
    main()
