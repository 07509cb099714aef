#!/usr/bin/env python3
"""doubles.py PROGRAM: checks the results of mpslp_to_double against exact fractions.

PROGRAM is tests/c/program.c, compiled. It is given a model with many numbers: digits that lie
halfway between two doubles or beside that, powers of two, the ends of the range of doubles, and
random ones. Exits with 1 if a double is not the nearest one, or is said to be the number and
is not.
"""

import math
import random
import subprocess
import sys
from fractions import Fraction

LONGEST = 36


def decimal_of(value):
    """A fraction as digits and a power of ten, if 36 digits are enough for it."""
    exponent = 0
    while value.denominator != 1 and exponent > -120:
        value *= 10
        exponent -= 1
    while value and value % 10 == 0:
        value /= 10
        exponent += 1
    return (int(value), exponent) if value.denominator == 1 and abs(value) < 10**LONGEST else None


def numbers():
    yield from ((1, e) for e in range(-400, 400, 7))
    yield from (
        (digits, e)
        for digits in (5, 49, 4940656458412465, 24703282292062327, 17976931348623157, 17976931348623159)
        for e in (-340, -339, -324, 292, 293, 308)
    )
    for _ in range(2000):
        yield random.randrange(1, 10 ** random.randrange(1, LONGEST + 1)), random.randrange(-360, 330)
        double = math.ldexp(random.randrange(2**52, 2**53), random.randrange(-80, 60))
        halfway = (Fraction(double) + Fraction(math.nextafter(double, math.inf))) / 2
        few_bits = Fraction(random.randrange(1, 2 ** random.randrange(1, 54))) * Fraction(2) ** random.randrange(
            -40, 100
        )
        for number in (decimal_of(Fraction(double)), decimal_of(halfway), decimal_of(few_bits)):
            if number:
                yield number
                yield number[0] + 1, number[1]
                yield number[0] - 1, number[1]


def text_of(literals):
    lines = [f"    X{number:06}  C  {literal}" for number, literal in enumerate(literals)]
    return "NAME\nROWS\n N  C\nCOLUMNS\n" + "\n".join(lines) + "\nENDATA\n"


def main():
    random.seed(1)
    literals = [f"{random.choice(['', '-'])}{digits}e{exponent}" for digits, exponent in numbers() if digits]
    done = subprocess.run(
        [sys.argv[1], "double", "mps", "-"], input=text_of(literals), capture_output=True, text=True, check=True
    )
    costs = [line.split() for line in done.stdout.splitlines()[1:]][2::3]
    if len(costs) != len(literals):
        sys.exit(f"{len(costs)} doubles of {len(literals)} numbers")
    for literal, (_, found, cost) in zip(literals, costs):
        double = float.fromhex(found) if "inf" not in found else float(found)
        is_exact = not math.isinf(double) and Fraction(double) == Fraction(literal)
        if (
            double != float(literal)
            or math.copysign(1, double) != math.copysign(1, float(literal))
            or (cost == "exact") != is_exact
        ):
            sys.exit(f"{literal}: {found} {cost}")
    exact = sum(cost == "exact" for _, _, cost in costs)
    print(f"{len(literals)} doubles are the nearest ones, {exact} of them exact")


if __name__ == "__main__":
    main()
