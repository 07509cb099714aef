"""A row of LP in one line, with terms on its right or constants on its left, as a row that mpslp accepts."""

from __future__ import annotations

from collections.abc import Iterable, Sequence
from fractions import Fraction
from typing import NamedTuple

from mpslp._messages._tokens import Token
from mpslp._text._lp_words import INFINITIES
from mpslp._text._numbers import LITERAL, MOST_DIGITS, exact


def value_of(text: str) -> Fraction | None:
    """The value of a number within the limits of mpslp, or None.

    Its exponent is looked at before any power is computed.
    """
    found = exact(text) if LITERAL.fullmatch(text) else None
    return None if found is None else Fraction(found)


def product_text(factors: Iterable[str]) -> str:
    """The product of numbers as a decimal; empty if one of them or the product is beyond the limits."""
    product = Fraction(1)
    for factor in factors:
        value = value_of(factor)
        if value is None:
            return ""
        product *= value
    return decimal_text(product) or ""


def quotient_text(dividend: str, divisor: str) -> str:
    """The quotient of two numbers as a decimal; empty if it is none, or if a number is beyond the limits."""
    first, second = value_of(dividend), value_of(divisor)
    return "" if first is None or not second else decimal_text(first / second) or ""


class Term(NamedTuple):
    """A term as it is written: its sign, its coefficient, and its column; a constant has no column."""

    is_negative: bool
    coefficient: str
    name: str

    def moved(self) -> Term:
        return self._replace(is_negative=not self.is_negative)

    @property
    def value(self) -> Fraction | None:
        """None for a number beyond the limits."""
        value = value_of(self.coefficient or "1")
        return -value if self.is_negative and value is not None else value

    @property
    def text(self) -> str:
        return " ".join(filter(None, (self.coefficient, self.name)))


def solved_row(tokens: Sequence[Token]) -> str | None:
    """The row without its label, with its terms on the left and one number on the right; None if it is not one of a
    simple form.
    """
    at = [number for number, token in enumerate(tokens) if token.is_relation]
    if len(at) != 1:
        return None
    left, right = terms_of(tokens[: at[0]]), terms_of(tokens[at[0] + 1 :])
    if left is None or right is None:
        return None
    terms = [term for term in left if term.name] + [term.moved() for term in right if term.name]
    if not terms or len({term.name for term in terms}) < len(terms):
        return None
    constants = [term.value for term in right if not term.name] + [term.moved().value for term in left if not term.name]
    number = sum_text(constants)
    return None if number is None else f"{sum_of(terms)} {tokens[at[0]].text} {number}"


def sum_text(values: Sequence[Fraction | None]) -> str | None:
    """The sum of numbers as a decimal, or None if one of them or the sum is beyond the limits."""
    known = [value for value in values if value is not None]
    return decimal_text(sum(known, Fraction(0))) if len(known) == len(values) else None


def with_term(terms: Sequence[Term], column: str, coefficient: Fraction) -> list[Term]:
    """The terms and one more, which is added to that of the same column."""
    own = next((term for term in terms if term.name == column), None)
    total = coefficient + (own.value or 0 if own is not None else 0)
    new = Term(total < 0, decimal_text(abs(total)) or "", column)
    return [*terms, new] if own is None else [new if term is own else term for term in terms]


def sum_of(terms: Sequence[Term]) -> str:
    first = ("- " if terms[0].is_negative else "") + terms[0].text
    return " ".join([first, *(f"{'-' if term.is_negative else '+'} {term.text}" for term in terms[1:])])


def terms_of(tokens: Sequence[Token]) -> list[Term] | None:
    """The terms of a sum, or None if the tokens are not one."""
    found: list[Term] = []
    at = 0
    while at < len(tokens):
        first, is_negative = at, False
        while at < len(tokens) and tokens[at].is_sign:
            is_negative ^= tokens[at].text == "-"
            at += 1
        if found and at == first:
            return None
        coefficient = tokens[at].text if at < len(tokens) and tokens[at].is_number else ""
        at += 1 if coefficient else 0
        name = tokens[at].text if at < len(tokens) and _is_column(tokens[at]) else ""
        at += 1 if name else 0
        if not coefficient and not name:
            return None
        found.append(Term(is_negative, coefficient, name))
    return found


def _is_column(token: Token) -> bool:
    return (
        token.is_name and not token.is_section and token.word not in INFINITIES and not set(token.text) & set("(),;/")
    )


def decimal_text(value: Fraction) -> str | None:
    """A number as a decimal, or None if it has no end or is too long."""
    denominator, places = value.denominator, 0
    while denominator % 2 == 0 or denominator % 5 == 0:
        denominator //= 10 if denominator % 10 == 0 else 2 if denominator % 2 == 0 else 5
        places += 1
    digits = str(abs(int(value * 10**places)))
    if denominator != 1 or max(len(digits), places) > MOST_DIGITS:
        return None
    sign, digits = "-" if value < 0 else "", digits.rjust(places + 1, "0")
    return sign + (f"{digits[:-places]}.{digits[-places:]}" if places else digits)
