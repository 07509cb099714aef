"""Rules for LP: numbers that are written in another way, and what is written beside them."""

from __future__ import annotations

import re
from collections.abc import Sequence

from mpslp._messages._case import Case, Found
from mpslp._messages._causes_both import Rule, hexadecimal_value, is_nan, letters_as_digits
from mpslp._messages._lp_sums import product_text, quotient_text, value_of
from mpslp._messages._lp_suspects import (
    is_column,
    is_glued,
    is_word,
    joined,
    on_lines,
    read_otherwise,
    section_of,
    without_label,
)
from mpslp._messages._tokens import Token
from mpslp._text._lp_words import INFINITIES

_THOUSAND = re.compile(r"\d{3}(?:\.\d*)?", re.ASCII)
_THOUSANDS = re.compile(r"(?:[_'`]\d{3})+", re.ASCII)
_FORTRAN = re.compile(r"[dDqQ]\d*", re.ASCII)
_HEXADECIMAL = re.compile(r"[xX][0-9a-fA-F]+", re.ASCII)
_AMOUNT = re.compile(r"[$](\d+(?:\.\d*)?|\.\d+)?", re.ASCII)
_UNITS = frozenset("g t h s m l W k K kg to hr km cm mm m2 m3 kW MW GW EUR USD GBP".split())
_WORD = 3
"""A word of so many letters may be one of a language."""
_EXPONENT = re.compile(r"[eE]")


# ---- two numbers that are one


@on_lines
def space_in_number(case: Case, line: Sequence[Token]) -> Found | None:
    """Groups of three digits with one space, or a mark that is read as the start of a name, between them."""
    for at, first in enumerate(line):
        if not first.is_number or len(first.text) > 3 or not first.text.isdigit():
            continue
        end = at + 1
        while (
            end < len(line)
            and line[end].start == line[end - 1].end + 1
            and _THOUSAND.fullmatch(line[end].text)
            and line[end - 1].text.isdigit()
        ):
            end += 1
        if end == at + 1 and end < len(line) and is_glued(first, line[end]) and _THOUSANDS.fullmatch(line[end].text):
            end += 1
        if end > at + 1:
            tokens = line[at:end]
            return read_otherwise(case, tokens, mend=re.sub(r"[_'`]", "", "".join(each.text for each in tokens)))
    return None


@on_lines
def two_points(case: Case, line: Sequence[Token]) -> Found | None:
    for first, second in zip(line, line[1:]):
        if (
            first.is_number
            and is_glued(first, second)
            and (second.is_number or second.text == ".")
            and not _EXPONENT.search(first.text)
        ):
            return read_otherwise(
                case, (first, second), f"{first.text}{second.text} has {(first.text + second.text).count('.')}"
            )
    return None


@on_lines
def two_numbers(case: Case, line: Sequence[Token]) -> Found | None:
    for at, (first, second) in enumerate(zip(line, line[1:])):
        if not first.is_number or not second.is_number or is_glued(first, second):
            continue
        after = line[at + 2] if at + 2 < len(line) else None
        if after is not None and after.is_section and is_glued(second, after):  # 3 1st is a name with a digit first
            continue
        name = after if after is not None and is_word(after) else None
        product = product_text((first.text, second.text))
        is_whole = first.text.isdigit() and second.text.isdigit()
        is_split = (first.text + second.text).count(".") == 1 and (first.text[-1] == "." or second.text[0] == ".")
        meant = [first.text + second.text] * (is_whole or is_split) + (
            [product] if product and name and not is_split else []
        )
        if name is None:
            is_pair = bool(meant) and not (after is not None and after.is_number)
            return read_otherwise(
                case, (first, second), f"{joined((first, second))} may be {meant[0]}" if is_pair else ""
            )
        return read_otherwise(
            case,
            (first, second, name),
            f"{joined((first, second, name))} may be {' or '.join(f'{each} {name.text}' for each in meant)}",
        )
    return None


# ---- exponents, and digits of other kinds


@on_lines
def odd_exponent(case: Case, line: Sequence[Token]) -> Found | None:
    """A number, and beside it an e without digits; or an exponent with a decimal point."""
    for first, second in zip(line, line[1:]):
        if (
            first.is_number
            and is_glued(first, second)
            and (second.word == "e" or (_EXPONENT.search(first.text) and second.is_number))
        ):
            return read_otherwise(case, (first, second))
    return None


@on_lines
def fortran_exponent(case: Case, line: Sequence[Token]) -> Found | None:
    for at, (first, second) in enumerate(zip(line, line[1:])):
        if not first.is_number or not is_glued(first, second) or not _FORTRAN.fullmatch(second.text):
            continue
        exponent = second.text[1:]
        sign, digits = (line[at + 2], line[at + 3]) if at + 3 < len(line) else (None, None)
        if (
            not exponent
            and sign is not None
            and digits is not None
            and sign.is_sign
            and is_glued(second, sign)
            and is_glued(sign, digits)
        ):
            return read_otherwise(case, (first, second, sign, digits), mend=f"{first.text}e{sign.text}{digits.text}")
        return read_otherwise(case, (first, second), mend=f"{first.text}e{exponent}") if exponent else None
    return None


@on_lines
def hexadecimal(case: Case, line: Sequence[Token]) -> Found | None:
    for first, second in zip(line, line[1:]):
        if first.text == "0" and is_glued(first, second) and _HEXADECIMAL.fullmatch(second.text):
            return read_otherwise(case, (first, second), mend=hexadecimal_value(first.text + second.text) or "")
    return None


@on_lines
def letter_as_digit(case: Case, line: Sequence[Token]) -> Found | None:
    for first, second in zip(line, line[1:]):
        if first.is_number and is_glued(first, second) and second.is_name:
            meant = letters_as_digits(first.text + second.text)
            if meant is not None:
                return read_otherwise(case, (first, second), mend=meant)
    return None


# ---- marks and words beside a number


@on_lines
def percent(case: Case, line: Sequence[Token]) -> Found | None:
    """A number, a percent sign, and a column or another number."""
    for first, mark, after in zip(line, line[1:], line[2:]):
        if first.is_number and mark.text == "%" and (is_word(after) or after.is_number):
            mend = quotient_text(first.text, "100") if is_word(after) else ""
            return read_otherwise(case, (first, mark), mend=mend)
    return None


@on_lines
def currency(case: Case, line: Sequence[Token]) -> Found | None:
    """A word that is a dollar sign, or one and a number."""
    for mark, after in zip(line, [*line[1:], None]):
        amount = _AMOUNT.fullmatch(mark.text)
        if amount is None:
            continue
        if amount[1]:
            return read_otherwise(case, (mark,), mend=amount[1])
        if after is not None and (after.is_number or is_word(after)):
            return read_otherwise(case, (mark, after), mend=after.text)
    return None


@on_lines
def unit_after_number(case: Case, line: Sequence[Token]) -> Found | None:
    """A number on the right, and after it a word that is no column, and nothing more in the line."""
    if len(line) < 3:
        return None
    number, unit = line[-2:]
    before = next((each for each in reversed(line[:-2]) if not each.is_sign), None)
    if before is None or not before.is_relation or not number.is_number or not is_word(unit) or not _is_unit(unit.text):
        return None
    if is_column(case, unit.text):
        return None
    return read_otherwise(
        case, (number, unit), f"{unit.text} is a column of no other row", joined(without_label(line)[:-1])
    )


def _is_unit(word: str) -> bool:
    """Whether a word is that of a unit, or has letters only, and more than a column of one letter."""
    return word in _UNITS or (word.isalpha() and len(word) >= _WORD)


# ---- numbers that are none, or infinite


def nan(case: Case) -> Found | None:
    """What a program writes that has no number, in the place of a coefficient."""
    before, token = case.before(), case.token
    if before is None or token is None or not is_nan(before.text) or not is_word(token):
        return None
    return read_otherwise(case, (before,))


@on_lines
def infinite_coefficient(case: Case, line: Sequence[Token]) -> Found | None:
    """An infinity that is not beside a relation."""
    for at, each in enumerate(line):
        if each.word not in INFINITIES or section_of(case, line) == "bounds":
            continue
        before = next((other for other in reversed(line[:at]) if not other.is_sign), None)
        after = line[at + 1] if at + 1 < len(line) else None
        if not any(other is not None and other.is_relation for other in (before, after)) and (
            before is not None or after is not None
        ):
            return read_otherwise(case, (each,))
    return None


# ---- sums and products of numbers


def product_of_numbers(case: Case) -> Found | None:
    """Numbers with asterisks between them, and then perhaps a column."""
    token, tokens = case.token, case.tokens
    if token is None or token.text != "*":
        return None
    first = case.token_at - 1
    end = first
    while end + 2 < len(tokens) and tokens[end + 1].text == "*" and tokens[end + 2].is_number:
        end += 2
    if first < 0 or not tokens[first].is_number or end == first or tokens[end].line != tokens[first].line:
        return None
    product = product_text(each.text for each in tokens[first : end + 1 : 2])
    return read_otherwise(case, tokens[first : end + 1], mend=product)


@on_lines
def division(case: Case, line: Sequence[Token]) -> Found | None:
    """A column, a slash and a number."""
    for name, slash, number in zip(line, line[1:], line[2:]):
        if is_word(name) and slash.text == "/" and number.is_number and value_of(number.text) != 0:
            factor = quotient_text("1", number.text)
            return read_otherwise(case, (name, slash, number), mend=f"{factor} {name.text}" if factor else "")
    return None


@on_lines
def coefficient_after(case: Case, line: Sequence[Token]) -> Found | None:
    """A column, and after it a number, and then a sign, a relation or the end of the objective."""
    has_relation = any(each.is_relation for each in line)
    for at, (name, number) in enumerate(zip(line, line[1:])):
        if (
            not is_word(name)
            or not number.is_number
            or is_glued(name, number)
            or (at > 0 and (line[at - 1].is_number or line[at - 1].is_relation or is_word(line[at - 1])))
        ):
            continue
        after = line[at + 2] if at + 2 < len(line) else None
        if (after is None and not has_relation and section_of(case, line)) or (
            after is not None and not after.is_sign and not after.is_relation
        ):
            continue
        return read_otherwise(case, (name, number), mend=f"{number.text} {name.text}")
    return None


RULES: tuple[Rule, ...] = (
    space_in_number,
    odd_exponent,
    two_points,
    two_numbers,
    fortran_exponent,
    hexadecimal,
    letter_as_digit,
    percent,
    currency,
    nan,
    infinite_coefficient,
    unit_after_number,
    product_of_numbers,
    division,
    coefficient_after,
)
