"""How a row is written that is read as a whole, without tokens.

This is what the rules write token by token, in a part of the time: whatever is not that simple is left to them.
"""

from __future__ import annotations

from collections.abc import Callable, Iterable, Sequence
from decimal import Decimal
from functools import lru_cache
from typing import NamedTuple

from mpslp._adapt._lp_plain import ItemText, Sides
from mpslp._text import _numbers

_LONGEST_FORM = 180
"""A longer row may need more than one line."""

_FLIPPED = {"<=": ">=", ">=": "<=", "=": "="}
_SHORT_NUMBER = 6
"""The most letters of whole numbers that are added as integers, and written as they are: larger ones may have an
exponent.
"""


class Form(NamedTuple):
    """How a row is written, and why; and the names that are written in another way, in their order."""

    kinds: tuple[str, ...]
    text: str
    renamed: tuple[tuple[str, str], ...] = ()


def form_of_row(sides: Sides, written: Callable[[str], str]) -> Form | None:
    """How a row is written with all terms on the left and one number on the right, without its label; None for a row
    that needs more, or that is left. A row without kinds of changes stays as it is.
    """
    left, relation, right, names_on_the_left, names_on_the_right, _ = sides
    is_flipped = not names_on_the_left
    terms, outer = (right, left) if is_flipped else (left, right)
    kinds = _kinds(sides, terms, outer, is_flipped)
    if not kinds:
        return _KEPT
    limit = _limit(
        tuple([sign + number for sign, number, _, name in outer if not name]),
        tuple([sign + number for sign, number, _, name in terms if not name]),
    )
    if names_on_the_right and not is_flipped:
        terms = terms + [("" if sign == "-" else "-", number, "", name) for sign, number, _, name in outer if name]
    body = _body(terms, written, "added-terms" in kinds)
    if limit is None or body is None or len(body) > _LONGEST_FORM:
        return None
    sense = sense_of(relation)
    renamed = _renamed([*names_on_the_left, *names_on_the_right], written) if "(" in body else ()
    return Form(kinds, f"{body} {_FLIPPED[sense] if is_flipped else sense} {limit}", renamed)


_KEPT = Form((), "")


def sense_of(relation: str) -> str:
    """A relation as it is written."""
    return "<=" if "<" in relation else ">=" if ">" in relation else "="


def _kinds(sides: Sides, terms: Sequence[ItemText], outer: Sequence[ItemText], is_flipped: bool) -> tuple[str, ...]:
    """Why a row is written again, in the order in which it is reported."""
    names, moved = sides.names_on_the_left, sides.names_on_the_right
    if is_flipped:
        names, moved = moved, names
    kinds = ["number-first"] if is_flipped else ["terms-on-the-right"] if moved else []
    if len(outer) != 1 and not moved:
        kinds.append("added-constants")
    if len(names) < len(terms):
        kinds.append("constant-in-row")
    if len({*names, *moved}) < len(names) + len(moved):
        kinds.append("added-terms")
    if sides.has_products:
        kinds.append("product")
    return tuple(kinds)


def _body(terms: Sequence[ItemText], written: Callable[[str], str], is_again: bool) -> str | None:
    """The terms as they are written, with those of one column added; None if a sum is beyond the limits."""
    if is_again:
        added = _added(terms)
        if added is None:
            return None
        terms = added
    parts = [
        f"{sign or '+'} {number} {written(name)}" if number else f"{sign or '+'} {written(name)}"
        for sign, number, _, name in terms
        if name
    ]
    return " ".join(parts).removeprefix("+ ")


def _added(terms: Sequence[ItemText]) -> list[ItemText] | None:
    """Terms, with those of one column added in the place of the first of them."""
    groups: dict[str, list[ItemText]] = {}
    for item in terms:
        if item[3]:
            groups.setdefault(item[3], []).append(item)
    added = []
    for name, group in groups.items():
        if len(group) > 1:
            number = _sum(tuple([sign + (number or "1") for sign, number, _, _ in group]))
            if number is None:
                return None
            group = [("-" if number.startswith("-") else "+", number.removeprefix("-"), "", name)]
        added += group
    return added


def _renamed(names: Iterable[str], written: Callable[[str], str]) -> tuple[tuple[str, str], ...]:
    return tuple([(name, written(name)) for name in dict.fromkeys(names) if written(name) != name])


def _sum(numbers: tuple[str, ...]) -> str | None:
    """The sum of numbers; None if it is beyond the limits."""
    if all(map(_is_short, numbers)):
        return _text_of_whole(sum(map(int, numbers)))
    total = _exact_sum(numbers)
    return None if total is None else _numbers.text(total)


@lru_cache(maxsize=4096)
def _limit(side: tuple[str, ...], constants: tuple[str, ...]) -> str | None:
    """The sum of numbers less others; None if one of them or the result is beyond the limits, or infinite."""
    if all(map(_is_short, side)) and all(map(_is_short, constants)):
        return _text_of_whole(sum(map(int, side)) - sum(map(int, constants)))
    if any(map(_numbers.is_infinite, side)):
        return None
    limit, constant = _exact_sum(side), _exact_sum(constants)
    if limit is None or constant is None:
        return None
    limit = _numbers.subtracted(limit, constant)
    return None if limit.copy_abs() >= _numbers.LARGE else _numbers.text(limit)


def _is_short(number: str) -> bool:
    return len(number) <= _SHORT_NUMBER and number.lstrip("+-").isdecimal()


def _text_of_whole(number: int) -> str | None:
    """A whole number as mpslp writes it."""
    text = str(number)
    return text if len(text) <= _SHORT_NUMBER else _numbers.text(Decimal(number))


def _exact_sum(numbers: Iterable[str]) -> Decimal | None:
    total = _numbers.ZERO
    for number in map(_numbers.exact, numbers):
        if number is None:
            return None
        total = _numbers.added(total, number)
    return total
