"""What other programs may read differently in an LP file: a function for each kind."""

from __future__ import annotations

import re
from collections.abc import Iterator

from mpslp._portable._lp import Bound, LpFile
from mpslp._portable._names import arithmetic
from mpslp._portable._numbers import is_large
from mpslp._portable._remarks import COIN, NONE, PUBLISHED, Found, by_kind
from mpslp._portable._words import (
    Word,
    of_coefficients,
    of_names,
    of_numbers,
    of_rest,
    of_semi_continuous,
    of_whole_columns,
)
from mpslp._text._numbers import parts
from mpslp._text._published import LP_NAME

_READERS = ("glpsol", *COIN, "esolver")
"""The measured programs that read LP."""

_CONSTANT_OF_GLPSOL = re.compile(r"\\\* constant term = ")


def constant_in_comment(file: LpFile) -> Found:
    for line, text in file.comments:
        if _CONSTANT_OF_GLPSOL.match(text):
            yield line, "the comment is ignored; glpsol has the constant of the objective in it", NONE


def objective_constant(file: LpFile) -> Found:
    if file.constant is not None and not file.is_maximised and parts(file.constant.text)[0]:
        text = f"the constant of the objective is {file.constant.text}; clp takes its negative, and cbc drops it"
        yield file.constant.line, text, _READERS


def ranged_row(file: LpFile) -> Found:
    for row in file.rows:
        if len(row.sides) == 2:
            first, last = (side.text for side in row.sides)
            said = f"the row is between {first} and {last}; clp and cbc read another row"
            yield row.line, f"{said}, and not every dialect has such rows", (*_READERS, *PUBLISHED)


def row_after_side(file: LpFile) -> Found:
    for row in file.rows:
        if not row.label and row.after == row.line:
            yield row.line, f"at {row.first} a new row starts, as a number ends the row before", ("glpsol", "esolver")


def upper_zero(file: LpFile) -> Found:
    for name, bounds in file.bounds.items():
        zero = [
            each
            for each in bounds
            if each.upper is not None and each.upper.lstrip("-") != "inf" and not parts(each.upper)[0]
        ]
        if zero and all(each.lower is None for each in bounds):
            yield zero[0].line, f"{name} is fixed at 0, as its lower bound stays 0", NONE


def large_limit(file: LpFile) -> Found:
    for bounds in file.bounds.values():
        for line, *sides in bounds:
            for side in sides:
                if side is not None and "inf" not in side and is_large(side):
                    yield line, f"{side} is infinite; for glpsol, clp and cbc it is a number", _READERS


def joined_tokens(file: LpFile) -> Found:
    for line, text in file.joined.items():
        yield line, f"{text} is read as with a space in it; clp and cbc read something else", COIN


def spaced_side(file: LpFile) -> Found:
    for row in file.rows:
        for side in row.sides:
            if side.is_spaced:
                read = "for clp and cbc, with a space after its sign, it is something else"
                yield side.line, f"the side is {side.text}; {read}", (*COIN, "esolver")


def integer_section(file: LpFile) -> Found:
    for name, line in file.lists["generals"].items():
        if file.has_integer and not any(each.upper for each in file.bounds.get(name, [])):
            yield line, f"{name} is an integer column without an upper bound; for esolver it has the upper bound 1", (
                "esolver",
            )


def short_keyword(file: LpFile) -> Found:
    for line, word, is_after_bounds in file.short_keywords:
        others = (
            "is a column, and the columns after it are continuous"
            if is_after_bounds
            else "is no keyword, and they reject the file"
        )
        yield line, f"{word} starts a list of integer columns; for clp and cbc it {others}", (*COIN, "esolver")


def several_signs(file: LpFile) -> Found:
    for line in file.signs:
        yield line, "several signs before a term are multiplied; clp, cbc and esolver read another term", _READERS


def text_after_end(file: LpFile) -> Found:
    return of_rest(file.rest, "end", ("glpsol",))


def name_like_arithmetic(file: LpFile) -> Found:
    return of_names((Word(line, name) for name, line in file.names.items()), PUBLISHED)


def number_not_held(file: LpFile) -> Found:
    return of_numbers(file.numbers, ("glpsol", *COIN, *PUBLISHED))


def fixed_bound(file: LpFile) -> Found:
    for name, bounds in file.bounds.items():
        for bound in bounds:
            if bound.lower is not None and bound.lower == bound.upper:
                yield bound.line, f"{name} is fixed by an equation, which not every dialect has under Bounds", PUBLISHED


def name_in_dialects(file: LpFile) -> Found:
    for name, line in file.names.items():
        if not LP_NAME.fullmatch(name) and arithmetic(name) is None:
            said = f"{name} has bytes that are in no names of other dialects, or is a word of one"
            yield line, said, PUBLISHED


def coefficient_size(file: LpFile) -> Found:
    return of_coefficients(file.coefficients)


def semi_continuous_bound(file: LpFile) -> Found:
    return of_semi_continuous((name, _numbers(file.bounds.get(name, []))) for name in file.lists["semis"])


def near_whole_bound(file: LpFile) -> Found:
    names = dict.fromkeys(name for names in file.lists.values() for name in names)
    return of_whole_columns(((name, _numbers(file.bounds.get(name, []))) for name in names), ("glpsol", "cbc"))


def _numbers(bounds: list[Bound]) -> Iterator[Word]:
    return (number for bound in bounds for number in bound.numbers)


RULES = by_kind(
    constant_in_comment,
    objective_constant,
    ranged_row,
    row_after_side,
    upper_zero,
    large_limit,
    joined_tokens,
    spaced_side,
    integer_section,
    short_keyword,
    several_signs,
    text_after_end,
    name_like_arithmetic,
    number_not_held,
    fixed_bound,
    name_in_dialects,
    coefficient_size,
    semi_continuous_bound,
    near_whole_bound,
)
