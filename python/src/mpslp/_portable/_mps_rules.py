"""What other programs may read differently in an MPS file: a function for each kind."""

from __future__ import annotations


from mpslp._portable._mps import Bound, MpsFile
from mpslp._portable._numbers import is_large
from mpslp._portable._remarks import COIN, MEASURED, NONE, PUBLISHED, Found, by_kind
from mpslp._portable._words import (
    Word,
    of_coefficients,
    of_names,
    of_numbers,
    of_rest,
    of_semi_continuous,
    of_whole_columns,
)
from mpslp._text._mps_words import LOWER, UPPER
from mpslp._text._numbers import parts

_DOUBLES = ("glpsol", *COIN, "lp_solve")
_OF_WHOLE_COLUMNS = ("LI", "UI", "BV", "SC")
"""The types of bounds of columns that are integer or semi-continuous."""


def sense_in_comment(file: MpsFile) -> Found:
    is_maximised = _is_maximised(file)
    for line, text in file.comments:
        word = text[1:].replace(" ", "").upper()
        if word.startswith("SENSE:M") and word.startswith("SENSE:MAX") != is_maximised:
            direction = "maximised" if is_maximised else "minimised"
            yield line, f"the comment is ignored, and the model {direction}; PuLP writes the sense there", NONE


def objsense(file: MpsFile) -> Found:
    if file.sense is not None and _is_maximised(file):
        if file.is_sense_in_header:
            said = "the model is maximised; lp_solve ignores the word on the line of OBJSENSE and minimises"
            yield file.sense.line, said, MEASURED
        else:
            yield file.sense.line, "the model is maximised; clp and cbc ignore OBJSENSE and minimise", ("glpsol", *COIN)


def no_name(file: MpsFile) -> Found:
    if "NAME" not in file.headers:
        yield min(
            file.headers.values()
        ), "there is no line NAME; clp and cbc read a model without rows then, and find the optimum 0", (
            "glpsol",
            *COIN,
        )


def no_rhs_section(file: MpsFile) -> Found:
    name, column = list(file.columns.items())[-1]
    if "RHS" not in file.headers and not column.is_marked and name not in file.bounds:
        yield column.line, f"without an RHS section lp_solve drops the last column, {name}", ("lp_solve", *COIN)


def further_n_row(file: MpsFile) -> Found:
    objective = file.objective
    for name, (line, kind) in file.types.items():
        if kind == "N" and name != objective:
            said = f"{name} is a free row; glpsol, clp, cbc and lp_solve drop it, and by their documents HiGHS and SCIP"
            yield line, said, (*_DOUBLES, *PUBLISHED)


def empty_markers(file: MpsFile) -> Found:
    for line in file.empty_markers:
        yield line, "no column is between INTORG and INTEND; columns after INTEND are continuous", NONE


def short_fields(file: MpsFile) -> Found:
    for line, fields in file.joined:
        name = fields.replace(" ", "")
        count = len(fields.split())
        yield line, f"{fields} are {count} fields; clp and cbc read the name {name}, or reject the file", COIN


def marked_without_bound(file: MpsFile) -> Found:
    for name, column in file.columns.items():
        if column.is_marked and name not in file.bounds:
            said = f"{name} is an integer column from 0 to 1; for lp_solve it has no upper bound"
            yield column.line, f"{said}, and the documents of other solvers differ", ("lp_solve", *PUBLISHED)


def marked_with_lower_bound(file: MpsFile) -> Found:
    for name, column in file.columns.items():
        bounds = file.bounds.get(name, [])
        if column.is_marked and bounds and not _given(bounds, UPPER):
            yield bounds[
                0
            ].line, f"{name} is an integer column without an upper bound; for glpsol it has the upper bound 1", (
                "glpsol",
            )


def objective_rhs(file: MpsFile) -> Found:
    objective = file.objective
    for line, row, number in file.sides:
        if row == objective and parts(number)[0]:
            yield line, f"the constant of the objective is minus {number}; for glpsol and lp_solve it is {number}", (
                "glpsol",
                "lp_solve",
                "esolver",
            )


def range_on_equation(file: MpsFile) -> Found:
    for line, row, number in file.ranges:
        if file.type_of(row) == "E" and parts(number)[0] < 0:
            yield line, f"the range of the E row {row} is below its right-hand side, by the sign of {number}", NONE


def upper_zero(file: MpsFile) -> Found:
    for name, bounds in file.bounds.items():
        upper = [bound for bound in bounds if bound.type in ("UP", "UI")]
        if upper and not parts(upper[0].number)[0] and not _given(bounds, LOWER):
            yield upper[0].line, f"{name} is fixed at 0, as its lower bound stays 0", NONE


def large_limit(file: MpsFile) -> Found:
    for line, row, number in file.sides:
        if row != file.objective and file.type_of(row) != "N" and is_large(number):
            yield line, f"{number} is infinite; for glpsol and lp_solve it is a number", (
                "glpsol",
                "lp_solve",
                "esolver",
                "coinutils",
            )
    for bounds in file.bounds.values():
        for bound in bounds:
            if bound.number and is_large(bound.number):
                said = f"{bound.number} is infinite; for glpsol, clp, cbc and lp_solve it is a number"
                yield bound.line, said, MEASURED


def text_after_end(file: MpsFile) -> Found:
    return of_rest(file.rest, "ENDATA", NONE)


def name_like_arithmetic(file: MpsFile) -> Found:
    yield from of_names((Word(word.line, name) for name, word in file.types.items()), NONE)
    yield from of_names((Word(column.line, name) for name, column in file.columns.items()), NONE)


def number_not_held(file: MpsFile) -> Found:
    return of_numbers(file.numbers, (*_DOUBLES, *PUBLISHED))


def coefficient_size(file: MpsFile) -> Found:
    return of_coefficients(file.coefficients)


def semi_continuous_bound(file: MpsFile) -> Found:
    return of_semi_continuous(
        (name, (Word(bound.line, bound.number) for bound in bounds if bound.type in ("SC", "UP")))
        for name, bounds in file.bounds.items()
        if _given(bounds, ("SC",))
    )


def near_whole_bound(file: MpsFile) -> Found:
    whole = (
        (name, (Word(bound.line, bound.number) for bound in bounds if bound.number))
        for name, bounds in file.bounds.items()
        if file.columns[name].is_marked or _given(bounds, _OF_WHOLE_COLUMNS)
    )
    return of_whole_columns(whole, ("glpsol", *COIN))


def _is_maximised(file: MpsFile) -> bool:
    return file.sense is not None and file.sense.text.startswith("MAX")


def _given(bounds: list[Bound], types: tuple[str, ...]) -> bool:
    return any(bound.type in types for bound in bounds)


RULES = by_kind(
    sense_in_comment,
    objsense,
    no_name,
    no_rhs_section,
    further_n_row,
    empty_markers,
    short_fields,
    marked_without_bound,
    marked_with_lower_bound,
    objective_rhs,
    range_on_equation,
    upper_zero,
    large_limit,
    text_after_end,
    name_like_arithmetic,
    number_not_held,
    coefficient_size,
    semi_continuous_bound,
    near_whole_bound,
)
