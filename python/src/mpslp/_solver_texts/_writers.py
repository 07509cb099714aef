"""Writers of the formats. They take what the language of a solver has, and nothing else."""

from __future__ import annotations

from collections.abc import Callable, Iterator, Mapping
from decimal import Decimal

from mpslp._solver_texts._plain import Column, Model, Row
from mpslp._solver_texts._solvers import Constant, Language, TextFormat

Literals = Callable[[Decimal], str]
"""How numbers are spelled."""
Writer = Callable[[Model, Language, Literals], Iterator[str]]
_INFINITY = "1e30"
"""In LP, for clp and cbc."""


def written_constant(model: Model, language: Language) -> Decimal:
    """The constant with the sign that the language wants."""
    way = language.maximised if model.is_maximised else language.minimised
    return model.constant.copy_negate() if way is Constant.NEGATED else model.constant


# ---- MPS


def mps_lines(model: Model, language: Language, literal: Literals) -> Iterator[str]:
    yield language.header
    if model.is_maximised:
        yield from ("OBJSENSE", "    MAX")
    yield from ("ROWS", f" N  {model.objective}")
    yield from (f" {_letter(row, language)}  {name}" for name, row in model.rows.items())
    yield "COLUMNS"
    for name, column in model.columns.items():
        if not column.is_integer:
            yield from _entries(model, name, column, literal)
    if any(column.is_integer for column in model.columns.values()):
        yield "    MARKER  'MARKER'  'INTORG'"
        for name, column in model.columns.items():
            if column.is_integer:
                yield from _entries(model, name, column, literal)
        yield "    MARKER  'MARKER'  'INTEND'"
    yield "RHS"
    if model.constant:
        yield f"    RHS  {model.objective}  {literal(written_constant(model, language))}"
    for name, row in model.rows.items():
        side = row.upper if _is_below(row) else row.lower
        if side:
            yield f"    RHS  {name}  {literal(side)}"
        elif side is None and language.free_row != "N":
            yield f"    RHS  {name}  {language.free_row}"
    ranges = [f"    RNG  {name}  {literal(row.range)}" for name, row in model.rows.items() if row.range is not None]
    bounds = [line for name, column in model.columns.items() for line in _bounds(name, column, literal)]
    for header, lines in (("RANGES", ranges), ("BOUNDS", bounds)):
        if lines:
            yield header
            yield from lines
    yield "ENDATA"


def _letter(row: Row, language: Language) -> str:
    if row.lower is None:
        return "N" if row.upper is None and language.free_row == "N" else "L"
    return "E" if row.lower == row.upper else "L" if _is_below(row) else "G"


def _is_below(row: Row) -> bool:
    """Whether the right-hand side is the upper limit.

    Of two limits it is the smaller one: the sum of it and the range is rounded less.
    """
    return row.lower is None or row.upper is not None and abs(row.upper) < abs(row.lower)


def _entries(model: Model, name: str, column: Column, literal: Literals) -> Iterator[str]:
    if column.cost or not column.entries:
        yield f"    {name}  {model.objective}  {literal(column.cost)}"
    yield from (f"    {name}  {row}  {literal(number)}" for row, number in column.entries.items())


def _bounds(name: str, column: Column, literal: Literals) -> Iterator[str]:
    lower, upper = column.lower, column.upper
    if column.is_semi_continuous:
        assert upper is not None
        if lower:
            yield f" LO  BND  {name}  {literal(lower)}"
        yield f" SC  BND  {name}  {literal(upper)}"
    elif lower is not None and lower == upper:
        yield f" FX  BND  {name}  {literal(lower)}"
    elif lower is None and upper is None:
        yield f" FR  BND  {name}"
    else:
        if lower is None:
            yield f" MI  BND  {name}"
        elif lower:
            yield f" LO  BND  {name}  {literal(lower)}"
        if upper is not None:
            yield f" UP  BND  {name}  {literal(upper)}"
        elif column.is_integer:
            yield f" PL  BND  {name}"


# ---- LP


def lp_lines(model: Model, language: Language, literal: Literals) -> Iterator[str]:
    first = next(iter(model.columns))
    costs = {name: column.cost for name, column in model.columns.items() if column.cost or not column.entries}
    terms: dict[str, dict[str, Decimal]] = {name: {} for name in model.rows}
    for name, column in model.columns.items():
        for entry, number in column.entries.items():
            terms[entry][name] = number
    yield from ("Maximize" if model.is_maximised else "Minimize", f" {model.objective}:")
    yield from _terms(costs or {first: Decimal(0)}, literal)
    if model.constant:
        yield f"  {_signed(written_constant(model, language), literal)}"
    yield "Subject To"
    for name, row in model.rows.items():
        yield f" {name}:"
        yield from _terms(terms[name] or {first: Decimal(0)}, literal)
        yield _limit(row, literal)
    bounds = [
        _lp_bound(name, column, language, literal)
        for name, column in model.columns.items()
        if column.lower != 0 or column.upper is not None
    ]
    integers = [f" {name}" for name, column in model.columns.items() if column.is_integer]
    semis = [f" {name}" for name, column in model.columns.items() if column.is_semi_continuous]
    for header, lines in (("Bounds", bounds), ("Generals", integers), ("Semi-Continuous", semis)):
        if lines:
            yield header
            yield from lines
    yield "End"


def _terms(terms: Mapping[str, Decimal], literal: Literals) -> Iterator[str]:
    return (f"  {_signed(number, literal)} {name}" for name, number in terms.items())


def _signed(number: Decimal, literal: Literals) -> str:
    return f"{'-' if number < 0 else '+'} {literal(number.copy_abs())}"


def _limit(row: Row, literal: Literals) -> str:
    if row.lower is not None and row.lower == row.upper:
        return f"  = {literal(row.lower)}"
    if row.upper is not None:
        return f"  <= {literal(row.upper)}"
    return f"  >= {f'-{_INFINITY}' if row.lower is None else literal(row.lower)}"


def _lp_bound(name: str, column: Column, language: Language, literal: Literals) -> str:
    lower, upper = column.lower, column.upper
    if lower is None and upper is None:
        return f" {name} free"
    if lower is not None and lower == upper and language.has_equal_bounds:
        return f" {name} = {literal(lower)}"
    least = f"-{_INFINITY}" if lower is None else literal(lower)
    return f" {name} >= {least}" if upper is None else f" {least} <= {name} <= {literal(upper)}"


# ---- the format of GLPK


def glp_lines(model: Model, language: Language, literal: Literals) -> Iterator[str]:
    is_mip = any(column.is_integer for column in model.columns.values())
    numbers = {name: number for number, name in enumerate(model.rows, 1)}
    count = sum(len(column.entries) for column in model.columns.values())
    yield (
        f"p {'mip' if is_mip else 'lp'} {'max' if model.is_maximised else 'min'} "
        f"{len(model.rows)} {len(model.columns)} {count}"
    )
    yield f"n z {model.objective}"
    for name, row in model.rows.items():
        yield f"i {numbers[name]} {_glp_limits(row.lower, row.upper, literal)}"
        yield f"n i {numbers[name]} {name}"
    if model.constant:
        yield f"a 0 0 {literal(written_constant(model, language))}"
    for number, (name, column) in enumerate(model.columns.items(), 1):
        kind = f"{'i' if column.is_integer else 'c'} " if is_mip else ""
        yield f"j {number} {kind}{_glp_limits(column.lower, column.upper, literal)}"
        yield f"n j {number} {name}"
        if column.cost:
            yield f"a 0 {number} {literal(column.cost)}"
        yield from (f"a {numbers[row]} {number} {literal(value)}" for row, value in column.entries.items())
    yield "e o f"


def _glp_limits(lower: Decimal | None, upper: Decimal | None, literal: Literals) -> str:
    if lower is None:
        return "f" if upper is None else f"u {literal(upper)}"
    if upper is None:
        return f"l {literal(lower)}"
    return f"s {literal(lower)}" if lower == upper else f"d {literal(lower)} {literal(upper)}"


WRITERS: Mapping[TextFormat, Writer] = {"mps": mps_lines, "lp": lp_lines, "glp": glp_lines}
