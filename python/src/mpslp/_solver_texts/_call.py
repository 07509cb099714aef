"""The calls."""

# Annotations are evaluated here: the classes appear as those of the package, whose names are fewer.

import math
import sys
from collections.abc import Callable, Iterator, Mapping
from decimal import ROUND_CEILING, ROUND_FLOOR, Decimal
from typing import Literal

from mpslp._models._numbers import ZERO
from mpslp._solver_texts._names import is_read, readable_name
from mpslp._solver_texts._plain import Column, Row, plain_model
from mpslp._solver_texts._read_back import Added, canonical_says, differences, text_says
from mpslp._solver_texts._solvers import SOLVERS, Constant, Language, SemiContinuous, Solver, TextFormat
from mpslp._solver_texts._writers import WRITERS
from mpslp._text._published import TOLERANCE

SolverName = Literal["glpsol", "clp", "cbc", "lp_solve", "esolver", "highs", "scip", "portable"]
"""The name of a solver's program, or ``portable`` for what HiGHS, Gurobi, CPLEX and Xpress read alike."""

_DIGITS = 17
"""A number with more digits is rounded to the nearest double."""
_LONGEST = 24
"""A longer literal is written as the shortest one of its double; clp and cbc read at most 25 characters."""


class SolverError(ValueError):
    """A solver holds no text of the model: what it would read has another optimum. The message says why."""


class SolverText(bytes):
    """The text that a solver reads as a model: bytes, with their format and what the solver does not hold."""

    format: TextFormat
    """The format: 'mps', 'lp', or 'glp' for that of GLPK."""
    warnings: tuple[str, ...]
    """What the solver does not hold, and what the text has in its place."""
    names: Mapping[str, str]
    """The names of the model that are other ones in the text, with what is written for them; ``canon --for`` writes
    them with ``--map``.
    """


def solver_text(canonical: bytes, solver: str, format: str | None = None) -> SolverText:
    """The text for a solver of a model, given as its canonical MPS text."""
    if solver not in SOLVERS:
        raise ValueError(f"the solver {solver!r} is none of {', '.join(SOLVERS)}")
    rules = SOLVERS[solver]
    languages = [language for language in rules.languages if format in (None, language.format)]
    if not languages:
        raise SolverError(
            f"{solver} reads {' and '.join(language.format for language in rules.languages)}, and not {format}"
        )
    reasons: list[str] = []
    for language in languages:
        try:
            text = _Fitted(canonical, solver, rules, language).text()
        except SolverError as error:
            reasons.append(str(error))
            continue
        if reasons:
            text.warnings = (f"the text is in the format {language.format.upper()}: {reasons[0]}", *text.warnings)
        return text
    hint = ""
    if format is not None and len(rules.languages) > 1:
        hint = _hint(canonical, solver, rules, format)
    raise SolverError("; ".join(dict.fromkeys(reasons)) + hint)


def _hint(canonical: bytes, solver: str, rules: Solver, format: str) -> str:
    """The format that holds the model, if there is one."""
    for language in rules.languages:
        if language.format != format:
            try:
                _Fitted(canonical, solver, rules, language)
            except SolverError:
                continue
            return f"; {language.format.upper()} holds it (-t {language.format})"
    return ""


class _Fitted:
    """A model that is changed until a language holds it, and what was added to it."""

    def __init__(self, canonical: bytes, solver: str, rules: Solver, language: Language) -> None:
        self.warnings: list[str] = []
        self._canonical = canonical
        self._solver = rules.called or solver
        self._rules = rules
        self._language = language
        self._model = plain_model(canonical)
        self._names = {self._model.objective, *self._model.rows, *self._model.columns}
        self._numbers: dict[str, int] = {}
        """The last number after each name that was wanted again."""
        self._check()
        self._renamed = self._rename()
        self._continuous = self._make_continuous()
        self._whole = self._make_bounds_whole() if rules.needs_whole_bounds else frozenset()
        self._values = {} if language.has_ranged_rows else self._add_values()
        has_limit = any(row.lower is not None or row.upper is not None for row in self._model.rows.values())
        self._row = self._add_row() if language.needs_row and not has_limit else None
        self._constant = self._add_constant()
        self._warn_of_digits()
        self._warn_of_integers()

    # ---- what no text of the language holds

    def _check(self) -> None:
        model, solver, language = self._model, self._solver, self._language
        for name, column in model.columns.items():
            if column.is_integer and not self._rules.has_integers:
                raise SolverError(f"{solver} has no integer columns, and {name} is one")
            if column.is_semi_continuous and self._rules.semi_continuous is SemiContinuous.NONE and column.lower:
                raise SolverError(f"{solver} has no semi-continuous columns, and {name} is one with a lower bound")
            if column.is_semi_continuous and _is_above(column.upper, self._rules.largest_semi_continuous):
                most = f"{self._rules.largest_semi_continuous:g}"
                raise SolverError(
                    f"{solver} has no semi-continuous column with an upper bound above {most}, and {name} is one"
                )
            is_rounded = self._rules.rounds_integer_bounds and (
                column.is_integer or (column.is_semi_continuous and not self._is_continuous(column))
            )
            if is_rounded and (_is_near_whole(column.lower) or _is_near_whole(column.upper)):
                raise SolverError(
                    f"{solver} rounds bounds near whole numbers of columns that are not continuous, and {name} has one"
                )
        if model.is_maximised and language.maximised is None:
            raise SolverError(
                f"{solver} minimises the objective of every {language.format.upper()} file, and this one is maximised"
            )
        if language.needs_row and not model.constant and not self._has_term():
            raise SolverError(f"{solver} needs a term in the objective or in a row with a limit")
        if language.free_row is None:
            for name, row in model.rows.items():
                if row.lower is None and row.upper is None:
                    raise SolverError(
                        f"{solver} drops rows without limits in {language.format.upper()}, and {name} is one"
                    )
        if not self._rules.is_exact:
            self._check_magnitudes()

    def _is_continuous(self, column: Column) -> bool:
        """Whether a semi-continuous column is written as a continuous one."""
        return self._rules.semi_continuous is not SemiContinuous.ALL and not column.lower

    def _has_term(self) -> bool:
        """Whether a column has a term in the objective or in a row with a limit."""
        limited = {name for name, row in self._model.rows.items() if row.lower is not None or row.upper is not None}
        return any(column.cost or not limited.isdisjoint(column.entries) for column in self._model.columns.values())

    def _check_magnitudes(self) -> None:
        smallest, largest = max(self._language.smallest, sys.float_info.min), self._rules.largest
        for number in self._model.numbers():
            if number and not smallest <= abs(float(number)) < largest:
                kind = "infinite" if abs(number) > 1 else "0"
                raise SolverError(
                    f"the number {_plain(number)} is {kind} for {self._solver} in {self._language.format.upper()}"
                )
        smallest, largest = self._rules.coefficients
        for name, column in self._model.columns.items():
            for row, number in column.entries.items():
                if number and not smallest < abs(float(number)) < largest:
                    kind = "too large" if abs(number) > 1 else "0"
                    raise SolverError(
                        f"the coefficient {_plain(number)} of {name} in {row} is {kind} for {self._solver}"
                    )

    # ---- what is written in another way

    def _rename(self) -> dict[str, str]:
        """Gives rows, columns and the objective that have names that are not read other ones.

        Returns the names by the new ones.
        """
        language = self._language
        wrong = sorted(name for name in self._names if not is_read(name, language))
        if not wrong:
            return {}
        written: dict[str, str] = {}
        for name in wrong:
            written[name] = self._new_name(readable_name(name, language))
        model = self._model
        model.objective = written.get(model.objective, model.objective)
        model.rows = {written.get(name, name): row for name, row in model.rows.items()}
        model.columns = {written.get(name, name): column for name, column in model.columns.items()}
        for column in model.columns.values():
            column.entries = {written.get(name, name): number for name, number in column.entries.items()}
        text = (
            f"{self._solver} does not read the name {wrong[0]} in {language.format.upper()}: it is replaced, by"
            f" {written[wrong[0]]}"
        )
        others = f", and {len(wrong) - 1} more {'is' if len(wrong) == 2 else 'are'}" if len(wrong) > 1 else ""
        self.warnings.append(f"{text}{others}")
        return {new: name for name, new in written.items()}

    def _make_continuous(self) -> frozenset[str]:
        """A semi-continuous column whose lower bound is 0 is the same as a continuous one."""
        semis = {name: column for name, column in self._model.columns.items() if column.is_semi_continuous}
        found = [name for name, column in semis.items() if self._is_continuous(column)]
        for name in found:
            semis[name].is_semi_continuous = False
        if len(found) < len(semis) and self._rules.for_semi_continuous:
            self.warnings.append(
                f"{self._solver} may stop at semi-continuous columns without the option"
                f" {self._rules.for_semi_continuous}"
            )
        if found:
            has_none = self._rules.semi_continuous is SemiContinuous.NONE
            reason = (
                "has no semi-continuous columns"
                if has_none
                else "misreads semi-continuous columns without a lower bound"
            )
            self.warnings.append(
                f"{self._solver} {reason}: {found[0]}{_more(len(found))}, with the lower bound 0, is written as"
                " continuous"
            )
        return frozenset(found)

    def _make_bounds_whole(self) -> frozenset[str]:
        """Rounds the bounds of integer columns inwards. Returns the columns whose bounds are changed."""
        found: dict[str, str] = {}
        for name, column in self._model.columns.items():
            if not column.is_integer:
                continue
            lower, upper = _rounded(column.lower, ROUND_CEILING), _rounded(column.upper, ROUND_FLOOR)
            if (lower, upper) == (column.lower, column.upper):
                continue
            if lower is not None and upper is not None and lower > upper:
                raise SolverError(
                    f"{self._solver} needs whole bounds of integer columns, and there is no whole number between those"
                    f" of {name}"
                )
            changes = ((column.lower, lower), (column.upper, upper))
            found[name] = " and ".join(
                f"{_plain(old)} to {_plain(new)}"
                for old, new in changes
                if old is not None and new is not None and old != new
            )
            column.lower, column.upper = lower, upper
        if found:
            first, rounded = next(iter(found.items()))
            text = f"{self._solver} needs whole bounds of integer columns: {first}{_more(len(found))}"
            self.warnings.append(f"{text} has them rounded inwards, {rounded}")
        return frozenset(found)

    def _add_values(self) -> dict[str, str]:
        """Makes each ranged row an equation, with a column for its value."""
        found: dict[str, str] = {}
        for name, row in self._model.rows.items():
            if row.range is not None:
                found[name] = self._new_name(f"value_{len(found) + 1}")
                self._model.columns[found[name]] = Column(lower=row.lower, upper=row.upper, entries={name: Decimal(-1)})
                row.lower, row.upper, row.range = Decimal(0), Decimal(0), None
        if found:
            first = next(iter(found))
            self.warnings.append(
                f"{self._solver} does not read ranged rows of LP: {first}{_more(len(found))} is an equation with a"
                f" further column for its value, {found[first]}"
            )
        return found

    def _add_row(self) -> str:
        name = self._new_name("row_1")
        self._model.rows[name] = Row(lower=None, upper=Decimal(1))
        first = next(iter(self._model.columns))
        self._model.columns[first].entries[name] = Decimal(0)
        self.warnings.append(f"{self._solver} needs a row with a limit: {name}, which has no terms, is added")
        return name

    def _add_constant(self) -> str | None:
        model, language = self._model, self._language
        way = language.maximised if model.is_maximised else language.minimised
        if way is not Constant.COLUMN or not model.constant:
            return None
        name = self._new_name("constant_1")
        model.columns[name] = Column(lower=Decimal(1), upper=Decimal(1), cost=model.constant)
        model.constant = Decimal(0)
        self.warnings.append(
            f"{self._solver} does not read the constant of the objective: it is the cost of a further column, {name},"
            " that is fixed at 1"
        )
        return name

    def _new_name(self, wanted: str) -> str:
        """A name that the model has not."""
        name, number = wanted, self._numbers.get(wanted, 1)
        while name in self._names:
            number += 1
            name = f"{wanted}_{number}"
        self._names.add(name)
        self._numbers[wanted] = number
        return name

    def _warn_of_integers(self) -> None:
        option = self._rules.for_integers_without_bound
        columns = self._model.columns.items()
        found = [name for name, column in columns if column.is_integer and None in (column.lower, column.upper)]
        if option and found:
            name = f"{found[0]}{_more(len(found))}"
            reason = f"if the model has no solution, {self._solver} 5.0 may abort, which {option} avoids"
            self.warnings.append(f"{name} is an integer column without a lower or an upper bound: {reason}")

    def _warn_of_digits(self) -> None:
        if self._rules.is_exact:
            return
        rounded = [number for number in self._model.numbers() if _is_rounded(number)]
        if rounded:
            first = rounded[0]
            self.warnings.append(
                f"{self._solver} rounds numbers of over {_DIGITS} digits: {_plain(first)}{_more(len(rounded))} is"
                f" written as {float(first)!r}"
            )

    # ---- the text

    def text(self) -> SolverText:
        literal = _exact if self._rules.is_exact else _double
        content = "".join(f"{line}\n" for line in self._lines(literal))
        self._verify(content.encode("ascii"))
        made = SolverText(content.encode("ascii"))
        made.format, made.warnings = self._language.format, tuple(self.warnings)
        made.names = {name: written for written, name in sorted(self._renamed.items(), key=lambda each: each[1])}
        return made

    def _lines(self, literal: Callable[[Decimal], str]) -> Iterator[str]:
        return WRITERS[self._language.format](self._model, self._language, literal)

    def _verify(self, content: bytes) -> None:
        """Reads the text again, as the solver reads it, and raises an exception if it is not the model."""
        added = Added(self._constant, self._values, self._row, self._continuous, self._whole, self._renamed)
        try:
            wrong = next(
                differences(
                    canonical_says(self._canonical), text_says(content, self._language), added, self._rules.is_exact
                ),
                None,
            )
        except (AssertionError, LookupError, ValueError, ArithmeticError) as error:
            wrong = f"{type(error).__name__}: {error}"
        if wrong is not None:
            raise SolverError(f"internal error: the text for {self._solver} does not say what the model says: {wrong}")


def _more(count: int) -> str:
    return f", as {count - 1} more," if count > 1 else ""


def _is_above(bound: Decimal | None, most: float) -> bool:
    return bound is not None and float(bound) > most


def _is_near_whole(bound: Decimal | None) -> bool:
    distance = 0.0 if bound is None else float(abs(bound - bound.to_integral_value()))
    return 0 < distance < TOLERANCE


def _rounded(bound: Decimal | None, rounding: str) -> Decimal | None:
    """A bound as a whole number; 0 has no sign."""
    return None if bound is None else bound.to_integral_value(rounding) or ZERO


def _is_rounded(number: Decimal) -> bool:
    return len(number.as_tuple().digits) > _DIGITS


def _exact(number: Decimal) -> str:
    return _plain(number)


def _plain(number: Decimal) -> str:
    return str(number).replace("E+", "e").replace("E", "e")


def _double(number: Decimal) -> str:
    """A literal of at most 24 characters whose nearest double is that of the number."""
    text = _plain(number)
    if _is_rounded(number) or len(text) > _LONGEST:
        assert math.isfinite(float(number))
        return repr(float(number))
    return text
