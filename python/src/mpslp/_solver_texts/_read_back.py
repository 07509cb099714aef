"""Reads a text as its solver reads it, and compares what it says with the model: a second look that shares nothing with
the writers.
"""

from __future__ import annotations

import re
from collections.abc import Callable, Iterator, Mapping
from dataclasses import dataclass, field
from decimal import ROUND_CEILING, ROUND_FLOOR, Decimal

from mpslp._models._numbers import EXACT, INFINITY, MINUS_INFINITY, ONE, ZERO
from mpslp._solver_texts._solvers import Constant, Language, TextFormat

_MPSLP = Language("mps", Constant.NEGATED, Constant.NEGATED)
_ULPS = 8 * 2.0**-53


@dataclass
class Said:
    """What a text says: limits and bounds by names, kinds by names, and coefficients by rows and columns; the objective
    is a row.
    """

    objective: str = ""
    is_maximised: bool = False
    constant: Decimal = ZERO
    limits: dict[str, tuple[Decimal, Decimal]] = field(default_factory=dict)
    kinds: dict[str, str] = field(default_factory=dict)
    bounds: dict[str, tuple[Decimal, Decimal]] = field(default_factory=dict)
    coefficients: dict[tuple[str, str], Decimal] = field(default_factory=dict)

    def put(self, row: str, column: str, number: Decimal) -> None:
        if number:
            assert (row, column) not in self.coefficients, "a coefficient is there twice"
            self.coefficients[row, column] = number

    def meet(self, column: str, kind: str = "continuous") -> None:
        """A column is named; the first time it gets what a column has without bounds."""
        self.kinds.setdefault(column, kind)
        self.bounds.setdefault(column, (Decimal(0), INFINITY))


def canonical_says(canonical: bytes) -> Said:
    """What a canonical MPS text says."""
    return _mps(canonical.decode("ascii"), _MPSLP)


def text_says(text: bytes, language: Language) -> Said:
    """What a text says to a solver whose language it is."""
    return _READERS[language.format](text.decode("ascii"), language)


def _signed_constant(said: Said, number: Decimal, language: Language) -> None:
    way = language.maximised if said.is_maximised else language.minimised
    said.constant = number.copy_negate() if way is Constant.NEGATED else number


# ---- MPS


def _mps(text: str, language: Language) -> Said:
    said, section, letters, kind, constant = Said(), "", {}, "continuous", Decimal(0)
    for line in text.split("\n"):
        fields = line.split()
        if not fields:
            continue
        if not line.startswith(" "):
            section = fields[0]
        elif section == "OBJSENSE":
            said.is_maximised = fields == ["MAX"]
        elif section == "ROWS":
            letter, name = fields
            if letter == "N" and not said.objective:
                said.objective = name
            else:
                letters[name] = letter
                said.limits[name] = _limits_of(letter, Decimal(0))
        elif fields[1:2] == ["'MARKER'"]:
            kind = "integer" if fields[2] == "'INTORG'" else "continuous"
        elif section == "COLUMNS":
            said.meet(fields[0], kind)
            said.put(fields[1], fields[0], Decimal(fields[2]))
        elif section == "RHS" and fields[1] == said.objective:
            constant = Decimal(fields[2])
        elif section == "RHS":
            said.limits[fields[1]] = _limits_of(letters[fields[1]], _side(fields[2]))
        elif section == "RANGES":
            (lower, upper), distance = said.limits[fields[1]], Decimal(fields[2])
            ranged = {"G": (lower, EXACT.add(lower, distance)), "L": (EXACT.subtract(upper, distance), upper)}
            said.limits[fields[1]] = ranged[letters[fields[1]]]
        elif section == "BOUNDS":
            _mps_bound(said, fields)
        else:
            raise AssertionError(line)
    _signed_constant(said, constant, language)
    return said


def _limits_of(letter: str, side: Decimal) -> tuple[Decimal, Decimal]:
    return {"N": (MINUS_INFINITY, INFINITY), "L": (MINUS_INFINITY, side), "G": (side, INFINITY), "E": (side, side)}[
        letter
    ]


def _mps_bound(said: Said, fields: list[str]) -> None:
    letters, name, number = fields[0], fields[2], Decimal((fields[3:] or ["0"])[0])
    lower, upper = said.bounds[name]
    said.bounds[name] = {
        "FX": (number, number),
        "FR": (MINUS_INFINITY, INFINITY),
        "MI": (MINUS_INFINITY, upper),
        "PL": (lower, INFINITY),
        "LO": (number, upper),
        "UP": (lower, number),
        "SC": (lower, number),
    }[letters]
    if letters == "SC":
        said.kinds[name] = "semi-continuous"


# ---- LP

_TOKEN = re.compile(r"\S+")
_NUMBER = re.compile(r"[-+]?(?:\d+(?:\.\d*)?|\.\d+)(?:[eE][-+]?\d+)?")
_KEYWORDS = {
    "Minimize": "",
    "Maximize": "",
    "Subject To": "rows",
    "Bounds": "bounds",
    "Generals": "integer",
    "Semi-Continuous": "semi-continuous",
    "End": "end",
}


def _lp(text: str, language: Language) -> Said:
    """Lines without an indent are headings; others have words with spaces between them, and a label ends in a colon."""
    said = Said(is_maximised=text.startswith("Maximize"))
    heading, parts = "", dict[str, list[str]]()
    for line in text.split("\n"):
        if line and not line.startswith(" "):
            heading = line
            assert heading in _KEYWORDS and heading not in parts, heading
            parts[heading] = []
        elif line.startswith("  ") or _KEYWORDS[heading] not in ("bounds", ""):
            parts[heading] += _TOKEN.findall(line)
        else:
            parts[heading] += [*_TOKEN.findall(line), "\n"]
    for heading, words in parts.items():
        section = _KEYWORDS[heading]
        if section == "":
            said.objective, constant = words[0][:-1], _lp_terms(said, words[0][:-1], words[2:])
            _signed_constant(said, constant, language)
        elif section == "rows":
            _lp_rows(said, words)
        elif section == "bounds":
            for bound in " ".join(words).split("\n"):
                _lp_bound(said, bound.split())
        else:
            said.kinds.update(dict.fromkeys(words, section))
    return said


def _lp_rows(said: Said, words: list[str]) -> None:
    at = 0
    while at < len(words):
        name = words[at][:-1]
        relation = next(number for number in range(at, len(words)) if words[number] in ("<=", ">=", "="))
        constant = _lp_terms(said, name, words[at + 1 : relation])
        assert not constant and words[at].endswith(":") and name not in said.limits, name
        side = _side(words[relation + 1])
        said.limits[name] = {"<=": (MINUS_INFINITY, side), ">=": (side, INFINITY), "=": (side, side)}[words[relation]]
        at = relation + 2


def _lp_terms(said: Said, row: str, words: list[str]) -> Decimal:
    """Puts the terms of a row, and returns the number that has no name."""
    at, constant = 0, Decimal(0)
    while at < len(words):
        number = Decimal(words[at] + words[at + 1])
        if at + 2 < len(words) and words[at + 2] not in ("+", "-"):
            said.meet(words[at + 2])
            said.put(row, words[at + 2], number)
            at += 3
        else:
            constant, at = number, at + 2
    return constant


def _side(word: str) -> Decimal:
    number = Decimal(word)
    return number if abs(number) < Decimal("1e30") else INFINITY.copy_sign(number)


def _lp_bound(said: Said, words: list[str]) -> None:
    match words:
        case []:
            return
        case [name, "free"]:
            said.bounds[name] = MINUS_INFINITY, INFINITY
        case [name, "=", side]:
            said.bounds[name] = _side(side), _side(side)
        case [name, ">=", side]:
            said.bounds[name] = _side(side), INFINITY
        case [lower, "<=", name, "<=", upper]:
            said.bounds[name] = _side(lower), _side(upper)
        case _:
            raise AssertionError(words)
    assert name in said.kinds, name


# ---- the format of GLPK


def _glp(text: str, language: Language) -> Said:
    lines = [line.split() for line in text.splitlines()]
    (_, _, sense, *counts), end = lines[0], lines[-1]
    assert end == ["e", "o", "f"]
    said = Said(is_maximised=sense == "max")
    names = {(line[1], line[2]): line[3] for line in lines if line[0] == "n" and line[1] != "z"}
    for line in lines[1:-1]:
        match line:
            case ["n", "z", name]:
                said.objective = name
            case ["n", *_]:
                pass
            case ["i", row, *limits]:
                said.limits[names["i", row]] = _glp_limits(limits)
            case ["j", column, *bounds]:
                kind = {"i": "integer", "c": "continuous"}[bounds[0]] if lines[0][1] == "mip" else "continuous"
                said.kinds[names["j", column]] = kind
                said.bounds[names["j", column]] = _glp_limits(bounds[1:] if lines[0][1] == "mip" else bounds)
            case ["a", "0", "0", number]:
                _signed_constant(said, Decimal(number), language)
            case ["a", row, column, number]:
                said.put(said.objective if row == "0" else names["i", row], names["j", column], Decimal(number))
            case _:
                raise AssertionError(line)
    entries = sum(row != said.objective for row, _ in said.coefficients)
    assert list(map(int, counts)) == [len(said.limits), len(said.kinds), entries], "the counts of the first line"
    return said


def _glp_limits(words: list[str]) -> tuple[Decimal, Decimal]:
    letter, *numbers = words
    values = list(map(Decimal, numbers))
    lower, upper = {
        "f": (MINUS_INFINITY, INFINITY),
        "l": (*values, INFINITY),
        "u": (MINUS_INFINITY, *values),
        "d": tuple(values),
        "s": (*values, *values),
    }[letter]
    return lower, upper


_READERS: Mapping[TextFormat, Callable[[str, Language], Said]] = {"mps": _mps, "lp": _lp, "glp": _glp}


# ---- the comparison


@dataclass(frozen=True)
class Added:
    """What a text has beside the model: the column of the constant, columns for the values of
    ranged rows, and a row.
    """

    constant: str | None = None
    values: Mapping[str, str] = field(default_factory=dict)
    row: str | None = None
    are_continuous: frozenset[str] = frozenset()
    """Semi-continuous columns that are written as continuous, as their lower bound is 0."""
    have_whole_bounds: frozenset[str] = frozenset()
    """Integer columns whose bounds are rounded inwards."""
    renamed: Mapping[str, str] = field(default_factory=dict)
    """The names of the model by those of the text that replace them."""


def differences(model: Said, text: Said, added: Added, is_exact: bool) -> Iterator[str]:
    """In what a text differs from a model once what was added is taken away.

    Rounded numbers differ by rounding only.
    """
    for reason in _take_away(text, added):
        yield reason
        return
    text = _with_own_names(text, added.renamed)
    for written in added.are_continuous:
        column = added.renamed.get(written, written)
        if model.bounds[column][0] == 0:
            model.kinds[column] = "continuous"
    for written in added.have_whole_bounds:
        column = added.renamed.get(written, written)
        if model.kinds[column] == "integer":
            lower, upper = model.bounds[column]
            model.bounds[column] = lower.to_integral_value(ROUND_CEILING), upper.to_integral_value(ROUND_FLOOR)
    if (model.objective, model.is_maximised) != (text.objective, text.is_maximised):
        yield "the objective, or its sense"
    is_same = _is_equal if is_exact else _is_near
    if not is_same(model.constant, text.constant):
        yield "the constant"
    if model.kinds != text.kinds:
        yield "the columns, or their kinds"
    for what, ours, theirs in (("row", model.limits, text.limits), ("bounds of column", model.bounds, text.bounds)):
        if set(ours) != set(theirs):
            yield f"the names of {what}s"
            return
        for name, pair in ours.items():
            if not _is_same_pair(is_same, pair, theirs[name]):
                yield f"{what} {name}"
    if set(model.coefficients) != set(text.coefficients):
        yield "the places of the coefficients"
        return
    yield from (
        f"coefficient of {column} in {row}"
        for (row, column), number in model.coefficients.items()
        if not is_same(number, text.coefficients[row, column])
    )


def _with_own_names(text: Said, names: Mapping[str, str]) -> Said:
    """What the text says, with the names of the model."""

    def own(name: str) -> str:
        return names.get(name, name)

    return Said(
        own(text.objective),
        text.is_maximised,
        text.constant,
        {own(name): limits for name, limits in text.limits.items()},
        {own(name): kind for name, kind in text.kinds.items()},
        {own(name): bounds for name, bounds in text.bounds.items()},
        {(own(row), own(column)): number for (row, column), number in text.coefficients.items()},
    )


def _take_away(text: Said, added: Added) -> Iterator[str]:
    """Takes from what a text says what was added; each is given with what it means."""
    if added.row is not None and text.limits.pop(added.row, None) is None:
        yield "the row that was added"
    for row, column in added.values.items():
        is_equation = text.limits.get(row) == (ZERO, ZERO)
        if (
            not is_equation
            or text.kinds.pop(column, "") != "continuous"
            or text.coefficients.pop((row, column), None) != -1
        ):
            yield f"the column that was added for row {row}"
            return
        text.limits[row] = text.bounds.pop(column)
    if added.constant is not None:
        if (
            text.kinds.pop(added.constant, "") != "continuous"
            or text.bounds.pop(added.constant, None) != (ONE, ONE)
            or text.constant
        ):
            yield "the column that was added for the constant"
            return
        text.constant = text.coefficients.pop((text.objective, added.constant), Decimal(0))
        if added.row is not None:
            text.coefficients.pop((added.row, added.constant), None)


def _is_same_pair(
    is_same: Callable[[Decimal, Decimal], bool], one: tuple[Decimal, Decimal], other: tuple[Decimal, Decimal]
) -> bool:
    """Whether two limits are the same; a range is their distance, and is rounded on its own."""
    same = list(map(is_same, one, other))
    return (
        all(same)
        or any(same)
        and all(side.is_finite() for side in (*one, *other))
        and is_same(EXACT.subtract(one[1], one[0]), EXACT.subtract(other[1], other[0]))
    )


def _is_equal(one: Decimal, other: Decimal) -> bool:
    return one == other


def _is_near(one: Decimal, other: Decimal) -> bool:
    """Whether a number is written as one that is the same double, or, for the sum of a limit and a range, one beside
    it.
    """
    if one == other or float(one) == float(other):
        return True
    return (
        one.is_finite()
        and other.is_finite()
        and abs(float(one) - float(other)) <= _ULPS * max(abs(float(one)), abs(float(other)))
    )
