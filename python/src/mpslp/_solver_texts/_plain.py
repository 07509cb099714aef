"""A model as names and exact numbers, as its canonical MPS text has it."""

from __future__ import annotations

from collections.abc import Callable, Iterator
from dataclasses import dataclass, field
from decimal import Decimal

from mpslp._models._numbers import EXACT, ZERO


@dataclass
class Row:
    """The limits of a row; None is infinite. The range of a ranged row is its upper limit minus its lower one."""

    lower: Decimal | None = None
    upper: Decimal | None = None
    range: Decimal | None = None

    @property
    def is_ranged(self) -> bool:
        return self.range is not None


@dataclass
class Column:
    """A column; an infinite bound is None. The entries are those in rows, by their names."""

    is_integer: bool = False
    is_semi_continuous: bool = False
    lower: Decimal | None = ZERO
    upper: Decimal | None = None
    cost: Decimal = ZERO
    entries: dict[str, Decimal] = field(default_factory=dict)


@dataclass
class Model:
    """A model. Its rows and columns are in the order of the canonical text."""

    objective: str = ""
    is_maximised: bool = False
    constant: Decimal = ZERO
    rows: dict[str, Row] = field(default_factory=dict)
    columns: dict[str, Column] = field(default_factory=dict)

    def numbers(self) -> Iterator[Decimal]:
        """All numbers, in no particular order."""
        yield self.constant
        for row in self.rows.values():
            yield from (number for number in (row.lower, row.upper, row.range) if number is not None)
        for column in self.columns.values():
            yield from (number for number in (column.lower, column.upper) if number is not None)
            yield column.cost
            yield from column.entries.values()


def plain_model(canonical: bytes) -> Model:
    """The model of a canonical MPS text."""
    return _Lines(canonical.decode("ascii")).model


class _Lines:
    """Takes the lines of a canonical MPS text one after another."""

    def __init__(self, text: str) -> None:
        self.model = Model()
        self._is_integer = False
        takes: dict[str, Callable[..., None]] = {
            "OBJSENSE": self._sense,
            "ROWS": self._row,
            "COLUMNS": self._entry,
            "RHS": self._side,
            "RANGES": self._range,
            "BOUNDS": self._bound,
        }
        take = self._sense
        for line in text.splitlines():
            if line[0] == " ":
                take(*line.split())
            else:
                take = takes.get(line, self._sense)

    def _sense(self, word: str) -> None:
        self.model.is_maximised = word == "MAX"

    def _row(self, letter: str, name: str) -> None:
        if not self.model.objective:
            self.model.objective = name
            return
        zero = Decimal(0)
        limits = {"N": Row(), "L": Row(upper=zero), "G": Row(lower=zero), "E": Row(zero, zero)}
        self.model.rows[name] = limits[letter]

    def _entry(self, name: str, row: str, number: str) -> None:
        if row == "'MARKER'":
            self._is_integer = number == "'INTORG'"
            return
        column = self.model.columns.setdefault(name, Column(self._is_integer))
        if row == self.model.objective:
            column.cost = Decimal(number)
        else:
            column.entries[row] = Decimal(number)

    def _side(self, _: str, name: str, number: str) -> None:
        side = Decimal(number)
        if name == self.model.objective:
            self.model.constant = side.copy_negate()
            return
        row = self.model.rows[name]
        row.lower = None if row.lower is None else side
        row.upper = None if row.upper is None else side

    def _range(self, _: str, name: str, number: str) -> None:
        row = self.model.rows[name]
        assert row.lower is not None
        row.range = Decimal(number)
        row.upper = EXACT.add(row.lower, row.range)

    def _bound(self, letters: str, _: str, name: str, number: str = "0") -> None:
        column, value = self.model.columns[name], Decimal(number)
        if letters in ("MI", "FR"):
            column.lower = None
        if letters in ("LO", "FX"):
            column.lower = value
        if letters in ("UP", "FX", "SC"):
            column.upper = value
        column.is_semi_continuous |= letters == "SC"
