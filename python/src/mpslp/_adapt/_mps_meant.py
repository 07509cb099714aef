"""What the program that wrote an MPS file means beside its text: written out, or noted where it is not known."""

from __future__ import annotations

import re
from collections.abc import Sequence

from mpslp._adapt._changes import AdaptError
from mpslp._adapt._mps_dialects import ObjectiveSide
from mpslp._adapt._mps_lines import Line, Section, Sections, added_data
from mpslp._adapt._mps_lost import lines_of_other_sections
from mpslp._adapt._mps_state import State
from mpslp._adapt._names import are_near
from mpslp._text._mps_words import LOWER
from mpslp._text._numbers import LITERAL, parts

NEGATED = "* the number on the objective is negated: it was that of another dialect"
"""The comment before a line whose number was negated; a file that has it is not changed again."""

SENSE_OF_PULP = "PuLP has the sense in this comment, which is ignored: --from pulp maximises"
"""The note on a comment of PuLP that says to maximise."""

_MOST_NOTES = 5
"""Of columns that may be misspelt."""

_SIGNS = "$*;:,.!#()[]{}<>=/'\""
"""What may be typed beside a name."""

_EXPONENT = re.compile(r"[eEdD][+-]?[0-9]+")


class Meant:
    """The sections of a file that was read, to which the meaning of its dialect is added."""

    def __init__(self, state: State, sections: Sections) -> None:
        self.state = state
        self.sections = sections

    def add(self) -> None:
        self.say_the_sense_of_pulp()
        self.note_the_sense()
        self.give_the_constant()
        self.declare_columns()
        self.give_bounds()
        if self.state.log.changes:
            self.check_columns()

    def comments(self) -> Sequence[Line]:
        return [line for section in self.sections.all for line in section.lines if line.is_comment()]

    # ---- what may not be meant

    def check_columns(self) -> None:
        """In a file that is changed, a number or a sign that is read as a column is not meant as
        one; others are noted.
        """
        names, lines = list(self.state.columns), self.state.column_lines
        are_numbers = bool(names) and LITERAL.fullmatch(names[0]) is not None
        exponents = [name for name in names if _EXPONENT.fullmatch(name)]
        if len(exponents) == 1 and len(names) > 1 and names[0] != exponents[0]:
            if self.count_lines(exponents[0]) == 1:  # a column of several lines is meant as one
                reason = (
                    f"{exponents[0]}, where a column is expected, may be the exponent of the number before it: correct"
                    " the line, or rename the column"
                )
                raise AdaptError(lines[names.index(exponents[0])], reason)
        notes = []
        for at, (name, line) in enumerate(zip(names, lines)):
            is_number = LITERAL.fullmatch(name) is not None
            if not any(map(str.isalnum, name)) or (is_number and not (name.isdigit() and are_numbers)):
                what = "a number, or a part of the one before it" if is_number else "a sign"
                raise AdaptError(
                    line, f"{name}, where a column is expected, is {what}: correct the line, or rename the column"
                )
            if at + 1 == len(names) or lines[at + 1] == line + 1:  # the column has one line
                others = (*names[max(at - 1, 0) : at], *names[at + 1 : at + 2])
                other = self.other_meaning(name, others)
                notes += [] if other is None else [(line, other)]
        for line, reason in (*lines_of_other_sections(self.state, self.sections), *notes[:_MOST_NOTES]):
            self.state.log.note(line, reason)

    def count_lines(self, name: str) -> int:
        """The lines of a column."""
        data = [line for section in self.sections.all if section.name == "COLUMNS" for line in section.data()]
        return sum(line.fields()[:1] == (name,) for line in data)

    def other_meaning(self, name: str, others: Sequence[str]) -> str | None:
        """What a column may be instead: one beside it that is misspelt, or a row."""
        if any(are_near(name, other) for other in others) or is_column_with_signs(name, self.state):
            return f"{name} is a column of its own, or the one beside it misspelt"
        if name in self.state.rows:
            return f"{name} is a column here, and also a row"
        return None

    # ---- the sense

    def say_the_sense_of_pulp(self) -> None:
        """PuLP writes the sense into a comment."""
        said = [line for line in self.comments() if line.source.upper().startswith("*SENSE:")]
        rows = self.sections.found("ROWS")
        if not said or rows is None or self.state.sense is not None:
            return
        words = {line.source.partition(":")[2].strip().upper()[:3] for line in said}
        if "MAX" not in words:
            return
        if not self.state.dialect.sense_is_in_a_comment:
            if self.state.dialect.name is None:
                self.state.log.note(said[0].number, SENSE_OF_PULP)
            return
        if len(words) > 1:
            raise AdaptError(said[1].number, "a second sense in a comment: keep one of the two")
        self.state.log.add(said[0].number, "pulp-sense", said[0].source, "OBJSENSE MAX")
        header = [Line(said[0].number, "OBJSENSE", said[0].end), added_data(said[0].number, ["MAX"], said[0].end)]
        self.sections.insert_before(rows, Section("OBJSENSE", header))
        self.state.sense = "MAX"

    def note_the_sense(self) -> None:
        """A maximisation that a program writes as something else."""
        if self.state.sense is not None:
            return
        if self.state.dialect.sense_is_not_written:
            self.state.log.note(
                1, "glpsol does not write the sense: if the model was maximised, add OBJSENSE and MAX before ROWS"
            )
        if self.state.dialect.objective_side is ObjectiveSide.CONSTANT_OF_A_MINIMUM:
            said = next((line for line in self.comments() if line.source.startswith("*<meta origsense='MAX'")), None)
            if said is not None:
                self.state.log.note(
                    said.number, "lp_solve maximised this model: the objective here is its negative, which is minimised"
                )

    # ---- the constant of the objective

    def give_the_constant(self) -> None:
        """glpsol and lp_solve take the number on the objective as the constant, mpslp as its negative."""
        section, side = self.sections.found("RHS"), self.state.dialect.objective_side
        if section is None or any(line.source == NEGATED for line in self.comments()):
            return
        is_maximum = self.state.sense == "MAX"
        changed: set[Line] = set()
        for line in section.data():
            at = self.place_of_the_objective(line)
            if at is None:
                continue
            if side is ObjectiveSide.NEGATED_CONSTANT:
                self.note_the_constant(line, is_maximum)
            elif (side is ObjectiveSide.CONSTANT or not is_maximum) and self.negate(line, at):
                changed.add(line)
        said = (
            [Line(line.number, NEGATED, line.end or "\n"), line] if line in changed else [line]
            for line in section.lines
        )
        section.lines[:] = [each for part in said for each in part]

    def place_of_the_objective(self, line: Line) -> int | None:
        """The field with the number on the objective, or None."""
        fields = line.fields()
        return next(
            (at + 1 for at in range(len(fields) % 2, len(fields), 2) if fields[at] == self.state.objective), None
        )

    def note_the_constant(self, line: Line, is_maximum: bool) -> None:
        if self.state.dialect.name is None:
            self.state.log.note(line.number, meaning_of_the_constant(is_maximum))

    def negate(self, line: Line, at: int) -> bool:
        """Gives the number in a field the other sign; whether that changes the line."""
        fields, before = list(line.fields()), line.text
        fields[at] = negated(fields[at])
        if tuple(fields) == line.fields():
            return False
        line.put(fields)
        self.state.log.add(line.number, "objective-rhs", before, line.text)
        return True

    # ---- columns and bounds

    def declare_columns(self) -> None:
        """Columns that only BOUNDS has, which lp_solve and QSopt_ex write so, get a coefficient of 0."""
        columns = self.sections.found("COLUMNS")
        if columns is None or not self.state.bounds_only:
            return
        name, number = next(iter(self.state.bounds_only.items()))
        if self.state.has_empty_block or self.state.is_marked:
            raise AdaptError(
                number,
                (
                    f"{name} is in BOUNDS only, and markers have no column between them: whether it is integer is not"
                    " known"
                ),
            )
        objective = self.state.objective or "obj"
        last = columns.lines[-1]
        last.end = last.end or "\n"
        for name, number in self.state.bounds_only.items():
            line = added_data(number, [name, objective, "0"], last.end)
            columns.lines.append(line)
            self.state.log.add(number, "column-in-bounds", "", line.text)

    def give_bounds(self) -> None:
        """Bounds that other readers take from what is left out."""
        for name, is_marked in self.state.columns.items():
            bounds = self.state.bounded.get(name, ())
            if is_marked and not bounds and self.state.dialect.integers_have_no_upper_bound:
                self.add_bound("integer-bound", "PL", name)
            below = [bound.line for bound in bounds if bound.kind in ("UP", "UI") and parts(bound.number)[0] < 0]
            if below and not any(bound.kind in LOWER for bound in bounds):
                self.negative_upper(name, below[0])

    def negative_upper(self, name: str, line: int) -> None:
        """A column with a negative upper bound and no lower bound: the lower bound 0 would be above it."""
        if self.state.dialect.negative_upper_is_free_below:
            self.add_bound("negative-upper", "MI", name)
        elif self.state.dialect.name is None:
            reason = "CoinUtils and QSopt_ex mean no lower bound, others 0: give it, or --from coinutils, --from qsopt"
            raise AdaptError(line, f"NegativeUpper {name}: {reason}")

    def add_bound(self, kind: str, letters: str, column: str) -> None:
        bounds, end = self.sections.found("BOUNDS"), self.sections.found("ENDATA")
        if end is None:
            return
        last = end.lines[0]
        if bounds is None:
            bounds = Section("BOUNDS", [Line(last.number, "BOUNDS", last.end or "\n")])
            self.sections.insert_before(end, bounds)
        name = self.state.sets.setdefault("BOUNDS", "BND")
        line = added_data(last.number, [letters, *([name] if name else []), column], last.end or "\n", " ")
        bounds.lines.append(line)
        self.state.log.add(last.number, kind, "", line.text)


def meaning_of_the_constant(is_maximum: bool) -> str:
    """The note on a number of the objective in RHS."""
    if is_maximum:
        return "glpsol means the constant itself, not its negative: --from glpsol"
    return "glpsol and lp_solve mean the constant itself, not its negative: --from glpsol, --from lp_solve"


def negated(literal: str) -> str:
    """The literal of the negative number; that of 0 stays."""
    if not parts(literal)[0]:
        return literal
    return literal[1:] if literal.startswith("-") else "-" + literal.lstrip("+")


def is_column_with_signs(name: str, state: State) -> bool:
    """Whether a name is that of another column with signs beside it."""
    plain = name.strip(_SIGNS)
    return plain != name and plain in state.columns
