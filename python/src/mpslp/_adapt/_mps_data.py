"""The data lines of MPS: each is made one that mpslp reads by the rules of its section, or the file is left."""

from __future__ import annotations

import re
from collections.abc import Callable, Sequence

from mpslp._adapt._changes import AdaptError
from mpslp._adapt._mps_lines import Line
from mpslp._adapt._mps_reasons import second_row, wrong_bound, wrong_marker, wrong_pairs, wrong_row
from mpslp._adapt._mps_rules import (
    Rule,
    bound_number,
    bound_trailing,
    bound_value,
    column_trailing,
    continued_column,
    kind_of,
    marker_name,
    marker_trailing,
    numbers,
    pair_trailing,
    range_on_free,
    row_trailing,
    upper_bound_type,
    upper_marker,
    upper_row_type,
)
from mpslp._adapt._mps_state import Bound, Row, State, is_plain, is_plain_bound
from mpslp._adapt._names import reason_against
from mpslp._text._mps_words import INTORG, MARKER, MARKERS, ROW_TYPES, UNVALUED
from mpslp._text._numbers import LITERAL

_WITH_PAIRS = ("COLUMNS", "RHS", "RANGES")
_STARTS_AS_NUMBER = re.compile(r"[+-]?\.?[0-9]")
SPECIAL_SETS = "special ordered sets: write them as rows with binary columns"


class DataLines:
    """Reads data lines, and changes them where mpslp would reject them."""

    def __init__(self, state: State) -> None:
        self.state = state
        self.readers: dict[str, Callable[[Line], None]] = {
            "ROWS": self.row,
            "COLUMNS": self.coefficients,
            "RHS": self.sides,
            "RANGES": self.ranges,
            "BOUNDS": self.bound,
        }

    def read(self, line: Line) -> None:
        if not line.source.isascii() or len(line.source) > 255:
            self.replace_names(line)
        reader = self.readers.get(self.state.section.name)
        if reader is None:
            raise AdaptError(line.number, "a data line before any section that has data")
        reader(line)

    def replace_names(self, line: Line) -> None:
        """Replaces the names that no row or column may have; a set may have a long one."""
        fields = line.fields()
        reason = next(
            filter(
                None, (reason_against(each) for at, each in enumerate(fields) if not self.is_wrong_number(fields, at))
            ),
            None,
        )
        if reason is not None:
            raise AdaptError(line.number, reason)
        is_pair_section = self.state.section.name in ("RHS", "RANGES")
        set_at = 1 if self.state.section.name == "BOUNDS" else 0 if is_pair_section and len(fields) % 2 else None
        written = [
            (
                each
                if is_no_name(each) or (at == set_at and each.isascii()) or self.is_wrong_number(fields, at)
                else self.state.names.of(each)
            )
            for at, each in enumerate(fields)
        ]
        self.rewrite(line, "name", written)

    def is_wrong_number(self, fields: Sequence[str], at: int) -> bool:
        """Whether a field is where a number comes, and starts as one; as a name it would not be shown as it is in the
        file.
        """
        return (
            self.state.section.name in _WITH_PAIRS
            and (at - len(fields) % 2) % 2 == 1
            and _STARTS_AS_NUMBER.match(fields[at]) is not None
        )

    # ---- the lines of each section

    def row(self, line: Line) -> None:
        state = self.state
        self.apply(line, (upper_row_type, row_trailing))
        fields = line.fields()
        if len(fields) != 2 or fields[0] not in ROW_TYPES:
            raise wrong_row(state, line)
        if fields[1] in state.rows:
            raise second_row(state, line, fields[1])
        state.rows[fields[1]] = Row(fields[0], line.number)

    def coefficients(self, line: Line) -> None:
        state, fields = self.state, line.fields()
        if any(each.upper() == MARKER for each in fields[:2]):
            self.marker(line)
            return
        if not is_plain(state, fields, 1, (3, 5)):
            self.apply(line, (numbers, continued_column, column_trailing))
            fields = line.fields()
            if not is_plain(state, fields, 1, (3, 5)):
                raise wrong_pairs(state, line, 1, "a column")
        if fields[0] != state.column:
            self.next_column(line, fields[0])
        self.is_block_empty = False

    is_block_empty = False

    def next_column(self, line: Line, name: str) -> None:
        state = self.state
        state.column = name
        if name not in state.columns:
            state.columns[name] = state.is_marked
            state.column_lines.append(line.number)

    def marker(self, line: Line) -> None:
        self.apply(line, (upper_marker, marker_name, marker_trailing))
        fields = line.fields()
        if "'SOSORG'" in fields or "'SOSEND'" in fields:
            raise AdaptError(line.number, SPECIAL_SETS)
        if len(fields) != 3 or fields[2] not in MARKERS:
            raise wrong_marker(self.state, line)
        self.state.is_marked = fields[2] == INTORG
        self.state.marker_line = line.number
        if self.is_block_empty and not self.state.is_marked:
            self.state.has_empty_block = True
            self.state.empty_block_line = line.number
        self.is_block_empty = self.state.is_marked

    def sides(self, line: Line) -> None:
        self.pairs(line)

    def ranges(self, line: Line) -> None:
        self.pairs(line)
        self.apply(line, (range_on_free,))

    def pairs(self, line: Line) -> None:
        """Makes a line of RHS or RANGES one that mpslp reads, of the section's set."""
        state, fields = self.state, line.fields()
        if not is_plain(state, fields, len(fields) % 2, (2, 3, 4, 5)):
            self.apply(line, (numbers, pair_trailing))
            fields = line.fields()
            if not is_plain(state, fields, len(fields) % 2, (2, 3, 4, 5)):
                raise wrong_pairs(state, line, self.start_of_pairs(fields), "a set")
        self.put_in_the_set(line, fields[0] if len(fields) % 2 else "", 0)

    def start_of_pairs(self, fields: Sequence[str]) -> int:
        """Where the pairs of a line that is wrong are likely to start."""
        if fields[0] in self.state.rows and (len(fields) < 2 or fields[1] not in self.state.rows):
            return 0
        is_number_next = len(fields) > 1 and LITERAL.fullmatch(fields[1]) is not None
        return 0 if len(fields) == 2 or (is_number_next and len(fields) % 2 == 0) else 1

    def bound(self, line: Line) -> None:
        state = self.state
        self.declare_column_in_bounds(line)
        if not is_plain_bound(state, line.fields()):
            self.apply(line, (upper_bound_type, bound_number, bound_value, bound_trailing))
            if not is_plain_bound(state, line.fields()):
                raise wrong_bound(state, line)
        fields = line.fields()
        has_set = len(fields) == 4 or (len(fields) == 3 and fields[0] in UNVALUED)
        self.put_in_the_set(line, fields[1] if has_set else "", 1)
        column = fields[2] if has_set else fields[1]
        state.bounded.setdefault(column, []).append(Bound(fields[0], fields[-1], line.number))

    def declare_column_in_bounds(self, line: Line) -> None:
        """A column that only BOUNDS has, if the program that wrote the file writes columns so: its line has a set."""
        state, fields = self.state, line.fields()
        if not state.dialect.columns_may_be_in_bounds_only or any(map(state.is_column, fields[1:])):
            return
        is_whole = len(fields) == (3 if fields[0] in UNVALUED else 4)
        if is_whole and fields[1] == state.sets.get("BOUNDS", fields[1]) and not LITERAL.fullmatch(fields[2]):
            state.bounds_only[fields[2]] = line.number

    def put_in_the_set(self, line: Line, name: str, at: int) -> None:
        """Gives a line without a set that of the section; no line has another one."""
        state = self.state
        first = state.sets.setdefault(state.section.name, name)
        if name:
            state.set_lines.setdefault(state.section.name, line.number)
        if name == first:
            return
        if not name:
            fields = line.fields()
            self.rewrite(line, "set-left-out", [*fields[:at], first, *fields[at:]])
            return
        if not first:
            raise AdaptError(
                line.number,
                f"the set {name} after lines without a set: give all lines of {state.section.name} one name",
            )
        others = state.dialect.further_sets.value
        raise AdaptError(
            line.number,
            (
                f"the set {name} after the set {first}: {others}; give all lines of a section one set, and keep those"
                " that you mean"
            ),
        )

    # ---- changes

    def apply(self, line: Line, rules: Sequence[Rule]) -> None:
        """Applies rules in turn."""
        for rule in rules:
            fields = rule(self.state, line)
            if fields:
                self.rewrite(line, kind_of(rule), fields)
            elif fields is not None:
                self.drop(line, kind_of(rule))

    def rewrite(self, line: Line, kind: str, fields: Sequence[str]) -> None:
        """Gives a line other fields, and reports it."""
        if tuple(fields) != line.fields():
            before = line.text
            line.put(fields)
            self.state.log.add(line.number, kind, before, line.text)

    def drop(self, line: Line, kind: str) -> None:
        """Makes a line a comment, and reports it."""
        before = line.text
        line.drop()
        self.state.log.add(line.number, kind, before, line.text)


def is_no_name(field: str) -> bool:
    return LITERAL.fullmatch(field) is not None or field == MARKER
