"""Notes on data lines that may belong to another section, whose header is lost or in another place."""

from __future__ import annotations

import re
from collections.abc import Iterator
from itertools import pairwise
from typing import NamedTuple

from mpslp._adapt._mps_lines import Sections
from mpslp._adapt._mps_state import State
from mpslp._text._mps_words import BOUND_TYPES

_USUAL_SETS = {"RHS": ("RHS",), "RANGES": ("RNG", "RAN", "RGS"), "BOUNDS": ("BND", "BOU")}
"""What the names of sets start with in the files of most programs."""


class Doubt(NamedTuple):
    """A line, from 1, and what may be meant by it instead."""

    line: int
    reason: str


def lines_of_other_sections(state: State, sections: Sections) -> Iterator[Doubt]:
    """Lines of a file that is changed that may have been meant in another section than the one in
    which they are read.
    """
    yield from _sides_as_column(state, sections)
    yield from _columns_as_sets(state)
    yield from _sets_of_other_sections(state)
    yield from _ranges_as_sides(state, sections)
    if state.is_marked:
        yield Doubt(state.marker_line, "no 'INTEND' follows: all columns from here on are integer")
    if state.empty_block_line:
        yield Doubt(
            state.empty_block_line,
            "no column is between these markers: one that is meant to be integer belongs between them",
        )
    yield from _text_after_the_end(sections)


def _text_after_the_end(sections: Sections) -> Iterator[Doubt]:
    if sections.found("ENDATA") is not None:
        line = next(
            (line for line in sections.all[-1].lines if not line.is_comment() and line.source.strip(" \t\r\x1a")), None
        )
        if line is not None and sections.all[-1].name == "":
            yield Doubt(line.number, "text after ENDATA, which is not read: if it is meant, move ENDATA after it")


def _has_data(sections: Sections, name: str) -> bool:
    section = sections.found(name)
    return section is not None and next(iter(section.data()), None) is not None


def _sides_as_column(state: State, sections: Sections) -> Iterator[Doubt]:
    """Without RHS the last column may be the set: it is named so, or in another way than all other columns."""
    if not state.columns or _has_data(sections, "RHS"):
        return
    *others, last = state.columns
    is_unlike = (
        len(others) > 1
        and stem(last) not in map(stem, others)
        and last not in state.bounded
        and not state.columns[last]
    )
    if last.upper().startswith("RHS") or is_unlike:
        yield Doubt(
            state.column_lines[-1],
            f"{last} is a column here: if it is meant as the set of right-hand sides, write RHS before it",
        )


def stem(name: str) -> str:
    """A name without its digits."""
    return re.sub(r"[0-9]+", "", name)


def _columns_as_sets(state: State) -> Iterator[Doubt]:
    """A column is not also a set, and no type of bounds."""
    places = dict(zip(state.columns, state.column_lines))
    for section, line in state.set_lines.items():
        name = state.sets[section]
        if name in places:
            yield Doubt(places[name], f"{name} is a column here, and the set of {section} in line {line}")
            yield Doubt(line, f"{name} is the set of {section} here, and a column in line {places[name]}")
    for name in BOUND_TYPES:
        if name in places:
            yield Doubt(places[name], f"{name} is a column here, and also a type of bounds")


def _sets_of_other_sections(state: State) -> Iterator[Doubt]:
    """A set has not the usual name of the sets of another section."""
    for section, line in state.set_lines.items():
        name = state.sets[section].upper()
        for other, starts in _USUAL_SETS.items():
            if other != section and name.startswith(starts):
                yield Doubt(
                    line, f"{state.sets[section]} is the set of {section} here: lines of {other} may have come into it"
                )


def _ranges_as_sides(state: State, sections: Sections) -> Iterator[Doubt]:
    """Without RANGES the lines of RHS may end with ranges: there the rows, which were in their order, start again."""
    section = sections.found("RHS")
    if section is None or _has_data(sections, "RANGES"):
        return
    order = {name: at for at, (name, row) in enumerate(state.rows.items()) if row.kind != "N"}
    places = [(order[field], line.number) for line in section.data() for field in line.fields() if field in order]
    restarts = [second[1] for first, second in pairwise(places) if second[0] < first[0]]
    if len(restarts) == 1:
        yield Doubt(restarts[0], "the rows start again here: if these lines are ranges, write RANGES before them")
