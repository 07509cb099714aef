"""The rules of Bounds and of the lists of names."""

from __future__ import annotations

import re
from collections.abc import Collection, Iterator, Mapping, Sequence
from itertools import chain, islice, pairwise
from typing import TypeVar

from mpslp._adapt._changes import AdaptError, OtherLanguage
from mpslp._adapt._lp_context import Context
from mpslp._adapt._lp_parts import FLIPPED, Bound, BoundLine, sense_of
from mpslp._adapt._lp_plain import bound_line_of, names_of_bound
from mpslp._adapt._lp_print import Cell, literal_cells, statement
from mpslp._adapt._lp_sections import SECTIONS, SECTIONS_OF_OTHERS
from mpslp._adapt._lp_tokens import PLAIN_NAMES, Token, new_token
from mpslp._adapt._names import parts_of

Key = TypeVar("Key", int, str)

_SENSES: tuple[list[str], ...] = ([], ["<"], [">"], ["="], ["<", "<"], [">", ">"])
"""The relations of a bound."""

_EMPTY_LINE = re.compile(r"\n[ \t\r]*\n")
_LINE_OF_COMMENT = re.compile(r"\n[ \t\r]*\\")

_NAME = re.compile(r"\S+", re.ASCII)

_MOST_NOTES = 5
"""Of columns that are named once."""

_MOST_COMPARED = 20_000
"""More names are not compared with them."""


class BoundRules:
    """Bounds, and the columns that are listed as integer, binary or semi-continuous."""

    def __init__(self, context: Context) -> None:
        self.context = context
        self.bounds: dict[str, list[Bound]] = {}
        self.integers: dict[str, Token] = {}
        self.whole: dict[str, Token] = {}
        """The bounds that were read as a whole, of columns without another one."""
        self.new_columns: list[tuple[Token, str]] = []
        self.after_gaps: list[tuple[Token, str]] = []
        """Names in lists after an empty line or a comment, and which of them."""
        self.lists: dict[int, list[Token]] = {}
        """The names under each header, by its place; those that are read as a whole are one token."""
        self.listed: dict[str, set[str]] = {}
        """The names of each list."""
        self.listed_again: list[Token] = []
        self.last_bound: Token | None = None
        """After this token further bounds are written."""

    # ---- Bounds

    def settle(self, line: BoundLine) -> None:
        context = self.context
        self.settle_whole(line.name.text)
        sides: dict[str, str] = {}
        if not line.relations:
            sides = {"lower": "free", "upper": "free"}
        for relation, before, after in zip(line.relations, line.sides, line.sides[1:]):
            sense = sense_of(relation)
            if after.name is not None:
                sense = FLIPPED[sense]
            number = before if after.name is not None else after
            if number.signs > 1:
                raise context.reader.error("several signs before a number: write one", line.first)
            value = context.side_literal(number)
            sides.update(
                {"lower": value, "upper": value} if sense == "=" else {"upper" if sense == "<" else "lower": value}
            )
            context.settle_relation(relation)
            context.settle_items([number], True)
        context.settle_name(line.name)
        self.take_column(line.name, "Bounds")
        bound = Bound(sides.get("lower"), sides.get("upper"), line.first, line.last)
        if [
            sense_of(each) for each in line.relations
        ] in _SENSES:  # others are not removed as given again: mpslp rejects them
            self.bounds.setdefault(line.name.text, []).append(bound)
        self.last_bound = line.last

    def settle_plain(self, statement: Token) -> None:
        """The same for a bound that is read as a whole. What it says is only asked if its column has another one."""
        name = names_of_bound(statement.text)[0]
        self.take_name(name, statement, "Bounds")
        self.settle_whole(name)
        if name in self.bounds:
            self.settle(bound_line_of(statement))
        else:
            self.whole[name] = statement

    def settle_whole(self, name: str) -> None:
        """Settles the bound of a column that was read as a whole, if there is one."""
        statement = self.whole.pop(name, None)
        if statement is not None:
            self.settle(bound_line_of(statement))

    def take_name(self, name: str, statement: Token, section: str) -> None:
        """A column that a statement names which is read as a whole."""
        context = self.context
        context.reader.apart.add(name)
        if name not in context.columns:
            token = new_token(Token, ("word", name, statement.start, statement.end, statement.line))
            self.take_column(token, section)
        else:
            context.named_again.add(name)
            context.take_elsewhere(name)

    def take_column(self, name: Token, section: str) -> None:
        """A column that is not in the objective and the rows may be another one with its name misspelt."""
        if name.text not in self.context.columns:
            self.new_columns.append((name, section))
        self.context.take_column(name)

    def settle_bounds(self) -> None:
        """Bounds that are given again, and what a program means by bounds that it does not write."""
        for name, bounds in self.bounds.items():
            kept = self.settle_again(bounds) if len(bounds) > 1 else bounds
            if len(bounds) > 1:
                self.settle_free(name, kept)
            if self.context.dialect == "qsopt":
                self.settle_negative_upper(name, kept)
        if self.context.dialect == "qsopt":
            self.settle_integers()

    def settle_free(self, name: str, bounds: list[Bound]) -> None:
        """A column that is free and has an upper or a lower bound."""
        free = [bound for bound in bounds if bound.is_free]
        others = [bound for bound in bounds if not bound.is_free]
        if len(free) != 1 or len(others) != 1:
            return
        bound, context = others[0], self.context
        if bound.first.start < free[0].first.start and (context.dialect != "coinutils" or bound.lower is not None):
            raise AdaptError(
                free[0].first.line,
                f"{name} is free after it was given a bound: CoinUtils keeps the bound (--from coinutils), "
                "others drop it; remove one of the two lines",
            )
        if bound.upper is not None and bound.lower is None:
            self.write_without_lower(name, bound, "free-and-bound")
        self.remove(free[0], "free-and-bound")

    def settle_again(self, bounds: list[Bound]) -> list[Bound]:
        """The bounds without those that are given again, which are removed."""
        kept: dict[tuple[str | None, str | None], Bound] = {}
        for bound in bounds:
            if kept.setdefault((bound.lower, bound.upper), bound) is not bound:
                self.remove(bound, "bound-again")
        return [*kept.values()]

    def remove(self, bound: Bound, kind: str) -> None:
        self.context.replace(bound.first, bound.last, [kind], [])

    def write_without_lower(self, name: str, bound: Bound, kind: str) -> None:
        """An upper bound, with the lower bound minus infinity."""
        assert bound.upper is not None
        written = self.context.names.of(name)
        cells = [
            *literal_cells("-inf"),
            Cell(" ", "<="),
            Cell(" ", written),
            Cell(" ", "<="),
            *literal_cells(bound.upper),
        ]
        self.context.replace(bound.first, bound.last, [kind], statement(cells))

    # ---- QSopt_ex

    def settle_negative_upper(self, name: str, bounds: list[Bound]) -> None:
        """For QSopt_ex a column with a negative upper bound and no lower bound has the lower bound minus infinity."""
        if any(bound.lower is not None for bound in bounds):
            return
        for bound in bounds:
            if bound.upper is not None and bound.upper.startswith("-") and bound.upper[1:].strip("0."):
                self.write_without_lower(name, bound, "negative-upper")

    def settle_integers(self) -> None:
        """For QSopt_ex an integer column without bounds has the upper bound 1."""
        cells: list[Cell] = []
        for name, token in self.integers.items():
            if name not in self.bounds:
                written = [Cell("\n ", self.context.names.of(name)), Cell(" ", "<="), Cell(" ", "1")]
                self.context.log.add(token.line, "integer-bound", name, f"{written[0].text} <= 1")
                cells += written
        if not cells:
            return
        sections = self.context.reader.sections
        after = self.last_bound
        if after is None:
            header = next(each for each in sections if each.name in ("bounds", "generals"))
            after = header.last
            if header.name != "bounds":
                cells.insert(0, Cell("\n", "Bounds"))
                after = self.context.reader.tokens.before(header.first)
        self.context.script.insert_after(after, cells)

    # ---- lists of names

    def has_listed(self) -> bool:
        """Whether a further name comes, and no section."""
        reader = self.context.reader
        if reader.token.text in self.context.names.written and reader.token.text.lower() in SECTIONS:
            raise reader.error("a column, or the word that opens a section: rename the column")
        return reader.has_bound()

    def take_listed(self, name: Token, section: str) -> None:
        context = self.context
        self.check_section_of_others(name)
        self.take_column(name, section)
        reader = context.reader
        before = reader.tokens.all[reader.at - 2]
        listed = self.listed.setdefault(section, set())
        if name.text in listed:
            self.listed_again.append(name)
        listed.add(name.text)
        names = self.lists.setdefault(reader.sections[-1].first.start, [])
        if names and (gap := gap_in(reader.tokens.text[before.end : name.start])):
            self.after_gaps.append((name, gap))
        names.append(name)
        if section == "generals":
            self.integers.setdefault(name.text, name)
        context.settle_name(name)

    def take_plain(self, statement: Token, section: str) -> None:
        """The same for names that are read as a whole."""
        reader, listed = self.context.reader, self.listed.setdefault(section, set())
        before, names = reader.tokens.all[reader.at - 2], self.lists.setdefault(reader.sections[-1].first.start, [])
        if names and (gap := gap_in(reader.tokens.text[before.end : statement.start])):
            self.after_gaps.append((next(names_of(statement)), gap))
        names.append(statement)
        for at, name in enumerate(statement.text.split()):
            self.take_name(name, statement, section)
            if name in listed:
                self.listed_again.append(next(islice(names_of(statement), at, None)))
            listed.add(name)

    def check_section_of_others(self, name: Token) -> None:
        """A word on its own line that opens a section for Xpress or lp_solve is no column, if no row has it."""
        kind = SECTIONS_OF_OTHERS.get(name.text.lower())
        if kind is None or name.text in self.context.columns:
            return
        reader = self.context.reader
        is_last = reader.token.line != name.line or reader.section_at(reader.at) is not None
        if is_last and reader.starts_line(reader.at - 1):
            raise OtherLanguage(
                name.line,
                f"{name.text} is a name here, and opens the section of {kind} for other programs: rename the column, "
                "or write the section as mpslp has it",
            )

    def note_gaps(self) -> None:
        """In a file that is changed, a list that goes on after a gap, or in which names start again, may be another one
        whose header is lost.
        """
        if self.listed_again:
            name = self.listed_again[0]
            self.context.log.note(name.line, f"{name.text} is listed again: if this is another list, write its header")
        if self.after_gaps:
            name, gap = self.after_gaps[0]
            self.context.log.note(
                name.line, f"the list goes on with {name.text} after {gap}: if it is another one, write its header"
            )
        places = {name: at for at, name in enumerate(self.context.columns)}
        for listed in self.lists.values():
            name_again = first_again([*chain.from_iterable(map(names_of, listed))], places)
            if name_again is not None and name_again not in self.listed_again:
                self.context.log.note(
                    name_again.line,
                    f"the names start again with {name_again.text}: if this is another list, write its header",
                )

    def note_new_columns(self) -> None:
        """A column that is first in Bounds or a list: one note for all."""
        if self.new_columns:
            name, section = self.new_columns[0]
            others = f" and {len(self.new_columns) - 1} more" if len(self.new_columns) > 1 else ""
            self.context.log.note(
                name.line, f"{name.text}{others} first named under {section}, after the rows: a new column"
            )

    def note_lone_columns(self) -> None:
        """In a file that is changed, a column that is named once may be another one with its name misspelt: at most
        some notes.
        """
        context, new = self.context, {name.text for name, _ in self.new_columns}
        lone = [
            name for name in context.columns.values() if name.text not in context.named_again and name.text not in new
        ]
        shown = first_to_note(lone, context.named_again) if len(lone) > _MOST_NOTES else lone
        for name in shown:
            context.log.note(name.line, f"{name.text} is named only here: a column of its own, or another one misspelt")
        if len(lone) > len(shown):
            context.log.note(lone[-1].line, f"{len(lone) - len(shown)} more columns are named only once")


def names_of(listed: Token) -> Iterator[Token]:
    """The names that a token of a list is: itself, or those that are read as a whole."""
    if listed.kind != PLAIN_NAMES:
        yield listed
        return
    for found in _NAME.finditer(listed.text):
        start, end = (listed.start + place for place in found.span())
        yield new_token(Token, ("word", found[0], start, end, listed.line))


def gap_in(space: str) -> str:
    """What is between two names of a list beside spaces and line ends, or nothing."""
    if _EMPTY_LINE.search(space) is not None:
        return "an empty line"
    return "a comment" if _LINE_OF_COMMENT.search(space) is not None else ""


def first_again(names: Sequence[Token], places: Mapping[str, int]) -> Token | None:
    """Where names that are in the order of the columns, or of the alphabet, start again, if they do so once; None if
    they are in order.
    """
    orders = (restarts([places[name.text] for name in names]), restarts([name.text for name in names]))
    return next((names[starts[0]] for starts in orders if len(starts) == 1), None) if all(orders) else None


def restarts(keys: Sequence[Key]) -> list[int]:
    """The places of the keys that are less than the one before."""
    return [at for at, (before, after) in enumerate(pairwise(keys), 1) if after < before]


def first_to_note(names: Sequence[Token], others: Collection[str]) -> list[Token]:
    """Some names, those first that are another one with a letter more, less or changed, and those with other signs than
    letters.
    """
    near = {part for other in others for part in parts_of(other)} if len(others) <= _MOST_COMPARED else set()
    likely = [
        name for name in names if not near.isdisjoint(parts_of(name.text)) or not name.text.replace("_", "").isalnum()
    ]
    return (likely or [*names])[:_MOST_NOTES]
