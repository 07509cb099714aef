"""The reader of LP files: statements of a larger language than mpslp's LP format, as tokens.

Line breaks have no meaning in mpslp's LP format. If it has one reading of what they would decide, that one is taken.
"""

from __future__ import annotations

import re
from functools import cached_property
from itertools import pairwise, starmap
from typing import NamedTuple

from mpslp._adapt._changes import AdaptError, Log
from mpslp._adapt._lp_parts import BoundLine, Item, Objective, Row, Section, has_terms, starts_with_side
from mpslp._adapt._lp_sections import NOT_SUPPORTED, OTHER_INFINITIES, OTHER_TOKENS, SECTIONS
from mpslp._adapt._lp_tokens import PLAIN_ROW, Token, Tokens, look_alike, other_comment, punctuation_after, quadratic
from mpslp._text._lp_words import INFINITIES, LISTS, RESERVED

_WORDS_BEFORE_ERROR = 3
_EXPONENT = re.compile(r"[eE][0-9]+")
_SIGNED_EXPONENT = re.compile(r"[eE][+-][0-9]+")
"""A word of PuLP's files only; elsewhere it is three tokens."""

_NO_BOUND = "no bound of LP: a column and a number, or a column between two numbers"


def number_of_pulp(name: Token) -> AdaptError:
    """The error of a name that only PuLP has, where a number is more likely."""
    return AdaptError(
        name.line,
        f"{name.text} is a name for PuLP, and may be a number and more: write the number, or rename the column",
    )


class Exponent(NamedTuple):
    """A number with an exponent, and the letters that would be a name if a space were before them."""

    token: Token
    name: str


class Reader:
    """The place in the tokens of a file."""

    def __init__(self, tokens: Tokens, dialect: str | None, log: Log) -> None:
        self.tokens = tokens
        self.dialect = dialect
        self.log = log
        self.at = 0
        self.sections: list[Section] = []
        self.exponents: list[Exponent] = []
        self.unclear: list[AdaptError] = []  # what a file that has to be changed may not have
        self.joined: dict[str, list[Token]] = {}  # the numbers to which a name is joined
        self.apart: set[str] = set()  # the names that are somewhere joined to no number
        self.has_spaces = False  # whether a space is between a number and a name
        self._pointed: list[int] | None = None  # the first numbers that start with a point
        self.is_after_terms = False

    # ---- tokens

    @property
    def token(self) -> Token:
        return self.tokens.all[self.at]

    @property
    def last(self) -> Token:
        """The token before this one."""
        return self.tokens.all[self.at - 1]

    def ahead(self, count: int = 1) -> Token:
        return self.tokens.all[min(self.at + count, len(self.tokens.all) - 1)]

    def joined_with(self, first: Token, second: Token) -> bool:
        return first.end == second.start

    def as_word(self, first: Token, last: Token) -> Token:
        return Token("word", self.tokens.text[first.start : last.end], first.start, last.end, first.line)

    def error(self, reason: str, token: Token | None = None) -> AdaptError:
        token = token or self.token
        if self.token.text in OTHER_TOKENS:
            return AdaptError(self.token.line, OTHER_TOKENS[self.token.text])
        near = self.tokens.all[max(self.at - _WORDS_BEFORE_ERROR, 0) : self.at + 1]
        known = (*starmap(punctuation_after, pairwise(near)), *map(other_comment, near), *map(look_alike, near))
        for found in filter(None, known):
            return found
        return AdaptError(token.line, f"{reason}: {token.text}" if token.text else reason)

    # ---- sections and names

    @cached_property
    def starts_of_sections(self) -> frozenset[int]:
        """The places of all headers, after the file is read."""
        return frozenset(section.first.start for section in self.sections)

    def section_at(self, at: int) -> tuple[str, int] | None:
        """The section that a word opens, and the number of its words; None for a name."""
        token, second = self.tokens.all[at], self.tokens.all[min(at + 1, len(self.tokens.all) - 1)]
        if token.kind != "word":
            return None
        word, pair = token.text.lower(), f"{token.text} {second.text}".lower()
        if pair in NOT_SUPPORTED and self.starts_line(at):
            raise self.error(NOT_SUPPORTED[pair], token)
        if word in NOT_SUPPORTED and (self.starts_line(at) or word in RESERVED) and not self.is_name_of_pulp(at):
            raise self.error(NOT_SUPPORTED[word], token)
        if pair in ("subject to", "such that"):
            return "rows", 2
        if word not in SECTIONS or self.is_used_as_name(at):
            return None
        if word == "semi" and second.text == "-":
            third = self.tokens.all[min(at + 2, len(self.tokens.all) - 1)]
            if third.text.lower() == "integer":
                raise self.error("semi-integer columns: mpslp has integer and semi-continuous ones", token)
            if third.kind == "end":
                raise self.error("the file ends within the word semi-continuous", token)
            if third.text.lower() != "continuous":
                raise self.error(
                    "semi is a name, or the beginning of the word semi-continuous: complete the word, or "
                    "rename the column",
                    token,
                )
            return "semis", 3
        return SECTIONS[word], 1

    def starts_line(self, at: int) -> bool:
        return at == 0 or self.tokens.all[at - 1].line != self.tokens.all[at].line

    def is_name_of_pulp(self, at: int) -> bool:
        """Whether PuLP wrote a word as a name: within a line, and not after a relation."""
        return self.dialect == "pulp" and not self.starts_line(at) and self.tokens.all[at - 1].kind != "relation"

    def is_used_as_name(self, at: int) -> bool:
        """Whether a reserved word can be nothing but a name: beside a sign or a relation, or as a label."""
        token, after = self.tokens.all[at], self.tokens.all[min(at + 1, len(self.tokens.all) - 1)]
        before = self.tokens.all[at - 1] if at else token
        word = token.text.lower()
        if word in INFINITIES:
            return False
        if at and before.kind == "sign" and self.starts_line(at) and word in SECTIONS and not self.ends_line(at, after):
            raise self.error("a sign at the end of a line, and a word that opens a section: complete the term", token)
        if (
            at
            and before.kind == "sign"
            and word == "end"
            and self.dialect != "pulp"
            and self.tokens.is_last_of_line(token)
        ):
            raise self.error(
                "a sign before the end of the file, or a column of this name: complete the term, or rename the column",
                token,
            )
        if at and (before.kind == "sign" or self.is_name_of_pulp(at)):
            return word != "free" or before.kind == "sign" or after.kind in ("sign", "relation")
        is_section = word in SECTIONS and SECTIONS[word] not in LISTS
        if after.kind == "colon":
            return self.is_label_of_reserved(at, token)
        if after.line != token.line:
            return False
        if after.kind == "relation" or (after.text.lower() == "free" and self.is_in_bounds):
            return True
        return after.kind == "sign" and not is_section and not (word == "semi" and after.text == "-")

    def ends_line(self, at: int, after: Token) -> bool:
        """Whether a sign or a relation comes after a word on its line, so that a term or a row goes on."""
        return after.line == self.tokens.all[at].line and after.kind in ("sign", "relation")

    def is_label_of_reserved(self, at: int, token: Token) -> bool:
        """Whether a row has a reserved word as its label: it goes on after the colon, on the same line."""
        third = self.tokens.all[min(at + 2, len(self.tokens.all) - 1)]
        if token.line != third.line:
            return False
        if token.text.lower() in SECTIONS and (self.dialect != "pulp" or third.kind == "end"):
            raise self.error(
                "a row of this name, or the section: write a section's word on a line of its own, or rename the row",
                token,
            )
        return True

    @property
    def is_in_bounds(self) -> bool:
        return bool(self.sections) and self.sections[-1].name == "bounds"

    def is_name(self, at: int) -> bool:
        """Whether a token is a name here."""
        token = self.tokens.all[at]
        if token.kind != "word":
            return False
        if token.text.lower() in RESERVED:
            return self.is_used_as_name(at)
        return self.section_at(at) is None

    def label(self) -> Token | None:
        """The label of a row or of the objective, past its colon; or None."""
        start = self.at
        first, second = self.token, self.ahead()
        if (
            first.kind == "word"
            and second.kind == "colon"
            and (first.text.lower() not in RESERVED or self.is_used_as_name(start))
        ):
            self.at += 2
            return first
        # A label may start with a digit at the start of a line, but what comes after a relation is a number.
        before = self.tokens.all[start - 1]
        is_number = before.kind == "relation" or (
            before.kind == "sign" and self.tokens.all[start - 2].kind == "relation"
        )
        if is_number or not self.starts_line(start):
            return None
        if first.kind == "number" and second.kind == "colon":
            self.at += 2
            return self.as_word(first, first)
        if (
            first.kind == "number"
            and second.kind == "word"
            and self.joined_with(first, second)
            and self.ahead(2).kind == "colon"
        ):
            self.at += 3
            return self.as_word(first, second)
        return None

    def is_label(self, at: int) -> bool:
        """Whether a label starts here."""
        kept, self.at = self.at, at
        found = self.label() is not None
        self.at = kept
        return found

    # ---- expressions

    def items(self) -> list[Item]:
        """Terms and constants, each but the first after a sign."""
        found: list[Item] = []
        while True:
            start = self.at
            item = self.item(bool(found))
            if item is None:
                self.at = start
                return found
            found.append(item)

    def item(self, wants_sign: bool) -> Item | None:
        start = self.at
        item = self.signs()
        if wants_sign and not item.signs:
            return None
        token = self.token
        if token.text in ("[", "^"):
            raise quadratic(token)
        if token.kind == "number" and not (not item.signs and self.is_label(self.at)):
            self.number_item(item)
        elif self.is_infinity():
            item.is_infinite = True
            item.numbers.append(token)
            self.note_infinity_of_pulp(token)
            self.at += 1
        elif (item.signs or not self.is_label(self.at)) and self.is_name(self.at):
            self.name_item(item)
        else:
            return None
        if self.token.text in ("^", "["):
            raise quadratic(self.token)
        item.tokens = self.tokens.all[start : self.at]
        return item

    def signs(self) -> Item:
        """An item of which only the signs are read."""
        item = Item([], 0, 1)
        while self.token.kind == "sign":
            item.sign = -item.sign if self.token.text != "+" else item.sign
            item.signs += 1
            self.at += 1
        return item

    def is_infinity(self) -> bool:
        """Whether a word is infinite. One such as infty is a name if no relation is beside it."""
        word = self.token.text.lower()
        if self.token.kind != "word" or word not in OTHER_INFINITIES:
            return self.token.kind == "word" and word in INFINITIES
        before = self.tokens.all[self.at - 1]
        if before.kind == "sign":
            before = self.tokens.all[self.at - 2]
        return before.kind == "relation" or self.ahead().kind == "relation"

    def number_item(self, item: Item) -> None:
        number = self.token
        item.numbers.append(number)
        self.at += 1
        if self.token.kind == "star":
            item.has_star = True
            self.at += 1
            if self.token.kind == "number":
                raise self.error("a product of two numbers: write their product")
        is_joined = self.token.kind == "word" and self.joined_with(self.last, self.token)
        if is_joined and self.token.text.lower() == "#inf":
            item.is_infinite = True
            self.at += 1
            return
        self.note_exponent(number, self.token.text if is_joined else "")
        self.note_plain_row(item)
        if self.is_name(self.at) and (item.has_star or not self.is_label(self.at)) and not self.starts_next_row(item):
            is_joined = is_joined and not item.has_star
            if self.token.line != number.line:
                self.note_term_on_two_lines(number, self.token)
            self.note_fraction(number, self.token)
            self.take_joined(number, self.token, is_joined)
            self.name_item(item)
        elif item.has_star:
            raise self.error("a factor without a name")

    def note_plain_row(self, item: Item) -> None:
        """A row that is read as a whole may start with a name that is a part of the term before it."""
        is_row = self.token.kind == PLAIN_ROW and ":" not in self.token.text and not self.token.text[0].isdigit()
        if is_row and not self.starts_next_row(item):
            self.note_term_on_two_lines(item.numbers[-1], self.token)

    def note_term_on_two_lines(self, number: Token, name: Token) -> None:
        reason = "a number at the end of a line, and a name on the next one: write the term on one line"
        self.unclear.append(AdaptError(number.line, f"{reason}: {number.text} {name.text}"))

    def note_exponent(self, number: Token, rest: str) -> None:
        at = number.text.lower().find("e")
        if at >= 0 and number.text[at + 1].isdigit():
            self.exponents.append(Exponent(number, number.text[at:] + rest))

    def take_joined(self, number: Token, name: Token, is_joined: bool) -> None:
        """A name that is joined to a number, as in 2x, may be a part of it, as in 10_000: no letter is a part of 2."""
        if not is_joined:
            self.has_spaces = True
            if name.text in "eE" and self.is_power(self.ahead(), self.ahead(2)):
                self.note_tail(number, self.as_word(self.token, self.ahead(2)))
            elif _SIGNED_EXPONENT.fullmatch(name.text):
                self.note_tail(number, name)
            return
        self.joined.setdefault(name.text, []).append(number)
        letter = name.text[0]
        if (letter.isascii() and not letter.isalpha()) or name.text in "eE":
            self.note_tail(number, name)

    def is_power(self, sign: Token, number: Token) -> bool:
        """Whether a sign and a whole number are joined to this token and to each other, as in e+3."""
        return (
            sign.kind == "sign"
            and self.joined_with(self.token, sign)
            and self.joined_with(sign, number)
            and number.text.isdigit()
        )

    def note_tail(self, number: Token, name: Token) -> None:
        reason = "a number and more, or a number and a column: write the number, or a space before the column"
        text = " ".join(self.tokens.text[number.start : name.end].split())
        self.unclear.append(AdaptError(number.line, f"{text} is {reason}"))

    def note_fraction(self, number: Token, name: Token) -> None:
        """A name such as /2 after a number is the end of a fraction for people."""
        if name.text.startswith("/"):
            reason = (
                f"{number.text} is the coefficient of a column {name.text} here: write a fraction as a "
                "decimal, or rename the column"
            )
            self.unclear.append(AdaptError(number.line, reason))

    def starts_next_row(self, item: Item) -> bool:
        """Whether a name comes on another line than the number that is the right-hand side."""
        is_side = self.tokens.all[self.at - 2 - item.signs].kind == "relation"
        return self.is_after_terms and is_side and self.token.line != item.numbers[0].line

    def name_item(self, item: Item) -> None:
        item.name = self.token
        if not (item.numbers and self.joined_with(item.numbers[-1], item.name)):
            self.apart.add(item.name.text)
        self.note_infinite_name(item.name)
        self.at += 1
        if self.token.kind == "star":
            if self.ahead().kind != "number" or item.numbers:
                raise quadratic(self.token)
            item.numbers.append(self.ahead())
            item.has_star = True
            self.at += 2

    def note_infinite_name(self, name: Token) -> None:
        if name.text.lower() in OTHER_INFINITIES:
            self.unclear.append(
                AdaptError(name.line, f"{name.text} is a column here, and infinite for others: rename it")
            )

    def note_infinity_of_pulp(self, token: Token) -> None:
        """PuLP writes inf for an infinite number, and has columns of the name infinity."""
        if self.dialect == "pulp" and token.text.lower() == "infinity":
            self.unclear.append(
                AdaptError(
                    token.line, f"{token.text} is infinite here, and a name for PuLP: rename the column, or write inf"
                )
            )

    # ---- statements

    def objective(self) -> Objective:
        start = self.token
        label = self.label()
        items = self.items()
        if self.token.kind != "end" and self.section_at(self.at) is None:
            raise self.error("there is no sign between two terms of the objective, or no 'subject to' after it")
        return Objective(start, self.last, label, items)

    def plain(self, kind: str) -> Token | None:
        """The plain statement of a kind that is here, past it; or None."""
        token = self.token
        if token.kind != kind:
            return None
        self.at += 1
        return token

    def has_row(self) -> bool:
        """Whether a further row starts here."""
        if self.token.kind == "end" or not (self.is_label(self.at) or self.section_at(self.at) is None):
            return False
        if self.token.kind == "word" and self.token.text.lower() in RESERVED and not self.is_label(self.at):
            if not self.is_used_as_name(self.at) and self.token.text.lower() not in INFINITIES:
                raise self.error("a reserved word where a row is expected")
        return True

    def row(self) -> Row:
        first = self.token
        self.note_start("row")
        start = self.at
        label = self.label()
        sides = [self.items()]
        if label is None:
            self.note_split(start)
        relations: list[Token] = []
        while self.token.kind == "relation" and len(relations) < 2:
            relations.append(self.token)
            self.at += 1
            sides.append(self.side(sides, len(relations)))
        if not relations:
            raise self.error("this row has no relation, or no sign between two terms")
        if self.token.kind == "relation":
            raise self.error("a further relation in this row")
        row = Row(first, self.last, label, sides, relations)
        self.note_joined_sides(sides)
        if len(relations) == 2:
            self.note_wrapped(sides[1])
        if not self.ends_row(row):
            raise self.error("no sign between terms, or rows that cannot be taken apart: start each row on a new line")
        return row

    def note_joined_sides(self, sides: list[list[Item]]) -> None:
        """On the right of terms, a word that is joined to a number may be a unit or a part of it, as in 100L and 1D3;
        or an exponent.
        """
        if not has_terms(sides[0]):
            return
        for item in (item for side in sides[1:] for item in side):
            name = item.name
            if name is None:
                continue
            if self.dialect == "pulp" and (name.text[0].isdigit() or name.text.lower() in RESERVED):
                self.unclear.append(number_of_pulp(name))
            elif item.numbers and (self.joined_with(item.numbers[0], name) or _EXPONENT.fullmatch(name.text)):
                self.note_tail(item.numbers[0], name)

    def note_split(self, at: int) -> None:
        """What starts a row without a label, after a line that ends with a number, may be a part of this number."""
        before, first, after = self.tokens.all[at - 1 : at + 2]
        if before.kind not in ("number", PLAIN_ROW) or before.line == first.line:
            return
        is_whole = after.kind == "sign" and (first.kind == "number" or _EXPONENT.fullmatch(first.text) is not None)
        is_part = (
            first.kind == "number"
            and first.text.startswith(".")
            and "." not in before.text
            and self.is_only_point(first)
        )
        if is_whole or is_part:
            reason = (
                f"{before.text} and {first.text} on the next line may be one number: write it on one line, "
                "or give the row a label"
            )
            self.unclear.append(AdaptError(first.line, reason))

    def is_only_point(self, number: Token) -> bool:
        """Whether no other number of the file starts with a point."""
        if self._pointed is None:
            self._pointed = [
                each.start for each in self.tokens.all if each.kind == "number" and each.text.startswith(".")
            ][:2]
        return self._pointed == [number.start]

    def note_start(self, what: str) -> None:
        """A statement starts on a new line, or with a label after a space; otherwise another one may have been meant to
        go on.
        """
        first = self.token
        is_first = self.last in (self.sections[-1].last, self.sections[-1].first) or self.last.kind == "colon"
        is_after_number = self.last.kind == "number" and self.joined_with(self.last, first)
        if self.last.line != first.line or is_first or (self.is_label(self.at) and not is_after_number):
            return
        self.unclear.append(
            AdaptError(
                first.line,
                f"a {what} starts within a line: start each {what} on a new line: {self.last.text} {first.text}",
            )
        )

    def side(self, sides: list[list[Item]], count: int) -> list[Item]:
        """What comes after a relation: for mpslp a number ends the row, and what follows it starts the next one."""
        start = self.at
        self.is_after_terms = has_terms(sides[-1])
        items = self.items()
        self.is_after_terms = False
        is_middle = count == 1 and not has_terms(sides[0]) and has_terms(items)
        if self.token.kind == "relation" and not is_middle and items:
            if not starts_with_side(items[0]):
                raise self.error("terms on both sides and a further relation")
            # What follows the number is a row of its own.
            self.note_splits(items)
            self.at = start + items[0].signs + 1
            if self.token.kind == "sign" and self.token.line == items[0].numbers[0].line:
                self.log.note(self.token.line, "after the number a new row starts here: x >= 2 + y <= 5 is two rows")
            first = items[0]
            return [
                Item(first.tokens[: first.signs + 1], first.signs, first.sign, first.numbers, None, first.is_infinite)
            ]
        self.check_line(items)
        return items

    def note_splits(self, items: list[Item]) -> None:
        """Whether the next row may start on more than one line."""
        starts = [
            after.tokens[0] for before, after in pairwise(items) if before.tokens[-1].line != after.tokens[0].line
        ]
        if len(starts) > 1:
            reason = (
                "a right-hand side that goes on on the next line, or a row that starts there: write each "
                "row on one line, or give it a label"
            )
            self.unclear.append(AdaptError(starts[0].line, reason))

    def note_wrapped(self, items: list[Item]) -> None:
        """Between two relations a line with a sign at its start may be a row of its own."""
        for before, after in pairwise(items):
            if before.tokens[-1].line != after.tokens[0].line:
                reason = (
                    "a row between two numbers that goes on on the next line, or two rows: write each row on one line"
                )
                self.unclear.append(AdaptError(after.tokens[0].line, reason))

    def check_line(self, items: list[Item]) -> None:
        """A right-hand side that is a number ends with its line: a line with a sign at its start may be a row without
        its relation.
        """
        if len(items) < 2 or items[0].name is not None:
            return
        for before, after in pairwise(items):
            if before.tokens[-1].line != after.tokens[0].line:
                raise self.error(
                    "a right-hand side that goes on on the next line, or a row without a relation: write each "
                    "row on one line",
                    after.tokens[0],
                )

    def ends_row(self, row: Row) -> bool:
        is_clear = self.token.kind == "end" or self.token.line != row.last.line or self.is_label(self.at)
        if is_clear or self.section_at(self.at) is not None:
            return True
        return len(row.sides[-1]) == 1 and row.sides[-1][0].name is None

    # ---- bounds and lists

    def has_bound(self) -> bool:
        return self.token.kind != "end" and self.section_at(self.at) is None

    def bound(self) -> BoundLine:
        first = self.token
        self.note_start("bound")
        items = [self.bound_side(True)]
        relations: list[Token] = []
        if items[0].name is not None and self.token.text.lower() == "free":
            self.at += 1
            return BoundLine(first, self.last, items[0].name, items, [])
        while self.token.kind == "relation" and len(relations) < 2:
            relations.append(self.token)
            self.at += 1
            items.append(self.bound_side(items[-1].name is None and len(items) == 1))
        named = [(at, item.name) for at, item in enumerate(items) if item.name is not None]
        if len(named) != 1 or not relations or (len(items) == 3 and named[0][0] != 1):
            raise self.error(_NO_BOUND, first)
        return BoundLine(first, self.last, named[0][1], items, relations)

    def bound_side(self, wants_name: bool) -> Item:
        """A column, or a number with its signs."""
        start = self.at
        item = self.signs()
        first, second = self.token, self.ahead()
        if first.kind == "number" or self.is_infinity():
            item.numbers.append(first)
            item.is_infinite = first.kind == "word" or (
                second.text.lower() == "#inf" and self.joined_with(first, second)
            )
            self.at += int(first.kind == "number" and item.is_infinite)
            self.note_infinity_of_pulp(first)
        elif (
            first.kind == "word"
            and not item.signs
            and (self.is_name(self.at) or (wants_name and self.last.kind == "relation"))
        ):
            # After a number and a relation a word is a name even if it is reserved.
            item.name = first
            self.apart.add(first.text)
            self.note_infinite_name(first)
        else:
            raise self.error(_NO_BOUND, self.tokens.all[start])
        self.at += 1
        if self.token.text == "^":
            raise quadratic(self.token)
        item.tokens = self.tokens.all[start : self.at]
        return item

    def listed_name(self, section: str) -> Token:
        token = self.token
        if token.kind != "word" or token.text.lower() in INFINITIES:
            raise self.error(f"under {section} are only names")
        self.note_infinite_name(token)
        self.note_reserved_name(token, section)
        self.at += 1
        if self.token.kind == "colon":
            raise self.error(f"under {section} are only names; general constraints are not supported", token)
        return token

    def note_reserved_name(self, token: Token, section: str) -> None:
        """A reserved word is a column only if a row or the objective has it."""
        if token.text.lower() in RESERVED and token.text not in self.apart:
            self.unclear.append(
                AdaptError(
                    token.line,
                    f"{token.text} is a reserved word under {section}, and no row has it: remove or rename it",
                )
            )
        self.apart.add(token.text)
