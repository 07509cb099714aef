"""What the rules of LP files share: names, numbers, and how tokens are replaced and reported."""

from __future__ import annotations

import re
from collections.abc import Iterable, Sequence
from decimal import Decimal

from mpslp._adapt._changes import AdaptError, Log
from mpslp._adapt._lp_parts import Item, sense_of, spelled
from mpslp._adapt._lp_plain import Sides, names_in
from mpslp._adapt._lp_print import Cell, Script, printed
from mpslp._adapt._lp_reader import Reader
from mpslp._adapt._lp_tokens import Token, look_alike, new_token, no_column, punctuation_after
from mpslp._adapt._names import Names
from mpslp._text import _numbers
from mpslp._text._lp_words import INFINITIES
from mpslp._text._names import is_lp_name

_NO_NUMBER = re.compile(r"nan|#.*", re.IGNORECASE)
"""What programs write if they have no number, as spreadsheets #REF!."""


class Context:
    """What is known of a file so far, and what is written instead of its tokens."""

    def __init__(self, reader: Reader, log: Log) -> None:
        self.reader = reader
        self.dialect = reader.dialect
        self.tokens = reader.tokens
        self.log = log
        self.script = Script(reader.tokens)
        self.names = Names(is_lp_name, lambda: reader.tokens.words)
        self.columns: dict[str, Token] = {}
        """Each column, and where it is first."""
        self.named_again: set[str] = set()
        """The columns that are named more than once."""
        self.only_on_the_right: dict[str, Token] = {}
        """The columns that are only after numbers on the right of terms, and where they are first."""
        self.lone_on_the_right: dict[str, Token] = {}
        """The words that are only on the right of terms, in one row, and where they are first."""

    @property
    def first_column(self) -> str | None:
        return next((self.names.of(name) for name in self.columns), None)

    def take_columns(self, items: Iterable[Item]) -> None:
        for item in items:
            if item.name is not None:
                self.take_column(item.name)

    def take_plain(self, statement: Token, body: str, names: Sequence[str]) -> None:
        """Takes the columns of a statement that is read as a whole: the names of its body."""
        if "\n" not in body:
            self._take_names(names, statement, statement.line)
        else:
            for line, text in enumerate(body.split("\n"), statement.line):
                self._take_names(names_in(text), statement, line)
        self.reader.has_spaces = True

    def _take_names(self, names: Sequence[str], statement: Token, line: int) -> None:
        for name in names:
            if name in self.columns:
                self.named_again.add(name)
            else:
                self.columns[name] = new_token(Token, ("word", name, statement.start, statement.end, line))
        if self.only_on_the_right or self.lone_on_the_right:
            for name in names:
                self.take_elsewhere(name)
        self.reader.apart.update(names)

    def take_elsewhere(self, name: str) -> None:
        """Takes notice that a column is in other places than on the right of a row."""
        self.only_on_the_right.pop(name, None)
        self.lone_on_the_right.pop(name, None)

    def take_columns_on_the_right(self, items: Iterable[Item]) -> None:
        """Takes the columns on the right of terms, where a name after a number may be a unit, and one that is nowhere
        else a number that is mistyped.
        """
        self._take_on_the_right((item.name, item.numbers != []) for item in items if item.name is not None)

    def take_plain_on_the_right(self, statement: Token, sides: Sides) -> None:
        """The same for a row that is read as a whole, and has its right side on its last line."""
        names = sides.names_on_the_right
        self.reader.apart.update(names)
        if not (self.only_on_the_right or self.lone_on_the_right or {*names} - self.columns.keys()):
            self.named_again.update(names)
            return
        line = statement.line + statement.text.count("\n")
        self._take_on_the_right(
            (new_token(Token, ("word", name, statement.start, statement.end, line)), number != "")
            for _, number, _, name in sides.right
            if name
        )

    def _take_on_the_right(self, names: Iterable[tuple[Token, bool]]) -> None:
        """Takes columns, each with whether a number is before it."""
        lone: dict[str, Token] = {}
        for name, has_number in names:
            if self.is_lone(name.text):
                lone[name.text] = self.lone_on_the_right.get(name.text, name)
            first = name if name.text not in self.columns else self.only_on_the_right.get(name.text)
            self.take_column(name)
            if has_number and first is not None:
                self.only_on_the_right[name.text] = first
        self.lone_on_the_right.update(lone)

    def is_lone(self, name: str) -> bool:
        """Whether a word on the right is nowhere else so far; what programs write if they have no number may be on the
        right of several rows.
        """
        is_again = name in self.lone_on_the_right and _NO_NUMBER.fullmatch(name) is not None
        return is_again or name not in self.columns

    def take_column(self, name: Token) -> None:
        self.take_elsewhere(name.text)
        if self.columns.setdefault(name.text, name) is not name:
            self.named_again.add(name.text)

    # ---- what stays, and what is written again

    def edit(self, token: Token, kind: str, *cells: Cell) -> None:
        """Writes cells in place of a token."""
        self.log.add(token.line, kind, token.text, printed(cells))
        self.script.replace(token.start, token.end, cells)

    def replace(self, first: Token, last: Token, kinds: Iterable[str], cells: Sequence[Cell]) -> None:
        """Writes a statement again, after the comments that were within it."""
        self.log.add_all(first.line, kinds, self.source(first, last), without_comments(printed(cells)))
        self.script.replace(first.start, last.end, cells)

    def rewrite(self, statement: Token, kinds: Iterable[str], text: str) -> None:
        """Writes a statement that is read as a whole again."""
        self.log.add_all(statement.line, kinds, statement.text, text)
        self.script.replace(statement.start, statement.end, text)

    def insert_after(self, token: Token, kinds: Iterable[str], cells: Sequence[Cell]) -> None:
        """Writes a statement that the source does not have."""
        self.log.add_all(token.line, kinds, "", printed(cells))
        self.script.insert_after(token, cells)

    def source(self, first: Token, last: Token) -> str:
        return without_comments(self.tokens.text[first.start : last.end])

    def settle_items(self, items: Sequence[Item], is_limit: bool) -> None:
        for item in items:
            for token in item.numbers:
                if item.is_infinite:
                    self.settle_infinity(item, token)
                else:
                    self.settle_number(token, is_limit)
            for token in item.tokens:
                if token.kind == "sign" and token.text not in "+-":
                    self.edit(token, "symbol", Cell("", "-"))
            if item.name is not None:
                self.settle_name(item.name)

    def settle_number(self, token: Token, is_limit: bool) -> None:
        literal = self.literal(token, is_limit)
        if literal != token.text:
            self.edit(token, "number", Cell("", literal))

    def settle_infinity(self, item: Item, token: Token) -> None:
        last = item.tokens[-1]
        if last.text.lower() not in INFINITIES:
            self.edit(self.reader.as_word(token, last), "infinity", Cell("", "inf"))

    def settle_relation(self, token: Token) -> None:
        if token.text == "==" or not token.text.isascii():
            self.edit(token, "symbol", Cell("", spelled(sense_of(token))))

    def settle_name(self, token: Token) -> None:
        self.check_name(token)
        name = self.names.of(token.text)
        if name != token.text:
            self.edit(token, "name", Cell("", name))

    def name_of(self, token: Token) -> str:
        self.check_name(token)
        return self.written_name(token.line, token.text)

    def written_name(self, line: int, given: str) -> str:
        """The name that is written in a line for one given, which is reported."""
        name = self.names.of(given)
        if name != given:
            self.log.add(line, "name", given, name)
        return name

    def check_name(self, token: Token) -> None:
        """In a file that has to be changed no name has a comma or a semicolon at an end: it would be a statement's, or
        a number's.
        """
        if (found := look_alike(token)) is not None:
            raise found
        if self.dialect == "pulp":
            return
        if token.text[0] in ",;" or token.text[-1] in ",;":
            reason = f"a comma or a semicolon is a letter of names in LP: remove it, or rename {token.text}"
            self.reader.unclear.append(AdaptError(token.line, reason))
        if is_part_of_expression(token.text):
            reason = (
                f"a parenthesis or a bar is a letter of names in LP: write the sum without it, or rename {token.text}"
            )
            self.reader.unclear.append(AdaptError(token.line, reason))

    def reject_punctuation(self, items: Iterable[Item]) -> None:
        """In a statement that is written again, neither 10,5 nor 10; is 10 times a column, and (10) is none."""
        for item in items:
            if item.name is not None:
                found = (punctuation_after(item.numbers[0], item.name) if item.numbers else None) or no_column(
                    item.name
                )
                if found is not None:
                    raise found

    # ---- numbers

    def literal(self, token: Token, is_limit: bool) -> str:
        """A number that mpslp reads."""
        text = token.text
        if "/" in text:
            decimal = _numbers.fraction(text)
            if decimal is None:
                raise self.reader.error("no finite decimal: scale the row", token)
            return decimal
        if _numbers.is_decimal(text):
            return text
        if is_limit and _numbers.is_infinite(text):
            return _numbers.INFINITE
        raise self.reader.error(f"a number with {_numbers.BEYOND_LIMITS}: round it, or scale the row", token)

    def sum_of(self, items: Sequence[Item]) -> Decimal:
        """The exact sum of numbers."""
        total = _numbers.ZERO
        for item in items:
            if item.is_infinite:
                raise self.reader.error(
                    "an infinite number: only sides of rows and bounds may be infinite", item.numbers[0]
                )
            value = _numbers.exact(self.literal(item.numbers[0], False)) if item.numbers else _numbers.ONE
            assert value is not None
            total = (_numbers.added if item.sign > 0 else _numbers.subtracted)(total, value)
        return total

    def number_text(self, value: Decimal, first: Token) -> str:
        text = _numbers.text(value)
        if text is None:
            raise AdaptError(first.line, f"a sum with {_numbers.TOO_MANY_DIGITS}: scale the row, or use fewer digits")
        return text

    def side_literal(self, item: Item) -> str:
        """A side of a row or a bound as mpslp reads it, with its sign."""
        number = item.numbers[0]
        return ("-" if item.sign < 0 else "") + ("inf" if item.is_infinite else self.literal(number, True))


def is_part_of_expression(name: str) -> bool:
    """Whether a name is a part of a sum in parentheses, as (x of 2 (x + y), or has parentheses or bars around it, as
    |x|.
    """
    return name.count("(") != name.count(")") or re.fullmatch(r"\([\w.]*\)|\|.*\|", name) is not None


def without_comments(text: str) -> str:
    return re.sub(r"\\[^\n]*", "", text)
