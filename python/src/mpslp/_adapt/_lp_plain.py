"""Statements of LP files that are read as a whole, without a token for each word.

Most statements of most files have only plain words: names and numbers that no rule changes, and that have one reading
in any place. A pattern for each section takes such a statement with the lines that it is on. Whatever no pattern takes
is read token by token, and so is the whole file if it is left: the patterns are fast, and decide nothing.
"""

from __future__ import annotations

import re
from collections.abc import Callable, Iterator
from typing import NamedTuple

from mpslp._adapt._lp_parts import BoundLine, Item, Row
from mpslp._adapt._lp_sections import NOT_SUPPORTED, OTHER_INFINITIES, SECTIONS_OF_OTHERS
from mpslp._adapt._lp_tokens import PLAIN_BOUND, PLAIN_NAMES, PLAIN_OBJECTIVE, PLAIN_ROW, Token, new_token
from mpslp._text._names import is_lp_name

_LETTERS = r"[A-Za-z0-9_.,()#$@!~'&%]*"
_NAME = rf"[A-Za-z_]{_LETTERS}"
_INDEX = rf"\[[A-Za-z0-9_.,]*\]{_LETTERS}"
_NAME_IN_ROW = rf"{_NAME}(?:{_INDEX})*"
"""A name that has brackets is written with parentheses."""

_MANTISSA = r"(?:[0-9]{1,20}(?:\.[0-9]{0,15})?|\.[0-9]{1,15})"
_NUMBER = rf"{_MANTISSA}(?:[eE][+-][0-9]{{1,2}})?"
"""The letter E and digits after a number may be a name as well: only a sign makes them an exponent."""

_SIGN = r"[+-][ \t]*"
_COEFFICIENT = rf"{_NUMBER}(?:[ \t]+|[ \t]*\*[ \t]*)"
_TERM = rf"(?:{_COEFFICIENT})?{_NAME_IN_ROW}"
_RELATION = r"(?:<=?|>=?|=[<>=]?)"
_RELATION_OF_BOUND = r"(?:<=?|>=?|=[<>]?)"
_AT_MOST = r"(?:<=?|=<)"
_SIDE = rf"(?:{_SIGN})?{_NUMBER}"
_BOUND_SIDE = rf"(?:{_SIGN})?(?:{_MANTISSA}(?:[eE][+-]?[0-9]{{1,2}})?|[iI][nN][fF](?:[iI][nN][iI][tT][yY])?)"
_LINE_END = r"[ \t\r]*(?=[\\\n])(?="
_COMMENTS = r"(?:[ \t\r\n]|\\[^\n]*\n)*"
_NEXT_STATEMENT = rf"{_LINE_END}{_COMMENTS}[A-Za-z_0-9])"
_NEXT_BOUND = rf"{_LINE_END}{_COMMENTS}[A-Za-z_0-9+.-])"
_NEXT_HEADER = rf"{_LINE_END}\n{_COMMENTS}(?i:subject[ \t]+to|st|s\.t\.|such[ \t]+that)[ \t\r]*\n)"


def _sum(space: str, first: str = rf"(?:{_SIGN})?(?:{_TERM}|{_NUMBER})") -> str:
    """Terms and constants with a sign between them, and spaces, or also line ends, before the signs."""
    return rf"{first}(?:{space}{_SIGN}(?:{_TERM}|{_NUMBER}))*"


_ANY_SPACE, _SPACE = r"[ \t\r\n]*", r"[ \t]*"
_LABEL = rf"{_NAME_IN_ROW}[ \t]*:{_ANY_SPACE}"
_SUM = _sum(_ANY_SPACE)
_RIGHT = rf"(?:{_SIGN})?(?:{_TERM}|{_NUMBER})(?:{_SPACE}{_SIGN}(?:{_TERM}|(?P<constant>{_NUMBER})))*"
_LABELLED_ROW = re.compile(
    rf"[ \t]*({_LABEL}(?:{_SIDE}[ \t]*{_AT_MOST}[ \t]*{_sum(_SPACE)}[ \t]*{_AT_MOST}[ \t]*{_SIDE}"
    rf"|{_SUM}[ \t]*{_RELATION}[ \t]*{_RIGHT})){_NEXT_STATEMENT}"
)
_ROW = re.compile(
    # what starts with a sign, or is a number without a relation after it, may go on with the row before it
    rf"[ \t]*((?![.])(?:{_sum(_SPACE, _TERM)}|{_NUMBER})[ \t]*{_RELATION}[ \t]*{_RIGHT}){_NEXT_STATEMENT}"
)
_NEXT_LABEL = re.compile(rf"{_LINE_END}{_COMMENTS}{_NAME_IN_ROW}[ \t]*:(?!:))")
"""After a number that ends a sum on the right: another name would be a part of its last term."""

_OBJECTIVE = re.compile(rf"[ \t]*((?:{_NAME}[ \t]*:{_ANY_SPACE})?{_SUM}){_NEXT_HEADER}")
_BOUND = re.compile(
    rf"[ \t]*((?:{_BOUND_SIDE}[ \t]*{_AT_MOST}[ \t]*{_NAME}[ \t]*{_AT_MOST}|{_NAME}"
    rf"[ \t]*{_RELATION_OF_BOUND})[ \t]*{_BOUND_SIDE}"
    rf"|{_BOUND_SIDE}[ \t]*{_RELATION_OF_BOUND}[ \t]*{_NAME}|{_NAME}[ \t]+[fF][rR][eE][eE]){_NEXT_BOUND}"
)
_NAMES = re.compile(rf"[ \t]*({_NAME}(?:[ \t]+{_NAME})*){_NEXT_STATEMENT}")

_WORD = re.compile(rf"{_NUMBER}|({_NAME_IN_ROW})")
_WORD_OF_BOUND = re.compile(rf"{_MANTISSA}(?:[eE][+-]?[0-9]+)?|({_NAME})")
_RELATIONS = re.compile(rf"({_RELATION})")
_ITEM = re.compile(rf"([+-]?)[ \t\r\n]*(?=[0-9.A-Za-z_])({_NUMBER})?[ \t]*(\*?)[ \t]*({_NAME_IN_ROW})?")
_WORDS_OF_BOUNDS = ("free", "inf", "infinity")

HEADERS = {
    **dict.fromkeys(
        ("min", "minimize", "minimum", "minimise", "max", "maximize", "maximum", "maximise"), PLAIN_OBJECTIVE
    ),
    **dict.fromkeys(("subject to", "such that", "st", "s.t."), PLAIN_ROW),
    **dict.fromkeys(("bound", "bounds"), PLAIN_BOUND),
    **dict.fromkeys(("general", "generals", "gen", "integer", "integers", "int"), PLAIN_NAMES),
    **dict.fromkeys(("binary", "binaries", "bin", "semi-continuous", "semis", "semi"), PLAIN_NAMES),
    "end": "",
}
"""The kind of the statements after a header that is the only text on its line."""

_LONGEST_HEADER = 80


class PlainStatements:
    """The plain statements of a text."""

    def __init__(self, text: str, dialect: str | None) -> None:
        self._text = text
        self._dialect = dialect
        self._seen = {""}
        """The names that are plain in any place, of columns and of rows; and what is no name."""
        self.kind = ""
        """The kind of the statements of this section; empty where none is taken."""

    @property
    def names(self) -> set[str]:
        """The names of columns and of rows."""
        return self._seen - {""}

    def take(self, at: int, line: int) -> Token | None:
        """The statement that starts with a line, if it is plain."""
        if not self.kind:
            return None
        found = _PATTERNS[self.kind](self._text, at)
        if found is None:
            return None
        statement = found[1]
        words = names_of_bound(statement) if self.kind == PLAIN_BOUND else _WORD.findall(statement)
        names = len(words) - words.count("")
        if not names or not self._are_plain(words):
            return None
        if self.kind == PLAIN_ROW and not self._is_whole_row(found, names):
            return None
        if self.kind == PLAIN_OBJECTIVE and not self._is_kept(sum_of(parts_of(statement).body)):
            return None
        return new_token(Token, (self.kind, statement, *found.span(1), line))

    def pass_line(self, at: int, end: int) -> None:
        """Takes notice of a line that is read token by token."""
        line = self._text[at:end].strip(" \t\r\n") if end - at < _LONGEST_HEADER else "+"
        kind = HEADERS.get(" ".join(line.lower().split()))
        if kind is not None:
            self.kind = kind
        elif self.kind == PLAIN_OBJECTIVE and line and not line.startswith("\\"):
            self.kind = ""  # the rest of an objective is none

    def _is_whole_row(self, found: re.Match[str], names: int) -> bool:
        """Whether a row of so many names ends where it seems to, and is changed as a whole if it is changed."""
        row = found[1]
        if names == 1:
            return not (":" in row or "[" in row or "==" in row)  # the name may be that of the row
        if "[" in row and "\n" in row:
            return False
        is_sum = found.end("constant") == found.end(1)
        return not is_sum or _NEXT_LABEL.match(self._text, found.end(1)) is not None

    def _is_kept(self, objective: Sum) -> bool:
        """Whether no rule changes an objective, and no comment does."""
        if any("[" in name for name in objective.names):
            return False
        constants = {None: 1, "lp_solve": 1, "coinutils": 0}.get(self._dialect, -1)
        return objective.constants <= constants and not objective.has_products and not objective.is_again

    def _are_plain(self, words: list[str]) -> bool:
        """Whether all words that are not empty are plain names."""
        new = {*words} - self._seen
        if _PLAIN_BY_LETTERS.fullmatch(" ".join(new)) is None and not all(map(is_plain, new)):
            return False
        self._seen |= new
        return True


def _row_at(text: str, at: int) -> re.Match[str] | None:
    return _LABELLED_ROW.match(text, at) or _ROW.match(text, at)


_PATTERNS: dict[str, Callable[[str, int], re.Match[str] | None]] = {
    PLAIN_OBJECTIVE: _OBJECTIVE.match,
    PLAIN_ROW: _row_at,
    PLAIN_BOUND: _BOUND.match,
    PLAIN_NAMES: _NAMES.match,
}


_WORDS_OF_OTHERS = frozenset((*NOT_SUPPORTED, *OTHER_INFINITIES, *SECTIONS_OF_OTHERS))
_NAME_WITH_DIGIT = r"[A-DF-RT-Za-df-rt-z_][A-Za-z_]{0,99}(?:[0-9][A-Za-z0-9_]{0,99}|\[[0-9,]{1,50}\])"
_PLAIN_BY_LETTERS = re.compile(rf"(?:{_NAME_WITH_DIGIT}(?: {_NAME_WITH_DIGIT})*)?")
"""Names that are plain for sure: most have a digit, which no word that means something has but sos1 and sos2."""


_PARENTHESES = str.maketrans("[]", "()")


def is_plain(name: str) -> bool:
    """Whether a name is legal, with parentheses for brackets, and is no name that may be something else."""
    if not is_lp_name(name.translate(_PARENTHESES)) or name.lower() in _WORDS_OF_OTHERS:
        return False
    return name[-1] != "," and ("(" not in name and ")" not in name or name.count("(") == name.count(")"))


# ---- what is in a statement


def names_in(statement: str) -> list[str]:
    """The names of a statement, in their order."""
    return [name for name in _WORD.findall(statement) if name]


def names_of_bound(statement: str) -> list[str]:
    """The name of the column that a statement is a bound of."""
    return [name for name in _WORD_OF_BOUND.findall(statement) if name and name.lower() not in _WORDS_OF_BOUNDS]


class Parts(NamedTuple):
    """A statement: its label, which may be empty, and what comes after it."""

    label: str
    body: str


def parts_of(statement: str) -> Parts:
    label, colon, body = statement.partition(":")
    return new_token(Parts, (label.rstrip(" \t"), body) if colon else ("", statement))


ItemText = tuple[str, str, str, str]
"""An item: its sign, its number, its star and its name, of which some are empty."""


class Sum(NamedTuple):
    """What is in a row or an objective: its items, the columns of its terms, how many numbers without a column, and
    whether it has products.
    """

    items: list[ItemText]
    names: list[str]
    constants: int
    has_products: bool

    @property
    def is_again(self) -> bool:
        """Whether a column comes twice."""
        return len(set(self.names)) < len(self.names)


def sum_of(body: str) -> Sum:
    items = _ITEM.findall(body)
    names = [item[3] for item in items if item[3]]
    return new_token(Sum, (items, names, len(items) - len(names), "*" in body))


class Sides(NamedTuple):
    """A row with one relation, without its label: its sides, the columns there, and whether it has products."""

    left: list[ItemText]
    relation: str
    right: list[ItemText]
    names_on_the_left: list[str]
    names_on_the_right: list[str]
    has_products: bool


def sides_of(body: str) -> Sides | None:
    """The sides of a row without its label; None if it is between two numbers."""
    parts = _RELATIONS.split(body)
    if len(parts) > 3:
        return None
    left, right = _ITEM.findall(parts[0]), _ITEM.findall(parts[2])
    names, names_on_the_right = [item[3] for item in left if item[3]], [item[3] for item in right if item[3]]
    return new_token(Sides, (left, parts[1], right, names, names_on_the_right, "*" in body))


def with_names(text: str, written: Callable[[str], str]) -> str:
    """A text with other names for those that have brackets."""
    return _NAME_WITH_BRACKETS.sub(lambda found: written(found[0]), text)


def with_one_equals_sign(text: str) -> str:
    """A row with = for ==, which is no part of what comes after it."""
    return _TWO_EQUALS_SIGNS.sub(lambda found: f"= {found[1]}" if found[1] else "=", text)


_NAME_WITH_BRACKETS = re.compile(rf"{_NAME}(?:{_INDEX})+")
_TWO_EQUALS_SIGNS = re.compile(r"==([+-]?)")


def row_of(statement: Token, body: str) -> Row:
    """A row without its label."""
    parts = _RELATIONS.split(body)
    sides = [[*_items(side, statement)] for side in parts[::2]]
    relations = [_word("relation", relation, statement) for relation in parts[1::2]]
    return Row(statement, statement, None, sides, relations)


def bound_line_of(statement: Token) -> BoundLine:
    """A bound as the reader makes one of its tokens."""
    name = _word("word", names_of_bound(statement.text)[0], statement)
    parts = _RELATIONS.split(statement.text)
    if len(parts) == 1:
        return BoundLine(statement, statement, name, [Item([name], 0, 1, [], name)], [])
    relations = [_word("relation", relation, statement) for relation in parts[1::2]]
    return BoundLine(statement, statement, name, [_bound_side(side, name, statement) for side in parts[::2]], relations)


def _bound_side(text: str, name: Token, statement: Token) -> Item:
    text = text.strip(" \t")
    if text == name.text:
        return Item([name], 0, 1, [], name)
    number = _word("number", text.lstrip("+- \t"), statement)
    signs = int(text[0] in "+-")
    return Item([number], signs, -1 if text[0] == "-" else 1, [number], None, number.text[0] in "iI")


def _items(text: str, statement: Token) -> Iterator[Item]:
    for sign, number, star, name in _ITEM.findall(text):
        yield Item(
            [],
            int(sign != ""),
            -1 if sign == "-" else 1,
            [_word("number", number, statement)] if number else [],
            _word("word", name, statement) if name else None,
            False,
            star != "",
        )


def _word(kind: str, text: str, statement: Token) -> Token:
    return new_token(Token, (kind, text, statement.start, statement.end, statement.line))
