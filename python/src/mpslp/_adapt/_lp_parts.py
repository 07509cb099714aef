"""What an LP file is read as."""

from __future__ import annotations

from collections.abc import Sequence
from dataclasses import dataclass, field
from typing import NamedTuple

from mpslp._adapt._lp_tokens import Token

FLIPPED = {"<": ">", ">": "<", "=": "="}
"""A relation as it is with its sides exchanged."""


@dataclass
class Item:
    """A term or a constant: its sign, its number, its name; and the tokens that it has."""

    tokens: list[Token]
    signs: int
    sign: int
    numbers: list[Token] = field(default_factory=list)
    name: Token | None = None
    is_infinite: bool = False
    has_star: bool = False


@dataclass
class Objective:
    """The objective as it is read."""

    first: Token
    last: Token
    label: Token | None
    items: list[Item]

    @property
    def is_empty(self) -> bool:
        """Whether it has no token: then the last one is the one before it."""
        return self.last.start < self.first.start


@dataclass
class Row:
    """A row as it is read: what is on each side of its relations."""

    first: Token
    last: Token
    label: Token | None
    sides: list[list[Item]]
    relations: list[Token]


@dataclass
class BoundLine:
    """A statement of Bounds as it is read: a column and up to two numbers, or that it is free."""

    first: Token
    last: Token
    name: Token
    sides: list[Item]
    relations: list[Token]


@dataclass
class Bound:
    """What the bounds of a column are given by: its lower and its upper side, or that it is free."""

    lower: str | None
    upper: str | None
    first: Token
    last: Token

    @property
    def is_free(self) -> bool:
        return self.lower == self.upper == "free"


class Section(NamedTuple):
    """A section: its name, the first and the last word of its header, and how many it has."""

    name: str
    first: Token
    last: Token
    words: int


def has_terms(items: Sequence[Item]) -> bool:
    return any(item.name is not None for item in items)


def starts_with_side(item: Item) -> bool:
    """Whether an item is, or starts with, a number that mpslp reads as a side."""
    return bool(item.numbers) and item.signs <= 1 and not item.has_star


def negated(item: Item) -> Item:
    return Item(item.tokens, 1, -item.sign, item.numbers, item.name, item.is_infinite)


def sense_of(token: Token) -> str:
    if token.text in ("=", "=="):
        return "="
    return "<" if "<" in token.text or token.text.endswith("\xa4") else ">"


def spelled(sense: str) -> str:
    return sense if sense == "=" else f"{sense}="
