"""The tokens of LP text that is rejected."""

from __future__ import annotations

import re
from typing import NamedTuple

from mpslp._text._lp_words import SECTIONS

_NAME = r"[A-Za-z!\"#$%&()/,;?@_'`{}|~][\w!\"#$%&()/,.;?@'`{}|~]*"
_TOKEN = re.compile(rb"\\[^\n]*|(?:\d+(?:\.\d*)?|\.\d+)(?:[eE][+-]?\d+)?|" + _NAME.encode() + rb"|<=|=<|>=|=>|::|->|\S")
_BETWEEN = re.compile(rb"[\s<>=]|(?<![eE])[+-]")
NAME = re.compile(r"[A-Za-z!\"#$%&()/,;?@_'`{}|~]")
"""The start of a name or a reserved word."""
RELATIONS = frozenset(("<", ">", "=", "<=", "=<", ">=", "=>"))


class Token(NamedTuple):
    """A token, its line, from 1, and its place in that line."""

    text: str
    start: int
    end: int
    line: int = 1

    @property
    def word(self) -> str:
        return self.text.lower()

    @property
    def is_name(self) -> bool:
        """Whether it starts as a name does; reserved words do, too."""
        return NAME.match(self.text) is not None

    @property
    def is_number(self) -> bool:
        return self.text[0].isdigit() or (self.text[0] == "." and len(self.text) > 1)

    @property
    def is_relation(self) -> bool:
        return self.text in RELATIONS

    @property
    def is_sign(self) -> bool:
        return self.text in ("+", "-")

    @property
    def is_section(self) -> bool:
        return self.word in SECTIONS


def tokens_of(
    content: bytes, line: int = 1, start: int = 0, end: int | None = None, first: int | None = None
) -> list[Token]:
    """The tokens of a part of a text. Its first line has a number, and starts where the part does, or at another place.
    Comments have no tokens.
    """
    found: list[Token] = []
    first = start if first is None else first
    place = start
    for match in _TOKEN.finditer(content, start, len(content) if end is None else end):
        line += content.count(b"\n", place, match.start())
        if b"\n" in content[place : match.start()]:
            first = content.rindex(b"\n", place, match.start()) + 1
        place = match.start()
        if match[0][:1] != b"\\":
            found.append(Token(match[0].decode("latin-1"), match.start() - first, match.end() - first, line))
    return found


def place_between(line: bytes, start: int) -> int:
    """The first place from another one on at which no token goes on: at a sign, a relation or a space."""
    match = _BETWEEN.search(line, start)
    return len(line) if match is None else match.start()
