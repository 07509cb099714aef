"""Places of tokens in LP text, and edits at them."""

from __future__ import annotations

import re
from collections.abc import Sequence
from itertools import islice

from mpslp._messages._case import Case
from mpslp._messages._excerpt import Mark
from mpslp._messages._lp_trials import Edit
from mpslp._messages._tokens import Token
from mpslp._text._lines import line_at

_MOST_BACK = 6
_MOST_LOOKED_AT = 2**18
_MOST_SHOWN = 30
"""A statement of more words is not written again."""


def start_of(case: Case, number: int) -> int:
    """The place of a line that is not far before the one with the error."""
    place = case.line.start
    for _ in range(case.line.number - number):
        place = case.content.rfind(b"\n", 0, max(place - 1, 0)) + 1
    return place


def span(case: Case, first: Token, last: Token) -> tuple[int, int]:
    """The places of the start and the end of tokens in the text."""
    return start_of(case, first.line) + first.start, start_of(case, last.line) + last.end


def instead_of(case: Case, tokens: Sequence[Token], new: str = "") -> Edit:
    """What writes a text instead of tokens, or leaves them out."""
    return Edit(*span(case, tokens[0], tokens[-1]), new.encode("latin-1"))


def near(case: Case) -> list[Token]:
    """The token with the error, the one after it, and some before it."""
    return case.tokens[max(0, case.token_at - _MOST_BACK) : case.token_at + 2]


def is_used(case: Case, name: str, times: int = 1) -> bool:
    """Whether a name is in the text more often than so many times."""
    word = re.compile(rb"(?<![\w.])" + re.escape(name.encode("latin-1")) + rb"(?![\w.])")
    start = max(0, case.line.start - _MOST_LOOKED_AT // 2)
    return next(islice(word.finditer(case.content, start, start + _MOST_LOOKED_AT), times, None), None) is not None


def is_term(case: Case, name: str) -> bool:
    """Whether a name is in the text more than once, other than as a label."""
    word = re.compile(rb"(?<![\w.])" + re.escape(name.encode("latin-1")) + rb"(?![\w.])(?![ \t]*:)")
    start = max(0, case.line.start - _MOST_LOOKED_AT // 2)
    return next(islice(word.finditer(case.content, start, start + _MOST_LOOKED_AT), 1, None), None) is not None


def mark_of(case: Case, token: Token) -> Mark:
    line = line_at(case.content, token.line)
    return Mark(line.number, line.content, token.start, token.end)


def line_without(case: Case, tokens: Sequence[Token], new: str = "") -> str:
    """The line of tokens without them, or with another text instead; empty if it is long."""
    content = line_at(case.content, tokens[0].line).content.decode("latin-1")
    words = (content[: tokens[0].start] + new + content[tokens[-1].end :]).split()
    return " ".join(words) if len(words) <= _MOST_SHOWN else ""
