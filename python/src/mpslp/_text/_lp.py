"""The tokens of an LP file with their sections. The file has been accepted, so nothing of it is tested here."""

from __future__ import annotations

import re
from collections.abc import Iterator
from typing import NamedTuple

from mpslp._text._lp_tokens import OTHERS, TOKEN, WORD
from mpslp._text._lp_words import END, FURTHER_TOKENS, OBJECTIVE, OPENINGS, ROWS

TERM = re.compile(
    rf"(?:[+-] *)?(?:(?:\d{{1,15}}(?:\.\d{{0,15}})?|\.\d{{1,15}})(?![\d.]|[eE][+-]?\d) *)?{WORD}|{OTHERS}"
)
"""A word with the sign and the number before it, or another token; this is three times as fast.

The number is short, so it is not infinite, and is left out, be it a coefficient or the side of the row before.
"""
_WITH_TERMS = (OBJECTIVE, ROWS)


class Token(NamedTuple):
    """A token: the section that has it, its group in TOKEN, its text, and where it starts."""

    section: str
    sort: str
    text: str
    place: int


class LpTokens:
    """The tokens of a text up to the word end, other than those that open a section.

    In the objective and in rows, short numbers before words, and signs before these, are left out.
    """

    def __init__(self, text: str) -> None:
        self.end = len(text)
        """Where the text after the line of ``end`` starts; it is known after all tokens."""
        self._text = text

    def __iter__(self) -> Iterator[Token]:
        section, start = "", 0
        while section != END:
            keyword = None
            for token in (TERM if section in _WITH_TERMS else TOKEN).finditer(self._text, start):
                sort = token.lastgroup
                if sort is None:  # a comment
                    continue
                text = token[sort]
                if sort == "word" and text.lower() in OPENINGS:
                    keyword = token
                    break
                yield Token(section, sort, text, token.start(sort))
            if keyword is None:
                return
            word = keyword["word"].lower()
            section, start = OPENINGS[word], self._end_of_keyword(word, keyword.end())
        self.end = self._text.find("\n", start) + 1 or len(self._text)

    def _end_of_keyword(self, word: str, end: int) -> int:
        """Where a keyword ends whose first word ends at a place: there, unless its further tokens come next."""
        further = [*FURTHER_TOKENS.get(word, ())]
        for token in TOKEN.finditer(self._text, end) if further else ():
            if token.lastgroup is None:  # a comment
                continue
            if token[0].lower() != further.pop(0):
                return end
            if not further:
                return token.end()
        return end
