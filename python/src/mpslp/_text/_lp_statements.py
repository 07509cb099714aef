"""The objective, rows, bounds and listed names of an LP file, by their tokens, with the lines and comments of these.

The file has been accepted, so nothing of it is tested here. What needs no lines reads LpTokens, which is faster.
"""

from __future__ import annotations

import re
from collections.abc import Iterable, Iterator, Sequence
from itertools import chain
from typing import NamedTuple

from mpslp._text._lp_tokens import OTHERS, WORD
from mpslp._text._lp_words import BOUNDS, END, FREE, LISTS, OBJECTIVE, OPENINGS, ROWS, ROWS_IN_TWO_WORDS, VALUES

KEYWORD, VALUE = "keyword", "value"
"""The sorts of the words that open a section, and of ``inf`` and ``free``; the others are the groups of TOKEN."""
_SORTS = {**dict.fromkeys(OPENINGS, KEYWORD), **dict.fromkeys(VALUES, VALUE)}


class Comment(NamedTuple):
    """A comment on a line of its own."""

    line: int
    text: str
    is_after_empty_line: bool


class Around(NamedTuple):
    """What is around a token: comments on the lines before it, an empty line after these, a comment after it."""

    before: tuple[Comment, ...] = ()
    is_after_empty_line: bool = False
    after: str = ""


class Token(NamedTuple):
    """A token, and whether no space is before it on its line."""

    sort: str
    text: str
    line: int
    is_joined: bool = False
    around: Around | None = None


Tokens = Sequence[Token]
_make = tuple.__new__
"""It makes a token in half the time."""


_PIECE = re.compile(rf"{WORD}|{OTHERS}|(?P<line>\n)", re.ASCII)
"""A token or the end of a line in the group of its sort, or a comment in none."""


class LpLines:
    """The tokens of each line that has some, up to the word end."""

    def __init__(self, text: str) -> None:
        self.rest = ""
        """What comes after the word ``end``. It is known after all lines, as is the number of its line."""
        self.end = 0
        self._text = text

    def __iter__(self) -> Iterator[list[Token]]:
        tokens: list[Token] = []
        before: list[Comment] = []
        number = done = 1
        end = -1
        for match in _PIECE.finditer(self._text):
            sort, text, around = match.lastgroup, match[0], None
            if sort == "line":
                if tokens:
                    yield tokens
                    tokens = []
                number, end = number + 1, -1
                continue
            if not tokens:
                is_after_empty_line, done = number - done > 1, number
                if sort is None:
                    before.append(Comment(number, text.rstrip("\r"), is_after_empty_line))
                    continue
                if before or is_after_empty_line:
                    around = Around(tuple(before), is_after_empty_line)
                    before = []
            elif sort is None:
                tokens[-1] = _with_comment(tokens[-1], text.rstrip("\r"))
                continue
            if sort == "word":
                sort = _SORTS.get(text.lower(), sort)
            end_before, start = end, match.start()
            end = start + len(text)
            tokens.append(_make(Token, (sort, text, number, start == end_before, around)))
            if sort == KEYWORD and text.lower() == END:
                yield tokens
                self.rest, self.end = self._text[end:], number
                return
        raise AssertionError("the text is accepted")


def _with_comment(token: Token, comment: str) -> Token:
    return token._replace(around=(token.around or Around())._replace(after=comment))


class Statement(NamedTuple):
    """The words that open a section, or a part of a section: the objective, a row, a bound or a name."""

    section: str
    keyword: Tokens = ()
    label: Tokens = ()
    """A name and its colon."""
    first: Tokens = ()
    """A side, with its sign, and the relation after it."""
    terms: Sequence[Tokens] = ()
    """Signs, a number and a name, of which some may be missing."""
    last: Tokens = ()
    """A relation and the side after it, or the word ``free``."""

    @property
    def is_name(self) -> bool:
        """Whether it is a name in a list, without comments."""
        return self.section in LISTS and not self.keyword and self.terms[0][0].around is None

    @property
    def start(self) -> Token:
        return (self.keyword or self.label or self.first or self.terms[0])[0]


_NONE = Token("", "", 0)
_AFTER_TERMS = (KEYWORD, "relation", _NONE.sort)


class LpStatements:
    """The statements of a text, by the tokens of its lines."""

    def __init__(self, lines: Iterable[Sequence[Token]]) -> None:
        self._tokens = chain.from_iterable(lines)
        self._now, self._next, self._third = (next(self._tokens, _NONE) for _ in range(3))

    def __iter__(self) -> Iterator[Statement]:
        section = ""
        while self._now is not _NONE:
            if self._now.sort == KEYWORD:
                section = OPENINGS[self._now.text.lower()]
                yield Statement(section, keyword=self._keyword())
            elif section in LISTS:
                yield _make(Statement, (section, (), (), (), [[self._take()]], ()))
            else:
                yield self._part(section)

    def _take(self) -> Token:
        token = self._now
        self._now, self._next, self._third = self._next, self._third, next(self._tokens, _NONE)
        return token

    def _keyword(self) -> list[Token]:
        """The words that open a section; the second ones are names elsewhere."""
        word = self._now.text.lower()
        if word == "semi" and self._next.sort == "sign":
            return [self._take(), self._take(), self._take()]
        return [self._take(), self._take()] if word in ROWS_IN_TWO_WORDS else [self._take()]

    def _part(self, section: str) -> Statement:
        label = [self._take(), self._take()] if self._next.sort == "colon" else ()
        first = [*self._side(), self._take()] if self._is_at_side() else ()
        terms = self._terms() if section in (OBJECTIVE, ROWS) else [[self._take()]]
        last: Tokens = ()
        if self._now.sort == "relation":
            last = [self._take(), *self._side()]
        elif section == BOUNDS and not first and self._now.text.lower() == FREE:
            last = [self._take()]
        return Statement(section, label=label, first=first, terms=terms, last=last)

    def _is_at_side(self) -> bool:
        """Whether a value comes before a relation."""
        value, after = (self._next, self._third) if self._now.sort == "sign" else (self._now, self._next)
        return after.sort == "relation" and value.sort in ("number", VALUE)

    def _side(self) -> list[Token]:
        return [self._take(), self._take()] if self._now.sort == "sign" else [self._take()]

    def _terms(self) -> list[list[Token]]:
        """The terms of a row, or those of the objective and its constant."""
        terms: list[list[Token]] = []
        term: list[Token] = []
        before = ""
        following = chain((self._now, self._next, self._third), self._tokens)
        for token in following:
            sort = token.sort
            if sort in _AFTER_TERMS:
                break
            if before == "word" or (sort == "sign" and before == "number"):
                terms.append(term)
                term = []
            term.append(token)
            before = sort
        self._now, self._next, self._third = token, next(following, _NONE), next(following, _NONE)
        return [*terms, term] if term else terms
