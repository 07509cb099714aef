"""LP: a row, a bound or a name a line; comments, labels, signs and the order of everything as they were written."""

from __future__ import annotations

from collections.abc import Sequence

from mpslp._format._numbers import plain
from mpslp._text._lines import LONGEST_LINE
from mpslp._text._lp_statements import KEYWORD, VALUE, Around, Comment, LpLines, LpStatements, Statement, Token, Tokens
from mpslp._text._lp_words import BOUNDS, ROWS, ROWS_IN_TWO_WORDS, SEMIS, SPELLINGS

WIDTH = 100
"""Rows are broken between terms before they are longer than this."""
_LONGEST_COMMENT = LONGEST_LINE - 1000
"""A longer comment gets a line of its own: after a token it could make a line that is too long, and is rejected."""

_LONGEST_TERM = 700
"""A term is broken only if it is longer: it has very many signs, and might be longer than a line may be."""

_CONTINUED = " " * 4
_IN_LOWER_CASE = frozenset(SPELLINGS[ROWS]) - ROWS_IN_TWO_WORDS.keys()

Piece = tuple[Token, str]
"""A token, and how it is written, with the space before it."""
Chunk = list[Piece]
"""Pieces that are on one line, unless a comment is between them."""


def formatted_lp(content: bytes) -> bytes:
    """An LP text that is accepted, formatted. What follows the line of the word end stays as it is."""
    tokens, lines = LpLines(content.decode("latin-1")), _Lines()
    for statement in LpStatements(tokens):
        lines.add(statement)
    end, _, following = tokens.rest.partition("\n")
    _, mark, comment = end.partition("\\")
    comment = (mark + comment).rstrip("\r")
    if len(comment) > _LONGEST_COMMENT:
        following = f"{comment}\n{following}"
    elif comment:
        lines.all[-1] += f" {comment}"
    return "\n".join([*lines.all, following]).encode("latin-1")


def _chunks(statement: Statement) -> Sequence[Chunk]:
    section, keyword, label, first, terms, last = statement
    if keyword:
        return [_opening(section, keyword)]
    before = [*_joined(first[:-1]), *_spaced(first[-1:])]
    after = [*_spaced(last[:1]), *_joined(last[1:])]
    if section == BOUNDS:
        return [[*before, *_spaced(terms[0]), *after]]
    return [chunk for chunk in (_joined(label), before, *map(_spaced, terms), after) if chunk]


def _opening(section: str, keyword: Tokens) -> Chunk:
    """The words that open a section; the second ones are names elsewhere."""
    first, *others = keyword
    space = "" if section == SEMIS else " "
    return [*_spaced([first]), *((token, space + token.text.capitalize()) for token in others)]


def _spaced(tokens: Tokens) -> Chunk:
    return [(token, f" {_written(token)}") for token in tokens]


def _joined(tokens: Tokens) -> Chunk:
    """Tokens with a space before the first one only."""
    return [(token, _written(token) if place else f" {_written(token)}") for place, token in enumerate(tokens)]


def _written(token: Token) -> str:
    text = token.text
    if token.sort == "number":
        return plain(text)
    if token.sort == VALUE:
        return text.lower()
    if token.sort == KEYWORD:
        return text.lower() if text.lower() in _IN_LOWER_CASE else text.capitalize()
    return text


class _Lines:
    """The lines of a text, and the one that is being written."""

    def __init__(self) -> None:
        self.all: list[str] = []
        self._line: list[str] = []
        """The parts of the line that is being written; a text that each part is added to would be copied each time."""
        self._length = 0
        self._start = ""
        """What the next line of the statement starts with."""
        self._long_comments: list[Comment] = []
        """Those after the last token that are too long for its line."""

    def add(self, statement: Statement) -> None:
        if statement.is_name and not self._long_comments:
            self.all.append(f" {statement.start.text}")  # a file may list very many
            return
        if statement.keyword:
            self._skip()
        self._start = "" if statement.keyword else " "
        for chunk in _chunks(statement):
            if self._line and self._length + sum([len(text) for _, text in chunk]) > WIDTH:
                self._end()
            for token, text in chunk:
                if self._length > _LONGEST_TERM and text.startswith(" "):
                    self._end()
                if token.around or self._long_comments:
                    self._add_lines_before(token)
                self._write(text if self._line else self._start + text.removeprefix(" "))
                self._start = _CONTINUED
                if token.around and token.around.after:
                    self._add_comment_after(token.line, token.around.after)
        self._end()

    def _write(self, text: str) -> None:
        self._line.append(text)
        self._length += len(text)

    def _add_lines_before(self, token: Token) -> None:
        """Writes the comments before a token; empty lines between them and before it stay only at the beginning of a
        statement.
        """
        around = token.around or Around()
        for comment in (*self._long_comments, *around.before):
            self._end()
            if comment.is_after_empty_line and self._start != _CONTINUED:
                self._skip()
            self.all.append(comment.text if len(comment.text) > _LONGEST_COMMENT else self._start + comment.text)
        self._long_comments.clear()
        if around.is_after_empty_line and self._start != _CONTINUED:
            self._skip()

    def _add_comment_after(self, line: int, comment: str) -> None:
        if len(comment) > _LONGEST_COMMENT:
            self._long_comments.append(Comment(line, comment, False))
        else:
            self._write(f" {comment}")
            self._end()

    def _end(self) -> None:
        if self._line:
            self.all.append("".join(self._line))
            self._line, self._length = [], 0

    def _skip(self) -> None:
        """Writes an empty line, unless there is one or nothing is written."""
        if self.all and self.all[-1]:
            self.all.append("")
