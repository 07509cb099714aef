"""The rows of LP text up to an error, with the names that they have by their labels or their positions."""

from __future__ import annotations

from collections.abc import Iterator
from typing import NamedTuple

from mpslp._messages._tokens import Token, tokens_of
from mpslp._text._lp_words import INFINITIES, ROWS, ROWS_IN_TWO_WORDS, SECTIONS, SENSES

_MOST_READ = 2**19


class Row(NamedTuple):
    """A row: its name, its position, from 1, and the place of its label or, if it has none, of its first token."""

    name: str
    position: int
    has_label: bool
    start: int
    end: int


def first_duplicate(content: bytes, end: int) -> tuple[Row, Row] | None:
    """The first row of a text up to a place whose name an earlier row or the objective has, after that one."""
    if end > _MOST_READ:
        return None
    seen: dict[str, Row] = {}
    for row in named_rows(content, end):
        if row.name in seen:
            return seen[row.name], row
        seen[row.name] = row
    return None


def named_rows(content: bytes, end: int) -> Iterator[Row]:
    """The objective, with the position 0, and the rows of a text up to a place."""
    scanner = _Scanner(content, end)
    yield scanner.objective()
    yield from scanner.rows()


class _Scanner:
    """Reads rows one after another. What is before the error is in order, so little is checked."""

    def __init__(self, content: bytes, end: int) -> None:
        self._starts = _starts_of_lines(content, end)
        self._tokens = tokens_of(content, 1, 0, end)
        self._at = 0

    @property
    def _token(self) -> Token | None:
        return self._tokens[self._at] if self._at < len(self._tokens) else None

    def _row(self, name: str, position: int, has_label: bool, token: Token) -> Row:
        start = self._starts[token.line - 1]
        return Row(name, position, has_label, start + token.start, start + token.end)

    def _is_label(self) -> bool:
        return self._at + 1 < len(self._tokens) and self._tokens[self._at + 1].text == ":"

    def objective(self) -> Row:
        """The objective; after it the place is that of the first row."""
        first = self._tokens[0]
        row = self._row("obj", 0, False, first)
        while (token := self._token) is not None and SECTIONS.get(token.word) != ROWS:
            if self._at == 1 and token.is_name and self._is_label():
                row = self._row(token.text, 0, True, token)
            self._at += 1
        self._at += 2 if token is not None and token.word in ROWS_IN_TWO_WORDS else 1
        return row

    def rows(self) -> Iterator[Row]:
        position = 0
        while (token := self._token) is not None and not token.is_section and token.word not in SENSES:
            position += 1
            has_label = self._is_label()
            yield self._row(token.text if has_label else f"c{position}", position, has_label, token)
            self._at += 2 if has_label else 0
            self._skip_row()

    def _skip_row(self) -> None:
        """Goes to the token after the number on the right."""
        is_first = True
        while (token := self._token) is not None:
            self._at += 1
            if token.is_relation and not is_first and self._has_number():
                return
            is_first = is_first and (token.is_sign or token.is_number or token.word in INFINITIES)
            if token.is_relation:
                is_first = False

    def _has_number(self) -> bool:
        """Whether signs and a number come next; goes after them."""
        at = self._at
        while at < len(self._tokens) and self._tokens[at].is_sign:
            at += 1
        if at >= len(self._tokens) or not (self._tokens[at].is_number or self._tokens[at].word in INFINITIES):
            return False
        self._at = at + 1
        return True


def _starts_of_lines(content: bytes, end: int) -> list[int]:
    starts = [0]
    while (place := content.find(b"\n", starts[-1], end)) >= 0:
        starts.append(place + 1)
    return starts
