"""The lines of LP that may have the mistake of an error, and rules that look at one line.

A row ends where the next one starts, so that the mistake is often in the line before the one with the error.
"""

from __future__ import annotations

import re
from collections.abc import Callable, Iterator, Sequence
from functools import wraps

from mpslp._messages._case import Case, Found
from mpslp._messages._excerpt import Mark
from mpslp._messages._tokens import Token
from mpslp._text._lines import line_at
from mpslp._text._lp_words import FREE, INFINITIES, ROWS, SENSES

LineRule = Callable[[Case, Sequence[Token]], Found | None]
"""Returns what it has found in the tokens of a line."""
Rule = Callable[[Case], Found | None]

_MOST_LOOKED_AT = 2**18
"""Whether a word is a column is looked up in so many bytes around the error."""
_RIGHT_OF_RELATION = re.compile(rb"[<>=][ \t]*[+-]?[ \t]*[\d.][\w.]*[ \t]*$")
_WORD = rb"(?<![\w.])%b(?![\w.])"


def on_lines(rule: LineRule) -> Rule:
    """The rule for a case: that of a line, for each line that may have the mistake."""

    @wraps(rule)
    def of_case(case: Case) -> Found | None:
        return next((found for line in suspects(case) if (found := rule(case, line)) is not None), None)

    return of_case


def suspects(case: Case) -> Iterator[list[Token]]:
    """The tokens of the line of the error; before them those of the line before, if the error is at the start of its
    line. A long line is none.
    """
    if case.is_long_line:
        return
    first = next((at for at, each in enumerate(case.tokens) if each.line == case.line.number), len(case.tokens))
    token = case.token
    is_at_start = token is None or case.token_at == first or (token.text == ":" and case.token_at == first + 1)
    if is_at_start and first:
        number = case.tokens[first - 1].line
        start = next(at for at in range(first - 1, -1, -1) if at == 0 or case.tokens[at - 1].line < number)
        yield case.tokens[start:first]
    if first < len(case.tokens):
        yield case.tokens[first:]


def text_of(case: Case, line: Sequence[Token]) -> str:
    """The line of some tokens as it is written."""
    return line_at(case.content, line[0].line).content.decode("latin-1")


def mark_of_text(case: Case, line: Sequence[Token], start: int, end: int) -> Mark:
    """The mark of a part of the line of some tokens."""
    found = line_at(case.content, line[0].line)
    return Mark(found.number, found.content, start, end)


def shown(case: Case, tokens: Sequence[Token], detail: str = "", mend: str = "") -> Found:
    """What is found, with its tokens marked instead of the place of the error."""
    return Found(detail, mend, marks=(case.mark_of_tokens(tokens),), moves=True)


def read_otherwise(case: Case, tokens: Sequence[Token], detail: str = "", mend: str = "") -> Found:
    """The same for what ``adapt`` takes for a column, as ``_000`` in 1_000."""
    return shown(case, tokens, detail, mend)._replace(means_other=True)


def without_label(line: Sequence[Token]) -> Sequence[Token]:
    return line[2:] if len(line) > 1 and line[1].text == ":" else line


def joined(tokens: Sequence[Token]) -> str:
    return " ".join(each.text for each in tokens)


def is_glued(first: Token, second: Token) -> bool:
    """Whether nothing is between two tokens."""
    return (first.line, first.end) == (second.line, second.start)


def is_word(token: Token) -> bool:
    """Whether a token may be a column."""
    return token.is_name and not token.is_section and token.word not in (*SENSES, *INFINITIES, FREE)


def is_column(case: Case, name: str) -> bool:
    """Whether a name is elsewhere in the text, other than after a number on the right."""
    start = max(0, case.line.start - _MOST_LOOKED_AT // 2)
    content = case.content[start : start + _MOST_LOOKED_AT]
    for match in re.finditer(_WORD % re.escape(name.encode("latin-1")), content):
        first = content.rfind(b"\n", 0, match.start()) + 1
        if not _RIGHT_OF_RELATION.search(content[first : match.start()]):
            return True
    return False


def lp_section(case: Case) -> str:
    """The section of the token with the error: bounds, rows, a list, or nothing for the objective."""
    return _section_at(case, case.token_at)


def section_of(case: Case, line: Sequence[Token]) -> str:
    """The section of a line, as that of the error."""
    return _section_at(case, case.tokens.index(line[0]))


def _section_at(case: Case, at: int) -> str:
    """The section of a token; that of the rows, if a long section opens before the tokens."""
    return next((section for place, section in reversed(case.openings) if place < at), ROWS)
