"""The tokens of an LP file, with their places and lines; more words are names than for mpslp."""

from __future__ import annotations

import re
from bisect import bisect_left
from typing import TYPE_CHECKING, NamedTuple

from mpslp._adapt._changes import AdaptError
from mpslp._adapt._names import reason_against

if TYPE_CHECKING:
    from mpslp._adapt._lp_plain import PlainStatements

_ASCII = r"A-Za-z!\"#$%&()/,;?@_'`{}|~"
_OTHER = r"(?!\xe2\x89[\xa4\xa5]|\xe2\x88\x92)[\x80-\xff]"
_INDEX = r"\[[^\[\]\s^*<>=]*\]"
_NUMBER = r"(?:[0-9]+(?:\.[0-9]*)?|\.[0-9]+)(?:[eE][+-]?[0-9]+)?"
_RELATION = r"<=|=<|<|>=|=>|>|==|=|\xe2\x89[\xa4\xa5]"
_SPACE = r"(?P<space>[ \t\r\n]+)"
_COMMON = rf"(?P<comment>\\[^\n]*)|(?P<relation>{_RELATION})|(?P<other>::|->)|(?P<minus>\xe2\x88\x92)"
# What comes most often is first.
_FREE = re.compile(
    rf"{_SPACE}|(?P<number>{_NUMBER})"
    rf"|(?P<word>\.?(?:[{_ASCII}]|{_OTHER})(?:[{_ASCII}0-9.]+|{_OTHER}|{_INDEX})*)|{_COMMON}"
    r"|(?P<sign>[+-])|(?P<colon>:)|(?P<star>\*)|(?P<bad>.)",
    re.ASCII,  # the bytes of letters such as à are no spaces
)
# Fractions are numbers for QSopt_ex.
_FRACTIONS = re.compile(_FREE.pattern.replace("(?P<number>", "(?P<number>[0-9]+/[0-9]+(?![0-9.])|"), re.ASCII)
# PuLP puts spaces around each token, and has nearly every byte in its names; a label ends with a colon.
_SPACED = re.compile(
    rf"{_SPACE}|(?:{_COMMON})(?=\s|\Z)|(?P<sign>[+-](?=(?:{_NUMBER}|inf)?(?:\s|\Z)))|(?P<number>{_NUMBER})(?=\s|\Z)"
    r"|(?P<word>[^\s:]+(?::[^\s:]+)*)|(?P<colon>:)|(?P<star>\*)|(?P<other_space>[^\S \t\r\n]+)|(?P<bad>.)",
    re.ASCII,
)
_LINE_END = re.compile(r"[ \t\r]*(?:[\\\n]|\Z)")


PLAIN_OBJECTIVE, PLAIN_ROW, PLAIN_BOUND, PLAIN_NAMES = "plain objective", "plain row", "plain bound", "plain names"
"""The kinds of tokens that are whole statements."""


class Token(NamedTuple):
    kind: str
    text: str
    start: int
    end: int
    line: int


new_token = tuple.__new__
"""Makes a token in half of the time that the class needs: a file has many."""


class Tokens:
    """The tokens of a text in latin-1; the last one is the end of the file. Plain statements, if they are taken, are a
    token each.
    """

    def __init__(self, text: str, dialect: str | None, plain: PlainStatements | None = None) -> None:
        self.text = text
        self.comments: list[Token] = []
        self.all: list[Token] = []
        self._dialect = dialect
        self._plain = plain
        if plain is None:
            line = self._read(0, len(text), 1)
        else:
            line = self._read_lines(plain)
        self.all.append(Token("end", "", len(text), len(text), line))
        self._places_of_comments = [each.start for each in self.comments]

    def _read_lines(self, plain: PlainStatements) -> int:
        """Reads a text line by line, and returns the number of its last line."""
        text, at, line = self.text, 0, 1
        while at < len(text):
            statement = plain.take(at, line)
            if statement is not None:
                self.all.append(statement)
                line += statement.text.count("\n")
                end = text.find("\n", statement.end) + 1
                if text.find("\\", statement.end, end) >= 0:
                    self._read(statement.end, end, line)  # a comment
                at, line = end, line + 1
                continue
            end = text.find("\n", at) + 1 or len(text)
            plain.pass_line(at, end)
            self._read(at, end, line)
            if self._is_at_end():
                break
            line += 1
            at = end
        return line

    def _is_at_end(self) -> bool:
        last = self.all[-1] if self.all else None
        return last is not None and last.kind == "word" and last.text.lower() == "end" and self._ends_file(last)

    def _read(self, start: int, end: int, line: int) -> int:
        """Reads a part of a text up to its end, or the word end, and returns the number of the line that comes next."""
        pattern = {"pulp": _SPACED, "qsopt": _FRACTIONS}.get(self._dialect or "", _FREE)
        for found in pattern.finditer(self.text, start, end):
            kind = found.lastgroup or ""
            if kind == "space":
                line += found[0].count("\n")
                continue
            if kind == "other_space":
                continue
            token = new_token(Token, ("sign" if kind == "minus" else kind, found[0], found.start(), found.end(), line))
            (self.comments if kind == "comment" else self.all).append(token)
            if kind == "word" and token.text.lower() == "end" and self._ends_file(token):
                break  # whatever comes after it is ignored
        return line

    @property
    def words(self) -> set[str]:
        """All words, of which some are names."""
        words = {each.text for each in self.all if each.kind == "word"}
        return words if self._plain is None else words | self._plain.names

    def space_before(self, at: int) -> str:
        """The spaces, line ends and comments before a token."""
        return self.text[self.all[at - 1].end if at else 0 : self.all[at].start]

    def before(self, token: Token) -> Token:
        return self.all[self._place_of(token) - 1]

    def after(self, token: Token) -> Token:
        return self.all[self._place_of(token) + 1]

    def three_after(self, token: Token) -> tuple[Token, Token, Token]:
        """The tokens after one, of which the last may be the end of the file several times."""
        first = self._place_of(token) + 1
        found = [self.all[min(first + more, len(self.all) - 1)] for more in range(3)]
        return found[0], found[1], found[2]

    def _place_of(self, token: Token) -> int:
        return bisect_left(self.all, token.start, key=lambda each: each.start)

    def _ends_file(self, token: Token) -> bool:
        """Whether the word end is the last one of the file: on its line, and for PuLP the only one; after a sign or a
        relation it is a name.
        """
        before = self.all[-2] if len(self.all) > 1 else None
        if before is not None and (
            before.kind in ("sign", "relation") or (self._dialect == "pulp" and before.line == token.line)
        ):
            return False
        return self.is_last_of_line(token)

    def is_last_of_line(self, token: Token) -> bool:
        """Whether nothing but a comment comes after a token on its line."""
        return _LINE_END.match(self.text, token.end) is not None

    def comments_in(self, start: int, end: int) -> list[str]:
        first = bisect_left(self._places_of_comments, start)
        last = bisect_left(self._places_of_comments, end)
        return [each.text.rstrip("\r") for each in self.comments[first:last]]


def quadratic(token: Token) -> AdaptError:
    return AdaptError(token.line, "a quadratic term: mpslp has linear ones; remove it, or linearise it")


def punctuation_after(number: Token, word: Token) -> AdaptError | None:
    """The error of a number with a comma or a semicolon after it, which is no column that the number is the coefficient
    of; or None.
    """
    if number.kind != "number" or word.kind != "word" or word.text[0] not in ",;":
        return None
    is_joined = number.end == word.start
    if is_joined and re.match(r",[0-9]", word.text):
        return AdaptError(number.line, f"a comma in a number: write a decimal point: {number.text}{word.text}")
    if is_joined or word.text in (",", ";"):
        return AdaptError(
            number.line, f"after the number is a {word.text[0]}, which is a letter of names in LP: remove it"
        )
    return None


def look_alike(word: Token) -> AdaptError | None:
    """The error of a word with a sign that looks like a space, a minus, an operator or a power; or None."""
    reason = reason_against(word.text)
    return None if reason is None else AdaptError(word.line, reason)


def no_column(word: Token) -> AdaptError | None:
    """The error of a name without a letter, such as (10) or %, which nobody means as a column; or None."""
    if re.fullmatch(r"[0-9(),;.%$'\"!?]+", word.text) is None:
        return None
    return AdaptError(word.line, f"{word.text} is a name in LP: write the number without marks")


def other_comment(word: Token) -> AdaptError | None:
    """The error of a word that starts a comment of another language; or None."""
    if word.kind == "word" and (word.text.startswith(("//", "/*")) or word.text in ("#", "%")):
        return AdaptError(word.line, f"a comment starts with \\ in LP, not with {word.text[:2]}")
    return None
