"""Where the rows of an LP file end, and the names after them.

The file has been accepted, so nothing of it is tested here.
"""

from __future__ import annotations

import re
import string
from bisect import bisect
from collections.abc import Iterator, Set
from functools import cached_property
from operator import itemgetter
from typing import NamedTuple

from mpslp._text._lp import LpTokens
from mpslp._text._lp_tokens import OTHERS, SYMBOLS, WORD
from mpslp._text._lp_words import BINARIES, BOUNDS, END, GENERALS, ROWS, SECTIONS, SEMIS, VALUES
from mpslp._warnings._records import shown

_TOKEN = re.compile(f"{WORD}|{OTHERS}".encode(), re.ASCII)
_NAME = re.compile(f"[A-Za-z{SYMBOLS}][A-Za-z0-9.{SYMBOLS}]*".encode())
_NUMBER = re.compile(f"(?<![A-Za-z0-9.{SYMBOLS}])(?:[0-9]+\\.?[0-9]*|\\.[0-9]+)(?:[eE][+-]?[0-9]+)?".encode())
_LABEL = re.compile(f"(?<![A-Za-z0-9.{SYMBOLS}])[A-Za-z{SYMBOLS}][A-Za-z0-9.{SYMBOLS}]*[ \t\r\n]*:".encode())
_COMMENT = re.compile(rb"\\[^\n]*")
_PARENTHESES = "()"
_LETTERS = f"A-Za-z0-9.{SYMBOLS}"
_INNER_LETTERS = _LETTERS.replace(_PARENTHESES, "")
_MOST_DIGITS = 8


def _after_number(sign: str, fewest: int) -> str:
    """A pattern for what comes before a sign that starts a name: a number with some digits at least, or with none at
    all.
    """
    return "|".join(f"(?<=[^{_LETTERS}][0-9.]{{{digits}}}{sign})" for digits in range(fewest, _MOST_DIGITS + 1))


ODD_PARENTHESIS = re.compile(
    rf"\((?:{_after_number(re.escape('('), 0)}|[{_INNER_LETTERS}]*[^){_INNER_LETTERS}])".encode()
)
"""A parenthesis that starts a name, or is not closed in it. It is searched for by its first byte, which is fast."""
DECIMAL_COMMA = re.compile(rf",(?:{_after_number(',', 1)})(?=[0-9])".encode())
"""A comma after a number and before a digit."""
_TITLES = {BOUNDS: "Bounds", GENERALS: "Generals", BINARIES: "Binaries", SEMIS: "the semi-continuous columns"}
"""What messages call the sections after the rows."""
_SECTIONS = {word.encode(): section for word, section in SECTIONS.items() if section != ROWS}
"""The words that open the sections after the rows, or end the file."""
_RESERVED = {*_SECTIONS, *(word.encode() for word in VALUES)}
"""The words after the rows that are no names. The one of ``semi-continuous`` is none only there."""
_NO_NAMES = {*_RESERVED, b"semi-continuous"}
"""Words between spaces that have no name."""
_CONTINUOUS = b"continuous"
_SECTION_ON_A_LINE = re.compile(
    rb"\n[ \t]*(?P<word>(?:[Bb][OoIi]|[Gg][Ee]|[Ii][Nn]|[Ss][Ee]|[Ee][Nn])[A-Za-z]*)"
    + f"(?![A-Za-z0-9.{SYMBOLS}])".encode()
)
_MOST_READ_IN_FULL = 1 << 18
"""Up to this size each token is looked at; in larger files, a section is looked for at the start of a line."""
_MOST_NAMES_COMPARED = 5000
_MOST_MARKED = 20
"""So many names with a mark are looked at: beyond that, names have it by design."""
_MOST_OCCURRENCES = 50
_MOST_SEARCHED = 1 << 17
_MOST_SEARCHED_FOR = 20
"""So many names are searched for; of more, all words of the text are looked up, which is then faster."""
_LONGEST_LINE = 1 << 11
"""A comment is looked for in so many bytes before a mark."""
_LONGEST_NAME = 256
_NAME_BYTES = f"{string.ascii_letters}{string.digits}.{SYMBOLS}".encode()
_DIGITS = f"{string.digits}.".encode()
_BLOCK = 1 << 20


class Late(NamedTuple):
    """A name that is in no row, where it first is, and in which section."""

    name: bytes
    place: int
    section: str


class LpText:
    """Finds the sections after the rows, and the end.

    ``unused`` has all columns without terms, if they are known, and maybe columns that have a term of 0.
    """

    def __init__(self, content: bytes, unused: Set[bytes] | None = None) -> None:
        self.content = content
        self._unused = unused
        self._sections: list[tuple[int, str]] = []
        """Where the sections after the rows start, and which they are."""
        self.end: int = len(content)
        """Where the text after ``end`` starts."""
        for place, word in self._section_words():
            self._sections.append((place, _SECTIONS[word]))
            if _SECTIONS[word] == END:
                self.end = place + len(word)
                break
        self.rows_end: int = self._sections[0][0] if self._sections else len(content)
        """Where the first section after the rows starts."""

    def _section_words(self) -> Iterator[tuple[int, bytes]]:
        is_read_in_full = len(self.content) <= _MOST_READ_IN_FULL
        for match in (_TOKEN if is_read_in_full else _SECTION_ON_A_LINE).finditer(self.content):
            if match.lastgroup == "word" and match["word"].lower() in _SECTIONS:
                yield match.start("word"), match["word"].lower()

    @property
    def comments(self) -> Iterator[re.Match[bytes]]:
        return _COMMENT.finditer(self.content, 0, self.end)

    def lines_with(self, pattern: re.Pattern[bytes]) -> Iterator[list[re.Match[bytes]]]:
        """The tokens of the lines that have a pattern, in the first part of the file."""
        most = self.end if self.end <= _BLOCK else self.content.rfind(b"\n", 0, _BLOCK)
        return (list(tokens) for tokens in self._lines_between(0, most, pattern))

    def _lines_between(self, start: int, most: int, pattern: re.Pattern[bytes]) -> Iterator[Iterator[re.Match[bytes]]]:
        """The tokens of the lines of a part that have a pattern."""
        found = pattern.search(self.content, start, most)
        while found is not None:
            line_start = self.content.rfind(b"\n", start, found.start()) + 1 or start
            line_end = self.content.find(b"\n", found.start(), most)
            end = most if line_end < 0 else line_end
            yield _TOKEN.finditer(self.content, line_start, end)
            found = pattern.search(self.content, end, most)

    def names_with(self, mark: bytes) -> Iterator[tuple[int, bytes]]:
        """The names that have a mark, and where they start: the first ones, in the first part of the file."""
        most = min(self.end, _BLOCK)
        place = self.content.find(mark, 0, most)
        for _ in range(_MOST_MARKED):
            if place < 0:
                return
            before = self.content[max(0, place - _LONGEST_LINE) : place]
            start = place - len(before) + len(before.rstrip(_NAME_BYTES))
            after = self.content[place : place + _LONGEST_NAME]
            end = place + len(after) - len(after.lstrip(_NAME_BYTES))
            name = self.content[start:end].lstrip(_DIGITS)
            if b"\\" not in before[before.rfind(b"\n") + 1 :]:
                yield end - len(name), name
            place = self.content.find(mark, end, most)

    def has_column(self, name: bytes) -> bool:
        """Whether a name is a word of the objective or of a row, other than a label: one of its first occurrences,
        which take little time.
        """
        most, place = min(self.rows_end, _MOST_SEARCHED), -1
        for _ in range(_MOST_OCCURRENCES):
            place = self.content.find(name, place + 1, most)
            if place < 0:
                return False
            end = place + len(name)
            is_word = (
                self.content[place - 1 : place].strip(_NAME_BYTES)
                and not self.content[end : end + 1].lstrip(_NAME_BYTES) == b""
            )
            if is_word and not self.content[end : end + _LONGEST_NAME].lstrip().startswith(b":"):
                return True
        return False

    @property
    def rest(self) -> bytes:
        """The text after the end."""
        return self.content[self.end :]

    @cached_property
    def late_names(self) -> list[Late]:
        """The names that are neither in the objective nor in a row, in the order in which they come."""
        late = self._words_after_rows() if self._unused is None else set(self._unused)
        sought = {name for name in late if self._is_in_rows(name)} if len(late) <= _MOST_SEARCHED_FOR else set(late)
        late -= sought
        for exactly in (False, True):  # most names are found as words between spaces, which is fast
            for block in self._blocks():
                if not sought:
                    break
                sought.difference_update(_words_of(block, exactly))
        return list(self._first_places(late | sought))

    def _words_after_rows(self) -> set[bytes]:
        """The names after the rows that are no words between spaces in the rows. They may be words of comments."""
        words = set(self.content[self.rows_end : self.end].split())
        words = {word for word in words if word.lower() not in _NO_NAMES}
        for block in self._blocks() if words else ():
            words.difference_update(_words_of(block, False))
        return {name for name in _NAME.findall(_NUMBER.sub(b" ", b" ".join(words))) if name.lower() not in _RESERVED}

    def _is_in_rows(self, name: bytes) -> bool:
        """Whether a name may be in the objective or in a row: as a term, a label or a word of a comment."""
        return _as_a_word(name).search(self.content, 0, self.rows_end) is not None

    def _blocks(self) -> Iterator[bytes]:
        """The objective and the rows, in parts that end with a line."""
        start = 0
        while start < self.rows_end:
            end = self.content.find(b"\n", start + _BLOCK, self.rows_end) + 1 or self.rows_end
            yield self.content[start:end]
            start = end

    def _first_places(self, names: Set[bytes]) -> Iterator[Late]:
        if not names:
            return
        left = set(names)
        for section, name, place in self._words_like(names):
            if name in left:
                left.remove(name)
                yield Late(name, place, _TITLES[section])

    def _words_like(self, names: Set[bytes]) -> Iterator[tuple[str, bytes, int]]:
        """The words after the rows that are among some names, with their sections and places."""
        if _CONTINUOUS in {name.lower() for name in names}:  # it may be the end of a keyword
            for section, _, text, place in LpTokens(self.content[self.rows_end : self.end].decode("latin-1")):
                yield section, text.encode("latin-1"), self.rows_end + place
            return
        for line in self._lines_with_names(names):
            section = ""
            for token in line:
                if token.lastgroup != "word":
                    continue
                if token[0] in names:
                    yield section or self._section_at(token.start()), token[0], token.start()
                section = _SECTIONS.get(token[0].lower(), section)
                if section == END:
                    return

    def _lines_with_names(self, names: Set[bytes]) -> Iterator[Iterator[re.Match[bytes]]]:
        """The tokens after the rows: those of each line with some names, or all, as if they were on one line."""
        if len(names) > _MOST_SEARCHED_FOR or not self._knows_all_sections():
            return iter([_TOKEN.finditer(self.content, self.rows_end, self.end)])
        pattern = re.compile(b"|".join(map(re.escape, sorted(names))))
        return self._lines_between(self.rows_end, self.end, pattern)

    def _knows_all_sections(self) -> bool:
        """Whether no section starts within a line of a large file; a comment may look like one."""
        if len(self.content) <= _MOST_READ_IN_FULL:
            return True
        text = self.content[self.rows_end : self.end].lower()
        return sum(len(_as_a_word(word).findall(text)) for word in _SECTIONS) == len(self._sections)

    def _section_at(self, place: int) -> str:
        return self._sections[bisect(self._sections, place, key=itemgetter(0)) - 1][1]

    @cached_property
    def names(self) -> dict[str, bytes]:
        """The words of the objective and the rows by what they are in lower case, if there are few."""
        if self.rows_end > _MOST_READ_IN_FULL:
            return {}
        words = {*_words_of(self.content[: self.rows_end], True)}
        return {shown(word).lower(): word for word in sorted(words)} if len(words) <= _MOST_NAMES_COMPARED else {}


def _as_a_word(name: bytes) -> re.Pattern[bytes]:
    """A pattern of a name, maybe after a number. It starts with the name, which is searched for fast."""
    word = re.escape(name.decode("ascii"))
    return re.compile(f"{word}(?<![A-Za-z{SYMBOLS}]{word})(?![{_LETTERS}])".encode())


def _words_of(block: bytes, exactly: bool) -> list[bytes]:
    """The names in a part of the objective and the rows. If not exactly, those between spaces."""
    if b"\\" in block:
        block = _COMMENT.sub(b"", block)
    if exactly:
        block = _NUMBER.sub(b" ", block)
    if exactly or b" :" in block or b"\t:" in block or b"\n:" in block:
        block = _LABEL.sub(b" ", block)
    return _NAME.findall(block) if exactly else block.split()
