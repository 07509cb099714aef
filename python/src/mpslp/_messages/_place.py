"""Where an error of a line is: the field or token, and what the message names.

The library reports the line and the kind only. If several parts of the line may have the error, it is asked again: with
the text up to the line and a prefix of the line. What is found here is a help for readers of a message, and is not
proved.
"""

from __future__ import annotations

import os
import re
from bisect import bisect_left
from collections.abc import Iterator
from contextlib import suppress
from typing import NamedTuple

from mpslp import _mpslp
from mpslp._errors._faults import ModelFileError
from mpslp._errors._illegal_names import name_not_legal
from mpslp._files._sources import Text
from mpslp._messages._tokens import NAME, Token, place_between, tokens_of
from mpslp._text._lines import Line, line_at
from mpslp._text._lp_words import FREE, INFINITIES
from mpslp._text._mps_words import MARKER, UNVALUED

_MOST_SHOWN = 80
_MOST_READ_AGAIN = 2**24
_PART = 2**12
"""Of a long line, two parts of so many bytes are cut into tokens: the one with the error, and the one before it."""
_MOST_WHOLE = 2**17
_MOST_OF_LP = 2**20
"""An LP text of more bytes than the first is read again in part, if that has the "
"same error, and else up to the second."""
_MOST_BEFORE = 2**16
"""Of a larger LP text, so many bytes before the line are read again, if they have the same error."""
_PACKED = {
    b"\x1f\x8b": "the file is compressed by gzip",
    b"BZh": "the file is compressed by bzip2",
    b"\xfd7zXZ": "the file is compressed by xz",
    b"\x28\xb5\x2f\xfd": "the file is compressed by zstd",
    b"PK\x03\x04": "the file is a zip archive",
    b"\xef\xbb\xbf": "a byte order mark",
    b"\xff\xfe": "the file is UTF-16",
    b"\xfe\xff": "the file is UTF-16",
}
NUMBER_KINDS = frozenset(("BadNumber", "LongNumber", "TooManyDigits", "ExponentRange"))
_PAIRS = frozenset(("UnknownRow", "DuplicateEntry", "DuplicateRhs", "DuplicateRange", "RangeOnFree", "InfiniteValue"))
NUMBER = re.compile(r"[+-]?(?:\d+(?:\.\d*)?|\.\d+)(?:[eE][+-]?\d+)?", re.ASCII)

_NO_NAMES_IN_BOUNDS = {FREE, *INFINITIES}
_HEADER = re.compile(rb"\n[^*\s][^\n]*")
_LABELLED_LINE = re.compile(rb"\n[ \t]*[A-Za-z_][\w.]*[ \t]*:")
_LP_SECTION = re.compile(
    rb"\n[ \t]*(?i:(?P<rows>subject[ \t]+to|such[ \t]+that|st|s\.t\.|st\.)|(?P<bounds>bounds?))[ \t\r]*(?=\n)"
)


class Field(NamedTuple):
    """A field of a line of MPS."""

    text: str
    start: int
    end: int


class Place(NamedTuple):
    """What the message of an error says of its place: the words that name it, and the part of the line that has it."""

    words: str
    start: int
    end: int


def about(text: Text, error: ModelFileError) -> str:
    """What an error is about, in a few words; empty if that is not known."""
    if error.place is not None:
        return _illegal_name(text, error)
    if error.line is None:
        return error.name or ""
    place = place_of(text, error, line_at(text.content, error.line))
    return "" if place is None else place.words


def place_of(text: Text, error: ModelFileError, line: Line) -> Place | None:
    """The part of a line that has an error, or None if it is not known."""
    if error.kind == "LineTooLong":
        return Place(f"{len(line.content):,} bytes", 0, 0)
    if error.kind == "BadByte":
        return _bad_byte(line)
    finder = _Finder(text, error, line)
    with suppress(IndexError, _TooLarge):  # the first is of a line that has too few fields for its kind of error
        found = finder.of_mps() if text.format == _mpslp.MPS else finder.of_lp()
        return found if len(found.words) <= _MOST_SHOWN else found._replace(words=f"{found.words[:_MOST_SHOWN]}...")
    return None


def section_before(content: bytes, end: int) -> str:
    """The section that a text of MPS has at a place."""
    last = None
    for last in _headers(content, end):
        pass
    return "" if last is None else last.split()[0].decode("latin-1")


def _headers(content: bytes, end: int) -> Iterator[bytes]:
    """The lines before a place that start in the first column."""
    first = content[: max(content.find(b"\n"), 0)]
    if end and first[:1].strip() and first[:1] != b"*":
        yield first
    for match in _HEADER.finditer(content, 0, end):
        yield match[0][1:]


def _illegal_name(text: Text, error: ModelFileError) -> str:
    """The name that is not legal in LP."""
    return f"{error.place} {illegal_name(text, error)}"


def illegal_name(text: Text, error: ModelFileError) -> str:
    """The name that is not legal in LP, without what has it."""
    return error.name if error.name is not None else name_not_legal(_mpslp.load(text.content, text.format), error)


def _bad_byte(line: Line) -> Place:
    content = line.content
    if line.start == 0:
        for magic, words in _PACKED.items():
            if content.startswith(magic):
                return Place(words, 0, 0)
    at = next(at for at, byte in enumerate(content) if byte != 9 and not 32 <= byte <= 126)  # comments come after it
    return Place(f"byte 0x{content[at]:02X} at column {at + 1}", at, at + _length_of_letter(content[at : at + 4]))


def _length_of_letter(content: bytes) -> int:
    """How many bytes the letter of UTF-8 has that is first; 1 if there is none."""
    return next((size for size in range(2, len(content) + 1) if _is_letter(content[:size])), 1)


def _is_letter(content: bytes) -> bool:
    try:
        return len(content.decode("utf-8")) == 1
    except UnicodeDecodeError:
        return False


def fields_of(line: bytes) -> list[Field]:
    """The fields of a line of MPS."""
    return [Field(match[0].decode("latin-1"), *match.span()) for match in re.finditer(rb"[^\s]+", line)]


_NO_PART = Place("", 0, 0)
"""A line that is shown without a caret."""


class _TooLarge(Exception):
    """The text up to the line is too large to be read again and again for one word of a message."""


def _whole(line: Line, words: str = "") -> Place:
    """A place that has all fields of the line."""
    return Place(words, len(line.content) - len(line.content.lstrip()), len(line.content.rstrip()))


def _of(field: Field, words: str | None = None) -> Place:
    return Place(field.text if words is None else words, field.start, field.end)


class _Finder:
    """Looks for the part of a line that has an error."""

    def __init__(self, text: Text, error: ModelFileError, line: Line) -> None:
        self._text = text
        self._error = error
        self._line = line
        self._before: bytes | None = None

    def _has_error(self, line: bytes) -> bool:
        """Whether the text up to the line, and this instead of it, has the same error there."""
        if self._before is None:
            self._before = self._read_again()
        return self._is_error_of(self._before, line)

    def _is_error_of(self, before: bytes, line: bytes) -> bool:
        try:
            _mpslp.is_canonical(before + line + b"\n", self._text.format)
        except ModelFileError as error:
            return (error.line, error.kind) == (before.count(b"\n") + 1, self._error.kind)
        return False

    def _read_again(self) -> bytes:
        """The text before the line, or a part of it in which the line has the same error."""
        content, start = self._text.content, self._line.start
        if self._text.format == _mpslp.LP and start > _MOST_WHOLE:
            before = self._last_part(content, start)
            if before is not None and self._is_error_of(before, self._line.content):
                return before
        if start > (_MOST_READ_AGAIN if self._text.format == _mpslp.MPS else _MOST_OF_LP):
            raise _TooLarge
        return content[:start]

    @staticmethod
    def _last_part(content: bytes, start: int) -> bytes | None:
        """An LP text that has the last rows or bounds before a place."""
        section = None
        for section in _LP_SECTION.finditer(content, 0, start):
            pass
        if section is None:
            return None
        first = max(start - _MOST_BEFORE, section.end())
        if first > section.end() and section["rows"]:
            label = _LABELLED_LINE.search(content, first, start)
            first = start if label is None else label.start()
        elif first > section.end():
            first = content.find(b"\n", first)
        return b"min\nst\n" + (b"" if section["rows"] else b"bounds\n") + content[first + 1 : start]

    def of_mps(self) -> Place:
        kind, fields = self._error.kind, fields_of(self._line.content)
        section = section_before(self._text.content, self._line.start)
        if kind == "FieldCount":
            return self._of_count(section, fields)
        if self._line.content[:1] not in b" \t":
            return self._of_header(kind, fields)
        if kind == "SectionOrder":
            return _of(fields[0], section)
        if section == "BOUNDS":
            return self._of_bound(kind, fields)
        if section in ("COLUMNS", "RHS", "RANGES"):
            return self._of_pairs(section, kind, fields)
        return _of(fields[0] if kind == "BadType" else fields[1])

    def _of_count(self, section: str, fields: list[Field]) -> Place:
        """A field too many, or the end of the line if one is missing."""
        most = {"ROWS": 2, "BOUNDS": 4, "OBJSENSE": 1, "OBJNAME": 1}.get(section, 5)
        if self._line.content[:1] not in b" \t":
            most = 2 if fields[0].text in ("OBJSENSE", "OBJNAME") else 1
        elif section == "COLUMNS" and len(fields) > 1 and fields[1].text == MARKER:
            most = 3
        words = "1 field" if len(fields) == 1 else f"{len(fields)} fields"
        if len(fields) > most:
            return _of(fields[most], words)
        end = fields[-1].end
        return Place(words, end + 1, end + 2)

    def _of_header(self, kind: str, fields: list[Field]) -> Place:
        if kind == "BadType":
            return _of(fields[1])
        if kind == "DuplicateRow":
            return _of(fields[0], "obj")
        if kind == "UnknownRow":
            match = re.search(rb"^OBJNAME\s+(\S+)", self._text.content, re.M)
            return _of(fields[0], "" if match is None else match[1].decode("latin-1"))
        return _of(fields[0])

    def _of_bound(self, kind: str, fields: list[Field]) -> Place:
        if kind == "BadType":
            return _of(fields[0])
        if kind in NUMBER_KINDS:
            return _of(fields[-1])
        has_set = len(fields) > (2 if fields[0].text in UNVALUED else 3)
        if kind == "SecondSet":
            return _of(fields[1], None if has_set else "no set name")
        return _of(fields[2] if has_set else fields[1])

    def _of_pairs(self, section: str, kind: str, fields: list[Field]) -> Place:
        has_set = section != "COLUMNS" and len(fields) % 2 == 1
        if kind == "SecondSet":
            return _of(fields[0], None if has_set else "no set name")
        if kind in ("BadMarker", "Sos"):
            return _of(fields[2])
        first = 1 if has_set or section == "COLUMNS" else 0
        if kind not in NUMBER_KINDS and kind not in _PAIRS:
            return _of(fields[0])
        if len(fields) > first + 2 and not self._is_of_first_pair(kind, fields, first):
            first += 2
        if kind in NUMBER_KINDS:
            return _of(fields[first + 1])
        return _of(
            fields[first], f"column {fields[0].text}, row {fields[first].text}" if kind == "DuplicateEntry" else None
        )

    def _is_of_first_pair(self, kind: str, fields: list[Field], first: int) -> bool:
        if kind == "BadNumber":
            return NUMBER.fullmatch(fields[first + 1].text) is None
        return self._has_error((" " + " ".join(field.text for field in fields[: first + 2])).encode("latin-1"))

    def of_lp(self) -> Place:
        line = self._line.content
        # An error of a line stays when tokens are added that do not have one of lower rank.
        parts = [place_between(line, start) for start in range(_PART, len(line), _PART)]
        part = bisect_left(parts, True, key=lambda end: self._has_error(line[:end]))
        start = parts[part - 2] if part > 1 else 0
        tokens = tokens_of(line, 1, start, parts[part] if part < len(parts) else len(line), 0)
        at = bisect_left(tokens, True, key=lambda token: self._has_error(line[: token.end]))
        tokens = tokens[: at + 1]
        kind = self._error.kind
        if kind in ("ConstantInRow", "DuplicateRhs"):  # the token after the number has the error
            return self._of_token(tokens[-2])
        if kind == "DuplicateBound":
            names = (
                each
                for each in reversed(tokens)
                if NAME.match(each.text) and each.text.lower() not in _NO_NAMES_IN_BOUNDS
            )
            found = next(names, None)
            return _whole(self._line) if found is None else self._of_token(found)
        if kind == "DuplicateRow":
            return self._of_duplicate_label(tokens)
        return self._of_token(tokens[-1])

    @staticmethod
    def _of_token(token: Token) -> Place:
        return Place(token.text, token.start, token.end)

    def _of_duplicate_label(self, tokens: list[Token]) -> Place:
        """The last label of a line, if the error goes with it; no part, if the label is in a line before, or the row
        has none.
        """
        labels = [one for one, other in zip(tokens, tokens[1:]) if other.text == ":"]
        if not labels:
            return _NO_PART
        label, line = labels[-1], self._line.content[: tokens[-1].end]
        other = line[: label.start] + b"_" + os.urandom(16).hex().encode() + line[label.end :]
        return _NO_PART if self._has_error(other) else self._of_token(label)
