"""LP text with a small edit, which the proved reader reads again: whether the error is gone, or comes later.

A message says what to write only if the text with it gets past the error. Of a large text only the statement with the
error and some lines after it are read.
"""

from __future__ import annotations

import re
from collections.abc import Sequence
from typing import NamedTuple

from mpslp import _mpslp
from mpslp._errors._faults import ModelFileError
from mpslp._messages._case import Case
from mpslp._messages._lp_suspects import lp_section

_MOST_READ = 2**16
"""A larger text is not read as a whole, since a message may need some hundred trials."""
_MOST_BEFORE = 2**15
_MOST_AFTER = 2**11
_LABEL = re.compile(rb"\n[ \t]*[A-Za-z_][\w.]*[ \t]*:")
_OPENINGS = {"": b"min\n", "rows": b"min\nst\n", "bounds": b"min\nst\nbounds\n", "list": b"min\nst\ngenerals\n"}
_END = b"\nend\n"
"""What is cut off by the end of the part has this end; after the end of a whole text it is ignored."""


class Edit(NamedTuple):
    """What to write in a text instead of the part between two places."""

    start: int
    end: int
    new: bytes


class Trial:
    """The text of a case, or the part with its error, for edits."""

    def __init__(self, case: Case) -> None:
        self._case = case
        self._before = b""
        self._start, self._end = 0, len(case.content)
        if self._end > _MOST_READ:
            self._cut()
        self._left = self._lines_left(self._read_with())
        self.is_known = self._left is not None and (case.error.line is None or self._left == self._lines_of_error())

    def _cut(self) -> None:
        """Keeps the lines from the start of the statement on, after the words that open its section."""
        content, line = self._case.content, self._case.line
        self._end = min(line.start + len(line.content) + _MOST_AFTER, self._end)
        if self._case.is_long_line:
            self._start, self._end = self._case.part_of_line
            self._before = _OPENINGS[lp_section(self._case)] if self._start > line.start else b"min\nst\n"
            return
        if line.start <= _MOST_BEFORE:
            return
        near = [match.start() + 1 for match in _LABEL.finditer(content, line.start - _MOST_BEFORE, line.start)]
        self._start = near[-1] if near else content.rfind(b"\n", 0, max(line.start - 1, 0)) + 1
        self._before = _OPENINGS[lp_section(self._case)]

    def _lines_of_error(self) -> int:
        start = max(self._case.line.start, self._start)
        return self._case.content.count(b"\n", start, self._end) + _END.count(b"\n")

    def _read_with(self, edits: Sequence[Edit] = ()) -> bytes:
        parts, place = [self._before], self._start
        for edit in sorted(edits):
            parts += [self._case.content[place : edit.start], edit.new]
            place = edit.end
        return b"".join([*parts, self._case.content[place : self._end], _END])

    def _lines_left(self, text: bytes) -> int | None:
        """How many lines come from the first error of a text on; None if no line has one."""
        try:
            _mpslp.is_canonical(text, self._case.text.format)
        except ModelFileError as error:
            return None if error.line is None else text.count(b"\n") - error.line + 1
        return None

    def passes(self, *edits: Edit) -> bool:
        """Whether the text with edits has no error in a line, or the first one in a later line, before which a section
        may end: an edit does not pass if the next line does not fit after it.
        """
        if not self.is_known or any(edit.start < self._start or edit.end > self._end for edit in edits):
            return False
        text = self._read_with(edits)
        left = self._lines_left(text)
        if left is None or self._left is None:
            return left is None
        return left < self._left and self._is_whole_before(text, left)

    def may_come(self, place: int, tried: str) -> bool:
        """Whether the text up to a place, and what is tried there, have no error of a line."""
        before = self._before + self._case.content[self._start : place].rstrip()
        return self.is_known and self._lines_left(b"%b %b\n" % (before, tried.encode())) is None

    def _is_whole_before(self, text: bytes, left: int) -> bool:
        """Whether the text before its last lines may end there."""
        return self._lines_left(b"\n".join(text.split(b"\n")[: -left - 1]) + _END) is None


def is_accepted(case: Case, text: bytes) -> bool:
    """Whether another text has no error in a line."""
    try:
        _mpslp.is_canonical(text, case.text.format)
    except ModelFileError as error:
        return error.line is None and error.kind != "MissingEnd"
    return True


def lines_read(case: Case, text: bytes) -> int:
    """How many lines another text has before its first error; all of them if no line has one."""
    try:
        _mpslp.is_canonical(text, case.text.format)
    except ModelFileError as error:
        if error.line is not None:
            return error.line - 1
    return text.count(b"\n") + 1
