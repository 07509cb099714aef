"""A line that is rejected, as the rules see it; and what a rule returns."""

from __future__ import annotations

import re
from collections.abc import Iterable
from functools import cached_property
from itertools import islice
from typing import NamedTuple

from mpslp import _mpslp
from mpslp._errors._faults import ModelFileError
from mpslp._files._sources import Text
from mpslp._messages._excerpt import Mark
from mpslp._messages._mps_edits import Edit, edits
from mpslp._messages._mps_lines import VALUE, MpsLines, Written
from mpslp._messages._nearest import Known
from mpslp._messages._place import Field, Place, fields_of, place_of, section_before
from mpslp._messages._tokens import Token, place_between, tokens_of
from mpslp._text._lines import Line, line_at, line_with
from mpslp._text._lp_words import BOUNDS, LISTS, ROWS, SECTIONS, SENSES

_MOST_READ = 2**22
"""For the edits of a line of MPS about so many bytes are read again, and the text up to the line once at least."""
_MOST_BACK = 2**16
"""A statement of LP is looked for among so many bytes before the line."""
_MOST_OF_LINE = 2**15
_MOST_AFTER = 2**10
_OPENED = {
    **dict.fromkeys(SENSES, ""),
    **{word: "list" for word, section in SECTIONS.items() if section in LISTS},
    **{word: section for word, section in SECTIONS.items() if section in (ROWS, BOUNDS)},
}
"""What each word of LP opens."""


class Found(NamedTuple):
    """What a rule has found in a line: more about the cause, what to write, a name for the first line, and further
    marks.
    """

    detail: str = ""
    mend: str = ""
    words: str = ""
    marks: tuple[Mark, ...] = ()
    moves: bool = False
    """Whether the marks are shown instead of the place of the error."""
    means_other: bool = False
    """Whether ``adapt`` would read the line in another way than is meant, so that it is not named as what mends it."""
    written: str = ""
    """Lines that say the same in a form that mpslp reads, which are shown after the fix."""


FOUND = Found()
"""The cause is the right one, and there is no more to say."""


class Case:
    """A text that is rejected, and its line with the error. For an error of the whole text it has no line."""

    def __init__(self, text: Text, error: ModelFileError) -> None:
        self.text = text
        self.error = error
        self.content = text.content
        self.kind = error.kind
        self.is_mps = text.format == _mpslp.MPS
        self.line = Line(0, len(text.content), b"") if error.line is None else line_at(text.content, error.line)
        self.place: Place | None = None if error.line is None else place_of(text, error, self.line)

    # ---- the line

    @property
    def words(self) -> str:
        return "" if self.place is None else self.place.words

    @cached_property
    def is_last_line(self) -> bool:
        """Whether nothing comes after the line."""
        return not self.content[self.line.start + len(self.line.content) :].strip()

    @cached_property
    def fields(self) -> list[Field]:
        return fields_of(self.line.content)

    @cached_property
    def at(self) -> int | None:
        """The number of the field that has the error, from 0."""
        return next(
            (at for at, field in enumerate(self.fields) if self.place and field.start == self.place.start), None
        )

    @property
    def field(self) -> str:
        """The text of the field that has the error."""
        return "" if self.at is None else self.fields[self.at].text

    @property
    def is_header(self) -> bool:
        return self.line.content[:1] not in (b" ", b"\t")

    @property
    def mark(self) -> Mark | None:
        if self.error.line is None:
            return None
        return Mark(self.line.number, self.line.content, *(self.place[1:] if self.place else (0, 0)))

    def mark_of(self, field: Field, line: Line | None = None) -> Mark:
        line = self.line if line is None else line
        return Mark(line.number, line.content, field.start, field.end)

    def mark_of_span(self, start: int, end: int) -> Mark:
        """The mark of a part of the line."""
        return Mark(self.line.number, self.line.content, start, end)

    def first_match(self, pattern: bytes, start: int = 0, end: int | None = None) -> Mark | None:
        """The group of the first match of a pattern in the text before the line, or up to a place."""
        match = re.compile(pattern).search(self.content, start, self.line.start if end is None else end)
        return None if match is None else self.mark_at(*match.span(1))

    def mark_at(self, start: int, end: int) -> Mark:
        """The mark of a part of the text, which is within a line."""
        line = line_with(self.content, start)
        return Mark(line.number, line.content, start - line.start, end - line.start)

    # ---- MPS

    @cached_property
    def section(self) -> str:
        return section_before(self.content, self.line.start)

    def start_of(self, section: str) -> int:
        """The place of the line end before the header of a section; that of the line if it comes later."""
        return self.mps.start_of(section)

    @cached_property
    def texts(self) -> list[str]:
        return [field.text for field in self.fields]

    @cached_property
    def mps(self) -> MpsLines:
        return MpsLines(self.content, self.line, self.section)

    @cached_property
    def edits(self) -> list[Edit]:
        """Edits after which the line has no error, the most probable first."""
        if self.is_last_line or (self.is_header and self.texts[0][0].isalpha()):
            return []
        found: dict[tuple[str, ...], Edit] = {}
        for edit in edits(self.mps, self.texts):
            found.setdefault(sum(edit.more, edit.texts), edit)
        most = max(1, _MOST_READ // max(1, self.line.start))
        return [edit for edit in islice(found.values(), most) if self._is_mended_by(edit)]

    def _is_mended_by(self, edit: Edit) -> bool:
        """Whether the reader accepts the line after an edit; of one with a word for a name that is not known, the
        fields only are known to fit.
        """
        if any(isinstance(text, Written) and text != VALUE.written for text in edit.texts):
            return True
        lines = (" ".join("1" if isinstance(text, Written) else text for text in texts) for texts in edit.lines)
        return self.accepts("\n".join(f" {line}" for line in lines))

    def accepts(self, lines: str) -> bool:
        """Whether the text before the line, and then these lines, have no error of a line."""
        return self._reads(self.content[: self.line.start] + lines.encode("latin-1") + b"\n")

    def accepts_after(self, before: bytes) -> bool:
        """Whether another text, and then the line, have no error of a line."""
        return self._reads(before + self.line.content + b"\n")

    def _reads(self, text: bytes) -> bool:
        try:
            _mpslp.is_canonical(text, self.text.format)
        except ModelFileError as error:
            return error.line is None
        return True

    @cached_property
    def rows(self) -> Known:
        """The rows and N rows that are declared before the line."""
        start = self.start_of("ROWS")
        end = min(self.start_of("COLUMNS"), self.line.start)
        return Known(self.content, re.compile(rb"\n[ \t]+\S+[ \t]+(\S+)"), start, end)

    @cached_property
    def columns(self) -> Known:
        """The columns that are declared before the line."""
        start = self.start_of("COLUMNS")
        ends = [self.start_of(section) for section in ("RHS", "RANGES", "BOUNDS")]
        return Known(self.content, re.compile(rb"\n[ \t]+(\S+)[ \t]+(?![ \t]|'MARKER')"), start, min(ends))

    # ---- LP

    @cached_property
    def tokens(self) -> list[Token]:
        """The tokens from some lines before the line up to it, as far as they are needed to see the
        statement before.
        """
        if self.is_long_line:
            return tokens_of(self.content, self.line.number, *self.part_of_line, self.line.start)
        first = max(0, self.line.start - _MOST_BACK)
        start = 0 if first == 0 else self.content.find(b"\n", first, self.line.start) + 1 or self.line.start
        number = self.line.number - self.content.count(b"\n", start, self.line.start)
        return tokens_of(self.content, number, start, self.line.start + len(self.line.content))

    @cached_property
    def openings(self) -> list[tuple[int, str]]:
        """The numbers of the tokens that open a section, each with it: bounds, rows, a list, or nothing for the
        objective.
        """
        words = ((at, each.word) for at, each in enumerate(self.tokens))
        return [(at, _OPENED[word]) for at, word in words if word in _OPENED]

    @property
    def is_long_line(self) -> bool:
        """Whether only a part of the line is looked at."""
        return self.error.line is not None and len(self.line.content) > _MOST_OF_LINE

    @cached_property
    def part_of_line(self) -> tuple[int, int]:
        """The places in the text of the part of a long line that is looked at: some of it before the error, and some
        after it.
        """
        place = self.place.start if self.place is not None else 0
        start = (
            place_between(self.line.content, max(place - _MOST_OF_LINE // 2, 0)) if place > _MOST_OF_LINE // 2 else 0
        )
        end = place_between(self.line.content, place + _MOST_AFTER)
        return self.line.start + start, self.line.start + end

    @cached_property
    def token_at(self) -> int:
        """The number of the token that has the error; the number of tokens if it is not known."""
        if self.place is None:
            return len(self.tokens)
        wanted = self.line.number, self.place.start
        return next((at for at, each in enumerate(self.tokens) if (each.line, each.start) == wanted), len(self.tokens))

    @property
    def token(self) -> Token | None:
        return self.tokens[self.token_at] if self.token_at < len(self.tokens) else None

    def before(self, count: int = 1) -> Token | None:
        """The token that many before the one with the error."""
        at = self.token_at - count
        return self.tokens[at] if 0 <= at < len(self.tokens) else None

    @cached_property
    def after(self) -> Token | None:
        """The token after the one with the error, which may be in a later line."""
        if self.token_at + 1 < len(self.tokens):
            return self.tokens[self.token_at + 1]
        start = self.line.start + len(self.line.content)
        rest = tokens_of(self.content[start : start + 1000])
        return rest[0] if rest else None

    def mark_of_tokens(self, tokens: Iterable[Token]) -> Mark:
        """The mark of tokens of one line."""
        of_line = list(tokens)
        return Mark(of_line[0].line, line_at(self.content, of_line[0].line).content, of_line[0].start, of_line[-1].end)
