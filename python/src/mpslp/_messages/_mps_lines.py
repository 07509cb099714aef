"""What a line of data of MPS may have: the fields of each section in their order, and what a field is."""

from __future__ import annotations

import re
from collections.abc import Iterable, Iterator, Sequence
from functools import cached_property
from operator import itemgetter
from typing import NamedTuple

from mpslp._messages._place import NUMBER, Field, fields_of
from mpslp._text._lines import Line
from mpslp._text._mps_words import BOUND_TYPES, HEADERS, MARKER, MARKERS, ROW_TYPES, SENSES, UNVALUED


class Slot(NamedTuple):
    """A place of a line: what is expected there, and the word for it in a line that is written out."""

    expected: str
    written: str


ROW_TYPE = Slot("a row type (N, L, G or E)", "TYPE")
NEW_ROW = Slot("the name of a new row", "ROW")
COLUMN = Slot("a column", "COLUMN")
ROW = Slot("a row", "ROW")
VALUE = Slot("a number", "NUMBER")
SET = Slot("the name of the set", "SET")
BOUND_TYPE = Slot("a bound type such as UP or LO", "TYPE")
BOUND_COLUMN = Slot("the name of a column", "COLUMN")
SENSE = Slot("MAX or MIN", "MIN")
IGNORED = Slot("a field that is ignored", "0")

Shape = tuple[Slot, ...]


class Written(str):
    """A word for a field that is left out and not known, which is taken for what is expected at its place."""


_WORDS = {ROW_TYPE: ROW_TYPES, BOUND_TYPE: tuple(BOUND_TYPES), SENSE: SENSES}
_RANGE_SET = re.compile(r"R(?:N?GS?|ANGES?)?_?\d*", re.IGNORECASE)
_MOST_WORDS = 1_000
_PAIR: Shape = (ROW, VALUE)
_COLUMN_SHAPES: Sequence[Shape] = ((COLUMN, *_PAIR), (COLUMN, *_PAIR, *_PAIR))
_WITH_SET: Sequence[Shape] = ((SET, *_PAIR), (SET, *_PAIR, *_PAIR))
_WITHOUT_SET: Sequence[Shape] = (_PAIR, (*_PAIR, *_PAIR))
SECTIONS_WITH_SETS = ("RHS", "RANGES", "BOUNDS")
DATA_SECTIONS = ("ROWS", "COLUMNS", "RHS", "RANGES", "BOUNDS")
FIELDS = {
    "OBJSENSE": "MAX or MIN",
    "OBJNAME": "the name of a row",
    "ROWS": "a type and the name of a row",
    "COLUMNS": "a column, and one or two pairs of a row and a number",
    "RHS": "the name of the set or none, and one or two pairs of a row and a number",
    "RANGES": "the name of the set or none, and one or two pairs of a row and a number",
    "BOUNDS": "a type, the name of the set or none, a column, and a number except for FR, MI, PL and BV",
}
"""The fields of a line of each section, in words."""


class FirstSet(NamedTuple):
    """The set of the first line of a section, or None if it has none; its field, or the first one; and the line."""

    name: str | None
    field: Field
    line: Line


class MpsLines:
    """The sections of a text before a line, as far as a line of data depends on them."""

    def __init__(self, content: bytes, line: Line, section: str) -> None:
        self._content = content
        self._line = line
        self.section = section
        self._first_sets: dict[str, FirstSet | None] = {}
        self._starts: dict[str, int] = {}

    def start_of(self, section: str) -> int:
        """The place of the line end before the header of a section; that of the line if it comes later."""
        if section not in self._starts:
            self._starts[section] = _start_of(self._content, section, self._line.start)
        return self._starts[section]

    @cached_property
    def rows(self) -> frozenset[str]:
        """The rows that are declared before the line."""
        return frozenset(self._fields_between("ROWS", ["COLUMNS"], r"\n[ \t]+\S+[ \t]+(\S+)"))

    @cached_property
    def columns(self) -> frozenset[str]:
        """The columns that are declared before the line, and the names of markers."""
        return frozenset(self._fields_between("COLUMNS", SECTIONS_WITH_SETS, r"\n[ \t]+(\S+)"))

    def _fields_between(self, section: str, others: Iterable[str], pattern: str) -> list[str]:
        """A field of each line of a section before the line, which one of the others ends."""
        end = min(self.start_of(each) for each in others)
        text: list[str] = re.findall(pattern, self._content[self.start_of(section) : end].decode("latin-1"))
        return text

    def neighbour(self, step: int) -> Line | None:
        """The next line of data in a direction, if it is in the same section."""
        place = self._next_place(self._line.start, step)
        while place is not None:
            line = self._line_from(place)
            if line.content.strip() and line.content[:1] != b"*":
                return line if line.content[:1] in (b" ", b"\t") else None
            place = self._next_place(place, step)
        return None

    def _next_place(self, place: int, step: int) -> int | None:
        """Where the next line starts, or the one before."""
        if step < 0:
            return None if place == 0 else self._content.rfind(b"\n", 0, place - 1) + 1
        return self._content.find(b"\n", place) + 1 or None

    def _line_from(self, start: int) -> Line:
        """The line that starts at a place, which is found by the lines between it and this one."""
        first, last = sorted((start, self._line.start))
        between = self._content.count(b"\n", first, last)
        end = self._content.find(b"\n", start)
        content = self._content[start:] if end < 0 else self._content[start:end].removesuffix(b"\r")
        return Line(self._line.number + (between if start > self._line.start else -between), start, content)

    @cached_property
    def near_columns(self) -> tuple[str, ...]:
        """The columns of the lines before and after, which a line of COLUMNS probably goes on with."""
        lines = (self.neighbour(step) for step in (-1, 1))
        fields = (fields_of(line.content) for line in lines if line is not None)
        return tuple(each[0].text for each in fields if len(each) in (3, 5) and each[1].text != MARKER)

    @property
    def first_set(self) -> FirstSet | None:
        """The set of the first line of the section; None if the line is the first one."""
        return self.first_set_of(self.section)

    def first_set_of(self, section: str) -> FirstSet | None:
        """The set of the first line of a section before the line; None if there is none."""
        if section not in self._first_sets:
            self._first_sets[section] = self._find_first_set(section)
        return self._first_sets[section]

    def _find_first_set(self, section: str) -> FirstSet | None:
        start = self.start_of(section)
        match = re.compile(rb"\n[ \t]+\S[^\n]*").search(self._content, start, self._line.start)
        if section not in SECTIONS_WITH_SETS or match is None:
            return None
        line = self._line_from(match.start() + 1)
        fields = fields_of(line.content)
        if section == "BOUNDS":
            has_set = len(fields) > (2 if fields[0].text in UNVALUED else 3)
            return FirstSet(fields[1].text if has_set else None, fields[min(1, len(fields) - 1)], line)
        return FirstSet(fields[0].text if len(fields) % 2 else None, fields[0], line)

    def is_used(self, name: str) -> bool:
        """Whether a name is a field of a line after this one, as far as it is not within many other words."""
        word, place = name.encode("latin-1"), self._line.start + len(self._line.content)
        for _ in range(_MOST_WORDS):
            place = self._content.find(word, place + 1)
            if place < 0:
                return False
            after = self._content[place + len(word) : place + len(word) + 1]
            if self._content[place - 1 : place] in (b" ", b"\t") and after in (b" ", b"\t", b"\r", b"\n"):
                return True
        return False

    def is_used_before_number(self, name: str) -> bool:
        """Whether a name with spaces is in a line after this one, and a number after it."""
        pattern = rb"[ \t]" + re.escape(name.encode("latin-1")) + rb"[ \t]+[+-]?\.?\d\S*[ \t\r\n]"
        return re.compile(pattern).search(self._content, self._line.start + len(self._line.content)) is not None

    # ---- what fits

    def shapes(self, section: str, texts: Sequence[str]) -> Iterator[Shape]:
        """What a line of a section may have."""
        if section == "ROWS":
            yield (ROW_TYPE, NEW_ROW)
        elif section == "COLUMNS":
            yield from _COLUMN_SHAPES
        elif section in ("RHS", "RANGES"):
            yield from _WITH_SET if self._may_have_set(section, True) else ()
            yield from _WITHOUT_SET if self._may_have_set(section, False) else ()
        elif section == "BOUNDS":
            yield from self._bound_shapes(section, texts)
        elif section == "OBJSENSE":
            yield (SENSE,)

    def _bound_shapes(self, section: str, texts: Sequence[str]) -> Iterator[Shape]:
        is_unvalued = bool(texts) and texts[0] in UNVALUED
        number: Shape = () if is_unvalued else (VALUE,)
        if self._may_have_set(section, True):
            yield (BOUND_TYPE, SET, BOUND_COLUMN, *number)
            if is_unvalued:
                yield (BOUND_TYPE, SET, BOUND_COLUMN, IGNORED)
        if self._may_have_set(section, False):
            yield (BOUND_TYPE, BOUND_COLUMN, *number)

    def _may_have_set(self, section: str, has_set: bool) -> bool:
        first = self.first_set_of(section)
        return first is None or (first.name is not None) == has_set

    def is_a(self, section: str, slot: Slot, text: str) -> bool:
        """Whether a field is what is expected at a place of a section; of names that are new, whether it is
        probable.
        """
        if isinstance(text, Written):
            return True
        if slot in (VALUE, IGNORED):
            return is_number(text)
        if slot in _WORDS:
            return text in _WORDS[slot]
        if slot is SET:
            return self._is_set(section, text)
        return self._is_name(section, slot, text)

    def _is_name(self, section: str, slot: Slot, text: str) -> bool:
        # A line of another section may have a name that is declared after it.
        if slot is ROW:
            return text in self.rows or (section != self.section == "ROWS" and self.is_used(text))
        if slot is BOUND_COLUMN:
            is_before = section != self.section and self.section in ("ROWS", "COLUMNS")
            return text in self.columns or (is_before and self.is_used(text))
        if not any(map(str.isalnum, text)):
            return False
        if slot is NEW_ROW:
            return text not in self.rows and not is_number(text) and text not in ROW_TYPES
        if section != self.section and self.start_of(section) < self._line.start:
            return text in self.columns
        return text in self.near_columns or not (self.kind_of(text) or text in self.columns)

    def _is_set(self, section: str, text: str) -> bool:
        first = self.first_set_of(section)
        if first is not None:
            return text == first.name
        if section == "RANGES" and section != self.section:
            return _RANGE_SET.fullmatch(text) is not None
        return text in SECTIONS_WITH_SETS or (any(map(str.isalnum, text)) and not self.kind_of(text))

    def fits(self, section: str, texts: Sequence[str]) -> bool:
        """Whether fields are a line of a section."""
        return any(self._has_shape(section, shape, texts) for shape in self.shapes(section, texts)) or (
            section == "COLUMNS" and len(texts) == 3 and texts[1] == MARKER and texts[2] in MARKERS
        )

    def _has_shape(self, section: str, shape: Shape, texts: Sequence[str]) -> bool:
        rows = [text for slot, text in zip(shape, texts) if slot is ROW]
        return (
            len(shape) == len(texts)
            and len(set(rows)) == len(rows)
            and all(self.is_a(section, slot, text) for slot, text in zip(shape, texts))
        )

    # ---- words

    def kind_of(self, text: str) -> str:
        """What a field is, in words; empty for a name that is not known."""
        if is_number(text):
            return "a number"
        names = [what for what, names in (("row", self.rows), ("column", self.columns)) if text in names]
        if names:
            return " and ".join(f"a {name}" for name in names)
        if text in BOUND_TYPES:
            return "a bound type"
        if text in ROW_TYPES and self.section == "ROWS":
            return "a row type"
        if text in HEADERS:
            return "a section header"
        if text == MARKER or text in MARKERS:
            return "a word of a marker"
        if self.first_set is not None and text == self.first_set.name:
            return "the set"
        return ""

    def first_misfit(self, texts: Sequence[str]) -> tuple[int, Slot | None] | None:
        """The first field that does not fit, of the shape in which most fields do, and what is expected there; None
        instead of a place after the last one. None if the section has no lines of data.
        """
        found = [self._misfit(shape, texts) for shape in self.shapes(self.section, texts)]
        return max(found, key=itemgetter(0)) if found else None

    def _misfit(self, shape: Shape, texts: Sequence[str]) -> tuple[int, Slot | None]:
        for at, (slot, text) in enumerate(zip(shape, texts)):
            if not self.is_a(self.section, slot, text):
                return at, slot
        at = min(len(shape), len(texts))
        return at, shape[at] if at < len(shape) else None

    def expected(self, texts: Sequence[str]) -> str:
        """What is expected at the first field that does not fit, and what is there; empty if nothing is known."""
        found = self.first_misfit(texts)
        if found is None:
            return ""
        at, slot = found
        if at == len(texts):
            return "" if slot is None else f"after {texts[-1]} {slot.expected} is expected"
        kind = self.kind_of(texts[at])
        words = f"field {at + 1} is {texts[at]}" + (f", {kind}" if kind else "")
        return f"{words}, where {'the line ends' if slot is None else f'{slot.expected} is expected'}"


def _start_of(content: bytes, section: str, end: int) -> int:
    """The place of the line end before the header of a section; the end if it comes later."""
    if re.match(section.encode() + rb"[ \t\r\n]", content):
        return 0
    # A pattern that starts with a line end is looked for faster than one that may also start the text.
    match = re.compile(rb"\n" + section.encode() + rb"[ \t\r\n]").search(content, 0, end)
    return end if match is None else match.start()


def is_number(text: str) -> bool:
    return NUMBER.fullmatch(text) is not None
