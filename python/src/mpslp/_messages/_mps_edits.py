"""The small edits with which a line of MPS that is rejected fits its section, the most probable first."""

from __future__ import annotations

import re
from collections.abc import Iterator, Sequence
from functools import partial
from typing import NamedTuple

from mpslp._messages._mps_lines import (
    COLUMN,
    DATA_SECTIONS,
    ROW,
    SECTIONS_WITH_SETS,
    SET,
    MpsLines,
    Slot,
    Written,
    is_number,
)
from mpslp._messages._nearest import nearest
from mpslp._text._mps_words import BOUND_TYPES, ROW_TYPES, SENSES, UNVALUED

_MOST_FIELDS = 12
_MOST_LETTERS = 60
"""Lines and fields that are longer are no lines of a model that a small edit mends."""
_MARKS = ",;|:'\"`=&*#!%\\~$?"
_BRACKETS = "()[]{}<>"
_BETWEEN = re.compile(r"[=,;|:/&#*~]+")
_TURNED = str.maketrans("<>", "><")
_JOINED_BY = ("_", "", "-", ".")

Texts = tuple[str, ...]


class Edit(NamedTuple):
    """An edit of a line, after which it fits."""

    sort: str
    """The rule of the messages that is for such edits."""
    texts: Texts
    """The fields after it."""
    first: int
    """The first field of the line that it changes, from 0."""
    end: int
    """After the last one."""
    words: str
    """What is wrong with the line."""
    more: tuple[Texts, ...] = ()
    """The fields of further lines."""

    @property
    def lines(self) -> tuple[Texts, ...]:
        return self.texts, *self.more


def edits(lines: MpsLines, texts: Sequence[str]) -> Iterator[Edit]:
    """Edits after which the fields of a line fit its section, the most probable first."""
    if lines.section not in (*DATA_SECTIONS, "OBJSENSE") or not 0 < len(texts) <= _MOST_FIELDS:
        return
    for make in (
        _spaced_row,
        _without_marks,
        _misspelt,
        _in_order,
        _split,
        _twice,
        _two,
        _joined,
        _text_after,
        _with_field,
        _without_field,
    ):
        for edit in make(lines, tuple(texts)):
            if all(lines.fits(lines.section, each) for each in edit.lines):
                yield edit


# ---- marks


def _without_marks(lines: MpsLines, texts: Texts) -> Iterator[Edit]:
    """Fields without commas, quotes and the like around them."""
    stripped = tuple(_stripped(lines, text) for text in texts)
    changed = [at for at, (one, other) in enumerate(zip(texts, stripped)) if one != other]
    for at in changed:
        words = f"{texts[at]} is {stripped[at]} with a mark" if stripped[at] else f"{texts[at]} is no field"
        one = (*texts[:at], stripped[at], *texts[at + 1 :])
        yield Edit("stray_mark", tuple(filter(None, one)), at, at + 1, words)
        if at == changed[-1]:
            yield Edit("stray_mark", tuple(filter(None, stripped)), changed[0], changed[0] + 1, words)
    parts = tuple(part for text in texts for part in _between_marks(lines, text))
    if len(parts) > len(texts):
        first = next(at for at, text in enumerate(texts) if _between_marks(lines, text) != [text])
        words = f"{texts[first]} is several fields"
        yield Edit("stray_mark", parts, first, first + 1, words)
        swapped = (*texts[:first], *_between_marks(lines, texts[first])[::-1], *texts[first + 1 :])
        yield Edit("stray_mark", swapped, first, first + 1, words)


def _between_marks(lines: MpsLines, text: str) -> list[str]:
    """The parts of a field that is no name and no number."""
    return [text] if lines.kind_of(text) else [part for part in _BETWEEN.split(text) if part]


def _stripped(lines: MpsLines, text: str) -> str:
    if lines.kind_of(text):
        return text
    if not any(map(str.isalnum, text)):
        return text if text in (")", "]", "}") else ""  # the end of a name with a space
    bare = text.strip(_MARKS)
    return bare if bare[0] not in _BRACKETS and _is_balanced(bare) else bare.strip(_BRACKETS + _MARKS)


def _is_balanced(text: str) -> bool:
    """Whether each bracket that is opened is closed, as in a name such as ``x[1]``."""
    return all(text.count(one) == text.count(other) for one, other in zip(_BRACKETS[::2], _BRACKETS[1::2]))


# ---- other words


_OTHER_TYPES = {
    **dict.fromkeys(("U", "UB", "UPPER", "<=", "=<", "LE", "MAX"), "UP"),
    **dict.fromkeys(("L", "LB", "LOWER", "LOW", ">=", "=>", "GE", "MIN"), "LO"),
    **dict.fromkeys(("FREE", "FRE"), "FR"),
    **dict.fromkeys(("FIX", "FIXED", "EQ", "=", "E"), "FX"),
    **dict.fromkeys(("BIN", "BINARY", "B", "BI"), "BV"),
}
_OTHER_ROW_TYPES = {
    **dict.fromkeys(("<", "<=", "=<", "LE", "LEQ", "LT", "LTE"), "L"),
    **dict.fromkeys((">", ">=", "=>", "GE", "GEQ", "GT", "GTE"), "G"),
    **dict.fromkeys(("=", "==", "EQ", "EQU"), "E"),
    **dict.fromkeys(("MIN", "MAX", "OBJ", "F", "FR", "FREE", "NB", "NN"), "N"),
}


def type_meant(section: str, text: str) -> str | None:
    """The type that a word of another language or a misspelt one means."""
    upper, types = text.upper(), ROW_TYPES if section == "ROWS" else tuple(BOUND_TYPES)
    if upper in types:
        return upper
    found = (_OTHER_ROW_TYPES if section == "ROWS" else _OTHER_TYPES).get(upper)
    if found is None and len(text) <= 3:
        found = _doubled(upper, types)
    return found


def _doubled(text: str, types: Sequence[str]) -> str | None:
    """The type that a word has with a letter more, or with its letters in another order."""
    near = [each for each in types if sorted(each) == sorted(text) or (len(text) == len(each) + 1 and _has(text, each))]
    return near[0] if len(near) == 1 else None


def _has(text: str, letters: str) -> bool:
    """Whether a word is another one with a letter more."""
    return any(text[:at] + text[at + 1 :] == letters for at in range(len(text)))


def _misspelt(lines: MpsLines, texts: Texts) -> Iterator[Edit]:
    """A type or a set that is written in another way."""
    if lines.section in ("ROWS", "BOUNDS"):
        yield from _other_type(lines, texts)
    if lines.section in SECTIONS_WITH_SETS:
        yield from _other_set(lines, texts)


def _other_type(lines: MpsLines, texts: Texts) -> Iterator[Edit]:
    if (meant := type_meant(lines.section, texts[0])) is not None:
        words = f"{texts[0]} is no type; the nearest one is {meant}"
        yield Edit("misspelt_word", (meant, *texts[1:]), 0, 1, words)
    relations = [at for at, text in enumerate(texts) if at and re.fullmatch("[<>=]+", text)]
    if len(relations) == 1:
        yield from _relation(lines, texts, relations[0])
    elif len(relations) == 2 and len(texts) == 5:
        (lower, _, column, _, upper) = texts
        more = (_with_set(lines, ("UP", column, upper)),)
        words = "MPS has one line for each bound"
        yield Edit("relation_as_type", _with_set(lines, ("LO", column, lower)), 1, 4, words, more)


def _relation(lines: MpsLines, texts: Texts, at: int) -> Iterator[Edit]:
    """A relation of LP after the name of a row, or between a column and a number."""
    rest = (*texts[:at], *texts[at + 1 :])
    is_number_first = len(rest) == 2 and is_number(rest[0])
    relation = texts[at].translate(_TURNED) if is_number_first else texts[at]
    meant = type_meant(lines.section, relation)
    if meant is not None:
        words = f"{texts[at]} is {meant} in MPS, which comes first"
        whole = (meant, *(rest[::-1] if is_number_first else rest))
        yield Edit("relation_as_type", _with_set(lines, whole), at, at + 1, words)


def _with_set(lines: MpsLines, texts: Texts) -> Texts:
    """A bound that has no set, with that of the first line of BOUNDS."""
    first = lines.first_set
    has_set = lines.section != "BOUNDS" or first is None or first.name is None
    return texts if has_set or first is None or first.name is None else (texts[0], first.name, *texts[1:])


def _other_set(lines: MpsLines, texts: Texts) -> Iterator[Edit]:
    at, first = 1 if lines.section == "BOUNDS" else 0, lines.first_set
    if first is None or first.name is None or len(texts) <= at:
        return
    if first.name.lower() == texts[at].lower() or _is_near_set(texts[at], first.name):
        words = f"{texts[at]} here, and {first.name} in line {first.line.number}"
        yield Edit("misspelt_set", (*texts[:at], first.name, *texts[at + 1 :]), at, at + 1, words)


def _is_near_set(text: str, name: str) -> bool:
    """Whether a name is nearly that of a set, and not that of a second one, such as RHS2 or RHS_B beside RHS."""
    one, other = (re.sub(r"\d", "", each) for each in (text, name))
    return one != other and not one.startswith(other) and nearest(text, [name]) is not None


# ---- order


def _in_order(lines: MpsLines, texts: Texts) -> Iterator[Edit]:
    """Two fields that are swapped, or one at another place, unless the line needs no number and has one."""
    if lines.section == "BOUNDS" and texts[0] in UNVALUED and any(map(is_number, texts[1:-1])):
        return
    for at in range(len(texts) - 1):
        swapped = (*texts[:at], texts[at + 1], texts[at], *texts[at + 2 :])
        yield Edit("fields_out_of_order", swapped, at, at + 2, f"{texts[at]} and {texts[at + 1]} are swapped")
    for at in range(len(texts)):
        rest = (*texts[:at], *texts[at + 1 :])
        for to in (each for each in range(len(texts)) if abs(each - at) > 1):
            moved = (*rest[:to], texts[at], *rest[to:])
            yield Edit("fields_out_of_order", moved, at, at + 1, f"{texts[at]} is at the wrong place")


# ---- spaces


def _split(lines: MpsLines, texts: Texts) -> Iterator[Edit]:
    """Two fields without a space between them, or with another mark."""
    for at, text in enumerate(texts):
        if len(text) <= _MOST_LETTERS and not is_number(text):
            for parts in filter(partial(_is_plausible, lines, text), _parts_of(lines, text)):
                whole = (*texts[:at], *parts, *texts[at + 1 :])
                yield Edit("glued_fields", whole, at, at + 1, f"{text} is {' and '.join(parts)}")


def _is_plausible(lines: MpsLines, text: str, parts: Texts) -> bool:
    """Whether a row that is new is used in the text, and its name with the type before it is not."""
    return lines.section != "ROWS" or (lines.is_used(parts[1]) and not lines.is_used(text))


def _parts_of(lines: MpsLines, text: str) -> Iterator[Texts]:
    """Two fields of which a word may consist, or three: those of which more are declared first."""
    if (match := _BETWEEN.search(text, 1)) is not None and match.end() < len(text):
        yield text[: match.start()], text[match.end() :]
    two = [(text[:at], text[at:]) for at in range(1, len(text))]
    if lines.section == "COLUMNS":
        two += [(one.rstrip("_-."), other) for one, other in two if one[-1] in "_-." and other in lines.rows]
    known = [parts for parts in two if _is_known(lines, parts[0])]
    yield from (*known, *(parts for parts in two if parts not in known))
    yield from ((one, rest[:at], rest[at:]) for one, rest in known for at in range(1, len(rest)))


def _is_known(lines: MpsLines, text: str) -> bool:
    return text in lines.near_columns or bool(lines.kind_of(text))


def _spaced_row(lines: MpsLines, texts: Texts) -> Iterator[Edit]:
    """A new row with spaces in its name, which other lines have with the same spaces, and then a number."""
    name = " ".join(texts[1:])
    if lines.section == "ROWS" and len(texts) > 2 and lines.is_used_before_number(name):
        words = f"other lines have {name} too; write it so in all of them"
        yield Edit("name_split", (texts[0], "_".join(texts[1:])), 1, len(texts), words)


def _joined(lines: MpsLines, texts: Texts) -> Iterator[Edit]:
    """A space in a name or in a number."""
    for at in range(len(texts) - 1):
        for between in _JOINED_BY:
            name = texts[at] + between + texts[at + 1]
            is_type = at == 0 and lines.section == "BOUNDS" and name in BOUND_TYPES
            if is_type or _is_one(lines, name) or (not between and _is_one_number(texts[at], texts[at + 1])):
                whole = (*texts[:at], name, *texts[at + 2 :])
                yield Edit("name_split", whole, at, at + 2, f"{texts[at]} {texts[at + 1]} is {name}")
    yield from _new_name(lines, texts)


def _is_one_number(first: str, second: str) -> bool:
    """Whether two fields that are no numbers by themselves are one, or a whole number and its decimals."""
    is_number_each = is_number(first) and is_number(second) and second[0] != "."
    return is_number(first + second) and not is_number_each


def _is_one(lines: MpsLines, name: str) -> bool:
    """Whether a name is declared, or is used after a line of ROWS that may declare it."""
    if lines.section == "OBJSENSE":
        return name in SENSES
    names = (lines.rows, lines.columns, lines.near_columns)
    return any(name in each for each in names) or (lines.section == "ROWS" and lines.is_used(name))


def _new_name(lines: MpsLines, texts: Texts) -> Iterator[Edit]:
    """A new name with a space, which is the first one of COLUMNS or the last one of ROWS."""
    first, end = (0, 2) if lines.section == "COLUMNS" else (1, len(texts))
    parts = texts[first:end]
    if lines.section in ("ROWS", "COLUMNS") and len(parts) > 1 and not any(map(lines.kind_of, parts[:1] + parts[2:])):
        if lines.kind_of(parts[1]) not in ("", "a row type") or (first and any(map(lines.is_used, parts))):
            return
        name = ("" if parts[1][0] in "([" else "_").join(parts)
        yield Edit("name_split", (*texts[:first], name, *texts[end:]), first, end, f"{' '.join(parts)} is one name")


# ---- fields more and less


def _twice(lines: MpsLines, texts: Texts) -> Iterator[Edit]:
    """The same field twice, side by side; of numbers of a pair, the row between them may be missing as well."""
    for at, (one, other) in enumerate(zip(texts, texts[1:])):
        if one == other and not (is_number(one) and lines.section in ("COLUMNS", "RHS", "RANGES")):
            yield Edit("field_too_many", (*texts[:at], *texts[at + 1 :]), at + 1, at + 2, f"{one} is there twice")


def _two(lines: MpsLines, texts: Texts) -> Iterator[Edit]:
    """Several lines in one."""
    for at in range(2, len(texts) - 1):
        if lines.fits(lines.section, texts[:at]):
            for more in _lines_of(lines, texts[at:]):
                words, sort = f"{texts[at]} starts another line", "lines_in_one"
                if lines.section == "COLUMNS" and texts[at] not in (texts[0], *lines.near_columns):
                    if lines.fits("COLUMNS", (*texts[:at], *texts[at + 1 :])):
                        words, sort = f"{words}, or {texts[at]} is one too many", "several_ways"
                yield Edit(sort, texts[:at], at, len(texts), words, more)


def _lines_of(lines: MpsLines, texts: Texts) -> Iterator[tuple[Texts, ...]]:
    """The ways in which fields are lines of the section."""
    if lines.fits(lines.section, texts):
        yield (texts,)
    for at in range(2, len(texts) - 1):
        if lines.fits(lines.section, texts[:at]):
            yield from ((texts[:at], *more) for more in _lines_of(lines, texts[at:]))


def _text_after(lines: MpsLines, texts: Texts) -> Iterator[Edit]:
    for at in range(len(texts) - 1, 1, -1):
        rest = texts[at:]
        is_row = lines.section == "ROWS" and any(map(lines.is_used, rest))
        if not is_row and not any(lines.kind_of(part) for text in rest for part in (text, *_BETWEEN.split(text))):
            yield Edit("text_after_fields", texts[:at], at, len(texts), f"{' '.join(rest)} is no field of the line")


def _with_field(lines: MpsLines, texts: Texts) -> Iterator[Edit]:
    """A field that is left out, unless the line is one of ROWS among those of COLUMNS."""
    if lines.section == "COLUMNS" and len(texts) == 2 and texts[0] in ROW_TYPES and texts[1] in lines.rows:
        return
    for shape in lines.shapes(lines.section, texts):
        if len(shape) == len(texts) + 1:
            for at, slot in ((at, slot) for at, slot in enumerate(shape) if slot is not SET):
                yield from _inserted(lines, texts, at, slot)


def _inserted(lines: MpsLines, texts: Texts, at: int, slot: Slot) -> Iterator[Edit]:
    where = f"after {texts[at - 1]}" if at else f"before {texts[0]}"
    near = set(lines.near_columns) if slot is COLUMN else set()
    for text in (*(near if len(near) == 1 else ()), Written(slot.written)):
        left = (*texts[:at], text, *texts[at:])
        words = f"{where} {slot.expected} is missing"
        if slot is ROW and is_number(texts[at - 1]):
            words += f", or {texts[at - 1]} and {texts[at]} are one number, or one of them is too many"
            yield Edit("several_ways", left, at - 1, at + 1, words)
        else:
            yield Edit("field_left_out", left, max(at - 1, 0), max(at, 1), words)


def _without_field(lines: MpsLines, texts: Texts) -> Iterator[Edit]:
    used = [text for text in texts if lines.section == "ROWS" and lines.is_used(text)]
    for at in range(len(texts)):
        if [texts[at]] == used:
            continue
        words = f"field {at + 1}, {texts[at]}, is one too many"
        if lines.section == "ROWS" and is_number(texts[at]):
            words += "; a number of a row is in RHS"
        yield Edit("field_too_many", (*texts[:at], *texts[at + 1 :]), at, at + 1, words)
