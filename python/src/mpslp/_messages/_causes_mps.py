"""Rules for MPS: each recognises a cause of docs/errors.tsv, which has its name, in a line that is rejected."""

from __future__ import annotations

import re

from mpslp._messages._case import FOUND, Case, Found
from mpslp._messages._causes_both import Rule, conflict_marker
from mpslp._messages._nearest import nearest
from mpslp._messages._place import NUMBER, fields_of
from mpslp._text._lines import Line, line_at
from mpslp._text._mps_words import BOUND_TYPES, HEADERS, MARKER, MARKERS, ROW_TYPES, SENSES, UNVALUED


_SENSE_IN_HEADER = re.compile(r"OBJ(?:SENSE|ECTIVE)?[=:(]*M(?:AX|IN)(?:IMI[SZ]E)?\)?", re.IGNORECASE)


def is_number(text: str) -> bool:
    return NUMBER.fullmatch(text) is not None


# ---- numbers


def unquoted_marker(case: Case) -> Found | None:
    """The last field is INTORG or INTEND in any spelling, and the line is no marker for mpslp."""
    texts = [text.strip("'\"`").upper() for text in case.texts]
    end = next((each for each in MARKERS if each.strip("'") in (texts[-1], "".join(texts[-2:]))), None)
    if end is None or (MARKER in case.texts and case.texts[-1] == end):
        return None
    name = "M" if texts[0].startswith("MARK") and case.texts[0][0] in "'\"`" else case.texts[0]
    return Found(mend=f"{name}  {MARKER}  {end}")


# ---- fields


def several_pairs(case: Case) -> Found | None:
    """More than two pairs of a row and a number."""
    if case.section not in ("COLUMNS", "RHS", "RANGES") or len(case.fields) < 6:
        return None
    texts = [field.text for field in case.fields[1 if case.section == "COLUMNS" else len(case.fields) % 2 :]]
    are_pairs = len(texts) % 2 == 0 and all(
        name in case.rows and is_number(number) for name, number in zip(texts[::2], texts[1::2])
    )
    return Found(f"it has {len(texts) // 2}") if are_pairs else None


def several_sets(case: Case) -> Found:
    """What is said of a second set: the first one."""
    first = case.mps.first_set
    if first is None or first.name is None:
        return FOUND
    return Found(
        f"{case.words} after {first.name} of line {first.line.number}", marks=(case.mark_of(first.field, first.line),)
    )


def number_after_column(case: Case) -> Found | None:
    texts = [field.text for field in case.fields]
    if len(texts) != 3 or texts[0] not in UNVALUED or not is_number(texts[2]):
        return None
    first = case.mps.first_set
    words = texts[:2] if first is None or first.name is None else [texts[0], first.name, texts[1]]
    return Found(mend="  ".join(words), marks=(case.mark_of(case.fields[2]),), moves=True)


# ---- names


def objname(case: Case) -> Found | None:
    if not case.is_header:
        return None
    mark = case.first_match(rb"(?:^|\n)OBJNAME\s+(\S+)")
    found = case.rows.nearest(case.words)
    return Found("" if found is None else f"the nearest name is {found[0]}", marks=() if mark is None else (mark,))


def misspelt_column(case: Case) -> Found | None:
    """The line before has another column, of a name that is near, and the line before that one has this column."""
    lines = [line for line in (_line_before(case, 1), _line_before(case, 2)) if line is not None]
    if len(lines) < 2 or not case.fields:
        return None
    name, (before, first) = case.fields[0].text, lines
    other, same = fields_of(before.content), fields_of(first.content)
    if not other or not same or same[0].text != name or nearest(other[0].text, [name]) is None:
        return None
    return Found(f"{other[0].text} is between lines of {name}", mend=name, marks=(case.mark_of(other[0], before),))


def _line_before(case: Case, count: int) -> Line | None:
    number = case.line.number - count
    return line_at(case.content, number) if number > 0 else None


# ---- sections, types and markers


def misspelt_marker(case: Case) -> Found | None:
    if case.field in MARKERS:
        return None
    found = nearest(case.field.upper(), MARKERS)
    return Found(mend=found or "")


def sense_word(case: Case) -> Found | None:
    if not (case.is_header or case.section == "OBJSENSE"):
        return None
    upper = case.words.upper()
    return Found(mend="MAX" if upper.startswith("MAX") else "MIN" if upper.startswith("MIN") else "")


def other_type(case: Case) -> Found:
    """What is said of a type: which one it is in upper case."""
    upper = case.field.upper()
    types = ROW_TYPES if case.section == "ROWS" else BOUND_TYPES
    return Found(mend=upper) if upper in types else Found(f"the types are {', '.join(types)}")


def late_objsense(case: Case) -> Found | None:
    if not case.is_header or case.field not in ("OBJSENSE", "OBJNAME") or case.section in ("OBJSENSE", "OBJNAME"):
        return None
    mark = case.first_match(rb"(?:^|\n)(ROWS)[ \t\r\n]")
    return Found("" if mark is None else f"ROWS is in line {mark.number}", marks=() if mark is None else (mark,))


def objsense_without_word(case: Case) -> Found | None:
    return FOUND if case.is_header and case.section in ("OBJSENSE", "OBJNAME") else None


def lower_case_keyword(case: Case) -> Found | None:
    upper = case.field.upper()
    return Found(mend=upper) if upper in HEADERS else None


def sense_in_header(case: Case) -> Found | None:
    """A header such as OBJSENSE=MAX or OBJECTIVE MAX."""
    header = "".join(field.text for field in case.fields)
    return FOUND if case.is_header and _SENSE_IN_HEADER.fullmatch(header) else None


def sense_without_objsense(case: Case) -> Found | None:
    """The first field is a sense, in the first column."""
    return FOUND if case.is_header and case.field.upper() in SENSES else None


RULES: tuple[Rule, ...] = (
    conflict_marker,
    sense_in_header,
    sense_without_objsense,
    unquoted_marker,
    several_pairs,
    number_after_column,
    objname,
    misspelt_column,
    misspelt_marker,
    sense_word,
    late_objsense,
    objsense_without_word,
    lower_case_keyword,
)
