"""What a message adds to the cause of a kind that no rule has recognised: the nearest name, or the line of the first of
two.
"""

from __future__ import annotations

import re
from collections.abc import Callable, Mapping, Sequence

from mpslp._messages._case import FOUND, Case, Found
from mpslp._messages._causes_lp import constant_in_row
from mpslp._messages._causes_mps import other_type, several_sets
from mpslp._messages._excerpt import Mark
from mpslp._messages._lp_rows import first_duplicate, named_rows
from mpslp._messages._mps_lines import FIELDS
from mpslp._messages._nearest import Known
from mpslp._messages._place import fields_of, illegal_name
from mpslp._messages._tokens import Token
from mpslp._messages._written_out import indicator, special_set
from mpslp._text._lines import line_at
from mpslp._text._lp_words import SECTIONS, SENSES, SPELLINGS
from mpslp._text._mps_words import UNVALUED

Detail = Callable[[Case], Found]
_ROW_KINDS = frozenset(("InfiniteLimit", "RangeInexact", "LimitTooLarge", "LimitsCrossed"))
_MOST_READ = 2**24


# ---- both formats


def digits(case: Case) -> Found:
    count = len(re.sub(r"[eE].*|\D", "", case.words).strip("0"))
    return Found(f"it has {count}") if count else FOUND


def infinity(case: Case) -> Found:
    return Found(mend="-1e30") if case.words.startswith("-") else FOUND


def named(case: Case) -> Found:
    """The line of the row or the column that an error of the whole text names."""
    name = case.error.name
    if name is None or len(case.content) > _MOST_READ:
        return FOUND
    mark = _mps_line_of(case, name) if case.is_mps else _lp_line_of(case, name)
    return FOUND if mark is None else Found(marks=(mark,))


def _mps_line_of(case: Case, name: str) -> Mark | None:
    """The last line that has the name: it is in BOUNDS, RANGES or RHS if there is one."""
    pattern = rb"\n(?=[ \t])[^\n]*?[ \t](" + re.escape(name.encode("latin-1")) + rb")(?=[ \t\r\n])"
    start = case.start_of("ROWS" if case.kind in _ROW_KINDS else "COLUMNS")
    return _last_mark(case, pattern, start)


def _lp_line_of(case: Case, name: str) -> Mark | None:
    """The row, or the last line of Bounds that has the column."""
    if case.kind in _ROW_KINDS:
        row = next((row for row in named_rows(case.content, len(case.content)) if row.name == name), None)
        return None if row is None else case.mark_at(row.start, row.end)
    pattern = rb"(?<![\w.])(" + re.escape(name.encode("latin-1")) + rb")(?![\w.])(?=[ \t\r]*[<>=]|[ \t]+free)"
    return _last_mark(case, rb"(?i:" + pattern + rb")", 0) or _last_mark(
        case, pattern.replace(rb"(?=[ \t\r]*[<>=]|[ \t]+free)", b""), 0
    )


def _last_mark(case: Case, pattern: bytes, start: int) -> Mark | None:
    last = None
    for last in re.compile(pattern).finditer(case.content, start):
        pass
    return None if last is None else case.mark_at(*last.span(1))


def not_lp(case: Case) -> Found:
    """The line that declares the name that is not legal in LP."""
    name = re.escape(illegal_name(case.text, case.error).encode("latin-1"))
    first = rb"\n[ \t]+(" if case.error.place == "column" else rb"\n[ \t]+[NLGE][ \t]+("
    start = case.start_of("COLUMNS" if case.error.place == "column" else "ROWS")
    mark = case.first_match(first + name + rb")(?=[ \t\r\n])", start, len(case.content)) if case.is_mps else None
    return FOUND if mark is None else Found(marks=(mark,))


# ---- MPS


def nearest_row(case: Case) -> Found:
    return _nearest(case, case.field, case.rows, "row")


def nearest_column(case: Case) -> Found:
    return _nearest(case, case.field, case.columns, "column")


def _nearest(case: Case, name: str, names: Known, what: str) -> Found:
    found = names.nearest(name)
    if found is None:
        return Found(f"other lines have {name}, too" if case.mps.is_used(name) else "")
    near, start = found
    mark = case.mark_at(start, start + len(near))
    words = f"the nearest {what} is {near}, in line {mark.number}"
    if near.lower() != name.lower() and case.mps.is_used(name):
        return Found(f"{words}, but other lines have {name}, too", marks=(mark,))
    return Found(words, near, marks=(mark,))


def expected_field(case: Case) -> Found:
    """The first field that does not fit, and what is expected there."""
    return FOUND if case.is_header else Found(case.mps.expected(case.texts))


def expected_fields(case: Case) -> Found:
    """The same, and the fields of the section."""
    if case.is_header or case.section not in FIELDS:
        return FOUND
    expected = case.mps.expected(case.texts)
    return Found(f"{expected + '; ' if expected else ''}a line of {case.section} has {FIELDS[case.section]}")


def first_row(case: Case) -> Found:
    start = case.rows.place(case.words)
    return FOUND if start is None else _first(case, case.mark_at(start, start + len(case.words)))


def first_entry(case: Case) -> Found:
    """The first pair of the column and the row, or of the set and the row."""
    at = 0 if case.at is None else case.at
    same = next((field for field in case.fields[:at] if field.text == case.field), None)
    if same is not None:
        return _first(case, case.mark_of(same))
    row = re.escape(case.field.encode("latin-1"))
    column = re.escape(case.fields[0].text.encode("latin-1")) if case.section == "COLUMNS" else rb"\S+"
    start = case.start_of(case.section)
    patterns = [rb"\n[ \t]+" + column + rb"(?:[ \t]+\S+[ \t]+\S+)?[ \t]+(" + row + rb")[ \t]"]
    if case.section != "COLUMNS":
        patterns.append(rb"\n[ \t]+(" + row + rb")[ \t]")
    marks = [mark for mark in (case.first_match(pattern, start) for pattern in patterns) if mark is not None]
    return _first(case, min(marks)) if marks else FOUND


def first_rhs(case: Case) -> Found:
    """The first line with the row; without names of sets and a section RANGES the second one may be of it."""
    found = first_entry(case)
    is_sure = len(case.fields) % 2 == 1 or re.search(rb"\nRANGES[ \t\r\n]", case.content) is not None
    note = "" if is_sure else "; if this is a range, the header RANGES is missing before it"
    return found._replace(detail=f"{found.detail}{note}") if found.detail else found


def first_bound(case: Case) -> Found:
    """The last line before that has a bound of the same column."""
    number, start = case.line.number - 1, case.start_of("BOUNDS")
    pattern = re.compile(rb"\n[ \t]+[^\n]*[ \t]" + re.escape(case.field.encode("latin-1")) + rb"(?=[ \t\r\n])")
    for match in reversed(list(pattern.finditer(case.content, start, case.line.start))):
        line = line_at(case.content, case.mark_at(match.start() + 1, match.end()).number)
        fields = fields_of(line.content)
        at = 2 if len(fields) > (2 if fields[0].text in UNVALUED else 3) else 1
        if at < len(fields) and fields[at].text == case.field and line.number <= number:
            return Found(f"{fields[0].text} in line {line.number}", marks=(case.mark_of(fields[at], line),))
    return FOUND


def first_section(case: Case) -> Found:
    mark = case.first_match(rb"(?:^|\n)(" + case.field.encode("latin-1") + rb")(?=[ \t\r\n])")
    return FOUND if mark is None else _first(case, mark)


def split_column(case: Case) -> Found:
    """The last line before that has the column."""
    pattern = rb"\n[ \t]+(" + re.escape(case.fields[0].text.encode("latin-1")) + rb")[ \t]"
    last = None
    for last in re.compile(pattern).finditer(case.content, case.start_of("COLUMNS"), case.line.start):
        pass
    if last is None:
        return FOUND
    mark = case.mark_at(*last.span(1))
    return Found(f"{case.fields[0].text} is also in line {mark.number}", marks=(mark,))


def open_marker(case: Case) -> Found:
    at = case.content.rfind(b"'MARKER'", 0, case.line.start)
    if at < 0:
        return Found(f"no 'INTORG' comes before {case.field}")
    mark = case.mark_at(at, at + len(b"'MARKER'"))
    return Found(f"the marker before is in line {mark.number}", marks=(mark,))


# ---- LP


def first_label(case: Case) -> Found:
    """Both labels; that of the second row may be in a line before the one with the error."""
    found = first_duplicate(case.content, case.line.start + len(case.line.content))
    if found is None:
        return _label_of_line(case)
    first, second = (case.mark_at(row.start, row.end) for row in found)
    what = "the first" if found[0].position else "the objective"
    where = "both are in this line" if first.number == second.number else f"{what} is in line {first.number}"
    if second.number != case.line.number:
        where += f", the {'second' if found[0].position else 'row'} in line {second.number}"
    return Found(where, words=found[1].name, marks=(first, second))


def _label_of_line(case: Case) -> Found:
    """The first label of the line that a line before starts with: the rows of a large text are not read again."""
    for label, colon in zip(case.tokens, case.tokens[1:]):
        if label.line != case.line.number or colon.text != ":":
            continue
        first = case.first_match(rb"\n[ \t]*(" + re.escape(label.text.encode("latin-1")) + rb")[ \t]*:")
        if first is not None:
            return _first(case, first)._replace(words=label.text, marks=(first, case.mark_of_tokens([label])))
    return FOUND


def first_term(case: Case) -> Found:
    """The first term with the column, in the row or in the objective."""
    for token in reversed(case.tokens[: case.token_at]):
        if token.text == ":" or token.is_section or token.word in SENSES:
            break
        if token.text == case.words:
            return _first_token(case, token)
    return FOUND


def first_lp_bound(case: Case) -> Found:
    for token in reversed(case.tokens[: case.token_at]):
        if token.word in SECTIONS:
            break
        if token.text == case.words:
            return _first_token(case, token)
    return FOUND


def first_lp_section(case: Case) -> Found:
    """The first word of the same section, or the first sense."""
    word = case.words.lower()
    words = next((words for words in _SAME if word in words), (word,))
    pattern = rb"(?i)(?:^|\n)[ \t]*(" + b"|".join(re.escape(each.encode()) for each in words) + rb")(?![\w.])"
    mark = case.first_match(pattern)
    return FOUND if mark is None else _first(case, mark)


_SAME: Sequence[Sequence[str]] = (tuple(SENSES), *SPELLINGS.values())


def _first_token(case: Case, token: Token) -> Found:
    return _first(case, case.mark_of_tokens([token]))


def _first(case: Case, mark: Mark) -> Found:
    """What is said of the first of two."""
    is_same = mark.number == case.line.number
    return Found("both are in this line" if is_same else f"the first is in line {mark.number}", marks=(mark,))


# ---- the tables

_BOTH: Mapping[str, Detail] = {
    "TooManyDigits": digits,
    "ExponentRange": infinity,
    "NotLp": not_lp,
    "Sos": special_set,
    "Indicator": indicator,
    **dict.fromkeys((*_ROW_KINDS, "NegativeUpper", "BoundsCrossed", "BinaryBounds", "SemiBounds"), named),
}
_MPS: Mapping[str, Detail] = {
    **_BOTH,
    "BadMarker": open_marker,
    "BadType": other_type,
    "ColumnSplit": split_column,
    "DuplicateBound": first_bound,
    "DuplicateEntry": first_entry,
    "DuplicateRange": first_entry,
    "DuplicateRhs": first_rhs,
    "DuplicateRow": first_row,
    "BadNumber": expected_field,
    "FieldCount": expected_fields,
    "SecondSet": several_sets,
    "SectionRepeated": first_section,
    "UnknownColumn": nearest_column,
    "UnknownRow": nearest_row,
}
_LP: Mapping[str, Detail] = {
    **_BOTH,
    "ConstantInRow": constant_in_row,
    "DuplicateBound": first_lp_bound,
    "DuplicateEntry": first_term,
    "DuplicateRow": first_label,
    "SectionRepeated": first_lp_section,
}


def detail_of(case: Case) -> Found:
    """What is said of a line beside the usual cause of its kind."""
    find = (_MPS if case.is_mps else _LP).get(case.kind)
    return FOUND if find is None else find(case)
