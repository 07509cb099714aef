"""Rules for MPS: each recognises a cause of docs/errors.tsv, which has its name, by what the fields of the line are,
and by the small edit after which the line has no error.
"""

from __future__ import annotations

import re
from collections.abc import Sequence

from mpslp._messages._case import FOUND, Case, Found
from mpslp._messages._causes_both import Rule
from mpslp._messages._causes_mps_files import near_header, text_before
from mpslp._messages._mps_edits import Edit
from mpslp._messages._mps_lines import DATA_SECTIONS, FIELDS, VALUE, Written, is_number
from mpslp._messages._place import fields_of, section_before
from mpslp._messages._written_out import special_set
from mpslp._text._mps_words import BOUND_TYPES, HEADERS, MARKER, ROW_TYPES, SENSES

_SPACE = "  "
_MOST_AFTER = 2**20
_OTHER_BOUNDS = {
    "SI": "a semi-continuous integer column: 0, or an integer up to the number",
    "PI": "a partial integer column: an integer up to the number, and continuous above it",
}
"""The types that Xpress reads, and what they declare."""
_OTHER_HEADERS = {
    **dict.fromkeys(("END", "EOF", "FIN", "STOP"), "ENDATA"),
    **dict.fromkeys(("SENSE", "MAXMIN", "DIRECTION", "OBJECTIVE", "OBJ"), "OBJSENSE"),
    **dict.fromkeys(("CONSTRAINTS", "RESTRICTIONS"), "ROWS"),
    **dict.fromkeys(("COLS", "VARIABLES", "VARS"), "COLUMNS"),
    **dict.fromkeys(("RSH", "RIGHT", "R.H.S", "RIGHTHAND", "RIGHTHANDSIDE", "RIGHT-HAND-SIDE"), "RHS"),
    **dict.fromkeys(("LIMITS",), "BOUNDS"),
    **dict.fromkeys(("TITLE", "PROBLEM", "MODEL"), "NAME"),
}
"""What is written for sections in other languages."""


# ---- headers


def indented_header(case: Case) -> Found | None:
    """A header that was not there before, and no more; its letters may have spaces between them."""
    words = "".join(case.texts)
    header = case.texts[0] if case.texts[0] == "NAME" else words
    if case.is_header or header not in HEADERS or case.start_of(header) < case.line.start:
        return None
    return Found(mend=header)


def header_with_marks(case: Case) -> Found | None:
    """The letters of a header, and spaces or marks."""
    letters = re.sub("[^A-Z]", "", "".join(case.texts)) if case.is_header else ""
    is_marked = letters in HEADERS and not any(map(str.islower, "".join(case.texts))) and letters != case.field
    return Found(mend=letters) if is_marked else None


def data_after_header(case: Case) -> Found | None:
    """A header, and after it the fields of a line of its section."""
    header, texts = case.texts[0].rstrip(":"), case.texts[1:]
    is_new = case.is_header and header in DATA_SECTIONS and case.start_of(header) == case.line.start
    if not is_new or not case.mps.fits(header, texts):
        return None
    mark = case.mark_of(case.fields[1])._replace(end=case.fields[-1].end)
    return Found(written=f"{header}\n    {_SPACE.join(texts)}", marks=(mark,), moves=True)


def header_in_line(case: Case) -> Found | None:
    """A header after the fields of a line, and perhaps a line of its section."""
    at = next((at for at, text in enumerate(case.texts) if at > 1 and text in HEADERS), None)
    if at is None or case.is_header or not case.mps.fits(case.section, case.texts[:at]):
        return None
    header, rest = case.texts[at], case.texts[at + 1 :]
    if case.start_of(header) < case.line.start or (rest and not case.mps.fits(header, rest)):
        return None
    lines = [f"    {_SPACE.join(case.texts[:at])}", header, *([f"    {_SPACE.join(rest)}"] if rest else [])]
    return Found(f"{header} is a header", written="\n".join(lines), marks=(case.mark_of(case.fields[at]),), moves=True)


# ---- sections


def lost_header(case: Case) -> Found | None:
    """A line of a section that has no header, before lines of the same section or its end."""
    section = _other_section(case)
    return _of_section(case, section) if section is not None and _goes_on(case, section) else None


def stray_header(case: Case) -> Found | None:
    """A header without which the line has no error: the lines after it go on with the section before it."""
    start = case.start_of(case.section) if case.section in DATA_SECTIONS[2:] else case.line.start
    if case.is_header or start == case.line.start or section_before(case.content, start) not in DATA_SECTIONS:
        return None
    end = case.content.find(b"\n", start + 1) + 1
    goes_on = case.section == "BOUNDS" or case.texts[0] in case.mps.columns or MARKER in case.texts
    if not goes_on or not case.accepts_after(case.content[: start + 1] + case.content[end : case.line.start]):
        return None
    mark = case.mark_at(start + 1, start + 1 + len(case.section))
    before = section_before(case.content, start)
    return Found(f"without {case.section} in line {mark.number} it is a line of {before}", marks=(mark,))


def word_without_header(case: Case) -> Found | None:
    """One word before ROWS: a sense, or the name of the objective."""
    if case.is_header or len(case.texts) != 1 or case.start_of("ROWS") < case.line.start:
        return None
    header = "OBJSENSE" if case.texts[0] in SENSES else "OBJNAME" if case.mps.is_used(case.texts[0]) else ""
    return Found(mend=header) if header and case.start_of(header) == case.line.start else None


def other_section(case: Case) -> Found | None:
    """A line of another section, which no small edit makes one of its section."""
    section = _other_section(case)
    return None if section is None or case.edits else _of_section(case, section)


def _of_section(case: Case, section: str) -> Found:
    detail = f"it is a line of {section}, and comes {f'in {case.section}' if case.section else 'before any section'}"
    mark = case.first_match(rb"(?:^|\n)(" + section.encode() + rb")[ \t\r\n]", end=len(case.content))
    if mark is None:
        return Found(detail, section)
    return Found(f"{detail}; {section} is in line {mark.number}", marks=(mark,))


def _other_section(case: Case) -> str | None:
    """Another section of which the fields are a line: one without a header that may come here, or else one that is
    elsewhere.
    """
    if case.is_header:
        return None
    found = [each for each in DATA_SECTIONS if each != case.section and case.mps.fits(each, case.texts)]
    there = [each for each in found if case.start_of(each) < case.line.start or _is_later(case, each)]
    lost = [each for each in found if each not in there and not _comes_late(case, each)]
    if case.section == "RHS" and len(case.texts) % 2 == 0:
        lost = [each for each in lost if each != "RANGES"]  # it may as well be a line of RHS
    return next(iter(lost or there), None)


def _is_later(case: Case, section: str) -> bool:
    """Whether the header of a section comes after the line."""
    return re.compile(rb"\n" + section.encode() + rb"[ \t\r]*\n").search(case.content, case.line.start) is not None


def _goes_on(case: Case, section: str) -> bool:
    """Whether the header of a section is nowhere, and the next line is one of it or no line of data."""
    if _is_later(case, section) or case.start_of(section) < case.line.start:
        return False
    after = case.mps.neighbour(1)
    texts = [] if after is None else [field.text for field in fields_of(after.content)]
    return after is None or (case.mps.fits(section, texts) and _has_same_set(section, case.texts, texts))


def _has_same_set(section: str, texts: Sequence[str], others: Sequence[str]) -> bool:
    """Whether two lines of RHS or RANGES have the same set, or both have none."""
    if section not in ("RHS", "RANGES"):
        return True
    return len(texts) % 2 == len(others) % 2 and (len(texts) % 2 == 0 or texts[0] == others[0])


def _comes_late(case: Case, section: str) -> bool:
    """Whether a section before it in the usual order comes after the line."""
    return any(_is_later(case, each) for each in DATA_SECTIONS[: DATA_SECTIONS.index(section)])


def line_broken(case: Case) -> Found | None:
    """A line that fits with the fields of the next one, which fits nothing by itself."""
    after = case.mps.neighbour(1)
    if case.is_header or after is None:
        return None
    rest = [field.text for field in fields_of(after.content)]
    texts = [*case.texts, *rest]
    if case.mps.fits(case.section, rest) or not case.mps.fits(case.section, texts):
        return None
    return (
        Found(f"line {after.number} goes on with it", _SPACE.join(texts))
        if case.accepts(" " + " ".join(texts))
        else None
    )


# ---- the edits of a line


def stray_mark(case: Case) -> Found | None:
    """A mark around a field; and how many of the lines after it have the same mark at the end of a field."""
    found = _by_edit(case, "stray_mark")
    count = 0 if found is None else _lines_with(case, case.texts[case.edits[0].first][-1])
    if found is None or count == 0:
        return found
    return found._replace(detail=f"{found.detail}; {count} lines after it have such a mark, too")


def _lines_with(case: Case, mark: str) -> int:
    """How many lines after the line have a field that ends with a mark."""
    pattern = re.compile(rb"\n[ \t][^\n]*" + re.escape(mark.encode("latin-1")) + rb"(?=[ \t\r\n])")
    end = case.line.start + len(case.line.content)
    return 0 if mark.isalnum() or mark in ")]}" else len(pattern.findall(case.content, end, end + _MOST_AFTER))


def misspelt_word(case: Case) -> Found | None:
    return _by_edit(case, "misspelt_word")


def misspelt_set(case: Case) -> Found | None:
    found, first, after = _by_edit(case, "misspelt_set"), case.mps.first_set, case.mps.neighbour(1)
    if found is None or first is None:
        return None
    marks = (*found.marks, case.mark_of(first.field, first.line))
    if after is None or case.words not in after.content.decode("latin-1").split():
        return found._replace(marks=marks)
    words = f"line {first.line.number} has {first.name}, and this line and the next have {case.words}"
    return Found(words, case.words, marks=marks, moves=True)


def relation_as_type(case: Case) -> Found | None:
    return _by_edit(case, "relation_as_type")


def fields_out_of_order(case: Case) -> Found | None:
    return _by_edit(case, "fields_out_of_order")


def glued_fields(case: Case) -> Found | None:
    return _by_edit(case, "glued_fields")


def name_split(case: Case) -> Found | None:
    return _by_edit(case, "name_split")


def lines_in_one(case: Case) -> Found | None:
    return _by_edit(case, "lines_in_one")


def text_after_fields(case: Case) -> Found | None:
    return _by_edit(case, "text_after_fields")


def several_ways(case: Case) -> Found | None:
    """A line that more than one edit may mend, of which none is the most probable."""
    found = _by_edit(case, "several_ways")
    return None if found is None else found._replace(mend="", written="")


def field_left_out(case: Case) -> Found | None:
    return _by_edit(case, "field_left_out")


def field_too_many(case: Case) -> Found | None:
    """A field without which the line fits; or one of several."""
    found, edits = _by_edit(case, "field_too_many"), [each for each in case.edits if each.sort == "field_too_many"]
    if found is None or len(edits) < 2 or case.texts[edits[0].first] == case.texts[edits[0].first - 1]:
        return found
    names = " or ".join(case.texts[each.first] for each in edits)
    return found._replace(detail=f"{case.mps.expected(case.texts)}; {names} is one too many", mend="")


def set_left_out(case: Case) -> Found | None:
    """One line of the section has a set name, and another has none."""
    first, has_set = case.mps.first_set, case.words != "no set name"
    if first is None or (
        has_set and (first.name is not None or case.mps.kind_of(case.words) or case.words in ROW_TYPES)
    ):
        return None
    name, field, line = first
    return Found(
        f"line {line.number} has {'none' if name is None else f'the set {name}'}", marks=(case.mark_of(field, line),)
    )


def _by_edit(case: Case, sort: str) -> Found | None:
    """What is said if the most probable edit is of a sort."""
    if not case.edits or case.edits[0].sort != sort:
        return None
    edit = case.edits[0]
    if case.is_header and (edit.first or sort not in ("stray_mark", "field_too_many")):
        return None
    mark = case.mark_of(case.fields[edit.first])._replace(end=case.fields[edit.end - 1].end)
    lines = [_SPACE.join(texts) for texts in edit.lines]
    written = "\n".join(lines) if edit.more else ""
    has_word = any(isinstance(text, Written) for text in edit.texts)
    mend = "" if written else lines[0]
    return Found(_detail(case, edit), mend, marks=(mark,), moves=True, means_other=has_word, written=written)


def _detail(case: Case, edit: Edit) -> str:
    expected = case.mps.expected(case.texts)
    if edit.sort == "field_left_out" and expected.startswith("after"):
        return expected
    others = [each for each in case.edits if each.sort not in (edit.sort, "field_too_many")]
    return f"{expected}{'; perhaps ' if others else ': '}{edit.words}" if expected else edit.words


# ---- names of another kind


def column_for_row(case: Case) -> Found | None:
    return Found(f"{case.field} is a column") if case.field in case.mps.columns and not case.edits else None


def row_after_rows(case: Case) -> Found | None:
    """A row that is declared as ROWS has it, in a line after this one."""
    name = re.escape(case.field.encode("latin-1"))
    pattern = rb"\n[ \t]+[NLGE][ \t]+(" + name + rb")[ \t\r]*\n"
    mark = case.first_match(pattern, case.line.start, len(case.content)) if case.field else None
    return None if mark is None else Found(f"{case.field} is in line {mark.number}", marks=(mark,))


def row_for_column(case: Case) -> Found | None:
    return Found(f"{case.field} is a row") if case.field in case.mps.rows and not case.edits else None


def unsupported_bound(case: Case) -> Found | None:
    """A bound type of other readers, for which MPS has no other."""
    what = _OTHER_BOUNDS.get(case.field.upper()) if case.section == "BOUNDS" else None
    return None if what is None else Found(f"{case.field.upper()} makes {what}")


def other_field(case: Case) -> Found | None:
    """A field that is not what is expected at its place, before the one that has the error."""
    found = None if case.is_header or case.edits else case.mps.first_misfit(case.texts)
    if found is None or found[0] == len(case.texts) or found[1] is None:
        return None
    if found[1] is VALUE if case.kind == "BadNumber" else found[0] == case.at and not is_number(case.field):
        return None
    return Found(f"{case.mps.expected(case.texts)}; a line of {case.section} has {FIELDS[case.section]}")


# ---- the end of the file


def truncated(case: Case) -> Found | None:
    """The last line of the file, which is not its end: of a header, the start."""
    if not case.is_last_line:
        return None
    return FOUND if not case.is_header or _is_cut(case) else None


def _is_cut(case: Case) -> bool:
    """Whether the last line of the file is the start of a header other than ENDATA."""
    header = case.line.content.strip().decode("latin-1")
    return any(each.startswith(header) for each in HEADERS if each not in (header, "ENDATA"))


# ---- sections that no line goes with


def special_sets_section(case: Case) -> Found | None:
    """A section of Xpress, or a marker of CPLEX with the type of the set before its name."""
    if case.is_header:
        return FOUND if case.field in ("SETS", "REFROW") else None
    return special_set(case) if "'SOSORG'" in case.texts or "'SOSEND'" in case.texts else None


def no_header(case: Case) -> Found | None:
    """A line in the first column whose first word does not look like a header."""
    if not case.is_header or (re.fullmatch(r"[A-Z][A-Z0-9_]+", case.field) and len(case.fields) < 3):
        return None
    return Found(f"{case.field} is none of {', '.join(HEADERS)}")


def data_before_header(case: Case) -> Found | None:
    return None if case.is_header or case.section else FOUND


def mps_order(case: Case) -> Found | None:
    if not case.is_header:
        is_word = case.section in ("OBJSENSE", "OBJNAME")
        return Found(f"{case.section} has {'its word already' if is_word else 'no lines of data'}")
    return Found(f"{case.field} comes after {case.section}" if case.section else f"{case.field} is the first section")


def data_in_first_column(case: Case) -> Found | None:
    """The line has the fields of a line of its section."""
    texts = [field.text for field in case.fields]
    if case.section == "ROWS":
        is_data = len(texts) == 2 and texts[0] in ROW_TYPES
    elif case.section == "BOUNDS":
        is_data = texts[0] in BOUND_TYPES
    else:
        is_data = (
            case.section in ("COLUMNS", "RHS", "RANGES")
            and len(texts) > 1
            and (is_number(texts[-1]) or MARKER in texts)
        )
    return FOUND if is_data else None


def misspelt_keyword(case: Case) -> Found | None:
    words = [text.upper().strip(":;,.") for text in case.texts]
    if not case.is_header:
        return None
    found = _OTHER_HEADERS.get("".join(words))
    if found is None and len(words) <= 2:
        found = next((each for each in HEADERS if each in words), None) or _OTHER_HEADERS.get(words[0])
        found = found or near_header(words[0])
    return None if found is None else Found(mend=found)


RULES: tuple[Rule, ...] = (
    indented_header,
    header_with_marks,
    data_after_header,
    special_sets_section,
    header_in_line,
    truncated,
    stray_header,
    lost_header,
    word_without_header,
    line_broken,
    stray_mark,
    misspelt_word,
    misspelt_set,
    relation_as_type,
    fields_out_of_order,
    glued_fields,
    name_split,
    lines_in_one,
    text_after_fields,
    several_ways,
    field_left_out,
    set_left_out,
    field_too_many,
    other_section,
    row_after_rows,
    column_for_row,
    row_for_column,
    unsupported_bound,
    other_field,
    text_before,
    data_before_header,
    mps_order,
    data_in_first_column,
    misspelt_keyword,
    no_header,
)
