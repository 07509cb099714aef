"""MPS in fixed columns, in which a name may have spaces."""

from __future__ import annotations


from mpslp._adapt._changes import Log
from mpslp._adapt._mps_lines import Line
from mpslp._adapt._mps_state import NAMED_SECTIONS
from mpslp._adapt._names import Names, reason_against
from mpslp._text._mps_words import MARKER
from mpslp._text._names import is_mps_name

_FIELDS = ((1, 3), (4, 12), (14, 22), (24, 36), (39, 47), (49, 61))
_GAPS = ((0, 1), (3, 4), (12, 14), (22, 24), (36, 39), (47, 49))
_END = 61
_NAMES = (1, 2, 4)


def lines_of_fields(lines: list[Line], log: Log) -> list[Line] | None:
    """The lines with names without spaces, or None if they are not all in fixed columns or no name has a space."""
    data = _data_lines(lines)
    cut = [_cut(line) for line in data]
    if not all(fields is not None for fields in cut):
        return None
    used = {name for fields in cut if fields is not None for at, name in enumerate(fields) if at in _NAMES}
    names = Names(lambda name: name == "" or name == MARKER or is_mps_name(name), lambda: used)
    for line, fields in zip(data, cut):
        assert fields is not None
        written = [names.of(each) if at in _NAMES else each for at, each in enumerate(fields)]
        if written != fields:
            before, line.source = line.source, _placed(written)
            log.add(line.number, "fixed-columns", before, line.source)
    log.fixed_names.update(names.written)
    return lines if names.written else None


def names_of(log: Log) -> dict[str, str]:
    return dict(log.fixed_names)


def _data_lines(lines: list[Line]) -> list[Line]:
    """The data lines of the sections that have fields in columns, up to ENDATA."""
    section, found = "", []
    for line in lines:
        if line.is_comment() or line.is_empty():
            continue
        if not line.is_data():
            section = line.fields()[0].upper()
            if section == "ENDATA":
                break
        elif section in NAMED_SECTIONS:
            found.append(line)
    return found


def _cut(line: Line) -> list[str] | None:
    """The fields of a line in fixed columns; or None if it is not so, or has a space in a number, text after the
    columns or a space of Unicode.
    """
    text = line.source
    if "\t" in text or text[_END:].strip(" ") or any(text[start:stop].strip(" ") for start, stop in _GAPS):
        return None
    fields = [text[start:stop].strip(" ") for start, stop in _FIELDS]
    if any(reason_against(fields[at]) is not None for at in _NAMES):
        return None
    return fields if all(" " not in field for at, field in enumerate(fields) if at not in _NAMES) else None


def _placed(fields: list[str]) -> str:
    """The printer of fields in columns: each is near its column, and after a space."""
    text = ""
    for (start, _), field in zip(_FIELDS, fields):
        if field:
            text = (text if len(text) < start else text + " ").ljust(start) + field
    return text
