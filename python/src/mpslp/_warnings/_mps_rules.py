"""What is accepted in an MPS file and rarely meant: a function for each kind."""

from __future__ import annotations

import re

from mpslp._text._mps import MpsText
from mpslp._warnings._records import Found, by_kind, shown
from mpslp._warnings._rest import sections_in

_SENSE = re.compile(
    rb"\*[\s*]*(?:"
    rb"(?:(?:obj(?:ective)?|opt(?:imi[sz]ation)?)[\s_-]*)?(?:sense|direction)\s*(?:[:=]\s*)?[\"'(]?(max|min)"
    rb"|objective\s*[:=]\s*[\"'(]?(max|min)"
    rb"|(max|min)(?:imi[sz](?:e|ation))?[\s*]*$)",
    re.I,
)
_ZERO = re.compile(rb"[-+]?[0.]+(?:[eE].*)?")
_HEADERS = frozenset(
    b"NAME ROWS COLUMNS RHS RANGES BOUNDS OBJSENSE OBJNAME SOS SOS1 SOS2 SETS GENCONS INDICATORS LAZYCONS USERCUTS "
    b"QUADOBJ QMATRIX QCMATRIX QSECTION CSECTION QUADS PWLOBJ PWLNAM PWLCON BRANCH SCENARIOS".split()
)


_SENSE_IS = {True: "OBJSENSE has the sense", False: "write the sense in OBJSENSE"}
_HEADER_OF = {
    **dict.fromkeys((b"RHS", b"RHS1", b"RHS01"), b"RHS"),
    **dict.fromkeys((b"RANGES", b"RNG", b"RNG1", b"RANGE"), b"RANGES"),
    **dict.fromkeys((b"BOUNDS", b"BND", b"BND1", b"BOUND"), b"BOUNDS"),
}
"""The usual names of sets, and the sections that have them."""


def no_name(file: MpsText) -> Found:
    if b"NAME" not in file.sections:
        yield 0, "the file has no NAME line; clp and cbc read an empty model of it, and report no error"


def sense_in_comment(file: MpsText) -> Found:
    for start, end in file.comments:
        sense = _SENSE.match(file.content, start, end)
        if sense is not None and (sense[sense.lastindex or 0].lower() == b"max") != file.is_maximised:
            direction = "maximised" if file.is_maximised else "minimised"
            where = _SENSE_IS[b"OBJSENSE" in file.sections]
            yield start, f"the comment is ignored, and the model is {direction}; {where}"


def objective_rhs(file: MpsText) -> Found:
    for place, row, number in file.right_hand_sides(file.objective):
        if not _ZERO.fullmatch(number):
            said = f"the number of the objective {shown(row)} is minus its constant"
            yield place, f"{said}: the constant is {_negated(number)}"


def integer_without_bound(file: MpsText) -> Found:
    parts = list(file.unbounded_columns())
    if parts:
        start, (name, *_) = parts[0]
        more = sum(len(names) for _, names in parts) - 1
        others = f", as are {more:,} more" if more > 1 else ", as is one more" if more else ""
        yield file.line_of(
            name, start
        ), f"{shown(name)} is an integer column without a bound, and is from 0 to 1{others}"


def marker_not_closed(file: MpsText) -> Found:
    marker = file.open_marker
    if marker is not None:
        yield marker.start, "no 'INTEND' comes after this 'INTORG': all columns after it are integer"


def missing_header(file: MpsText) -> Found:
    place, name = file.last_column
    header = _HEADER_OF.get(name.upper(), b"")
    if header and header not in file.sections:
        yield place, f"{shown(name)} is read as a column, since no line {shown(header)} comes before it"


def section_after_end(file: MpsText) -> Found:
    return sections_in(file.rest, file.end, _HEADERS, "ENDATA")


def _negated(number: bytes) -> str:
    return shown(number[1:] if number.startswith(b"-") else b"-" + number.removeprefix(b"+"))


RULES = by_kind(
    no_name,
    sense_in_comment,
    objective_rhs,
    integer_without_bound,
    marker_not_closed,
    missing_header,
    section_after_end,
)
