"""The notes on a text that mpslp accepts: what other programs mean by its lines.

A large text is read for them only as far as it may have one: of an MPS file the comments and the objective's number in
RHS, and an LP file only if something in it could be noted.
"""

from __future__ import annotations

import re
from collections.abc import Iterator
from typing import TYPE_CHECKING

from mpslp import _mpslp
from mpslp._adapt._changes import AdaptError, Log, Note, OtherLanguage
from mpslp._adapt._lp import adapt_lp
from mpslp._adapt._mps_meant import NEGATED, SENSE_OF_PULP, meaning_of_the_constant
from mpslp._files._sources import Format
from mpslp._text._mps import MpsText

if TYPE_CHECKING:
    from mpslp._mpslp import Arrays

_NUMBER = rb"(?:[0-9.]+(?:[eE][+-]?[0-9]+)?|[iI][nN][fF][a-zA-Z]*)"
_SIGN_AFTER_NUMBER = rb"(?![<>=])\s*(?:[+-]\s*)?" + _NUMBER + rb"[ \t\r]*[+-]"
_ROWS_AFTER_NUMBERS = tuple(
    re.compile(relation + _SIGN_AFTER_NUMBER) for relation in (b"<", b">", b"=")
)  # fast, as each has a first letter
_SECTION_OF_OTHERS = re.compile(
    rb"\n[ \t\r]*(?:[sS](?:\.[iIcC]\.|[iI][nN]|[eE][cC])|[pP](?:\.[iI]\.|[iI][nN]))[ \t\r]*[\n\\]"
)  # faster than IGNORECASE
_COMMENT = re.compile(rb"\\[^\n]*")
_CONSTANT_OF_GLPSOL = rb"\* constant term = "
_COMMENT_OF_MPS = re.compile(rb"^\*", re.M)
_SENSE = re.compile(rb"\*SENSE:([^\n]*)", re.I)
_NEGATED = re.compile(re.escape(NEGATED.encode("ascii")) + rb"\r?(?:\n|\Z)")


def notes_of(content: bytes, format: Format, arrays: Arrays) -> tuple[Note, ...]:
    """The notes on a text that mpslp accepts, which has these arrays; OtherLanguage for one that others read as
    something else.
    """
    if format == "mps":
        return tuple(
            Note(_mpslp.count_line_feeds(content, 0, place) + 1, text) for place, text in notes_on_mps(MpsText(content))
        )
    log = Log()
    try:
        if may_be_noted(content) or has_column_without_coefficients(arrays):
            adapt_lp(content.decode("latin-1"), None, log)
    except OtherLanguage:
        raise
    except AdaptError:
        return ()
    return tuple(log.notes)


# ---- LP


def may_be_noted(content: bytes) -> bool:
    """Whether a text in LP has what may be noted, beside columns that are first named after the rows."""
    if _CONSTANT_OF_GLPSOL in content:
        return True
    if _SECTION_OF_OTHERS.search(content) is not None:
        return True
    content = _COMMENT.sub(b"", content) if b"\\" in content else content
    return any(pattern.search(content) is not None for pattern in _ROWS_AFTER_NUMBERS)


def has_column_without_coefficients(arrays: Arrays) -> bool:
    """Whether a column may be named in Bounds or a list only."""
    try:
        costs, starts, *_ = arrays.doubles()
    except OverflowError:  # it has more numbers than are counted there
        return True
    places = memoryview(starts).cast("i")
    return any(first == end and not cost for cost, first, end in zip(memoryview(costs).cast("d"), places, places[1:]))


# ---- MPS


def notes_on_mps(file: MpsText) -> Iterator[tuple[int, str]]:
    """Where a text in MPS has what is noted, and the note."""
    comments = [place for place, _ in file.comments]
    comments += [found.start() for found in _COMMENT_OF_MPS.finditer(file.content, file.end)]
    said = [(place, found) for place in comments if (found := _SENSE.match(file.content, place)) is not None]
    if b"OBJSENSE" not in file.sections and any(found[1].strip().upper().startswith(b"MAX") for _, found in said):
        yield said[0][0], SENSE_OF_PULP
    if any(_NEGATED.match(file.content, place) is not None for place in comments):
        return
    for pair in file.right_hand_sides(file.objective):
        yield pair.place, meaning_of_the_constant(file.is_maximised)
