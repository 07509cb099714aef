"""Text after the last field of a line of MPS: what other programs drop is dropped here, everything else stays.

The programs are those that were measured: glpsol, clp, cbc and lp_solve. Text is dropped where at least two of them
drop it in the same layout, or where it is a comment of the program that wrote the file, and if it has neither a digit
nor the name of a row, a column or a section. So no number and no entry is lost that somebody meant.
"""

from __future__ import annotations

from collections.abc import Sequence
from enum import Enum

from mpslp._adapt._mps_lines import Line
from mpslp._adapt._mps_state import State
from mpslp._text._mps_words import HEADERS, MARKER, MARKERS

_AROUND_NAMES = "$*;:,.!#()[]{}<>=\"'"
_PARTS_OF_NUMBERS = frozenset(
    "e d % inf infinity percent k m g t mio mrd dozen hundred thousand million billion".split()
)
"""Words after a number that may belong to it."""

_WORDS_OF_MARKERS = tuple(word.strip("'") for word in (MARKER, *MARKERS))


class Place(Enum):
    """Where the text comes after."""

    ROW = "the name of the row"
    ONE_PAIR = "the number"
    TWO_PAIRS = "the second number"
    MARKER = "the marker"
    BOUND = "the bound"
    HEADER = "the header"


def reason_to_keep(state: State, line: Line, end: int, place: Place) -> str | None:
    """Why the fields from ``end`` on may not be dropped, or None."""
    text = line.fields()[end:]
    if not text:
        return None
    shown = " ".join(text)
    if any(each.isdigit() for each in shown):
        return f"text with a digit after {place.value}: {shown}: correct the line, or remove the text"
    keyword = next((word for word in text if word.strip(_AROUND_NAMES).upper() in (*HEADERS, *_WORDS_OF_MARKERS)), None)
    if keyword is not None:
        return (
            f"{keyword}, which is a header or a marker, in text after {place.value}: start a new line before it, or"
            " remove the text"
        )
    named = next((word for word in words_of(text) if word in state.named), None)
    if named is not None:
        return (
            f"{named}, which is a row or a column, in text after {place.value}: {shown}: correct the line, or remove"
            " the text"
        )
    if text[0][0] in "+-." or text[0].strip(_AROUND_NAMES).rstrip("+-").lower() in _PARTS_OF_NUMBERS:
        return f"{text[0]} after {place.value} may be a part of it: correct the line, or remove the text"
    if not is_dropped_by_others(state, line, end, place):
        return f"text after {place.value}: {shown}: few programs ignore it; remove it, or start a line with * for it"
    return None


def words_of(fields: Sequence[str]) -> set[str]:
    """The fields, and what they are without the signs around them and in other letters."""
    plain = {each.strip(_AROUND_NAMES) for each in fields}
    return {*fields, *plain, *(each.upper() for each in plain), *(each.lower() for each in plain)}


def is_dropped_by_others(state: State, line: Line, end: int, place: Place) -> bool:
    """Whether two of the measured programs drop the text, or the program that wrote it."""
    text = line.fields()[end:]
    is_dollar = text[0].startswith("$")
    if is_dollar and state.dialect.dollar_is_a_comment:
        return True
    if place in (Place.TWO_PAIRS, Place.MARKER):
        return True  # glpsol and lp_solve in free layout; clp and cbc
    if place is Place.HEADER:
        return is_dollar or text[0].startswith("*")  # all four drop more
    if place is Place.ROW:
        # glpsol drops it; lp_solve drops one word in free layout, and in fixed columns all after the name.
        return is_dollar and (len(text) == 1 or _is_in_columns(line, end, 14))
    if place is Place.BOUND:
        return is_dollar and (len(text) == 1 or _is_in_columns(line, end, 39))
    return False


def _is_in_columns(line: Line, end: int, column: int) -> bool:
    """Whether a line is in fixed columns, and the text is in one of the fields that starts in a column."""
    starts = line.places()
    return end < len(starts) and starts[end] == column and starts[0] in (1, 2, 4) and set(starts[1:end]) <= {4, 14, 24}
