"""What is accepted in an LP file and rarely meant: a function for each kind."""

from __future__ import annotations

import re
from decimal import Decimal
from itertools import pairwise

from mpslp._warnings._lp import DECIMAL_COMMA, ODD_PARENTHESIS, LpText
from mpslp._warnings._records import Found, by_kind, shown
from mpslp._warnings._rest import sections_in

_KEYWORDS = frozenset(
    b"MINIMIZE MAXIMIZE MINIMISE MAXIMISE MINIMUM MAXIMUM MIN MAX SUBJECT SUCH ST S.T. ST. BOUND BOUNDS "
    b"GENERAL GENERALS GEN INTEGER INTEGERS INT BINARY BINARIES BIN SEMI SEMIS SEMI-CONTINUOUS SEC SIN "
    b"SOS SOS1 SOS2 LAZY USER PWLOBJ SCENARIOS".split()
)
_PARENTHESES = re.compile(rb"[()]+")
_WITH_COLUMN = {
    b"/": re.compile(rb"([^/]+)/([^/]+)"),
    b"|": re.compile(rb"\|?([^|]+)\|?"),
    b",": re.compile(rb"([^,;]+),"),
    b";": re.compile(rb"([^,;]+);"),
}
"""Names with a mark that is an operator or ends something in other languages, by the mark; the first group may be a
column.
"""
_MOST_LISTED = 2
"""The names of a line that a warning has: those with the first and the last parenthesis of most sums."""
_MOST_COMPARED = 1 << 24
"""How many pairs of bytes are compared to find names that may be meant: beyond that, names are reported without one."""


def late_name(file: LpText) -> Found:
    left, of_rows = _MOST_COMPARED, sum(map(len, file.names))
    for name, place, section in file.late_names:
        left -= len(name) * of_rows
        meant = _nearest(name, file) if left >= 0 else ""
        yield place, f"{shown(name)} first appears in {section}, as a new column that is in no row{meant}"


def sum_in_parentheses(file: LpText) -> Found:
    for line in file.lines_with(ODD_PARENTHESIS):
        names = [token for token in line if token.lastgroup == "word" and _odd_parentheses(token[0])]
        if any(b"(" in _odd_parentheses(name[0]) for name in names):
            listed = " and ".join(shown(name[0]) for name in names[:_MOST_LISTED])
            are = "are read as names" if len(names) > 1 else "is read as a name"
            yield names[
                0
            ].start(), f"{listed} {are}, since names may have parentheses in LP; if a sum is meant, multiply it out"


def _odd_parentheses(name: bytes) -> bytes:
    """The parentheses of a name without a counterpart in it, or before which there is no letter: none of x(1) or
    f(x(1)).
    """
    left = b"".join(_PARENTHESES.findall(name))
    while b"()" in left:
        left = left.replace(b"()", b"")
    return b"(" if name.startswith(b"(") and not left else left


def decimal_comma(file: LpText) -> Found:
    for line in file.lines_with(DECIMAL_COMMA):
        for number, name in pairwise(line):
            if number.lastgroup == "number" and name[0].startswith(b","):
                parts = f"the number {shown(number[0])} and the column {shown(name[0])}"
                text = shown(number[0] + name[0])
                yield number.start(), f"{text} is read as {parts}; write a point for a decimal comma"


def operator_in_name(file: LpText) -> Found:
    seen: set[bytes] = set()
    for mark, with_column in _WITH_COLUMN.items():
        for place, name in file.names_with(mark):
            match = with_column.fullmatch(name) if name not in seen else None
            if match is not None and file.has_column(match[1]) and (mark != b"/" or _is_divisor(match[2], file)):
                seen.add(name)
                read = f"{shown(name)} is read as a name, and the column {shown(match[1])} is there"
                yield place, f"{read}; {_instead(mark, match)}"


def _is_divisor(word: bytes, file: LpText) -> bool:
    return word[:1].isdigit() or file.has_column(word)


def _instead(mark: bytes, match: re.Match[bytes]) -> str:
    """What to write for a name that has an operator."""
    column = shown(match[1])
    if mark == b"|":
        return f"if its absolute value is meant, write two rows, with {column} and with - {column}"
    if mark != b"/":
        return f"write {column} without the {shown(mark)}"
    if not match[2][:1].isdigit():
        return "a quotient of columns is not linear"
    try:
        factor = 1 / Decimal(shown(match[2]))
    except (ArithmeticError, ValueError):
        return "if a quotient is meant, write a coefficient"
    return (
        f"if a quotient is meant, write {factor:f} {column}"
        if factor * Decimal(shown(match[2])) == 1
        else f"if a quotient is meant, multiply the row by {shown(match[2])}"
    )


def section_after_end(file: LpText) -> Found:
    return sections_in(file.rest, file.end, _KEYWORDS, "end")


def _nearest(name: bytes, file: LpText) -> str:
    """The name of the rows that may be meant."""
    if not file.names:
        return ""
    from difflib import get_close_matches  # few files need it

    found = get_close_matches(shown(name).lower(), file.names, 1, 0.7)
    return f"; the name {shown(file.names[found[0]])} is there" if found else ""


RULES = by_kind(late_name, sum_in_parentheses, decimal_comma, operator_in_name, section_after_end)
