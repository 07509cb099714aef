"""Rules for both formats: each recognises a cause of docs/errors.tsv, which has its name, in a line
that is rejected.
"""

from __future__ import annotations

import re
from collections.abc import Callable

from mpslp import _mpslp
from mpslp._errors._faults import ModelFileError
from mpslp._messages._case import FOUND, Case, Found
from mpslp._messages._excerpt import Mark
from mpslp._messages._nearest import nearest
from mpslp._text._conflict_markers import is_conflict_marker

Rule = Callable[[Case], Found | None]
"""Returns what it has found if the cause is that of the line, and None if it is not."""

_COMMA = re.compile(r"[+-]?\d*,\d+(?:[eE][+-]?\d+)?", re.ASCII)
_THOUSANDS = re.compile(r"([+-]?\d{1,3}(?:,\d{3})+)(?:\.(\d*))?", re.ASCII)
_POINTS_AND_COMMA = re.compile(r"([+-]?\d{1,3}(?:\.\d{3})+),(\d+)", re.ASCII)
_INFINITY = re.compile(r"([+-]?)(?:inf[a-z]*|unbounded|unlimited|oo|1\.?#inf[a-z]*|∞)", re.IGNORECASE)
_FORTRAN = re.compile(r"([+-]?(?:\d+(?:\.\d*)?|\.\d+))[dDqQ]([+-]?\d+)", re.ASCII)
_HEXADECIMAL = re.compile(r"0[xX][0-9a-fA-F]{1,16}", re.ASCII)
_WITH_LETTERS = re.compile(r"[+-]?[\dOolI]+(?:\.[\dOolI]*)?", re.ASCII)
_DIGITS = str.maketrans("OolI", "0011")
_TYPED = {
    "\u2264": "<=",
    "\u2a7d": "<=",
    "\u2266": "<=",
    "\u2265": ">=",
    "\u2a7e": ">=",
    "\u2267": ">=",
    "\u2212": "-",
    "\u2013": "-",
    "\u2014": "-",
    "\u2010": "-",
    "\u2011": "-",
    "\u00d7": "",
    "\u00b7": "",
    "\u22c5": "",
    "\u2062": "",
    "\u00a0": " ",
    "\u202f": " ",
    "\u2009": " ",
    "\u2007": " ",
    "\u3000": " ",
    "\u201c": "",
    "\u201d": "",
    "\u2018": "'",
    "\u2019": "'",
    "\u00b2": "^2",
    "\u00bd": "0.5",
    "\u00bc": "0.25",
    "\u00be": "0.75",
    "\u221e": "inf",
    "\u200b": "",
    "\u00ad": "",
    "\u20ac": "",
    "\u00a3": "",
    "\u2260": "",
}
"""What is meant by characters that are copied from a page or a document; empty for those that are left out."""
_UNEQUAL = "\u2260"
_NO_BREAK_SPACE = "\u00a0"
_TYPED_TABLE = str.maketrans(_TYPED)
_MOST_READ_AGAIN = 2**24
_NAN = re.compile(r"[+-]?(?:nan.*|#n/a|#value!|-?1\.?#(?:qnan|snan|ind|nan)\w*|n/?a|null|none|tbd|todo)", re.IGNORECASE)


# ---- git


def conflict_marker(case: Case) -> Found | None:
    """Each format asks this first: a marker resembles relations of LP, and sections of MPS."""
    line = case.line.content
    return (
        Found(marks=(Mark(case.line.number, line, 0, len(line.rstrip())),), moves=True)
        if is_conflict_marker(line, case.content)
        else None
    )


# ---- bytes


def compressed(case: Case) -> Found | None:
    return FOUND if " compressed by " in case.words or "archive" in case.words else None


def byte_order_mark(case: Case) -> Found | None:
    return FOUND if case.words == "a byte order mark" else None


def utf_16(case: Case) -> Found | None:
    has_zeros = case.content[:200:2].count(0) > 10 or case.content[1:200:2].count(0) > 10
    return FOUND if case.words == "the file is UTF-16" or has_zeros else None


def cr_only(case: Case) -> Found | None:
    """The byte is a CR within the line, and the text has no line that ends with LF only or CR LF before it."""
    return FOUND if _byte(case) == b"\r" and case.line.number == 1 and case.line.content.count(b"\r") > 1 else None


def latin_1(case: Case) -> Found | None:
    """A byte from 0x80 on in a line that is not UTF-8."""
    if _byte(case) < b"\x80":
        return None
    try:
        case.line.content.decode("utf-8")
    except UnicodeDecodeError:
        at = 0 if case.place is None else case.place.start
        letter = case.line.content[at : at + 1].decode("windows-1252", "replace")
        return Found(f"the byte is {'a no-break space' if letter == _NO_BREAK_SPACE else letter} there")
    return None


def typed_character(case: Case) -> Found | None:
    """A character that a program for texts writes in place of one of ASCII."""
    start = 0 if case.place is None else case.place.start
    found = next((each for each in _TYPED if case.line.content.startswith(each.encode(), start)), None)
    if found is None or case.place is None:
        return None
    if found == _UNEQUAL:
        return Found(f"LP has no {found}")
    meant = _TYPED[found]
    name = "a no-break space" if found == _NO_BREAK_SPACE else found
    line = case.line.content.decode("utf-8", "replace")
    return Found(
        f"{name} is {'a space' if meant == ' ' else meant or 'left out'} in ASCII",
        " ".join(line.translate(_TYPED_TABLE).split()),
        means_other=not meant,
    )


def utf_8_letter(case: Case) -> Found | None:
    return FOUND if _byte(case) >= b"\x80" else None


def _byte(case: Case) -> bytes:
    return b"" if case.place is None else case.line.content[case.place.start : case.place.end]


# ---- numbers


def decimal_comma(case: Case) -> Found | None:
    """A comma in a field that has to be a number."""
    return comma_in(case.words)


def comma_in(word: str) -> Found | None:
    """What is said of a number with a comma."""
    if thousands := _THOUSANDS.fullmatch(word):
        whole = thousands[1].replace(",", "")
        if thousands[2] is not None or thousands[1].count(",") > 1:
            return Found(mend=whole + ("" if thousands[2] is None else f".{thousands[2]}"))
        return Found(f"{word} may be {word.replace(',', '.')} or {whole}")
    if points := _POINTS_AND_COMMA.fullmatch(word):
        return Found(mend=f"{points[1].replace('.', '')}.{points[2]}")
    return Found(mend=word.replace(",", ".")) if _COMMA.fullmatch(word) else None


def other_number(case: Case) -> Found | None:
    """An infinity, or an exponent of Fortran."""
    if match := _FORTRAN.fullmatch(case.words):
        return Found(mend=f"{match[1]}e{match[2]}")
    match = _INFINITY.fullmatch(case.words)
    if match is not None or nearest(case.words.lower().lstrip("+-"), ("infinity", "infinite")) is not None:
        return Found(mend=f"{'-' if case.words.startswith('-') else ''}1e30")
    return None


def nan(case: Case) -> Found | None:
    return FOUND if is_nan(case.words) else None


def is_nan(word: str) -> bool:
    """Whether a word is what a program writes that has no number."""
    return _NAN.fullmatch(word) is not None


def hexadecimal_value(word: str) -> str | None:
    """The value of a hexadecimal number, or None if a word is none."""
    return str(int(word, 16)) if _HEXADECIMAL.fullmatch(word) else None


def letters_as_digits(word: str) -> str | None:
    """The number that is meant by one with an O or an l among its digits, or None if a word has none."""
    if (
        not _WITH_LETTERS.fullmatch(word)
        or not any(letter in "OolI" for letter in word)
        or not any(letter.isdigit() for letter in word)
    ):
        return None
    return word.translate(_DIGITS)


def tiny_number(case: Case) -> Found | None:
    """The exponent is below the limit; with its digits before it, the number is nearer to 0 than all that are legal."""
    return FOUND if re.search(r"[eE]-", case.words) else None


# ---- ends


def no_end(case: Case) -> Found | None:
    """With the last line that is missing the text is accepted."""
    if len(case.content) > _MOST_READ_AGAIN:
        return None
    last = "ENDATA" if case.is_mps else "end"
    try:
        _mpslp.is_canonical(case.content.rstrip(b"\n") + f"\n{last}\n".encode(), case.text.format)
    except ModelFileError:
        return None
    return Found(mend=last)


def truncated(case: Case) -> Found | None:
    """The error is in the last line, which is not the end of an LP file."""
    is_end = not case.is_mps and case.line.content.strip().lower() == b"end"
    return FOUND if case.is_last_line and not is_end else None


def cr_after_comment(case: Case) -> Found | None:
    """The text has no LF, but CRs after its first byte: it is one line, which is a comment."""
    text = case.content.strip()
    return FOUND if b"\r" in text and b"\n" not in text else None


def emptied(case: Case) -> Found | None:
    return None if case.content.strip() else FOUND


RULES: tuple[Rule, ...] = (
    compressed,
    byte_order_mark,
    utf_16,
    cr_only,
    latin_1,
    typed_character,
    utf_8_letter,
    decimal_comma,
    nan,
    other_number,
    tiny_number,
    truncated,
    cr_after_comment,
    emptied,
    no_end,
)
