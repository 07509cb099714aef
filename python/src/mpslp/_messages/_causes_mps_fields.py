"""Rules for MPS: numbers that are written in another way, comments of other languages, and sections
of other readers.
"""

from __future__ import annotations

import re

from mpslp._messages._case import FOUND, Case, Found
from mpslp._messages._causes_both import Rule, hexadecimal_value, is_nan, letters_as_digits
from mpslp._messages._lp_sums import product_text, quotient_text, value_of
from mpslp._messages._nearest import nearest
from mpslp._messages._place import NUMBER
from mpslp._text._mps_words import BOUND_TYPES, HEADERS, MARKER, MARKERS, ROW_TYPES

_COMMENT = re.compile(rb"\s*(#+|//+|!+|%+|--+|;+|\\+|/\*|'|\")[ \t]*([^\n]*?)[ \t]*(?:\*/)?$")
_INDENTED = re.compile(rb"[ \t]+(\*+)[ \t]*([^\n]*?)$")
_MARKS = re.compile(r"(?:#|//|!|%|--|;|\\|/\*|\*|\$).*")
_THOUSANDS = re.compile(r"[+-]?\d{1,3}(?:[_'`]\d{3})+(?:\.\d*)?", re.ASCII)
_FRACTION = re.compile(r"([+-]?\d+(?:\.\d*)?)/(\d+(?:\.\d*)?)", re.ASCII)
_PRODUCT = re.compile(r"[+-]?\d+(?:\.\d*)?(?:\*[+-]?\d+(?:\.\d*)?)+", re.ASCII)
_SUM = re.compile(r"[+-]?\d+(?:\.\d*)?(?:[+-]\d+(?:\.\d*)?)+", re.ASCII)
_PERCENT = re.compile(r"([+-]?\d+(?:\.\d*)?)%", re.ASCII)
_CURRENCY = re.compile(r"\$([+-]?\d+(?:\.\d*)?)", re.ASCII)
_UNIT = re.compile(r"([+-]?\d+(?:\.\d*)?)([A-Za-z]+)", re.ASCII)
_POINTS = re.compile(r"[+-]?\d*(?:\.\d*){2,}", re.ASCII)
_EXPONENT = re.compile(r"[+-]?\d+(?:\.\d*)?[eE][+-]?(?:\d+\.\d*)?", re.ASCII)
_SIGNS = re.compile(r"([+-]+)(\d+(?:\.\d*)?(?:[eE][+-]?\d+)?)", re.ASCII)
_SIGN_AFTER = re.compile(r"(\d+(?:\.\d*)?)-", re.ASCII)
_SET = re.compile(r"(?:RHS|RNG|RANGES?|B|R)\d*", re.IGNORECASE)
_FIRST_SECTION = re.compile(rb"\s*\n(?:ROWS|OBJSENSE|OBJNAME)\b")
_RELATIONS = ("<", ">", "=", "<=", "=<", ">=", "=>", "==")
_MARKER_ENDS = [[each] for each in MARKERS]
_OTHER = {
    "general_constraints": ("GENCONS",),
    "piecewise_linear": ("PWLOBJ", "PWL", "PWLNAM", "PWLCON"),
    "scenarios": ("SCENARIOS", "PERIODS", "STOCH"),
}


# ---- comments


def other_comment(case: Case) -> Found | None:
    """A line that starts with the mark of a comment of another language, or with an asterisk after spaces; or such a
    mark after fields.
    """
    if case.edits and case.edits[0].sort == "stray_mark":
        return None
    match = _COMMENT.match(case.line.content) or _INDENTED.match(case.line.content)
    if match is not None and re.search(rb"[A-Za-z]", match[2]) and match[2].decode("latin-1") not in HEADERS:
        return Found(mend=f"* {match[2].decode('latin-1')}", marks=(case.mark_of_span(*match.span(1)),), moves=True)
    at = next(
        (
            at
            for at, field in enumerate(case.fields)
            if at > 1
            and _MARKS.fullmatch(field.text)
            and not is_nan(field.text.lstrip("#"))
            and not _is_signed(field.text)
        ),
        None,
    )
    if (
        at is None
        or not any(re.search("[A-Za-z]", field.text) for field in case.fields[at:])
        or case.section in ("", "NAME")
    ):
        return None
    note = " ".join(field.text for field in case.fields[at:]).strip("#/!%-;\\* ")
    return Found(mend=f"* {note}", marks=(case.mark_of(case.fields[at]),), moves=True)


def _is_signed(text: str) -> bool:
    return _SIGNS.fullmatch(text) is not None


# ---- fields


def separators(case: Case) -> Found | None:
    """A comma or a semicolon between the parts of a field that would be several, or that is a header."""
    for field in case.fields:
        parts = [part for part in re.split("[,;|:]", field.text) if part]
        is_data = len(parts) > 1 and (parts[0] in (*ROW_TYPES, *BOUND_TYPES, *HEADERS) or NUMBER.fullmatch(parts[-1]))
        if is_data and NUMBER.fullmatch(parts[0]) is None:
            return Found(mend="  ".join(parts), marks=(case.mark_of(field),), moves=True)
    return None


def marker_without_name(case: Case) -> Found | None:
    """The two words of a marker, which are the second and the third field."""
    words = [field.text for field in case.fields]
    return Found(mend=f"M  {words[0]}  {words[1]}") if words[:1] == [MARKER] and words[1:] in _MARKER_ENDS else None


def relation_in_fields(case: Case) -> Found | None:
    """A relation of LP among the fields."""
    at = next((at for at, field in enumerate(case.fields) if at and field.text in _RELATIONS), None)
    if at is None:
        return None
    rest = [text for text in case.texts if text not in _RELATIONS]
    mend = "  ".join(rest) if case.mps.fits(case.section, rest) else ""
    detail = "the number of a row is in RHS" if case.section == "ROWS" and not mend else ""
    return Found(detail, mend, marks=(case.mark_of(case.fields[at]),), moves=True)


def text_after_header(case: Case) -> Found | None:
    """A header, and after it what is no field of it."""
    words = [field.text for field in case.fields]
    is_header = case.is_header and len(words) > 1 and words[0] in HEADERS and not case.mps.fits(words[0], words[1:])
    return Found(mend=words[0], marks=(case.mark_of(case.fields[1]),), moves=True) if is_header else None


# ---- numbers


def space_in_number(case: Case) -> Found | None:
    """Groups of three digits in fields side by side, or with a mark between them."""
    if _THOUSANDS.fullmatch(case.words):
        return Found(mend=re.sub(r"[_'`]", "", case.words))
    for first, second in zip(case.fields, case.fields[1:]):
        if (
            re.fullmatch(r"[+-]?\d{1,3}", first.text)
            and re.fullmatch(r"\d{3}(?:\.\d*)?", second.text)
            and second.start == first.end + 1
            and case.fields.index(first)
        ):
            mark = case.mark_of(first)._replace(end=second.end)
            return Found(mend=first.text + second.text, marks=(mark,), moves=True)
    return None


def fraction(case: Case) -> Found | None:
    match = _FRACTION.fullmatch(case.words)
    return None if match is None or value_of(match[2]) == 0 else Found(mend=quotient_text(match[1], match[2]))


def product_of_numbers(case: Case) -> Found | None:
    return Found(mend=product_text(case.words.split("*"))) if _PRODUCT.fullmatch(case.words) else None


def two_numbers(case: Case) -> Found | None:
    """Numbers with a sign between them: a sum, or two fields without a space."""
    return FOUND if _SUM.fullmatch(case.words) else None


def percent(case: Case) -> Found | None:
    match = _PERCENT.fullmatch(case.words)
    return None if match is None else Found(mend=quotient_text(match[1], "100"))


def currency(case: Case) -> Found | None:
    match = _CURRENCY.fullmatch(case.words)
    return None if match is None else Found(mend=match[1])


def hexadecimal(case: Case) -> Found | None:
    value = hexadecimal_value(case.words)
    return None if value is None else Found(mend=value)


def letter_as_digit(case: Case) -> Found | None:
    meant = letters_as_digits(case.words)
    return None if meant is None else Found(mend=meant)


def two_points(case: Case) -> Found | None:
    return Found(f"{case.words} has {case.words.count('.')}") if _POINTS.fullmatch(case.words) else None


def odd_exponent(case: Case) -> Found | None:
    return FOUND if _EXPONENT.fullmatch(case.words) and not case.is_last_line else None


def unit_after_number(case: Case) -> Found | None:
    match = _UNIT.fullmatch(case.words)
    return None if match is None or match[2].lower() in ("e", "d", "inf") else Found(mend=match[1])


def signs_of_number(case: Case) -> Found | None:
    """Two signs, a sign after the number, or a space after the sign."""
    if match := _SIGNS.fullmatch(case.words):
        signed = ("-" if "-" in match[1] else "") + match[2]
        return Found(mend=signed) if match[1].count("-") < 2 else Found(f"{case.words} may be {match[2]} or {signed}")
    if match := _SIGN_AFTER.fullmatch(case.words):
        return Found(mend=f"-{match[1]}")
    for first, second in zip(case.fields, case.fields[1:]):
        if first.text in ("-", "+") and NUMBER.fullmatch(second.text):
            mark = case.mark_of(first)._replace(end=second.end)
            return Found(mend=f"{first.text}{second.text}".lstrip("+"), marks=(mark,), moves=True)
    return None


# ---- sections


def title_without_name(case: Case) -> Found | None:
    """The first line, and after it a section that comes after NAME."""
    if case.line.number > 1 or _FIRST_SECTION.match(case.content, case.line.start + len(case.line.content)) is None:
        return None
    words = [each.text for each in case.fields]
    is_header = nearest(words[0].upper().strip(":"), HEADERS) is not None
    return None if is_header or not words[0][0].isalpha() else Found(mend=f"NAME {words[-1]}")


def general_constraints(case: Case) -> Found | None:
    return _section(case, "general_constraints")


def piecewise_linear(case: Case) -> Found | None:
    return _section(case, "piecewise_linear")


def scenarios(case: Case) -> Found | None:
    return _section(case, "scenarios")


def _section(case: Case, name: str) -> Found | None:
    return FOUND if case.is_header and case.fields and case.fields[0].text.upper() in _OTHER[name] else None


RULES: tuple[Rule, ...] = (
    separators,
    marker_without_name,
    relation_in_fields,
    text_after_header,
    title_without_name,
    other_comment,
    space_in_number,
    fraction,
    product_of_numbers,
    two_numbers,
    percent,
    currency,
    hexadecimal,
    letter_as_digit,
    two_points,
    odd_exponent,
    unit_after_number,
    signs_of_number,
    general_constraints,
    piecewise_linear,
    scenarios,
)
