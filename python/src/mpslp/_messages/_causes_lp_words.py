"""Rules for LP: labels without a colon, marks and words that are left over, and bounds that are not whole."""

from __future__ import annotations

import re
from collections.abc import Sequence

from mpslp._messages._case import FOUND, Case, Found
from mpslp._messages._causes_both import Rule
from mpslp._messages._lp_edits import instead_of, line_without
from mpslp._messages._lp_suspects import is_word, joined, lp_section, on_lines, section_of, shown
from mpslp._messages._lp_trials import Trial
from mpslp._messages._tokens import Token
from mpslp._text._lines import line_at
from mpslp._text._lp_words import FREE, INFINITIES, SENSES

_MARKS = re.compile(r"[!\"#$%&,/;?@'`{}|~^.]+")
_INFINITY = frozenset(("unlimited", "infinite", "unbounded", "infty", "oo", "infinit"))
TYPES_OF_MPS = {
    "up": "<=",
    "lo": ">=",
    "fx": "=",
    "fixed": "=",
    "fr": FREE,
    "bv": "",
    "mi": "",
    "pl": "",
    "lb": ">=",
    "ub": "<=",
    "max": "<=",
    "min": ">=",
}
_MOST_LOOKED_AT = 2**18
_MOST_WRITTEN = 30
"""A row of more tokens is not written again."""


def _is_used(case: Case, name: str, line: int) -> bool:
    """Whether a name is also on another line."""
    found = line_at(case.content, line)
    word = re.compile(rb"(?<![\w.])" + re.escape(name.encode("latin-1")) + rb"(?![\w.])")
    start = max(0, found.start - _MOST_LOOKED_AT // 2)
    return any(
        not found.start <= match.start() <= found.start + len(found.content)
        for match in word.finditer(case.content, start, start + _MOST_LOOKED_AT)
    )


@on_lines
def label_without_colon(case: Case, line: Sequence[Token]) -> Found | None:
    """A word that is on no other line, with a word or an equals sign after it, at the start of a row or objective."""
    if line[0].word in SENSES:
        line = line[1:]
    if (
        len(line) < 3
        or lp_section(case) not in ("", "rows")
        or not is_word(line[0])
        or ":" in (line[1].text, line[2].text)
    ):
        return None
    name, rest = line[0].text.rstrip(";,"), line[1:]
    is_assigned = rest[0].text == "=" and sum(each.is_relation for each in rest) > 1
    if is_assigned:
        rest = rest[1:]
    column = rest[1] if rest[0].is_number or rest[0].is_sign else rest[0]
    is_label = is_assigned or name != line[0].text or len(rest) > 1
    if not is_label or not name or not is_word(column) or _is_used(case, name, line[0].line):
        return None
    if not _is_used(case, column.text, column.line) or rest[-1].text == ":":
        return None
    if not is_word(rest[0]) and not Trial(case).passes(instead_of(case, line[:1], f"{name}:")):
        return None
    mend = f"{name}: {joined(rest)}" if len(rest) <= _MOST_WRITTEN else f"{name}:"
    return shown(case, line[:1], mend=mend)._replace(means_other=True)


def colon_without_label(case: Case) -> Found | None:
    """A colon after a number, or after another one."""
    before, token = case.before(), case.token
    if before is None or token is None or token.text != ":" or before.line != token.line:
        return None
    if not before.is_number and before.text != ":":
        return None
    return FOUND if lp_section(case) in ("", "rows") else None


@on_lines
def comma_between_terms(case: Case, line: Sequence[Token]) -> Found | None:
    """A column with a comma or a semicolon at its end, and another one after it."""
    for first, second in zip(line, line[1:]):
        name = first.text.rstrip(",;")
        is_term = is_word(second) or second.is_number
        if name and name != first.text and is_word(first) and is_term and lp_section(case) in ("", "rows"):
            return shown(case, (first, second), mend=f"{name} + {second.text}")._replace(means_other=True)
    return None


def lone_mark(case: Case) -> Found | None:
    """A mark with spaces around it, which is no relation and no name; or a word that starts with a period."""
    before, token, after = case.before(), case.token, case.after
    for each in (token, before):
        if each is not None and each.line == case.line.number and _MARKS.fullmatch(each.text):
            is_before_name = each is token and each.text == "." and after is not None and after.line == each.line
            if is_before_name and after is not None and after.start == each.end:
                return shown(case, (each,), f".{after.text} is no name, since it starts with a period")
            trial = Trial(case)
            if trial.passes(instead_of(case, (each,))):
                return shown(case, (each,), mend=line_without(case, (each,)))
            if trial.passes(instead_of(case, (each,), "<=")):
                return shown(case, (each,), f"a relation is expected instead of {each.text}: <=, >= or =")
    return None


def word_between_terms(case: Case) -> Found | None:
    """A word that is on no other line, between two columns that are: the token with the error, or the one before."""
    near = [
        each for each in case.tokens[max(0, case.token_at - 2) : case.token_at + 2] if each.line == case.line.number
    ]
    if lp_section(case) not in ("", "rows"):
        return None
    for first, word, second in zip(near, near[1:], near[2:]):
        if (
            not (
                is_word(first)
                and is_word(word)
                and ((is_word(second) and _is_used(case, second.text, second.line)) or second.is_number)
            )
            or not word.text.isalpha()
        ):
            continue
        if _is_used(case, first.text, first.line) and not _is_used(case, word.text, word.line):
            return shown(case, (word,))._replace(means_other=True)
    return None


# ---- Bounds


@on_lines
def bound_of_mps(case: Case, line: Sequence[Token]) -> Found | None:
    """A type of MPS before a column, or after it."""
    if (
        section_of(case, line) != "bounds"
        or not 2 <= len(line) <= 5
        or any(each.is_relation and each.text != "=" for each in line)
    ):
        return None
    words = [each for each in line if each.is_name]
    kind = next((each for each in words if each.word.strip(".:=") in TYPES_OF_MPS), None)
    names = [each.text for each in words if each is not kind]
    if kind is None or not names:
        return None
    relation = TYPES_OF_MPS[kind.word.strip(".:=")]
    number = "".join(each.text for each in line if each.is_number or each.is_sign)
    mend = f"{names[-1]} {relation} {number}".strip() if relation == FREE or (relation and number) else ""
    return shown(case, line, mend=mend)


@on_lines
def word_for_infinity(case: Case, line: Sequence[Token]) -> Found | None:
    for before, each in zip((None, *line), line):
        is_beside = before is not None and (before.is_relation or before.is_sign)
        is_none = each.word in ("none", "no") and section_of(case, line) == "bounds"
        if (
            (
                each.word in _INFINITY
                or is_none
                or (each.word.startswith("inf") and each.word not in INFINITIES and is_word(each))
            )
            and (is_beside or each is line[0])
            and any(other.is_relation for other in line)
        ):
            return shown(case, (each,), mend="inf")._replace(means_other=True)
    return None


@on_lines
def text_after_bound(case: Case, line: Sequence[Token]) -> Found | None:
    """A column, a relation, a number and a word."""
    text = " ".join(
        "+" if each.is_sign else "n" if each.is_number else "<" if each.is_relation else "w" for each in line
    )
    match = re.fullmatch(r"(?:(?:\+ )?n < )?w < (?:\+ )?n((?: w)+)", text)
    if match is None or section_of(case, line) != "bounds" or not line[-1].text[0].isalpha():
        return None
    return shown(case, line[-match[1].count("w") :], mend=joined(line[: -match[1].count("w")]))


@on_lines
def signs_of_number(case: Case, line: Sequence[Token]) -> Found | None:
    """Two signs between a relation and a number."""
    for relation, first, second, number in zip(line, line[1:], line[2:], line[3:]):
        if relation.is_relation and first.is_sign and second.is_sign and number.is_number:
            sign = "-" if (first.text == "-") != (second.text == "-") else ""
            return shown(case, (first, second, number), mend=f"{sign}{number.text}")
    return None


RULES: tuple[Rule, ...] = (
    colon_without_label,
    label_without_colon,
    comma_between_terms,
    word_between_terms,
    bound_of_mps,
    word_for_infinity,
    text_after_bound,
    signs_of_number,
)
