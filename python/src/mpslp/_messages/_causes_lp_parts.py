"""Rules for LP: comments of other languages, sections of other readers, and what is not legal under Bounds and in lists
of names.
"""

from __future__ import annotations

import re
from collections.abc import Sequence

from mpslp._messages._case import Case, Found
from mpslp._messages._causes_both import Rule
from mpslp._messages._causes_lp_words import TYPES_OF_MPS
from mpslp._messages._lp_edits import instead_of
from mpslp._messages._lp_suspects import (
    is_column,
    is_word,
    joined,
    lp_section,
    mark_of_text,
    on_lines,
    section_of,
    shown,
    suspects,
    text_of,
)
from mpslp._messages._lp_trials import Trial
from mpslp._messages._tokens import Token

_COMMENT = re.compile(r"\s*(\*+|!+|%+|--+|#+|//+|/\*|/(?=\s)|;+|'|\"|(?:REM|rem|Rem)(?=\s))\s*(.*?)\s*(?:\*/)?$")
_TRAILING = re.compile(
    r"[<>=]\s*[-+]*\s*[\d.]+(?:[eE][-+]?\d+)?\s*(!+|%+|#+|//+|/\*|/(?=\s)|--+|;+|\*+)\s*(\D.*?)\s*(?:\*/)?$"
)
_FREE = frozenset(
    (
        "fre",
        "freee",
        "fee",
        "feer",
        "frei",
        "freeing",
        "unbounded",
        "unbound",
        "unrestricted",
        "urs",
        "sign-free",
        "free-sign",
    )
)
_TYPES = {
    "integer": "Generals",
    "integers": "Generals",
    "int": "Generals",
    "general": "Generals",
    "gen": "Generals",
    "binary": "Binaries",
    "bin": "Binaries",
    "boolean": "Binaries",
    "bool": "Binaries",
}
_ALL = ("all", "every", "each", "any")
_SEVERAL = re.compile(r"multi-?objectives?")
_NEXT_SECTION = re.compile(rb"(?im)^[ \t]*(?:subject[ \t]+to|such[ \t]+that|st|s\.t\.)[ \t\r:]*$")
_OTHER_SECTION = re.compile(
    rb"(?im)^[ \t]*(?:(?P<general>gen(?:eral)?[ \t]+constraints?|gencons|genconstrs?)|"
    rb"(?P<pwl>pwl|pwlobj|piecewise[ \t]*linear)|(?P<scenario>scenarios?)|"
    rb"(?P<known>subject[ \t]+to|st|s\.t\.|bounds?|generals?|gen|integers?|int|"
    rb"binar(?:y|ies)|bin|semis?|semi-continuous|sos[12]?|end))(?=[ \t\r\n:]|$)"
)
_MOST_BEFORE = 2**20
_MOST_LINES = 6


# ---- comments


@on_lines
def other_comment(case: Case, line: Sequence[Token]) -> Found | None:
    """A line that starts with the mark of a comment of another language, or such a mark and words after a number."""
    text = text_of(case, line)
    match = _COMMENT.match(text)
    if match is None or not _is_text(line):
        match = _TRAILING.search(text)
    if match is None or not re.search(r"[A-Za-z]", match[2]) or _is_statement(match[1], case):
        return None
    if match[1][0] == ";" and re.search(r"[<>=]", match[2]):  # another row comes after it
        return None
    return Found(
        mend=f"\\ {match[2]}",
        marks=(mark_of_text(case, line, match.start(1), match.end(1)),),
        moves=True,
        means_other=True,
    )


def _is_text(line: Sequence[Token]) -> bool:
    """Whether a line is no row that starts with a mark: a relation comes after none of its words."""
    return not any(each.is_relation for each in line) or line[0].text[0] in "#!%/;'\""


def _is_statement(mark: str, case: Case) -> bool:
    """Whether the mark may be one of the language of lp_solve."""
    return mark == "/*" and b";" in case.content[:_MOST_BEFORE]


# ---- sections of other readers


def multi_objective(case: Case) -> Found | None:
    """The word of Gurobi and CPLEX after the sense; or a second label before the rows."""
    if case.token is None:
        return None
    for at, each in enumerate(case.tokens[: case.token_at]):
        near = "".join(token.text for token in case.tokens[at : at + 3]).lower()
        if each.word.startswith("multi") and _SEVERAL.match(near):
            tokens = [token for token in case.tokens[at : at + 3] if token.line == each.line]
            return shown(case, tokens)
    second, before = case.token, case.before()
    if before is not None and second.is_name and case.after is not None and case.after.text == ":":
        labels = [
            first for first, after in zip(case.tokens, case.tokens[1:]) if after.text == ":" and first is not second
        ]
        if (
            labels
            and not lp_section(case)
            and _NEXT_SECTION.search(case.content, case.line.start, case.line.start + _MOST_BEFORE)
        ):
            return Found(f"the first is {labels[0].text}, and {second.text} is another one")
    return None


def general_constraints(case: Case) -> Found | None:
    return _in_section(case, "general")


def piecewise_linear(case: Case) -> Found | None:
    return _in_section(case, "pwl")


def scenarios(case: Case) -> Found | None:
    return _in_section(case, "scenario")


def _in_section(case: Case, name: str) -> Found | None:
    """The error is in a section of that name, or at its heading: no other section starts between the two."""
    start = max(0, case.line.start - _MOST_BEFORE)
    last = None
    for last in _OTHER_SECTION.finditer(case.content, start, case.line.start + len(case.line.content)):
        pass
    return (
        None if last is None or last.lastgroup != name else Found(marks=(case.mark_at(*last.span(name)),), moves=True)
    )


# ---- Bounds


@on_lines
def several_in_bounds(case: Case, line: Sequence[Token]) -> Found | None:
    """Names side by side, perhaps with commas, and one bound for all."""
    if section_of(case, line) != "bounds":
        return None
    first = next((at for at, each in enumerate(line) if is_word(each)), None)
    if first is None:
        return None
    end = first
    while end < len(line) and (is_word(line[end]) or line[end].text == ","):
        end += 1
    names = [each.text.strip(",") for each in line[first:end] if each.text.strip(",")]
    rest = [*line[:first], *line[end:]]
    if (
        len(names) < 2
        or not any(each.word == "free" or each.is_relation for each in rest)
        or names[-1].lower() in _FREE
        or names[-1].lower() in TYPES_OF_MPS
    ):
        return None
    if names[0].lower() in _ALL:
        return shown(case, line[first:end], "LP has no word for all columns; their lower bounds are 0 by default")
    before, after = joined(line[:first]), joined(line[end:])
    lines = [" ".join(filter(None, (before, name, after))) for name in names]
    more = ["..."] if len(lines) > _MOST_LINES else []
    return shown(case, line[first:end])._replace(written="\n".join([*lines[:_MOST_LINES], *more]))


@on_lines
def word_for_free(case: Case, line: Sequence[Token]) -> Found | None:
    for first, second in zip(line, line[1:]):
        if section_of(case, line) == "bounds" and (is_word(first) or first.text == ":") and second.word in _FREE:
            name = line[0] if first.text == ":" else first
            return shown(case, (second,), mend=f"{name.text} free")
    return None


@on_lines
def label_in_bounds(case: Case, line: Sequence[Token]) -> Found | None:
    """A name and a colon at the start of a line."""
    if (
        section_of(case, line) != "bounds"
        or len(line) < 3
        or line[1].text != ":"
        or line[2].text == "="
        or not line[0].is_name
        or line[0].is_section
    ):
        return None
    rest = line[2:]
    mend = f"{line[0].text} free" if joined(rest).lower() == "free" else joined(rest)
    passes = Trial(case).passes(instead_of(case, line, mend))
    return shown(case, line[:2], mend=mend if passes else "")


def type_in_bounds(case: Case) -> Found | None:
    """A column, and the word that is its type, at the end of a line; the line of the last section, if it is before."""
    opening = next((each for each in reversed(case.tokens[: case.token_at]) if each.is_section), None)
    lines = [[each for each in case.tokens if each.line == opening.line]] if opening is not None else []
    return next((found for line in [*lines, *suspects(case)] if (found := _type_in(case, line)) is not None), None)


def _type_in(case: Case, line: Sequence[Token]) -> Found | None:
    if len(line) < 2 or line[-1].word not in _TYPES or line[0].is_section:
        return None
    names = [each for each in line if is_word(each)]
    has_colon = len(line) == 3 and line[1].text == ":"
    if len(names) != 1 or (len(line) > 2 and not has_colon and not any(each.is_relation for each in line)):
        return None
    rest = joined(line[:-1]) if line[-2].is_number else ""
    return shown(case, line, f"{names[0].text} belongs under {_TYPES[line[-1].word]}", rest)


# ---- lists


@on_lines
def row_in_list(case: Case, line: Sequence[Token]) -> Found | None:
    """A label, a colon and a relation, or terms and a relation, in a list of names."""
    if section_of(case, line) != "list" or not any(each.is_relation for each in line):
        return None
    is_row = len(line) > 3 and line[1].text == ":" and line[0].is_name
    names = [each for each in line if is_word(each)]
    return shown(case, line) if is_row or (len(names) > 1 and any(each.is_sign for each in line)) else None


@on_lines
def bound_in_list(case: Case, line: Sequence[Token]) -> Found | None:
    """A relation, a number, a colon or a sign in a list of names."""
    if line[0].is_section and len(line) > 1 and is_word(line[1]):
        line = line[1:]
    if section_of(case, line) != "list" or any(each.is_section for each in line):
        return None
    if not any(each.is_relation or each.is_number or each.is_sign or each.text == ":" for each in line):
        return None
    if all(each.is_sign for each in line):
        return None
    names = [each.text for each in line if is_word(each) and is_column(case, each.text)]
    name = " ".join(names) or next((each.text for each in line if is_word(each)), "")
    has_relation = len(names) == 1 and any(each.is_relation for each in line)
    return shown(case, line, f"the bound {joined(line)} belongs under Bounds" if has_relation else "", name)


RULES: tuple[Rule, ...] = (
    other_comment,
    multi_objective,
    general_constraints,
    piecewise_linear,
    scenarios,
    word_for_free,
    type_in_bounds,
    several_in_bounds,
    label_in_bounds,
    row_in_list,
    bound_in_list,
)
