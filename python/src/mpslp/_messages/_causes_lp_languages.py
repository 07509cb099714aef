"""Rules for LP: what modelling languages and other readers have, and LP has not: functions, loops, ranges, sections."""

from __future__ import annotations

import re
from collections.abc import Sequence

from mpslp._messages._case import Case, Found
from mpslp._messages._causes_both import Rule
from mpslp._messages._causes_lp_parts import general_constraints
from mpslp._messages._lp_edits import is_used, start_of
from mpslp._messages._lp_suspects import (
    is_glued,
    is_word,
    joined,
    lp_section,
    mark_of_text,
    on_lines,
    section_of,
    shown,
    text_of,
)
from mpslp._messages._lp_trials import Edit, Trial
from mpslp._messages._tokens import Token
from mpslp._text._lp_words import INFINITIES

_FUNCTION = re.compile(
    r"(?<![\w.])(?:max|min|abs|and|or|norm|exp|log|ln|sqrt|sin|cos|tan|pow)\s*\(|[\w)]\s+(?:mod|div|xor)\s+[\w(]",
    re.IGNORECASE,
)
_LOOP = re.compile(
    r"(?<![\w.])(?:(?:sum|prod|for|forall)\s*(?:\{|\([^()]*(?:\bin\b|\.\.|=))|(?:for|sum|prod)\s+\w+\s*(?:\bin\b|=)"
    r"|forall\s+\w+|for\s+(?:all|each|every)\b|(?:sum|prod)\s*_(?:\{|[a-z]\s+\w+_?[\[({]?[a-z]\b)|sum\s+over\b"
    r"|(?:sum|prod)\s*\(\w+\)\s+[A-Za-z_]\w*)|\+\s*\.\.\.?\s*\+|\\sum\b|@(?:sum|for)\b"
    r"|\bsum\s*\(\s*\w+:\w+\s*\)|,\s*(?:for\s+)?[a-z]\s*(?:=|in\b)\s*\d+\s*(?:,|\.\.|to\b)",
    re.IGNORECASE,
)
_NUMBER = r"[-+]?(?:\d+(?:\.\d+)?|\.\d+)"
_IN_QUOTES = re.compile(rf"(?:\[\s*{_NUMBER}\s*\]|\(\s*{_NUMBER}\s*\)|\"{_NUMBER}\"|'{_NUMBER}')\s*$")
_BRACKETS = re.compile(
    rf"(?<![\w.])(?P<name>[A-Za-z_][\w.]*)\s*(?::?=|:|\bin\b|\bis\b|\s)\s*[\[({{]\s*(?P<lower>{_NUMBER})\s*"
    rf"(?:\.\.|,|;)\s*(?P<upper>{_NUMBER})\s*[\])}}]\s*$",
    re.IGNORECASE,
)
_BETWEEN = re.compile(
    rf"(?<![\w.])(?P<name>[A-Za-z_][\w.]*)\s+(?:is\s+)?(?:between|from|in)\s+(?P<lower>{_NUMBER})\s+(?:and|to)\s+"
    rf"(?P<upper>{_NUMBER})\s*$",
    re.IGNORECASE,
)
_LIMIT = rf"(?:{_NUMBER}|[-+]?inf(?:inity)?)"
_SIDE_BY_SIDE = re.compile(
    rf"\s*(?P<name>[A-Za-z_][\w.]*)\s*(?:[:=]\s*)?(?<![\w.])(?P<lower>{_LIMIT})\s*(?:,|;|"
    rf"to\b|\s)\s*(?P<upper>{_LIMIT})\s*$",
    re.IGNORECASE,
)
_TO = re.compile(rf"\s*(?P<lower>{_NUMBER})\s*(?:to|-|\.\.+)\s*(?P<upper>{_NUMBER})\s+(?P<name>[A-Za-z_][\w.]*)\s*$")
_DASH = re.compile(
    r"\s*(?P<name>[A-Za-z_][\w.]*)\s*(?:[:=]|in\b|\s)\s*(?P<lower>\d+(?:\.\d+)?)\s*-\s*(?P<upper>\d+(?:\.\d+)?)\s*$"
)
_DOTS = re.compile(
    rf"(?:(?<![\w.])(?P<before>[A-Za-z_][\w.]*)\s*(?::?=|\bin\b)\s*|(?<![\w.]))(?P<lower>{_NUMBER})\s*\.\.\s*"
    rf"(?P<upper>{_NUMBER})(?![\w.])(?:\s+(?P<name>[A-Za-z_]\w*))?"
)
_FREE = re.compile(
    r"(\S+) (?:is|=) (?:free|unbounded|unrestricted|unlimited)|free (\S+)|(\S+) free[;,.]", re.IGNORECASE
)
_SEMI_INTEGER = "semi-integer columns are not supported: write a binary column for each, as for a semi-continuous one"
_TYPES = "columns are continuous unless they are listed"
_OTHER = {
    "rhs": "the right-hand side is a part of its row",
    "continuous": _TYPES,
    "variables": _TYPES,
    "declarations": _TYPES,
    "vars": _TYPES,
    "free": "a column without bounds is x free under Bounds",
    "frees": "a column without bounds is x free under Bounds",
    "sec": "the keyword is semi-continuous",
    "sin": _SEMI_INTEGER,
    "special": "special ordered sets are not supported",
    "print": "LP has no statements",
    "sets": "special ordered sets are not supported",
    "pin": "partial integers are not supported",
    "solve": "LP has no statements",
    "optimize": "LP has no statements",
    "display": "LP has no statements",
    "stop": "LP has no statements",
    "constraints": "the rows come under subject to",
}
"""Sections and statements of other readers by their words, with what LP has instead."""
_SECOND_WORDS = ("integers", "integer", "variables", "priorities", "values", ":")
_SIGN_WORDS = {"plus": "+", "minus": "-", "times": ""}
_NUMBER_WORDS = {
    word: number
    for number, word in enumerate(
        "zero one two three four five six seven eight nine ten eleven twelve thirteen fourteen fifteen sixteen "
        "seventeen eighteen nineteen twenty".split()
    )
} | {"thirty": 30, "forty": 40, "fifty": 50, "sixty": 60, "hundred": 100, "thousand": 1000, "million": 1000000}


@on_lines
def function_of_columns(case: Case, line: Sequence[Token]) -> Found | None:
    """The name of a function, and beside it a parenthesis."""
    match = _FUNCTION.search(text_of(case, line))
    if match is None or section_of(case, line) == "list" or general_constraints(case) is not None:
        return None
    return Found(marks=(mark_of_text(case, line, *match.span()),), moves=True, means_other=True)


@on_lines
def loop(case: Case, line: Sequence[Token]) -> Found | None:
    """A sum or a loop over an index."""
    match = _LOOP.search(text_of(case, line))
    if match is None or is_used(case, match[0].split()[0]):
        return None
    return Found(marks=(mark_of_text(case, line, *match.span()),), moves=True, means_other=True)


@on_lines
def range_of_values(case: Case, line: Sequence[Token]) -> Found | None:
    """Two numbers in brackets, with two points between them, or after ``between``."""
    text = text_of(case, line)
    match = _BRACKETS.search(text) or _BETWEEN.search(text) or _DOTS.search(text)
    if match is None and section_of(case, line) == "bounds":
        match = _SIDE_BY_SIDE.match(text) or _TO.match(text) or _DASH.match(text)
    if match is None:
        return None
    name = match.groupdict().get("before") or match["name"]
    if name is None and not text[: match.start()].rstrip().endswith(":"):  # it may be a number with two points
        return None
    if re.fullmatch(r".*\{\s*0\s*[,;]\s*1\s*\}\s*", text):
        return Found(
            "{0, 1} is meant for a column under Binaries",
            marks=(mark_of_text(case, line, *match.span()),),
            moves=True,
            means_other=True,
        )
    first = next((each for each in line if name and each.start <= match.start(_group_of_name(match)) < each.end), None)
    start = match.start() if first is None else min(first.start, match.start())
    mark = mark_of_text(case, line, start, match.end())
    mend = "" if first is None else f"{match['lower']} <= {first.text} <= {match['upper']}"
    place = start_of(case, line[0].line)
    passes = Trial(case).passes(Edit(place + start, place + match.end(), mend.encode("latin-1")))
    return Found(mend=mend if passes else "", marks=(mark,), moves=True, means_other=True)


def _group_of_name(match: re.Match[str]) -> str:
    return "before" if match.groupdict().get("before") else "name"


@on_lines
def other_section(case: Case, line: Sequence[Token]) -> Found | None:
    """A word of another reader, on a line of its own or before names."""
    first, rest = line[0], line[1:]
    if first.word == "semi" and len(rest) > 1 and rest[0].text == "-" and rest[1].word.startswith("int"):
        return shown(case, line[:3], _SEMI_INTEGER)
    if first.word == "semi" and len(rest) > 1 and rest[0].text == "-" and rest[1].word in ("cont", "cont."):
        return shown(case, line[:3], _OTHER["sec"])
    is_heading = not rest or (len(rest) == 1 and rest[0].word in _SECOND_WORDS)
    is_list = first.word in ("sec", "sin", "pin", "print") and all(each.is_name for each in rest)
    if first.word not in _OTHER or not (is_heading or is_list) or not lp_section(case):
        return None
    if first.word == "constraints" and section_of(case, line) == "rows":
        return None
    return shown(case, line[:1], _OTHER[first.word])._replace(means_other=True)


@on_lines
def sign_in_words(case: Case, line: Sequence[Token]) -> Found | None:
    """A word for a sign between two columns."""
    for before, word, after in zip(line, line[1:], line[2:]):
        if word.word == "x" and before.is_number and is_word(after) and not is_used(case, word.text):
            return shown(case, (word,), mend=f"{before.text} {after.text}")._replace(means_other=True)
        if word.word in _SIGN_WORDS and before.is_name and (after.is_name or after.is_number):
            mend = " ".join(filter(None, (before.text, _SIGN_WORDS[word.word], after.text)))
            return shown(case, (word,), mend=mend)._replace(means_other=True)
    return None


@on_lines
def number_in_words(case: Case, line: Sequence[Token]) -> Found | None:
    """After a relation a word for a number."""
    for before, word in zip(line, line[1:]):
        if before.is_relation and word.word in _NUMBER_WORDS:
            return shown(case, (word,), mend=str(_NUMBER_WORDS[word.word]))._replace(means_other=True)
    return None


@on_lines
def free_in_words(case: Case, line: Sequence[Token]) -> Found | None:
    """``x is free``, ``free x`` or ``x free;``."""
    match = _FREE.fullmatch(joined(line))
    if match is None or section_of(case, line) != "bounds":
        return None
    return shown(case, line, mend=f"{next(filter(None, match.groups())).strip(';,')} free")


@on_lines
def infinity_without_relation(case: Case, line: Sequence[Token]) -> Found | None:
    """A column and a word for infinity."""
    is_pair = len(line) == 2 and line[0].is_name and line[1].word in INFINITIES
    return shown(case, line) if is_pair and section_of(case, line) == "bounds" else None


@on_lines
def number_in_quotes(case: Case, line: Sequence[Token]) -> Found | None:
    """A number in quotes, brackets or parentheses at the end of a line."""
    text = text_of(case, line)
    match = _IN_QUOTES.search(text)
    if match is None or not re.search(r"[<>=]\s*[-+]?\s*$", text[: match.start()]):
        return None
    return Found(
        mend=match[0].strip(" \t[]()\"'"),
        marks=(mark_of_text(case, line, *match.span()),),
        moves=True,
        means_other=True,
    )


@on_lines
def relation_first(case: Case, line: Sequence[Token]) -> Found | None:
    """A relation at the start of a line under Bounds."""
    is_first = line[0].is_relation and not (len(line) > 1 and line[1].is_relation)
    return shown(case, line[:1]) if is_first and section_of(case, line) == "bounds" else None


@on_lines
def quoted_label(case: Case, line: Sequence[Token]) -> Found | None:
    """A quotation mark before the first word, and one before the colon, with a space between them."""
    at = next((at for at, each in enumerate(line) if each.text == ":"), 0)
    if at < 2 or line[0].text[0] not in "'\"" or line[at - 1].text[-1] != line[0].text[0]:
        return None
    return shown(case, line[:at], mend="_".join(each.text.strip("'\"") for each in line[:at]) + ":")


@on_lines
def sign_in_label(case: Case, line: Sequence[Token]) -> Found | None:
    """A sign between the words of a label, without spaces."""
    at = next((at for at, each in enumerate(line) if each.text == ":"), 0)
    label = line[:at]
    if len(label) < 3 or not any(each.is_sign for each in label) or not label[0].is_name or label[0].is_section:
        return None
    if not all(is_glued(*pair) for pair in zip(label, label[1:])):
        return None
    return shown(case, label, mend="".join("_" if each.is_sign else each.text for each in label) + ":")


RULES: tuple[Rule, ...] = (
    loop,
    function_of_columns,
    range_of_values,
    other_section,
    sign_in_words,
    number_in_words,
    free_in_words,
    infinity_without_relation,
    number_in_quotes,
    relation_first,
    quoted_label,
    sign_in_label,
)
