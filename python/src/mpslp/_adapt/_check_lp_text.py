"""The tokens, sections and sums of the check of LP files: not those of `_text`, whose mistakes they would share."""

from __future__ import annotations

import re
from collections.abc import Iterator, Sequence
from fractions import Fraction
from functools import lru_cache
from typing import NamedTuple

Limit = Fraction | float
"""A number, or an infinite one."""

_TOKEN = re.compile(
    r"[ \t]*(?:(?P<space>\s+)|(?P<sign>[+-]|\xe2\x88\x92)"
    r"|(?P<number>(?:\d+(?:\.\d*)?|\.\d+)(?:[eE][+-]?\d+)?(?:\#[iI][nN][fF])?)"
    r"|(?P<name>(?:[^\s\\<>=:*^+\-\[\]\xe2]+|(?!\xe2\x89[\xa4\xa5]|\xe2\x88\x92)\xe2|\[[^\s\[\]<>=*^]*\])+)"
    r"|\\(?P<comment>[^\n]*)"
    r"|(?P<relation>[<>]=?|=[<>=]?|\xe2\x89[\xa4\xa5])|(?P<colon>:)|(?P<star>\*)|(?P<other>\S)|\Z)",
    re.ASCII,  # the bytes of letters such as à are no spaces
)
_TOKEN_OF_QSOPT = re.compile(_TOKEN.pattern.replace(r"|(?P<number>", r"|(?P<number>\d+/\d+(?![\d.])|"), re.ASCII)
_LINE_END = re.compile(r"[ \t\r]*(?:\\|\n|\Z)")
_WORD_OF_PULP = re.compile(r"\\(?P<comment>[^\n]*)|(?P<word>\S+)|(?P<space>\s+)", re.ASCII)
_NUMBER = re.compile(r"(?=\.?\d)(?P<whole>\d*)(?:\.(?P<part>\d*))?(?:[eE](?P<power>[+-]?\d+))?")
_INFINITE_WORDS = ("inf", "infinity")
INFINITE_SIDES = ("infty", "infin")
_RANGE = re.compile(r" RANGE \(.*\)\s*")
_CONSTANT = re.compile(r"\* constant term = (-?)([0-9]+(?:\.[0-9]*)?(?:e[+-]?[0-9]+)?) \*\\")
_NEGATED = " the constant of the objective is negated: it was that of CoinUtils"
HEADERS = {
    **dict.fromkeys(("min", "minimize", "minimum", "minimise", "minimization"), "min"),
    **dict.fromkeys(("max", "maximize", "maximum", "maximise", "maximization"), "max"),
    **dict.fromkeys(("subject to", "such that", "st", "s.t.", "st."), "rows"),
    **dict.fromkeys(("bound", "bounds"), "bounds"),
    **dict.fromkeys(("general", "generals", "gen", "integer", "integers", "int"), "generals"),
    **dict.fromkeys(("binary", "binaries", "bin"), "binaries"),
    **dict.fromkeys(("semi", "semis"), "semis"),
    "end": "end",
}
_FIRST_WORDS = {header.split()[0] for header in HEADERS}
_LONGEST_NUMBER = 1000
_LARGEST_EXPONENT = 1000
"""What is beyond is no number of mpslp's LP format."""

_MOST_DIGITS_OF_EXPONENT = 18
_INFINITE = float("inf")


class LpToken(NamedTuple):
    """A token: a relation is one of <, > and =, and a sign one of + and -."""

    kind: str
    text: str
    line: int
    is_joined: bool = False
    """Whether no space is before it."""


new_token = tuple.__new__
"""Makes a token in half of the time that the class needs: a file has many."""


class Unreadable(Exception):
    """A text that has no reading, or more than one."""

    def __init__(self, line: int, reason: str) -> None:
        super().__init__(line, reason)
        self.line = line
        self.reason = reason


# ---- tokens


def tokens_of(text: str, dialect: str | None) -> list[LpToken]:
    """The tokens of a text in latin-1, without the first lines of QSopt_ex; some comments are tokens."""
    found = list(
        _words_of_pulp(text) if dialect == "pulp" else _tokens(text, _TOKEN_OF_QSOPT if dialect == "qsopt" else _TOKEN)
    )
    if found and dialect == "qsopt" and found[0].text.lower() == "problem":
        found = [token for token in found if token.line > found[0].line + 1]
    return found


def _tokens(text: str, pattern: re.Pattern[str]) -> Iterator[LpToken]:
    line, end = 1, 0  # where the last token ends
    for found in pattern.finditer(text):
        kind = found.lastgroup or "space"
        word = found[kind] or ""
        if kind == "space":
            line += word.count("\n")
        elif kind == "comment":
            yield from _remark(word, line)
        else:
            is_joined = found.start(kind) == end
            end = found.end()
            yield (
                new_token(LpToken, (kind, word, line, is_joined))
                if kind == "number"
                else _plain(kind, word, line, is_joined)
            )
            if kind == "name" and len(word) == 3 and word.lower() == "end" and _LINE_END.match(text, end):
                return


def _remark(text: str, line: int) -> Iterator[LpToken]:
    if _RANGE.fullmatch(text):
        yield LpToken("range", text, line)
    elif _CONSTANT.match(text):
        yield LpToken("constant", text, line)
    elif text.rstrip() == _NEGATED:
        yield LpToken("negated", text, line)


def _plain(kind: str, text: str, line: int, is_joined: bool = False) -> LpToken:
    if kind == "relation":
        text = "<" if "<" in text or text.endswith("\xa4") else ">" if ">" in text or text.endswith("\xa5") else "="
        is_joined = False
    elif kind == "sign":
        text, is_joined = "+" if text == "+" else "-", False
    elif kind == "name" and text[0] in "iI" and text.lower() in _INFINITE_WORDS:
        kind, text, is_joined = "number", "inf", False
    elif kind == "other":
        raise Unreadable(line, f"the sign {text}")
    return new_token(LpToken, (kind, text, line, is_joined))


def _words_of_pulp(text: str) -> Iterator[LpToken]:
    """PuLP has spaces between all tokens, and a label ends with a colon."""
    line, last = 1, 0  # the line of the last word
    for found in _WORD_OF_PULP.finditer(text):
        word = found[0]
        if found["space"] is not None:
            line += word.count("\n")
        elif found["comment"] is not None:
            yield from _remark(found["comment"], line)
        else:
            yield from _parts_of_word(word, line)
            if word.lower() == "end" and last != line and _LINE_END.match(text, found.end()):
                return
            last = line


def _parts_of_word(word: str, line: int) -> Iterator[LpToken]:
    sign, rest = (word[0], word[1:]) if word[0] in "+-" else ("", word)
    if re.fullmatch(r"[<>]=?|=[<>=]?|\xe2\x89[\xa4\xa5]", word):
        yield _plain("relation", word, line)
    elif _NUMBER.fullmatch(rest) or rest.lower() == "inf" or not rest:
        if sign:
            yield LpToken("sign", sign, line)
        if rest:
            yield LpToken("number", rest, line)
    elif len(word) > 1 and word.endswith(":"):
        yield LpToken("name", word[:-1], line)
        yield LpToken("colon", ":", line)
    elif word in ("*", ":"):
        yield LpToken("star" if word == "*" else "colon", word, line)
    else:
        yield LpToken("name", word, line)


# ---- sections


class LpSection(NamedTuple):
    """A section: its name, its tokens, and the line of its header."""

    name: str
    tokens: list[LpToken]
    line: int


def sections_of(tokens: Sequence[LpToken], dialect: str | None) -> list[LpSection]:
    """The sections of a file, of which the first is the objective."""
    found: list[LpSection] = []
    at = 0
    while at < len(tokens):
        is_word = tokens[at].kind == "name" and tokens[at].text.lower() in _FIRST_WORDS
        name, count = header_at(tokens, at, dialect, found[-1].name if found else "") if is_word else ("", 0)
        if name:
            found.append(LpSection(name, [], tokens[at].line))
            at += count
            if at < len(tokens) and tokens[at].kind == "colon" and name not in ("min", "max"):
                at += 1
            if name == "end":
                break
            continue
        if not found:
            raise Unreadable(tokens[at].line, "no objective")
        token = tokens[at]
        at += 1
        if token.kind == "number" and token.line != tokens[at - 2].line:
            if _is_label_with_digit(tokens, at - 1):
                token = LpToken("name", token.text + tokens[at].text, token.line)
                at += 1
            elif _is_label_of_number(tokens, at - 1):
                token = token._replace(kind="name")
        found[-1].tokens.append(token)
    return found


def header_at(tokens: Sequence[LpToken], at: int, dialect: str | None, section: str) -> tuple[str, int]:
    """The section that a token opens and how many tokens its header has, or nothing."""
    word = tokens[at].text.lower()
    following = tokens[at + 1].text.lower() if at + 1 < len(tokens) else ""
    if tokens[at].kind != "name":
        return "", 0
    if f"{word} {following}" in HEADERS and not (section == "rows" and _is_name_here(tokens, at, dialect, section)):
        return "rows", 2
    if word not in HEADERS or (section and HEADERS[word] in ("min", "max")):
        return "", 0
    if at and _is_name_here(tokens, at, dialect, section):
        return "", 0
    is_dashed = (
        word == "semi" and following == "-" and at + 2 < len(tokens) and tokens[at + 2].text.lower() == "continuous"
    )
    return HEADERS[word], 3 if is_dashed else 1


def _is_name_here(tokens: Sequence[LpToken], at: int, dialect: str | None, section: str) -> bool:
    """Whether a word that may open a section is a name where it is."""
    token, before = tokens[at], tokens[at - 1]
    if before.kind in ("sign", "star") or (dialect == "pulp" and before.line == token.line):
        return True
    if at + 1 == len(tokens) or tokens[at + 1].line != token.line:
        return False
    after = tokens[at + 1]
    if after.kind == "colon":
        return at + 2 < len(tokens) and tokens[at + 2].line == token.line
    if after.kind == "relation" or (after.text.lower() == "free" and section == "bounds"):
        return True
    is_dashed = token.text.lower() == "semi" and after.text == "-"
    return after.kind == "sign" and HEADERS[token.text.lower()] not in ("rows", "bounds", "end") and not is_dashed


def _is_label_with_digit(tokens: Sequence[LpToken], at: int) -> bool:
    """Whether a label such as 2x starts a line."""
    if at + 2 >= len(tokens) or not _starts_label(tokens, at) or not tokens[at + 1].is_joined:
        return False
    return tokens[at].kind == "number" and tokens[at + 1].kind == "name" and tokens[at + 2].kind == "colon"


def _starts_label(tokens: Sequence[LpToken], at: int) -> bool:
    """Whether a number at the start of a line is no right-hand side."""
    if not at or tokens[at - 1].line == tokens[at].line:
        return False
    return tokens[at - 1].kind != "relation" and not (
        tokens[at - 1].kind == "sign" and tokens[at - 2].kind == "relation"
    )


def _is_label_of_number(tokens: Sequence[LpToken], at: int) -> bool:
    return (
        tokens[at].kind == "number"
        and _starts_label(tokens, at)
        and at + 1 < len(tokens)
        and tokens[at + 1].kind == "colon"
    )


# ---- sums


class Side(NamedTuple):
    """A side of a row, or the objective: its terms, with those of one column added, its constant, and of how many
    numbers it is the sum.
    """

    terms: dict[str, Fraction]
    constant: Limit
    constants: int


def side_of(tokens: Sequence[LpToken]) -> Side:
    """The sum that tokens are: each term but the first has a sign."""
    terms: dict[str, Fraction] = {}
    constant: Limit = Fraction(0)
    constants, at = 0, 0
    while at < len(tokens):
        start, is_negative = at, False
        while at < len(tokens) and tokens[at].kind == "sign":
            is_negative ^= tokens[at].text == "-"
            at += 1
        if start and at == start:
            raise Unreadable(tokens[at].line, "no sign between terms")
        end = at
        while end < len(tokens) and tokens[end].kind != "sign":
            end += 1
        name, number = _term(tokens[at:end], is_negative, tokens[start].line)
        if name is None:
            constant, constants = constant + number, constants + 1
        elif isinstance(number, float):
            raise Unreadable(tokens[start].line, "an infinite coefficient")
        else:
            terms[name] = terms[name] + number if name in terms else number
        at = end
    return Side(terms, constant, constants)


def _term(tokens: Sequence[LpToken], is_negative: bool, line: int) -> tuple[str | None, Limit]:
    """The name of a term, or None for a constant, and its number."""
    shape = "".join([token.kind[:2] for token in tokens])
    places = _SHAPES.get(shape)
    if places is None:
        raise Unreadable(line, "no term: " + " ".join(token.text for token in tokens))
    name = None if places.name is None else tokens[places.name].text
    if shape == _NAME_ONLY and tokens[0].text.lower() in INFINITE_SIDES:
        return None, -_INFINITE if is_negative else _INFINITE
    number = signed_number("1" if places.number is None else tokens[places.number].text, is_negative)
    if number is None:
        raise Unreadable(line, f"a division by 0: {tokens[places.number or 0].text}")
    return name, number


class _Places(NamedTuple):
    """Where in a term its number and its name are."""

    number: int | None
    name: int | None


_NAME_ONLY = "na"
_SHAPES = {
    "nu": _Places(0, None),
    _NAME_ONLY: _Places(None, 0),
    "nuna": _Places(0, 1),
    "nustna": _Places(0, 2),
    "nastnu": _Places(2, 0),
}
"""The terms, by the first letters of the kinds of their tokens."""


@lru_cache(maxsize=100_000)
def signed_number(text: str, is_negative: bool) -> Limit | None:
    """The value of a number with a sign, or None for a division by 0, or by a number that is too long."""
    number = number_of(text)
    return -number if is_negative and number is not None else number


def number_of(text: str) -> Limit | None:
    """The value of an unsigned number, or None for a division by 0, or by a number that is too long."""
    if text.lower().endswith("inf"):
        return float("inf")
    if "/" in text:
        numerator, denominator = text.split("/")
        if len(text) > _LONGEST_NUMBER:
            return None
        return Fraction(int(numerator), int(denominator)) if int(denominator) else None
    found = _NUMBER.fullmatch(text)
    assert found is not None
    whole, power = found["whole"].lstrip("0"), found["power"] or "0"
    is_long = len(power.lstrip("+-0")) > _MOST_DIGITS_OF_EXPONENT or len(text) > _LONGEST_NUMBER
    if is_long or abs(int(power)) > _LARGEST_EXPONENT:
        return _of_long_number(whole, found["part"] or "", power)
    return Fraction(text)


def _of_long_number(whole: str, part: str, power: str) -> Limit:
    """The value of a number that the rules take only as a limit that is infinite: infinite, or 0 if it is below all
    others.
    """
    digits = (whole + part).lstrip("0")
    if not digits:
        return Fraction(0)
    exponent = power.lstrip("+-0")
    size = 10 ** _MOST_DIGITS_OF_EXPONENT if len(exponent) > _MOST_DIGITS_OF_EXPONENT else int(exponent or 0)
    places = len(digits) - len(part) + (-size if power.startswith("-") else size)
    return _INFINITE if places > 20 else Fraction(0)


def value_of(tokens: Sequence[LpToken]) -> Limit:
    """A bound: a number with its signs, which is infinite from 10^20 on."""
    value = side_of(tokens).constant
    if not is_large(value):
        return value
    return float("inf") if value > 0 else -float("inf")


def is_large(value: Limit) -> bool:
    """Whether a limit or a bound is infinite."""
    return not -(10**20) < value < 10**20


def comment_constant(comments: Sequence[LpToken]) -> Limit:
    """The constant of the objective that glpsol writes into a comment."""
    for token in comments:
        if token.kind == "constant" and (found := _CONSTANT.match(token.text)):
            return signed_number(found[2], bool(found[1])) or Fraction(0)
    return Fraction(0)
