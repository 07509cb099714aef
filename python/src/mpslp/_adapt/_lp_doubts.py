"""What a file that is changed may not have: section words that may be names, and numbers that may end with a name.

Whatever is found here has two meanings, of which one would be lost: the file is left, with the line.
"""

from __future__ import annotations

import re
from collections import Counter
from collections.abc import Iterator, Sequence
from itertools import pairwise

from mpslp._adapt._changes import AdaptError
from mpslp._adapt._lp_context import Context
from mpslp._adapt._lp_parts import Section
from mpslp._adapt._lp_reader import Reader, number_of_pulp
from mpslp._adapt._lp_tokens import Token
from mpslp._adapt._names import looks_of
from mpslp._text._lp_words import LISTS

_ON_ITS_OWN_LINE = "write a section's word on a line of its own, or rename the column"
_SUFFIX = re.compile(
    r"(?:[lLuUfFdDkKmMgGjJ]{1,2}|[dD][+-]?[0-9]+|[kmcKMG]?(?:g|m|t|s|h|W|Wh|eur|usd)|hours?|mio|mrd)", re.IGNORECASE
)
"""What is written after a number as its type, its exponent, its unit or its factor."""

_LONE_WORD = "on the right is no other column: write the number that is meant, or move the column to the left"
_OTHER_BASE = re.compile(r"[xXbBoO][0-9a-fA-F]+")


def doubts(context: Context) -> Iterator[AdaptError]:
    """What has two meanings, in no order."""
    yield from _headers_within_lines(context.reader)
    yield from _sections_again(context.reader)
    yield from _headers_in_lists(context.reader)
    yield from _tails(context.reader)
    yield from _names_of_pulp(context)
    yield from _look_alikes(context)
    yield from _lone_words(context)


# ---- section words


def _headers_within_lines(reader: Reader) -> Iterator[AdaptError]:
    """A section word is the first on its line, and a header is on one line."""
    for section in reader.sections:
        word = section.first
        before = reader.tokens.before(word)
        if before.line == word.line:
            yield AdaptError(
                word.line, f"{word.text} after {before.text} may be a name or a section: {_ON_ITS_OWN_LINE}"
            )
        if section.last.line != word.line:
            yield AdaptError(
                word.line, f"{word.text} and {section.last.text} are on two lines: write a section's words on one line"
            )


def _sections_again(reader: Reader) -> Iterator[AdaptError]:
    """A section that comes again has lines, and its header is as the first one is."""
    counts = Counter(section.name for section in reader.sections)
    firsts: dict[str, Section] = {}
    previous: Section | None = None
    for section in reader.sections:
        first = firsts.setdefault(section.name, section)
        if counts[section.name] > 1 and _is_empty(reader, section):
            yield AdaptError(
                section.first.line,
                f"{section.first.text} is a name, or a section without lines that comes twice: {_ON_ITS_OWN_LINE}",
            )
        elif first is not section and not _is_like(reader, section, first):
            yield AdaptError(
                section.first.line, f"{section.first.text} comes again, as a name or as a section: {_ON_ITS_OWN_LINE}"
            )
        elif (
            previous is not None
            and previous.name == section.name
            and section.name in LISTS
            and not _has_more(reader, section)
        ):
            yield AdaptError(
                section.first.line,
                f"{section.first.text} within its own list is a name, or a header: remove it, or rename the column",
            )
        elif first is not section and previous is not None and _is_empty(reader, previous):
            yield AdaptError(
                section.first.line,
                f"{section.first.text} comes again, after {previous.first.text} without lines: {_ON_ITS_OWN_LINE}",
            )
        previous = section


def _is_empty(reader: Reader, section: Section) -> bool:
    after = reader.tokens.after(section.last)
    if after.kind == "colon":
        after = reader.tokens.after(after)
    return after.kind == "end" or after.start in reader.starts_of_sections


def _is_like(reader: Reader, section: Section, first: Section) -> bool:
    """Whether two headers have the same words, and both are alone on their lines, or neither is, and has no sign after
    it.
    """
    has_more = _has_more(reader, section)
    if _words(section) != _words(first) or has_more != _has_more(reader, first):
        return False
    return not has_more or reader.tokens.after(section.last).kind != "sign"


def _words(section: Section) -> tuple[str, str]:
    return section.first.text.lower(), section.last.text.lower()


def _has_more(reader: Reader, section: Section) -> bool:
    return reader.tokens.after(section.last).line == section.last.line and reader.tokens.after(
        section.last
    ).kind not in ("end", "colon")


def _headers_in_lists(reader: Reader) -> Iterator[AdaptError]:
    """A header after a list is no name of the list: it is not indented as the names are, and the list has names."""
    for before, section in pairwise(reader.sections):
        word = section.first
        if before.name not in LISTS or section.name == "end":
            continue
        if section.name in LISTS and _is_empty(reader, before):
            yield AdaptError(
                word.line,
                (
                    f"{word.text} is a name under {before.first.text}, or {before.first.text} has no names:"
                    f" {_ON_ITS_OWN_LINE}"
                ),
            )
        if not _has_more(reader, section) and _is_indented_as_names(reader, before, section):
            yield AdaptError(
                word.line, f"{word.text} is indented as the names before it, and may be one: {_ON_ITS_OWN_LINE}"
            )


def _is_indented_as_names(reader: Reader, before: Section, section: Section) -> bool:
    name = reader.tokens.after(before.last)
    if name.line == before.last.line or name is section.first:
        return False
    return _indent(reader, section.first) == _indent(reader, name) != _indent(reader, before.first)


def _indent(reader: Reader, token: Token) -> str:
    """What is before a token on its line."""
    text = reader.tokens.text
    return text[text.rfind("\n", 0, token.start) + 1 : token.start]


# ---- numbers


def _tails(reader: Reader) -> Iterator[AdaptError]:
    """A name that is only joined to numbers, as L in 100L, is the end of them, if it looks so or is named once."""
    for name, numbers in reader.joined.items():
        if name in ("d", "D") and _are_exponents(reader, numbers):
            yield _tail(numbers[0], name)
        elif name not in reader.apart and _is_like_tail(reader, numbers, name):
            yield _tail(numbers[0], name)


def _is_like_tail(reader: Reader, numbers: Sequence[Token], name: str) -> bool:
    if _OTHER_BASE.fullmatch(name) and all(number.text == "0" for number in numbers):
        return True
    is_suffix = _SUFFIX.fullmatch(name) is not None
    return (reader.has_spaces and (is_suffix or len(numbers) == 1)) or (is_suffix and len(numbers) == 1)


def _lone_words(context: Context) -> Iterator[AdaptError]:
    """A word on the right that is nowhere else is a number that is mistyped, or a unit."""
    for name in context.lone_on_the_right.values():
        yield AdaptError(name.line, f"{name.text} {_LONE_WORD}")


def _are_exponents(reader: Reader, numbers: Sequence[Token]) -> bool:
    """Whether a sign and a number are joined to the letter D after each number."""
    return all(
        sign.kind == "sign"
        and power.kind == "number"
        and name.end == sign.start
        and sign.end == power.start
        and power.text.isdigit()
        for name, sign, power in map(reader.tokens.three_after, numbers)
    )


def _names_of_pulp(context: Context) -> Iterator[AdaptError]:
    """A name of PuLP such as 10_000, which starts with a number and ends as one, and is named once, is a number and
    more.
    """
    if context.dialect != "pulp":
        return
    for name in context.names.written:
        found = _NUMBER_AND_MORE.fullmatch(name)
        if found is not None and name in context.columns and name not in context.named_again:
            rest = found[2]
            is_tail = (
                not rest[0].isalpha()
                or rest.rstrip("+-") in ("e", "E")
                or _SUFFIX.fullmatch(rest)
                or (found[1] == "0" and _OTHER_BASE.fullmatch(rest))
            )
            if is_tail:
                yield number_of_pulp(context.columns[name])


_NUMBER_AND_MORE = re.compile(r"([0-9]+\.?[0-9]*(?:[eE][+-]?[0-9]+)?)([^0-9.].*)")


# ---- letters


def _look_alikes(context: Context) -> Iterator[AdaptError]:
    """A column with letters of another script that look as those of another column is this one."""
    for given in context.names.written:
        if not given.isascii() and given in context.columns:
            plain = looks_of(given)
            if plain != given and plain in context.columns:
                line = context.columns[given].line
                yield AdaptError(
                    line,
                    (
                        f"{given} has letters of another script, and looks as the column {plain}: write it with those"
                        " of ASCII"
                    ),
                )


def _tail(number: Token, name: str) -> AdaptError:
    reason = "a number and more, or a number and a column: write the number, or a space before the column"
    return AdaptError(number.line, f"{number.text}{name} is {reason}")
