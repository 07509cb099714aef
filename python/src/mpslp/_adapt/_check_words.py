"""The check of the words of a text: whatever the source says, the text that is written says, or a reported change has
it.

Each number, name, sign, relation and section word of the source is in the text that is written, or in the text of a
change. A word is what a person sees: a section word opens a section only where it is the first on its line, and what
can be read in two ways is in no text that is changed. As all of the check, this takes nothing from the modules that
change a text.
"""

from __future__ import annotations

import re
import unicodedata
from bisect import bisect_left
from collections import Counter
from collections.abc import Iterable, Iterator, Mapping, Sequence
from itertools import chain

from mpslp._adapt._changes import Change, Log, Note, Reported
from mpslp._adapt._check import Difference
from mpslp._adapt._check_lp_text import HEADERS, LpToken, Unreadable, header_at, tokens_of

Words = Counter[str]
"""How often each word is in a text; a section word has a mark before it."""


_SECTION = "section "
_KIND_OF_NAMES = "name"
_FIRST_OF_NUMBERS = "0123456789."
_ADDED_HEADERS = {"integer-bound": "bounds"}
"""A change of these kinds may add a header that its text has not."""

# ---- letters


def is_written_in_letters(word: str) -> bool:
    """Whether what is not ASCII in a word, in latin-1, is letters, the first one with nothing before it that changes
    its looks.
    """
    if word.isascii():
        return True
    letters = word.encode("latin-1").decode("utf-8", "surrogateescape")
    return all(each.isascii() or _is_letter(each, at == 0) for at, each in enumerate(letters))


def _is_letter(letter: str, is_first: bool) -> bool:
    if "\udc80" <= letter <= "\udcff":  # a byte that is not UTF-8, as Windows has it
        letter = bytes([ord(letter) - 0xDC00]).decode("cp1252", "replace")
    category = unicodedata.category(letter)
    is_part = category[0] == "L" or (category in ("Mn", "Mc") and not is_first)
    return is_part and unicodedata.decomposition(letter).partition(">")[0] not in _LOOKS


_LOOKS = tuple(f"<{each}" for each in ("wide", "narrow", "font", "super", "sub", "circle", "square", "fraction"))
"""Other forms of letters of ASCII."""

# ---- LP


def difference_in_lp(
    before: Sequence[LpToken], after: Sequence[LpToken], dialect: str | None, names: Mapping[str, str], log: Log
) -> Difference | None:
    """What one of two texts in LP says and the other does not, and no change; or a word that is read in two ways."""
    found = next(chain(_unclear_words(before), _columns_without_note(before, log.notes)), None)
    if found is not None:
        return found
    headers = _headers_as_seen(before, dialect)
    old, new = _mapped(_words(before, headers), names), _words(after, _headers_as_read(after))
    missing, extra = old - new, new - old
    if missing:
        missing -= _words_of_changes(log.reported, dialect, names, is_before=True)
    if extra:
        extra -= _words_of_changes(log.reported, dialect, names, is_before=False)
    if missing:
        word = next(iter(missing))
        line = next(
            (token.line for token in before if names.get(token.text, token.text) == word.removeprefix(_SECTION)), None
        )
        return Difference(line, f"{word} is missing, and no change has it")
    if extra:
        return Difference(None, f"{next(iter(extra))} is added, and no change has it")
    return None


def _mapped(words: Words, names: Mapping[str, str]) -> Words:
    """Words with the names that are written."""
    mapped: Words = Counter()
    for word, count in words.items():
        mapped[names.get(word, word)] += count
    return mapped


def _words(tokens: Sequence[LpToken], headers: set[int]) -> Words:
    words = Counter([token.text for token in tokens if token.kind not in _REMARKS])
    for at in headers:
        words[tokens[at].text] -= 1
        words[_SECTION + tokens[at].text.lower()] += 1
    for at in _free_bounds(tokens, headers):
        words[tokens[at].text] -= 1
        words[_FREE_BOUND] += 1
    return +words


def _free_bounds(tokens: Sequence[LpToken], headers: set[int]) -> list[int]:
    """The places of the word free after the name of its column: among the bounds, or in a text without sections."""
    found = [
        at
        for at, token in enumerate(tokens)
        if token.text.lower() == "free" and at not in headers and _is_after_name(tokens, at)
    ]
    if not found or not headers:
        return found
    starts = sorted(headers)
    return [
        at for at in found if (last := bisect_left(starts, at)) and tokens[starts[last - 1]].text.lower() in _BOUNDS
    ]


def _is_after_name(tokens: Sequence[LpToken], at: int) -> bool:
    return at > 0 and tokens[at - 1].kind == "name" and tokens[at - 1].line == tokens[at].line


_REMARKS = ("range", "constant", "negated")
_BOUNDS = ("bounds", "bound")
_FREE_BOUND = "bound free"
"""The word free of a bound; a column may have that name."""


def _headers_as_read(tokens: Sequence[LpToken]) -> set[int]:
    """The places of section words in a text of mpslp's LP format, in which none is a name."""
    found = set()
    for at, token in enumerate(tokens):
        if token.kind == "name" and len(token.text) <= _LONGEST_HEADER and token.text.lower() in _SECTION_WORDS:
            found.add(at)
            if (
                token.text.lower() in _FIRST_OF_TWO
                and at + 1 < len(tokens)
                and tokens[at + 1].text.lower() in _SECOND_OF_TWO
            ):
                found.add(at + 1)
    return found


def _headers_as_seen(tokens: Sequence[LpToken], dialect: str | None) -> set[int]:
    """The places of section words that open a section for a person: first on the line, no empty part of a section."""
    found: set[int] = set()
    opened: list[tuple[str, int, int]] = []  # the section, the place of its header, and its end
    for at, token in enumerate(tokens):
        if token.kind != "name" or len(token.text) > _LONGEST_HEADER or token.text.lower() not in _SECTION_WORDS:
            continue
        if at and tokens[at - 1].line == token.line:
            continue
        name, count = header_at(tokens, at, dialect, opened[-1][0] if opened else "")
        if name and all(each.line == token.line for each in tokens[at : at + count]):
            opened.append((name, at, at + count))
            found.update((at, at + 1) if count == len(_PAIR) else (at,))
    counts = Counter(name for name, _, _ in opened)
    for (name, start, end), following in zip(opened, [*(start for _, start, _ in opened[1:]), len(tokens)]):
        if counts[name] > 1 and end == following:
            found.difference_update(range(start, end))
    return found


_PAIR = ("subject", "to")


_FIRST_OF_TWO, _SECOND_OF_TWO = ("subject", "such"), ("to", "that")
_SECTION_WORDS = frozenset(word for header in HEADERS for word in header.split()[:1])
_LONGEST_HEADER = max(map(len, _SECTION_WORDS))


def _words_of_changes(
    reported: Sequence[Change | Reported], dialect: str | None, names: Mapping[str, str], is_before: bool
) -> Words:
    """The words of the texts of all changes, each of which is counted once if several kinds have it."""
    words: Words = Counter()
    last: tuple[int, str, str] | None = None
    for change in reported:
        text = change.before if is_before else change.after
        if change.kind in _ADDED_HEADERS and not is_before:
            words[_SECTION + _ADDED_HEADERS[change.kind]] += 1
        this = (change.line, change.before, change.after)
        if this == last or not text or (change.kind == "section-again" and not is_before):
            continue
        last = this
        if change.kind == _KIND_OF_NAMES and change.before[:1] not in _FIRST_OF_NUMBERS:
            continue  # the names that are written are known; one that starts as a number is several words
        try:
            tokens = tokens_of(text, dialect)
        except Unreadable:
            continue
        headers = _headers_as_read(tokens) if change.kind in ("section-again", "keyword") else set()
        said = _words(tokens, headers)
        words.update(_mapped(said, names) if is_before else said)  # += would go through all words each time
    return words


# ---- words that are read in two ways


def _unclear_words(tokens: Sequence[LpToken]) -> Iterator[Difference]:
    for at, token in enumerate(tokens):
        if token.kind == "name":
            if not token.text.isascii() and not is_written_in_letters(token.text):
                yield Difference(token.line, f"{token.text} is not written in letters")
            elif token.is_joined and at and tokens[at - 1].kind == "number" and _is_tail(tokens, at):
                yield Difference(token.line, f"{tokens[at - 1].text}{token.text} may be one number")
            elif _EXPONENT.fullmatch(token.text) and _goes_on(tokens, at):
                yield Difference(token.line, f"{token.text} may be the exponent of {tokens[at - 1].text}")
        elif token.kind == "number" and _goes_on(tokens, at):
            yield Difference(token.line, f"{tokens[at - 1].text} and {token.text} may be one number")


def _goes_on(tokens: Sequence[LpToken], at: int) -> bool:
    """Whether a word may go on with a number at the end of the line before: a sign follows it."""
    is_after_number = at > 0 and tokens[at - 1].kind == "number" and tokens[at - 1].line != tokens[at].line
    return is_after_number and at + 1 < len(tokens) and tokens[at + 1].kind == "sign"


_EXPONENT = re.compile(r"[eE][0-9]+")


def _is_tail(tokens: Sequence[LpToken], at: int) -> bool:
    """Whether a name that is joined to a number may be a part of it: no letter, an E, or on the right of a row."""
    text = tokens[at].text
    if _is_label(tokens, at):
        return False
    return not (text[0].isalpha() or not text[0].isascii()) or text in ("e", "E") or _is_right_side(tokens, at - 1)


def _is_label(tokens: Sequence[LpToken], at: int) -> bool:
    return at + 1 < len(tokens) and tokens[at + 1].kind == "colon"


def _is_right_side(tokens: Sequence[LpToken], at: int) -> bool:
    """Whether a number is the first after a relation, and terms are before that, on the same line."""
    before = at - 2 if tokens[at - 1].kind == "sign" else at - 1
    if before < 1 or tokens[before].kind != "relation":
        return False
    return tokens[before - 1].kind == "name" and tokens[before - 1].line == tokens[at].line


def _columns_without_note(tokens: Sequence[LpToken], notes: Sequence[Note]) -> Iterator[Difference]:
    """The first column that is only after numbers on the right of rows, if no note names it."""
    right: dict[str, int] = {}
    others = set()
    for at, token in enumerate(tokens):
        if token.kind == "name" and not _is_label(tokens, at):
            is_term = at > 1 and tokens[at - 1].kind == "number" and tokens[at - 1].line == token.line
            if is_term and _is_right_side(tokens, at - 1):
                right.setdefault(token.text, token.line)
            else:
                others.add(token.text)
    lone = [name for name in right if name not in others]
    if lone and not any("only after numbers on the right" in note.text for note in notes):
        yield Difference(right[lone[0]], f"{lone[0]} comes only after numbers on the right, and no note says so")


# ---- MPS

_NUMBER = re.compile(r"[+-]?(?:[0-9]+\.?[0-9]*|\.[0-9]+)(?:[eE][+-]?[0-9]+)?")
_WITH_DATA = ("ROWS", "COLUMNS", "RHS", "RANGES", "BOUNDS")
_HEADERS_OF_MPS = (*_WITH_DATA, "NAME", "OBJSENSE", "OBJNAME", "ENDATA")


def difference_in_mps(
    before: str, after: str, names: Mapping[str, str], reported: Sequence[Change | Reported]
) -> Difference | None:
    """What one of two texts in MPS says and the other does not, and no change; or a word that is read in two ways."""
    found = next(_unclear_lines(before), None)
    if found is not None:
        return found
    old, new = _mapped(_fields(before), names), _fields(after)
    missing, extra = old - new, new - old
    if missing:
        missing -= _mapped(_fields_of(change.before for change in reported), names)
        missing -= _fields_of(change.before for change in reported)
    if extra:
        extra -= _fields_of(change.after for change in reported)
        extra -= (
            Counter(["BOUNDS"])
            if any(change.kind in ("integer-bound", "negative-upper") for change in reported)
            else Counter()
        )
    if missing:
        word = next(iter(missing))
        line = next(
            (at for line, at in _lines(before) if any(names.get(each, each) == word for each in _FIELD.findall(line))),
            None,
        )
        return Difference(line, f"{word} is missing, and no change has it")
    if extra:
        return Difference(None, f"{next(iter(extra))} is added, and no change has it")
    return None


def _fields(text: str) -> Words:
    """The fields of a text up to its end."""
    return _fields_of(line for line, _ in _lines(text))


def _fields_of(lines: Iterable[str]) -> Words:
    return Counter(chain.from_iterable(map(_FIELD.findall, lines)))


_FIELD = re.compile(r"[^ \t\r\n]+")


def _lines(text: str) -> Iterator[tuple[str, int]]:
    """The lines of a text that are no comments, up to the header of its end, each with its number."""
    for number, line in enumerate(text.split("\n"), 1):
        if line.startswith("*"):
            continue
        yield line, number
        if line[:1] in ("E", "e") and _FIELD.findall(line)[0].upper().rstrip(":") == "ENDATA":
            return


def _unclear_lines(text: str) -> Iterator[Difference]:
    """Words that are not written in letters; and what starts a line of COLUMNS and may be a part of the number that
    ends the line before.
    """
    section, last = "", ""
    columns: dict[str, tuple[int, str]] = {}  # the first line of each column, and what ends the line before
    counts: Counter[str] = Counter()  # its lines
    for line, number in _lines(text):
        fields = _FIELD.findall(line)
        if not fields:
            continue
        if line[0] not in " \t" and fields[0].upper().rstrip(":") in _HEADERS_OF_MPS:
            section = fields[0].upper().rstrip(":")
            continue
        if not line.isascii() and section in _WITH_DATA:
            word = next((field for field in fields if not is_written_in_letters(field)), None)
            if word is not None:
                yield Difference(number, f"{word} is not written in letters")
        if section == "COLUMNS":
            columns.setdefault(fields[0], (number, last))
            counts[fields[0]] += 1
            last = fields[-1]
    yield from _parts_of_numbers(columns, counts)


def _parts_of_numbers(columns: Mapping[str, tuple[int, str]], counts: Mapping[str, int]) -> Iterator[Difference]:
    """A column that is a number after one that is none, or the only one that is an exponent, and has one line."""
    first = next(iter(columns), "")
    exponents = sum(_POWER.fullmatch(name) is not None for name in columns)
    for name, (number, last) in columns.items():
        is_number = _NUMBER.fullmatch(name) and not _NUMBER.fullmatch(first)
        is_exponent = exponents == 1 and name != first and counts[name] == 1 and _POWER.fullmatch(name)
        if (is_number or is_exponent) and _NUMBER.fullmatch(last):
            yield Difference(number, f"{name} may be a part of the number {last} before it")


_POWER = re.compile(r"[eE][+-]?[0-9]+")
