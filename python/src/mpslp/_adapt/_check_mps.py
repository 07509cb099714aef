"""What an MPS text declares, by a permissive reading of its own, and whether two texts declare the same.

The reading takes nothing from the modules that change a text: see _check. A word that it cannot place is a declaration
of the kind ``text``, so that none is lost unseen.
"""

from __future__ import annotations

import re
from collections import Counter
from collections.abc import Callable, Hashable, Iterator, Mapping, Sequence
from dataclasses import dataclass
from fractions import Fraction
from functools import cached_property, lru_cache
from itertools import zip_longest
from typing import NamedTuple

from mpslp._adapt._changes import Change
from mpslp._adapt._check import Declaration, Difference, Reading


class Decimal(NamedTuple):
    """A decimal: whether it is below 0, its digits without zeros at both ends, which may be very
    many, and an exponent.
    """

    is_negative: bool
    digits: str
    exponent: int


Number = str | Decimal | Fraction
"""A number: an infinite one by its sign, a decimal, or another fraction."""

ZERO = Decimal(False, "", 0)

_HEADERS = frozenset("NAME OBJSENSE OBJNAME ROWS COLUMNS RHS RANGES BOUNDS ENDATA".split())
_WORDS = _HEADERS | {"'MARKER'", "'INTORG'", "'INTEND'", "MARKER", "INTORG", "INTEND"}
_COLUMNS_OF_FIELDS = ((1, 3), (4, 12), (14, 22), (24, 36), (39, 47), (49, 61))
_WITH_NUMBER = frozenset("UP LO FX SC UI LI".split())
_WITH_SET = ("side", "range", "bound")
_DECIMAL = re.compile(r"(?P<sign>[+-]?)(?=\.?\d)(?P<whole>\d*)(?:\.(?P<part>\d*))?(?:[eEdD](?P<power>[+-]?\d+))?")
_QUOTIENT = re.compile(r"([+-]?\d{1,999})/(\d{1,999})")
_MOST_DIGITS_OF_POWER = 15
_LARGEST_POWER = 10**15
_ENDLESS = re.compile(r"(?P<sign>[+-]?)(?:inf|infty|infinity|1\.?#inf|1e\+?inf)", re.IGNORECASE)
_SIGNS = "$*;:,.!#()[]{}<>=\"'"


@lru_cache(maxsize=1 << 16)
def number_in(word: str, is_limit: bool) -> Number | None:
    """The number that a word is, or None. A limit of 10^20 or more is infinite."""
    endless = _ENDLESS.fullmatch(word)
    if endless is not None:
        return "-inf" if endless["sign"] == "-" else "inf"
    quotient = _QUOTIENT.fullmatch(word)
    if quotient is not None:
        return _of_fraction(Fraction(int(quotient[1]), int(quotient[2]))) if int(quotient[2]) else None
    found = _DECIMAL.fullmatch(word)
    if found is None:
        return None
    part = found["part"] or ""
    digits = (found["whole"] + part).lstrip("0")
    mantissa = digits.rstrip("0")
    exponent = _power(found["power"] or "0") - len(part) + len(digits) - len(mantissa)
    if not mantissa:
        return ZERO
    if is_limit and len(mantissa) + exponent > 20:
        return "-inf" if found["sign"] == "-" else "inf"
    return Decimal(found["sign"] == "-", mantissa, exponent)


def _power(text: str) -> int:
    """The number after the letter E; one with very many digits is larger than any file."""
    digits = text.strip("+-").lstrip("0")
    power = _LARGEST_POWER if len(digits) > _MOST_DIGITS_OF_POWER else int(digits or 0)
    return -power if text.startswith("-") else power


def _of_fraction(value: Fraction) -> Number:
    """A fraction as a decimal, if it is one."""
    exponent = 0
    while value.denominator != 1 and exponent > -1000:
        value, exponent = value * 10, exponent - 1
    if value.denominator != 1:
        return value
    digits = str(abs(value.numerator))
    mantissa = digits.rstrip("0")
    return Decimal(value < 0, mantissa, exponent + len(digits) - len(mantissa)) if mantissa else ZERO


def readings(text: str, dialect: str | None = None, changes: Sequence[Change] = ()) -> Reading:
    """What an MPS text declares; in fixed columns if a change says that it is so laid out.

    No dialect has another reading.
    """
    return _MpsReading(text, any(change.kind == "fixed-columns" for change in changes))


@dataclass(frozen=True)
class _MpsReading:
    text: str
    is_fixed: bool

    def __iter__(self) -> Iterator[Declaration]:
        return _Scan(self.is_fixed).scan(self.text)


def _lines_of(text: str) -> Iterator[str]:
    start = 0
    while start < len(text):
        end = text.find("\n", start)
        end = len(text) if end < 0 else end
        yield text[start:end]
        start = end + 1


class _Scan:
    """Goes through the lines of a text, and collects what they declare."""

    def __init__(self, is_fixed: bool) -> None:
        self.is_fixed = is_fixed
        self.found: list[Declaration] = []
        self.section = ""
        self.line = 0
        self.row_types: dict[str, str] = {}
        self.column_names: set[str] = set()
        self.objective: str | None = None
        self.column = ""
        self.in_block = False
        self.awaits_word = False
        self.read_line: dict[str, Callable[[list[str]], None]] = {
            "ROWS": self.row,
            "COLUMNS": self.entries,
            "RHS": self.sides,
            "RANGES": self.sides,
            "BOUNDS": self.bound,
        }

    def scan(self, text: str) -> Iterator[Declaration]:
        """What the lines declare, line by line."""
        for self.line, line in enumerate(_lines_of(text), 1):
            words = line.replace("\t", " ").rstrip("\r").split(" ")
            words = [word for word in words if word]
            if line.startswith("*") or not words:
                continue
            if not line.startswith((" ", "\t")) and self.is_header(words):
                if self.header(words) == "ENDATA":
                    break
            else:
                self.data(line, words)
            if self.found:
                yield from self.found
                self.found.clear()
        if self.objective is not None:  # the last word says it
            self.declare("objective", (self.objective,))
        yield from self.found

    def declare(self, kind: str, about: Sequence[str], value: Hashable = None) -> None:
        self.found.append(Declaration(self.line, kind, tuple(about), value))

    def keep_text(self, words: Sequence[str]) -> None:
        for word in words:
            self.declare("text", (self.section, word))

    # ---- headers

    def is_header(self, words: list[str]) -> bool:
        """Whether a line in the first column is a header: a keyword, or one word; but not a line of RHS whose set is so
        named.
        """
        word = words[0].upper().rstrip(":")
        if self.awaits_word:
            return word in _HEADERS
        if word in _HEADERS:
            return not (word == self.section and word in ("RHS", "RANGES", "BOUNDS") and len(words) >= 3)
        return len(words) == 1 or self.section not in self.read_line

    def header(self, words: list[str]) -> str:
        self.section, more = words[0].upper().rstrip(":"), words[1:]
        self.awaits_word = self.section in ("OBJSENSE", "OBJNAME")
        if self.awaits_word and more:
            self.word(more)
        elif self.section != "NAME":
            self.keep_text(more)
        if self.section == "COLUMNS" and self.objective is None:
            self.objective = next((name for name, kind in self.row_types.items() if kind == "N"), "obj")
            self.row_types.setdefault("obj", "") if self.objective == "obj" else None
        return self.section

    def word(self, words: list[str]) -> None:
        """The word of OBJSENSE or OBJNAME."""
        self.awaits_word = False
        if self.section == "OBJNAME":
            self.objective = words[0]
        else:
            self.declare("sense", (words[0].upper()[:3],))
        self.keep_text(words[1:])

    # ---- data lines

    def data(self, line: str, words: list[str]) -> None:
        if self.awaits_word:
            self.word(words)
            return
        read = self.read_line.get(self.section)
        if read is None:
            self.keep_text(words)
            return
        if self.is_fixed and line.startswith(" "):
            padded = line.rstrip("\r")
            words = [word for start, stop in _COLUMNS_OF_FIELDS if (word := padded[start:stop].strip(" "))]
            words += [word for word in padded[61:].split(" ") if word]
        if words:
            read(words)

    def row(self, words: list[str]) -> None:
        if len(words) < 2:
            self.keep_text(words)
            return
        kind, name = words[0].upper(), words[1]
        self.row_types.setdefault(name, kind)
        self.declare("row", (name,), kind)
        self.keep_text(words[2:])

    def entries(self, words: list[str]) -> None:
        at = next((at for at, word in enumerate(words[:2]) if word[0] == "'" and word.upper() == "'MARKER'"), None)
        if at is not None:
            upper = [word.upper() for word in words]
            self.in_block = upper[at + 1 : at + 2] == ["'INTORG'"]
            self.declare("marker", upper[at + 1 : at + 2])
            self.keep_text(words[at + 2 :])
            return
        head, pairs, rest = self.pairs(words)
        if not pairs:
            self.keep_text(words)
            return
        self.column = head or self.column
        if self.column not in self.column_names:
            self.column_names.add(self.column)
            self.declare("column", (self.column,), "marked" if self.in_block else "")
        for row, word in pairs:
            self.declare("coefficient", (self.column, row), number_in(word, False))
        self.keep_text(rest)

    def sides(self, words: list[str]) -> None:
        head, pairs, rest = self.pairs(words)
        if not pairs:
            self.keep_text(words)
        for row, word in pairs:
            is_limit = self.section == "RHS" and self.row_types.get(row) != "N"
            self.declare("side" if self.section == "RHS" else "range", (head, row), number_in(word, is_limit))
        if pairs:
            self.keep_text(rest)

    def pairs(self, words: list[str]) -> tuple[str, list[tuple[str, str]], list[str]]:
        """The first word, if it comes before the first pair of a row and a number; the pairs; and
        the words after them.
        """
        start = len(words) % 2
        count = self.count_of_pairs(words, start)
        if start + 2 * count < len(words) and self.count_of_pairs(words, 1 - start) > count:
            start, count = 1 - start, self.count_of_pairs(words, 1 - start)
        end = start + 2 * count
        return "".join(words[:start]), list(zip(words[start:end:2], words[start + 1 : end : 2])), words[end:]

    def count_of_pairs(self, words: list[str], start: int) -> int:
        count = 0
        while start + 2 * count + 1 < len(words):
            row, word = words[start + 2 * count : start + 2 * count + 2]
            if row not in self.row_types or number_in(word, False) is None:
                break
            count += 1
        return count

    def bound(self, words: list[str]) -> None:
        kind = words[0].upper()
        at = self.place_of_column(words, kind in _WITH_NUMBER)
        if at is None:
            self.keep_text(words)
            return
        end, value = at + 1, None
        if kind in _WITH_NUMBER:
            end, value = at + 2, number_in(words[at + 1], True)
        self.declare("bound", ("".join(words[1:at]), kind, words[at]), value)
        self.keep_text(words[end:])

    def place_of_column(self, words: list[str], has_number: bool) -> int | None:
        """Where the column of a bound is: a known one, else where its place is if the line has a set."""
        places = [at for at in (2, 1) if at < len(words) and (not has_number or self.is_number_at(words, at + 1))]
        known = [at for at in places if words[at] in self.column_names]
        return next(iter(known or places), None)

    @staticmethod
    def is_number_at(words: list[str], at: int) -> bool:
        return at < len(words) and number_in(words[at], True) is not None


# ---- two readings


def differences(
    before: Reading, after: Reading, changes: Sequence[Change], names: Mapping[str, str]
) -> Difference | None:
    """The first declaration that only one of two texts has and that no change accounts for, or None."""
    if not names and all(
        one is not None and other is not None and one[1:] == other[1:] for one, other in zip_longest(before, after)
    ):
        return None
    return _Comparison(before, after, changes, names).first()


class _Comparison:
    def __init__(self, before: Reading, after: Reading, changes: Sequence[Change], names: Mapping[str, str]) -> None:
        self.names = names
        self.before = list(map(self.renamed, before))
        self.after = list(after)
        self.changes = changes
        self.kinds_of_line: dict[int, list[str]] = {}
        for change in changes:
            self.kinds_of_line.setdefault(change.line, []).append(change.kind)

    @cached_property
    def named(self) -> set[str]:
        return {word for each in self.before if each.kind in ("row", "column") for word in each.about}

    @cached_property
    def free_rows(self) -> set[str]:
        return {each.about[0] for each in self.before if each.kind == "row" and each.value == "N"}

    @cached_property
    def objective(self) -> str:
        return next((each.about[0] for each in self.before if each.kind == "objective"), "obj")

    def renamed(self, declaration: Declaration) -> Declaration:
        """A declaration with the names that are written."""
        about = tuple(self.names.get(word, word) for word in declaration.about)
        return Declaration(declaration.line, declaration.kind, about, declaration.value)

    @cached_property
    def bounds(self) -> dict[str, list[Declaration]]:
        """The bounds of each column."""
        found: dict[str, list[Declaration]] = {}
        for each in self.before:
            if each.kind == "bound":
                found.setdefault(each.about[2], []).append(each)
        return found

    @cached_property
    def marked(self) -> set[str]:
        """The columns between markers."""
        return {each.about[0] for each in self.before if each.kind == "column" and each.value == "marked"}

    @cached_property
    def first_sets(self) -> dict[str, str]:
        """The set of the first declaration of each kind."""
        return {each.kind: each.about[0] for each in reversed(self.before) if each.kind in _WITH_SET}

    def first(self) -> Difference | None:
        if len(set(self.names.values())) != len(self.names):
            return Difference(None, "one name is written for two")
        missing, extra = _without(self.before, self.after), _Extra(_without(self.after, self.before))
        for declaration in missing:
            kinds = self.kinds_of_line.get(declaration.line, ())
            if not any(
                kind in _REPLACED and extra.takes(_REPLACED[kind](self, declaration)) for kind in kinds
            ) and not any(kind in _DROPPED and _DROPPED[kind](self, declaration) for kind in kinds):
                return Difference(declaration.line, f"{declaration} is missing")
        return self.first_added(extra.left())

    def first_added(self, extra: Sequence[Declaration]) -> Difference | None:
        """The first declaration of the second text only that no change adds; each change adds one line."""
        left = Counter(change.kind for change in self.changes)
        for declaration in extra:
            kind = next((kind for kind, adds in _ADDED.items() if left[kind] and adds(self, declaration)), None)
            if kind is None:
                return Difference(None, f"{declaration} is added")
            if declaration.kind != "column":
                left[kind] -= 1
        return None

    def bounds_of(self, column: str) -> list[Declaration]:
        return self.bounds.get(column, [])


class _Extra:
    """The declarations of the second text only."""

    def __init__(self, declarations: Sequence[Declaration]) -> None:
        self.declarations = declarations
        self.counts = Counter(each.said for each in declarations)

    def takes(self, wanted: Declaration | None) -> bool:
        """Whether a declaration is among them, which then has one less."""
        if wanted is None or self.counts[wanted.said] <= 0:
            return False
        self.counts[wanted.said] -= 1
        return True

    def left(self) -> list[Declaration]:
        """Those that are not taken."""
        counts, found = self.counts.copy(), []
        for each in self.declarations:
            if counts[each.said] > 0:
                counts[each.said] -= 1
                found.append(each)
        return found


def _without(some: Sequence[Declaration], others: Sequence[Declaration]) -> list[Declaration]:
    """The declarations that are only among the first, each as often as there is one more of it."""
    counts = Counter(each[1:] for each in others)
    found = []
    for each in some:
        if counts[each[1:]] > 0:
            counts[each[1:]] -= 1
        else:
            found.append(each)
    return found


# ---- what changes may do


def _may_be_remark(all: _Comparison, it: Declaration) -> bool:
    """A word that is no data: it has no digit, and is no name of a row or a column, no header and no marker."""
    if it.kind != "text" or any(letter.isdigit() for letter in it.about[1]):
        return False
    return (
        not {it.about[1], it.about[1].strip(_SIGNS)} & all.named
        and not {it.about[1].strip(_SIGNS).upper(), it.about[1].upper()} & _WORDS
    )


_DROPPED: dict[str, Callable[[_Comparison, Declaration], bool]] = {
    "trailing-text": _may_be_remark,
    "range-on-free": lambda all, it: it.kind == "range" and it.about[1] in all.free_rows,
    "bound-value": lambda all, it: it.kind == "text"
    and it.about[0] == "BOUNDS"
    and number_in(it.about[1], True) is not None,
}
"""What a change of each kind may leave out of its line."""


def _negated(all: _Comparison, it: Declaration) -> Declaration | None:
    """The number on the objective with the other sign."""
    if it.kind != "side" or it.about[1] != all.objective or not isinstance(it.value, Decimal):
        return None
    is_negative = not it.value.is_negative and it.value != ZERO
    return Declaration(it.line, it.kind, it.about, it.value._replace(is_negative=is_negative))


def _with_set(all: _Comparison, it: Declaration) -> Declaration | None:
    """A line without a set as one of the first set, with the sign that the objective gets."""
    if it.kind not in _WITH_SET or it.about[0]:
        return None
    with_set = Declaration(it.line, it.kind, (all.first_sets[it.kind], *it.about[1:]), it.value)
    is_negated = "objective-rhs" in all.kinds_of_line.get(it.line, ())
    return (_negated(all, with_set) if is_negated else None) or with_set


_REPLACED: dict[str, Callable[[_Comparison, Declaration], Declaration | None]] = {
    "objective-rhs": _negated,
    "set-left-out": _with_set,
}
"""What a change of each kind may make of a declaration of its line."""


def _is_bound_for_integers(all: _Comparison, it: Declaration) -> bool:
    """PL for an integer column without bounds."""
    return it.kind == "bound" and it.about[1] == "PL" and it.about[2] in all.marked and not all.bounds_of(it.about[2])


def _is_bound_below_negative(all: _Comparison, it: Declaration) -> bool:
    """MI for a column with a negative upper bound and no lower one."""
    if it.kind != "bound" or it.about[1] != "MI":
        return False
    bounds = all.bounds_of(it.about[2])
    uppers = [each.value for each in bounds if each.about[1] in ("UP", "UI")]
    is_negative = any(value == "-inf" or (isinstance(value, Decimal) and value.is_negative) for value in uppers)
    return is_negative and all_are_upper(bounds)


def all_are_upper(bounds: Sequence[Declaration]) -> bool:
    return all(each.about[1] in ("UP", "UI", "PL") for each in bounds)


def _is_column_of_bounds(all: _Comparison, it: Declaration) -> bool:
    """A coefficient of 0 in the objective for a column that only BOUNDS has."""
    if it.kind == "column":
        return it.value == "" and bool(all.bounds_of(it.about[0]))
    is_zero = it.kind == "coefficient" and it.about[1] == all.objective and it.value == ZERO
    return is_zero and it.about[0] not in all.named and bool(all.bounds_of(it.about[0]))


_ADDED: dict[str, Callable[[_Comparison, Declaration], bool]] = {
    "pulp-sense": lambda all, it: it.kind == "sense" and it.about == ("MAX",),
    "integer-bound": _is_bound_for_integers,
    "negative-upper": _is_bound_below_negative,
    "column-in-bounds": _is_column_of_bounds,
}
"""What a change of each kind may add."""
