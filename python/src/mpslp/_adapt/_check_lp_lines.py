"""A check of LP files line by line, for files in which each change is of a row that is on one line, or of a header.

If the source and the text that was made of it differ only in lines that are whole rows or headers, and these say the
same, then so do the texts. This is so if no line has two readings: each has to be of one of the forms below, which are
written here a second time, and take nothing from the rules. A text that has another line is left to the check of all
declarations.
"""

from __future__ import annotations

import re
from collections import Counter
from collections.abc import Mapping, Sequence
from fractions import Fraction
from functools import lru_cache
from itertools import chain
from typing import NamedTuple

from mpslp._adapt._changes import Log, Note
from mpslp._adapt._check_lp_text import HEADERS, INFINITE_SIDES, new_token

_REST = r"[^\s\\<>=:*^+\-\[\]\x80-\xff]*"
_WORD = rf"[A-Za-z_]{_REST}"
_WORD_OF_ROW = rf"{_WORD}(?:\[{_REST}\]{_REST})*"
_AMOUNT = r"(?:\d{1,30}(?:\.\d{0,30})?|\.\d{1,30})(?:[eE][+-]\d{1,2})?"
_PIECE = rf"(?:{_AMOUNT}(?:[ \t]*\*[ \t]*|[ \t]+){_WORD_OF_ROW}|{_AMOUNT}|{_WORD_OF_ROW})"
_MORE = rf"(?:[ \t]*[+-][ \t]*{_PIECE})*"
_SIGNED = rf"(?:[+-][ \t]*)?{_PIECE}{_MORE}"
_SIDE = rf"(?:[+-][ \t]*)?{_AMOUNT}"
_END = r"[ \t]*(?:[<>]=?|=[<>=]?)[ \t]*"
_LABEL = rf"[ \t]*(?P<label>{_WORD_OF_ROW})[ \t]*:[ \t]*"
_LAST = r"[ \t\r]*"
_LIMIT = r"(?:[+-][ \t]*)?(?:(?:\d{1,30}(?:\.\d{0,30})?|\.\d{1,30})(?:[eE][+-]?\d{1,2})?|(?i:inf(?:inity)?))"


def _line(pattern: str) -> re.Pattern[str]:
    return re.compile(pattern + _LAST, re.ASCII)


_ROW = _line(
    rf"(?:{_LABEL}|[ \t]*(?=[A-Za-z_]|\d[\d.]*(?:[eE][+-]\d+)?[ \t]*(?:\*?[ \t]*[A-Za-z_]|[<>=])))"
    rf"(?P<left>{_SIGNED})(?P<relation>{_END})(?P<right>{_SIGNED})"
)
_RANGED_ROW = _line(rf"{_LABEL}{_SIDE}[ \t]*(?:<=?|=<)[ \t]*{_SIGNED}[ \t]*(?:<=?|=<)[ \t]*{_SIDE}")
_FIRST_OF_ROW = _line(rf"{_LABEL}{_SIGNED}")
_FIRST_OF_OBJECTIVE = _line(rf"(?:{_LABEL}|[ \t]*){_SIGNED}")
_FURTHER = _line(rf"[ \t]*[+-][ \t]*{_PIECE}{_MORE}")
_LAST_OF_ROW = _line(rf"[ \t]*[+-][ \t]*{_PIECE}{_MORE}{_END}{_SIDE}")
_BOUND = _line(
    rf"[ \t]*(?:{_LIMIT}[ \t]*(?:<=?|=<)[ \t]*)?{_WORD_OF_ROW}{_END}{_LIMIT}|[ \t]*{_LIMIT}{_END}{_WORD_OF_ROW}|"
    rf"[ \t]*{_WORD_OF_ROW}[ \t]+(?i:free)"
)
_NAMES = _line(rf"[ \t]*{_WORD_OF_ROW}(?:[ \t]+{_WORD_OF_ROW})*")
_SENSE_AND_OBJECTIVE = _line(rf"[ \t]*(?i:min|max)(?i:imi[sz]e|imum)?[ \t]+(?P<objective>(?:{_LABEL})?{_SIGNED})")
_NAME_OR_AMOUNT = re.compile(rf"{_AMOUNT}|({_WORD_OF_ROW})", re.ASCII)
_TERM = re.compile(rf"([+-]?)[ \t]*(?=[\w.])({_AMOUNT})?(?:[ \t]*\*?[ \t]*({_WORD_OF_ROW}))?", re.ASCII)
_SIDE_OF_ROW = re.compile(_SIDE, re.ASCII)
_SUM_THAT_ENDS_WITH_AMOUNT = re.compile(rf".*[+-][ \t]*{_AMOUNT}", re.ASCII)
_UNIT = re.compile(rf"(?:[+-][ \t]*)?{_AMOUNT}[ \t]+{_WORD_OF_ROW}", re.ASCII)
"""The first term on the right, if it is a number and a name."""

_WORD_OF_LINE = re.compile(rf"{_AMOUNT}|{_WORD_OF_ROW}|[<>]=?|=[<>=]?|[^ \t\r]", re.ASCII)

_Number = int | Fraction
_LARGE = 10**20
_CONSTANT = re.compile(rf"[ \t]+([+-])[ \t]*({_AMOUNT})", re.ASCII)
"""With a space before its sign, which is then not that of an exponent."""

_RELATION = re.compile(_END)
_MAY_BE_LARGE = re.compile(r"[0-9]{16}|[eE][+-]")
_NO_LETTERS = "0123456789.+-* \t"
_MOST_DIGITS = 15
"""Of an amount that is no number with a point or an exponent, and that is finite whatever it is."""

_DIALECTS = (None, "lp_solve")
"""Others have a constant of the objective that is not where it is read."""

_LINES_AT_ONCE = 500
_SPACES = " \t\r"
_WORDS_OF_BOUNDS = frozenset(
    word for name in ("free", "inf", "infinity") for word in (name, name.upper(), name.capitalize())
)
_NO_NAMES = frozenset(
    (*INFINITE_SIDES, "free", "inf", "infinity", *(word for each in HEADERS for word in each.split()))
)
_EXPONENT = re.compile(r"[eE][0-9]*")


def says_the_same(source: str, written: str, dialect: str | None, names: Mapping[str, str], log: Log) -> bool:
    """Whether two texts differ only in rows, names and headers that say the same, and that are in the texts of the
    changes.
    """
    before, after = source.split("\n"), written.split("\n")
    if dialect not in _DIALECTS or len(before) != len(after):
        return False
    changed: dict[int, list[_Texts]] = {}
    for change in log.reported:
        changed.setdefault(change.line, []).append((change.before, change.after))
    reading = _Lines()
    for number, (line, line_written) in enumerate(zip(before, after), 1):
        code = _code(line)
        if not reading.take(code):
            return False
        if line == line_written:
            if "[" in code:
                return False  # a name that is to be written in another way
        elif not (
            line.partition("\\")[2] == line_written.partition("\\")[2]
            and _says_the_same_line(reading.row, code, _code(line_written), changed.pop(number, []), names)
        ):
            return False
    return not changed and reading.has_only_names(names) and reading.has_columns_on_the_right(log.notes)


_Texts = tuple[str, str]
"""The text of a change before and after it."""


def _says_the_same_line(
    row: re.Match[str] | None, line: str, written: str, texts: list[_Texts], names: Mapping[str, str]
) -> bool:
    """Whether a line says what one does that is written instead of it, by the changes that are reported of it: of the
    whole line, and of its words.
    """
    whole = (line.strip(_SPACES), written.strip(_SPACES))
    words = {each for each in texts if each != whole}
    if not texts or not all(names.get(given) == name or (given, name) == _EQUALS_SIGNS for given, name in words):
        return False
    if len(words) == len(texts):
        return _has_other_words(line, written, words)
    if row is None:
        return not words and _is_same_header(line, written)
    if not names and _has_last_constant_on_right(row, written):
        return True
    after = _ROW.fullmatch(written)
    return after is not None and _is_same_row(row, after, names)


def _has_other_words(line: str, written: str, words: set[_Texts]) -> bool:
    """Whether two lines are the same but for words, each of which is another one in the second line."""
    before, after = _WORD_OF_LINE.findall(line), _WORD_OF_LINE.findall(written)
    return len(before) == len(after) and {pair for pair in zip(before, after) if pair[0] != pair[1]} == words


_EQUALS_SIGNS = ("==", "=")


def _code(line: str) -> str:
    """A line without its comment."""
    return line.partition("\\")[0] if "\\" in line else line


def _header(line: str) -> str | None:
    """The section that a line opens, if it has no other words."""
    return HEADERS.get(" ".join(line.lower().split()))


def _is_same_header(line: str, written: str) -> bool:
    return _header(line) is not None and _header(line) == _header(written)


def _is_amount(right: str) -> bool:
    """Whether what is on the right of a row is one number."""
    if not right.lstrip(_NO_LETTERS) and "+" not in right[1:] and "-" not in right[1:]:
        return True
    return _SIDE_OF_ROW.fullmatch(right) is not None


class _Lines:
    """What is known of a text after some lines: the section, and whether the last statement goes on."""

    def __init__(self) -> None:
        self.row: re.Match[str] | None = None
        """The row that the last line is, if it is a whole one."""
        self._section = ""
        self._sections: set[str] = set()
        self._goes_on = False
        self._wants_label = False
        """Whether a name at the start of the next line would be a part of the last term of this one."""
        self._last: list[str] = []
        """The last statements of which the names are not taken yet."""
        self._names: set[str] = set()
        self._names_of_bounds: set[str] = set()
        self._right: list[str] = []
        """What is on the right of rows that have terms on the left, too, and may have some there."""

    def take(self, line: str) -> bool:
        """Whether a line has one reading, after those before it."""
        self.row = None
        if self._section == "end":
            return True
        if self._section == "rows" and not self._goes_on and (found := _ROW.fullmatch(line)) is not None:
            return self._take_row(found)
        header = _header(line)
        if header is not None:
            return self._take_header(header)
        if not line.strip(_SPACES):
            return not self._goes_on or self._section == "objective"
        if not self._sections and (objective := _SENSE_AND_OBJECTIVE.fullmatch(line)) is not None:
            return self._take_header("min") and self.take(objective["objective"])
        self._keep(line)
        return self._take_statement(line)

    def _take_row(self, row: re.Match[str]) -> bool:
        self.row, line, right = row, row.string, row["right"]
        is_clear = row["label"] is not None or not self._wants_label
        self._wants_label = False
        if not _is_amount(right):
            self._wants_label = _SUM_THAT_ENDS_WITH_AMOUNT.fullmatch(right) is not None
            if row["left"].lstrip(_NO_LETTERS):
                self._right.append(right)
                line = line[: row.start("relation")]
        self._keep(line)
        return is_clear

    def _take_header(self, section: str) -> bool:
        if section in ("min", "max"):
            section = "objective"
        if section in self._sections or (not self._sections) != (section == "objective"):
            return False
        if self._goes_on and self._section != "objective":
            return False
        self._take_names()
        self._sections.add(section)
        self._section, self._goes_on = section, False
        return True

    def _take_statement(self, line: str) -> bool:
        if self._section == "objective":
            pattern = _FURTHER if self._goes_on else _FIRST_OF_OBJECTIVE
            self._goes_on = True
        elif self._section == "rows":
            return self._take_part_of_row(line)
        else:
            pattern = _BOUND if self._section == "bounds" else _NAMES
        return self._section != "" and pattern.fullmatch(line) is not None

    def _take_part_of_row(self, line: str) -> bool:
        self._wants_label = False  # it has one, or goes on
        if not self._goes_on:
            self._goes_on = _FIRST_OF_ROW.fullmatch(line) is not None
            return self._goes_on or _RANGED_ROW.fullmatch(line) is not None
        if _FURTHER.fullmatch(line) is not None:
            return True
        self._goes_on = False
        return _LAST_OF_ROW.fullmatch(line) is not None

    def _keep(self, statement: str) -> None:
        self._last.append(statement)
        if len(self._last) == _LINES_AT_ONCE:
            self._take_names()

    def _take_names(self) -> None:
        names = self._names_of_bounds if self._section == "bounds" else self._names
        names.update(_NAME_OR_AMOUNT.findall("\n".join(self._last)))
        self._last = []

    def has_only_names(self, names: Mapping[str, str]) -> bool:
        """Whether no word of a statement may be something else, or was to be written in another way, and names that are
        written are no names of others.
        """
        self._take_names()
        known = (self._names | (self._names_of_bounds - _WORDS_OF_BOUNDS)) - {""}
        known |= _names_in(self._right)
        new = set(names.values())
        if len(new) < len(names) or not known.isdisjoint(new):
            return False
        if any("[" not in name and name in known for name in names):
            return False
        return not any(
            name.lower() in _NO_NAMES or (name[0] in "eE" and _EXPONENT.fullmatch(name)) for name in known | new
        )

    def has_columns_on_the_right(self, notes: Sequence[Note]) -> bool:
        """Whether the names that are only on the right of rows are in several of them, and those that are only after
        numbers there, and may be units, are noted.
        """
        lone = _names_in(self._right) - self._names - self._names_of_bounds
        if not lone:
            return True
        counts = Counter(chain.from_iterable(_names_in([right]) for right in self._right))
        units = lone - _names_in([_without_unit(right) for right in self._right])
        return all(counts[name] > 1 for name in lone) and (
            not units or any("only after numbers on the right" in note.text for note in notes)
        )


def _without_unit(right: str) -> str:
    found = _UNIT.match(right)
    return right if found is None else right[found.end() :]


def _names_in(texts: Sequence[str]) -> set[str]:
    return set(_NAME_OR_AMOUNT.findall("\n".join(texts))) - {""}


def _has_last_constant_on_right(row: re.Match[str], written: str) -> bool:
    """Whether a line is a row up to a constant that is the last number on its left, then its relation, and its number
    less this constant: many changed rows are so, and what stays need not be read again. If not, the row may still say
    the same.
    """
    relation = _RELATION.search(written)
    if relation is None or _sense(relation[0]) != _sense(row["relation"]):
        return False
    front, right = written[: relation.start()], written[relation.end() :].rstrip(_SPACES)
    left = front[row.start("left") :]
    if not row.string.startswith(front) or not left.lstrip(_NO_LETTERS) or _MAY_BE_LARGE.search(left) is not None:
        return False
    constant = _CONSTANT.fullmatch(row.string, len(front), row.start("relation"))
    if constant is None or not (_is_amount(row["right"]) and _SIDE_OF_ROW.fullmatch(right)):
        return False
    limit, limit_written = _added(row["right"] + _OPPOSITE[constant[1]] + constant[2], {}), _added(right, {})
    return limit is not None and limit == limit_written and -_LARGE < limit < _LARGE


_OPPOSITE = {"+": "-", "-": "+"}


class _Row(NamedTuple):
    """What a row says: its label, its terms on the left, with those of one column added, its relation and its number on
    the right.
    """

    label: str | None
    terms: dict[str, _Number]
    sense: str
    limit: _Number


def _is_same_row(before: re.Match[str], after: re.Match[str], names: Mapping[str, str]) -> bool:
    row, row_written = _row(before), _row(after)
    if row is None or row_written is None or row[2:] != row_written[2:]:
        return False
    label, terms = row.label, row.terms
    if names:
        label = names.get(label, label) if label is not None else None
        terms = {names.get(name, name): value for name, value in terms.items()}
    return label == row_written.label and terms == row_written.terms


def _row(row: re.Match[str]) -> _Row | None:
    """What a row says; None if it has no terms, or a number that may be infinite."""
    label, left, relation, right = row.groups()
    terms: dict[str, _Number] = {}
    terms_on_the_right: dict[str, _Number] = {}
    constant, limit, sense = _added(left, terms), _added(right, terms_on_the_right), _sense(relation)
    if constant is None or limit is None:
        return None
    limit -= constant
    if not terms:
        terms, terms_on_the_right, sense, limit = terms_on_the_right, {}, _FLIPPED[sense], -limit
    for name, value in terms_on_the_right.items():
        terms[name] = terms[name] - value if name in terms else -value
    return new_token(_Row, (label, terms, sense, limit)) if terms and -_LARGE < limit < _LARGE else None


_FLIPPED = {"<": ">", ">": "<", "=": "="}


def _sense(relation: str) -> str:
    return "<" if "<" in relation else ">" if ">" in relation else "="


def _added(side: str, terms: dict[str, _Number]) -> _Number | None:
    """The sum of the numbers of a side, whose terms are added to those given; None if one of its numbers may be
    infinite.
    """
    constant: _Number = 0
    for sign, amount, name in _TERM.findall(side):
        value = int(amount or 1) if len(amount) <= _MOST_DIGITS and (not amount or amount.isdigit()) else _value(amount)
        if value is None:
            return None
        if sign == "-":
            value = -value
        if not name:
            constant += value
        else:
            terms[name] = terms[name] + value if name in terms else value
    return constant


@lru_cache(maxsize=1 << 14)
def _value(amount: str) -> Fraction | None:
    """The value of an amount; None if it may be infinite."""
    value = Fraction(amount)
    return value if value < _LARGE else None
