"""What is changed in a text, and why a text is left."""

from collections.abc import Collection, Iterable, Sequence
from dataclasses import dataclass
from typing import TYPE_CHECKING, NamedTuple

if TYPE_CHECKING:
    from mpslp._adapt._writers import Writer
    from mpslp._errors._faults import ModelFileError

DIALECTS = ("coinutils", "glpsol", "lp_solve", "pulp", "qsopt")
"""The programs whose habits are known, beside what every file may have."""

NO_DIALECT = "none"
"""What is given instead of a dialect if the header of a file is not to select one."""

FILE_KINDS = ("byte-order-mark", "compressed", "end-of-file-byte", "line-ends", "long-line")
"""Kinds of changes of whole files, in both formats."""

MPS_KINDS = (
    "bound-value",
    "column-in-bounds",
    "continued-column",
    "fixed-columns",
    "indent",
    "integer-bound",
    "letter-case",
    "marker-name",
    "name",
    "negative-upper",
    "number",
    "objective-rhs",
    "objsense",
    "pulp-sense",
    "range-on-free",
    "section-again",
    "section-order",
    "set-left-out",
    "trailing-text",
)
"""Kinds of changes in MPS: the names of its rules."""

LP_KINDS = (
    "added-constants",
    "added-terms",
    "bound-again",
    "constant-in-row",
    "free-and-bound",
    "glpsol-constant",
    "infinity",
    "integer-bound",
    "keyword",
    "name",
    "negative-upper",
    "number",
    "number-first",
    "objective-constant",
    "problem-name",
    "product",
    "qsopt-range",
    "row-without-terms",
    "section-again",
    "symbol",
    "terms-on-the-right",
)
"""Kinds of changes in LP: the names of its rules."""

KINDS = tuple(sorted({*FILE_KINDS, *MPS_KINDS, *LP_KINDS}))
"""All kinds of changes."""


def kinds_of(strict: Collection[str]) -> frozenset[str]:
    """The kinds of changes that are not wanted; TypeError for a str, and ValueError for what is no kind."""
    if isinstance(strict, (str, bytes)):
        raise TypeError(f"strict is a collection of kinds, not {strict!r}: write [{strict!r}]")
    unknown = next((each for each in strict if each not in KINDS), None)
    if unknown is not None:
        raise ValueError(f"unknown kind of changes: {unknown!r} is none of {', '.join(KINDS)}")
    return frozenset(strict)


@dataclass(frozen=True)
class Change:
    """A change: the line of the source, from 1, the name of the rule, and the text before and after."""

    line: int
    kind: str
    before: str
    after: str

    def __str__(self) -> str:
        return f"{self.line}: {self.kind}: {self.before or '(nothing)'} -> {self.after or '(nothing)'}"


@dataclass(frozen=True)
class Note:
    """What another dialect would mean by a line that stays: the line, from 1, and how to say so."""

    line: int
    text: str

    def __str__(self) -> str:
        return f"{self.line}: note: {self.text}"


class AdaptError(ValueError):
    """A text that is left, since its meaning would have to be guessed, or since mpslp rejects what it declares.

    ``line`` is the line, from 1, or None for an error of the whole text; ``reason`` says why, and what to do;
    ``rejection`` is the error of mpslp if the text is left for it, else None; ``filename`` is the path of the file, if
    it has one; ``writer`` is the program that the header of the text names, if its dialect was taken for that reason.
    """

    def __init__(self, line: int | None, reason: str, rejection: "ModelFileError | None" = None) -> None:
        super().__init__(line, reason, rejection)
        self.line = line
        self.reason = reason
        self.rejection = rejection
        self.filename: str | None = None
        self.writer: Writer | None = None

    def __str__(self) -> str:
        prefix = "" if self.filename is None else f"{self.filename}:"
        return f"{prefix}{'' if self.line is None else f'{self.line}:'} {self.reason}".lstrip()


class OtherLanguage(AdaptError):
    """A text that mpslp accepts in another meaning than that of the language that it is written in."""


class Reported(NamedTuple):
    """The whole text of a change, in latin-1, of which a Change shows the beginning."""

    line: int
    kind: str
    before: str
    after: str


class Log:
    """The changes so far. A change of a kind that is not wanted is an AdaptError."""

    def __init__(self, strict: Collection[str] = ()) -> None:
        self.changes: list[Change] = []
        self.reported: list[Change | Reported] = []
        """The changes with their whole texts; one of which all is shown is its own."""
        self.notes: list[Note] = []
        self.kinds_not_wanted = frozenset(strict)
        self.fixed_names: dict[str, str] = {}
        self.source_lines: Sequence[int] = ()
        """The line of the source for each line that is written; empty if they are the same."""

    def add(self, line: int, kind: str, before: str, after: str) -> None:
        self.add_all(line, (kind,), before, after)

    def add_all(self, line: int, kinds: Iterable[str], before: str, after: str) -> None:
        """Adds a change that is of several kinds."""
        shown_before, shown_after = _both_shown(before, after)
        is_whole = shown_before == before and shown_after == after
        for kind in kinds:
            if kind in self.kinds_not_wanted:
                raise AdaptError(line, f"a change of the kind {kind} is needed: {shown(before)}")
            change = Change(line, kind, shown_before, shown_after)
            self.changes.append(change)
            self.reported.append(change if is_whole else Reported(line, kind, before, after))

    def take(self, other: "Log") -> None:
        """Has what another one has."""
        self.changes += other.changes
        self.reported += other.reported
        self.notes += other.notes
        self.fixed_names.update(other.fixed_names)
        self.source_lines = other.source_lines

    def note(self, line: int, text: str) -> None:
        self.notes.append(Note(line, readable(text)))


def readable(text: str) -> str:
    """Text in latin-1, a character for each byte, as people read it: no control characters."""
    return _printable(_decoded(text))


def _decoded(text: str) -> str:
    return text if text.isascii() else text.encode("latin-1", "backslashreplace").decode("utf-8", "backslashreplace")


def _printable(text: str) -> str:
    if text.isprintable():
        return text
    return "".join(char if char.isprintable() else char.encode("unicode_escape").decode("ascii") for char in text)


def shown(text: str) -> str:
    """Text in latin-1, as people read it: on one line, and short."""
    if len(text) <= _MOST_SHOWN and text.isascii() and text.isprintable() and "  " not in text and text.strip() == text:
        return text  # not a copy of it: a file may have many
    text = _printable(" ".join(_decoded(text).split()))
    return text if len(text) <= _MOST_SHOWN else f"{text[:_MOST_SHOWN]}.."


def _both_shown(before: str, after: str) -> tuple[str, str]:
    """Texts before and after a change, as people read them; between quotes, with all spaces, if only these differ."""
    shown_before, shown_after = shown(before), shown(after)
    if shown_before == shown_after and before != after:
        return _quoted(before), _quoted(after)
    return shown_before, shown_after


def _quoted(text: str) -> str:
    whole = _printable(_decoded(text))
    return f'"{whole}"' if len(whole) <= _MOST_SHOWN else f'"{whole[:_MOST_SHOWN]}.."'


_MOST_SHOWN = 120
