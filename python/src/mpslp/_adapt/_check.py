"""The check of what adapt writes: its input and its output are read by one permissive reading, which knows none of the
rules.

The reading of each format has its own tokenizer, numbers and sections, and takes nothing from the modules that change a
text: it is there to catch their mistakes. It declares what a text says, as far as it can be understood, and what it
cannot place. The declarations of both texts have to be the same, except for what the reported changes account for.
"""

from __future__ import annotations

from collections.abc import Hashable, Iterator, Mapping
from dataclasses import dataclass
from typing import NamedTuple, Protocol

from mpslp._adapt._changes import AdaptError, Log


class Declaration(NamedTuple):
    """What a line declares: the line, from 1, the kind, such as ``coefficient``, what it is about, and the value."""

    line: int
    kind: str
    about: tuple[str, ...]
    value: Hashable

    def __str__(self) -> str:
        return " ".join([self.kind, *self.about, "" if self.value is None else str(self.value)]).rstrip()

    @property
    def said(self) -> tuple[str, tuple[str, ...], Hashable]:
        """What is declared, in whatever line."""
        return self[1:]


class Reading(Protocol):
    """What a text declares, in its order. Each iteration reads the text again: large texts declare more than is kept
    well.
    """

    def __iter__(self) -> Iterator[Declaration]:
        ...


@dataclass(frozen=True)
class Difference:
    """What only one of two texts declares: the line, from 1, of the first text, or None; and the declaration."""

    line: int | None
    text: str


INTERNAL_ERROR = "internal error: the result does not say what the file says"


def require_the_same(
    before: str, after: str, format: str, dialect: str | None, log: Log, names: Mapping[str, str]
) -> None:
    """Raises AdaptError if a text that is written, in latin-1, says something else than the text that was read."""
    if before == after:
        return
    if format == "lp":
        from mpslp._adapt._check_lp import check_lp

        check_lp(before, after, dialect, names, log)
        return
    difference = _difference(before, after, dialect, log, names)
    if difference is not None:
        raise AdaptError(difference.line, f"{INTERNAL_ERROR}: {difference.text}")


def _difference(before: str, after: str, dialect: str | None, log: Log, names: Mapping[str, str]) -> Difference | None:
    from mpslp._adapt import _check_mps as check
    from mpslp._adapt._check_words import difference_in_mps

    found = check.differences(
        check.readings(before, dialect, log.changes), check.readings(after, dialect), log.changes, names
    )
    return found or difference_in_mps(before, after, names, log.reported)
