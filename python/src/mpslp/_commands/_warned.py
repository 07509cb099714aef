"""Warnings about accepted files, as the options ask for them."""

from __future__ import annotations

import argparse
from collections import Counter
from collections.abc import Callable, Iterator, Sequence
from typing import Any, NamedTuple

from mpslp._commands._outcomes import Outcome, Status, record_of
from mpslp._files._sources import Text
from mpslp._warnings import ModelFileWarning, warnings_in

_MOST = 10
"""How many warnings of a kind are printed for a file."""
_KEPT = "sense-in-comment"
"""The kind of warning about what a canonical text does not keep: a file is not replaced without it."""
_REASON = "it has a warning that -W rejects"


class Warned(NamedTuple):
    """The warnings about a file, and whether it is rejected because of them."""

    path: str
    found: Sequence[ModelFileWarning] = ()
    is_rejected: bool = False

    @property
    def lines(self) -> str:
        return "\n".join(_lines(self.path, self.found))

    @property
    def records(self) -> list[dict[str, Any]]:
        return [{"path": self.path, "line": each.line, "kind": each.kind, "text": each.text} for each in self.found]

    def before(self, work: Callable[[], Outcome]) -> Outcome:
        """What comes of a file, with its warnings; nothing is done with one that is rejected."""
        return before((self,), work)


def before(files: Sequence[Warned], work: Callable[[], Outcome]) -> Outcome:
    """What comes of one file or more, with their warnings; nothing is done if one is rejected."""
    lines = "\n".join(filter(None, (each.lines for each in files)))
    records = [record for each in files for record in each.records]
    if any(each.is_rejected for each in files):
        path = next(each.path for each in files if each.is_rejected)
        return Outcome(
            Status.REJECTED, error=lines, record=record_of(path, "rejected", reason=_REASON, warnings=records)
        )
    done = work().preceded_by(lines)
    return done if done.record is None else done._replace(record={**done.record, "warnings": records})


def warned(text: Text, options: argparse.Namespace, canonical: bytes | None = None) -> Warned:
    """The warnings about a text that is accepted, as the options ask for them. ``canonical`` is its canonical text, if
    that is known.
    """
    if not is_printed(options) and not options.strict:
        return Warned(str(text.filename))
    return _as_asked(str(text.filename), warnings_in(text.content, text.format, canonical), options)


def is_printed(options: argparse.Namespace) -> bool:
    """Whether warnings are printed at all."""
    return bool(options.warnings) and not options.quiet


def replacing(text: Text, options: argparse.Namespace, canonical: bytes, work: Callable[[], Outcome]) -> Outcome:
    """Replaces the file of a text by another text, if that loses nothing that only a comment has."""
    path, found = str(text.filename), warnings_in(text.content, text.format, canonical)
    kept = [] if options.force else [each for each in found if each.kind == _KEPT]
    if kept:
        lines = (f"{path}:{each}; the file is left: write OBJSENSE, or give --force" for each in kept)
        return Outcome(Status.REJECTED, error="\n".join(lines))
    return _as_asked(path, found, options).before(work)


def _as_asked(path: str, all_found: Sequence[ModelFileWarning], options: argparse.Namespace) -> Warned:
    found = [each for each in all_found if each.kind not in options.ignored]
    is_rejected = any(each.kind in options.strict for each in found)
    return Warned(
        path, found if is_printed(options) else [each for each in found if each.kind in options.strict], is_rejected
    )


def _lines(path: str, found: Sequence[ModelFileWarning]) -> Iterator[str]:
    """A line for each warning; for many of a kind, how many more there are."""
    numbers = Counter[str]()
    for each in found:
        numbers[each.kind] += 1
        if numbers[each.kind] <= _MOST:
            yield f"warning: {path}:{each}"
    for kind, number in numbers.items():
        if number > _MOST:
            yield f"warning: {path}: {number - _MOST:,} more of {kind}"
