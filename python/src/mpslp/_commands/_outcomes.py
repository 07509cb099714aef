"""What comes of a file: an exit status, and what is printed."""

from __future__ import annotations

from collections import Counter
from collections.abc import Iterable, Mapping
from enum import IntEnum
from typing import Any, NamedTuple

from mpslp._commands._rejections import rejection
from mpslp._errors._faults import ModelFileError
from mpslp._errors._own_checks import OwnCheckError
from mpslp._files._output import shown_path
from mpslp._files._sources import Text


class Status(IntEnum):
    """The exit statuses of all commands: those of the program mpslp, and one more.

    Of several files, the greatest is that of the command.
    """

    DONE = 0
    DIFFERS = 1
    REJECTED = 2
    USAGE = 3
    FAILED = 4
    NO_MEMORY = 5
    UNDECIDED = 6


MEANINGS = {
    Status.DONE: "done; the models are the same, or close",
    Status.DIFFERS: (
        "the models differ; a merge has conflicts; a file is not canonical, has a remark of check --portable, or is"
        " changed by adapt; --names-back replaces nothing"
    ),
    Status.REJECTED: "a file is rejected",
    Status.USAGE: "usage error",
    Status.FAILED: "a file cannot be opened, read or written, or the output cannot be written",
    Status.NO_MEMORY: "out of memory",
    Status.UNDECIDED: "same --any-names gave up: neither a map of names nor a difference was found",
}
"""What each exit status means."""


class UsageError(Exception):
    """Arguments that do not fit each other."""


Record = Mapping[str, Any]
"""What is printed of a file as JSON. A value may be an iterator: a list that is made when it is printed."""


class Outcome(NamedTuple):
    """What came of a file, and what is printed of it."""

    status: Status = Status.DONE
    output: str = ""
    """Lines on standard output."""
    error: str = ""
    """Lines on standard error."""
    text: bytes = b""
    """A text on standard output."""
    lines: Iterable[str] = ()
    """Lines on standard output that are made when they are printed."""
    patch: bytes = b""
    """A unified diff on standard output."""
    record: Record | None = None
    """What is printed instead of all these if JSON is asked for."""
    counts: Counter[str] | None = None
    """The numbers of changes by kind, of adapt."""

    def preceded_by(self, error: str) -> Outcome:
        """The same, with further lines on standard error before its own."""
        return self._replace(error="\n".join(filter(None, (error, self.error))))

    def with_shown(self, *paths: str) -> Outcome:
        """The same, with these paths on one line each in messages.

        On standard output the paths are as they are, for programs.
        """
        outcome = self
        for path in paths:
            if (shown := shown_path(path)) != path:
                outcome = outcome._replace(error=outcome.error.replace(path, shown))
        return outcome


def record_of(path: str | None, result: str, **more: Any) -> dict[str, Any]:
    """The keys that the record of each file has, and more. ``result`` is one of those of a survey."""
    return {"path": path, "result": result, "error": "", "line": None, "reason": "", **more}


def failure(path: str, error: Exception, text: Text | None = None) -> Outcome:
    """What comes of an error that ends the work on a file."""
    if isinstance(error, ModelFileError):
        line, reason = rejection(path, error, text)
        record = record_of(path, "rejected", error=error.kind, line=error.line, reason=reason)
        return Outcome(Status.REJECTED, error=line, record=record).with_shown(path)
    status, line = _status_and_line(path, error)
    return Outcome(
        status, error=line, record=record_of(path, "unreadable", reason=line.removeprefix(f"{path}: "))
    ).with_shown(path)


def _status_and_line(path: str, error: Exception) -> tuple[Status, str]:
    if isinstance(error, UsageError):
        return Status.USAGE, str(error)
    if isinstance(error, OwnCheckError):
        return Status.REJECTED, f"{path}: {error}"
    if isinstance(error, MemoryError):
        return Status.NO_MEMORY, f"{path}: out of memory"
    if isinstance(error, OSError) and error.strerror:
        return Status.FAILED, f"{error.filename or path}: {error.strerror}"
    if isinstance(error, ImportError):
        return Status.FAILED, f"{path}: {error}; install it, or use Python 3.14"
    return Status.FAILED, f"{path}: {error}".replace(f"{path}: {path!r} is ", f"{path}: ")  # of a compression
