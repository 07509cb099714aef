"""What is said of a file that is rejected."""

from __future__ import annotations

from typing import NamedTuple

from mpslp._errors._faults import ModelFileError
from mpslp._files._sources import Text


class Rejection(NamedTuple):
    """What is printed of a rejected file, and in a few words what its error is about."""

    lines: str
    reason: str


def rejection(path: str, error: ModelFileError, text: Text | None) -> Rejection:
    """What each command says of a file that is rejected; the text is None if it is not at hand."""
    from mpslp._messages import message  # its rules are wanted for rejected files only

    made = message(path, error, text)
    return Rejection(str(made), made.words)
