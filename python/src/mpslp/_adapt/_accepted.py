"""Whether mpslp accepts a text, by the calls that are proved."""

from __future__ import annotations

from collections.abc import Sequence
from typing import TYPE_CHECKING

from mpslp import _mpslp
from mpslp._adapt._changes import AdaptError
from mpslp._errors._faults import ModelFileError
from mpslp._files._sources import Format, format_number

if TYPE_CHECKING:
    from mpslp._mpslp import Arrays


def accepted(content: bytes, format: Format) -> Arrays | None:
    """The arrays of a text that mpslp accepts, or None."""
    try:
        return _mpslp.load(content, format_number(format))
    except ModelFileError:
        return None


def require_accepted(content: bytes, format: Format, source_lines: Sequence[int]) -> None:
    """Raises AdaptError, with the line of the source, for a text that mpslp rejects."""
    try:
        _mpslp.load(content, format_number(format))
        return
    except ModelFileError as rejection:
        error = rejection
    line = error.line
    if line is not None and source_lines and line <= len(source_lines):
        line = source_lines[line - 1]
    raise left_for(error, line)


def left_for(rejection: ModelFileError, line: int | None) -> AdaptError:
    """The error of a text that is left since mpslp rejects it, with the line of the source."""
    name = "" if rejection.name is None else f" {rejection.name}"
    return AdaptError(line, f"{rejection.kind}{name}: see mpslp-tools explain {rejection.kind}", rejection)
