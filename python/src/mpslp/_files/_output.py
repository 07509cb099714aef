"""Standard output and standard error: what a command prints is written as a whole, or the command fails."""

from __future__ import annotations

import errno
import os
import re
import select
import sys
from collections.abc import Iterable
from typing import Any

_BLOCK = 1 << 16
_CONTROL = re.compile(r"[\x00-\x08\x0b-\x1f\x7f-\x9f]")
"""A control character that neither ends a line nor is a tab."""


class OutputError(OSError):
    """Standard output or standard error cannot be written to. Its file name says which one."""

    @property
    def is_closed_pipe(self) -> bool:
        """Whether the reader of a pipe is gone, as that of ``mpslp-tools show plan.mps | head -1``."""
        return self.errno == errno.EPIPE


def write_all(stream: Any, data: bytes | str) -> None:
    """Writes all of this to ``sys.stdout`` or ``sys.stderr``, before it returns; raises OutputError if that fails.

    The stream may be None, as Python has it for a descriptor that is closed. File names in a text are written as the
    bytes that they are, in whatever encoding Python has for the stream.
    """
    if not data:
        return
    content = data if isinstance(data, bytes) else encoded(data)
    try:
        if stream is None:
            raise OSError(errno.EBADF, "it is closed")
        stream.flush()
        buffer = getattr(stream, "buffer", None)
        if buffer is None:  # a stream of text, which a caller of main has put there
            stream.write(content.decode("utf-8", "surrogateescape"))
        else:
            _write(getattr(buffer, "raw", buffer), memoryview(content))
    except (OSError, ValueError) as error:  # the second is that of a stream that was closed
        number, reason = (error.errno, error.strerror) if isinstance(error, OSError) else (None, None)
        raise OutputError(number or errno.EIO, reason or str(error), _name(stream)) from error


def write_line(stream: Any, line: str) -> None:
    """Writes a line."""
    write_all(stream, f"{line}\n")


def write_lines(stream: Any, lines: Iterable[str]) -> None:
    """Writes lines, many at a time."""
    _write_joined(stream, lines, "\n")


def write_pieces(stream: Any, pieces: Iterable[str]) -> None:
    """Writes pieces of a text, many at a time."""
    _write_joined(stream, pieces, "")


def _write_joined(stream: Any, pieces: Iterable[str], end: str) -> None:
    """Writes pieces, each with this end."""
    block: list[str] = []
    size = 0
    for piece in pieces:
        block.append(piece)
        size += len(piece) + 1
        if size >= _BLOCK:
            write_all(stream, end.join([*block, ""]))
            block, size = [], 0
    if block:
        write_all(stream, end.join([*block, ""]))


def printable(text: str) -> str:
    """Lines for people, in which control characters, such as those that names of files may have, are escaped."""
    return _CONTROL.sub(lambda found: f"\\x{ord(found[0]):02x}", text)


def shown_path(path: str) -> str:
    """A path as it is printed: the same on one line, with tabs and ends of lines escaped, too."""
    return printable(path.replace("\t", "\\t").replace("\n", "\\n"))


def encoded(text: str) -> bytes:
    """A text as bytes; the names of files in it are theirs."""
    try:
        return os.fsencode(text)
    except UnicodeEncodeError:  # a word of a model file, in a locale that does not have its letters
        return text.encode("utf-8", "backslashreplace")


def _write(raw: Any, left: memoryview) -> None:
    """Writes without a buffer, which would keep what it cannot write. A write may take a part only."""
    while left:
        try:
            written = raw.write(left)
        except BlockingIOError as error:
            written = error.characters_written
        if not written:
            select.select([], [raw], [])  # the stream does not block, and takes nothing at present
        left = left[written or 0 :]


def _name(stream: Any) -> str:
    return "standard error" if stream is not None and stream is sys.stderr else "standard output"
