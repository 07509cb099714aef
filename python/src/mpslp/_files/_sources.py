"""The bytes of a text, and its format."""

import errno
import io
import os
import sys
from collections.abc import Callable, Iterator
from contextlib import contextmanager
from typing import TYPE_CHECKING, Literal, NamedTuple, Protocol, TypeAlias

from mpslp import _mpslp
from mpslp._errors._faults import ModelFileError
from mpslp._files._compression import pack, unpack, without_ending

if TYPE_CHECKING:
    from _typeshed import ReadableBuffer
else:
    # Type checkers know each object that has a buffer; at run time there is no name for these before Python 3.12.
    ReadableBuffer = bytes | bytearray | memoryview

Format: TypeAlias = Literal["mps", "lp"]
"""A format of texts."""

Path: TypeAlias = str | os.PathLike[str] | os.PathLike[bytes]
"""The path of a file."""


class BinaryFile(Protocol):
    """A file that is open for reading bytes."""

    def read(self, /) -> bytes:
        ...


Source: TypeAlias = ReadableBuffer | Path | BinaryFile
"""A text: its bytes, in any object that has a buffer; the path of its file; or that file, open for reading bytes."""

_NUMBERS: dict[Format, int] = {"mps": _mpslp.MPS, "lp": _mpslp.LP}


class Text(NamedTuple):
    """The bytes of a text, the number of its format, and the path of its file."""

    content: bytes
    format: int
    filename: str | None


def format_number(format: Format | None) -> int:
    """The number of a format in the library."""
    if not isinstance(format, str) or format not in _NUMBERS:
        raise ValueError(f"unknown format: {format!r} is neither 'mps' nor 'lp'")
    return _NUMBERS[format]


def format_of(text: Text) -> Format:
    """The format of a text."""
    return next(format for format, number in _NUMBERS.items() if number == text.format)


def read(source: Source, format: Format | None) -> Text:
    """The text of a source. A given format takes precedence over the ending of a path."""
    if isinstance(source, (str, os.PathLike)):
        path = os.fspath(source)
        number = format_number(_format_of_path(path) if format is None else format)
        with open(path, "rb") as file:
            return Text(unpack(os.fsdecode(path), file.read()), number, os.fsdecode(path))
    view = _view(source)
    if view is None:
        return _read_file(source, format)
    if format is None:
        raise ValueError("the format of bytes has to be given: 'mps' or 'lp'")
    return Text(_frozen(view), format_number(format), None)


def read_standard_input() -> bytes:
    """All bytes of standard input; raises OSError if it is closed."""
    if sys.stdin is None:
        raise OSError(errno.EBADF, "standard input is closed")
    return sys.stdin.buffer.read()


def _read_file(source: object, format: Format | None) -> Text:
    """The rest of an open file. Its path, if it has one, determines the format; its bytes are not decompressed."""
    read_all = getattr(source, "read", None)
    if not callable(read_all) or isinstance(source, io.TextIOBase):
        raise TypeError(f"a text is bytes, a path or an open binary file, not {type(source).__name__}")
    path = getattr(source, "name", None)
    filename = os.fsdecode(path) if isinstance(path, (str, bytes, os.PathLike)) else None
    if format is None and filename is None:
        raise ValueError("the format of an open file without a path has to be given: 'mps' or 'lp'")
    number = format_number(_format_of_path(filename) if format is None and filename is not None else format)
    content = read_all()
    if not isinstance(content, bytes):
        raise TypeError(f"an open file gives bytes, not {type(content).__name__}")
    return Text(content, number, filename)


def write(path: Path, format: Format | None, text: Callable[[Format], bytes]) -> None:
    """Writes a text in a format to a file, which is opened after the text is made."""
    if not isinstance(path, (str, os.PathLike)):
        raise TypeError(f"a path is a str or an os.PathLike, not {type(path).__name__}")
    name = os.fspath(path)
    content = pack(os.fsdecode(name), text(_format_of_path(name) if format is None else format))
    with open(name, "wb") as file:
        file.write(content)


@contextmanager
def naming(first: Text, second: Text | None = None) -> Iterator[None]:
    """Within it, a ModelFileError gets the path of the text that has the error."""
    try:
        yield
    except ModelFileError as error:
        text = second if second is not None and error.which == "second" else first
        error.filename = text.filename
        raise


def format_of_name(path: str) -> Format | None:
    """The format that the ending of a path says, or None."""
    name, _ = without_ending(path)
    return next((format for format in _NUMBERS if name.lower().endswith("." + format)), None)


def _format_of_path(path: str | bytes) -> Format:
    format = format_of_name(os.fsdecode(path))
    if format is None and "\n" in os.fsdecode(path):
        raise ValueError(
            "a str is the path of a file, and this one has several lines: give a text as bytes, with its format"
        )
    if format is None:
        raise ValueError(
            f"the format of {os.fsdecode(path)!r} has to be given, 'mps' or 'lp': it ends neither in .mps nor in .lp"
        )
    return format


def _view(source: ReadableBuffer | BinaryFile) -> bytes | memoryview | None:
    """The bytes of an object without a copy, or None if it has no buffer."""
    if isinstance(source, bytes):
        return source
    try:
        return memoryview(source)  # type: ignore[arg-type]
    except TypeError:
        return None


def _frozen(view: bytes | memoryview) -> bytes:
    """Bytes that cannot change: the object itself, or a copy.

    The library reads without the interpreter's lock, and what it reads must not change. Another thread may write to a
    bytearray or a mapped file meanwhile, and a read-only view may be one of either, so everything except bytes is
    copied.
    """
    return view if isinstance(view, bytes) else view.tobytes()
