"""Compressed files, which are recognised by the ending of their path."""

from __future__ import annotations

import re
from collections.abc import Callable
from importlib import import_module
from typing import Any, NamedTuple


_ZEROS = re.compile(rb"\0*")
_LEAST_BLOCK, _MOST_BLOCK = 1 << 8, 1 << 20


class Compression(NamedTuple):
    """How a file is compressed. Modules are imported when they are needed, because some may be missing."""

    pack: Callable[[bytes], bytes]
    unpack: Callable[[bytes], bytes]


def without_ending(name: str) -> tuple[str, str]:
    """A path without the ending of a compression, and that ending; or the path and an empty ending."""
    for ending in COMPRESSIONS:
        if name.lower().endswith(ending):
            return name[: -len(ending)], ending
    return name, ""


def pack(name: str, content: bytes) -> bytes:
    """The bytes of a file with the path ``name`` and the text ``content``."""
    _, ending = without_ending(name)
    return COMPRESSIONS[ending].pack(content) if ending else content


def unpack(name: str, content: bytes) -> bytes:
    """The text of a file with the path ``name`` and the bytes ``content``; raises OSError if these are not so
    compressed.
    """
    _, ending = without_ending(name)
    if not ending:
        return content
    try:
        return COMPRESSIONS[ending].unpack(content)
    except (ImportError, MemoryError):
        raise
    except Exception as error:  # each module has exceptions of its own
        raise OSError(f"{name!r} is not a complete {ending} file: {error}") from error


def _gzip(content: bytes) -> bytes:
    import gzip

    return gzip.compress(content, mtime=0)  # without a time, so that one text has one file


def _gunzip(content: bytes) -> bytes:
    import gzip
    import io

    _begun(content)
    # It takes zeros after the last part, which tapes and tar leave, and nothing else. The function `decompress` copies
    # all parts that follow each part.
    with gzip.GzipFile(fileobj=io.BytesIO(content)) as file:
        return file.read()


def _bzip2(content: bytes) -> bytes:
    import bz2

    return bz2.compress(content)


def _bunzip2(content: bytes) -> bytes:
    import bz2

    return _joined_streams(content, bz2.BZ2Decompressor)


def _xz(content: bytes) -> bytes:
    import lzma

    return lzma.compress(content)


def _unxz(content: bytes) -> bytes:
    import lzma

    return _joined_streams(content, lzma.LZMADecompressor, padding=4)


def _joined_streams(content: bytes, decompressor: Callable[[], Any], padding: int = 0) -> bytes:
    """The text of streams one after the other. The module's own function ignores other bytes after the first.

    Zeros are legal after a stream of some formats, in multiples of ``padding``.
    """
    parts: list[bytes] = []
    at = 0
    while at < len(content) or not parts:
        text, at = _stream(content, at, decompressor())
        parts.append(text)
        if padding:
            start, at = at, _end_of_zeros(content, at)
            if (at - start) % padding:
                raise EOFError(f"the zeros after a stream are no multiple of {padding} bytes")
    return b"".join(parts)


def _stream(content: bytes, start: int, decompressor: Any) -> tuple[bytes, int]:
    """The text of the stream from a place on, and where the stream ends.

    It is read in blocks that grow, since what is left of a block is copied: so many short streams take no longer than a
    long one.
    """
    _begun(content[start : start + 1])
    parts: list[bytes] = []
    at, size = start, _LEAST_BLOCK
    while not decompressor.eof:
        block = content[at : at + size]
        if not block:
            raise EOFError("Compressed data ended before the end-of-stream marker was reached")
        parts.append(decompressor.decompress(block))
        at, size = at + len(block), min(2 * size, _MOST_BLOCK)
    return b"".join(parts), at - len(decompressor.unused_data)


def _end_of_zeros(content: bytes, start: int) -> int:
    found = _ZEROS.match(content, start)
    return start if found is None else found.end()


def _begun(content: bytes) -> None:
    """Raises EOFError for an empty file: each compression writes something for an empty text, too."""
    if not content:
        raise EOFError("it is empty")


def _zstd(content: bytes) -> bytes:
    own = _own_zstd()
    if own is not None:
        return bytes(own.compress(content))
    return bytes(import_module("zstandard").ZstdCompressor().compress(content))


def _unzstd(content: bytes) -> bytes:
    _begun(content)
    own = _own_zstd()
    return _unzstandard(content) if own is None else bytes(own.decompress(content))


def _own_zstd() -> Any:
    """Python's own module, which exists from 3.14; or None."""
    try:
        return import_module("compression.zstd")
    except ImportError:
        return None


def _unzstandard(content: bytes) -> bytes:
    """Frame by frame; a truncated frame is an error, which the readers of zstandard ignore."""
    zstandard = import_module("zstandard")
    return _joined_streams(content, lambda: zstandard.ZstdDecompressor().decompressobj())


COMPRESSIONS = {
    ".gz": Compression(_gzip, _gunzip),
    ".bz2": Compression(_bzip2, _bunzip2),
    ".xz": Compression(_xz, _unxz),
    ".zst": Compression(_zstd, _unzstd),
}
