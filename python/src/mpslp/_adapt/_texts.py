"""Files as they come: compressed, in another encoding, or with lines that mpslp rejects."""

# Annotations are evaluated here: the classes say that they are of the package, whose names are fewer.

import gc
from collections.abc import Collection, Iterator, Mapping
from contextlib import contextmanager
from dataclasses import dataclass, replace

from mpslp._adapt._accepted import accepted, require_accepted
from mpslp._adapt._changes import DIALECTS, NO_DIALECT, AdaptError, Change, Log, Note, kinds_of, readable
from mpslp._adapt._check import require_the_same
from mpslp._adapt._lp import adapt_lp
from mpslp._adapt._mps import adapt_mps
from mpslp._adapt._notes import notes_of
from mpslp._adapt._writers import MOST_OF_HEADER, Writer, writer_of
from mpslp._files._compression import unpack
from mpslp._files._sources import Format

_COMPRESSED = ((b"\x1f\x8b", ".gz"), (b"BZh", ".bz2"), (b"\xfd7zXZ\x00", ".xz"), (b"\x28\xb5\x2f\xfd", ".zst"))
_MARKS = ((b"\xef\xbb\xbf", "utf-8"), (b"\xff\xfe", "utf-16-le"), (b"\xfe\xff", "utf-16-be"))


@dataclass(frozen=True)
class Adapted:
    """A text that mpslp accepts, its format, what was changed, in the order of lines, and the names written for names
    given.

    ``notes`` has the lines that stay, and that another dialect means in another way. ``writer`` is the program that the
    header of the text names, if its dialect was taken for that reason, else None.
    """

    text: bytes
    format: Format
    changes: tuple[Change, ...]
    names: Mapping[str, str]
    notes: tuple[Note, ...] = ()
    writer: Writer | None = None

    def __repr__(self) -> str:
        sizes = f"{len(self.changes)} changes, {len(self.notes)} notes, {len(self.text)} bytes"
        return f"<mpslp.Adapted: {self.format}, {sizes}>"


def adapt_text(content: bytes, format: Format, dialect: str | None = None, strict: Collection[str] = ()) -> Adapted:
    """The text that mpslp accepts for bytes in a format; raises AdaptError if its meaning would have to be guessed."""
    kinds = kinds_of(strict)
    if dialect is not None and dialect not in (*DIALECTS, NO_DIALECT):
        raise ValueError(f"unknown dialect: {dialect!r} is none of {', '.join((*DIALECTS, NO_DIALECT))}")
    writer = named_writer(content, format) if dialect is None else None
    chosen = writer.dialect if writer is not None else None if dialect == NO_DIALECT else dialect
    try:
        return replace(adapted_from(content, format, chosen, kinds), writer=writer)
    except AdaptError as error:
        error.writer = writer
        error.reason = readable(error.reason)
        raise


def named_writer(content: bytes, format: Format) -> Writer | None:
    """The program that the header of a text names; the text may be compressed, or in another encoding."""
    for rule in (decompressed, decoded):
        content = rule(content, Log())
    return writer_of(with_line_feeds(content[:MOST_OF_HEADER], Log()).decode("latin-1"), format)


def adapted_from(content: bytes, format: Format, dialect: str | None, kinds: frozenset[str]) -> Adapted:
    """The text of a dialect as mpslp accepts it."""
    if dialect is None and (arrays := accepted(content, format)) is not None:
        return Adapted(content, format, (), {}, notes_of(content, format, arrays))
    log = Log(kinds)
    for rule in (decompressed, decoded, with_line_feeds, without_end_of_file_byte):
        content = rule(content, log)
    before = content.decode("latin-1")
    with without_collection():
        after, names = rewritten(before, format, dialect, log)
        changes = tuple(sorted(log.changes, key=lambda change: change.line))
        require_the_same(before, after, format, dialect, log, names)
    text = after.encode("latin-1")
    require_accepted(text, format, log.source_lines)
    return Adapted(text, format, changes, {as_read(given): name for given, name in names.items()}, tuple(log.notes))


def rewritten(text: str, format: Format, dialect: str | None, log: Log) -> tuple[str, dict[str, str]]:
    """A text in latin-1 as mpslp reads it, and the names written instead of names given."""
    return adapt_lp(text, dialect, log) if format == "lp" else adapt_mps(text, dialect, log)


@contextmanager
def without_collection() -> Iterator[None]:
    """Does not look for cycles among the tokens of a text, which have none: that takes a sixth of the time."""
    was_enabled = gc.isenabled()
    gc.disable()
    try:
        yield
    finally:
        if was_enabled:
            gc.enable()


def as_read(text: str) -> str:
    """A name in latin-1, a character for each byte, as UTF-8."""
    return text.encode("latin-1").decode("utf-8", "surrogateescape")


# ---- rules of whole files


def decompressed(content: bytes, log: Log) -> bytes:
    """A file that is compressed although its name does not say so."""
    for magic, ending in _COMPRESSED:
        if content.startswith(magic):
            try:
                unpacked = unpack(ending, content)
            except (ImportError, OSError) as error:
                raise AdaptError(1, f"no whole file of {ending}: {error}") from error
            log.add(1, "compressed", ending, "")
            return unpacked
    return content


def decoded(content: bytes, log: Log) -> bytes:
    """A byte order mark says that a text is UTF-8 or UTF-16."""
    for mark, encoding in _MARKS:
        if content.startswith(mark):
            log.add(1, "byte-order-mark", encoding, "")
            try:
                return content[len(mark) :].decode(encoding).encode("utf-8")
            except UnicodeDecodeError as error:
                raise AdaptError(1, f"a byte order mark of {encoding}, and other bytes: {error}") from error
    return content


def with_line_feeds(content: bytes, log: Log) -> bytes:
    """Lines that end with a carriage return only."""
    if b"\r" in content and b"\n" not in content.rstrip(b"\r\n"):
        changed = content.replace(b"\r\n", b"\n").replace(b"\r", b"\n")
        if changed.rstrip(b"\n") != content.rstrip(b"\r\n"):
            log.add(1, "line-ends", "CR", "LF")
            return changed
    return content


def without_end_of_file_byte(content: bytes, log: Log) -> bytes:
    """The byte 26, which old programs write at the end of a file; on a line of its own it comes after the end."""
    kept = content.rstrip(b"\r\n \t")
    if not kept.endswith(b"\x1a") or not kept.rpartition(b"\n")[2].strip(b"\x1a \t\r"):
        return content
    log.add(kept.count(b"\n") + 1, "end-of-file-byte", "byte 26", "")
    return kept.rstrip(b"\x1a")
