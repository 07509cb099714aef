"""Model files by their paths: those of a directory, and files that are replaced as a whole."""

from __future__ import annotations

import os
import stat
from collections.abc import Callable, Iterable, Iterator
from contextlib import suppress
from typing import NamedTuple

from mpslp._files._sources import format_of_name


class FoundFile(NamedTuple):
    """A file of the paths that were given."""

    path: str
    place: str
    """Where it is below the directory that was given; of a file that was given itself, its name."""


def found_files(
    paths: Iterable[str], report: Callable[[OSError], None], left_out: str | None = None
) -> Iterator[FoundFile]:
    """The paths in order; for a directory, the model files in it and below it, by name, without hidden directories.

    Directories that do not open are reported and skipped; so is, without a report, the directory ``left_out``.
    """
    for path in paths:
        if not os.path.isdir(path):
            yield FoundFile(path, os.path.basename(path))
            continue
        for directory, directories, names in os.walk(path, onerror=report):
            directories[:] = sorted(
                name
                for name in directories
                if not name.startswith(".") and not _is(os.path.join(directory, name), left_out)
            )
            found = (os.path.join(directory, name) for name in sorted(names) if format_of_name(name) is not None)
            yield from (FoundFile(each, os.path.relpath(each, path)) for each in found)


def model_files(paths: Iterable[str], report: Callable[[OSError], None]) -> Iterator[str]:
    """The paths of these files."""
    return (found.path for found in found_files(paths, report))


def _is(path: str, other: str | None) -> bool:
    return other is not None and os.path.realpath(path) == os.path.realpath(other)


def is_one_file(path: str, other: str) -> bool:
    """Whether two paths lead to one file that is there."""
    try:
        return os.path.samefile(path, other)
    except OSError:
        return False


def replace_file(path: str, content: bytes) -> None:
    """Gives a file this content, as a whole: it has the old or the new one at each time, and after a crash.

    The content goes to a file in the same directory, which then takes the name. A file that is there keeps its mode,
    and its owner if that is permitted; a symbolic link keeps leading to it. A pipe or a device is written to.
    """
    try:
        old = _status_of(path)
        if old is None or stat.S_ISREG(old.st_mode):
            _replace(os.path.realpath(path), content, old)
        else:
            with open(path, "wb") as file:
                file.write(content)
    except OSError as error:
        error.filename, error.filename2 = path, None  # not that of the temporary file
        raise


def _replace(path: str, content: bytes, old: os.stat_result | None) -> None:
    directory = os.path.dirname(path)
    temporary = os.path.join(directory, f".mpslp-{os.urandom(8).hex()}.tmp")
    try:
        with open(temporary, "xb") as file:
            file.write(content)
            file.flush()
            if old is not None:
                with suppress(PermissionError):
                    os.fchown(file.fileno(), old.st_uid, old.st_gid)
                os.fchmod(file.fileno(), stat.S_IMODE(old.st_mode))
            os.fsync(file.fileno())
        os.replace(temporary, path)
    except BaseException:  # an interrupt, too
        with suppress(OSError):
            os.unlink(temporary)
        raise
    _sync_directory(directory)


def _status_of(path: str) -> os.stat_result | None:
    try:
        return os.stat(path)
    except FileNotFoundError:
        return None


def _sync_directory(directory: str) -> None:
    """Waits until the new name is on the disk; some file systems cannot do that for directories."""
    with suppress(OSError):
        descriptor = os.open(directory, os.O_RDONLY)
        try:
            os.fsync(descriptor)
        finally:
            os.close(descriptor)
