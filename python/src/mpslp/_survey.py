"""A collection of model files: which are accepted, what adapt makes of the others, and which define one model."""

# Annotations are evaluated here: the classes appear as those of the package, whose names are fewer.

import os
import time
from collections import Counter
from collections.abc import Callable, Iterable, Iterator, Mapping
from dataclasses import dataclass, field, replace
from functools import cached_property, partial
from typing import Any, Literal, TypeAlias

from mpslp import _mpslp
from mpslp._adapt import DIALECTS, AdaptError, adapt_text
from mpslp._adapt._changes import NO_DIALECT
from mpslp._errors._faults import ModelFileError
from mpslp._files._output import shown_path
from mpslp._files._paths import model_files
from mpslp._files._sources import Format, Path, Text, format_of_name, read
from mpslp._files._workers import results_as_done

Result: TypeAlias = Literal["accepted", "adapted", "rejected", "unreadable"]
"""What came of a file."""

RESULTS: tuple[Result, ...] = ("accepted", "adapted", "rejected", "unreadable")


@dataclass(frozen=True)
class SurveyedFile:
    """What a survey found of a file."""

    path: str
    """The path, as found below the path that was given."""
    result: Result
    """``"accepted"`` unchanged; ``"adapted"``, accepted after :func:`adapt`; ``"rejected"``; or ``"unreadable"``."""
    format: Format | None = None
    """The format that the extension says; or None."""
    bytes: int = 0
    """The size of the file, compressed if it is so."""
    seconds: float = 0.0
    """How long it took."""
    rows: int | None = None
    """How many rows the model has; None, as the next four, if the file has no model."""
    columns: int | None = None
    """How many columns it has."""
    entries: int | None = None
    """How many nonzero coefficients it has in rows."""
    digest: str | None = None
    """The SHA-256 of its canonical MPS text: one for all files of a model."""
    digest_any_names: str | None = None
    """A digest that does not depend on names: one for all models that are the same but for names, and most likely for
    these only.
    """
    error: str = ""
    """The kind of the error of the file as found, such as ``"DuplicateEntry"``; empty if it is
    accepted or unreadable.
    """
    line: int | None = None
    """The line of that error, from 1; None for an error of the whole text."""
    reason: str = ""
    """Why adapt leaves the file, or why it cannot be read."""
    changes: Mapping[str, int] = field(default_factory=dict)
    """The kinds of changes that adapt makes, and how many there are of each."""

    @property
    def note(self) -> str:
        """What is said of the file in a few words; empty if it is accepted."""
        if self.result == "adapted":
            return ", ".join(f"{kind} {number}" for kind, number in self.changes.items())
        where = f"line {self.line}: " if self.line is not None else ""
        if self.error and where and self.reason.startswith(where):
            return f"{where}{self.error}: {self.reason.removeprefix(where)}"
        return "; ".join(filter(None, (f"{where}{self.error}" if self.error else "", self.reason)))


@dataclass(frozen=True)
class Survey:
    """What a survey found of a collection. As text it is a table of the files and a summary."""

    files: tuple[SurveyedFile, ...]
    """The files, in the order of their paths."""
    seconds: float = 0.0
    """How long it took."""
    groups_any_names: tuple[tuple[str, ...], ...] = ()
    """The paths of files whose models are the same but for names, as :func:`same_but_for_names` has found, for each
    group of several models.
    """

    @cached_property
    def results(self) -> Mapping[str, int]:
        """How many files there are of each result."""
        found = Counter(file.result for file in self.files)
        return {result: found[result] for result in RESULTS}

    @cached_property
    def errors(self) -> Mapping[str, int]:
        """How many files have an error of each kind as found, the most frequent first; adapted
        files are counted too.
        """
        return _by_number(file.error for file in self.files if file.error)

    @cached_property
    def changes(self) -> Mapping[str, int]:
        """How many files are adapted by a change of each kind, the most frequent first."""
        return _by_number(kind for file in self.files for kind in file.changes)

    @cached_property
    def groups(self) -> tuple[tuple[str, ...], ...]:
        """The paths of files that define one model, for each model of which there are several."""
        found: dict[str, list[str]] = {}
        for file in self.files:
            if file.digest is not None:
                found.setdefault(file.digest, []).append(file.path)
        return tuple(tuple(paths) for paths in found.values() if len(paths) > 1)

    def __str__(self) -> str:
        return "\n".join([*_table(self.files), "", *self.summary()])

    def summary(self) -> Iterator[str]:
        """The lines of the summary, which come after the table."""
        counted = ", ".join(f"{number} {result}" for result, number in self.results.items() if number)
        size = sum(file.bytes for file in self.files)
        yield (
            f"{len(self.files)} {'file' if len(self.files) == 1 else 'files'}, {size:,} bytes,"
            f" {self.seconds:.1f} seconds: {counted or 'none'}"
        )
        for title, numbers in (
            ("errors of the files as found:", self.errors),
            ("files adapted, by change:", self.changes),
        ):
            if numbers:
                yield from ("", title, *(f"{number:6}  {kind}" for kind, number in numbers.items()))
        if self.groups:
            yield from ("", "equal models:", *(f"  {' '.join(paths)}" for paths in self.groups))
        if self.groups_any_names:
            yield from ("", "models equal but for names:", *(f"  {' '.join(paths)}" for paths in self.groups_any_names))

    def csv(self) -> str:
        """The files as comma-separated values, with a line of titles. Files of one model have the same number as their
        group.

        So have files of models that are the same but for names, in a column of its own.
        """
        import csv
        import io

        groups, others = (
            {path: number for number, paths in enumerate(each, 1) for path in paths}
            for each in (self.groups, self.groups_any_names)
        )
        text = io.StringIO()
        writer = csv.writer(text, lineterminator="\n")
        writer.writerow((*_FIELDS, "group", "group_any_names"))
        for file in self.files:
            values = (_cell(getattr(file, name)) for name in _FIELDS)
            writer.writerow((*values, groups.get(file.path, ""), others.get(file.path, "")))
        return text.getvalue()

    def json(self) -> str:
        """The files and the summary as JSON."""
        import json

        content: dict[str, Any] = {
            "files": [{name: _value(getattr(file, name)) for name in _FIELDS} for file in self.files],
            "results": self.results,
            "errors": self.errors,
            "changes": self.changes,
            "groups": self.groups,
            "groups_any_names": self.groups_any_names,
            "bytes": sum(file.bytes for file in self.files),
            "seconds": round(self.seconds, 3),
        }
        return json.dumps(content, indent=1) + "\n"


class SurveyInterrupt(KeyboardInterrupt):
    """An interrupt of a survey, which has the files that were done before it."""

    def __init__(self, survey: Survey) -> None:
        super().__init__()
        self.survey = survey


_FIELDS = (
    *("path", "result", "format", "bytes", "seconds", "rows", "columns", "entries", "digest", "digest_any_names"),
    *("error", "line", "reason", "changes"),
)


def survey(*paths: Path, jobs: int = 1, dialect: str | None = None) -> Survey:
    """Returns what there is in collections of model files: directories, with all below them, and files.

    Each file is read; one that is rejected is adapted, as :func:`adapt` does without a dialect, and read again. With a
    dialect, as for :func:`adapt`, each file is adapted. Nothing is written. ``jobs`` is the number of processes that
    work on files. As with ``multiprocessing``, a script that asks for more than one has to guard what it runs by ``if
    __name__ == "__main__":``.

    Files and directories that do not open are in the result, as ``"unreadable"``.
    """
    if dialect is not None and dialect not in (*DIALECTS, NO_DIALECT):
        raise ValueError(f"unknown dialect: {dialect!r} is none of {', '.join((*DIALECTS, NO_DIALECT))}")
    return survey_of(map(os.fsdecode, paths), jobs, dialect=dialect)


def survey_of(
    paths: Iterable[str],
    jobs: int,
    watch: Callable[[int, int], None] = lambda done, total: None,
    dialect: str | None = None,
    format: Format | None = None,
    texts: Iterable[Text] = (),
) -> Survey:
    """The survey of paths, and of texts that are read already. After each file ``watch`` gets the number of those that
    are done, and of all.

    The format is that of files whose extension does not say it. An interrupt is raised as a SurveyInterrupt.
    """
    start = time.perf_counter()
    below, found = files_below(paths)
    given = list(texts)
    found.extend(surveyed_text(text, dialect) for text in given)
    watch(0, len(below))
    work = partial(surveyed_file, dialect=dialect, format=format)
    try:
        for done, (_, file) in enumerate(results_as_done(work, below, jobs), 1):
            found.append(file)
            watch(done, len(below))
    except KeyboardInterrupt:
        raise SurveyInterrupt(Survey(_sorted(found), time.perf_counter() - start)) from None
    files = _sorted(found)
    contents = {str(text.filename): text for text in given}
    groups = groups_any_names(files, lambda path: _arrays_of(path, contents.get(path), dialect, format))
    return Survey(files, time.perf_counter() - start, tuple(groups))


def _sorted(files: Iterable[SurveyedFile]) -> tuple[SurveyedFile, ...]:
    return tuple(sorted(files, key=lambda file: file.path))


def files_below(paths: Iterable[str]) -> tuple[list[str], list[SurveyedFile]]:
    """The model files of directories, and the directories that do not open."""
    failed: list[SurveyedFile] = []
    found = list(
        dict.fromkeys(model_files(paths, lambda error: failed.append(_unreadable(str(error.filename), error))))
    )
    return found, failed


def surveyed_file(path: str, dialect: str | None = None, format: Format | None = None) -> SurveyedFile:
    """What there is of a file."""
    start, size, named = time.perf_counter(), 0, format_of_name(path)
    try:
        size = os.stat(path).st_size
        found = _of_text(path, read(path, named or format), dialect)
    except (OSError, ImportError, MemoryError, ValueError) as error:
        found = _unreadable(path, error)
    return replace(found, format=named or format, bytes=size, seconds=round(time.perf_counter() - start, 6))


def surveyed_text(text: Text, dialect: str | None = None) -> SurveyedFile:
    """What there is of a text."""
    start, path = time.perf_counter(), str(text.filename)
    try:
        found = _of_text(path, text, dialect)
    except MemoryError as error:
        found = _unreadable(path, error)
    return replace(
        found, format=_name_of(text.format), bytes=len(text.content), seconds=round(time.perf_counter() - start, 6)
    )


def groups_any_names(
    files: Iterable[SurveyedFile], arrays_of: Callable[[str], _mpslp.Arrays]
) -> Iterator[tuple[str, ...]]:
    """The paths of files whose models are the same but for names, where there are several models.

    Each is compared with one of them.
    """
    found: dict[str, dict[str, list[str]]] = {}
    for file in files:
        if file.digest is not None and file.digest_any_names is not None:
            found.setdefault(file.digest_any_names, {}).setdefault(file.digest, []).append(file.path)
    for models in found.values():
        if len(models) > 1:
            yield from (
                tuple(sorted(paths)) for paths, count in _classes(list(models.values()), arrays_of) if count > 1
            )


_MOST_CLASSES = 8
"""With how many models a model is compared that has their digest without names, and is not found to be the same but for
names as any.
"""


def _classes(models: list[list[str]], arrays_of: Callable[[str], _mpslp.Arrays]) -> list[tuple[list[str], int]]:
    """The paths of models that are the same but for names, and how many models these are."""
    classes: list[tuple[list[str], int]] = []
    firsts: list[_mpslp.Arrays] = []
    for paths in models:
        try:
            arrays = arrays_of(paths[0])
        except (OSError, ImportError, MemoryError, ValueError):  # it has changed since it was read
            continue
        number = next((number for number, first in enumerate(firsts) if _is_same_but_for_names(first, arrays)), None)
        if number is not None:
            classes[number] = classes[number][0] + paths, classes[number][1] + 1
        elif len(firsts) < _MOST_CLASSES:
            firsts.append(arrays)
            classes.append((list(paths), 1))
    return classes


def _is_same_but_for_names(first: _mpslp.Arrays, second: _mpslp.Arrays) -> bool:
    """Whether a map of names is found."""
    from mpslp._matching._call import UndecidedError, match
    from mpslp._matching._map import NameMap

    try:
        return isinstance(match(first, second), NameMap)
    except UndecidedError:
        return False


def _arrays_of(path: str, text: Text | None, dialect: str | None, format: Format | None) -> _mpslp.Arrays:
    """The model of a file once more, adapted if it was."""
    if text is None:
        text = read(path, format_of_name(path) or format)
    if dialect in (None, NO_DIALECT):
        try:
            return _mpslp.load(text.content, text.format)
        except ModelFileError:
            pass
    return _mpslp.load(adapt_text(text.content, _name_of(text.format), dialect).text, text.format)


def _name_of(format: int) -> Format:
    return "lp" if format == _mpslp.LP else "mps"


def _unreadable(path: str, error: Exception) -> SurveyedFile:
    if isinstance(error, OSError) and error.strerror:
        reason = error.strerror
    elif isinstance(error, MemoryError):
        reason = "out of memory"
    else:
        reason = str(error).replace(f"{path!r} is ", "")  # of a compression
    return SurveyedFile(path, "unreadable", reason=reason)


def _of_text(path: str, text: Text, dialect: str | None) -> SurveyedFile:
    try:
        model = _model(text.content, text.format)
    except ModelFileError as error:
        return _adapted(path, text, dialect, error)
    return (
        SurveyedFile(path, "accepted", **model)
        if dialect in (None, NO_DIALECT)
        else _adapted(path, text, dialect, None)
    )


def _adapted(path: str, text: Text, dialect: str | None, error: ModelFileError | None) -> SurveyedFile:
    """What there is of a file that is rejected, or of a dialect: the model that adapt makes of it, or why there is
    none.
    """
    found: dict[str, Any] = {} if error is None else {"error": error.kind, "line": error.line}
    try:
        done = adapt_text(text.content, _name_of(text.format), dialect)
        model = _model(done.text, text.format)
    except AdaptError as left:
        return SurveyedFile(path, "rejected", **found, reason=_reason(left, error))
    changes = Counter(change.kind for change in done.changes)
    return SurveyedFile(path, "adapted" if changes else "accepted", **found, changes=dict(changes), **model)


def _reason(left: AdaptError, error: ModelFileError | None) -> str:
    """Why adapt leaves a file, or nothing if it is the error of the file."""
    again = left.rejection
    if (
        again is not None
        and error is not None
        and (again.kind, left.line, again.name) == (error.kind, error.line, error.name)
    ):
        return ""
    return left.reason if left.line is None else f"line {left.line}: {left.reason}"


def _model(content: bytes, format: int) -> dict[str, Any]:
    """The counts and the digests of the model that a text defines."""
    from hashlib import sha256  # it breaks further interpreters of CPython 3.12.1, and is wanted here only

    from mpslp._matching._colours import digest_of

    arrays = _mpslp.load(content, format)
    rows, columns, entries = arrays.counts()
    digest = sha256(_mpslp.store(arrays, _mpslp.MPS)).hexdigest()
    return {
        "rows": rows,
        "columns": columns,
        "entries": entries,
        "digest": digest,
        "digest_any_names": digest_of(arrays),
    }


def _by_number(kinds: Iterable[str]) -> dict[str, int]:
    return dict(sorted(Counter(kinds).items(), key=lambda each: (-each[1], each[0])))


# ---- how it is written


def _table(files: Iterable[SurveyedFile]) -> Iterator[str]:
    yield f"{'result':<10} {'rows':>9} {'columns':>9} {'entries':>11} {'bytes':>13} {'seconds':>8}  path"
    for file in files:
        counts = ("-" if number is None else f"{number:,}" for number in (file.rows, file.columns, file.entries))
        rows, columns, entries = counts
        line = (
            f"{file.result:<10} {rows:>9} {columns:>9} {entries:>11} {file.bytes:>13,} {file.seconds:>8.2f} "
            f" {shown_path(file.path)}"
        )
        yield f"{line}  ({file.note})" if file.note else line


def _cell(value: object) -> object:
    if isinstance(value, Mapping):
        return " ".join(f"{kind}:{number}" for kind, number in value.items())
    return value


def _value(value: object) -> object:
    return dict(value) if isinstance(value, Mapping) else value
