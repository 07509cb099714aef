"""Work on files: one or many, in order, in several processes if that pays; and what is printed of it."""

from __future__ import annotations

import argparse
import json
import os
import stat
import sys
from collections import Counter
from collections.abc import Callable, Iterable, Iterator, Sequence
from contextlib import AbstractContextManager, nullcontext
from functools import partial
from typing import NamedTuple

from mpslp._commands import _colour
from mpslp._commands._inputs import STANDARD_INPUT, Input, Inputs, text_of
from mpslp._commands._outcomes import Outcome, Record, Status, UsageError, failure
from mpslp._commands._progress import Progress
from mpslp._errors._faults import ModelFileError
from mpslp._errors._own_checks import OwnCheckError
from mpslp._files._output import printable, shown_path, write_all, write_line, write_lines, write_pieces
from mpslp._files._sources import Text, naming
from mpslp._files._workers import results_in_order

Work = Callable[[Text, Input, argparse.Namespace], Outcome]
"""What is done with the text of a file."""

_BYTES_THAT_PAY = 20_000_000
"""How many bytes take longer to read, with warnings, than processes take to start."""
_BYTES_OF_A_FILE = 20_000
"""How many bytes take as long as it takes to open a file."""


def attempt(given: Input, options: argparse.Namespace, work: Work) -> Outcome:
    """Does something with the text of a file, or says why not."""
    text = None
    try:
        text = text_of(given, options)
        with naming(text):
            return work(text, given, options).with_shown(given.name)
    except (ModelFileError, OwnCheckError, UsageError, MemoryError, OSError, ImportError) as error:
        return failure(given.name, error, text)


def for_one(given: Input, options: argparse.Namespace, work: Work) -> Status:
    """Does something with a file, and prints what came of it."""
    return for_outcome(options, lambda: attempt(given, options, work))


def for_outcome(options: argparse.Namespace, work: Callable[[], Outcome]) -> Status:
    """Does something that has one outcome, and prints it."""
    with Progress(1, not options.quiet) as progress:
        outcome = work()
        print_outcome(outcome, options, progress)
    return outcome.status


class Done(NamedTuple):
    """What came of many files."""

    status: Status
    counts: Counter[str]
    """The numbers of changes by kind."""
    files: Counter[str]
    """The numbers of files by these kinds."""


def for_each(
    inputs: Inputs,
    options: argparse.Namespace,
    work: Work,
    bytes_that_pay: int = _BYTES_THAT_PAY,
    note: Callable[[Input, Outcome], None] | None = None,
) -> Done:
    """Does something with each file, and prints what came of them in order. The status is the greatest.

    ``note`` gets each file with what came of it.
    """
    worst, counts, kinds = Status.DONE, Counter[str](), Counter[str]()
    files = inputs.files
    results = results_in_order(
        partial(attempt, options=options, work=work), files, processes_for(files, options.jobs, bytes_that_pay)
    )
    with Progress(len(files), not options.quiet) as progress:
        for outcome in _unread(inputs, options):
            print_outcome(outcome, options, progress)
            worst = max(worst, outcome.status)
        for given, outcome in zip(files, results):
            print_outcome(outcome, options, progress)
            progress.count()
            if note is not None:
                note(given, outcome)
            worst = max(worst, outcome.status)
            counts.update(outcome.counts or {})
            kinds.update((outcome.counts or {}).keys())
    return Done(worst, counts, kinds)


def _unread(inputs: Inputs, options: argparse.Namespace) -> Iterator[Outcome]:
    """What is said of directories that do not open, or have no model files."""
    yield from (failure(str(error.filename), error) for error in inputs.failed)
    if inputs.empty and not options.quiet:
        yield without_models(inputs.empty)


def without_models(directories: Iterable[str]) -> Outcome:
    """What is said of directories that have no model files."""
    return Outcome(error="\n".join(f"warning: {shown_path(path)}: no model files" for path in directories))


def processes_for(inputs: Sequence[Input], jobs: int, bytes_that_pay: int) -> int:
    """How many processes work on files: one if they are small, or if one is standard input, which is that of this
    process.
    """
    if any(each.path == STANDARD_INPUT for each in inputs):
        return 1
    size = 0
    for each in inputs:
        size += _BYTES_OF_A_FILE + _size_of(each.path, bytes_that_pay)
        if size >= bytes_that_pay:
            return jobs
    return 1


def _size_of(path: str, unknown: int) -> int:
    """How many bytes a file has; of what is no file, such as a pipe, nobody knows."""
    try:
        status = os.stat(path)
    except OSError:
        return 0
    return status.st_size if stat.S_ISREG(status.st_mode) else unknown


# ---- what is printed


def print_outcome(outcome: Outcome, options: argparse.Namespace, progress: Progress) -> None:
    """Prints what came of a file: as JSON if that is asked for, else in lines for people."""
    if getattr(options, "json", False) and outcome.record is not None:
        with _quiet_terminal(progress):
            write_pieces(sys.stdout, _json(outcome.record))
            write_all(sys.stdout, "\n")
        return
    if outcome.error:
        with progress.hidden():
            error = printable(outcome.error)
            write_line(sys.stderr, _colour.message(error) if _colour.is_coloured(sys.stderr) else error)
    if outcome.output or outcome.text or outcome.patch or outcome.lines:
        with _quiet_terminal(progress):
            _print_output(outcome)


def _quiet_terminal(progress: Progress) -> AbstractContextManager[None]:
    """The progress is not shown between lines of the same terminal; lines for a file may take long, and it goes on."""
    return progress.hidden() if sys.stdout is not None and sys.stdout.isatty() else nullcontext()


def _print_output(outcome: Outcome) -> None:
    is_coloured = _colour.is_coloured(sys.stdout)
    write_all(sys.stdout, outcome.text)
    write_all(sys.stdout, _colour.patch(outcome.patch) if is_coloured else outcome.patch)
    write_lines(sys.stdout, _coloured(outcome.lines) if is_coloured else outcome.lines)
    if outcome.output:
        is_terminal = sys.stdout is not None and sys.stdout.isatty()
        write_line(sys.stdout, printable(outcome.output) if is_terminal else outcome.output)


def _coloured(lines: Iterable[str]) -> Iterator[str]:
    return map(_colour.difference, lines)


def _json(record: Record) -> Iterator[str]:
    """Pieces of a record as JSON, on one line."""
    before = "{"
    for name, value in record.items():
        yield f"{before}{json.dumps(name)}: "
        if isinstance(value, Iterator):
            yield from _json_list(value)
        else:
            yield json.dumps(value)
        before = ", "
    yield "}"


def _json_list(values: Iterator[object]) -> Iterator[str]:
    before = "["
    for each in values:
        yield f"{before}{json.dumps(each)}"
        before = ", "
    yield "[]" if before == "[" else "]"
