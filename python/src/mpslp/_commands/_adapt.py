"""The command adapt."""

from __future__ import annotations

import argparse
import os
import re
import sys
from collections import Counter
from collections.abc import Iterator, Mapping
from typing import Any

from mpslp import _mpslp
from mpslp._adapt import AdaptError, Adapted, adapt_text
from mpslp._adapt._changes import kinds_of
from mpslp._adapt._writers import Writer
from mpslp._commands import _options
from mpslp._commands._inputs import STANDARD_INPUT, Input, one_input
from mpslp._commands._names import nothing_replaced
from mpslp._commands._options import add_files, add_one_of, add_options, flag, option
from mpslp._commands._outcomes import Outcome, Status, UsageError, failure, record_of
from mpslp._commands._targets import given_out, inputs_for, require_one_place_each, target_of
from mpslp._commands._work import Done, for_each, for_outcome
from mpslp._files._compression import pack
from mpslp._files._output import write_lines
from mpslp._files._paths import replace_file
from mpslp._files._sources import Text, read_standard_input
from mpslp._rename import GivenNames, RenameError, name_from, table, table_of
from mpslp._text._patch import unified_diff

USAGE = "[OPTION].. FILE.."
DESCRIPTION = """\
Rewrite a file of another dialect as one that mpslp reads, without guessing, and
report each change on standard error. Many files need -i, --diff, --out-dir,
--dry-run or --summary. The exit status is 1 if a file is changed."""
DETAILS = """\
The exit status is 0 if mpslp accepts all files unchanged, 1 if it accepts them with the changes, and 2 if a file is
left, since its meaning would have to be guessed or mpslp rejects it in spite of the changes; then nothing is written
for this file. Without --from, the header of a file that names its writer selects the dialect, as a line on standard
error says; --from none turns this off. --summary prints the number of changes of each kind, and of files that have
one; without -o, -i or --out-dir nothing is written then. DIALECTS.md lists the kinds."""

_BYTES_THAT_PAY = 3_000_000
"""How many bytes take longer to adapt than processes take to start."""


def add(parser: argparse.ArgumentParser) -> None:
    add_files(parser, _options.FILES)
    add_one_of(parser, _options.OUTPUT, _options.OUT_DIR, _options.IN_PLACE, _options.PATCH)
    add_options(
        parser,
        flag("--dry-run", help="only report the changes"),
        _options.DIALECT,
        flag("--summary", help="print how many changes of each kind there are"),
        option(
            "--strict",
            action="append",
            default=[],
            metavar="KIND",
            help="leave files that need such a change; repeatable",
        ),
        _options.NAMES,
        _options.NAMES_BACK,
        _options.JOBS,
        _options.JSON,
        _options.QUIET,
    )


def run(options: argparse.Namespace) -> Status:
    try:
        kinds_of(options.strict)
    except ValueError as error:
        raise UsageError(str(error)) from None
    if options.names_back:
        return _names_back(options)
    _require_fitting(options)
    inputs = inputs_for(options)
    if options.out_dir is not None:
        require_one_place_each(inputs, lambda given: target_of(given, options.out_dir, None))
    done = for_each(inputs, options, _adapted, _BYTES_THAT_PAY)
    if options.summary and not options.json:
        write_lines(sys.stderr if _prints_texts(options) else sys.stdout, _summary(done))
    return done.status


def _require_fitting(options: argparse.Namespace) -> None:
    """Raises UsageError for options that do not fit the files."""
    is_one = len(options.files) == 1 and not os.path.isdir(options.files[0])
    if not is_one and (options.output is not None or _prints_texts(options)):
        raise UsageError(
            "adapt writes the text of one file: for several, give -i, --diff, --out-dir, --dry-run or --summary"
        )
    if not is_one and options.map is not None:
        raise UsageError("--map has the names of one file")
    if options.json and _prints_texts(options) or options.json and options.patch:
        raise UsageError("--json goes with -o, -i, --out-dir, --dry-run or --summary")
    if options.in_place and STANDARD_INPUT in options.files:
        raise UsageError("-i rewrites files: it does not go with standard input")


def _prints_texts(options: argparse.Namespace) -> bool:
    """Whether the text of a file goes to standard output."""
    if options.out_dir is not None or options.in_place or options.patch or options.dry_run:
        return False
    return options.output == STANDARD_INPUT or (options.output is None and not options.summary)


def _adapted(text: Text, given: Input, options: argparse.Namespace) -> Outcome:
    """Writes the adapted text of a file, with the report of its changes."""
    try:
        done = adapt_text(text.content, "lp" if text.format == _mpslp.LP else "mps", options.dialect, options.strict)
    except AdaptError as error:
        return _left(given, error)
    written = _written(text, given, options, done)
    if options.map is not None:
        replace_file(options.map, table(done.names))
    counts = Counter(change.kind for change in done.changes)
    return written._replace(
        status=Status.DIFFERS if done.changes else Status.DONE,
        error="" if options.quiet else "\n".join(_report(given.path, done, options)),
        counts=counts,
        record=_record(given, done, counts),
    )


def _written(text: Text, given: Input, options: argparse.Namespace, done: Adapted) -> Outcome:
    """What is printed of a text, which is written to a file if the options say so."""
    if options.dry_run:
        return Outcome()
    if options.patch:
        return Outcome(patch=unified_diff(given.path, text.content, done.text))
    if options.in_place:
        if done.text == text.content:
            return Outcome()
        replace_file(given.path, pack(given.path, done.text))
        return Outcome(output="" if options.quiet else given.path)
    if options.out_dir is not None:
        return given_out(done.text, target_of(given, options.out_dir, None), options)
    if options.output is None and options.summary:
        return Outcome()
    return given_out(done.text, options.output, options)


def _left(given: Input, error: AdaptError) -> Outcome:
    """What is said of a file that is left."""
    error.filename = given.path
    lines = filter(None, (_writer_line(given.path, error.writer), str(error)))
    kind = "" if error.rejection is None else error.rejection.kind
    record = record_of(given.path, "rejected", error=kind, line=error.line, reason=error.reason)
    return Outcome(Status.REJECTED, error="\n".join(lines), record=record)


def _report(path: str, done: Adapted, options: argparse.Namespace) -> Iterator[str]:
    """The lines on the dialect, the changes and the lines that stay."""
    if options.summary:
        return
    writer = _writer_line(path, done.writer)
    if writer:
        yield writer
    yield from (f"{path}:{each}" for each in (*done.changes, *done.notes))


def _writer_line(path: str, writer: Writer | None) -> str:
    """Why the file is read in a dialect that was not given."""
    return "" if writer is None else f"{path}: {writer}"


def _record(given: Input, done: Adapted, counts: Mapping[str, int]) -> dict[str, Any]:
    return record_of(
        given.path,
        "adapted" if done.changes else "accepted",
        writer=None if done.writer is None else done.writer.dialect,
        changes=dict(counts),
        changed=[
            {"line": each.line, "kind": each.kind, "before": each.before, "after": each.after} for each in done.changes
        ],
        notes=[{"line": each.line, "text": each.text} for each in done.notes],
    )


def _summary(done: Done) -> Iterator[str]:
    """A line for each kind of change, the most frequent first."""
    for kind, count in sorted(done.counts.items(), key=lambda each: (-each[1], each[0])):
        files = done.files[kind]
        yield f"{count:6}  {kind}, in {files} {'file' if files == 1 else 'files'}"


# ---- solutions


def _names_back(options: argparse.Namespace) -> Status:
    """Writes a solution with the names given."""
    if options.map is None and len(options.files) == 2:
        options.map = options.files.pop(0)  # as `adapt --names-back NAMES SOLUTION`
    if len(options.files) != 1 or options.map is None:
        raise UsageError("--names-back takes one solution, and the names of --map")
    if (
        options.in_place
        or options.patch
        or options.out_dir is not None
        or options.dry_run
        or options.summary
        or options.json
    ):
        raise UsageError("--names-back writes a solution: it goes only with --map, -o and -q")
    given = one_input(options)

    def work() -> Outcome:
        try:
            return _with_names_given(given, options)
        except RenameError as error:
            return Outcome(Status.REJECTED, error=f"{given.path}: {error}")
        except ValueError as error:  # of JSON
            raise UsageError(f"{options.map}: {error}") from None
        except (OSError, MemoryError) as error:
            return failure(given.path, error)

    return for_outcome(options, work)


def _with_names_given(given: Input, options: argparse.Namespace) -> Outcome:
    with open(options.map, "rb") as file:
        names = table_of(file.read())
    solution = _bytes_of(given.path)
    text = with_names(solution, names)
    made = given_out(text, options.output, options)
    return nothing_replaced(made, given.path, options.map) if names and text == solution else made


def with_names(solution: bytes, given: GivenNames) -> bytes:
    """A solution in which each word that is a name written is the name given."""
    text, name_of = solution.decode("utf-8", "surrogateescape"), name_from(given)
    return re.sub(r"[^\s]+", lambda word: name_of(word[0]), text).encode("utf-8", "surrogateescape")


def _bytes_of(path: str) -> bytes:
    if path == STANDARD_INPUT:
        return read_standard_input()
    with open(path, "rb") as file:
        return file.read()
