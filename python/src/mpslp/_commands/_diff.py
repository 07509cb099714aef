"""The command diff."""

from __future__ import annotations

import argparse
from decimal import Decimal
from itertools import chain
from typing import Any, NamedTuple

from mpslp import _mpslp
from mpslp._commands import _options
from mpslp._commands._inputs import Input
from mpslp._commands._entries_only import Renamed, Shown, entries_of, lines_of, with_renamed
from mpslp._commands._options import add_files, add_options, add_warnings, flag
from mpslp._commands._outcomes import Outcome, Status, UsageError
from mpslp._commands._pairs import NO_FILE, NOT_THE_SAME, Paths, run_for_pairs
from mpslp._commands._warned import warned
from mpslp._commands._work import attempt, for_one
from mpslp._files._sources import Text, format_of
from mpslp._models._differences import (
    ColumnDifference,
    ColumnOnly,
    EntryDifference,
    ModelDifference,
    RowDifference,
    RowOnly,
    diff,
)
from mpslp._models._numbers import number_text

USAGE = "[OPTION].. FIRST SECOND"
DESCRIPTION = """\
Print a line for each difference of two models. If there is none, print 'same';
or 'close' if the models are not the same, but no difference counts because of
the options. Of two directories, files with the same paths are compared."""
DETAILS = """\
With --any-names it prints 'same but for names' if the models are; else rows and columns of one name are matched, and
others that have one possible partner by their shape, that is, by limits, bounds, costs and coefficients. The first
line says how many were matched.
A difference is a line such as
entry MYG Y: 1.5 -> 1.25.
After a row or a column that only one model has there are its first ten coefficients, or with --all each. One that
differs in nothing but its name is a line such as row LIM1: name LIM1 -> LIM2. The exit status is 1 if there is one.
One of the files may be /dev/null, as git names a file that is new or deleted."""


def add(parser: argparse.ArgumentParser) -> None:
    add_files(parser, _options.FILES)
    add_options(
        parser,
        flag("--ignore-objective-name", help="the name of the objective does not count"),
        _options.ALL,
        _options.DIGITS,
        _options.BY_POSITION,
        _options.ANY_NAMES,
        _options.JSON,
        _options.QUIET,
    )
    add_warnings(parser)


def run(options: argparse.Namespace) -> Status:
    if options.any_names and options.by_position:
        raise UsageError("--any-names does not go with --by-position")
    comparison = _Differences(options)
    if len(options.files) == 2 and NO_FILE in options.files:
        is_first = options.files[1] == NO_FILE
        return for_one(Input(options.files[0 if is_first else 1]), options, _of_first if is_first else _of_second)
    return run_for_pairs(options, comparison)


class _Differences(NamedTuple):
    options: argparse.Namespace

    def of_both(self, first: Text, second: Text) -> Outcome:
        options = self.options
        found = diff(
            first.content,
            second.content,
            format_of(first),
            format_of(second),
            ignore_objective_name=options.ignore_objective_name,
            digits=options.digits,
            by_position=options.by_position,
            any_names=options.any_names,
        )
        each = iter(found)
        one = next(each, None)
        paths = Paths(first.filename, second.filename)
        if one is None:
            return Outcome(
                output="" if options.quiet else found.verdict, record=paths.record(found.verdict, differences=[])
            )
        if options.quiet and not options.json:
            return Outcome(Status.DIFFERS)
        differences, matched = with_renamed(chain([one], each)), found.matched
        if options.json:
            counts = {} if matched is None else {"matched": matched._asdict()}
            return Outcome(
                Status.DIFFERS,
                record=paths.record(NOT_THE_SAME, **counts, differences=map(record_of_difference, differences)),
            )
        lines = chain.from_iterable(lines_of(each, options.all) for each in differences)
        return Outcome(Status.DIFFERS, lines=lines if matched is None else chain([str(matched)], lines))

    def of_one(self, given: Input, is_first: bool) -> Outcome:
        return attempt(given, self.options, _of_first if is_first else _of_second)


def _of_first(text: Text, given: Input, options: argparse.Namespace) -> Outcome:
    return _whole_model(text, options, "-", Paths(text.filename, NO_FILE))


def _of_second(text: Text, given: Input, options: argparse.Namespace) -> Outcome:
    return _whole_model(text, options, "+", Paths(NO_FILE, text.filename))


def _whole_model(text: Text, options: argparse.Namespace, sign: str, paths: Paths) -> Outcome:
    """The model that is there, of two of which one is missing."""
    rows, columns, entries = _mpslp.load(text.content, text.format).counts()
    line = f"{sign} model: {rows} rows, {columns} columns, {entries} entries"
    found = {"of": "model", "what": "only", "first": sign == "-", "second": sign == "+", "text": line}
    outcome = Outcome(
        Status.DIFFERS, lines=[] if options.quiet else [line], record=paths.record(NOT_THE_SAME, differences=[found])
    )
    return warned(text, options).before(lambda: outcome)


def record_of_difference(each: Shown) -> dict[str, Any]:
    """A difference as JSON: what it is of, the values of both models, and the line that is printed of it."""
    if isinstance(each, RowOnly):
        return _only("row", each.row.name, each)
    if isinstance(each, ColumnOnly):
        return _only("column", each.column.name, each)
    if isinstance(each, Renamed):
        found = {"of": each.of, each.of: each.first, "what": "name"}
        return {**found, "first": each.first, "second": each.second, "text": str(each)}
    if isinstance(each, ModelDifference):
        return _changed({"of": "model", "what": each.what}, each)
    if isinstance(each, RowDifference):
        return _changed({"of": "row", "row": each.name, "what": each.what}, each)
    if isinstance(each, ColumnDifference):
        return _changed({"of": "column", "column": each.name, "what": each.what}, each)
    return _changed({"of": "entry", "row": each.row, "column": each.column, "what": "value"}, each)


def _only(of: str, name: str, each: RowOnly | ColumnOnly) -> dict[str, Any]:
    is_first = each.which == "first"
    entries = {other: number_text(value) for other, value in entries_of(each).items()}
    found = {"of": of, of: name, "what": "only", "first": is_first, "second": not is_first}
    return {**found, "entries": entries, "text": str(each)}


def _changed(
    found: dict[str, Any], each: ModelDifference | RowDifference | ColumnDifference | EntryDifference
) -> dict[str, Any]:
    return {**found, "first": _value(each.first), "second": _value(each.second), "text": str(each)}


def _value(value: str | Decimal) -> str:
    return value if isinstance(value, str) else number_text(value)
