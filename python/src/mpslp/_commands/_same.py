"""The command same."""

from __future__ import annotations

import argparse
import os
from typing import NamedTuple

from mpslp import _mpslp
from mpslp._commands import _options
from mpslp._commands._inputs import Input
from mpslp._commands._options import add_files, add_options, add_warnings
from mpslp._commands._outcomes import Outcome, Record, Status, UsageError
from mpslp._commands._pairs import NO_FILE, NOT_THE_SAME, SAME_BUT_FOR_NAMES, Paths, run_for_pairs
from mpslp._files._paths import replace_file
from mpslp._files._sources import Text, format_of
from mpslp._models._differences import loaded

USAGE = "[OPTION].. FIRST SECOND"
DESCRIPTION = """\
Print whether two files define the same model: 'same' or 'not the same'. Of two
directories, the files with the same paths below them are compared.
'same FROM FIRST FROM SECOND', with mps or lp twice, is that of mpslp."""
DETAILS = """\
With --any-names the names of rows, columns and the objective do not count: 'same but for names' if the first model
is the second one under other names, 'same' if under its own names, and 'not the same' with a line that names the
first difference. If the search gives up, which is rare if igraph is installed, it prints 'not decided', and the exit
status is 6. --map writes the names of the first model and those of the second: with them, canon --names-back writes
a solution of the second file in the names of the first."""

_NOT_DECIDED = "not decided"


def add(parser: argparse.ArgumentParser) -> None:
    add_files(parser, _options.FILES)
    add_options(parser, _options.ANY_NAMES, _options.NAMES, _options.JSON, _options.QUIET)
    add_warnings(parser)


def run(options: argparse.Namespace) -> Status:
    if options.map is not None and not options.any_names:
        raise UsageError("--map goes with --any-names")
    if options.map is not None and any(map(os.path.isdir, options.files)):
        raise UsageError("--map has the names of two files")
    return (
        run_for_pairs(options, _SameButForNames(options))
        if options.any_names
        else run_for_pairs(options, _Same(options))
    )


class _Same(NamedTuple):
    options: argparse.Namespace

    def of_both(self, first: Text, second: Text) -> Outcome:
        is_same = _mpslp.same(first.content, first.format, second.content, second.format)
        verdict, paths = "same" if is_same else NOT_THE_SAME, Paths(first.filename, second.filename)
        return _said(self.options, Status.DONE if is_same else Status.DIFFERS, verdict, paths.record(verdict))

    def of_one(self, given: Input, is_first: bool) -> Outcome:
        return _only_one(given, is_first, self.options)


class _SameButForNames(NamedTuple):
    options: argparse.Namespace

    def of_both(self, first: Text, second: Text) -> Outcome:
        from mpslp._matching import NameMap, UndecidedError
        from mpslp._matching._call import match

        one = loaded(first.content, format_of(first), "first")
        other = loaded(second.content, format_of(second), "second")
        try:
            found = match(one._arrays, other._arrays)
        except UndecidedError as error:
            return self._said(Status.UNDECIDED, _NOT_DECIDED, first, second, str(error))
        if not isinstance(found, NameMap):
            return self._said(Status.DIFFERS, NOT_THE_SAME, first, second, found.text)
        if self.options.map is not None:
            replace_file(self.options.map, found.json().encode("ascii"))
        return self._said(Status.DONE, "same" if one == other else SAME_BUT_FOR_NAMES, first, second)

    def of_one(self, given: Input, is_first: bool) -> Outcome:
        return _only_one(given, is_first, self.options)

    def _said(self, status: Status, verdict: str, first: Text, second: Text, reason: str = "") -> Outcome:
        record = Paths(first.filename, second.filename).record(verdict, reason=reason)
        return _said(self.options, status, "\n".join(filter(None, (verdict, reason))), record)


def _only_one(given: Input, is_first: bool, options: argparse.Namespace) -> Outcome:
    paths = Paths(given.path, NO_FILE) if is_first else Paths(NO_FILE, given.path)
    return _said(options, Status.DIFFERS, f"only in {options.files[0 if is_first else 1]}", paths.record(NOT_THE_SAME))


def _said(options: argparse.Namespace, status: Status, words: str, record: Record) -> Outcome:
    return Outcome(status, "" if options.quiet else words, record=record)
