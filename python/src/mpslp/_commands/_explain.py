"""The command explain."""

from __future__ import annotations

import argparse
import os
import sys

from mpslp._commands import _options
from mpslp._commands._inputs import STANDARD_INPUT, Input, inputs_of
from mpslp._commands._options import add_options
from mpslp._commands._outcomes import Outcome, Status, UsageError
from mpslp._commands._work import for_each
from mpslp._errors._explanations import Explanation, all_kinds, explain
from mpslp._files._output import write_line
from mpslp._files._sources import Text, format_of_name

USAGE = "[-f FORMAT] [KIND|FILE].."
DESCRIPTION = """\
Print the usual causes of a kind of error, and what to do; what a kind of
warning, remark or change means; or why the files, or the model files in a
directory, are rejected. Without arguments, print all kinds."""
DETAILS = ""


def add(parser: argparse.ArgumentParser) -> None:
    parser.add_argument("words", nargs="*", metavar="KIND|FILE", help="such as DuplicateEntry, or plan.mps")
    add_options(parser, _options.FORMAT)
    parser.set_defaults(quiet=False, jobs=1)


def run(options: argparse.Namespace) -> Status:
    found = [_kind_of(word) for word in options.words]
    if not found:
        write_line(sys.stdout, "\n".join(all_kinds()))
    last = len(found) - 1
    return max(
        (_print(word, each, at == last, options) for at, (word, each) in enumerate(zip(options.words, found))),
        default=Status.DONE,
    )


def _kind_of(word: str) -> Explanation | None:
    """The kind of this name, or None for a file."""
    try:
        return explain(word)
    except ValueError as error:
        if word != STANDARD_INPUT and format_of_name(word) is None and not os.path.exists(word):
            raise UsageError(str(error)) from None
        return None


def _print(word: str, kind: Explanation | None, is_last: bool, options: argparse.Namespace) -> Status:
    if kind is None:
        options.files = [word]
        return for_each(inputs_of(options), options, _explained).status
    write_line(sys.stdout, str(kind) if is_last else f"{kind}\n")
    return Status.DONE


def _explained(text: Text, given: Input, options: argparse.Namespace) -> Outcome:
    from mpslp._messages import verdict

    found = verdict(given.path, text)
    return Outcome(output=f"{given.path}: accepted") if found is None else Outcome(Status.REJECTED, output=str(found))
