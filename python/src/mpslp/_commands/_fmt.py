"""The command fmt."""

from __future__ import annotations

import argparse
import os

from mpslp import _mpslp
from mpslp._commands import _options
from mpslp._commands._inputs import STANDARD_INPUT, Input, inputs_of, one_input
from mpslp._commands._options import add_files, add_one_of, add_options, flag
from mpslp._commands._outcomes import Outcome, Status, UsageError, record_of
from mpslp._commands._targets import given_out
from mpslp._commands._work import for_each, for_one
from mpslp._errors._own_checks import OwnCheckError
from mpslp._files._compression import pack
from mpslp._files._paths import replace_file
from mpslp._files._sources import Text, format_of_name
from mpslp._format import formatted_text
from mpslp._text._patch import unified_diff

USAGE = "[OPTION].. FILE.."
DESCRIPTION = """\
Write a model file with other spacing, letter case of keywords, number text and
line breaks. Comments, the NAME line and the order of everything stay. Many
files need -i, --check or --diff."""
DETAILS = """\
What is written is compared with the file by the proved comparison of same before anything is printed or replaced: if
the models were not the same, the exit status would be 2, and the file would be left. A file that is formatted
already is not touched. README.md of the Python package describes the format."""


def add(parser: argparse.ArgumentParser) -> None:
    add_files(parser, _options.FILES)
    add_one_of(
        parser,
        _options.OUTPUT,
        _options.IN_PLACE,
        flag("--check", help="print the files that are not formatted"),
        _options.PATCH,
    )
    add_options(parser, _options.JOBS, _options.JSON, _options.QUIET)
    parser.set_defaults(out_dir=None)


def run(options: argparse.Namespace) -> Status:
    if options.in_place and STANDARD_INPUT in options.files:
        raise UsageError("-i rewrites files: it does not go with standard input")
    if options.in_place or options.check or options.patch:
        return for_each(inputs_of(options), options, _formatted).status
    if len(options.files) > 1 or os.path.isdir(options.files[0]):
        raise UsageError("fmt writes the text of one file: for several, give -i, --check or --diff")
    return for_one(one_input(options), options, _formatted)


def _written(content: bytes, given: Input, text: Text, options: argparse.Namespace) -> Outcome:
    """The text of one file is printed, or written to another file, which keeps the format."""
    own = "lp" if text.format == _mpslp.LP else "mps"
    if options.output is not None and format_of_name(options.output) not in (None, own):
        raise UsageError(f"fmt keeps the format: {given.path} is in {own.upper()}, and -o {options.output} is not")
    return given_out(content, options.output, options)


def _formatted(text: Text, given: Input, options: argparse.Namespace) -> Outcome:
    """Formats a file. One that is formatted already is not written, and nothing is if the model
    would be another one.
    """
    try:
        content = formatted_text(text)
    except OwnCheckError as error:
        line = f"{given.path}: {error}"
        return Outcome(Status.REJECTED, error=line, record=record_of(given.path, "unreadable", reason=str(error)))
    is_formatted = content == text.content
    record = record_of(given.path, "accepted", formatted=is_formatted)
    if not (options.in_place or options.check or options.patch):
        return _written(content, given, text, options)
    if is_formatted:
        return Outcome(record=record)
    if options.patch:
        return Outcome(Status.DIFFERS, patch=unified_diff(given.path, text.content, content), record=record)
    path = "" if options.quiet else given.path
    if options.check:
        return Outcome(Status.DIFFERS, path, record=record)
    replace_file(given.path, pack(given.path, content))
    return Outcome(output=path, record=record)
