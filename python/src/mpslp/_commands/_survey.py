"""The command survey."""

from __future__ import annotations

import argparse
import sys
from functools import partial

from mpslp._commands import _options
from mpslp._commands._inputs import STANDARD_INPUT, Input, text_of
from mpslp._commands._options import add_files, add_one_of, add_options, flag
from mpslp._commands._outcomes import Status, failure
from mpslp._commands._progress import Progress
from mpslp._commands._work import for_outcome
from mpslp._files._output import write_all, write_line
from mpslp._survey import Survey, SurveyInterrupt, survey_of

USAGE = "[OPTION].. FILE.."
DESCRIPTION = """\
Print a table of model files: which are accepted, accepted after adapt, or
rejected, how large they are, and which define one model. Nothing is written.
The exit status is 0 also if files are rejected."""
DETAILS = """\
The table has a line for each file, and a summary at the end: kinds of errors and of changes, and groups of files that
define one model, and of files whose models are the same but for names. The exit status is 4 if a file cannot be read.
With --from, each file is read as one that this program wrote. A survey that is interrupted prints what it has, but for
names it compares nothing."""


def add(parser: argparse.ArgumentParser) -> None:
    add_files(parser, _options.FILES)
    add_one_of(parser, _options.JSON, flag("--csv", help="print comma-separated values, a line for each file"))
    add_options(parser, _options.DIALECT, _options.JOBS, _options.QUIET)


def run(options: argparse.Namespace) -> Status:
    paths = [path for path in options.files if path != STANDARD_INPUT]
    try:
        texts = [text_of(Input(STANDARD_INPUT), options)] if STANDARD_INPUT in options.files else []
    except OSError as error:
        return for_outcome(options, partial(failure, STANDARD_INPUT, error))
    try:
        with Progress(0, not options.quiet) as progress:
            found = survey_of(paths, options.jobs, progress.set, options.dialect, options.format, texts)
    except ChildProcessError as error:
        write_line(sys.stderr, str(error))
        return Status.FAILED
    except SurveyInterrupt as interrupt:
        if interrupt.survey.files:
            _print(interrupt.survey, options)
        raise
    _print(found, options)
    return Status.FAILED if found.results["unreadable"] else Status.DONE


def _print(found: Survey, options: argparse.Namespace) -> None:
    write_all(sys.stdout, found.csv() if options.csv else found.json() if options.json else f"{found}\n")
