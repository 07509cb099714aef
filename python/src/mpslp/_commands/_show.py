"""The command show."""

from __future__ import annotations

import argparse
import os
from itertools import chain

from mpslp import _mpslp
from mpslp._commands import _options
from mpslp._commands._inputs import Input, formats_before, inputs_of, one_input
from mpslp._commands._options import add_files, add_options
from mpslp._commands._outcomes import Outcome, Status
from mpslp._commands._work import for_each, for_one
from mpslp._files._output import shown_path
from mpslp._files._sources import Text
from mpslp._models._model import model_of
from mpslp._models._shown import shown

USAGE = "[OPTION].. FILE.."
DESCRIPTION = """\
Print the model of a file with all defaults filled in, a line for each row,
column and nonzero. Of several files, '==> PATH <==' comes before each.
'show FROM FILE', with mps or lp, is that of mpslp."""
DETAILS = ""


def add(parser: argparse.ArgumentParser) -> None:
    add_files(parser, _options.FILES)
    add_options(parser, _options.QUIET)
    parser.set_defaults(jobs=1)  # what is printed is longer than what is read


def run(options: argparse.Namespace) -> Status:
    formats = formats_before(options.files, 2, (0,), options)
    if formats is not None:
        return for_one(Input(options.files[1], format=formats[0]), options, _show)
    if len(options.files) == 1 and not os.path.isdir(options.files[0]):
        return for_one(one_input(options), options, _show)
    return for_each(inputs_of(options), options, _show_titled).status


def _show(text: Text, given: Input, options: argparse.Namespace) -> Outcome:
    return Outcome(lines=shown(model_of(_mpslp.load(text.content, text.format))))


def _show_titled(text: Text, given: Input, options: argparse.Namespace) -> Outcome:
    outcome = _show(text, given, options)
    return (
        outcome
        if options.quiet
        else outcome._replace(lines=chain([f"==> {shown_path(given.path)} <=="], outcome.lines))
    )
