"""The command check."""

from __future__ import annotations

import argparse

from mpslp import _mpslp
from mpslp._commands import _options
from mpslp._commands._inputs import Input, inputs_of
from mpslp._commands._options import add_files, add_options, add_warnings, flag, option
from mpslp._commands._outcomes import Outcome, Status, UsageError, record_of
from mpslp._commands._warned import warned
from mpslp._commands._work import for_each
from mpslp._files._sources import Format, Text
from mpslp._portable import AGREED, KINDS, PROGRAMS, grouped, portability

USAGE = "[OPTION].. FILE.."
DESCRIPTION = """\
Print the paths of the files that are not canonical; or with --portable the
lines that other programs may read differently, as PATH:LINE: KIND: what is
read. The exit status is 1 if there is one."""
DETAILS = """\
Of each kind of remark of --portable there are the number of lines and the first three, as model.mps:3: objsense: the
model is maximised; clp and cbc ignore OBJSENSE and minimise. With --all each line is printed, and also the kinds in
which all programs that were measured agree; with --target each kind about that program. DIALECTS.md lists the kinds."""


def add(parser: argparse.ArgumentParser) -> None:
    add_files(parser, _options.FILES)
    add_options(
        parser,
        flag("--portable", help="print what other programs may read differently"),
        option(
            "--target",
            choices=PROGRAMS,
            metavar="PROGRAM",
            help="with --portable, only what concerns glpsol, clp,\ncbc, lp_solve, esolver, coinutils, highs or scip",
        ),
        _options.ALL,
        option(
            "--ignore",
            action="append",
            default=[],
            choices=KINDS,
            metavar="KIND",
            help="with --portable, leave out a kind; may be repeated",
        ),
        _options.JOBS,
        _options.JSON,
        _options.QUIET,
    )
    add_warnings(parser)


def run(options: argparse.Namespace) -> Status:
    if not options.portable and (options.ignore or options.target or options.all):
        name = "--ignore leaves out" if options.ignore else "--target and --all choose"
        raise UsageError(f"{name} remarks of --portable")
    inputs = inputs_of(options)
    return for_each(inputs, options, _portable if options.portable else _canonical).status


def _canonical(text: Text, given: Input, options: argparse.Namespace) -> Outcome:
    is_canonical = _mpslp.is_canonical(text.content, text.format)
    outcome = Outcome(
        Status.DONE if is_canonical else Status.DIFFERS,
        "" if is_canonical or options.quiet else given.path,
        record=record_of(given.path, "accepted", canonical=is_canonical),
    )
    return warned(text, options, text.content if is_canonical else None).before(lambda: outcome)


def _portable(text: Text, given: Input, options: argparse.Namespace) -> Outcome:
    """What other programs may read differently in a file."""
    format: Format = "mps" if text.format == _mpslp.MPS else "lp"
    found = portability(text.content, format, target=options.target)
    left_out = {*options.ignore, *(() if options.all or options.target else AGREED)}
    remarks = [remark for remark in found if remark.kind not in left_out]
    lines = map(str, remarks) if options.all else grouped(remarks)
    records = [{"line": each.line, "kind": each.kind, "text": each.text, "programs": each.programs} for each in remarks]
    return Outcome(
        Status.DIFFERS if remarks else Status.DONE,
        "" if options.quiet else "\n".join(f"{given.path}:{line}" for line in lines),
        record=record_of(given.path, "accepted", remarks=records),
    )
