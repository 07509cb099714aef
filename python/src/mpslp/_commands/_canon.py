"""The command canon."""

from __future__ import annotations

import argparse
import os
from collections.abc import Callable

from mpslp import _mpslp
from mpslp._commands import _options
from mpslp._commands._inputs import STANDARD_INPUT, Input, formats_before, one_input
from mpslp._commands._names import run_with_names
from mpslp._commands._options import add_files, add_one_of, add_options, add_warnings, flag, option
from mpslp._commands._outcomes import Outcome, Status, UsageError
from mpslp._commands._targets import given_out, inputs_for, require_one_place_each, target_of
from mpslp._commands._warned import is_printed, replacing, warned
from mpslp._commands._work import for_each, for_one
from mpslp._errors._faults import ModelFileError
from mpslp._files._compression import pack
from mpslp._files._paths import is_one_file, replace_file
from mpslp._files._sources import Format, Text, format_number, format_of_name
from mpslp._rename import table
from mpslp._solver_texts import SOLVERS, SolverError, solver_text
from mpslp._text._conflict_markers import has_conflict_markers
from mpslp._text._patch import unified_diff
from mpslp._warnings import KINDS as WARNING_KINDS

USAGE = "[OPTION].. FILE.."
DESCRIPTION = """\
Write the canonical text of a model file, without comments, the name after NAME
and the order of rows and columns. Many files need -i, --diff or --out-dir.
'canon FROM TO FILE', with mps or lp twice, is that of mpslp."""
DETAILS = """\
A file is replaced as a whole and keeps its mode: an interrupted or failing run leaves the old text or the new one. A
file that is canonical already is not touched. A file that has the sense of the objective in a comment only, as those
of PuLP, is left by -i, with exit status 2, unless --force is given. The format written is that of -t, or of the
extension of the file given by -o, or of the file read. With --out-dir, -t changes the extensions. With --for, the text
is what that solver reads as the model: glpsol, clp, cbc, lp_solve, esolver, highs or scip, or for portable what HiGHS,
Gurobi, CPLEX and Xpress read alike; what it has no place for is written in another way, with a warning; the exit
status is 2, and nothing is written, if it would find another optimum. SOLVERS.md has the commands that read these
texts. --map writes the names that --for or --rename replaces, and --names-back reads it; the exit status of
--names-back is 1, with a warning, if it replaces nothing. With --git-path, canon is git's clean filter for this path:
it reads standard input, and does not change a file with conflict markers."""

_NAMES_HINT = "--map FILE writes the names that are replaced, and --names-back --map FILE restores them in a solution"


def add(parser: argparse.ArgumentParser) -> None:
    add_files(parser, _options.FILES)
    add_one_of(parser, _options.OUTPUT, _options.OUT_DIR, _options.IN_PLACE, _options.PATCH)
    add_options(
        parser,
        option(
            "-t",
            "--to",
            type=str.lower,
            choices=("mps", "lp", "glp"),
            metavar="FORMAT",
            help="write mps or lp; with --for glpsol also glp",
        ),
        option(
            "--for",
            dest="solver",
            choices=tuple(SOLVERS),
            metavar="SOLVER",
            help="write what a solver reads: cbc, highs, .. or portable",
        ),
        flag("--rename", help="with -t lp, give names that LP does not have legal ones"),
        _options.NAMES,
        _options.NAMES_BACK,
        _options.GIT_PATH,
        flag("--force", help="with -i, also if the sense is in a comment only"),
        _options.JOBS,
        _options.QUIET,
    )
    add_warnings(parser)


def run(options: argparse.Namespace) -> Status:
    if options.git_path is not None:
        return _run_as_filter(options)
    _require_one_format(options)
    if options.rename or options.names_back or (options.map is not None and options.solver is None):
        return run_with_names(options)
    if options.map is not None and options.out_dir is not None:
        raise UsageError("--map has the names of one file")
    formats = formats_before(options.files, 3, (0, 1), options)
    if formats is not None:
        return _run_as_mpslp(options, *formats)
    if options.in_place or options.patch:
        return _run_in_place(options)
    if options.to == "glp" and options.solver is None:
        raise UsageError("-t glp goes with --for glpsol")
    if options.out_dir is not None:
        return _run_for_all(options)
    if len(options.files) > 1 or os.path.isdir(options.files[0]):
        raise UsageError("canon writes the text of one file: for several, give -i, --diff or --out-dir")
    return for_one(one_input(options), options, _write if options.solver is None else _write_for_solver)


def _run_as_mpslp(options: argparse.Namespace, form: Format, to: Format) -> Status:
    """``canon FROM TO PATH``, as the program mpslp."""
    if (
        options.in_place
        or options.patch
        or options.out_dir is not None
        or options.to is not None
        or options.solver is not None
    ):
        raise UsageError("'canon FROM TO FILE' writes to standard output, or with -o to a file")
    options.to = to
    _require_one_format(options)
    return for_one(Input(options.files[2], format=form), options, _write)


def _require_one_format(options: argparse.Namespace) -> None:
    """Raises UsageError if the extension of the file to be written is that of a format that is not written."""
    extension = None if options.output is None else format_of_name(options.output)
    if options.to is not None and extension is not None and extension != options.to:
        asked = f"{options.to.upper()} is asked for"
        raise UsageError(f"{asked}, and -o {options.output} is the name of a file in {extension.upper()}")


def _run_as_filter(options: argparse.Namespace) -> Status:
    """The clean filter of git, which gives the file on standard input."""
    others = (options.in_place, options.patch, options.rename, options.names_back)
    if (
        options.files != [STANDARD_INPUT]
        or any(others)
        or any(each is not None for each in (options.out_dir, options.solver, options.map))
    ):
        raise UsageError("--git-path is for git's clean filter: canon --git-path=%f -")
    return for_one(Input(STANDARD_INPUT, git_path=options.git_path), options, _clean)


def _clean(text: Text, given: Input, options: argparse.Namespace) -> Outcome:
    """Writes the canonical text of a file.

    One with conflict markers is left unchanged: git diff needs it during a conflict.
    """
    try:
        return _write(text, given, options)
    except ModelFileError:
        if not has_conflict_markers(text.content):
            raise
        return Outcome(
            text=text.content,
            error="" if options.quiet else f"warning: {given.name}: it has conflict markers, and is left unchanged",
        )


# ---- in place


def _run_in_place(options: argparse.Namespace) -> Status:
    if options.to or options.solver:
        raise UsageError("-i and --diff keep the format: they go neither with -t nor with --for")
    if options.in_place and STANDARD_INPUT in options.files:
        raise UsageError("-i rewrites files: it does not go with standard input")
    inputs = inputs_for(options)
    return for_each(inputs, options, _show_patch if options.patch else _rewrite).status


def _rewrite(text: Text, given: Input, options: argparse.Namespace) -> Outcome:
    """Makes a file canonical. One that is canonical already is not written."""
    content = _mpslp.canonical(text.content, text.format, text.format)
    if content == text.content:
        return warned(text, options, content).before(Outcome)

    def work() -> Outcome:
        replace_file(given.path, pack(given.path, content))
        return Outcome(output="" if options.quiet else given.path)

    return replacing(text, options, content, work)


def _show_patch(text: Text, given: Input, options: argparse.Namespace) -> Outcome:
    """What -i would change."""
    content = _mpslp.canonical(text.content, text.format, text.format)
    if content == text.content:
        return warned(text, options, content).before(Outcome)
    return replacing(
        text, options, content, lambda: Outcome(Status.DIFFERS, patch=unified_diff(given.path, text.content, content))
    )


# ---- to other files


def _run_for_all(options: argparse.Namespace) -> Status:
    inputs = inputs_for(options)
    require_one_place_each(
        inputs, lambda given: _target(given, options, options.to or ("*" if options.solver else None))
    )
    return for_each(inputs, options, _write if options.solver is None else _write_for_solver).status


def _target(given: Input, options: argparse.Namespace, format: str | None) -> str:
    """Where the text of a file goes."""
    if options.out_dir is not None:
        return target_of(given, options.out_dir, format)
    return str(options.output or STANDARD_INPUT)


def _write(text: Text, given: Input, options: argparse.Namespace) -> Outcome:
    """Writes the canonical text of a file to another one, or prints it."""
    path = _target(given, options, options.to)
    to: Format | None = options.to or format_of_name(path)
    content = _mpslp.canonical(text.content, text.format, text.format if to is None else format_number(to))
    return _written(text, given, options, path, content, lambda: given_out(content, path, options))


def _write_for_solver(text: Text, given: Input, options: argparse.Namespace) -> Outcome:
    """Writes the text that a solver reads as the model of a file, with warnings for what the solver does not hold."""
    canonical = _mpslp.canonical(text.content, text.format, _mpslp.MPS)
    asked: str | None = options.to or (format_of_name(options.output) if options.output is not None else None)
    try:
        made = solver_text(canonical, options.solver, asked)
    except SolverError as error:
        return Outcome(Status.REJECTED, error=f"{given.path}: {error}")
    hint = [_NAMES_HINT] if made.names and options.map is None else []
    lines = "\n".join(f"warning: {given.path}: {each}" for each in (*made.warnings, *hint))
    if lines and set(options.strict) >= set(WARNING_KINDS):
        return Outcome(Status.REJECTED, error=lines)
    path = _target(given, options, made.format)

    def work() -> Outcome:
        if options.map is not None:
            replace_file(options.map, table(made.names))
        return given_out(made, path, options).preceded_by(lines if is_printed(options) else "")

    return _written(text, given, options, path, canonical, work)


def _written(
    text: Text, given: Input, options: argparse.Namespace, path: str, canonical: bytes, work: Callable[[], Outcome]
) -> Outcome:
    """Writes a text with the warnings about its source, which it may replace."""
    replaces = path != STANDARD_INPUT and given.path != STANDARD_INPUT and is_one_file(path, given.path)
    return replacing(text, options, canonical, work) if replaces else warned(text, options, canonical).before(work)
