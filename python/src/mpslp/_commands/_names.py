"""The options --rename and --names-back of canon."""

from __future__ import annotations

import argparse
import os

from mpslp import _mpslp
from mpslp._commands._inputs import STANDARD_INPUT, Input, one_input
from mpslp._commands._outcomes import Outcome, Status, UsageError, failure
from mpslp._commands._targets import given_out
from mpslp._commands._warned import warned
from mpslp._commands._work import for_one, for_outcome
from mpslp._errors._illegal_names import naming_what_is_not_legal
from mpslp._errors._own_checks import OwnCheckError
from mpslp._files._paths import replace_file
from mpslp._files._sources import Format, Text, format_number, format_of_name, read, read_standard_input
from mpslp._matching._map import NameMap
from mpslp._rename import RenameError, names_back, renamed, table, table_of, words_back


def run_with_names(options: argparse.Namespace) -> Status:
    """Writes a file under other names: those that are legal in LP, or the ones before."""
    if not options.rename and not options.names_back:
        raise UsageError("--map goes with --rename, --for or --names-back")
    if options.rename and options.names_back:
        raise UsageError("--rename does not go with --names-back")
    if (
        options.in_place
        or options.patch
        or options.out_dir is not None
        or options.solver
        or len(options.files) > 1
        or os.path.isdir(options.files[0])
    ):
        raise UsageError(
            "--rename and --names-back write the text of one file: they go neither with -i, --diff and --out-dir nor"
            " with --for"
        )
    given = one_input(options)
    if options.names_back and options.format is None and format_of_name(given.path) is None:
        return for_outcome(options, lambda: _solution(given.path, options))
    return for_one(given, options, _restored if options.names_back else _renamed)


def _renamed(text: Text, given: Input, options: argparse.Namespace) -> Outcome:
    if _format_to_write(text, options) != "lp":
        raise UsageError("--rename writes LP: give -t lp, or -o with a path that ends in .lp")
    try:
        content, names = renamed(text)
    except (RenameError, OwnCheckError) as error:
        return Outcome(Status.REJECTED, error=f"{given.path}: {error}")

    def work() -> Outcome:
        if options.map is not None:
            replace_file(options.map, table(names))
        return given_out(content, options.output, options)

    return warned(text, options).before(work)


def _restored(text: Text, given: Input, options: argparse.Namespace) -> Outcome:
    """The model with the names before, as MPS unless another format is asked for."""
    try:
        names = _given_table(options)
        restored = names_back(text, names)
    except (RenameError, OwnCheckError) as error:
        return Outcome(Status.REJECTED, error=f"{given.path}: {error}")
    to: Format = options.to or format_of_name(options.output or STANDARD_INPUT) or "mps"
    with naming_what_is_not_legal(lambda: _mpslp.load(restored, _mpslp.MPS)):
        content = _mpslp.canonical(restored, _mpslp.MPS, format_number(to))
    is_same = _mpslp.same(text.content, text.format, restored, _mpslp.MPS)
    return warned(text, options).before(lambda: _given_back(content, is_same and names != {}, given.path, options))


def _given_back(content: bytes, lacks_names: bool, path: str, options: argparse.Namespace) -> Outcome:
    """Writes a model or a solution with the names before.

    One that lacks all names that are to be replaced is rarely the one that is meant.
    """
    made = given_out(content, options.output, options)
    return nothing_replaced(made, path, options.map) if lacks_names else made


def nothing_replaced(made: Outcome, path: str, map_path: str | None) -> Outcome:
    """The outcome of --names-back, with a warning that nothing was replaced."""
    if map_path is None:
        said = "no name in it is one that --rename writes; for names that --for replaced, give --map"
    else:
        said = f"none of the names that {map_path} has as written is in it"
    return made._replace(status=Status.DIFFERS).preceded_by(f"warning: {path}: {said}")


def _format_to_write(text: Text, options: argparse.Namespace) -> str:
    own = "mps" if text.format == _mpslp.MPS else "lp"
    return options.to or format_of_name(options.output or STANDARD_INPUT) or own


def _solution(path: str, options: argparse.Namespace) -> Outcome:
    """Writes a file that is no model, such as a solution, with the names before."""
    try:
        content = read_standard_input() if path == STANDARD_INPUT else read(path, "mps").content
        names = _given_table(options)
        restored = words_back(content, names)
        return _given_back(restored, restored == content and names != {}, path, options)
    except RenameError as error:
        return Outcome(Status.REJECTED, error=f"{path}: {error}")
    except (OSError, ImportError, MemoryError) as error:
        return failure(path, error)


def _given_table(options: argparse.Namespace) -> dict[str, str] | NameMap | None:
    """The names of the table that is given, or None."""
    if options.map is None:
        return None
    with open(options.map, "rb") as file:
        content = file.read()
    try:
        return table_of(content)
    except ValueError as error:
        raise UsageError(f"{options.map}: {error}") from None
