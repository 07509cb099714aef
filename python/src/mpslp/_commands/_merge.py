"""The command merge."""

from __future__ import annotations

import argparse
from collections.abc import Callable
from decimal import Decimal
from functools import partial
from typing import Any

from mpslp import _mpslp
from mpslp._commands import _options
from mpslp._commands._inputs import STANDARD_INPUT, Input, text_of
from mpslp._commands._options import add_files, add_options, flag, option, whole_number
from mpslp._commands._outcomes import Outcome, Status, UsageError, failure, record_of
from mpslp._commands._targets import given_out
from mpslp._commands._work import for_outcome
from mpslp._errors._faults import ModelFileError
from mpslp._errors._own_checks import OwnCheckError
from mpslp._files._sources import Text, format_number, format_of_name
from mpslp._merge import ColumnItem, Conflict, EntryItem, Item, ItemValue, NameItem, RowItem
from mpslp._merge._texts import MergedText, Texts
from mpslp._models._numbers import number_text

USAGE = "[OPTION].. BASE OURS THEIRS"
DESCRIPTION = """\
Merge two models that were made of one, by rows, columns and coefficients, and
print the text, or write it with -o. A conflict is an item that both changed: it
has a line on standard error, and git's markers in the text. 'setup-git' makes
this the merge driver of a git repository."""
DETAILS = """\
The exit status is 0 if the models are merged, 1 if there are conflicts, and 2 if a file is rejected. The format
written is that of the extension of the file given by -o, or that of OURS. The text is canonical if the three texts
are, or if they have two formats. Other texts are merged line by line, by git merge-file, and the result is written
if it means the merged model. If it does not, the text has markers, and the exit status is 1, though the models
merge: --canonical writes the merged model then. A merged model is compared with both sides by the proved comparison
before it is written. A file is replaced as a whole. With --git-path, a file that is rejected is merged line by line,
so that git has a text with both sides, and the exit status is 2. With --json, the conflicts are printed as JSON, and
the text is only written with -o."""

_ROLES = ("base", "ours", "theirs")
_MOST_MARKER_SIZE = 1000
_TEXT_LEFT = (
    "the models merge, and their texts do not: the text has markers; --canonical writes the merged model as formatted"
    " text"
)


def add(parser: argparse.ArgumentParser) -> None:
    add_files(parser, "the base, and the two models made of it")
    add_options(
        parser,
        _options.OUTPUT,
        flag("--canonical", help="write canonical text, without comments"),
        _options.GIT_PATH,
        option(
            "--marker-size",
            type=partial(whole_number, most=_MOST_MARKER_SIZE),
            default=7,
            metavar="N",
            help="the length of the markers of conflicts (default: 7)",
        ),
        _options.JSON,
        _options.QUIET,
    )
    parser.set_defaults(out_dir=None)


def run(options: argparse.Namespace) -> Status:
    if len(options.files) != len(_ROLES):
        raise UsageError("merge takes three files: the base, ours and theirs")
    if options.files.count(STANDARD_INPUT) > 1:
        raise UsageError("at most one file is standard input")
    return for_outcome(options, lambda: _outcome(options))


def _outcome(options: argparse.Namespace) -> Outcome:
    read: list[Text] = []
    try:
        for path, role in zip(options.files, _ROLES):
            read.append(_text(path, role, options))
        texts = Texts(read[0], read[1], read[2], _format_to_write(read[1], options), options.marker_size)
        return _written(lambda: texts.merged(options.canonical), texts, options)
    except ModelFileError as error:
        found = next((text for text in read if text.filename == error.filename), read[1])
        return failure(str(found.filename), error, found)
    except (OSError, ImportError, MemoryError) as error:
        return failure(options.files[min(len(read), len(_ROLES) - 1)], error)


def _text(path: str, role: str, options: argparse.Namespace) -> Text:
    """The text of a file. The names of the files that git gives have no extension, and nobody knows them."""
    if options.git_path is None:
        return text_of(Input(path), options)
    text = text_of(Input(path, format=format_of_name(path) or format_of_name(options.git_path)), options)
    return text._replace(filename=f"{options.git_path} ({role})")


def _format_to_write(ours: Text, options: argparse.Namespace) -> int:
    name = options.git_path or options.output
    format = None if name is None else format_of_name(name)
    return ours.format if format is None else format_number(format)


def _written(merge: Callable[[], MergedText], texts: Texts, options: argparse.Namespace) -> Outcome:
    """Writes what a merge makes; for git also if a file is rejected, and if the file is new on both sides."""
    try:
        merged = merge()
    except OwnCheckError as error:
        return failure(str(texts.ours.filename), error)
    except ModelFileError as error:
        if options.git_path is None or error.kind == "NotLp":
            raise
        if not texts.base.content and _is_one_model(texts):
            return _with_record(given_out(texts.ours.content, options.output, options), MergedText(b""), texts, options)
        rejected = failure(
            str(error.filename), error, next(text for text in texts[:3] if text.filename == error.filename)
        )
        done = given_out(texts.merged_by_git()[0], options.output, options)
        return done._replace(status=Status.REJECTED, record=rejected.record).preceded_by(
            f"{rejected.error}\n{options.git_path}: merged line by line, not as a model"
        )
    done = _with_record(given_out(merged.content, options.output, options), merged, texts, options)
    if not merged.is_marked:
        return done
    return done._replace(status=Status.DIFFERS).preceded_by("" if options.quiet else _lines(merged, options))


def _with_record(done: Outcome, merged: MergedText, texts: Texts, options: argparse.Namespace) -> Outcome:
    """What came of a merge, with what is printed of it as JSON."""
    verdict = "conflicts" if merged.conflicts else "marked" if merged.is_marked else "merged"
    path = options.git_path or str(texts.ours.filename)
    found = list(map(_record_of_conflict, merged.conflicts))
    return done._replace(record=record_of(path, "accepted", verdict=verdict, conflicts=found))


def _record_of_conflict(conflict: Conflict) -> dict[str, Any]:
    """A conflict as JSON: what it is of, the three values, what a side removed, and the line that is printed of it."""
    values = {name: _value(getattr(conflict, name)) for name in _ROLES}
    removed = ["row" if isinstance(each, RowItem) else "column" for each in conflict.removed]
    return {**_record_of_item(conflict.item), **values, "removed": removed, "text": str(conflict)}


def _record_of_item(item: Item) -> dict[str, str]:
    if isinstance(item, EntryItem):
        return {"of": "entry", "row": item.row, "column": item.column, "what": "value"}
    if isinstance(item, RowItem):
        return {"of": "row", "row": item.name, "what": item.what}
    if isinstance(item, ColumnItem):
        return {"of": "column", "column": item.name, "what": item.what}
    if isinstance(item, NameItem):
        return {"of": "name", "name": item.name, "what": "name"}
    return {"of": "model", "what": item.what}


def _value(value: ItemValue) -> str | None:
    return None if value is None else number_text(value) if isinstance(value, Decimal) else str(value)


def _is_one_model(texts: Texts) -> bool:
    """Whether two files without a base define the same model."""
    try:
        return _mpslp.same(texts.ours.content, texts.ours.format, texts.theirs.content, texts.theirs.format)
    except ModelFileError:
        return False


def _lines(merged: MergedText, options: argparse.Namespace) -> str:
    """A line for each conflict, after the path of the file in git; or what there is to do if there is none."""
    path = options.git_path or options.output
    if not merged.conflicts:
        return _TEXT_LEFT if path is None else f"{path}: {_TEXT_LEFT}"
    return "\n".join([*([] if options.git_path is None else [f"{path}:"]), *map(str, merged.conflicts)])
