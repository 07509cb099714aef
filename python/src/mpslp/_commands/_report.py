"""The command report."""

from __future__ import annotations

import argparse
import os
from importlib import import_module
from typing import Any

from mpslp._commands import _options
from mpslp._commands._inputs import Input, one_input, text_of
from mpslp._commands._options import add_files, add_one_of, add_options
from mpslp._commands._outcomes import Outcome, Record, Status, UsageError, failure, record_of
from mpslp._commands._targets import given_out, inputs_for, put, require_one_place_each
from mpslp._commands._work import for_each, for_outcome
from mpslp._errors._faults import ModelFileError
from mpslp._files._sources import Text

USAGE = "[OPTION].. FILE [SECOND]"
DESCRIPTION = """\
Write a page of HTML about a model, or about two models and their differences.
With --out-dir, a page for each file: model.mps.html for model.mps; and
index.html, which lists them."""
DETAILS = """\
The page needs no network and has no scripts. With --json, the counts, magnitudes, remarks and rules are printed as
JSON instead."""

_INDEX = "index.html"
_BYTES_THAT_PAY = 3_000_000
"""How many bytes take longer to count than processes take to start."""


def add(parser: argparse.ArgumentParser) -> None:
    add_files(parser, "a model file; with --out-dir also a directory")
    add_one_of(parser, _options.OUTPUT, _options.OUT_DIR, _options.JSON)
    add_options(parser, _options.DIGITS, _options.BY_POSITION, _options.JOBS, _options.QUIET)


def run(options: argparse.Namespace) -> Status:
    if options.out_dir is not None:
        return _run_for_all(options)
    if len(options.files) > 2:
        raise UsageError("report takes one file, or two to compare; for more pages give --out-dir")
    inputs = [one_input(options), *map(Input, options.files[1:])]
    return for_outcome(options, lambda: _outcome(inputs, options))


def _outcome(inputs: list[Input], options: argparse.Namespace) -> Outcome:
    """The page about one file or two."""
    texts: list[Text] = []
    path = inputs[0].path
    try:
        for each in inputs:
            path = each.path
            texts.append(text_of(each, options))
        return _of_texts(texts, options)
    except ModelFileError as error:
        found = next((text for text in texts if text.filename == error.filename), texts[0])
        return failure(str(found.filename), error, found)
    except (MemoryError, OSError, ImportError) as error:
        return failure(path, error)


def _of_texts(texts: list[Text], options: argparse.Namespace) -> Outcome:
    if options.json:
        return Outcome(record=_report().record(texts, digits=options.digits, by_position=options.by_position))
    page: str = _report().page(texts, digits=options.digits, by_position=options.by_position)
    return given_out(page.encode("utf-8"), options.output, options)


def _run_for_all(options: argparse.Namespace) -> Status:
    inputs = inputs_for(options)
    require_one_place_each(inputs, lambda given: _target(given, options))
    for each in inputs.files:
        if _place(each) == _INDEX:
            raise UsageError(f"{each.path} would have the page {_INDEX}, which lists all pages")
    outcomes: list[tuple[Input, Outcome]] = []
    done = for_each(
        inputs, options, _put_page, _BYTES_THAT_PAY, lambda given, outcome: outcomes.append((given, outcome))
    )
    return max(done.status, for_outcome(options, lambda: _put_index(outcomes, options))) if outcomes else done.status


def _put_page(text: Text, given: Input, options: argparse.Namespace) -> Outcome:
    page, facts = _report().page_and_facts(text)
    put(_target(given, options), page.encode("utf-8"), options)
    return Outcome(record=record_of(given.path, "accepted", facts=facts))


def _put_index(outcomes: list[tuple[Input, Outcome]], options: argparse.Namespace) -> Outcome:
    """Writes the page that lists the files, and says why some have no page."""
    path = os.path.join(options.out_dir, _INDEX)
    report = _report()
    listed = [
        report.Listed(given.place, _place(given), record.get("facts") or _why(record))
        for given, outcome in outcomes
        if (record := outcome.record) is not None
    ]
    try:
        put(path, report.index(listed).encode("utf-8"), options)
    except OSError as error:
        return failure(path, error)
    return Outcome()


def _why(record: Record) -> str:
    """Why a file has no page."""
    line = f"line {record['line']}" if record["line"] else ""
    return ": ".join(filter(None, (line, record["error"], record["reason"])))


def _place(given: Input) -> str:
    """Where the page of a file is, from the directory of all pages."""
    return f"{given.place}.html"


def _target(given: Input, options: argparse.Namespace) -> str:
    return os.path.join(options.out_dir, _place(given))


def _report() -> Any:
    """The modules of the page, which take long to import."""
    return import_module("mpslp._report")
