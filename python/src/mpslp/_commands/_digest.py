"""The command digest."""

from __future__ import annotations

import argparse

from mpslp import _mpslp
from mpslp._commands import _options
from mpslp._commands._inputs import Input, inputs_of
from mpslp._commands._options import add_files, add_options
from mpslp._commands._outcomes import Outcome, Status, record_of
from mpslp._commands._work import for_each
from mpslp._files._sources import Text

USAGE = "[OPTION].. FILE.."
DESCRIPTION = """\
Print the SHA-256 of the canonical MPS text of each file, and its path. It is
the same for all files of one model."""
DETAILS = """\
With --any-names it is another digest, which is also the same for models that are the same but for names. Models with
the same one are most likely the same but for names; same --any-names says whether they are."""


def add(parser: argparse.ArgumentParser) -> None:
    add_files(parser, _options.FILES)
    add_options(parser, _options.ANY_NAMES, _options.JOBS, _options.JSON, _options.QUIET)


def run(options: argparse.Namespace) -> Status:
    return for_each(inputs_of(options), options, _digest).status


def _digest(text: Text, given: Input, options: argparse.Namespace) -> Outcome:
    digest = _digest_any_names(text) if options.any_names else _digest_of(text)
    return Outcome(output=f"{digest}  {given.path}", record=record_of(given.path, "accepted", digest=digest))


def _digest_of(text: Text) -> str:
    from hashlib import sha256  # it breaks further interpreters of CPython 3.12.1, and is wanted here only

    return sha256(_mpslp.canonical(text.content, text.format, _mpslp.MPS)).hexdigest()


def _digest_any_names(text: Text) -> str:
    from mpslp._matching._colours import digest_of

    return digest_of(_mpslp.load(text.content, text.format))
