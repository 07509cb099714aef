"""Where the texts of many files are written: below a directory, in the same tree."""

from __future__ import annotations

import argparse
import os
from collections.abc import Callable

from mpslp._commands._inputs import STANDARD_INPUT, Input, Inputs, inputs_of
from mpslp._commands._outcomes import Outcome, UsageError
from mpslp._files._compression import pack, without_ending
from mpslp._files._paths import replace_file
from mpslp._files._sources import format_of_name


def inputs_for(options: argparse.Namespace) -> Inputs:
    """The files of the arguments.

    With --out-dir, what is below it is left out, and standard input has no name to be written to.
    """
    directory: str | None = options.out_dir
    if directory is None:
        return inputs_of(options)
    if STANDARD_INPUT in options.files:
        raise UsageError("--out-dir does not go with standard input, which has no name")
    for path in options.files:
        if os.path.isdir(path) and os.path.realpath(path) == os.path.realpath(directory):
            raise UsageError(f"--out-dir {directory} is the directory that is read")
    return inputs_of(options, directory)


def require_one_place_each(inputs: Inputs, target: Callable[[Input], str]) -> None:
    """Raises UsageError if two files would be written to one."""
    sources: dict[str, str] = {}
    for each in inputs.files:
        path = os.path.normpath(target(each))
        if path in sources and os.path.normpath(sources[path]) != os.path.normpath(each.path):
            raise UsageError(f"{sources[path]} and {each.path} would both be written to {path}")
        sources[path] = each.path


def target_of(given: Input, directory: str, format: str | None) -> str:
    """The path below a directory that the text of a file is written to, whose extension says the format."""
    return os.path.join(directory, given.place if format is None else with_extension(given.place, format))


def with_extension(name: str, format: str) -> str:
    """The name of a file with the extension of a format, before that of a compression."""
    stem, ending = without_ending(name)
    old = format_of_name(name)
    if old == format:
        return name
    return f"{stem if old is None else stem[: -len(old) - 1]}.{format}{ending}"


def given_out(text: bytes, path: str | None, options: argparse.Namespace) -> Outcome:
    """Writes a text to a file, or prints it if there is no path or if that is ``-``."""
    if path is None or path == STANDARD_INPUT:
        return Outcome(text=text)
    put(path, text, options)
    return Outcome()


def put(path: str, text: bytes, options: argparse.Namespace) -> None:
    """Writes a text to a file as a whole, compressed as its name says; with --out-dir, its directory is made."""
    content = pack(path, text)
    if options.out_dir is not None:
        os.makedirs(os.path.dirname(path), exist_ok=True)
    replace_file(path, content)
