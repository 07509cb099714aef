"""The files that a command works on, and their texts."""

from __future__ import annotations

import argparse
import os
import stat
from collections.abc import Sequence
from typing import NamedTuple

from mpslp._commands._outcomes import UsageError
from mpslp._files._paths import found_files
from mpslp._files._sources import Format, Text, format_number, format_of_name, read, read_standard_input

STANDARD_INPUT = "-"
_FORMATS: dict[str, Format] = {"mps": "mps", "lp": "lp"}


class Input(NamedTuple):
    """A file that a command works on."""

    path: str
    place: str = ""
    """Where it is below the directory that was given; of a file that was given itself, its name."""
    format: Format | None = None
    """The format if it is given before the path, as for the program mpslp; then the extension does not count."""
    git_path: str | None = None
    """The path in git of what git gives on standard input."""

    @property
    def name(self) -> str:
        """What messages call it."""
        return self.path if self.git_path is None else self.git_path


class Inputs(NamedTuple):
    """The files of the arguments."""

    files: list[Input]
    failed: list[OSError]
    """Why directories do not open."""
    empty: list[str]
    """The directories that have no model files."""


def inputs_of(options: argparse.Namespace, left_out: str | None = None) -> Inputs:
    """The files of the arguments, and the model files in their directories.

    What is in ``left_out`` is not among them.
    """
    inputs = Inputs([], [], [])
    for path in options.files:
        before = len(inputs.files) + len(inputs.failed)
        inputs.files.extend(Input(*found) for found in found_files([path], inputs.failed.append, left_out))
        if len(inputs.files) + len(inputs.failed) == before:
            inputs.empty.append(path)
    return inputs


def one_input(options: argparse.Namespace) -> Input:
    """The file of the arguments, if they have one only."""
    return Input(options.files[0], os.path.basename(options.files[0]))


def text_of(given: Input, options: argparse.Namespace) -> Text:
    """The text of a file, by its format: the one given before the path, that of its extension, or the one of the
    option.
    """
    path = given.path
    format: Format | None = given.format or format_of_name(given.name) or options.format
    if format is None:
        if path == STANDARD_INPUT:
            raise UsageError("standard input has no extension: give -f mps or -f lp")
        if stat.S_ISDIR(
            os.stat(path).st_mode
        ):  # what is wrong with a path that is missing, or a directory, is not its name
            raise UsageError(f"{path} is a directory: give a file")
        raise UsageError(f"{path}: its name ends neither in .mps nor in .lp: give -f mps or -f lp")
    if path == STANDARD_INPUT:
        return Text(read_standard_input(), format_number(format), given.name)
    return read(path, format)


# ---- the arguments of the program mpslp, which has a format before each path


def formats_before(
    words: Sequence[str], count: int, places: Sequence[int], options: argparse.Namespace
) -> list[Format] | None:
    """The formats at these places of so many arguments, or None if these are not the arguments of the program mpslp.

    A file whose name is a format has no extension, so it needs the option -f.
    """
    if len(words) != count or options.format is not None:
        return None
    found = [_FORMATS.get(words[place].lower()) for place in places]
    return [each for each in found if each is not None] if all(found) else None
