"""The commands of mpslp-tools.

Each is a module with ``add``, which gives a parser the options, and ``run``, which does what they ask for. Only the
module of the command that is given is imported.
"""

from __future__ import annotations

import argparse
from importlib import import_module
from typing import Protocol, cast

from mpslp._commands._outcomes import Status

COMMANDS = {
    "canon": "write the canonical text of model files",
    "fmt": "format files, and keep comments and order",
    "check": "print which files are not canonical",
    "same": "say whether two files define the same model",
    "diff": "print the differences of two models",
    "merge": "merge two models that were made of one",
    "setup-git": "make git diff and merge models",
    "show": "print the model of a file",
    "digest": "print a checksum of the model of each file",
    "explain": "explain a kind of error",
    "adapt": "rewrite files of another dialect",
    "survey": "make a table of a collection of models",
    "report": "make a page about a model",
}
"""The commands, and what each does."""


class Command(Protocol):
    """The module of a command."""

    USAGE: str
    """What comes after its name, as ``[OPTION].. FILE..``."""
    DESCRIPTION: str
    """What it does, in lines of its help."""
    DETAILS: str
    """What else there is to say, in the manual page."""

    def add(self, parser: argparse.ArgumentParser) -> None:
        ...

    def run(self, options: argparse.Namespace) -> Status:
        ...


def command_of(name: str) -> Command:
    """The module of a command."""
    return cast(Command, import_module(f"mpslp._commands._{name.replace('-', '_')}"))
