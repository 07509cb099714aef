"""The command line: one parser, with help that fits a terminal of 24 lines and 80 columns."""

from __future__ import annotations

import argparse
import sys
from collections.abc import Iterable, Sequence
from difflib import get_close_matches
from typing import Any, NoReturn

from mpslp import _mpslp
from mpslp._commands import COMMANDS, command_of
from mpslp._commands._outcomes import Status
from mpslp._files._output import write_all

_WIDTH = 24
"""The columns of the names of options, with the space around them."""

_WITHOUT_COMMAND = ("-V", "--version", "-h", "--help")
"""The first words after which nothing is read, so that no command is imported."""

_MARK = "\0"
"""What no word of a command line begins with."""

_INTRODUCTION = "Check, rewrite, compare and explain linear and mixed-integer model files."
_EPILOG = """\
'COMMAND --help' lists its options. The extension of a file is its format: .mps
or .lp, also before .gz, .bz2, .xz or .zst. A directory is its model files.

exit status: 0 done, or the same; 1 different, or not canonical; 2 a file is
rejected; 3 usage error; 4 a file cannot be read or written; 5 out of memory;
6 not decided"""


class Parser(argparse.ArgumentParser):
    """A parser whose help is short, and whose errors end with the status of mpslp for wrong usage."""

    def error(self, message: str) -> NoReturn:
        self.print_usage(sys.stderr)
        self.exit(Status.USAGE, f"{self.prog}: error: {message}\n")

    def format_usage(self) -> str:
        return f"usage: {self.prog} {self.usage}\n"

    def _check_value(self, action: argparse.Action, value: Any) -> None:
        try:
            super()._check_value(action, value)
        except argparse.ArgumentError as error:
            error.message += _did_you_mean(str(value), map(str, action.choices or ()))
            raise

    def _print_message(self, message: str, file: Any = None) -> None:
        write_all(file, message)  # None is standard output that is closed: there is always a standard error


class CommandParser(Parser):
    """The parser of a command: options may come between its files."""

    _is_within = False

    def parse_known_args(self, args: Any = None, namespace: Any = None) -> Any:
        if self._is_within:
            return super().parse_known_args(args, namespace)
        self._is_within = True
        try:
            found, rest = self.parse_known_intermixed_args(_marked(args), namespace)
        finally:
            self._is_within = False
        if rest:
            names = (name for action in self._actions for name in action.option_strings)
            unknown = " ".join(word.removeprefix(_MARK) for word in rest)
            self.error(f"unrecognized arguments: {unknown}{_did_you_mean(rest[0].partition('=')[0], names)}")
        for operand in (action.dest for action in self._actions if not action.option_strings):
            setattr(found, operand, [word.removeprefix(_MARK) for word in getattr(found, operand)])
        return found, rest

    def format_help(self) -> str:
        lines = (line for action in self._actions if action.help != argparse.SUPPRESS for line in _lines_of(action))
        return "\n".join([f"{self.format_usage()}", f"{self.description}", "", *lines, ""])


class _MainParser(Parser):
    def format_help(self) -> str:
        commands = (f"  {name:<{_WIDTH - 14}}{help}" for name, help in COMMANDS.items())
        return "\n".join([self.format_usage(), _INTRODUCTION, "", *commands, "", _EPILOG, ""])


def parser(prog: str | None, name: str | None = None) -> Parser:
    """The parser of all commands, with the options of all, or of the one that has this name; ``name`` is the first word
    of a command line.
    """
    made = _MainParser(prog=prog, usage="[--help | --version] COMMAND ..")
    made.add_argument("-V", "--version", action="version", version=f"mpslp {_mpslp.VERSION}")
    commands = made.add_subparsers(
        dest="command", metavar="COMMAND", required=True, prog=made.prog, parser_class=CommandParser
    )
    for each in () if name in _WITHOUT_COMMAND else COMMANDS if name not in COMMANDS else (name,):
        command = command_of(each)
        added = commands.add_parser(each, usage=command.USAGE, description=command.DESCRIPTION, add_help=False)
        command.add(added)
        added.add_argument("-h", "--help", action="help", help="print this help")
    return made


def _did_you_mean(word: str, names: Iterable[str]) -> str:
    """The end of a message about a word that is no name: the nearest name, or nothing."""
    near = get_close_matches(word, list(names), n=1)
    return f"; did you mean {near[0]}?" if near else ""


def _marked(words: Sequence[str]) -> list[str]:
    """The words of a command, with a mark on those after ``--``, none of which is an option."""
    at = list(words).index("--") if "--" in words else len(words)
    return [*words[:at], *(_MARK + word for word in words[at + 1 :])]


def _lines_of(action: argparse.Action) -> list[str]:
    """The lines of an argument in the help."""
    names, first, *rest = f"  {_names_of(action)}", *str(action.help).split("\n")
    head = [f"{names:<{_WIDTH}}{first}"] if len(names) < _WIDTH - 1 else [names, " " * _WIDTH + first]
    return [*head, *(" " * _WIDTH + line for line in rest)]


def _names_of(action: argparse.Action) -> str:
    if not action.option_strings:
        return str(action.metavar)
    value = "" if action.nargs == 0 else f" {action.metavar}"
    return ("" if action.option_strings[0][1] != "-" else "    ") + ", ".join(action.option_strings) + value
