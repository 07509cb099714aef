"""The command mpslp-tools, which is also ``python3 -m mpslp``."""

from __future__ import annotations

import os
import signal
import sys
from collections.abc import Sequence
from contextlib import suppress
from typing import NoReturn

from mpslp._commands import COMMANDS, command_of
from mpslp._commands._outcomes import Status, UsageError
from mpslp._commands._parser import parser
from mpslp._files._output import OutputError, printable, shown_path, write_line


def main(arguments: Sequence[str] | None = None, prog: str | None = None) -> int:
    """Does what the arguments ask for, and returns the exit status."""
    words = _without_help(sys.argv[1:] if arguments is None else arguments)
    made = parser(prog, words[0] if words else None)
    options = made.parse_args(words)
    try:
        status = command_of(options.command).run(options)
    except UsageError as error:
        write_line(sys.stderr, printable(f"{made.prog}: error: {error}"))
        return Status.USAGE
    except ChildProcessError as error:
        write_line(sys.stderr, str(error))
        return Status.FAILED
    if status == Status.REJECTED and not getattr(options, "quiet", False) and sys.stderr.isatty():
        write_line(sys.stderr, f"{made.prog} explain KIND prints what to do about a kind of error")
    return status


def _without_help(words: Sequence[str]) -> list[str]:
    """The arguments ``help`` and ``help COMMAND`` as options, as the program mpslp takes them."""
    if words[:1] != ["help"] or len(words) > 2 or (len(words) == 2 and words[1] not in COMMANDS):
        return list(words)
    return [*words[1:], "--help"]


def run(prog: str | None = None) -> int:
    """Main, with the streams and the signals of a command. mpslp_tools handles interrupts."""
    if sys.stderr is None:  # it is closed: nobody wants the messages
        sys.stderr = open(os.devnull, "w")
    signal.signal(signal.SIGTERM, _terminate)
    try:
        return main(prog=prog)
    except MemoryError:
        _write_last_line("out of memory")
        return Status.NO_MEMORY
    except OutputError as error:
        if error.is_closed_pipe:
            _end_by_closed_pipe()
        _write_last_line(f"{error.filename}: {error.strerror}")
        return Status.FAILED
    except OSError as error:  # such as too many open files
        _write_last_line(
            shown_path(": ".join(str(part) for part in (error.filename, error.strerror or error) if part is not None))
        )
        return Status.FAILED


def _terminate(number: int, frame: object) -> NoReturn:
    """Ends the command as an exception does, so that no temporary file is left."""
    sys.exit(128 + number)


def _end_by_closed_pipe() -> None:
    """Ends the process as a pipe without a reader ends programs that do not ask for anything else, such as grep."""
    signal.signal(signal.SIGPIPE, signal.SIG_DFL)
    signal.raise_signal(signal.SIGPIPE)


def _write_last_line(line: str) -> None:
    with suppress(OutputError):  # standard error fails, too
        write_line(sys.stderr, line)
