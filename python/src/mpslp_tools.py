"""The start of the command mpslp-tools: an interrupt is handled before anything is imported.

It is no module of the package mpslp, since that one is imported before its modules are.
"""

import sys

_INTERRUPTED = 130
"""The exit status: 128 and the number of SIGINT."""


def run(prog: "str | None" = None) -> int:
    """The whole of a process. An interrupt ends it with one line, whatever is being imported or done."""
    try:
        from mpslp._main import run as run_command

        return run_command(prog)
    except BaseException as error:
        if not _is_interrupt(error):
            raise
    _write_line("mpslp-tools: interrupted\n")
    return _INTERRUPTED


def _is_interrupt(error: BaseException) -> bool:
    """Whether an error is an interrupt, or comes of one: a class that is being made may raise another one for it."""
    return isinstance(error, KeyboardInterrupt) or isinstance(error.__cause__, KeyboardInterrupt)


def _write_line(line: str) -> None:
    try:
        if sys.stderr is not None:
            sys.stderr.write(line)
            sys.stderr.flush()
    except OSError:  # nobody reads it
        pass
