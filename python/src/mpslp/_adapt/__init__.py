"""Files as they come: rewritten, without guessing, as files that the reader takes.

This is a step of its own before the library, which reads what is written here as it reads every text.
"""

from collections.abc import Sequence
from importlib import import_module
from typing import TYPE_CHECKING, Any

from mpslp._adapt._changes import DIALECTS, AdaptError, Change, Note

if TYPE_CHECKING:
    from mpslp._adapt._call import adapt
    from mpslp._adapt._texts import Adapted, adapt_text

__all__ = ["DIALECTS", "AdaptError", "Adapted", "Change", "Note", "adapt", "adapt_text", "command"]

# The rules are imported when they are used for the first time: commands that only name the dialects start without them.
_LATER = {"adapt": "_call", "Adapted": "_texts", "adapt_text": "_texts"}

if not TYPE_CHECKING:  # a checker of types would take every name for one of the package

    def __getattr__(name: str) -> Any:
        if name not in _LATER:
            raise AttributeError(f"module {__name__!r} has no attribute {name!r}", name=name)
        return getattr(import_module(f"{__name__}.{_LATER[name]}"), name)


def command(arguments: Sequence[str]) -> int:
    """Runs the command adapt with its arguments, and returns its exit status."""
    from mpslp._files._output import OutputError
    from mpslp._main import main  # with argparse, which the calls do not need

    try:
        return main(["adapt", *arguments], "python3 -m mpslp")
    except OutputError:
        return 4
