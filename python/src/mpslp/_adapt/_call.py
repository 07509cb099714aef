"""The call."""

from collections.abc import Collection

from mpslp import _mpslp
from mpslp._adapt._changes import AdaptError
from mpslp._adapt._texts import Adapted, adapt_text
from mpslp._files._sources import Format, Source, read


def adapt(
    source: Source, format: Format | None = None, dialect: str | None = None, *, strict: Collection[str] = ()
) -> Adapted:
    """Returns the text of a file as it comes, rewritten so that the calls of this package take it.

    ``dialect`` names the program that wrote the file, one of ``"coinutils"``, ``"glpsol"``, ``"lp_solve"``, ``"pulp"``
    and ``"qsopt"``; then what that program means by its text is written out. Without it a header that names its writer
    selects the dialect, which ``writer`` of the result has; ``"none"`` turns that off. ``strict`` has the kinds of
    changes that are not wanted. A text that needs no change is returned unchanged.

    Raises AdaptError, which is a ValueError, if the meaning would have to be guessed, if the calls of this package
    reject the text in spite of the changes, or for a change of a kind in ``strict``.

    >>> adapted = mpslp.adapt(b"min x\\nst\\nx + 3 >= 5\\nend\\n", "lp")
    >>> adapted.text
    b'min x\\nst\\nx >= 2\\nend\\n'
    >>> print(*adapted.changes)
    3: constant-in-row: x + 3 >= 5 -> x >= 2
    """
    text = read(source, format)
    try:
        return adapt_text(text.content, "lp" if text.format == _mpslp.LP else "mps", dialect, strict)
    except AdaptError as error:
        error.filename = text.filename
        raise
