"""Whether the command adapt mends a file: adapt runs on it to find out."""

from __future__ import annotations

import re

from mpslp import _mpslp
from mpslp._files._sources import Text

MOST_TRIED = 100_000
"""A file of so many bytes is adapted in about a tenth of a second, for which a reader of a message does not wait."""
_SAID = re.compile(r"(?:; or|,)(?: as)? mpslp-tools adapt(?: FILE| does)")
MENDS = "mpslp-tools adapt FILE mends this"


def with_adapt(fix: str, text: Text, means_other: bool) -> str:
    """A fix that says that adapt mends the file if it does. Of a large file, which is not tried, the fix stays."""
    if len(text.content) > MOST_TRIED:
        return fix
    without = _SAID.sub("", fix)
    return f"{without}; {MENDS}" if not means_other and _is_mended(text) else without


def _is_mended(text: Text) -> bool:
    from mpslp._adapt import AdaptError, adapt_text  # for small files that are rejected only

    try:
        return bool(adapt_text(text.content, "lp" if text.format == _mpslp.LP else "mps").changes)
    except AdaptError:
        return False
