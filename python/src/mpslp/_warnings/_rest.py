"""What both formats have: text after the end that looks like a section."""

from __future__ import annotations

import re
from collections.abc import Collection

from mpslp._warnings._records import Found, shown

_LINE = re.compile(rb"^[ \t]*([A-Za-z][A-Za-z0-9.-]*)", re.M)


def sections_in(rest: bytes, place: int, words: Collection[bytes], keyword: str) -> Found:
    """The first line of the text after the end that starts as a section does."""
    for match in _LINE.finditer(rest):
        if match[1].upper() in words:
            said = f"{shown(match[1])} comes after {keyword}, and is ignored with all that follows"
            yield place + match.start(), said
            return
