"""The lines with which git marks a conflict in a text."""

from __future__ import annotations

import re

_FIRST = re.compile(rb"^<{7,}(?: [^\n]*)?\r?$", re.MULTILINE)
_MIDDLE = re.compile(rb"^={7,}(?: [^\n]*)?\r?$", re.MULTILINE)
_LAST = re.compile(rb"^>{7,}(?: [^\n]*)?\r?$", re.MULTILINE)
_ANY = re.compile(rb"(?:<{7,}|={7,}|>{7,}|\|{7,})(?: [^\n]*)?\r?")


def has_conflict_markers(content: bytes) -> bool:
    """Whether a text has the three lines of a conflict, in their order."""
    first = _FIRST.search(content)
    middle = None if first is None else _MIDDLE.search(content, first.end())
    return middle is not None and _LAST.search(content, middle.end()) is not None


def is_conflict_marker(line: bytes, content: bytes) -> bool:
    """Whether a line of a text is a marker; a line of ``=`` or ``|`` is one only beside those of ``<`` or ``>``, since
    it may be an ornament.
    """
    if _ANY.fullmatch(line) is None:
        return False
    return line[:1] in (b"<", b">") or _FIRST.search(content) is not None or _LAST.search(content) is not None
