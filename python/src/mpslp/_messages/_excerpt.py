"""Lines of a text as a message shows them: with their numbers, and a caret under the part that has the error."""

from __future__ import annotations

from collections.abc import Iterable, Iterator
from typing import NamedTuple

_MOST_WIDE = 100
_BEFORE = 60
"""So much of a long line is shown before the part that has the error."""
_TAB = "    "
_CUT = "..."


class Mark(NamedTuple):
    """A line, and the part of it that a caret shows; none if the part is empty."""

    number: int
    content: bytes
    start: int
    end: int


def excerpt(marks: Iterable[Mark]) -> str:
    """The lines in their order, each once, with carets under their parts."""
    by_number: dict[int, list[Mark]] = {}
    for mark in sorted(set(marks)):
        by_number.setdefault(mark.number, []).append(mark)
    width = max((len(str(number)) for number in by_number), default=0)
    return "\n".join(row for number, of_line in by_number.items() for row in _rows(number, of_line, width))


def _rows(number: int, marks: list[Mark], width: int) -> Iterator[str]:
    content = marks[0].content
    left = _boundary(content, max(0, marks[-1].start - _BEFORE)) if len(content) > _MOST_WIDE else 0
    right = _boundary(content, min(len(content), left + _MOST_WIDE))
    shown = readable(content[left:right])
    before = _CUT if left else ""
    yield f"{number:{width + 2}} | {before}{shown}{_CUT if right < len(content) else ''}".rstrip()
    carets = ""
    for mark in marks:
        if left <= mark.start < mark.end:
            at = len(before) + len(readable(content[left : mark.start].ljust(mark.start - left)))
            length = len(readable(content[mark.start : min(mark.end, right)])) or 1
            carets = carets.ljust(at) + "^" * length
    if carets:
        yield f"{'':{width + 2}} | {carets}"


def _boundary(content: bytes, at: int) -> int:
    """The place, or the next one that is not within a letter of UTF-8."""
    while at < len(content) and 0x80 <= content[at] < 0xC0 and at > 0 and content[at - 1] >= 0x80:
        at += 1
    return at


def readable(content: bytes) -> str:
    """Bytes as text in one line: letters of UTF-8, and other bytes and control characters by their numbers."""
    text = content.decode("utf-8", "backslashreplace")
    return "".join(_TAB if char == "\t" else char if char.isprintable() else _escaped(char) for char in text)


def _escaped(char: str) -> str:
    return f"\\x{ord(char):02x}" if ord(char) < 0x100 else f"\\u{ord(char):04x}"
