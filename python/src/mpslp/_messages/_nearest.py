"""The name that may be meant by one that is not there."""

from __future__ import annotations

import re
from collections.abc import Callable, Iterable, Iterator, Mapping

_MOST_COMPARED = 2_000
"""So many names are compared by a measure that takes time; names with one other letter are found among all."""
_MOST_BEFORE_FIRST = 20_000
_MOST_SHORTER = 2


class Known:
    """Names of a text, of which each is the group of a match."""

    def __init__(self, content: bytes, pattern: re.Pattern[bytes], start: int, end: int) -> None:
        self._content = content
        self._pattern = pattern
        self._start = start
        self._end = end

    def __contains__(self, name: str) -> bool:
        return self.place(name) is not None

    def place(self, name: str) -> int | None:
        """The place at which a name is first."""
        wanted = name.encode("latin-1")
        return next((start for found, start in self._names() if found == wanted), None)

    def nearest(self, name: str) -> tuple[str, int] | None:
        """The nearest name, and its place."""
        found = _nearest(name.encode("latin-1"), self._names())
        return None if found is None else (found[0].decode("latin-1"), found[1])

    def _names(self) -> Iterator[tuple[bytes, int]]:
        last = b""
        for match in self._pattern.finditer(self._content, self._start, self._end):
            if match[1] != last:
                last = match[1]
                yield last, match.start(1)


def nearest(name: str, names: Iterable[str]) -> str | None:
    """The nearest of some names, or None if none is near."""
    found = _nearest(name.encode("utf-8"), ((each.encode("utf-8"), 0) for each in names))
    return None if found is None else found[0].decode("utf-8")


def _nearest(name: bytes, names: Iterable[tuple[bytes, int]]) -> tuple[bytes, int] | None:
    """The name that differs by the case of letters; or else by one letter; or else by few, if it is among the first
    ones.

    After many names the first one that differs by one letter is returned without a look at the rest.
    """
    lower, has_one_edit = name.lower(), _one_edit_from(name)
    by_one: tuple[bytes, int] | None = None
    others: dict[bytes, int] = {}
    for number, (each, start) in enumerate(names):
        if by_one is not None and number > _MOST_BEFORE_FIRST:
            break
        if abs(len(each) - len(name)) > _MOST_SHORTER or each == name:
            continue
        if len(each) == len(name) and each.lower() == lower:
            return each, start
        if by_one is None and has_one_edit(each):
            by_one = each, start
        elif len(others) < _MOST_COMPARED:
            others.setdefault(each, start)
    return by_one or _close(name, others)


def _one_edit_from(name: bytes) -> Callable[[bytes], bool]:
    """Whether a name of two letters or more is another one with a letter more, a letter less, another letter, or two
    swapped.
    """
    size, number = len(name), int.from_bytes(name, "big")
    shorter = {name[:at] + name[at + 1 :] for at in range(size)}
    swapped = {name[:at] + name[at + 1 : at + 2] + name[at : at + 1] + name[at + 2 :] for at in range(size - 1)}

    def has_one_edit(other: bytes) -> bool:
        if len(other) == size:
            differing = number ^ int.from_bytes(other, "big")
            lowest = (differing & -differing).bit_length() - 1
            return lowest // 8 == (differing.bit_length() - 1) // 8 or other in swapped
        if len(other) == size - 1:
            return other in shorter
        if len(other) != size + 1:
            return False
        differing = number ^ int.from_bytes(other[:size], "big")
        first = size - (differing.bit_length() + 7) // 8
        return other[first + 1 :] == name[first:]

    return has_one_edit if size > 1 else lambda other: len(other) == 2 and name in other


def _close(name: bytes, others: Mapping[bytes, int]) -> tuple[bytes, int] | None:
    from difflib import get_close_matches

    by_text = {each.decode("latin-1"): each for each in others}
    found = get_close_matches(name.decode("latin-1"), by_text, 1)
    return (by_text[found[0]], others[by_text[found[0]]]) if found else None
