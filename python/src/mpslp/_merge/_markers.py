"""Texts with git's markers around the lines about which both sides disagree."""

from __future__ import annotations

import re
from collections.abc import Iterable, Iterator, Sequence
from typing import NamedTuple

from mpslp._merge._conflicts import SIDES
from mpslp._text._patch import changed_lines, lines_of

_NAME_IN_LP = re.compile(rb"[^\s:+<>=*-]+")
_NAME_IN_MPS = re.compile(rb"\S+")


class Hunk(NamedTuple):
    """Lines of a text, from a start to an end, and what both sides have in their place."""

    start: int
    end: int
    ours: Sequence[bytes]
    theirs: Sequence[bytes]


def marked(ours: bytes, theirs: bytes, size: int) -> bytes:
    """A text with markers around each run of lines in which two texts differ; nothing else is marked."""
    before, after = lines_of(ours), lines_of(theirs)
    hunks = [Hunk(i, i_end, before[i:i_end], after[j:j_end]) for i, i_end, j, j_end in changed_lines(before, after)]
    return _put(before, hunks, size)


def marked_changes(merged: bytes, ours: bytes, theirs: bytes, names: Iterable[str], is_mps: bool, size: int) -> bytes:
    """A text that git merged, with markers around the changes of one side that have one of these names.

    What git marked stays as it is. If nothing is marked then, each change of one side is: a conflict is never without
    markers.
    """
    lines = lines_of(merged)
    hunks = list(_apart(_hunks(lines, lines_of(ours), lines_of(theirs)), _marked_by_git(lines, size)))
    wanted = frozenset(name.encode() for name in names)
    found = [hunk for hunk in hunks if not wanted.isdisjoint(_names(hunk, is_mps))]
    if not found and not any(line.startswith(b"<" * size) for line in lines):
        found = hunks
    return _put(lines, found, size)


def _hunks(lines: Sequence[bytes], ours: Sequence[bytes], theirs: Sequence[bytes]) -> list[Hunk]:
    """The changes of one side each, in a text that has those of both."""
    of_theirs = [Hunk(j, j_end, ours[i:i_end], lines[j:j_end]) for i, i_end, j, j_end in changed_lines(ours, lines)]
    of_ours = [Hunk(j, j_end, lines[j:j_end], theirs[i:i_end]) for i, i_end, j, j_end in changed_lines(theirs, lines)]
    return sorted(of_theirs + of_ours, key=lambda hunk: (hunk.start, hunk.end))


def _marked_by_git(lines: Sequence[bytes], size: int) -> list[tuple[int, int]]:
    """The lines from the first to the last marker of each conflict."""
    found, start = [], None
    for number, line in enumerate(lines):
        if line.startswith(b"<" * size):
            start = number
        elif line.startswith(b">" * size) and start is not None:
            found.append((start, number + 1))
            start = None
    return found


def _apart(hunks: Iterable[Hunk], taken: Sequence[tuple[int, int]]) -> Iterator[Hunk]:
    """The hunks that overlap neither what is taken nor a hunk before them."""
    others, last = iter([*taken, (1 << 62, 1 << 62)]), 0
    start, end = next(others)
    for hunk in hunks:
        while end <= hunk.start:
            start, end = next(others)
        if hunk.start >= last and hunk.end <= start:
            yield hunk
            last = hunk.end


def _names(hunk: Hunk, is_mps: bool) -> set[bytes]:
    find = (_NAME_IN_MPS if is_mps else _NAME_IN_LP).findall
    return {name for line in (*hunk.ours, *hunk.theirs) for name in find(line)}


def _put(lines: Sequence[bytes], hunks: Iterable[Hunk], size: int) -> bytes:
    """The lines with these hunks, each between its markers."""
    parts: list[bytes] = []
    at = 0
    for hunk in hunks:
        end = b"\r\n" if any(line.endswith(b"\r\n") for line in (*hunk.ours, *hunk.theirs)) else b"\n"
        parts += lines[at : hunk.start]
        parts += [b"<" * size, f" {SIDES[0]}".encode(), end, *_ended(hunk.ours, end), b"=" * size, end]
        parts += [*_ended(hunk.theirs, end), b">" * size, f" {SIDES[1]}".encode(), end]
        at = hunk.end
    return b"".join([*parts, *lines[at:]])


def _ended(lines: Iterable[bytes], end: bytes) -> list[bytes]:
    return [line if line.endswith(b"\n") else line + end for line in lines]
