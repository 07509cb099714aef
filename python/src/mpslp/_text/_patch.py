"""Unified diffs of texts, also of long ones in which most lines change."""

from __future__ import annotations

import re
from collections.abc import Iterator, Sequence
from difflib import Match, SequenceMatcher
from io import BytesIO

from mpslp._errors._own_checks import OwnCheckError
from mpslp._text._equal_lines import matched_lines

_CONTEXT = 3
_QUOTED = re.compile(rb"[\x00-\x1f\x7f\"\\]")
"""The bytes of a path that are escaped."""
_NO_END = b"\\ No newline at end of file\n"


def unified_diff(path: str, old: bytes, new: bytes) -> bytes:
    """What changes the file of a path from one text to another, as ``diff -u`` prints it; nothing if they are the same.

    Raises OwnCheckError unless it makes the new text of the old one.
    """
    if old == new:
        return b""
    patch = _patch(path, old, new)
    if applied(old, patch) != new:
        raise OwnCheckError("the differences do not make the new text")
    return patch


def _patch(path: str, old: bytes, new: bytes) -> bytes:
    before, after = lines_of(old), lines_of(new)
    name = _quoted(path)
    parts = [b"--- ", name, b"\n+++ ", name, b"\n"]
    for group in _Matcher(before, after).get_grouped_opcodes(_CONTEXT):
        first, last = group[0], group[-1]
        parts.append(b"@@ -%s +%s @@\n" % (_range(first[1], last[2]), _range(first[3], last[4])))
        for tag, i, i_end, j, j_end in group:
            if tag == "equal":
                parts.extend(_marked(b" ", before[i:i_end]))
            else:
                parts.extend(_marked(b"-", before[i:i_end]))
                parts.extend(_marked(b"+", after[j:j_end]))
    return b"".join(parts)


def changed_lines(before: Sequence[bytes], after: Sequence[bytes]) -> Iterator[tuple[int, int, int, int]]:
    """The runs of lines in which two texts differ: where each starts and ends in the one, and in the other."""
    return ((i, i_end, j, j_end) for tag, i, i_end, j, j_end in _Matcher(before, after).get_opcodes() if tag != "equal")


def lines_of(text: bytes) -> list[bytes]:
    """The lines of a text, each with its end."""
    return BytesIO(text).readlines()


def _marked(mark: bytes, lines: Sequence[bytes]) -> list[bytes]:
    marked = [mark + line for line in lines]
    if marked and not marked[-1].endswith(b"\n"):
        marked.append(b"\n" + _NO_END)
    return marked


def _range(start: int, end: int) -> bytes:
    """Lines as the head of a hunk has them: the first one, from 1, and how many."""
    count = end - start
    if count == 1:
        return b"%d" % (start + 1)
    return b"%d,%d" % (start + 1 if count else start, count)


def _quoted(path: str) -> bytes:
    """A path as patch and git read it: quoted if it has control characters or quotes, and ended by a tab if it has
    spaces.
    """
    name = path.encode("utf-8", "surrogateescape")
    if _QUOTED.search(name):
        return b'"%s"' % _QUOTED.sub(
            lambda found: b"\\" + found[0] if found[0] in b'"\\' else b"\\%03o" % found[0][0], name
        )
    return name + b"\t" if b" " in name else name


class _Matcher(SequenceMatcher[bytes]):
    """Groups the changes between two texts as difflib does, from lines that are matched in linear time."""

    def __init__(self, before: Sequence[bytes], after: Sequence[bytes]) -> None:
        super().__init__(None, (), ())
        self.a, self.b = before, after

    def get_matching_blocks(self) -> list[Match]:
        return _blocks(matched_lines(self.a, self.b), len(self.a), len(self.b))


def _blocks(pairs: Sequence[tuple[int, int]], count: int, other_count: int) -> list[Match]:
    """Pairs of matched lines as runs, with an empty one at the end."""
    blocks: list[Match] = []
    i = j = size = 0
    for pair in pairs:
        if pair != (i + size, j + size):
            blocks.append(Match(i, j, size))
            (i, j), size = pair, 0
        size += 1
    blocks.append(Match(i, j, size))
    return [*(block for block in blocks if block.size), Match(count, other_count, 0)]


# ---- the check


_HUNK = re.compile(rb"@@ -([0-9]+)(?:,([0-9]+))? \+[0-9]+(?:,([0-9]+))? @@\n")


def applied(old: bytes, patch: bytes) -> bytes | None:
    """The text that a unified diff makes of another one, or None if it does not fit that text."""
    before, lines = lines_of(old), lines_of(patch)
    made: list[bytes] = []
    done, at = 0, 2
    while at < len(lines):
        head = _HUNK.fullmatch(lines[at])
        if head is None:
            return None
        counts = [1 if count is None else int(count) for count in (head[2], head[3])]
        start = int(head[1]) - (1 if counts[0] else 0)
        end = at + 1
        while end < len(lines) and not lines[end].startswith(b"@"):
            end += 1
        removed, added = _sides(lines[at + 1 : end])
        if not done <= start or before[start : start + counts[0]] != removed or [len(removed), len(added)] != counts:
            return None
        made.extend(before[done:start])
        made.extend(added)
        done, at = start + counts[0], end
    made.extend(before[done:])
    return b"".join(made)


def _sides(hunk: list[bytes]) -> tuple[list[bytes], list[bytes]]:
    """The lines of a hunk that are in the old text, and those in the new one."""
    for number, line in enumerate(hunk):
        if line == _NO_END:
            hunk[number - 1] = hunk[number - 1][:-1]
    removed = [line[1:] for line in hunk if line.startswith((b" ", b"-"))]
    return removed, [line[1:] for line in hunk if line.startswith((b" ", b"+"))]
