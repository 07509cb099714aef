"""Which lines of one text are which lines of another, in a time that grows with the lines, whatever they are."""

from __future__ import annotations

from bisect import bisect_left
from collections import defaultdict, deque
from collections.abc import Iterator, Sequence
from itertools import chain
from typing import NamedTuple

_PASSES_OF_SINGLE_LINES = 4
"""How many times the parts between matched lines are searched for lines that occur once: people see best what these
show.
"""
_MOST_COMPARED = 400
"""The most pairs of lines of a part that are compared one by one."""
_MOST_LINES = 8_000_000
"""The most lines that are looked at, each as often as it is, and the first passes look at all: what is left then has no
pairs.
"""

Pair = tuple[int, int]
"""The numbers of two equal lines."""


class _Span(NamedTuple):
    """Lines of both texts between which lines are matched, and how often they were searched."""

    i: int
    i_end: int
    j: int
    j_end: int
    passes: int = 0

    @property
    def pairs(self) -> int:
        return (self.i_end - self.i) * (self.j_end - self.j)


def matched_lines(before: Sequence[bytes], after: Sequence[bytes]) -> list[Pair]:
    """Pairs of equal lines of two texts, in the order of both."""
    pairs: list[Pair] = []
    left = _MOST_LINES
    spans = deque([_Span(0, len(before), 0, len(after))])
    while spans:
        i, i_end, j, j_end, passes = spans.popleft()
        while i < i_end and j < j_end and before[i] == after[j]:
            pairs.append((i, j))
            i, j = i + 1, j + 1
        while i < i_end and j < j_end and before[i_end - 1] == after[j_end - 1]:
            i_end, j_end = i_end - 1, j_end - 1
            pairs.append((i_end, j_end))
        left -= i_end - i + j_end - j
        if i == i_end or j == j_end or left < 0:
            continue
        found = _pairs_in(before, after, _Span(i, i_end, j, j_end, passes))
        if found:
            pairs.extend(found)
            spans.extend(_between(found, _Span(i, i_end, j, j_end, passes + 1)))
    return sorted(pairs)


def _between(pairs: Sequence[Pair], span: _Span) -> Iterator[_Span]:
    """The parts of a span between pairs of matched lines that have lines of both texts."""
    i, j = span.i, span.j
    for x, y in chain(pairs, [(span.i_end, span.j_end)]):
        if i < x and j < y:
            yield _Span(i, x, j, y, span.passes)
        i, j = x + 1, y + 1


def _pairs_in(before: Sequence[bytes], after: Sequence[bytes], span: _Span) -> list[Pair]:
    """Pairs of equal lines of a part, in the order of both: none if there are none."""
    if span.passes < _PASSES_OF_SINGLE_LINES:
        single = _rising(_single_lines(before, after, span))
        if single:
            return single
    if span.pairs <= _MOST_COMPARED:
        return _longest_common(before, after, span)
    return _rising(_lines_by_turns(before, after, span))


def _single_lines(before: Sequence[bytes], after: Sequence[bytes], span: _Span) -> list[Pair]:
    """The lines that occur once in both parts."""
    others = _once(after, span.j, span.j_end)
    return [(i, others[line]) for line, i in _once(before, span.i, span.i_end).items() if line in others]


def _once(lines: Sequence[bytes], start: int, end: int) -> dict[bytes, int]:
    """The places of the lines that occur once, in their order."""
    found: dict[bytes, int] = {}
    for place in range(start, end):
        found[lines[place]] = -1 if lines[place] in found else place
    return {line: place for line, place in found.items() if place >= 0}


def _lines_by_turns(before: Sequence[bytes], after: Sequence[bytes], span: _Span) -> list[Pair]:
    """The first, second, .. line of one part with the first, second, .. of the other one that equals it."""
    places: dict[bytes, list[int]] = defaultdict(list)
    for j in range(span.j_end - 1, span.j - 1, -1):
        places[after[j]].append(j)
    return [(i, places[before[i]].pop()) for i in range(span.i, span.i_end) if places.get(before[i])]


def _longest_common(before: Sequence[bytes], after: Sequence[bytes], span: _Span) -> list[Pair]:
    """A longest list of pairs, by a table with a place for each two lines."""
    i, i_end, j, j_end, _ = span
    width = j_end - j
    lengths = [[0] * (width + 1)]  # of the lists of the last lines, from no line of the first part up to all
    for x in range(i_end - 1, i - 1, -1):
        line, below, row = before[x], lengths[-1], [0] * (width + 1)
        for y in range(width - 1, -1, -1):
            if line == after[j + y]:
                row[y] = below[y + 1] + 1
            else:
                row[y] = row[y + 1] if row[y + 1] > below[y] else below[y]
        lengths.append(row)
    pairs: list[Pair] = []
    x, y = i, 0
    while x < i_end and y < width:
        left = i_end - x
        if before[x] == after[j + y]:
            pairs.append((x, j + y))
            x, y = x + 1, y + 1
        elif lengths[left - 1][y] >= lengths[left][y + 1]:
            x += 1
        else:
            y += 1
    return pairs


def _rising(pairs: Sequence[Pair]) -> list[Pair]:
    """The longest part of pairs, whose first numbers rise, in which the second numbers rise too."""
    ends: list[int] = []  # the least second number with which a rising part of each length ends
    last: list[int] = []  # the pair that has it
    before: list[int] = []  # for each pair, the one before it in the part that it ends
    for number, (_, j) in enumerate(pairs):
        length = bisect_left(ends, j)
        before.append(last[length - 1] if length else -1)
        ends[length : length + 1] = [j]
        last[length : length + 1] = [number]
    found: list[Pair] = []
    number = last[-1] if last else -1
    while number >= 0:
        found.append(pairs[number])
        number = before[number]
    return found[::-1]
