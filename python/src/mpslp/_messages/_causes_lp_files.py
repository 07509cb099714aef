"""Rules for LP: whole files that something was done to, or that are of another language: marks at each line, line ends
that are written as characters, two models.
"""

from __future__ import annotations

import re
from collections.abc import Iterator
from typing import NamedTuple

from mpslp._messages._case import FOUND, Case, Found
from mpslp._messages._causes_both import Rule, conflict_marker
from mpslp._messages._lp_trials import is_accepted, lines_read
from mpslp._text._lp_words import SENSES

_MOST_READ = 2**20
"""Only a text of so many bytes is read again as a whole."""
_HEAD = 4_000
_FEWEST = 4
"""So many lines have to have the same mark."""
_SHARE = 0.9
_NUMBERED = re.compile(rb"[ \t]*(\d+)[ \t]*[:.)|]?(?:[ \t]+|$)")
_PREFIXES = (
    rb"[ \t]*>+[ \t]?",
    rb"\+",
    rb"-(?!-)",
    rb"[ \t]*\|[ \t]?",
    rb"[ \t]*\$[ \t]",
    rb"[ \t]*\*[ \t]",
    rb"[ \t]*//+[ \t]?",
    rb"[ \t]*#+[ \t]?",
    rb"[ \t]*%[ \t]?",
    rb"[ \t]*;[ \t]?",
    rb"[ \t]*&[ \t]?",
    rb"[ \t]*@[ \t]?",
    rb"(?:\w+[ \t]?)?>>>?[ \t]?",
    rb"[ \t]*!+[ \t]?",
    rb"[ \t]*~[ \t]?",
    rb"[ \t]*['\"`]",
    rb"[ \t]*\[\d+\][ \t]?",
    rb"[ \t]*<(?:p|li|td|code)>",
)
_SUFFIXES = (
    rb"[ \t]*\\n['\"]?[+,]?[ \t]*",
    rb"[ \t]*,{2,}[ \t]*",
    rb"[ \t]*;+[ \t]*",
    rb"[ \t]*\|[ \t]*",
    rb"[ \t]*,[ \t]*",
    rb"[ \t]*<br[ /]*>",
    rb"['\"`],?[ \t]*",
    rb"[ \t]*\$+[ \t]*",
    rb"[ \t]*</(?:p|li|td|code)>",
)
_DIFF = re.compile(rb"(?:diff |Index: |--- \S+[^\n]*\n\+\+\+ |\+\+\+ \S|@@ -\d)")
_FENCE = re.compile(rb"\s*(```+|~~~+)[ \t]*\w*[ \t]*\r?\n")


# ---- the same mark at each line


class _Marks(NamedTuple):
    """What is at the start and at the end of lines, as a pattern for each, and an example of it."""

    start: bytes
    end: bytes
    shown: str


def mark_at_each_line(case: Case) -> Found | None:
    """A prefix or a suffix that nearly all lines have, and without which more lines can be read."""
    if len(case.content) > _MOST_READ:
        return None
    for marks in _marks(case.content):
        text = _without(case.content, marks)
        if lines_read(case, text) > max(case.line.number + 1, case.content.count(b"\n") // 2) or is_accepted(
            case, text
        ):
            place = "start" if marks.start else "end"
            place = "start and at the end" if marks.start and marks.end else place
            return Found(f"{marks.shown} is at the {place} of each", mend=_first_line(text), means_other=True)
    return None


def _marks(content: bytes) -> Iterator[_Marks]:
    lines = [line for line in content[: 2**16].splitlines() if line.strip()]
    if len(lines) < _FEWEST:
        return
    starts = [pattern for pattern in _PREFIXES if _have(lines, pattern + rb".*")]
    ends = [pattern for pattern in _SUFFIXES if _have(lines, rb".*?" + pattern)]
    if _are_numbered(lines):
        yield _Marks(_NUMBERED.pattern, b"", "its number")
    for start in starts:
        for end in ends:
            yield _Marks(start, end, f"{_example(lines, start + b'|', 0)} .. {_example(lines, end + b'$', -1)}")
        yield _Marks(start, b"", _example(lines, start, 0))
    for end in ends:
        yield _Marks(b"", end, _example(lines, end + b"$", -1))


def _have(lines: list[bytes], pattern: bytes) -> bool:
    """Whether a pattern fits nearly all lines."""
    fits = re.compile(pattern)
    return sum(fits.fullmatch(line) is not None for line in lines) >= _SHARE * len(lines)


def _are_numbered(lines: list[bytes]) -> bool:
    """Whether lines start with numbers that grow, for the most part by one."""
    numbers = [int(match[1][:9]) for line in lines if (match := _NUMBERED.match(line))]
    steps = sum(second - first in (1, 2) for first, second in zip(numbers, numbers[1:]))
    return len(numbers) >= _SHARE * len(lines) and steps >= _SHARE * (len(numbers) - 1)


def _example(lines: list[bytes], pattern: bytes, at: int) -> str:
    match = re.search(pattern, lines[at]) if at else re.match(pattern, lines[at])
    return "" if match is None else match[0].decode("latin-1").strip()


def _without(content: bytes, marks: _Marks) -> bytes:
    text = re.sub(rb"(?m)^" + marks.start, b"", content) if marks.start else content
    return re.sub(marks.end + rb"(?=\r?$)", b"", text, flags=re.M) if marks.end else text


def _first_line(text: bytes) -> str:
    """The first line of a text that is no comment."""
    lines = (line.strip().decode("latin-1") for line in text[:_HEAD].splitlines())
    return next((line for line in lines if line and line[0] != "\\"), "")


def escaped_lines(case: Case) -> Found | None:
    r"""The two characters \n, where lines have to end."""
    content = case.content
    if len(content) > _MOST_READ or content.count(b"\\n") <= content.count(b"\n") + 1:
        return None
    text = content.replace(b"\\r\\n", b"\n").replace(b"\\n", b"\n").replace(b"\\t", b"\t").strip(b" \t\r\n\"'")
    return (
        Found(mend=_first_line(text), means_other=True)
        if lines_read(case, text) > _FEWEST or is_accepted(case, text)
        else None
    )


# ---- text before the model, and after it


def diff_of_model(case: Case) -> Found | None:
    return FOUND if _DIFF.match(case.content.lstrip()) else None


def markdown_fence(case: Case) -> Found | None:
    """A line with three backquotes before the model."""
    match = _FENCE.match(case.content)
    return None if match is None else Found(marks=(case.mark_at(*match.span(1)),), moves=True)


def two_models(case: Case) -> Found | None:
    """At a second sense another text starts that can be read."""
    if case.words.lower() not in SENSES or len(case.content) > _MOST_READ:
        return None
    if (
        case.token is None
        or case.token.line != case.line.number
        or not is_accepted(case, case.content[case.line.start :])
    ):
        return None
    return Found(f"the second starts in line {case.line.number}", marks=(case.mark_of_tokens([case.token]),))


RULES: tuple[Rule, ...] = (conflict_marker, escaped_lines, diff_of_model, markdown_fence, mark_at_each_line, two_models)
