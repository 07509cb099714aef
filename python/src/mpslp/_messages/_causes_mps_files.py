"""Rules for whole files that are nearly MPS: with a prefix on each line, with text before the model, with two models;
and for files of other formats that start as MPS does.
"""

from __future__ import annotations

import re
from collections.abc import Sequence
from itertools import count

from mpslp import _mpslp
from mpslp._errors._faults import ModelFileError
from mpslp._messages._case import Case, Found
from mpslp._messages._causes_both import Rule
from mpslp._messages._place import section_before
from mpslp._text._mps_words import HEADERS

_MOST_READ = 2**16
_MOST_BEFORE = 200
"""A model is looked for after so many lines of other text."""
_LEAST_LINES = 3
_NEAR = 0.7
"""How near a word is to the header that it means, on the scale of difflib."""
_START = re.compile(rb"(?:NAME\b[^\n]*|OBJSENSE\b[^\n]*|ROWS[ \t\r]*)(?:\n|$)")
_NUMBERED = re.compile(rb"(?:[^\s:]+:)?[ \t]*[(\[]?(\d+)\]?[:.)|\t]?")
_QUOTED = re.compile(rb"[\"'](.*)[\"'][,;]?")
_WITH_OTHERS_AFTER = ("NAME", "OBJSENSE", "OBJNAME", "ROWS", "COLUMNS")
_PATCH = re.compile(rb"(?m)^(?:diff --git |@@ -\d+|Index: |--- [^\n]+\n\+\+\+ )")
_BASIS = ("XU", "XL", "UL", "LL", "BS")
_FORMATS = (
    (
        "a pseudo-Boolean model (OPB)",
        rb"\*[ \t]*#variable=|(?:\*[^\n]*\n)*(?:min|max)?:?[ \t]*(?:[+-]\d+[ \t]+~?x\d+[ \t]*)+",
    ),
    ("a model of MOSEK (OPF)", rb"\s*\[(?:comment|variables|objective|constraints|bounds)\b"),
    (
        "a model in the LP language of lp_solve, or a pseudo-Boolean one (OPB)",
        rb"(?is)(?:/\*.*?\*/|//[^\n]*\n|\s)*(?:max|min)(?:imi[sz]e)?[ \t]*:[^;]*;",
    ),
    ("the solution of a solver", rb"NAME[^\n]*\nSOLUTION\b"),
    ("a model of SCIP (CIP)", rb"STATISTICS\s*\n"),
    ("a model of LINGO", rb"(?i)\s*(?:!?[^\n]*\n)?\s*model:\s"),
    ("a conic model (CBF)", rb"(?:#[^\n]*\n|\s)*VER[ \t]*\r?\n[ \t]*\d"),
    ("a graph or a formula of DIMACS", rb"(?:c[^\n]*\n)*p[ \t]+\w+[ \t]+\d+"),
    ("a model of ZIMPL", rb"(?:#[^\n]*\n|\s)*(?:set|param|var)[ \t]+\w+[^\n]*(?::=|>=|<=|;)"),
    ("a stochastic model (SMPS)", rb"(?:\*[^\n]*\n)*(?:TIME|STOCH)[ \t]+\S"),
    (
        "the solution of a solver",
        rb"(?i)\s*(?:problem(?: name)?:|status:|model status|model name|result\b|optimal\b|objective value|"
        rb"value of objective|"
        rb"actual values|solution\b|solution file|primal (?:solution|objective)|# *primal|=obj=|no\.[ \t]+row name|"
        rb"column name|variable name|\"?(?:variable|column|name)\"?[ \t,;]+\"?value)",
    ),
)
"""What starts files of other formats that have no mark of their own."""
_COMPILED = tuple((what, re.compile(start)) for what, start in _FORMATS)
_VALUE_LINE = re.compile(rb"[A-Za-z_][^\s]*[ \t]+[+-]?\d[\d.eE+-]*[ \t]*\r?")


def reads(text: bytes, line: int) -> bool:
    """Whether the start of a text has no error up to a line."""
    head = text[:_MOST_READ]
    if len(head) < len(text):
        head = head[: head.rfind(b"\n") + 1]
    try:
        _mpslp.is_canonical(head, _mpslp.MPS)
    except ModelFileError as error:
        return error.line is None or error.line > line
    return True


def near_header(word: str) -> str | None:
    """The header that a word is nearly."""
    from difflib import get_close_matches  # for files that are rejected only

    return next(iter(get_close_matches(word.upper(), HEADERS, 1, _NEAR)), None) if word[:1].isalpha() else None


# ---- each line


def prefixed_lines(case: Case) -> Found | None:
    """The same text before or after each line, or a number, without which the file is MPS."""
    lines = case.content[:_MOST_READ].split(b"\n")[:-1] if len(case.content) > _MOST_READ else case.content.split(b"\n")
    lines = [line.rstrip(b"\r") for line in lines]
    if sum(1 for line in lines if line.strip()) < _LEAST_LINES:
        return None
    for find in (_prefix, _numbers, _quotes, _suffix):
        found = find(lines)
        if found is not None and reads(b"\n".join(found[0]), max(case.line.number, _LEAST_LINES)):
            return Found(found[1], found[2], means_other=True)
    return None


_Edited = tuple[list[bytes], str, str]
"""The lines without it, what it is, and the command that removes it."""


def _prefix(lines: list[bytes]) -> _Edited | None:
    prefix = _common_start([line for line in lines if line.strip()])
    full = [line for line in lines if line.strip() != prefix.strip()]
    prefix = _common_start([line for line in full if line.strip()])
    if not prefix:
        return None
    without = [line[len(prefix) :] for line in lines]
    what = (
        f"{len(prefix)} spaces" if not prefix.strip(b" ") else "a tab" if prefix == b"\t" else prefix.decode("latin-1")
    )
    ends = _suffix(without) if prefix.strip() else None
    if ends is not None:
        return ends[0], f"each line starts with {what.strip()}, and ends with {ends[1].split()[-1]}", ""
    return without, f"each line starts with {what.strip()}", f"cut -c{len(prefix) + 1}- FILE"


def _common_start(lines: Sequence[bytes]) -> bytes:
    """What all lines start with."""
    least, most = min(lines, default=b""), max(lines, default=b"")
    return least[: next((at for at, (one, other) in enumerate(zip(least, most)) if one != other), len(least))]


def _suffix(lines: list[bytes]) -> _Edited | None:
    full = [line.rstrip() for line in lines if line.strip()]
    suffix = _common_start([line[::-1] for line in full])[::-1].lstrip()
    suffix = suffix if suffix and not suffix[:1].isalnum() else b""
    if not suffix:
        return None
    without = [line.rstrip().removesuffix(suffix).rstrip() for line in lines]
    return without, f"each line ends with {suffix.decode('latin-1')}", ""


def _numbers(lines: list[bytes]) -> _Edited | None:
    """Numbers of lines, one after another."""
    matches = [_NUMBERED.match(line) for line in lines if line.strip()]
    numbers = [None if match is None else int(match[1]) for match in matches]
    if None in numbers or any(one != other for one, other in zip(numbers, count(numbers[0] or 0))):
        return None
    return _dedented([_NUMBERED.sub(b"", line, 1) for line in lines]), "each line starts with its number", ""


def _dedented(lines: list[bytes]) -> list[bytes]:
    """The lines without the spaces that all have at their start."""
    prefix = _common_start([line for line in lines if line.strip()])
    return [line[len(prefix) - len(prefix.lstrip()) :] for line in lines]


def _quotes(lines: list[bytes]) -> _Edited | None:
    matches = [_QUOTED.fullmatch(line.strip()) for line in lines]
    if not all(match or not line.strip() for match, line in zip(matches, lines)):
        return None
    return [b"" if match is None else match[1] for match in matches], "each line is in quotes", ""


# ---- parts of the file


def patch_file(case: Case) -> Found | None:
    match = _PATCH.search(case.content[:_MOST_READ])
    return None if match is None or match.start() > case.line.start else Found()


def text_before(case: Case) -> Found | None:
    """Lines that are no MPS, before a model."""
    if case.section or case.texts[0] in HEADERS:
        return None
    is_misspelt = near_header(case.texts[0]) is not None
    place, number = case.line.start, case.line.number
    while (place := case.content.find(b"\n", place) + 1) and number < case.line.number + _MOST_BEFORE:
        number += 1
        if _START.match(case.content, place) and reads(case.content[place : place + _MOST_READ + 1], _LEAST_LINES):
            if is_misspelt and number == case.line.number + 1:
                return None
            words = case.content[place : place + 40].split()[0].decode()
            return Found(
                f"the model starts in line {number}, with {words}", f"tail -n +{number} FILE", means_other=True
            )
    return None


def second_model(case: Case) -> Found | None:
    """A header that starts a model, after the sections of another one."""
    is_start = case.is_header and _START.match(case.content, case.line.start) is not None
    if not is_start or "COLUMNS" not in case.content[: case.line.start].decode("latin-1"):
        return None
    tail = case.content[case.line.start : case.line.start + _MOST_READ + 1]
    return Found("no ENDATA is before it") if reads(tail, _LEAST_LINES) else None


# ---- other formats


def basis_file(case: Case) -> Found | None:
    """A line of a basis under NAME: XU, XL, UL, LL or BS and a column."""
    is_line = case.section in ("", "NAME") and not case.is_header and case.texts[0] in _BASIS
    return Found(f"{case.texts[0]} gives the state of {case.texts[-1]}") if is_line else None


def other_format(case: Case) -> Found | None:
    if case.section not in ("", "NAME") or re.search(rb"(?m)^ROWS\b", case.content[:_MOST_READ]):
        return None
    head = case.content[:_MOST_READ]
    found = next((what for what, start in _COMPILED if start.match(head)), None)
    if found is None and _are_values(head):
        found = "a list of names and values, such as the solution of a solver"
    return None if found is None else Found(f"it is {found}")


def _are_values(head: bytes) -> bool:
    lines = [line for line in head.split(b"\n")[: _LEAST_LINES * 3] if line.strip() and line[:1] not in b"#*"]
    return len(lines) >= _LEAST_LINES and all(_VALUE_LINE.fullmatch(line.strip()) for line in lines[1:])


# ---- the end


def cut_in_section(case: Case) -> Found | None:
    """A text without its end, of which the last section is one that others come after."""
    section = section_before(case.content, len(case.content))
    return Found(f"its last section is {section}") if section in _WITH_OTHERS_AFTER else None


RULES: tuple[Rule, ...] = (patch_file, prefixed_lines, basis_file, other_format, second_model, cut_in_section)
