"""Rules for LP: what solvers print, and models in other languages, whose files are often named .lp, too."""

from __future__ import annotations

import re

from mpslp._messages._case import FOUND, Case, Found
from mpslp._messages._causes_both import Rule

_HEAD = 4_000
_OUTPUT = re.compile(
    rb"(?i)\s*(?:Model status\s|Problem:[^\n]*\n(?:Rows|Rows:)|#\s*=+\s*\n#\s*=\s*Solver "
    rb"Results|Value of objective function|"
    rb"Actual values of the|Problem name[ \t]*:|Variable Name\s+Solution Value|<\?xml[^>]*>\s*<CPLEXSolution)"
)


def solver_output(case: Case) -> Found | None:
    """What solvers print, or write to a file, of the result."""
    return FOUND if _OUTPUT.match(case.content) else None


_LANGUAGES = {
    "GAMS": (rb"^[ \t]*(?:(?:free|positive|binary|integer)[ \t]+)?variables?\b[^;]*;|\s=[leg]=\s", rb";"),
    "Mosel": (rb"\A\s*(?:![^\n]*\n\s*)*model\s+\S+\s+(?:uses|options|declarations)\b", b""),
    "LINGO": (
        rb"^[ \t]*model[ \t]*:|^[ \t]*\[?\w*\]?[ \t]*(?:min|max)[ \t]*=[^;]*;|@(?:gin|bin|free|for|sum|bnd)[ \t]*\(",
        rb";",
    ),
    "CIP, the format of SCIP": (rb"\A\s*STATISTICS\s|^[ \t]*\[(?:linear|integer|binary|continuous)\][ \t]*<", b""),
    "OPF": (rb"\A\s*(?:#[^\n]*\n\s*)*\[(?:comment|variables|objective|constraints|bounds)\b", b""),
    "OPB, a format of pseudo-Boolean models": (rb"\A\*[ \t]*#variable=", b""),
    "ZIMPL": (rb"^[ \t]*(?:subto[ \t]+\w+[ \t]*:|(?:min|max)imi[sz]e[ \t]+\w+[ \t]*:[ \t]*sum[ \t]*<)", b";"),
    "what PuLP prints of a model": (
        rb"\A[^\n]*:[ \t]*\r?\n(?:MINIMIZE|MAXIMIZE)[ \t]*\r?\n[^\n]*\n(?:[ \t]*\r?\n)?SUBJECT TO",
        b"",
    ),
    "what Pyomo prints of a model": (rb"\A\s*\d+ (?:Set|Param|Var|Objective|Constraint) Declarations", b""),
}
"""Languages by a pattern that their files have among the first lines, and a second one."""


def other_language(case: Case) -> Found | None:
    """A statement of another language among the first lines."""
    head = case.content[:_HEAD]
    for name, (pattern, second) in _LANGUAGES.items():
        match = re.search(pattern, head, re.I | re.M)
        if match is not None and re.search(second, head):
            first = match.group().split(b"\n")[0]
            start = match.start() + len(first) - len(first.lstrip())
            end = match.start() + max(len(first.rstrip()), len(first) - len(first.lstrip()) + 1)
            return Found(f"it is {name}", marks=(case.mark_at(start, end),), moves=True, means_other=True)
    return None


_LP_SOLVE = re.compile(
    rb"(?im)^[ \t]*(?:(?:min|max)(?:imi[sz]e|imum)?[ \t]*:[^;]*;|(?:int|sec|sin|free|"
    rb"declare|bin)[ \t]+(?!variables?\b)[\w, \t\n]+;)"
)


def lp_solve_statements(case: Case) -> Found | None:
    """A colon after the sense and a semicolon after the objective, or declarations with one, among the first lines."""
    match = _LP_SOLVE.search(case.content[:_HEAD])
    if match is None or case.content.count(b";", 0, _HEAD) < 2:
        return None
    first = match[0].lstrip().split(b"\n")[0].rstrip()
    start = match.end() - len(match[0].lstrip())
    return Found(marks=(case.mark_at(start, start + len(first)),), moves=True, means_other=True)


RULES: tuple[Rule, ...] = (solver_output, other_language, lp_solve_statements)
