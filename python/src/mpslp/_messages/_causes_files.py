"""Rules for files that are no model files of MPS or LP: pages, tables, archives, pictures, models
in other languages.
"""

from __future__ import annotations

import re

from mpslp._messages._case import FOUND, Case, Found
from mpslp._messages._causes_both import Rule
from mpslp._messages._causes_lp import colon_after_keyword
from mpslp._text._lp_words import ROWS, SENSES, SPELLINGS

_MOST_READ = 4_000
_ZIP = b"PK\x03\x04"
_STARTS = {
    b"\x89PNG": "a picture (PNG)",
    b"\xff\xd8\xff": "a picture (JPEG)",
    b"GIF8": "a picture (GIF)",
    b"%PDF": "a PDF",
    b"\x7fELF": "a program (ELF)",
    b"MZ\x90": "a program of Windows",
    b"\xd0\xcf\x11\xe0": "a document of Excel or Word",
    b"SQLite format 3": "a database (SQLite)",
    b"7z\xbc\xaf\x27\x1c": "an archive (7z)",
    b"Rar!": "an archive (RAR)",
    b"\x89HDF": "a file of HDF5",
    b"{\\rtf": "a document of Word (RTF)",
}
_MPS = re.compile(rb"(?:\*[^\n]*\n|\s)*(?:NAME|ROWS|OBJSENSE|OBJNAME)\b")
_MPS_ROWS = re.compile(rb"(?m)^[ \t|>\"]*ROWS\b")
_STATEMENT_OF_OTHERS = re.compile(rb"[^\n:;]*:[^;]*;")
_FIRST_WORD = re.compile(rb"(?:\s|\\[^\n]*\n)*([A-Za-z]+)")
_TAR = slice(257, 262)
_HTML = re.compile(rb"\s*<(?:!doctype\s+html|html|head|body)\b", re.IGNORECASE)
_TITLE = re.compile(rb"<title>\s*([\w .,:'-]{1,60}?)\s*</title>", re.IGNORECASE)
_XML = re.compile(rb"\s*<(?:\?xml\b|[A-Za-z])")
_JSON = re.compile(rb"\s*(?:\{\s*[\"}]|\[\s*(?:[\[{\"]|-?\d[\d.eE+-]*\s*,))")
_LFS = re.compile(rb"version https://git-lfs\.github\.com/spec")
_NL = re.compile(rb"[gb]\d+(?: \d+)+[ \t]*(?:#[^\n]*)?\r?\n[ \t]*\d+ \d+")
_STATEMENT = re.compile(
    rb"(?m)^[ \t]*(?:set[ \t]+\w+|param[ \t]+\w+|var[ \t]+(?:int|float|bool|\w+[ \t]*(?:[{;>=<,]|binary|integer))|"
    rb"s\.t\.[ \t]+\w+[ \t]*[:{]|subject[ \t]+to[ \t]+\w+[ \t]*[:{]|"
    rb"(?:min|max)imi[sz]e[ \t]+\w+[ \t]*:|dvar\b|constraint\b|"
    rb"(?:Positive[ \t]+|Free[ \t]+|Binary[ \t]+)?Variables?[ \t]+\w|"
    rb"Equations?[ \t]+\w|Model[ \t]+\w+[ \t]*/)[^\n]*;?"
)
_SOURCE = re.compile(
    rb"(?m)^(?:import[ \t]+\w[\w.]*|from[ \t]+[\w.]+[ \t]+import\b|using[ \t]+JuMP|#include\b|library\()"
)
_SOLUTION = re.compile(
    rb"(?i)\s*(?:#[ \t]*(?:solution for model|objective value)|"
    rb"(?:optimal|infeasible|unbounded)[ \t]*-[ \t]*objective value|"
    rb"solution status:|=obj=|\\?[ \t]*objective value[ \t]*[:=])"
)
_CELLS = re.compile(rb"[^\n]*?([,;\t])[^\n]*?\1")


def zip_archive(case: Case) -> Found | None:
    return FOUND if case.content.startswith(_ZIP) else None


def other_file(case: Case) -> Found | None:
    found = next((what for start, what in _STARTS.items() if case.content.startswith(start)), None)
    found = "an archive (tar)" if found is None and case.content[_TAR] == b"ustar" else found
    return None if found is None else Found(f"it is {found}")


def html(case: Case) -> Found | None:
    if not _HTML.match(case.content):
        return None
    title = _TITLE.search(case.content[:_MOST_READ])
    return Found("" if title is None else f"its title is {title[1].decode()}")


def xml(case: Case) -> Found | None:
    return FOUND if _XML.match(case.content) else None


def json(case: Case) -> Found | None:
    return FOUND if _JSON.match(case.content) else None


def git_lfs(case: Case) -> Found | None:
    return FOUND if _LFS.match(case.content) else None


def nl_file(case: Case) -> Found | None:
    return FOUND if _NL.match(case.content) else None


def solution_file(case: Case) -> Found | None:
    return FOUND if _SOLUTION.match(case.content) else None


def modelling_language(case: Case) -> Found | None:
    """A statement of AMPL, MathProg, GAMS, MiniZinc or OPL among the first lines, with a semicolon; or a line of a
    program.
    """
    head = case.content[:_MOST_READ]
    statement = _STATEMENT.search(head)
    if statement is not None and b";" in head:
        return Found(marks=(case.mark_at(*statement.span()),), moves=True)
    source = _SOURCE.match(head)
    return None if source is None else Found("it is a program", marks=(case.mark_at(*source.span()),), moves=True)


def table(case: Case) -> Found | None:
    """The first two lines have the same number of cells, three or more, between the same marks."""
    if case.is_mps and _MPS_ROWS.search(case.content[:_MOST_READ]):
        return None
    lines = case.content[:_MOST_READ].lstrip().splitlines()[:2]
    match = _CELLS.match(lines[0]) if len(lines) == 2 else None
    if match is None or case.line.number > 2:
        return None
    return FOUND if lines[0].count(match[1]) == lines[1].count(match[1]) else None


# ---- files of another format, or of the language of lp_solve


def mps_as_lp(case: Case) -> Found | None:
    return FOUND if not case.is_mps and _MPS.match(case.content) else None


def lp_solve_statements(case: Case) -> Found | None:
    """A colon after the sense, and a semicolon after the objective."""
    if (
        case.is_mps
        or colon_after_keyword(case) is None
        or b";" not in case.content[case.line.start : case.line.start + 2000]
    ):
        return None
    before = case.before()
    return FOUND if before is not None and before.word in SENSES else None


def lp_solve_comment(case: Case) -> Found | None:
    before, token = case.before(), case.token
    return (
        FOUND
        if not case.is_mps
        and b";" in case.content[:_MOST_READ]
        and before
        and token
        and token.text == "*"
        and before.text.endswith("/")
        and before.end == token.start
        else None
    )


def lp_as_mps(case: Case) -> Found | None:
    """The first word of the text is that of an LP file."""
    match = _FIRST_WORD.match(case.content[: case.line.start + 200]) if case.is_mps else None
    if match is not None and _STATEMENT_OF_OTHERS.match(case.content[: case.line.start + _MOST_READ], match.start(1)):
        return None
    return FOUND if match is not None and match[1].decode().lower() in (*SENSES, *SPELLINGS[ROWS]) else None


RULES: tuple[Rule, ...] = (
    zip_archive,
    other_file,
    html,
    xml,
    json,
    git_lfs,
    nl_file,
    solution_file,
    lp_solve_statements,
    lp_solve_comment,
    modelling_language,
    table,
    mps_as_lp,
    lp_as_mps,
)
