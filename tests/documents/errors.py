#!/usr/bin/env python3
"""Write what is made of docs/errors.tsv: `python3 tests/documents/errors.py --write`

That is the table of errors in docs/ERRORS-ROWS.md, and the section DIAGNOSTICS of docs/mpslp.1; docs_check.py compares
them.
"""

import re
import sys
from pathlib import Path

sys.path.insert(0, str(Path(__file__).resolve().parents[1]))

from shared.error_causes import causes, plain

ROOT = Path(__file__).resolve().parents[2]
PAGE = ROOT / "docs" / "ERRORS-ROWS.md"
ORDER = ROOT / "docs" / "ERRORS.md"
"""The page with the order of the kinds."""
MANUAL = ROOT / "docs" / "mpslp.1"
TABLE_HEAD = "| kind | cause | fix | example |\n|---|---|---|---|\n"
MANUAL_INTRODUCTION = (
    "The kind of an error, its usual causes, and what to do.",
    "If the error is in the last line of the file, whatever its kind, the file is probably truncated.",
    "In LP, an error may be reported in a line after the mistake, since line breaks have no meaning there.",
)


def table():
    """The rows of the table of errors."""
    rows, last = [], None
    for cause in causes():
        name = f"`{cause.kind}`" if cause.kind != last else ""
        cells = (name, cause.cause, cause.fix, cause.example())
        rows.append("".join(f"| {cell} " if cell else "| " for cell in cells).rstrip() + " |\n")
        last = cause.kind
    return "".join(rows)


def sentence(text):
    return text[0].upper() + text[1:] + "."


def roff(text):
    text = plain(text).replace("\\", "\\e").replace("-", "\\-").replace("'", "\\(aq")
    return "\\&" + text if text.startswith(".") else text


def manual():
    """The section of the manual page."""
    lines, last = [".SH DIAGNOSTICS\n", *(f"{line}\n" for line in MANUAL_INTRODUCTION)], ("", "")
    for cause in causes():
        if (cause.kind, cause.cause) != last:
            lines.append(f".TP\n.B {cause.kind}\n" if cause.kind != last[0] else ".br\n")
            lines.append(f"{roff(sentence(cause.cause))}\n{roff(sentence(cause.fix))}\n")
        last = (cause.kind, cause.cause)
    return "".join(lines)


def put(text, made, start, end):
    """The text with the part between two patterns replaced."""
    first = re.search(start, text)
    last = re.compile(end, re.M).search(text, first.end())
    return text[: first.start()] + made + text[last.start() :]


def pages():
    """The required text of each page."""
    return {
        PAGE: put(PAGE.read_text(), TABLE_HEAD + table(), re.escape(TABLE_HEAD), r"^(?!\|)"),
        MANUAL: put(MANUAL.read_text(), manual(), r"\.SH DIAGNOSTICS\n", r"^\.SH "),
    }


if __name__ == "__main__":
    if sys.argv[1:] != ["--write"]:
        sys.exit(__doc__)
    for path, text in pages().items():
        path.write_text(text)
