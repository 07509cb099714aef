#!/usr/bin/env python3
"""Check that docs/DIALECTS-ROWS.md is made of docs/adapt.tsv and docs/portable.tsv: dialect_rows.py [--write]

With --write the page is written. Exits with 1 if it is another one, or if docs/DIALECTS.md does not name a kind.
"""

import sys

from adapt_rules import LEFT_OR_NOTED, rows, table_line
from portable_rules import TABLE as REMARKS
from portable_rules import table_line as remark_line
from repository import ROOT

PAGE = ROOT / "docs" / "DIALECTS-ROWS.md"
KINDS_PAGE = ROOT / "docs" / "DIALECTS.md"
FORMATS = {"mps": "MPS", "lp": "LP"}
INTRODUCTION = """\
# Files of other dialects: each rule with an example

The examples of [DIALECTS](DIALECTS.md): what `mpslp-tools adapt` changes, what it leaves and what it notes, and what \
`check --portable` reports. `mpslp-tools explain KIND` prints those of one kind. Each is a tested part of a file. The \
page is made of [adapt.tsv](adapt.tsv) and [portable.tsv](portable.tsv) by `python/tests/dialect_rows.py --write`.
"""
# The headings, the kind of rows ("" for changes), and the heads of their tables.
CHANGES = "| kind | dialect | before | after | what is done |\n|---|---|---|---|---|"
LEFT = "| line | reason, and what to do |\n|---|---|"
NOTES = "| line | what it may be |\n|---|---|"
DIFFERENT = "| kind | example | what mpslp reads | what others read | what to do |\n|---|---|---|---|---|"


def kind_of(row):
    """The kind of a row that is no change, or an empty text."""
    return row["kind"] if row["kind"] in LEFT_OR_NOTED else ""


def parts():
    """The headings with the lines of their tables."""
    left, noted = LEFT_OR_NOTED
    for heading, kind, head in (("Changes in", "", CHANGES), ("Left in", left, LEFT), ("Notes in", noted, NOTES)):
        for form, name in FORMATS.items():
            yield f"{heading} {name}", head, [
                table_line(row) for row in rows() if row["format"] == form and kind_of(row) == kind
            ]
    for form, name in FORMATS.items():
        yield f"Read differently in {name}", DIFFERENT, [
            remark_line(row) for row in rows(REMARKS) if row["format"] == form
        ]


def page():
    return INTRODUCTION + "".join(
        f"\n## {heading}\n\n{head}\n" + "".join(f"{line}\n" for line in lines) for heading, head, lines in parts()
    )


def kinds_without_name():
    """The kinds of changes and of readings that the page for readers does not name."""
    named = KINDS_PAGE.read_text(encoding="utf-8")
    kinds = {row["kind"] for row in (*rows(), *rows(REMARKS)) if not kind_of(row)}
    return sorted(kind for kind in kinds if f"`{kind}`" not in named)


def main():
    made = page()
    if sys.argv[1:] == ["--write"]:
        PAGE.write_text(made, encoding="utf-8")
    is_same = PAGE.exists() and PAGE.read_text(encoding="utf-8") == made
    missing = kinds_without_name()
    print(*(f"{KINDS_PAGE.name} does not name {kind}" for kind in missing), sep="\n", end="\n" if missing else "")
    print(f"{PAGE.name} is {'what the tables make' if is_same else 'another page: write it with --write'}")
    return 0 if is_same and not missing else 1


if __name__ == "__main__":
    sys.exit(main())
