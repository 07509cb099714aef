#!/usr/bin/env python3
"""Check each rule for a warning on its examples in docs/warnings.tsv.

A row of the table has a format, the part of a file that the example is, the kind of the warning, the part that has it,
a part that has none, what mpslp reads, and what to do. The part is put into the small file of adapt_rules.py: all
warnings about it have to be of the kind, and on lines of the part. About the other part there must be none. Every kind
has an example.

With the program, both have to be accepted. Each row of the table has to be in docs/ERRORS-ROWS.md.

With --wrong the rules are made wrong one by one, as warnings_wrong.tsv says: the examples have to find each.
"""

import sys

from adapt_package import WARNING_KINDS, warnings_in
from adapt_rules import ROOT, check_of_kinds, conclude, framed, is_read, parser_of, rows, shown, unescaped, wrong_rules

TABLE = ROOT / "docs" / "warnings.tsv"
PAGE = ROOT / "docs" / "ERRORS-ROWS.md"
WRONG = ROOT / "python" / "tests" / "warnings_wrong.tsv"
FORMATS = {"mps": 0, "lp": 1}  # the numbers of the library


def differences(row, program):
    """What is wrong with the warnings about an example."""
    text = framed(row, row["text"])
    found = warnings_in(text, FORMATS[row["format"]])
    if not found:
        yield "no warning"
    if {each.kind for each in found} - {row["kind"]}:
        yield f"other warnings: {'; '.join(map(str, found))}"
    lines, part = text.decode("latin-1").split("\n"), unescaped(row["text"]).split("\n")
    yield from (
        f"on another line: {each}" for each in found if lines[each.line - 1].strip() not in map(str.strip, part)
    )
    yield from (
        f"a warning about the other part: {each}"
        for each in warnings_in(framed(row, row["plain"]), FORMATS[row["format"]])
    )
    for name in ("text", "plain") if program is not None else ():
        if not is_read(program, row["format"], framed(row, row[name])):
            yield f"the program rejects the {name}"


def check(program):
    return check_of_kinds(TABLE, WARNING_KINDS, lambda row: differences(row, program))


def table_line(row):
    """The row of the page's table for an example."""
    return f"| `{row['kind']}` | {shown(row['text'])} | {row['here']} | {row['fix']} |"


def main():
    parser = parser_of(__doc__)
    parser.add_argument("--table", action="store_true", help="print the table of docs/ERRORS-ROWS.md")
    options = parser.parse_args()
    if options.table:
        print(*map(table_line, rows(TABLE)), sep="\n")
        return 0
    return conclude(options, check, TABLE, table_line, lambda: wrong_rules(__file__, WRONG, "_warnings"), page=PAGE)


if __name__ == "__main__":
    sys.exit(main())
