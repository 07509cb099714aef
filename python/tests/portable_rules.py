#!/usr/bin/env python3
"""Check each rule of check --portable on its examples in docs/portable.tsv.

A row of the table has a format, the part of a file that the example is, the kind of
the remark, the part that has it, a part that other programs read as mpslp does, the
programs that read something else or reject it, what mpslp and others read, and what to do.
The part is put into the small file of adapt_rules.py: all remarks on it have to be of the
kind, with these programs, and on lines of the part. On the other part there must be none.
Every kind has an example in each format that it is for.

With the program, both have to be accepted. Each row of the table has to be in
docs/DIALECTS-ROWS.md.

With --wrong the rules are made wrong one by one, as portable_wrong.tsv says: the
examples have to find each.
"""

import sys

from adapt_package import KINDS, remarks_of
from adapt_rules import ROOT, check_of_kinds, conclude, framed, is_read, parser_of, shown, unescaped, wrong_rules

TABLE = ROOT / "docs" / "portable.tsv"
WRONG = ROOT / "python" / "tests" / "portable_wrong.tsv"
FORMATS = {"mps": 0, "lp": 1}  # the numbers of the library


def remarks(row, cell):
    text = framed(row, cell).replace(
        b"NAME  FRAME\n", b"NAME  FRAME  FREE\n"
    )  # which CoinUtils does not read in fixed columns
    return text.decode("latin-1").split("\n"), remarks_of(text, FORMATS[row["format"]])


def differences(row, program):
    """What is wrong with the remarks on an example."""
    lines, found = remarks(row, row["text"])
    if not found:
        yield "no remark"
    if {each.kind for each in found} - {row["kind"]}:
        yield f"other remarks: {'; '.join(map(str, found))}"
    if {frozenset(each.programs) for each in found} != {frozenset(row["programs"].split())}:
        yield f"other programs: {'; '.join(' '.join(each.programs) for each in found)}"
    part = [line.strip() for line in unescaped(row["text"]).split("\n") if line.strip()]
    yield from (f"on another line: {each}" for each in found if not any(line in lines[each.line - 1] for line in part))
    _, found = remarks(row, row["plain"])
    yield from (f"a remark on the other part: {each}" for each in found)
    for name in ("text", "plain") if program is not None else ():
        if not is_read(program, row["format"], framed(row, row[name])):
            yield f"the program rejects the {name}"


def check(program):
    return check_of_kinds(TABLE, KINDS, lambda row: differences(row, program))


def table_line(row):
    """The row of the page's tables for an example."""
    return f"| `{row['kind']}` | {shown(row['text'])} | {row['here']} | {row['others']} | {row['fix']} |"


def main():
    options = parser_of(__doc__).parse_args()
    return conclude(options, check, TABLE, table_line, lambda: wrong_rules(__file__, WRONG, "_portable"))


if __name__ == "__main__":
    sys.exit(main())
