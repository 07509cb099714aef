#!/usr/bin/env python3
"""Check each rule of adapt on its examples in docs/adapt.tsv.

A row of the table has a format, the part of a file that the example is, a dialect,
the kind of the change, the part before and after, and what the rule does. The part
is put into a small file, which is adapted. The text has to be the one with the part
after, all changes have to be of the kind, and adapting it again has to change
nothing. Rows of the kind "stop" are left with an error that contains the text; it may
start with the line. The dialect "header" is that of the program that the first lines of
the file name. Files of the kind "note" are accepted, with a note that contains the text.

With the program, what is before has to be rejected, unless a dialect is given, and
what is after has to be accepted. Each row of the table has to be in docs/DIALECTS-ROWS.md.

With --wrong the rules are made wrong one by one, as adapt_wrong.tsv says: the
examples have to find each, and each example has to find one.
"""

import argparse
import csv
import os
import re
import shutil
import subprocess
import sys
import tempfile
from concurrent.futures import ThreadPoolExecutor
from dataclasses import dataclass
from pathlib import Path

from adapt_package import AdaptError, adapt_text
from repository import ROOT

PROGRAM = ROOT / "crates" / "mpslp" / "out" / "mpslp"
TABLE = ROOT / "docs" / "adapt.tsv"
PAGE = ROOT / "docs" / "DIALECTS-ROWS.md"
WRONG = ROOT / "python" / "tests" / "adapt_wrong.tsv"
SOURCES = ROOT / "python" / "src" / "mpslp"
PROCESSES = 4
BY_HEADER = "header"
LEFT_OR_NOTED = ("stop", "note")
"""Kinds of examples that are no changes."""
MPS = """NAME  FRAME
{head}ROWS
 N  COST
 L  LIM
 G  LESS
{ROWS}COLUMNS
    X  COST  1  LIM  1
    Y  COST  2
{COLUMNS}    Z  LIM  1
RHS
    RHS  LIM  4
{RHS}{RANGES}BOUNDS
{first}{BOUNDS}{end}ENDATA
"""
LP = """minimize
 cost: {objective}
subject to
 c: x + y + z <= 10
 {rows}
bounds
 z <= 4
 {bounds}
{tail}end
"""


def rows(path=TABLE):
    with open(path, newline="", encoding="utf-8") as table:
        return list(csv.DictReader(table, delimiter="\t", quoting=csv.QUOTE_NONE))


def unescaped(cell):
    """A cell as bytes: it has UTF-8, and \\n, \\r, \\\\ and \\xNN for bytes."""
    latin = cell.encode("utf-8").decode("latin-1")
    for escape, byte in (
        ("\\\\", "\0"),
        ("\\n", "\n"),
        ("\\r", "\r"),
        ("\\x20", " "),
        ("\\x1a", "\x1a"),
        ("\\xa0", "\xa0"),
        ("\\xef\\xbb\\xbf", "\xef\xbb\xbf"),
        ("\0", "\\"),
    ):
        latin = latin.replace(escape, byte)
    return latin


def framed(row, cell):
    """The file that has the part."""
    part, text = row["part"], unescaped(cell)
    if part == "file":
        return text.encode("latin-1")
    if row["format"] == "lp":
        values = {
            "objective": "x + 2 y",
            "rows": "",
            "bounds": "",
            "tail": "",
            part: text + ("\n" if part == "tail" else ""),
        }
        return LP.format(**values).encode("latin-1")
    values = dict.fromkeys(("head", "ROWS", "COLUMNS", "RHS", "RANGES", "BOUNDS", "end"), "")
    values["first"] = "" if part == "BOUNDS only" else " LO  BND  X  1\n"
    values["BOUNDS" if part == "BOUNDS only" else part] = ("RANGES\n" if part == "RANGES" else "") + text + "\n"
    if part == "COLUMNS" and "Z  " in text:
        # The example has the last column, which the frame then has not.
        return MPS.replace("    Z  LIM  1\n", "").format(**values).encode("latin-1")
    return MPS.format(**values).encode("latin-1")


def said(row):
    """What adapt says of an example that it leaves or notes."""
    return unescaped(row["after"]).strip().encode("latin-1").decode("utf-8")


def differences(row, program):
    """What is wrong with the adapted text of an example."""
    before = framed(row, row["before"])
    try:
        done = adapt_text(before, row["format"], dialect_of(row))
    except AdaptError as error:
        if row["kind"] != "stop":
            yield f"left: {error}"
        elif said(row) not in str(error):
            yield f"left for another reason: {error}"
        return
    if row["kind"] == "stop":
        yield f"adapted, with {len(done.changes)} changes"
        return
    if row["kind"] == "note":
        if not any(said(row) in str(note) for note in done.notes):
            yield f"other notes: {[str(note) for note in done.notes]}"
        return
    if done.text != framed(row, row["after"]):
        yield f"adapted to {done.text!r}"
    kinds = {change.kind for change in done.changes}
    if kinds != {row["kind"]}:
        yield f"changes of the kinds {sorted(kinds)}"
    try:
        again = adapt_text(done.text, row["format"], dialect_of(row))
        if again.changes or again.text != done.text:
            yield f"adapted again to {again.text!r}"
    except AdaptError as error:
        yield f"left when it is adapted again: {error}"
    try:
        adapt_text(before, row["format"], dialect_of(row), strict=[row["kind"]])
        yield "no error although changes of its kind are not wanted"
    except AdaptError:
        pass
    if program is not None:
        if not is_read(program, row["format"], done.text):
            yield "the program rejects the adapted text"
        if not row["dialect"] and is_read(program, row["format"], before):
            yield "the program accepts the text as it is"


def dialect_of(row):
    """The dialect to give: none if the header of the file has to select it."""
    return None if row["dialect"] == BY_HEADER else row["dialect"] or None


def is_read(program, format, text):
    done = subprocess.run([program, "canon", format, "mps", "-"], input=text, capture_output=True)
    return done.returncode == 0


def wrong_rows(table, tried, differences_of):
    """What is wrong with the examples of a table, each after its place."""
    for number, row in tried:
        try:
            reported = list(differences_of(row))
        except Exception as error:  # a rule that is wrong may fail in any way
            reported = [f"{type(error).__name__}: {error}"]
        yield from (f"docs/{table.name}:{number}: {row['kind']}: {each}" for each in reported)


def numbered(tried):
    """The rows of a table with their lines."""
    return list(enumerate(tried, 2))


def check(program, format="all"):
    tried = rows()
    chosen = [(number, row) for number, row in numbered(tried) if format in ("all", row["format"])]
    return list(wrong_rows(TABLE, chosen, lambda row: differences(row, program))), len(tried)


def check_of_kinds(table, kinds, differences_of):
    """What is wrong with the examples of a table that has one for each of these kinds at least, and how many there
    are."""
    tried = rows(table)
    found = list(wrong_rows(table, numbered(tried), differences_of))
    missing = sorted(set(kinds) ^ {row["kind"] for row in tried})
    return found + [f"docs/{table.name}: {kind} has no example, or no rule" for kind in missing], len(tried)


def missing_in_page(table, line_of, path=PAGE):
    """The rows of a table whose lines, as a function makes them, are not in the page."""
    page = path.read_text(encoding="utf-8")
    for number, row in enumerate(rows(table), 2):
        if line_of(row) not in page:
            yield f"docs/{path.name}: the row of docs/{table.name}:{number} is missing: {line_of(row)}"


def table_line(row):
    """The row of the page's tables for an example."""
    before, after = (shown(row[name]) for name in ("before", "after"))
    if row["kind"] in LEFT_OR_NOTED:
        return f"| {before} | {row['what']} |"
    dialect = "by its header" if row["dialect"] == BY_HEADER else f"`--from {row['dialect']}`" if row["dialect"] else ""
    return f"| `{row['kind']}` | {dialect} | {before} | {after or '(nothing)'} | {row['what']} |"


def shown(cell):
    """A part as code, with a line break between its lines."""
    lines = cell.replace("\\\\", "\\").replace("|", "\\|").split("\\n")
    return "<br>".join(f"`{line}`" for line in lines if line)


@dataclass(frozen=True)
class Tried:
    """A wrong rule that was tried: its line in the table, and what the script says; or why it could not be tried."""

    line: int
    row: dict
    output: str
    error: str = ""


def tried_wrong(script, wrong, package, options_for):
    """Runs a script with each of the wrong rules, several at a time; ``options_for`` has the options for a module."""
    with tempfile.TemporaryDirectory() as folder, ThreadPoolExecutor(PROCESSES) as pool:
        answers = Path(folder) / "answers"
        run_with(SOURCES, script, answers)  # so that the program has to say only once what it says of each text

        def tried(numbered):
            line, row = numbered
            made = Path(folder) / str(line)
            shutil.copytree(SOURCES, made)
            module = made / package / row["module"]
            text = module.read_text(encoding="utf-8")
            places = [*in_any_layout(row["right"]).finditer(text)]
            if len(places) != 1:
                return Tried(line, row, "", f"{row['right']!r} is not in {row['module']} once")
            start, end = places[0].span()
            module.write_text(text[:start] + row["wrong"] + text[end:], encoding="utf-8")
            done = run_with(made, script, answers, *options_for(row["module"]))
            shutil.rmtree(made)
            return Tried(line, row, done.stdout if done.returncode else "")

        yield from pool.map(tried, enumerate(rows(wrong), 2))


def in_any_layout(code):
    """A pattern of code that may go on on further lines, as the formatter lays it out; its indent is as it is given."""
    begun = code.lstrip(" ")
    layouts = {
        " ": r"\s+",
        **{bracket: re.escape(bracket) + r"\s*" for bracket in "([{"},
        **{bracket: r",?\s*" + re.escape(bracket) for bracket in ")]}"},
    }
    indent = " " * (len(code) - len(begun))
    return re.compile(indent + "".join(layouts.get(letter, re.escape(letter)) for letter in begun))


def run_with(sources, script, answers, *options):
    """Runs a script with other sources of the package."""
    environment = {**os.environ, "MPSLP_SOURCES": str(sources), "MPSLP_ANSWERS": str(answers)}
    return subprocess.run([sys.executable, "-B", script, *options], env=environment, capture_output=True, text=True)


def not_found(tried, wrong):
    """A line for each wrong rule that no example finds."""
    for each in tried:
        if each.error:
            yield f"python/tests/{wrong.name}:{each.line}: {each.error}"
        elif not each.output:
            yield (
                f"python/tests/{wrong.name}:{each.line}: no example finds {each.row['wrong']!r} instead of "
                f"{each.row['right']!r}"
            )


def wrong_rules(script, wrong, package):
    """Whether the examples of a script find each of the wrong rules: lines for those that they do not find."""
    yield from not_found(tried_wrong(script, wrong, package, lambda module: ()), wrong)


def wrong_rules_of_adapt():
    """Whether the examples find each of the wrong rules, and whether each example finds one."""
    tried = list(tried_wrong(__file__, WRONG, "_adapt", format_options))
    yield from not_found(tried, WRONG)
    found = {
        int(line) for each in tried for line in re.findall(rf"^docs/{TABLE.name}:(\d+): ", each.output, re.MULTILINE)
    }
    for number, row in enumerate(rows(), 2):
        if number not in found:
            yield f"docs/{TABLE.name}:{number}: no rule of python/tests/{WRONG.name} is wrong for it: {row['before']}"


def format_options(module):
    """Only the examples of a format can find what is wrong in a module of this format."""
    format = re.match(r"_(lp|mps)[_.]", module)
    return ("--rules", format[1]) if format is not None else ("--rules", "all")


def parser_of(description):
    parser = argparse.ArgumentParser(description=description, formatter_class=argparse.RawDescriptionHelpFormatter)
    parser.add_argument("--program", type=Path, default=PROGRAM, help="the path of mpslp")
    parser.add_argument("--wrong", action="store_true", help="make the rules wrong one by one")
    parser.add_argument(
        "--rules",
        choices=("lp", "mps", "all"),
        help="only the examples of a format, and not what the program says of them",
    )
    return parser


def main():
    options = parser_of(__doc__).parse_args()
    if options.rules:
        found, _ = check(None, options.rules)
        print(*found, sep="\n")
        return 1 if found else 0
    return conclude(options, check, TABLE, table_line, wrong_rules_of_adapt)


def conclude(options, check, table, line, try_wrong, page=PAGE):
    """Checks the examples of a table, that the page has its lines and, if asked, that an example finds each wrong
    rule."""
    program = options.program.resolve() if options.program.exists() else None
    if program is None:
        print("skipped: the program is missing")
    found, tried = check(program)
    found += missing_in_page(table, line, page)
    if options.wrong:
        found += try_wrong()
    print(*found, sep="\n", end="\n" if found else "")
    print(f"{tried} examples, {len(found)} differ")
    return 1 if found else 0


if __name__ == "__main__":
    sys.exit(main())
