#!/usr/bin/env python3
"""The places of CONTRIBUTING.md that a change touches: python3 tests/documents/places.py [CHANGE]

CONTRIBUTING.md has a checklist for each usual change. The comment before its table,

    <!-- places: EXPRESSION -->

has a regular expression, which is found in the files that such a change touches: what has
one bound type names another. In the first cell of a row, words between backquotes are files
or patterns of files, from the top or from the crate that is named before them; `specs/Line`
is `specs/Line.antt`. Names in parentheses after a file are names that the file has.

Checked is that each of these is there, and that a row covers each file in which the
expression is found; the rows of the comment `places: every` belong to each checklist. With
CHANGE, a part of a heading, the files of that checklist are printed, each with the number
of lines where the expression is found and with what the row says; of a pattern only those
where it is found. Exits with 1 if anything is missing.
"""

import argparse
import re
import sys
from collections.abc import Iterator
from dataclasses import dataclass, field
from fnmatch import fnmatch
from functools import cache
from pathlib import Path

from names_check import files, has_word, tables, text_of

ROOT = Path(__file__).resolve().parents[2]
PAGE = "CONTRIBUTING.md"
PARTS = ("src/", "specs/", "proofs/", "must-fail/")
# Files that name everything, are made of others, or are only an example.
LEFT_OUT = (
    "CONTRIBUTING.md",
    "CHANGELOG.md",
    "docs/ARCHITECTURE.md",
    "docs/DECISIONS.md",
    "docs/PROOF-NOTES.md",
    "docs/TRUST.md",
    "docs/TRUST-DEFINITIONS.md",
    "tests/documents/places.py",
    "tests/documents/names_*",
    "scripts/*.tsv",
)


# A crate outside backquotes, names in parentheses, and a text between backquotes.
CELL = re.compile(r"\b(mpslp\w*|try_library)\b(?=[^`]*(?:`[^`]*`[^`]*)*$)|\(([^()]*`[^()]*)\)|`([^`]+)`")


@dataclass
class Checklist:
    """A heading of the page, what is to be found, and the patterns of files with what is said of them."""

    title: str
    expression: str
    line: int
    rows: list[tuple[str, str]] = field(default_factory=list)
    missing: list[str] = field(default_factory=list)


def expanded(pattern: str) -> Iterator[str]:
    """The patterns of one with {a,b} in it."""
    found = re.search(r"\{([^{}]*)\}", pattern)
    if not found:
        yield pattern
        return
    for part in found[1].split(","):
        yield from expanded(pattern[: found.start()] + part + pattern[found.end() :])


@cache
def matching(pattern: str) -> tuple[str, ...]:
    """The files of a pattern; a pattern that ends with / is all files below."""
    full = f"{pattern}*" if pattern.endswith("/") else pattern
    return tuple(name for name in files() if fnmatch(name, full) or fnmatch(name, f"{full}.antt"))


def patterns_of(cell: str, checklist: Checklist) -> Iterator[str]:
    """The patterns of files of a cell. What is missing goes to the checklist."""
    crate = ""
    last: tuple[str, ...] = ()
    for word, names, span in CELL.findall(cell):
        if word:
            crate = word if (ROOT / "crates" / word).is_dir() else crate
        elif names:
            for name in re.findall(r"`([\w:]+)`", names):
                if not any(has_word(each, name) for each in last):
                    checklist.missing.append(f"{name} in {', '.join(last)}")
        else:
            found: list[str] = []
            for pattern in expanded(span):
                full = f"crates/{crate}/{pattern}" if pattern.startswith(PARTS) and crate else pattern
                if not matching(full):
                    checklist.missing.append(f"{full}: no such file")
                found += matching(full)
                yield full
            last = tuple(found)


def checklists() -> list[Checklist]:
    found: list[Checklist] = []
    title, expression = "", ""
    lines = text_of(PAGE).split("\n")
    rows = {number: cells for _, number, cells in tables(text_of(PAGE))}
    for number, line in enumerate(lines, 1):
        if line.startswith("#"):
            title = line.strip("# ")
        elif mark := re.fullmatch(r"<!-- places: (.+) -->", line):
            expression = mark[1]
            found.append(Checklist(title, expression, number))
        elif number in rows and expression:
            found[-1].rows += [(pattern, rows[number][1]) for pattern in patterns_of(rows[number][0], found[-1])]
        elif line and not line.startswith("|"):
            expression = ""
    return found


def hits(expression: str) -> dict[str, int]:
    """The files in which the expression is found, each with the number of lines."""
    searched = re.compile(expression)
    counts = {
        name: sum(1 for line in text_of(name).split("\n") if searched.search(line))
        for name in files()
        if not any(fnmatch(name, each) for each in LEFT_OUT)
    }
    return {name: count for name, count in counts.items() if count}


def all_rows(checklist: Checklist, lists: list[Checklist]) -> list[tuple[str, str]]:
    return checklist.rows + [
        row for each in lists if each.expression == "every" and each is not checklist for row in each.rows
    ]


def check() -> list[str]:
    """What the checklists name that is not there, and the files that none of their rows covers."""
    lists = checklists()
    lines: list[str] = []
    for each in lists:
        lines += [f"{PAGE}:{each.line}: {each.title}: {missing}" for missing in each.missing]
        if each.expression == "every":
            continue
        covered = {name for pattern, _ in all_rows(each, lists) for name in matching(pattern)}
        lines += [
            f"{PAGE}:{each.line}: {each.title}: no row covers {name}, which has {each.expression}"
            for name in hits(each.expression)
            if name not in covered
        ]
    return lines


def print_files(title: str) -> bool:
    lists = checklists()
    chosen = [each for each in lists if title.lower() in each.title.lower() and each.expression != "every"]
    for each in chosen:
        found = hits(each.expression)
        print(f"{each.title}: {len(found)} files have {each.expression}")
        for pattern, what in all_rows(each, lists):
            for name in matching(pattern):
                if name not in found and set("*{") & set(pattern) | {"/"} & {pattern[-1]}:
                    continue
                print(f"  {found.get(name, 0):4}  {name}: {what}")
    return bool(chosen)


def main() -> int:
    parser = argparse.ArgumentParser(description=__doc__, formatter_class=argparse.RawDescriptionHelpFormatter)
    parser.add_argument("change", nargs="?", help="a part of the heading of a checklist")
    change = parser.parse_args().change
    if change:
        return 0 if print_files(change) else 1
    found = check()
    print("\n".join([*found, f"{len(checklists())} checklists, {len(found)} missing"]))
    return 1 if found else 0


if __name__ == "__main__":
    sys.exit(main())
