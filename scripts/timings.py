#!/usr/bin/env python3
"""Writes the times of the crates: scripts/timings.py OUTPUT ..

OUTPUT is a file with what `make`, `make mutants` or `make test` printed. The seconds of each proof and of the mutants
of each crate go to proof-seconds.tsv and mutant-seconds.tsv, which only order and estimate the work; crates that are
not in the output keep theirs. With --lines it prints how many lines each crate has in src/, specs/ and proofs/.
"""

import argparse
import re
import sys
from pathlib import Path

from crates import PARTS, crates_of_repository, seconds_of_crates
from kit import ROOT

PROVED = re.compile(r"^ *\d+/\d+  (\w+) +(?:proved|built) +in +(\d+) s", re.M)
MUTANTS = re.compile(r"(\w+): \d+ of \d+ mutants rejected, \d+ checks in (\d+) s")


def update(table: str, found: list[tuple[str, str]]) -> None:
    """Writes the seconds that were found into a table of scripts/. A crate of the output keeps its place, a new one
    comes last."""
    crates = crates_of_repository()
    seconds = seconds_of_crates(table) | {name: float(text) for name, text in found if name in crates}
    rows = [f"{name}\t{value:.0f}" for name, value in seconds.items() if name in crates]
    (ROOT / "scripts" / table).write_text("\n".join(["crate\tseconds", *rows, ""]))
    print(f"{table}: {len({name for name, _ in found})} crates measured")


def print_lines() -> None:
    """Prints the lines of each crate, and of all."""
    all_lines = dict.fromkeys(PARTS, 0)
    print("\t".join(("crate", *PARTS)))
    for crate in crates_of_repository().values():
        lines = {
            part: sum(text_lines(file) for file in (crate.folder / part).rglob("*") if file.is_file()) for part in PARTS
        }
        all_lines = {part: all_lines[part] + lines[part] for part in PARTS}
        print("\t".join((crate.name, *map(str, lines.values()))))
    print("\t".join(("all", *map(str, all_lines.values()))))


def text_lines(file: Path) -> int:
    return file.read_text().count("\n")


def main() -> int:
    parser = argparse.ArgumentParser(description=__doc__, formatter_class=argparse.RawDescriptionHelpFormatter)
    parser.add_argument("outputs", nargs="*", type=Path, metavar="OUTPUT", help="a file with what make printed")
    parser.add_argument("--lines", action="store_true", help="print the lines of each crate")
    arguments = parser.parse_args()
    text = "".join(file.read_text() for file in arguments.outputs)
    for table, expression in (("proof-seconds.tsv", PROVED), ("mutant-seconds.tsv", MUTANTS)):
        if found := expression.findall(text):
            update(table, found)
    if arguments.lines:
        print_lines()
    return 0


if __name__ == "__main__":
    sys.exit(main())
