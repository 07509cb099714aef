#!/usr/bin/env python3
"""Check what docs/portable.tsv says of other programs, by running them.

portable_programs.tsv has small files, each with the kind of its remark, the optimum
as mpslp reads it, and what each program has to find: an optimum, or "none" if it
rejects the file or finds none; CoinUtils, the reader of clp and cbc, has "same", "other"
or "none". Data lines of MPS are written in fixed columns, which all programs read.

A remark names the programs that it is about: those that find something else than mpslp, or
nothing. A kind that is said only with --all or --target has no such program in any row. What is published of other
programs is not looked at.

--table prints the table as measured. A program that is missing is skipped.
"""

import argparse
import shutil
import subprocess
import sys
import tempfile
from fractions import Fraction
from pathlib import Path

from adapt_package import AGREED, KINDS, remarks_of
from adapt_rules import ROOT, rows, unescaped
from mpslp._portable._remarks import ONLY_PUBLISHED, PUBLISHED

from shared import independent_reader, other_readers
from shared.solver_programs import CLOSE, SOLVERS, answer

TABLE = ROOT / "python" / "tests" / "portable_programs.tsv"
STARTS = (1, 4, 14, 24, 39, 49)
FORMATS = {"mps": 0, "lp": 1}
COIN = "coinutils"
ABOUT_NAMES = {"rows dropped", "rows added", "columns dropped", "columns added", "objective", "coefficients"}
# Rows that are dropped without another optimum, and numbers, which are compared as doubles.
NOT_SHOWN = {"further-n-row": ("glpsol", "clp", "cbc", "lp_solve"), "number-not-held": (COIN,)}
# Integer columns, which clp and esolver treat as continuous, or esolver rejects, with or without the remark.
NOT_MEANT = {
    ("integer-section", "lp"): ("clp",),
    ("near-whole-bound", "mps"): ("esolver",),
    ("near-whole-bound", "lp"): ("clp", "esolver"),
}


def text_of(row):
    """The file of a row. In MPS each data line has its fields between bars, from the first on."""
    lines = unescaped(row["text"]).split("\n")
    return "\n".join(fixed(line) if row["format"] == "mps" and line.startswith("|") else line for line in lines) + "\n"


def fixed(line):
    text = ""
    for start, field in zip(STARTS, line[1:].split("|")):
        text = f"{text:{start}}{field}"
    return text


def found(row, name):
    solver = SOLVERS[name]
    if row["format"] not in solver.commands:
        return "-"
    value = answer(solver, row["format"], solver.commands[row["format"]], text_of(row))
    return "none" if value is None else f"{value:.10g}"


def is_same(one, other):
    if "-" in (one, other) or "none" in (one, other):
        return one == other
    return abs(Fraction(one) - Fraction(other)) <= CLOSE * max(1, abs(Fraction(other)))


def found_by_coin(row, program):
    """Whether CoinUtils reads the same model; program is coin_reader."""
    text = text_of(row)
    with tempfile.TemporaryDirectory() as folder:
        file = Path(folder) / f"model.{row['format']}"
        file.write_text(text)
        run = subprocess.run([program, row["format"], file], capture_output=True, timeout=other_readers.SECONDS)
    if run.returncode or other_readers.COMPLAINT.search(run.stdout + run.stderr):
        return "none"
    want = other_readers.own(independent_reader.read(text.encode(), row["format"]))
    have = other_readers.with_infinities(other_readers.read_coin(run.stdout.decode("latin-1")))
    if row["format"] == "lp":
        want = other_readers.minimised(want)
    if not set(other_readers.differences(have, want)) - ABOUT_NAMES and without_names(have) == without_names(want):
        return "same"
    return "other"


def without_names(model):
    """A model without the names of its rows and columns, which CoinUtils replaces in LP if one has a / or a |."""
    columns = sorted((model.kinds[name], *model.bounds[name], model.costs.get(name, 0.0)) for name in model.bounds)
    return columns, sorted(model.rows.values()), sorted(value for value in model.entries.values() if value)


def concerned(row, name):
    """Whether a program finds something else than mpslp in a file, or rejects it."""
    if name == COIN:
        return row[name] != "same"
    not_meant = NOT_MEANT.get((row["kind"], row["format"]), ())
    return row[name] != "-" and not is_same(row[name], row["here"]) and name not in not_meant


def differences(names, coin):
    """What is wrong with the rows, and the rows as measured."""
    for number, row in enumerate(rows(TABLE), 2):
        place = f"python/tests/portable_programs.tsv:{number}: {row['kind']}"
        everything = remarks_of(text_of(row).encode(), FORMATS[row["format"]])
        remarks = [each for each in everything if each.kind not in ONLY_PUBLISHED]
        kinds = {each.kind for each in remarks}
        if kinds != ({row["kind"]} if row["kind"] else set()):
            yield row, f"{place}: the remarks are {sorted(kinds)}"
        for name in names:
            value = found(row, name)
            if not is_same(value, row[name]):
                yield row, f"{place}: {name} finds {value}, not {row[name]}"
            row[name] = value
        if coin is not None and found_by_coin(row, coin) != row[COIN]:
            yield row, f"{place}: CoinUtils finds {found_by_coin(row, coin)}, not {row[COIN]}"
            row[COIN] = found_by_coin(row, coin)
        said = {name for each in remarks for name in each.programs}
        missing = {name for name in (*SOLVERS, COIN) if remarks and concerned(row, name)} - said
        if missing:
            yield row, f"{place}: the remark does not name {', '.join(sorted(missing))}"
        yield row, ""


def too_many_programs(measured):
    """The programs that remarks name although no row of their kind and format shows that they find something else,
    but for those that are named by their documents and are not measured."""
    for kind, form in sorted({(row["kind"], row["format"]) for row in measured if row["kind"]}):
        own = [row for row in measured if (row["kind"], row["format"]) == (kind, form)]
        shown = {name for row in own for name in (*SOLVERS, COIN) if concerned(row, name)} | set(
            NOT_SHOWN.get(kind, ())
        )
        said = {
            name for row in own for each in remarks_of(text_of(row).encode(), FORMATS[form]) for name in each.programs
        }
        said -= {*PUBLISHED}
        if said - shown:
            yield (
                f"python/tests/portable_programs.tsv: {kind} in {form}: the remarks name "
                f"{', '.join(sorted(said - shown))}, which no row shows"
            )
        if kind in AGREED and shown:
            yield (
                f"python/tests/portable_programs.tsv: {kind} is said only with --all, but {', '.join(sorted(shown))} "
                "read something else"
            )


def main():
    parser = argparse.ArgumentParser(description=__doc__, formatter_class=argparse.RawDescriptionHelpFormatter)
    parser.add_argument("--table", action="store_true", help="print the table as measured")
    options = parser.parse_args()
    names = [name for name in SOLVERS if shutil.which(name)]
    for name in SOLVERS:
        if name not in names:
            print(f"skipped: {name} is missing ({SOLVERS[name].package})")
    differing, measured = [], []
    with tempfile.TemporaryDirectory() as folder:
        coin = other_readers.coin_reader(Path(folder))
        for row, wrong in differences(names, coin):
            differing += [wrong] if wrong else []
            measured += [] if wrong else [row]
    differing += too_many_programs(measured)
    if options.table:
        print(*measured[0], sep="\t")
        print(*("\t".join(row.values()) for row in measured), sep="\n")
        return 0
    differing += [
        f"python/tests/portable_programs.tsv: {kind} has no row"
        for kind in sorted({*KINDS} - ONLY_PUBLISHED - {row["kind"] for row in measured})
    ]
    print(*differing, sep="\n", end="\n" if differing else "")
    print(f"{len(measured)} files, {len(differing)} differ")
    return 1 if differing else 0


if __name__ == "__main__":
    sys.exit(main())
