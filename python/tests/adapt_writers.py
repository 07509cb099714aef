#!/usr/bin/env python3
"""Check that adapt keeps what the installed writers hold: random models, written by each, adapted and read by mpslp.

Each model of written_models.py is written by glpsol, CoinUtils, clp, cbc, lp_solve, QSopt_ex, PuLP and cvxopt in each
of their formats. A file is adapted with the dialect of its writer, and without a dialect, which has to give the same if
its header names the writer. What mpslp reads of the result is compared in full with what the writer held: rows and
their limits, columns, bounds, types, the sense, the constant and all coefficients, within the digits that the writer
prints. A ranged row may be two rows, or a row with a column for the distance. What a format has no place for is `lost`
in written_models.py.

A writer that is not installed is reported with what it needs. --keep keeps the files in a directory, and --list prints
why files are left. Exits with 1 if a file is another model, or, with all 200 models, if the table is not that of
docs/DIALECTS-WRITERS.md.
"""

import argparse
import os
import random
import subprocess
import sys
import tempfile
from collections import Counter
from concurrent.futures import ThreadPoolExecutor
from dataclasses import dataclass, field
from pathlib import Path

import written_models
from adapt_package import AdaptError, adapt_text
from held_models import Held, differences, from_show, minimised, renamed
from written_models import GROUPS, Drawn, File, Group, NotWritten
from repository import ROOT

PROGRAM = ROOT / "crates" / "mpslp" / "out" / "mpslp"
PAGE = ROOT / "docs" / "DIALECTS-WRITERS.md"
MODELS = 200
SEED = 1
LEAST_OF_QSOPT_LP = 0.6
HEAD = (
    "| files | written | accepted directly | of these another model | accepted after `adapt` | left | "
    "wrong |\n|---|---|---|---|---|---|---|"
)


@dataclass
class Counts:
    """What came of the files of a writer."""

    written: int = 0
    accepted: int = 0
    accepted_otherwise: int = 0
    adapted: int = 0
    left: Counter = field(default_factory=Counter)
    wrong: int = 0

    def row(self, name: str) -> str:
        cells = (
            self.written,
            self.accepted,
            self.accepted_otherwise,
            self.adapted,
            sum(self.left.values()),
            self.wrong,
        )
        return f"| {name} | {' | '.join(map(str, cells))} |"


@dataclass(frozen=True)
class Written:
    """A file with what its writer held."""

    name: str
    file: File
    text: bytes
    held: Held


def read(program: Path, format: str, text: bytes) -> tuple[Held | None, str]:
    """The model that mpslp reads, or None and the reason."""
    done = subprocess.run([program, "show", format, "-"], input=text, capture_output=True)
    if done.returncode:
        return None, done.stderr.decode(errors="replace").strip()
    return from_show(done.stdout.decode()), ""


def file_differences(each: Written, model: Held, names: dict[str, str]) -> list[str]:
    held = minimised(each.held) if each.file.is_minimised else each.held
    return list(
        differences(
            renamed(held, {**each.file.names(held, model), **names}), model, each.file.precision, each.file.lost
        )
    )


class Checker:
    def __init__(self, program: Path, is_listed: bool) -> None:
        self.program = program
        self.is_listed = is_listed
        self.counts = {file.name: Counts() for group in GROUPS for file in group.files}
        self.wrong: list[str] = []

    def check(self, each: Written) -> None:
        counts = self.counts[each.file.name]
        counts.written += 1
        model, reason = read(self.program, each.file.format, each.text)
        if model is not None:
            counts.accepted += 1
            counts.accepted_otherwise += bool(file_differences(each, model, {}))
        try:
            done = adapt_text(each.text, each.file.format, each.file.dialect)
        except AdaptError as error:
            self.leave(each, f"{error.line}: {error.reason}")
            return
        model, reason = read(self.program, each.file.format, done.text)
        if model is None:
            self.leave(each, f"rejected after adapt: {reason}")
            return
        counts.adapted += 1
        found = file_differences(each, model, dict(done.names))
        if each.file.has_header and not self.is_same_by_its_header(each, done.text):
            found.append("another text, or none, if the dialect is not given")
        if found:
            counts.wrong += 1
            self.wrong.append(f"{each.name}: {'; '.join(found[:4])}")

    def is_same_by_its_header(self, each: Written, text: bytes) -> bool:
        """Whether the header of a file selects its dialect."""
        try:
            done = adapt_text(each.text, each.file.format)
        except AdaptError:
            return False
        return done.text == text and done.writer is not None and done.writer.dialect == each.file.dialect

    def leave(self, each: Written, reason: str) -> None:
        self.counts[each.file.name].left[reason.split(": ", 1)[-1]] += 1
        if self.is_listed:
            print(f"{each.name}: left: {reason}", file=sys.stderr)


# ---- what is written


def models(count: int, seed: int, group: Group) -> list[Held]:
    """The models of a group: the same for all, but for what a writer has no place for."""
    return [
        written_models.drawn(random.Random(f"{seed} {number}"), group.has_semi, group.most_digits)
        for number in range(count)
    ]


def files_of(group: Group, models: list[Held], folder: Path) -> tuple[list[Written], list[str]]:
    """The files of a group, and why models were not written."""

    def write(number: int) -> tuple[list[Written], str]:
        place = folder / f"{number:03}"
        try:
            held, files = written_models.written(group, Drawn(models[number], place), place)
        except (NotWritten, subprocess.TimeoutExpired) as error:
            return [], f"{group.name} {number:03}: {error}"
        return [Written(f"{number:03}/{file.ending}", file, text, held) for file, text in files], ""

    with ThreadPoolExecutor(max(1, min(4, os.cpu_count() or 1))) as pool:
        results = list(pool.map(write, range(len(models))))
    return [each for files, _ in results for each in files], [reason for _, reason in results if reason]


def table(counts: dict[str, Counts]) -> list[str]:
    return [each.row(name) for name, each in counts.items() if each.written]


def page_differences(counts: dict[str, Counts]) -> list[str]:
    """What the table of the page says otherwise."""
    page = PAGE.read_text(encoding="utf-8").splitlines()
    return [
        f"docs/DIALECTS-WRITERS.md does not have the line {line}"
        for line in (*HEAD.splitlines(), *table(counts))
        if line not in page
    ]


def goals(counts: dict[str, Counts]) -> list[str]:
    """What is not reached although it is asked for."""
    each = counts["QSopt_ex LP"]
    if each.written and each.adapted < LEAST_OF_QSOPT_LP * each.written:
        return [
            f"QSopt_ex LP: {each.adapted} of {each.written} accepted after adapt, and {LEAST_OF_QSOPT_LP:.0%} "
            "are expected"
        ]
    return []


def arguments() -> argparse.Namespace:
    parser = argparse.ArgumentParser(description=__doc__, formatter_class=argparse.RawDescriptionHelpFormatter)
    parser.add_argument("--program", type=Path, default=PROGRAM, help="the path of mpslp")
    parser.add_argument("--models", type=int, default=MODELS, help="how many models each writer gets")
    parser.add_argument("--seed", type=int, default=SEED, help="where the random numbers start")
    parser.add_argument(
        "--table", action="store_true", help="print the table of docs/DIALECTS-WRITERS.md, which is not compared then"
    )
    parser.add_argument(
        "--list", action="store_true", help="print each file that is left, and the reasons with how often each is"
    )
    parser.add_argument("--keep", type=Path, help="a directory for the files")
    return parser.parse_args()


def checked(options: argparse.Namespace, folder: Path) -> tuple[Checker, list[str], list[str]]:
    """All files, with the writers that are missing and the models that writers do not take."""
    checker = Checker(options.program.resolve(), options.list)
    missing: list[str] = []
    not_written: list[str] = []
    written_models.prepare(folder)
    for group in GROUPS:
        if lack := group.missing():
            missing.append(f"{group.name}: {lack} is missing")
            continue
        written, reasons = files_of(group, models(options.models, options.seed, group), folder)
        not_written += reasons
        for each in written:
            checker.check(each)
    return checker, missing, not_written


def main() -> int:
    options = arguments()
    if not options.program.exists():
        print("skipped: the program is missing: make builds it")
        return 0
    with tempfile.TemporaryDirectory() as scratch:
        folder = (options.keep or Path(scratch)).resolve()
        folder.mkdir(parents=True, exist_ok=True)
        checker, missing, not_written = checked(options, folder)
    print(HEAD, *table(checker.counts), sep="\n")
    is_whole = (options.models, options.seed) == (MODELS, SEED) and not missing
    found = checker.wrong + goals(checker.counts)
    if is_whole and not options.table:
        found += page_differences(checker.counts)
    if options.list:
        for name, counts in checker.counts.items():
            print(
                *(f"left: {name}: {count}: {reason}" for reason, count in counts.left.most_common()),
                sep="\n",
                file=sys.stderr,
            )
        print(*not_written, sep="\n", file=sys.stderr)
    print(*found, *(f"skipped: {each}" for each in missing), sep="\n", file=sys.stderr)
    total = sum(counts.written for counts in checker.counts.values())
    print(
        f"{total} files of {options.models} models, {len(not_written)} models not written, {len(checker.wrong)} wrong",
        file=sys.stderr,
    )
    return 1 if found else 0


if __name__ == "__main__":
    sys.exit(main())
