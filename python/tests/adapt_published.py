#!/usr/bin/env python3
"""Adapt what today's programs write of real models, and check that the meaning is kept.

The models are those of adapt_sources.py. Each is written by glpsol, CoinUtils (clp and
cbc), lp_solve and PuLP, in each of their formats; the files of glpk-utils and
lp-solve-doc that are MPS or LP as they are published are adapted, too. For each writer
a line counts the files that the program accepts as they are, that are adapted, and
that are left, with the reasons.

For each file that is changed, glpsol reads it before and after, and writes both again:
the program has to find them the same model, with the names mapped. It solves both, and
the optima have to agree. What a dialect means beside the text is given as an option:
the sense of PuLP, and the sign of the objective's constant. Files of lp_solve are read
and solved by lp_solve, and what only CoinUtils means so is solved by cbc.

A tool that is not installed is reported as skipped, with what needs it.
"""

import argparse
import re
import shutil
import subprocess
import sys
import tempfile
from collections import Counter
from pathlib import Path
from typing import NamedTuple

import adapt_sources
from adapt_package import AdaptError, adapt_text
from repository import ROOT

PROGRAM = ROOT / "crates" / "mpslp" / "out" / "mpslp"
LARGEST = 300_000
SECONDS = 300
NEGATED = "objective-rhs"


class Found(NamedTuple):
    """A file that was adapted: its dialect and format, its text before and after, its changes and its names."""

    name: str
    dialect: str
    format: str
    before: bytes
    after: bytes
    kinds: frozenset
    names: dict


class Checker:
    def __init__(self, program, folder):
        self.program = program
        self.folder = folder
        self.counts = Counter()
        self.wrong = []

    def says(self, *arguments, text=None):
        done = subprocess.run([self.program, *arguments], input=text, capture_output=True)
        return done.returncode, done.stdout, done.stderr.decode(errors="replace").strip()

    def rejects(self, format, text):
        """Why the program rejects a text, or nothing."""
        status, _, reason = self.says("canon", format, "mps", "-", text=text)
        return reason if status else ""

    # ---- one file

    def adapted(self, name, dialect, format, text):
        """The outcome of a file, the reason, and what was adapted."""
        reason = self.rejects(format, text)
        try:
            done = adapt_text(text, format, dialect or None)
        except AdaptError as error:
            if not reason:
                self.wrong.append(f"{name}: left, although the program accepts it: {error}")
            return "left", error.reason.split(":")[0], None
        if not done.changes:
            return ("left", reason.split(": ")[-1].split(" ")[0], None) if reason else ("accepted", "", None)
        again = adapt_text(done.text, format, dialect or None)
        if again.text != done.text:
            self.wrong.append(f"{name}: adapting it again changes {again.changes[0]}")
        after = self.rejects(format, done.text)
        if after:
            return "left", after.split(": ")[-1].split(" ")[0], None
        kinds = frozenset(change.kind for change in done.changes)
        return (
            "adapted",
            ", ".join(sorted(kinds)),
            Found(name, dialect, format, text, done.text, kinds, dict(done.names)),
        )

    # ---- the meaning

    def check_meaning(self, found):
        """Compares what other programs read before and after."""
        if found.kinds == {"compressed"}:
            self.counts["only decompressed"] += 1
            return
        if "free-and-bound" in found.kinds:
            # glpsol drops the bound, so CoinUtils is asked.
            optima = [self.optimum_of_cbc(found.format, text) for text in (found.before, found.after)]
        elif found.dialect == "lp_solve":
            # glpsol takes other bounds of integer columns from what is left out, so lp_solve is asked.
            given = [(found.before, []), (found.after, ["-mps_negobjconst"])]
            self.compare_models(found, [self.through_lp_solve(*each) for each in given])
            optima = [self.optimum_of_lp_solve(*each) for each in given]
        else:
            given = [(found.before, self.options_of(found, found.before, True)), self.after_for_glpsol(found)]
            self.compare_models(found, [self.through_glpsol(*each) for each in given])
            optima = [self.optimum(*each) for each in given]
        if None in optima:
            self.counts["no optimum"] += 1
        elif is_near(*optima):
            self.counts["same optimum"] += 1
        else:
            self.wrong.append(f"{found.name}: the optimum is {optima[0]} before, {optima[1]} after")

    def compare_models(self, found, models):
        """Whether two texts of glpsol are the same model, with names given mapped to names written."""
        if None in models:
            self.counts["not read"] += 1
            return
        before, after = (adapt_text(text, "mps").text for text in models)
        paths = self.folder / "before.mps", self.folder / "after.mps"
        paths[0].write_bytes(mapped(before, found.names))
        paths[1].write_bytes(after)
        status, printed, reason = self.says("same", "mps", paths[0], "mps", paths[1])
        if status == 1:
            self.wrong.append(f"{found.name}: another model is read")
        self.counts["same model" if status == 0 else "another model" if status == 1 else "not compared"] += 1

    def options_of(self, found, text, is_before):
        """What glpsol has to be given as options: the format, and the sense."""
        if found.format == "lp":
            return ["--lp"]
        is_max = re.search(rb"^OBJSENSE\s+MAX", text, re.M | re.I) or (
            found.dialect == "pulp" and text.startswith(b"*SENSE:Max")
        )
        is_fixed = is_before and found.kinds & {"fixed-columns", "continued-column", "trailing-text", "set-left-out"}
        return ["--mps" if is_fixed else "--freemps", "--max" if is_max else "--min"]

    def after_for_glpsol(self, found):
        """The adapted text; if the constant of the objective was negated, with the sign that glpsol takes."""
        text = found.after
        if found.format == "mps" and NEGATED in found.kinds:
            canonical = self.says("canon", "mps", "mps", "-", text=text)[1]
            recipe = ["awk", "-f", ROOT / "docs" / "solvers" / "glpsol.awk"]
            text = subprocess.run(recipe, input=canonical, capture_output=True).stdout
        return text, self.options_of(found, found.after, False)

    def check_odd_names(self):
        """PuLP writes a model with names of all sorts as LP and as MPS, which have to be the same model when
        adapted."""
        lp, mps = self.folder / "odd.lp", self.folder / "odd.mps"
        subprocess.run([adapt_sources.PYTHON, "-c", adapt_sources.ODD_NAMES, lp, mps], capture_output=True, check=True)
        first, second = adapt_text(lp.read_bytes(), "lp", "pulp"), adapt_text(mps.read_bytes(), "mps", "pulp")
        canonical = self.says("canon", "lp", "mps", "-", text=first.text)[1]
        given = {written: name for name, written in second.names.items()}
        fields = {written: first.names.get(name, name) for written, name in given.items()}
        fields.update({name: written for name, written in first.names.items() if name not in second.names})
        lp.write_bytes(canonical)
        mps.write_text(re.sub(r"[^ \n]+", lambda field: fields.get(field[0], field[0]), second.text.decode()))
        if not canonical or self.says("same", "mps", lp, "mps", mps)[0] != 0:
            self.wrong.append("PuLP with odd names: its LP and its MPS are not the same model")

    def through_glpsol(self, text, options):
        """What glpsol writes of what it reads, or None."""
        source, out = self.folder / "source", self.folder / "written"
        out.unlink(missing_ok=True)
        source.write_bytes(without_sense(text))
        subprocess.run(["glpsol", *options, source, "--check", "--wfreemps", out], capture_output=True, timeout=SECONDS)
        return out.read_bytes() if out.exists() and out.stat().st_size else None

    def optimum(self, text, options):
        """The optimum that glpsol finds, or None."""
        source, out = self.folder / "source", self.folder / "solution"
        out.unlink(missing_ok=True)
        source.write_bytes(without_sense(text))
        try:
            subprocess.run(
                ["glpsol", *options, source, "--tmlim", "5", "-o", out], capture_output=True, timeout=SECONDS
            )
        except subprocess.TimeoutExpired:
            return None
        if not out.exists():
            return None
        solution = out.read_text(errors="replace")
        objective = re.search(r"^Objective: .*= *(\S+)", solution, re.M)
        return (
            float(objective[1]) if objective and re.search(r"^Status: +(?:INTEGER )?OPTIMAL", solution, re.M) else None
        )

    def through_lp_solve(self, text, options):
        """What lp_solve writes of the free MPS that it reads, or None."""
        source, out = self.folder / "source", self.folder / "written"
        out.unlink(missing_ok=True)
        source.write_bytes(text)
        subprocess.run(
            ["lp_solve", "-S1", "-parse_only", "-fmps", source, *options, "-wfmps", out],
            capture_output=True,
            timeout=SECONDS,
        )
        return out.read_bytes() if out.exists() and out.stat().st_size else None

    def optimum_of_lp_solve(self, text, options):
        source = self.folder / "source"
        source.write_bytes(text)
        command = ["lp_solve", "-S3", "-timeout", "5", "-fmps", source, *options]
        done = subprocess.run(command, capture_output=True, text=True, timeout=SECONDS)
        found = re.search(r"^Value of objective function: (\S+)", done.stdout, re.M)
        return float(found[1]) if found else None

    def optimum_of_cbc(self, format, text):
        source = self.folder / f"source.{format}"
        source.write_bytes(text)
        done = subprocess.run(["cbc", source, "-solve", "-quit"], capture_output=True, text=True, timeout=SECONDS)
        found = re.search(
            r"^(?:Objective value:|Optimal objective) +(\S+)|^Optimal - objective value (\S+)", done.stdout, re.M
        )
        return float(found[1] or found[2]) if found else None


def without_sense(text):
    """MPS without OBJSENSE, which glpsol does not know."""
    return re.sub(rb"^OBJSENSE\s+\S+\n", b"", text, flags=re.M | re.I)


def mapped(text, names):
    """Free MPS with the names written for names given."""
    given = {name.encode("utf-8", "surrogateescape"): written.encode() for name, written in names.items()}
    return re.sub(rb"[^ \t\n]+", lambda field: given.get(field[0], field[0]), text)


def is_near(one, other):
    return abs(one - other) <= 1e-6 * max(1, abs(one), abs(other))


def published():
    """The MPS and LP files of the packages as they are published."""
    for path in sorted(adapt_sources.GLPK.glob("*")):
        if path.suffix in (".mps", ".lp"):
            yield path.name, path.suffix[1:], path.read_bytes()
    for name, text in adapt_sources.blocks():
        is_mps = re.search(r"^ROWS", text, re.M) and re.search(r"^ENDATA", text, re.M)
        is_lp = re.match(r"\s*(?:\\.*\n\s*)*(?:max|min)\w*\s", text, re.I) and re.search(
            r"^\s*end\s*$", text, re.I | re.M
        )
        if is_mps or is_lp:
            yield f"lp-solve-doc {name}", "mps" if is_mps else "lp", text.encode("utf-8")


def batches(folder, program, every):
    """Each writer with its files: a name, the dialect, and the names, formats and bytes of files. Of the models only
    each `every`-th."""
    yield "as published", "", list(published())
    bases = (
        adapt_sources.bases(folder / "bases", program)
        if not (folder / "bases").exists()
        else sorted((folder / "bases").iterdir())
    )
    for writer in adapt_sources.WRITERS:
        if not adapt_sources.is_installed(writer):
            print(f"skipped: {writer.name}: {writer.tool} is missing")
            continue
        files = [
            adapt_sources.written(writer, base, folder / writer.name.replace(" ", "_"))
            for base in bases[::every]
            if base.stat().st_size <= LARGEST
        ]
        files = [path for path in files if path is not None and path.stat().st_size <= 4 * LARGEST]
        yield writer.name, writer.dialect, [
            (f"{writer.name} {path.name}", writer.format, path.read_bytes()) for path in files
        ]


def arguments():
    parser = argparse.ArgumentParser(description=__doc__, formatter_class=argparse.RawDescriptionHelpFormatter)
    parser.add_argument("--program", type=Path, default=PROGRAM, help="the path of mpslp")
    parser.add_argument("--folder", type=Path, help="a directory for what is written, which a further run uses again")
    parser.add_argument("--every", type=int, default=1, metavar="N", help="take only each N-th of the models")
    parser.add_argument("--list", action="store_true", help="print each file that is not accepted as it is")
    return parser.parse_args()


def main():
    options = arguments()
    if not options.program.exists():
        print("skipped: the program is missing: make run builds it")
        return 0
    with tempfile.TemporaryDirectory() as scratch:
        folder = options.folder or Path(scratch) / "files"
        folder.mkdir(parents=True, exist_ok=True)
        checker = Checker(options.program.resolve(), Path(scratch))
        print("| files | accepted | adapted | left | kinds of changes, and why files are left |\n|---|---|---|---|---|")
        for name, dialect, files in batches(folder, options.program.resolve(), options.every):
            outcomes, reasons, changed = Counter(), Counter(), []
            for file, format, text in files:
                outcome, reason, found = checker.adapted(file, dialect, format, text)
                outcomes[outcome] += 1
                if outcome != "accepted":
                    reasons[f"{outcome}: {reason}"] += 1
                    if options.list:
                        print(f"{file}: {outcome}: {reason}", file=sys.stderr)
                if found is not None:
                    changed.append(found)
            listed = "; ".join(f"{reason} ({count})" for reason, count in sorted(reasons.items()))
            print(
                f"| {name} | {outcomes['accepted']} | {outcomes['adapted']} | {outcomes['left']} | {listed} |",
                flush=True,
            )
            if shutil.which("glpsol"):
                for found in changed:
                    checker.check_meaning(found)
            else:
                print("skipped: the meaning: glpsol is missing")
        if adapt_sources.PYTHON is not None:
            checker.check_odd_names()
    print(*checker.wrong, sep="\n", end="\n" if checker.wrong else "")
    print(", ".join(f"{count} {what}" for what, count in sorted(checker.counts.items())))
    print(f"{len(checker.wrong)} differ")
    return 1 if checker.wrong else 0


if __name__ == "__main__":
    sys.exit(main())
