#!/usr/bin/env python3
"""Feed canonical texts to solvers, and compare the optima with the known ones.

The models are the examples, with the optima of examples/README.md, and small ones
of solver_models.py that have one feature each. Each solver gets the canonical text
directly, and then by the recipe of docs/SOLVERS.md: the shell block after the
comment <!-- solver: NAME FORMAT -->, which reads model.mps. It uses mpslp-tools,
in whose place canon_for.py runs. A recipe that ends with status 2 rejects the model.

The tables of that page and of docs/SOLVERS-RESULTS.md, each after a comment <!-- optima: FORMAT -->, state the
results, and the table after <!-- exports --> what became of the models that a
command reads and writes again, to the file out. Cells that differ are reported.
--tables prints the tables as measured, for the solvers that are installed.

The models of vectors/ and the examples whose canonical MPS text has no RHS section
are read by lp_solve, directly and with an empty section: it must drop the last column
where the page says so, and must read all columns with the section.

A solver that is missing is reported and skipped. Exits with 1 if a cell differs,
or a recipe spoils what was right without it.
"""

import argparse
import os
import re
import shutil
import subprocess
import sys
import tempfile
from dataclasses import dataclass
from fractions import Fraction
from pathlib import Path

sys.path.insert(0, str(Path(__file__).resolve().parents[1]))

from shared.other_readers import accepted_files
from shared.solver_models import FEATURES
from shared.solver_programs import CLOSE, PROGRAM, REJECTED, SECONDS, SOLVERS, answer, canonical

ROOT = Path(__file__).resolve().parents[2]
PAGES = [ROOT / "docs" / name for name in ("SOLVERS.md", "SOLVERS-RESULTS.md")]
EXAMPLES = ROOT / "examples"
# Does what `mpslp-tools canon --for` does, without the library.
CANON_FOR = ROOT / "python" / "tests" / "canon_for.py"
FORMATS = ("mps", "lp")
RECIPE = re.compile(r"^<!-- solver: (\S+) (\S+) -->\n```sh\n((?:.*\n)*?)```$", re.M)
TABLE = re.compile(r"^<!-- optima: (\S+) -->\n((?:\|.*\n)+)", re.M)
EXPORTS = re.compile(r"^<!-- exports -->\n((?:\|.*\n)+)", re.M)
OPTIMUM = re.compile(r"^\| (\S+) \| (?:minimum|maximum) of \S+ is (\S+) \|$", re.M)


@dataclass
class Model:
    name: str
    texts: dict
    optimum: Fraction


class Page:
    """The recipes of the pages, and their tables."""

    def __init__(self, paths):
        text = "".join(path.read_text() for path in paths)
        self.recipes = {(name, form): recipe for name, form, recipe in RECIPE.findall(text)}
        self.tables = {form: cells_of(rows) for form, rows in TABLE.findall(text)}
        self.exports = [[cell.strip() for cell in row.split("|")[1:-1]] for row in EXPORTS.search(text)[1].splitlines()]


def cells_of(rows):
    """The cells of a table by the model of their row and the solver of their column."""
    head, _, *lines = [[cell.strip() for cell in row.split("|")[1:-1]] for row in rows.splitlines()]
    return {(line[0], name.strip("`")): cell for line in lines for name, cell in zip(head[1:], line[1:])}


def models(program):
    optima = dict(OPTIMUM.findall((EXAMPLES / "README.md").read_text()))
    sources = [(name, form, text, optimum) for name, (form, text, optimum) in FEATURES.items()]
    sources += [
        (stem, "mps", (EXAMPLES / f"{stem}.canonical.mps").read_text(), optimum) for stem, optimum in optima.items()
    ]
    return [
        Model(name, {to: canonical(program, form, to, text) for to in FORMATS}, Fraction(optimum))
        for name, form, text, optimum in sources
    ]


def verdict(found, optimum):
    if found is None:
        return "error"
    if found is REJECTED:
        return REJECTED
    return "yes" if abs(found - optimum) <= CLOSE * max(1, abs(optimum)) else "wrong"


def cell(name, form, model, page, environment):
    """The required content of a table's cell, and whether the recipe spoils what was right without it."""
    solver, text = SOLVERS[name], model.texts[form]
    plain = verdict(answer(solver, form, solver.commands[form], text), model.optimum)
    recipe = page.recipes.get((name, form))
    if not recipe:
        return plain, False
    mended = verdict(answer(solver, form, recipe, text, environment), model.optimum)
    if plain == "yes":
        return plain, mended != "yes"
    return {"yes": f"recipe, else {plain}", REJECTED: f"rejected, else {plain}"}.get(mended, mended), False


def measured(form, names, chosen, page, environment):
    """Each model with its cells, and the errors of recipes."""
    rows, reported = [], []
    for model in chosen:
        if model.texts[form] is None:
            continue
        cells = {}
        for name in names:
            cells[name], spoiled = cell(name, form, model, page, environment)
            if spoiled:
                reported.append(f"{name}, {form}, {model.name}: the recipe spoils what was right without it")
        rows.append((model.name, cells))
    return rows, reported


# ---- models without an RHS section


@dataclass
class Columns:
    """The columns of a canonical MPS text, in its order, and those that are integer or in BOUNDS."""

    names: list
    kept: set


def columns_of(text):
    found, section, is_integer = Columns([], set()), "", False
    for line in text.splitlines():
        words = line.split()
        if not line.startswith(" "):
            section = line
        elif words[1:2] == ["'MARKER'"]:
            is_integer = words[2] == "'INTORG'"
        elif section == "COLUMNS":
            found.names += [words[0]] if words[0] not in found.names else []
            found.kept |= {words[0]} if is_integer else set()
        elif section == "BOUNDS":
            found.kept.add(words[2])
    return found


def columns_read(text):
    """How many columns lp_solve reads from a text, as the first lines say that it writes."""
    with tempfile.TemporaryDirectory() as folder:
        (Path(folder) / "model.mps").write_text(text)
        subprocess.run(
            ["lp_solve", "-S1", "-parse_only", "-fmps", "model.mps", "-wfmps", "out"],
            cwd=folder,
            capture_output=True,
            timeout=SECONDS,
        )
        found = re.search(r"^\*<meta columns=(\d+)>", (Path(folder) / "out").read_text(encoding="latin-1"), re.M)
    return int(found[1])


def differences_without_rhs(program):
    """What lp_solve reads otherwise than the page says from canonical texts without an RHS section, and how many there
    are."""
    tried, reported = 0, []
    for name, form, content, _ in accepted_files():
        text = canonical(program, form, "mps", content.decode("latin-1"))
        if re.search(r"^RHS$", text, re.M):
            continue
        columns = columns_of(text)
        want = len(columns.names) - (columns.names[-1] not in columns.kept)
        have = columns_read(text)
        if have != want:
            reported.append(f"lp_solve, {name}: it reads {have} columns without an RHS section; by the page, {want}")
        have = columns_read(re.sub(r"^(?=(?:RANGES|BOUNDS|ENDATA)$)", "RHS\n", text, count=1, flags=re.M))
        if have != len(columns.names):
            reported.append(
                f"lp_solve, {name}: it reads {have} of {len(columns.names)} columns with an empty RHS section"
            )
        tried += 1
    return tried, reported


def shown(program, form, text):
    """What `mpslp show` prints of a text, or None if it is rejected."""
    done = subprocess.run([program, "show", form, "-"], input=text, capture_output=True)
    return done.stdout.decode() if done.returncode == 0 else None


def without(text, *names):
    """The text of show without the objective's name, and without the lines that begin with these names."""
    lines = [re.sub(r"^objective \S+", "objective", line) for line in text.splitlines()]
    return [line for line in lines if not line.startswith(names)]


def exported(program, command, text, environment):
    """What became of a model that a command reads and writes again: a column of the table of exports."""
    source, target = ("lp" if "model.lp" in command else "mps"), ("lp" if "--wlp" in command else "mps")
    with tempfile.TemporaryDirectory() as folder:
        (Path(folder) / f"model.{source}").write_text(text)
        try:
            subprocess.run(
                ["sh", "-e", "-c", command],
                cwd=folder,
                stdin=subprocess.DEVNULL,
                capture_output=True,
                timeout=SECONDS,
                env=environment,
            )
        except subprocess.TimeoutExpired:
            return "not written"
        out = Path(folder) / "out"
        if not out.exists() or not out.stat().st_size:
            return "not written"
        before, after = shown(program, source, text.encode()), shown(program, target, out.read_bytes())
    if after is None:
        return "changed"
    if before == after:
        return "same"
    if without(before) == without(after):
        return "objective renamed"
    return "renamed, sense lost" if without(before, "sense ") == without(after, "sense ") else "changed"


def export_differences(program, chosen, page, tables, environment):
    """The rows of the table of exports that differ, and the number of those measured."""
    head, _, *rows = page.exports
    tried, reported = 0, []
    for row in rows:
        command = row[0].strip("`")
        programs = [part.split()[0] for part in command.split("; ")]
        if lacking := [name for name in programs if not shutil.which(name, path=environment["PATH"])]:
            print(f"skipped: {command}: {lacking[0]} is missing")
            continue
        source = "lp" if "model.lp" in command else "mps"
        kinds = [
            exported(program, command, model.texts[source], environment) for model in chosen if model.texts[source]
        ]
        found = [str(kinds.count(kind)) for kind in head[1:]]
        tried += len(found)
        if found != row[1:]:
            reported.append(f"{command}: {found}; the page has {row[1:]}")
        if tables:
            print("| " + " | ".join([row[0], *found]) + " |")
    return tried, reported


def put_command(folder, program):
    """Puts the command mpslp-tools into a directory, and returns the environment in which it is found."""
    command = Path(folder) / "mpslp-tools"
    command.write_text(f'#!/bin/sh\nexec "{sys.executable}" -B "{CANON_FOR}" "{program}" "$@"\n')
    command.chmod(0o755)
    return {**os.environ, "PATH": f"{folder}:{os.environ['PATH']}"}


def print_table(form, names, rows):
    print(f"<!-- optima: {form} -->")
    print("| " + " | ".join(["model", *(f"`{name}`" for name in names)]) + " |")
    print("|---" * (len(names) + 1) + "|")
    for name, cells in rows:
        print("| " + " | ".join([name, *cells.values()]) + " |")
    print()


def differences(form, rows, stated):
    """The cells that differ from the page's table, and the rows that only one of both has."""
    for name, cells in rows:
        for solver, found in cells.items():
            want = stated.get((name, solver), "nothing")
            if found != want:
                yield f"{solver}, {form}, {name}: {found}; the page has {want}"
    have = {name for name, _ in rows}
    yield from (f"{form}, {name}: no such model" for name in sorted({name for name, _ in stated} - have))


def arguments():
    parser = argparse.ArgumentParser(description=__doc__, formatter_class=argparse.RawDescriptionHelpFormatter)
    parser.add_argument("--program", type=Path, default=PROGRAM, help="the path of mpslp")
    parser.add_argument("--tables", action="store_true", help="print the tables as measured")
    return parser.parse_args()


def main():
    options = arguments()
    program = options.program.resolve()
    if not program.exists():
        print(f"{program} is not there: make run builds it", file=sys.stderr)
        return 1
    page = Page(PAGES)
    there = [name for name in SOLVERS if shutil.which(name)]
    for name in SOLVERS.keys() - set(there):
        print(f"skipped: {name} is missing: apt-get install {SOLVERS[name].package}")
    chosen, tried, reported = models(program), 0, []
    with tempfile.TemporaryDirectory() as folder:
        environment = put_command(folder, program)
        for form in FORMATS:
            names = [name for name in there if form in SOLVERS[name].commands]
            rows, spoiled = measured(form, names, chosen, page, environment)
            tried += sum(len(cells) for _, cells in rows)
            reported += spoiled + list(differences(form, rows, page.tables.get(form, {})))
            if options.tables:
                print_table(form, names, rows)
        more, differ = export_differences(program, chosen, page, options.tables, environment)
    tried, reported = tried + more, reported + differ
    if "lp_solve" in there:
        more, differ = differences_without_rhs(program)
        tried, reported = tried + more, reported + differ
    for line in reported:
        print(line)
    print(f"{tried} tried, {len(reported)} differ")
    return 1 if reported else 0


if __name__ == "__main__":
    sys.exit(main())
