#!/usr/bin/env python3
"""Check the texts that `mpslp-tools canon --for SOLVER` writes, by giving them to the solvers.

The models are random ones (models.py) with numbers that a solver can work with, others with any numbers, and those of
examples/ and vectors/. For each solver and each of its formats a model has to be refused, or:

- what the solver reads is the model in full: glpsol and CoinUtils, the reader of clp and cbc, print what they read, and
  lp_solve writes it again. Further columns and rows of the text are those that a warning names.
- the optimum is that of the model. It is computed by scipy, which gets the numbers and no text, or it is what two
solvers
  agree on, if scipy finds none, or another one than each solver. A model without an optimum must have none, and the
  solver has to say so: one that is ended by a signal, or prints neither, is wrong.

A solver that is missing is reported and skipped. --models N draws N models, and --seed other ones; --list prints what
became of each text, and --gate is a run of under two minutes. Exits with 1 if a text is read as another model, or a
solver finds another optimum.
"""

import argparse
import copy
import math
import random
import re
import shutil
import subprocess
import sys
import tempfile
from collections import Counter
from concurrent.futures import ThreadPoolExecutor
from dataclasses import dataclass
from fractions import Fraction
from pathlib import Path

from adapt_package import SOLVERS as LANGUAGES, SolverError, solver_text
from mpslp._solver_texts._names import is_read, readable_name
from mpslp._solver_texts._solvers import SemiContinuous

from shared import independent_reader, models, other_readers as readers
from shared.other_readers import Read
from shared.solver_models import bounded_model, unlike_model
from shared.solver_programs import CLOSE, PROGRAM, SECONDS, SOLVERS, canonical

FORMATS = ("mps", "lp", "glp")
COMMANDS = {
    ("glpsol", "glp"): "glpsol --nointopt --glp {file} -o found",
    ("glpsol", "mps"): "glpsol --nointopt --freemps {file} -o found",
    ("clp", "mps"): "clp {file} -solve -quit",
    ("clp", "lp"): "clp {file} -solve -quit",
    ("cbc", "mps"): "cbc {file} -preprocess off -solve -quit",
    ("cbc", "lp"): "cbc {file} -preprocess off -solve -quit",
    ("lp_solve", "mps"): "lp_solve -fmps {file}",
    ("esolver", "mps"): "esolver -O found {file}",
}
NO_RESULTS = ("unknown", "aborted", "no answer")
"""What is known if a solver ends without a result, or does not end."""
WORKERS = 3
MOST_STATUS = 127
"""The greatest exit status of a program that is not ended by a signal, as the shell returns it."""
NO_OPTIMUM = re.compile(
    r"infeasible|unbounded|no (?:primal|dual|integer) feasible solution|integer empty", re.IGNORECASE
)
"""What solvers print of a model that has no optimum."""
GIVES_UP = re.compile(r"^Accuracy error|numerical failure|^Stopped due to errors", re.MULTILINE | re.IGNORECASE)
"""What lp_solve, and clp with a model without terms, print if they state no result."""
WITHOUT_OPTIMUM = (2, 3, 4)
"""What scipy returns for infeasible and unbounded models, and for those that are one of both."""
INFINITE = 1e25
"""An optimum of this magnitude is that of an unbounded model, as lp_solve prints it."""


@dataclass
class Case:
    """A model: its canonical text, what it says, and whether its optimum can be compared."""

    name: str
    text: bytes
    model: Read
    has_numbers_for_solvers: bool


@dataclass
class Result:
    """What became of a text: nothing, or what is wrong with it; and the optimum, if the solver found one."""

    solver: str
    format: str
    case: str
    kind: str
    optimum: float | str | None = None
    wrong: str = ""


# ---- the models


def said(text):
    """What mpslp reads from a canonical text."""
    return readers.own(independent_reader.read(text, "mps"))


def random_cases(count, seed):
    source = random.Random(seed)
    for number in range(count):
        drawn = models.drawn_model(source)
        for model, is_usable in ((bounded_model(source, drawn), True), (with_one_kind(source, drawn), False)):
            yield case_of(f"{'small' if is_usable else 'any'} {number}", model, is_usable)
        yield case_of(f"unlike {number}", unlike_model(source), True)


def case_of(name, model, is_usable):
    text = models.canonical_mps(model).encode()
    return Case(name, text, said(text), is_usable)


def with_one_kind(source, model):
    """The model; in one of two all columns are continuous, so that solvers without others have models of their own."""
    if source.random() < 0.5:
        for column in model.columns.values():
            column.kind = "continuous"
    return model


def file_cases(program):
    for path, form, content, model in readers.accepted_files():
        text = canonical(program, form, "mps", content.decode("latin-1"))
        yield Case(path, text.encode(), model, has_small_numbers(model))


def has_small_numbers(model):
    """Whether doubles and the usual tolerances are enough for a model."""
    numbers = [
        *model.costs.values(),
        *model.entries.values(),
        *(side for pair in (*model.rows.values(), *model.bounds.values()) for side in pair),
        model.constant,
    ]
    return all(number == 0 or math.isinf(number) or 1e-3 <= abs(number) <= 1e6 for number in numbers)


# ---- the optimum


def reference(model):
    """The optimum, as scipy finds it: a number, or None if there is none. Without scipy it is "unknown"."""
    try:
        from scipy.optimize import Bounds, LinearConstraint, milp
        from scipy.sparse import coo_array
    except ImportError:
        return "unknown"
    columns, rows = {name: at for at, name in enumerate(model.bounds)}, {name: at for at, name in enumerate(model.rows)}
    sign = -1 if model.sense == "maximize" else 1
    costs = [sign * model.costs.get(name, 0.0) for name in columns]
    kinds = [{"continuous": 0, "integer": 1, "semi": 2}[model.kinds[name]] for name in columns]
    lower, upper = zip(*model.bounds.values())
    constraints = []
    if rows:
        places = [(rows[row], columns[column]) for column, row in model.entries]
        matrix = coo_array(
            (list(model.entries.values()), tuple(zip(*places)) or ([], [])), shape=(len(rows), len(columns))
        )
        constraints = [LinearConstraint(matrix.tocsr(), *map(list, zip(*model.rows.values())))]
    found = milp(
        costs, integrality=kinds, bounds=Bounds(lower, upper), constraints=constraints, options={"presolve": False}
    )  # with it HiGHS 1.2 is wrong at times
    if found.status == 0:
        return sign * found.fun + model.constant
    return None if found.status in WITHOUT_OPTIMUM else "unknown"


def is_close(one, other):
    if one is None or other is None:
        return one is other
    return abs(one - other) <= CLOSE * max(1, abs(other))


# ---- a text and its solver


def optimum_of(solver, command, folder):
    try:
        done = subprocess.run(
            ["sh", "-c", command],
            cwd=folder,
            stdin=subprocess.DEVNULL,
            stdout=subprocess.PIPE,
            stderr=subprocess.STDOUT,
            timeout=SECONDS,
        )
    except subprocess.TimeoutExpired:
        return "unknown"
    found = folder / "found"
    printed = (found.read_bytes() if found.exists() else done.stdout).decode("latin-1")
    reported = SOLVERS[solver].reported.findall(printed)
    if done.returncode > MOST_STATUS:
        return "aborted"
    if re.search(r"^(?:Result - Problem proven infeasible|This problem is infeasible)", printed, re.M):
        return None
    if GIVES_UP.search(printed):
        return "unknown"
    if not reported:
        return None if NO_OPTIMUM.search(printed + done.stdout.decode("latin-1")) else "no answer"
    value = float(Fraction(reported[-1]))
    return value if abs(value) < INFINITE else None


def read_by(solver, form, file, coin):
    """What a solver reads from its text, if that can be had."""
    if solver == "glpsol":
        out = file.with_suffix(".out")
        run = subprocess.run(
            ["glpsol", {"glp": "--glp", "mps": "--freemps", "lp": "--lp"}[form], file, "--check", "--wglp", out],
            capture_output=True,
            timeout=SECONDS,
        )
        if run.returncode or not out.exists():
            raise readers.Rejected
        return readers.read_glp(out.read_text(encoding="latin-1"))
    if solver in ("clp", "cbc") and coin is not None:
        run = subprocess.run([coin, form, file], capture_output=True, timeout=SECONDS)
        if run.returncode or readers.COMPLAINT.search(run.stdout + run.stderr):
            raise readers.Rejected
        return readers.with_infinities(readers.read_coin(run.stdout.decode("latin-1")))
    if solver == "lp_solve":
        return read_by_lp_solve(file)
    return None


def read_by_lp_solve(file):
    """What lp_solve writes of its text. It writes 12 characters of each number, and the constant with the opposite
    sign."""
    out = file.with_suffix(".out")
    run = subprocess.run(
        ["lp_solve", "-S1", "-parse_only", "-fmps", file, "-wfmps", out], capture_output=True, timeout=SECONDS
    )
    if run.returncode or not out.exists():
        raise readers.Rejected
    return read_lp_solve(out.read_text(encoding="latin-1"))


def read_lp_solve(text):
    found, section, letters, kind = Read(), "", {}, "continuous"
    for line in text.splitlines():
        words = line.split()
        if line.startswith("*") or not words:
            continue
        if not line.startswith(" "):
            section = words[0]
        elif section == "OBJSENSE":
            found.sense = {"MAX": "maximize", "MIN": "minimize"}[words[0]]
        elif section == "ROWS" and not found.objective:
            found.objective = words[1]
        elif section == "ROWS":
            letters[words[1]] = words[0]
            found.rows[words[1]] = limits(words[0], 0.0)
        elif words[1] == "'MARKER'":
            kind = "integer" if words[2] == "'INTORG'" else "continuous"
        elif section == "COLUMNS":
            found.kinds.setdefault(words[0], kind)
            found.bounds.setdefault(words[0], (0.0, math.inf))
            for row, number in zip(words[1::2], map(float, words[2::2])):
                if row == found.objective:
                    found.costs[words[0]] = number
                else:
                    found.entries[words[0], row] = number
        elif section in ("RHS", "RANGES"):
            for row, number in zip(words[1::2], map(float, words[2::2])):
                if row == found.objective:
                    found.constant = number
                elif section == "RHS":
                    found.rows[row] = limits(letters[row], number)
                else:
                    low, high = found.rows[row]
                    found.rows[row] = (high - abs(number), high) if letters[row] == "L" else (low, low + abs(number))
        elif section == "BOUNDS":
            found.kinds.setdefault(words[2], kind)
            low, high = found.bounds.setdefault(words[2], (0.0, math.inf))
            number = readers.as_infinite(float(words[3])) if len(words) > 3 else 0.0
            found.bounds[words[2]] = {
                "UP": (low, number),
                "SC": (low, number),
                "LO": (number, high),
                "FX": (number, number),
                "MI": (-math.inf, high),
                "FR": (-math.inf, math.inf),
                "BV": (0.0, 1.0),
                "PL": (low, math.inf),
            }[words[0]]
            if words[0] == "SC":
                found.kinds[words[2]] = "semi"
    return found


def without_terms(have, want):
    """lp_solve leaves columns without terms out when it writes, and with them the kind of those that have bounds."""
    for name in [
        name
        for name in want.bounds
        if not want.costs.get(name) and not any(column == name for column, _ in want.entries)
    ]:
        for read in (have, want):
            read.kinds.pop(name, None)
            read.bounds.pop(name, None)
    for name, (lower, upper) in want.bounds.items():
        if want.kinds[name] == "semi" and lower == upper:
            want.kinds[name] = have.kinds.get(name, "")  # it writes FX


def with_all_digits(have, want):
    """What lp_solve writes, with the numbers of the model where they are those with fewer digits: it writes 12
    characters."""

    def number(one, other):
        return other if math.isclose(one, other, rel_tol=1e-5, abs_tol=1e-11) else one

    for ours, theirs in ((have.rows, want.rows), (have.bounds, want.bounds)):
        for name in ours.keys() & theirs.keys():
            ours[name] = tuple(map(number, ours[name], theirs[name]))
    for ours, theirs in ((have.costs, want.costs), (have.entries, want.entries)):
        for key in ours.keys() & theirs.keys():
            ours[key] = number(ours[key], theirs[key])


def limits(letter, side):
    side = readers.as_infinite(side)
    return {"L": (-math.inf, side), "G": (side, math.inf), "E": (side, side)}[letter]


def as_read(model, solver, form):
    """The model as a reader shows it. CoinUtils shows an LP file that is maximised as one that is minimised. If the
    solver does not have all semi-continuous columns, those with the lower bound 0 are continuous; if it needs whole
    bounds of integer columns, they are.
    """
    shown = copy.deepcopy(readers.minimised(model) if solver in ("clp", "cbc") and form == "lp" else model)
    rules = LANGUAGES[solver]
    for name, (lower, upper) in shown.bounds.items():
        if rules.semi_continuous is not SemiContinuous.ALL and shown.kinds[name] == "semi" and lower == 0:
            shown.kinds[name] = "continuous"
        if rules.needs_whole_bounds and shown.kinds[name] == "integer":
            shown.bounds[name] = lower if math.isinf(lower) else math.ceil(lower), upper if math.isinf(
                upper
            ) else math.floor(upper)
    return shown


def with_names(model, rules, form):
    """The model with the names that the solver reads in place of those that it does not read: the names are known by
    their order."""
    language = next(each for each in rules.languages if each.format == form)
    names = {model.objective, *model.rows, *model.bounds}
    written = {}
    for name in sorted(name for name in names if not is_read(name, language)):
        new, number = readable_name(name, language), 1
        while new in names or new in written.values():
            number += 1
            new = f"{readable_name(name, language)}_{number}"
        written[name] = new
    own = {name: written.get(name, name) for name in names}
    rows, kinds, bounds, costs = (
        {own[name]: value for name, value in each.items()}
        for each in (model.rows, model.kinds, model.bounds, model.costs)
    )
    entries = {(own[column], own[row]): value for (column, row), value in model.entries.items()}
    return Read(model.sense, own[model.objective], model.constant, rows, kinds, bounds, costs, entries)


def without_further(have, want):
    """What was read, without the columns and rows that the text has beside the model."""
    for name in have.bounds.keys() - want.bounds.keys():
        bounds, cost = have.bounds.pop(name), have.costs.pop(name, 0.0)
        have.kinds.pop(name)
        entries = {key: value for key, value in have.entries.items() if key[0] == name}
        if bounds == (1.0, 1.0) and not entries:
            have.constant += cost
            continue
        for column, row in entries:
            if entries[column, row] == -1 and have.rows[row] == (0.0, 0.0):
                have.rows[row] = bounds
            del have.entries[column, row]
    for name in have.rows.keys() - want.rows.keys():
        if not any(row == name and value for (_, row), value in have.entries.items()):
            del have.rows[name]


def tried(case, solver, form, coin):
    """Gives the text to the solver."""
    try:
        text = solver_text(case.text, solver, form)
    except SolverError as error:
        return Result(solver, form, case.name, "refused", wrong=str(error) if "internal" in str(error) else "")
    with tempfile.TemporaryDirectory() as directory:
        file = Path(directory) / f"model.{form}"
        file.write_bytes(text)
        wrong = ""
        try:
            have = read_by(solver, form, file, coin)
        except readers.Rejected:
            return Result(solver, form, case.name, "written", wrong="rejected")
        except subprocess.TimeoutExpired:
            return Result(solver, form, case.name, "written", wrong="the reader does not end")
        if have is not None:
            want = with_names(as_read(case.model, solver, form), LANGUAGES[solver], form)
            without_further(have, want)
            wrong = ", ".join(differing(have, want, solver, form))
        command = COMMANDS[solver, form].format(file=file.name)
        optimum = optimum_of(solver, command, Path(directory)) if case.has_numbers_for_solvers else "unknown"
    return Result(solver, form, case.name, "written", optimum, wrong)


def differing(have, want, solver, form):
    if solver == "lp_solve":
        without_terms(have, want)
        with_all_digits(have, want)
    found = list(readers.differences(have, want))
    if (solver == "lp_solve" or form == "lp") and "constant" in found:
        # CoinLpIO and the writer of lp_solve show it with signs that are not those of the solver; optima are compared.
        found.remove("constant")
    return found


def check_case(case, tasks, coin):
    """The results for a model, with what is wrong with the optima."""
    results = [tried(case, solver, form, coin) for solver, form in tasks]
    if not case.has_numbers_for_solvers:
        return results
    optimum = reference(case.model)
    found = [each.optimum for each in results if each.kind == "written" and each.optimum not in NO_RESULTS]
    if optimum == "unknown" or not any(is_close(value, optimum) for value in found):
        optimum = next((value for value in found if sum(is_close(value, other) for other in found) > 1), optimum)
    for each in results:
        if each.kind != "written" or each.wrong:
            continue
        if each.optimum in ("aborted", "no answer"):
            each.wrong = f"the solver: {each.optimum}"
        elif "unknown" not in (optimum, each.optimum) and not is_close(each.optimum, optimum):
            each.wrong = f"the optimum is {each.optimum}, not {optimum}"
    return results


# ---- the run


def arguments():
    parser = argparse.ArgumentParser(description=__doc__, formatter_class=argparse.RawDescriptionHelpFormatter)
    parser.add_argument("--program", type=Path, default=PROGRAM, help="the path of mpslp")
    parser.add_argument("--models", type=int, default=200, help="how many random models")
    parser.add_argument("--seed", type=int, default=8, help="other random models")
    parser.add_argument("--gate", action="store_true", help="a short run: fewer models, and no files")
    parser.add_argument("--keep", type=Path, help="write the texts that are wrong to this directory")
    parser.add_argument("--list", action="store_true", help="print what became of each text")
    return parser.parse_args()


def main():
    options = arguments()
    there = [name for name in SOLVERS if shutil.which(name)]
    for name in SOLVERS.keys() - set(there):
        print(f"skipped: {name} is missing: apt-get install {SOLVERS[name].package}")
    tasks = [(name, language.format) for name in there for language in LANGUAGES[name].languages]
    cases = list(random_cases(20 if options.gate else options.models, options.seed))
    if not options.gate:
        program = options.program.resolve()
        if not program.exists():
            print(f"{program} is missing: make run builds it", file=sys.stderr)
            return 1
        cases += file_cases(program)
    with tempfile.TemporaryDirectory() as folder:
        coin = readers.coin_reader(Path(folder))
        with ThreadPoolExecutor(WORKERS) as pool:
            results = [each for found in pool.map(lambda case: check_case(case, tasks, coin), cases) for each in found]
    texts = {case.name: case.text for case in cases}
    for each in results:
        if each.wrong:
            print(f"{each.solver}, {each.format}, {each.case}: {each.wrong}")
            if options.keep:
                options.keep.mkdir(exist_ok=True)
                (
                    options.keep / f"{each.solver}-{each.format}-{each.case.replace('/', '-').replace(' ', '-')}.mps"
                ).write_bytes(texts[each.case])
        elif options.list:
            print(
                f"{each.solver}, {each.format}, {each.case}: {each.kind} "
                f"{each.optimum if each.kind == 'written' else ''}"
            )
    for solver, form in tasks:
        own = [each for each in results if (each.solver, each.format) == (solver, form)]
        count = Counter(
            "wrong"
            if each.wrong
            else "refused"
            if each.kind == "refused"
            else "not compared"
            if each.optimum == "unknown"
            else "no optimum"
            if each.optimum is None
            else "same optimum"
            for each in own
        )
        print(f"{solver} {form}: " + ", ".join(f"{number} {kind}" for kind, number in sorted(count.items())))
    wrong = sum(bool(each.wrong) for each in results)
    print(f"{len(cases)} models, {len(results)} texts tried, {wrong} wrong")
    return 1 if wrong else 0


if __name__ == "__main__":
    sys.exit(main())
