"""Random models for the installed writers, and the files that each writes of them.

A group is a program or a library that writes several files of a model. What it holds is established apart from these
files: glpsol and CoinUtils print it, and lp_solve, QSopt_ex, PuLP and cvxopt are asked by their calls.
"""

from __future__ import annotations

import gzip
import random
import shutil
import subprocess
import sys
from collections.abc import Callable, Container, Iterable
from dataclasses import dataclass
from fractions import Fraction
from pathlib import Path

from held_models import Column, Held, Limit, Precision, from_lines, minimised, to_lines
from repository import ROOT

from shared.other_readers import Read, read_glp

TESTS = ROOT / "python" / "tests"
PYTHON = "/usr/bin/python3"
COIN_HEADERS = Path("/usr/include/coin")
SECONDS = 300
LETTERS = "abcdfghijklmnopqrstuvwxyzABCDFGHIJKLMNOPQRSTUVWXYZ_"
ODD_NAMES = (
    "2x",
    "e1",
    "E2",
    "free",
    "x[1]",
    "x(1)",
    "a,b",
    "end",
    "st",
    "inf",
    "x#1",
    "bin",
    "int",
    "R1",
    "obj",
    "c.1",
    "a/b",
    "3",
    "x:y",
)


@dataclass(frozen=True)
class File:
    """A file that a group writes. `lost` is what the writer does not write; all else has to be as it is held.

    `has_header` says that the file names its writer, so that adapt finds the dialect; `is_minimised` that it has -f for
    a maximised f.
    """

    name: str
    ending: str
    format: str
    dialect: str
    precision: Precision
    lost: frozenset[str] = frozenset()
    has_header: bool = True
    is_minimised: bool = False
    names: Callable[[Held, Held], dict[str, str]] = lambda held, read: {}


@dataclass(frozen=True)
class Group:
    """Files that are written by one run of a writer. `missing` says what has to be installed, or nothing."""

    name: str
    files: tuple[File, ...]
    missing: Callable[[], str]
    write: Callable[["Drawn", Path], Held]
    has_semi: bool = False
    most_digits: int = 12


@dataclass(frozen=True)
class Drawn:
    """A random model, with all programs that write it; `path` is where its own files are."""

    held: Held
    path: Path


class NotWritten(Exception):
    """A writer does not take a model."""


# ---- random models


def drawn(source: random.Random, has_semi: bool, most_digits: int) -> Held:
    """A model with rows and columns of all kinds. Names have at most 8 characters, which fixed MPS holds."""
    odd = source.random() < 0.2
    names: set[str] = set()
    wanted = source.randint(2, 13)
    while len(names) < wanted:
        names.add(source.choice(ODD_NAMES) if odd and source.random() < 0.3 else drawn_name(source))
    listed = sorted(names)
    source.shuffle(listed)
    middle = source.randint(1, len(listed) - 1)
    has_many_digits = source.random() < 0.3
    digits = most_digits if has_many_digits else 5
    held = Held(source.choice(("minimize", "maximize")))
    held.constant = source.choice((Fraction(0), drawn_number(source, digits)))
    held.rows = {name: drawn_row(source, digits) for name in listed[middle:]}
    for name in listed[:middle]:
        held.columns[name] = drawn_column(source, has_semi, digits)
    for column in held.columns.values():
        place = source.random()
        if place < 0.9:
            column.cost = source.choice(
                (Fraction(0), drawn_number(source, digits), Fraction(source.choice((1, -1, 2))))
            )
        if place > 0.15:
            column.entries = {row: drawn_number(source, digits) for row in held.rows if source.random() < 0.5}
    return held


def drawn_name(source: random.Random) -> str:
    return source.choice(LETTERS) + "".join(source.choices(LETTERS + "0123456789", k=source.randint(0, 4)))


def drawn_number(source: random.Random, digits: int) -> Fraction:
    """A number that is not zero, with at most so many digits."""
    if source.random() < 0.5:
        number = Fraction(source.randint(1, 99))
    else:
        number = Fraction(
            source.randint(1, 10 ** source.randint(1, digits) - 1),
            10 ** source.randint(max(0, digits - 18), min(digits, 4)),
        )
    return -number if source.random() < 0.4 else number


def drawn_row(source: random.Random, digits: int) -> tuple[Limit, Limit]:
    low, high = sorted((drawn_number(source, digits), source.choice((Fraction(0), drawn_number(source, digits)))))
    return source.choice(
        (
            (None, high),
            (None, low),
            (low, None),
            (high, None),
            (high, high),
            (low, low),
            (low, high),
            (low, high),
            (None, None),
        )
    )


def drawn_column(source: random.Random, has_semi: bool, digits: int) -> Column:
    low, high = sorted((drawn_number(source, digits), drawn_number(source, digits)))
    kind = source.choice(("continuous", "continuous", "integer", *(["semi"] if has_semi else [])))
    zero = Fraction(0)
    if kind == "semi":
        return Column(kind, zero, abs(high) + 1)
    if kind == "integer" and source.random() < 0.3:
        return Column(kind, zero, Fraction(1))
    if kind == "integer":
        low, high = Fraction(int(low) - 1), Fraction(int(high))
    limits = (
        (zero, None),
        (zero, None),
        (zero, abs(high)),
        (low, None),
        (low, high),
        (low, low),
        (None, None),
        (None, high),
        (None, -abs(low)),
    )
    return Column(kind, *source.choice(limits))


# ---- free MPS that programs read


def mps(held: Held, first: str, constant_factor: int, has_sense: bool) -> str:
    """The model as free MPS, with all bounds written. `constant_factor` times the constant is in RHS."""
    lines = [first]
    if has_sense and held.sense == "maximize":
        lines += ["OBJSENSE", "    MAX"]
    lines += ["ROWS", " N  COST"]
    lines += [f" {letter(limits)}  {name}" for name, limits in held.rows.items()]
    lines.append("COLUMNS")
    for number, (name, column) in enumerate(held.columns.items()):
        marker = column.kind == "integer"
        lines += [f"    M{number}  'MARKER'  'INTORG'"] * marker
        entries = {"COST": column.cost, **column.entries} if column.cost or not column.entries else column.entries
        lines += [f"    {name}  {row}  {decimal(value)}" for row, value in entries.items()]
        lines += [f"    M{number}  'MARKER'  'INTEND'"] * marker
    lines.append("RHS")
    if held.constant:
        lines.append(f"    RHS  COST  {decimal(held.constant * constant_factor)}")
    sides = {name: upper if lower is None else lower for name, (lower, upper) in held.rows.items()}
    lines += [f"    RHS  {name}  {decimal(side)}" for name, side in sides.items() if side]
    lines.append("RANGES")
    for name, (lower, upper) in held.rows.items():
        if lower is not None and upper is not None and lower != upper:
            lines.append(f"    RNG  {name}  {decimal(upper - lower)}")
    lines.append("BOUNDS")
    for name, column in held.columns.items():
        lines += bound_lines(name, column)
    return "\n".join([*lines, "ENDATA", ""])


def letter(limits: tuple[Limit, Limit]) -> str:
    lower, upper = limits
    if lower == upper:
        return "N" if lower is None else "E"
    return "L" if lower is None else "G"


def bound_lines(name: str, column: Column) -> list[str]:
    lower, upper = column.lower, column.upper
    if column.kind == "semi":
        return [f" SC  BND  {name}  {decimal(upper or Fraction(0))}"]
    if lower is None and upper is None:
        return [f" FR  BND  {name}"]
    if lower is not None and lower == upper:
        return [f" FX  BND  {name}  {decimal(lower)}"]
    lines = [f" MI  BND  {name}" if lower is None else f" LO  BND  {name}  {decimal(lower)}"]
    return [*lines, f" PL  BND  {name}" if upper is None else f" UP  BND  {name}  {decimal(upper)}"]


def decimal(number: Fraction) -> str:
    """A number whose denominator is a power of ten, in full."""
    for places in range(30):
        scaled = number * 10**places
        if scaled.denominator == 1:
            digits = str(abs(scaled.numerator)).rjust(places + 1, "0")
            text = f"{digits[:-places]}.{digits[-places:]}" if places else digits
            return f"-{text}" if number < 0 else text
    raise ValueError(number)


# ---- the groups


def run(command: list[object], folder: Path) -> str:
    """What a program prints."""
    done = subprocess.run(
        list(map(str, command)),
        cwd=folder,
        stdin=subprocess.DEVNULL,
        capture_output=True,
        text=True,
        errors="replace",
        timeout=SECONDS,
    )
    if done.returncode:
        raise NotWritten(f"{command[0]}: status {done.returncode}: {(done.stderr or done.stdout).strip()[-200:]}")
    return done.stdout


def by_glpsol(model: Drawn, folder: Path) -> Held:
    source = folder / "glpsol-source.mps"
    source.write_text(mps(model.held, "NAME ANY", 1, False), encoding="utf-8")
    sense = "--max" if model.held.sense == "maximize" else "--min"
    outs = ["--wmps", "glpsol-fixed.mps", "--wfreemps", "glpsol-free.mps", "--wlp", "glpsol.lp", "--wglp", "glpsol.glp"]
    run(["glpsol", "--freemps", source, sense, "--check", *outs], folder)
    return from_glp(read_glp((folder / "glpsol.glp").read_text(encoding="latin-1")))


def from_glp(read: Read) -> Held:
    """What `glpsol --wglp` writes, with 15 digits."""

    def number(value: float) -> Limit:
        return None if abs(value) == float("inf") else Fraction(str(value))

    held = Held(read.sense, Fraction(str(read.constant)))
    held.rows = {name: (number(lower), number(upper)) for name, (lower, upper) in read.rows.items()}
    for name, (lower, upper) in read.bounds.items():
        held.columns[name] = Column(
            read.kinds[name], number(lower), number(upper), Fraction(str(read.costs.get(name, 0.0)))
        )
    for (column, row), value in read.entries.items():
        held.columns[column].entries[row] = Fraction(str(value))
    return held


def by_coinutils(model: Drawn, folder: Path) -> Held:
    program = folder.parent / "coin_writer"
    source = coin_source(model, folder)
    printed = run([program, source, "coinutils.mps", "coinutils-17.mps", "coinutils.lp"], folder)
    return from_lines(printed)


def coin_source(model: Drawn, folder: Path) -> Path:
    source = folder / "coin-source.mps"
    source.write_text(mps(model.held, "NAME ANY FREE", -1, False), encoding="utf-8")
    return source


def coin_held(model: Drawn, folder: Path) -> Held:
    """What clp and cbc hold after reading: they read by CoinUtils."""
    source = coin_source(model, folder)
    held = from_lines(run([folder.parent / "coin_writer", source, "unused.mps", "unused-17.mps", "unused.lp"], folder))
    held.sense = model.held.sense
    return held


def by_clp(model: Drawn, folder: Path) -> Held:
    held = coin_held(model, folder)
    sense = ["-maximize"] if held.sense == "maximize" else []
    run(
        ["clp", "coin-source.mps", *sense, "-presolve", "off", "-outputFormat", "4", "-export", "clp.mps", "-quit"],
        folder,
    )
    return held


def by_cbc(model: Drawn, folder: Path) -> Held:
    """cbc minimises: -max negates the coefficients of the objective, but not its constant."""
    held = coin_held(model, folder)
    negated = minimised(held)
    negated.constant = held.constant
    sense = ["-max"] if held.sense == "maximize" else []
    run(["cbc", "coin-source.mps", *sense, "-presolve", "off", "-export", "cbc.mps", "-quit"], folder)
    run(["cbc", "coin-source.mps", *sense, "-presolve", "off", "-export", "cbc.lp", "-quit"], folder)
    return negated


def by_library(name: str) -> Callable[[Drawn, Path], Held]:
    def write(model: Drawn, folder: Path) -> Held:
        source = folder / f"{name}.model"
        source.write_text(to_lines(model.held), encoding="utf-8")
        if name == "qsopt":
            source.with_suffix(".mps").write_text(mps(model.held, "NAME ANY", -1, True), encoding="utf-8")
        printed = run([PYTHON, "-B", TESTS / "written_by.py", name, source, folder / "written"], folder)
        return from_lines(printed)

    return write


def names_of_coinutils(held: Held, read: Held) -> dict[str, str]:
    """If one name is not legal, CoinUtils numbers all of its kind."""
    names = {}
    for letters, own, found in (("cons", held.rows, read.rows), ("x", held.columns, read.columns)):
        if not set(own) <= set(found) and any(name.startswith(letters) for name in set(found) - set(own)):
            names.update({name: f"{letters}{number}" for number, name in enumerate(own)})
    return names


def names_of_glpsol(held: Held, read: Held) -> dict[str, str]:
    """glpsol writes parentheses for brackets, and numbers another name that is not legal in LP."""

    def row(number: int, name: str) -> list[str]:
        return [name.replace("[", "(").replace("]", ")"), f"r_{number}"]

    def column(number: int, name: str) -> list[str]:
        return [name.replace("[", "(").replace("]", ")"), *(f"{letter}_{number}" for letter in "xys")]

    return {**chosen(held.rows, read.rows, row), **chosen(held.columns, read.columns, column)}


def names_of_qsopt(held: Held, read: Held) -> dict[str, str]:
    """QSopt_ex writes a letter before a name that is not legal in LP, or numbers it."""

    def row(number: int, name: str) -> list[str]:
        return [f"c{name}", f"c{number - 1}"]

    def column(number: int, name: str) -> list[str]:
        return [f"x{name}", f"x{number - 1}"]

    return {**chosen(held.rows, read.rows, row), **chosen(held.columns, read.columns, column)}


def chosen(held: Iterable[str], read: Container[str], candidates: Callable[[int, str], list[str]]) -> dict[str, str]:
    """For each name that is not read, the one of its candidates that is."""
    missing = [(number, name) for number, name in enumerate(held, 1) if name not in read]
    return {name: next((each for each in candidates(number, name) if each in read), name) for number, name in missing}


def tool(name: str, package: str) -> Callable[[], str]:
    return lambda: "" if shutil.which(name) else f"{name} ({package})"


def module(name: str, package: str) -> Callable[[], str]:
    def missing() -> str:
        done = subprocess.run([PYTHON, "-c", f"import {name}"], capture_output=True) if Path(PYTHON).exists() else None
        return "" if done is not None and done.returncode == 0 else f"{name} ({package})"

    return missing


def library(name: str, package: str) -> Callable[[], str]:
    return lambda: "" if module(f"ctypes; ctypes.CDLL({name!r})", package)() == "" else f"{name} ({package})"


def coin() -> str:
    return "" if COIN_HEADERS.is_dir() and shutil.which("g++") else "CoinUtils (g++ and coinor-libcoinutils-dev)"


def first_of(*checks: Callable[[], str]) -> Callable[[], str]:
    return lambda: next(filter(None, (check() for check in checks)), "")


NO_SENSE = frozenset({"sense"})
NO_CONSTANT = frozenset({"constant"})
NO_PLAIN = frozenset({"plain columns"})
LP_SOLVE = frozenset({"plain columns", "types of empty columns"})
QSOPT = frozenset({"plain columns", "types of empty columns", "empty rows"})
COIN = frozenset({"empty columns", "types of fixed columns"})
GROUPS = (
    Group(
        "glpsol",
        (
            File("glpsol fixed MPS", "glpsol-fixed.mps", "mps", "glpsol", Precision(12), NO_SENSE),
            File("glpsol free MPS", "glpsol-free.mps", "mps", "glpsol", Precision(12), NO_SENSE),
            File("glpsol LP", "glpsol.lp", "lp", "glpsol", Precision(15), names=names_of_glpsol),
        ),
        tool("glpsol", "glpk-utils"),
        by_glpsol,
        most_digits=7,
    ),
    Group(
        "CoinUtils",
        (
            File("CoinUtils MPS", "coinutils.mps", "mps", "coinutils", Precision(9), COIN, False),
            File("CoinUtils MPS, 17 digits", "coinutils-17.mps", "mps", "coinutils", Precision(15), COIN, False),
            File(
                "CoinUtils LP",
                "coinutils.lp",
                "lp",
                "coinutils",
                Precision(places=9),
                NO_PLAIN,
                names=names_of_coinutils,
            ),
        ),
        coin,
        by_coinutils,
        most_digits=7,
    ),
    Group(
        "clp",
        (File("clp MPS", "clp.mps", "mps", "coinutils", Precision(15), COIN | NO_SENSE, False),),
        first_of(coin, tool("clp", "coinor-clp")),
        by_clp,
    ),
    Group(
        "cbc",
        (
            File("cbc MPS", "cbc.mps", "mps", "coinutils", Precision(9), COIN, False),
            File(
                "cbc LP",
                "cbc.lp",
                "lp",
                "coinutils",
                Precision(places=5),
                NO_PLAIN | NO_CONSTANT,
                names=names_of_coinutils,
            ),
        ),
        first_of(coin, tool("cbc", "coinor-cbc")),
        by_cbc,
        most_digits=7,
    ),
    Group(
        "lp_solve",
        (
            File(
                "lp_solve fixed MPS",
                "written/lp_solve-fixed.mps",
                "mps",
                "lp_solve",
                Precision(9),
                LP_SOLVE,
                is_minimised=True,
            ),
            File("lp_solve free MPS", "written/lp_solve-free.mps", "mps", "lp_solve", Precision(9), LP_SOLVE),
        ),
        library("/usr/lib/lp_solve/liblpsolve55.so", "lp-solve"),
        by_library("lp_solve"),
        has_semi=True,
        most_digits=7,
    ),
    Group(
        "QSopt_ex",
        (
            File("QSopt_ex MPS", "written/qsopt.mps", "mps", "qsopt", Precision(), QSOPT, False),
            File("QSopt_ex LP", "written/qsopt.lp", "lp", "qsopt", Precision(), QSOPT, names=names_of_qsopt),
        ),
        library("libqsopt_ex.so.2", "qsopt-ex"),
        by_library("qsopt"),
        most_digits=22,
    ),
    Group(
        "PuLP",
        (
            File("PuLP MPS", "written/pulp.mps", "mps", "pulp", Precision(13), NO_CONSTANT),
            File("PuLP LP", "written/pulp.lp", "lp", "pulp", Precision(12), NO_CONSTANT),
        ),
        module("pulp", "python3-pulp"),
        by_library("pulp"),
    ),
    Group(
        "cvxopt",
        (File("cvxopt MPS", "written/cvxopt.mps", "mps", "none", Precision(6), NO_CONSTANT, False),),
        module("cvxopt", "python3-cvxopt"),
        by_library("cvxopt"),
        most_digits=5,
    ),
)


def prepare(folder: Path) -> None:
    """Compiles the writer of CoinUtils into a directory."""
    if not coin():
        program = folder / "coin_writer"
        command = ["g++", "-O1", f"-I{COIN_HEADERS}", TESTS / "coin_writer.cpp", "-o", program, "-lCoinUtils"]
        subprocess.run(list(map(str, command)), check=True, stdout=sys.stderr)


def written(group: Group, model: Drawn, folder: Path) -> tuple[Held, list[tuple[File, bytes]]]:
    """What a group holds of a model, and its files; cbc compresses MPS."""
    (folder / "written").mkdir(parents=True, exist_ok=True)
    held = group.write(model, folder)
    files = []
    for file in group.files:
        path = folder / file.ending
        packed: Path | None = path.with_name(f"{path.name}.gz")
        if path.exists():
            files.append((file, path.read_bytes()))
        elif packed is not None and packed.exists():
            files.append((file, gzip.decompress(packed.read_bytes())))
    return held, files
