"""What glpsol and CoinUtils read from a file, as models that can be compared with that of independent_reader.py.

Every row limit, bound, type, name and coefficient is compared, as doubles. Both programs may be missing.
"""

import math
import re
import shutil
import subprocess
from collections.abc import Callable, Iterator
from dataclasses import dataclass, field
from fractions import Fraction
from pathlib import Path

from . import independent_reader as reader

ROOT = Path(__file__).resolve().parents[2]
COIN_SOURCE = ROOT / "tests" / "shared" / "coin_reader.cpp"
COIN_HEADERS = Path("/usr/include/coin")
SECONDS = 20
# CoinUtils goes on after some errors.
COMPLAINT = re.compile(rb"^(?:Coin\d+[EW]|### ERROR)", re.M)
# glpsol prints 15 digits.
CLOSE = 1e-14


@dataclass
class Read:
    """A model as a reader sees it: numbers are doubles, and the objective is minimised or maximised."""

    sense: str = "minimize"
    objective: str = ""
    constant: float = 0.0
    rows: dict[str, tuple[float, float]] = field(default_factory=dict)
    kinds: dict[str, str] = field(default_factory=dict)
    bounds: dict[str, tuple[float, float]] = field(default_factory=dict)
    costs: dict[str, float] = field(default_factory=dict)
    entries: dict[tuple[str, str], float] = field(default_factory=dict)


class Rejected(Exception):
    """A reader rejects a file."""


# ---- mpslp


def double(number: reader.Number | reader.Infinity) -> float:
    if isinstance(number, reader.Infinity):
        return math.copysign(math.inf, number.sign)
    try:
        return float(Fraction(number.mantissa) * Fraction(10) ** number.exponent)
    except OverflowError:
        return math.copysign(math.inf, number.mantissa)


def own(model: reader.Model) -> Read:
    """The model of mpslp, with numbers as doubles."""
    found = Read(model.sense, model.objective, double(model.constant))
    found.rows = {name: (double(lower), double(upper)) for name, (lower, upper) in model.rows.items()}
    found.kinds = {name: column.kind for name, column in model.columns.items()}
    found.bounds = {name: (double(column.lower), double(column.upper)) for name, column in model.columns.items()}
    for (column, row), number in model.coefficients.items():
        if row == model.objective:
            found.costs[column] = double(number)
        else:
            found.entries[column, row] = double(number)
    return found


# ---- glpsol


def limits_of(words: list[str]) -> tuple[float, float]:
    """The limits after a letter of the format of GLPK: free, lower, upper, double or fixed."""
    letter, *numbers = words
    values = list(map(float, numbers))
    return {
        "f": (-math.inf, math.inf),
        "l": (*values, math.inf)[:2],
        "u": (-math.inf, *values)[:2],
        "d": tuple(values[:2]),
        "s": (*values, *values)[:2],
    }[letter]


def by_glpsol(form: str, file: Path) -> Read:
    out = file.with_suffix(".glp")
    if form == "mps" and not re.search(rb"^NAME\b", file.read_bytes(), re.M):
        file.write_bytes(b"NAME\n" + file.read_bytes())
    run = subprocess.run(
        ["glpsol", {"mps": "--freemps", "lp": "--lp"}[form], file, "--check", "--wglp", out],
        capture_output=True,
        timeout=SECONDS,
    )
    if run.returncode or not out.exists():
        raise Rejected
    return read_glp(out.read_text(encoding="latin-1"))


def read_glp(text: str) -> Read:
    """The format that glpsol writes with --wglp: problem, names, rows, columns and coefficients by number."""
    lines = [line.split() for line in text.splitlines()]
    header = next(line for line in lines if line[0] == "p")
    found = Read({"min": "minimize", "max": "maximize"}[header[2]])
    rows = {str(number): f"row {number}" for number in range(1, int(header[3]) + 1)}
    columns = {str(number): f"column {number}" for number in range(1, int(header[4]) + 1)}
    for line in lines:
        if line[:2] == ["n", "z"]:
            found.objective = line[2]
        elif line[0] == "n" and line[1] in "ij":
            {"i": rows, "j": columns}[line[1]][line[2]] = line[3]
    # what has no line of its own: an equation with 0; a column from 0 to 1 if there are integer columns, otherwise from
    # 0 to infinity
    is_mip = header[1] == "mip"
    found.rows = dict.fromkeys(rows.values(), (0.0, 0.0))
    found.kinds = dict.fromkeys(columns.values(), "integer" if is_mip else "continuous")
    found.bounds = dict.fromkeys(columns.values(), (0.0, 1.0 if is_mip else math.inf))
    for line in lines:
        if line[0] == "i":
            found.rows[rows[line[1]]] = limits_of(line[2:])
        elif line[0] == "j":
            kind, *words = line[2:] if is_mip else ["c", *line[2:]]
            found.kinds[columns[line[1]]] = "integer" if kind == "i" else "continuous"
            found.bounds[columns[line[1]]] = limits_of(words)
        elif line[0] == "a" and line[1] == "0" and line[2] == "0":
            found.constant = float(line[3])
        elif line[0] == "a" and line[1] == "0":
            found.costs[columns[line[2]]] = float(line[3])
        elif line[0] == "a":
            found.entries[columns[line[2]], rows[line[1]]] = float(line[3])
    return found


# ---- CoinUtils


def by_coin(program: Path, form: str, file: Path) -> Read:
    if form == "mps":
        file.write_bytes(prepared_for_coin(file.read_bytes()))
    run = subprocess.run([program, form, file], capture_output=True, timeout=SECONDS)
    if run.returncode or COMPLAINT.search(run.stdout + run.stderr):
        raise Rejected
    return read_coin(run.stdout.decode("latin-1"))


def prepared_for_coin(text: bytes) -> bytes:
    """The text with the line NAME that makes CoinUtils read fields by spaces, and with an RHS section, which it
    requires."""
    if not re.search(rb"^RHS\b", text, re.M):
        text = re.sub(rb"^(?=(?:RANGES|BOUNDS|ENDATA)\b)", b"RHS\n", text, count=1, flags=re.M)
    if re.search(rb"^NAME\b.*$", text, re.M):
        return re.sub(rb"^NAME\b[^\r\n]*", b"NAME  ANY  FREE", text, count=1, flags=re.M)
    return b"NAME  ANY  FREE\n" + text


def read_coin(text: str) -> Read:
    found = Read()
    for line in text.splitlines():
        sort, *words = line.split(" ")
        if sort == "objective":
            found.objective, found.constant = words[0], float(words[1])
        elif sort == "row":
            found.rows[words[0]] = float(words[1]), float(words[2])
        elif sort == "column":
            found.kinds[words[0]] = words[1]
            found.bounds[words[0]] = float(words[2]), float(words[3])
            found.costs[words[0]] = float(words[4])
        elif sort == "entry":
            found.entries[words[0], words[1]] = float(words[2])
    return found


def with_infinities(read: Read) -> Read:
    """What clp and cbc make of the numbers that CoinUtils reads: from 1e30 on they are infinite."""
    for pairs in (read.rows, read.bounds):
        for name, pair in pairs.items():
            pairs[name] = (as_infinite(pair[0]), as_infinite(pair[1]))
    return read


def as_infinite(number: float) -> float:
    return math.copysign(math.inf, number) if abs(number) >= 1e30 else number


def minimised(model: Read) -> Read:
    """The model with the objective of CoinUtils, which reads `max` as the negated objective to be minimised."""
    if model.sense == "minimize":
        return model
    costs = {name: -value for name, value in model.costs.items()}
    return Read(
        "minimize", model.objective, -model.constant, model.rows, model.kinds, model.bounds, costs, model.entries
    )


# ---- comparing


def same(one: float, other: float) -> bool:
    return one == other or math.isclose(one, other, rel_tol=CLOSE)


def same_pair(one: tuple[float, float], other: tuple[float, float]) -> bool:
    return same(one[0], other[0]) and same(one[1], other[1])


def nonzeros(values: dict) -> dict:
    return {key: value for key, value in values.items() if value}


def differ(have: dict, want: dict, equal: Callable = same) -> bool:
    """Whether values of the same keys differ."""
    return any(not equal(have[key], want[key]) for key in have.keys() & want.keys())


def differences(have: Read, want: Read) -> Iterator[str]:
    """What a reader sees otherwise than mpslp."""
    costs, entries = (nonzeros(have.costs), nonzeros(want.costs)), (nonzeros(have.entries), nonzeros(want.entries))
    tests = (
        ("sense", have.sense != want.sense),
        ("name of the objective", have.objective != want.objective),
        ("constant", not same(have.constant, want.constant)),
        ("rows dropped", want.rows.keys() - have.rows.keys()),
        ("rows added", have.rows.keys() - want.rows.keys()),
        ("limits", differ(have.rows, want.rows, same_pair)),
        ("columns dropped", want.bounds.keys() - have.bounds.keys()),
        ("columns added", have.bounds.keys() - want.bounds.keys()),
        ("types", differ(have.kinds, want.kinds, str.__eq__)),
        ("bounds", differ(have.bounds, want.bounds, same_pair)),
        ("objective", costs[0].keys() != costs[1].keys() or differ(*costs)),
        ("coefficients", entries[0].keys() != entries[1].keys() or differ(*entries)),
    )
    return (what for what, is_other in tests if is_other)


def accepted_files() -> Iterator[tuple[str, str, bytes, Read]]:
    for folder in ("examples", "vectors"):
        for path in sorted((ROOT / folder).iterdir()):
            form = path.suffix[1:]
            if form in ("mps", "lp"):
                model = reader.read(path.read_bytes(), form)
                if not isinstance(model, reader.Fault):
                    yield f"{folder}/{path.name}", form, path.read_bytes(), own(model)


def coin_reader(folder: Path) -> Path | None:
    """The program that prints what CoinUtils reads, or None if it cannot be made."""
    if not (shutil.which("g++") and COIN_HEADERS.exists()):
        print("skipped: CoinUtils: apt-get install g++ coinor-libcoinutils-dev")
        return None
    program = folder / "coin_reader"
    subprocess.run(["g++", "-o", program, COIN_SOURCE, f"-I{COIN_HEADERS}", "-lCoinUtils"], check=True)
    return program
