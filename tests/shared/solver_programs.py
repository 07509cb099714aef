"""The solvers that may be installed: how each is called, and what it prints as the optimum."""

import re
import subprocess
import sys
import tempfile
from dataclasses import dataclass
from fractions import Fraction
from pathlib import Path

PROGRAM = Path(__file__).resolve().parents[2] / "crates" / "mpslp" / "out" / "mpslp"
SECONDS = 60
CLOSE = 1e-6


@dataclass
class Solver:
    """A program, its package in Debian, its commands, and how it prints an optimum."""

    package: str
    commands: dict
    reported: re.Pattern


SOLVERS = {
    "glpsol": Solver(
        "glpk-utils",
        {"mps": "glpsol --freemps model.mps -o found", "lp": "glpsol --lp model.lp -o found"},
        re.compile(r"^Status: +(?:INTEGER )?OPTIMAL\nObjective: .* = (\S+) \(M", re.M),
    ),
    "clp": Solver(
        "coinor-clp",
        {"mps": "clp model.mps -solve -quit", "lp": "clp model.lp -solve -quit"},
        re.compile(r"^Optimal objective (\S+)", re.M),
    ),
    "cbc": Solver(
        "coinor-cbc",
        {"mps": "cbc model.mps -solve -quit", "lp": "cbc model.lp -solve -quit"},
        re.compile(r"^(?:Objective value: +|Optimal objective )(\S+)", re.M),
    ),
    "lp_solve": Solver(
        "lp-solve", {"mps": "lp_solve -fmps model.mps"}, re.compile(r"^Value of objective function: (\S+)", re.M)
    ),
    "esolver": Solver(
        "qsopt-ex",
        {"mps": "esolver -O found model.mps", "lp": "esolver -O found -L model.lp"},
        re.compile(r"^status OPTIMAL\n\tValue = (\S+)", re.M),
    ),
}


def canonical(program, form, to, text):
    """The canonical text, or None if a name of the model is not legal in LP."""
    done = subprocess.run([program, "canon", form, to, "-"], input=text.encode(), capture_output=True)
    if done.returncode == 0:
        return done.stdout.decode()
    if done.stderr.endswith(b": NotLp\n"):
        return None
    sys.exit(f"{program} refuses a model: {done.stderr.decode().strip()}\n{text}")


REJECTED = "rejected"


def answer(solver, form, command, text, environment=None):
    """The optimum that a command prints for a text, or None. A recipe that ends with status 2 rejects the model."""
    with tempfile.TemporaryDirectory() as folder:
        (Path(folder) / f"model.{form}").write_text(text)
        try:
            done = subprocess.run(
                ["sh", "-e", "-c", command],
                cwd=folder,
                stdin=subprocess.DEVNULL,
                env=environment,
                stdout=subprocess.PIPE,
                stderr=subprocess.STDOUT,
                timeout=SECONDS,
            )
        except subprocess.TimeoutExpired:
            return None
        if environment and done.returncode == 2:
            return REJECTED
        found = Path(folder) / "found"
        reported = solver.reported.findall((found.read_bytes() if found.exists() else done.stdout).decode("latin-1"))
        return float(Fraction(reported[-1])) if reported else None
