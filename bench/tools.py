#!/usr/bin/env python3
"""Measure commands of mpslp-tools, and one bound changed in Python, on a large file.

    tools.py [--files KIND,..] [--sizes 10M,..] [--runs N] [--python PYTHON] [--only WORD,..]

Each command runs in a process of its own on one core. The table has the least processor time of the runs, user and
system together, and the largest resident memory of any run. The last two rows are what a command takes to start.

PYTHON has the package, as the one of `make python-check` in build/python/bin/python. `program` is the proved program,
beside it.
"""

import argparse
import os
import subprocess
import sys
import tempfile
from collections.abc import Callable, Iterator
from dataclasses import dataclass
from pathlib import Path

from turns import KINDS, file_of, generated, listed

HERE = Path(__file__).resolve().parent
ROOT = HERE.parent
PROGRAM = ROOT / "crates" / "mpslp" / "out" / "mpslp"
SMALL = ROOT / "examples" / "small.mps"

# Run by the Python that has the package, with the path of a model and of the file to write.
ONE_BOUND = """
import sys
from dataclasses import replace
import mpslp
model = mpslp.load(sys.argv[1])
name = next(iter(model.columns))
model = model.replace(columns={name: replace(model.columns[name], upper=12345.5)})
mpslp.dump(model, sys.argv[2])
"""


@dataclass(frozen=True)
class Measured:
    """The processor time of a process, in seconds, and its largest resident memory, in bytes."""

    seconds: float
    memory: int


def measured(words: list[str], most_status: int = 0) -> Measured:
    """Runs a process on one core, without its output."""
    child = subprocess.Popen(words, stdout=subprocess.DEVNULL, stderr=subprocess.DEVNULL, preexec_fn=use_one_core)
    _, status, usage = os.wait4(child.pid, 0)
    child.returncode = os.waitstatus_to_exitcode(status)
    if not 0 <= child.returncode <= most_status:
        raise SystemExit(f"{' '.join(words)} ended with the status {child.returncode}")
    return Measured(usage.ru_utime + usage.ru_stime, usage.ru_maxrss * 1024)


def use_one_core() -> None:
    os.sched_setaffinity(0, {max(os.sched_getaffinity(0))})


def least(words: list[str], runs: int, most_status: int = 0) -> Measured:
    """The least time and the largest memory of several runs."""
    every = [measured(words, most_status) for _ in range(runs)]
    return Measured(min(each.seconds for each in every), max(each.memory for each in every))


def commands(source: Path, scratch: Path, python: str) -> Iterator[tuple[str, Callable[[int], Measured]]]:
    """What is measured, by its name; the second model of a comparison is the first one with another bound."""
    tools = [python, "-m", "mpslp"]
    changed = scratch / "changed.mps"

    def command(*words: str, status: int = 0) -> Callable[[int], Measured]:
        return lambda runs: least([*tools, *words], runs, status)

    yield "program: show", lambda runs: least([str(PROGRAM), "show", source.suffix[1:], str(source)], runs)
    yield "show", command("show", str(source))
    yield "canon", command("canon", str(source))
    yield "check", command("check", str(source), status=1)
    yield "digest", command("digest", str(source))
    yield "fmt", command("fmt", str(source))
    yield "one bound changed in Python", lambda runs: least([python, "-c", ONE_BOUND, str(source), str(changed)], runs)
    yield "diff", lambda runs: least([*tools, "diff", str(source), str(made(changed, source, python))], runs, 1)
    yield "report", command("report", "-o", str(scratch / "page.html"), str(source))
    yield "adapt --dry-run", command("adapt", "--dry-run", str(source))
    yield "adapt --dry-run, an LP file of 5 MB that it changes", lambda runs: least(
        [*tools, "adapt", "--dry-run", str(misspelt(scratch))], runs, 1
    )
    yield "--version", command("--version")
    yield "canon, a small file", command("canon", str(SMALL))


def made(changed: Path, source: Path, python: str) -> Path:
    """The model of a file with one bound changed."""
    if not changed.exists():
        subprocess.run([python, "-c", ONE_BOUND, str(source), str(changed)], check=True)
    return changed


def misspelt(scratch: Path) -> Path:
    """An LP file whose first word is not that of the format: adapt reads all of it, and writes another word."""
    text = generated("default-10M.lp", ["generate.py", "--lp", "--size", "10M"]).read_text()
    path = scratch / "misspelt.lp"
    path.write_text(text.replace("Minimize", "Minimise", 1).replace("Maximize", "Maximise", 1))
    return path


def main() -> None:
    parser = argparse.ArgumentParser(description=__doc__, formatter_class=argparse.RawDescriptionHelpFormatter)
    parser.add_argument("--files", type=listed, default=["default"], help="some of " + ", ".join(("default", *KINDS)))
    parser.add_argument("--sizes", type=listed, default=["98M"])
    parser.add_argument("--runs", type=int, default=3)
    parser.add_argument(
        "--python", default=str(ROOT / "build" / "python" / "bin" / "python"), help="a Python with the package"
    )
    parser.add_argument("--only", type=listed, default=[""], help="the commands that begin with one of these words")
    options = parser.parse_args()
    print("| file | MB | command | seconds | memory, MB |")
    print("|---|---|---|---|---|")
    for size in options.sizes:
        for kind in options.files:
            source = (
                generated(f"default-{size}.mps", ["generate.py", "--size", size])
                if kind == "default"
                else file_of(kind, size, str(PROGRAM))
            )
            with tempfile.TemporaryDirectory() as scratch:
                for name, measure in commands(source, Path(scratch), options.python):
                    if name.startswith(tuple(options.only)):
                        found = measure(options.runs)
                        row = [
                            source.name,
                            f"{source.stat().st_size / 1e6:.1f}",
                            name,
                            f"{found.seconds:.2f}",
                            f"{found.memory / 1e6:.0f}",
                        ]
                        print(f"| {' | '.join(row)} |", flush=True)


if __name__ == "__main__":
    sys.exit(main())
