#!/usr/bin/env python3
"""Test the built program on files: what it prints, what it reports, and its exit status.

Each run is in an empty directory with the files of FILES. Results of models are few here: those of all kinds of lines
are in vectors/, on which tests/program/vectors.py runs the program with standard input.

Exits with 1 if a run ends otherwise, and names its arguments.
"""

import argparse
import subprocess
import sys
import tempfile
from dataclasses import dataclass
from pathlib import Path

ROOT = Path(__file__).resolve().parents[2]
PROGRAM = ROOT / "crates" / "mpslp" / "out" / "mpslp"

MPS = "ROWS\n N C\nCOLUMNS\n X C 1.0\nENDATA\n"
LP = "min\nC: 1.0 X\nst\nend\n"
CANONICAL_MPS = "NAME\nROWS\n N  C\nCOLUMNS\n    X  C  1\nENDATA\n"
CANONICAL_LP = "Minimize\n C:\n  + 1 X\nSubject To\nEnd\n"
SHOWN = (
    "sense minimize\nobjective C constant 0 offset 0\nrows 0 columns 1 elements 0\n"
    "column 0 X continuous 0 inf objective 1\n"
)

FILES = {
    "small.mps": MPS,
    "small.lp": LP,
    # The name says nothing of the format.
    "mps.lp": MPS,
    "canonical.mps": CANONICAL_MPS,
    "other.mps": "ROWS\n N C\nCOLUMNS\n X C 2\nENDATA\n",
    "cut.mps": "ROWS\n",
}


@dataclass(frozen=True)
class Run:
    """The arguments of a run, and what it comes to."""

    words: str
    status: int
    printed: str = ""
    reported: str = ""


RUNS = (
    Run("canon mps mps small.mps", 0, CANONICAL_MPS),
    Run("canon mps lp small.mps", 0, CANONICAL_LP),
    Run("canon lp mps small.lp", 0, CANONICAL_MPS),
    Run("canon lp lp small.lp", 0, CANONICAL_LP),
    Run("canon lp lp mps.lp", 2, reported="line 1: BadToken\n"),
    Run("canon mps mps absent.mps", 4, reported="read failed\n"),
    Run("show mps small.mps", 0, SHOWN),
    Run("show lp small.lp", 0, SHOWN),
    Run("same mps small.mps mps canonical.mps", 0, "same\n"),
    Run("same mps small.mps lp small.lp", 0, "same\n"),
    Run("same lp small.lp mps other.mps", 1, "not the same\n"),
    Run("same mps absent.mps mps small.mps", 4, reported="first: read failed\n"),
    Run("same mps small.mps mps absent.mps", 4, reported="second: read failed\n"),
    Run("same mps cut.mps mps small.mps", 2, reported="first: file: MissingEnd\n"),
    Run("same mps small.mps lp mps.lp", 2, reported="second: line 1: BadToken\n"),
    # Both inputs are read before either is judged.
    Run("same mps cut.mps mps absent.mps", 4, reported="second: read failed\n"),
    Run("canon mps xml small.mps", 3, reported="unknown format: xml\n"),
)


def result(program: Path, words: str, folder: Path) -> tuple[int, bytes, bytes]:
    ran = subprocess.run(
        [program, *words.split()], cwd=folder, stdin=subprocess.DEVNULL, capture_output=True, check=False
    )
    return ran.returncode, ran.stdout, ran.stderr


def main() -> int:
    parser = argparse.ArgumentParser(description=__doc__.split("\n")[0])
    parser.add_argument("--program", type=Path, default=PROGRAM, help="the path of the program")
    program, wrong = parser.parse_args().program.resolve(), 0
    with tempfile.TemporaryDirectory() as name:
        folder = Path(name)
        for path, text in FILES.items():
            (folder / path).write_text(text)
        for run in RUNS:
            found, wanted = result(program, run.words, folder), (
                run.status,
                run.printed.encode(),
                run.reported.encode(),
            )
            if found != wanted:
                wrong += 1
                print(f"{run.words}: {found!r} in place of {wanted!r}", file=sys.stderr)
        left = {path.name: path.read_text() for path in folder.iterdir()}
        if left != FILES:
            wrong += 1
            print(f"the files are now {left!r}", file=sys.stderr)
    print(f"{len(RUNS)} runs, {wrong} otherwise")
    return 1 if wrong else 0


if __name__ == "__main__":
    sys.exit(main())
