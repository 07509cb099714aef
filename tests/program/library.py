#!/usr/bin/env python3
"""Run the program try_library on texts from standard input, and with arguments that it rejects.

Its commands `vectors` and `refused` run on the files of vectors/ (scripts/gate.py, tests/program/refused.py). The
others measure speed, and are run here on small texts: what they print on standard output is known, and on standard
error all but the speeds. Without a command, or with an unknown one, the program prints its usage on standard error and
ends with status 2; in a directory without the tables `vectors` ends with status 1.

Exits with 1 if a run differs, and names it.
"""

import argparse
import re
import subprocess
import sys
import tempfile
from dataclasses import dataclass
from pathlib import Path

ROOT = Path(__file__).resolve().parents[2]
PROGRAM = ROOT / "crates" / "try_library" / "out" / "try_library"
EXAMPLES = ROOT / "examples"

# A comment, integer and continuous columns, and numbers in several spellings.
MODEL = b"""\
* a comment
NAME          TEST
ROWS
 N  COST
 E  BAL
 G  DEM
COLUMNS
    MARKER                 'MARKER'                 'INTORG'
    A         COST         3.0000000000   BAL          1.0000000000
    A         DEM          1.0000000000
    MARKER                 'MARKER'                 'INTEND'
    B         COST         1e+00          BAL         -1
RHS
    RHS       DEM          2.5
BOUNDS
 UP BND       A            10
 UP BND       B            4.0000000000
ENDATA
"""

# Four literals; a line that is none, and one with too many digits.
LITERALS = b"""\
1.50
-12.50e-20
1e6
no number
1234567890123456789
1234567890123456789012345678901234567
"""

USAGE = rb"usage: try_library vectors \| refused \[FORM PATH FORM PATH\] \| read \[lp\] \| numbers\n"
SPEEDS_OF_NUMBERS = rb"Decimal::parse \d+\.\d million/s\nDecimalText::put \d+\.\d million/s\n"


@dataclass(frozen=True)
class Run:
    """A run of the program, and how it has to end."""

    words: tuple[str, ...]
    text: bytes
    status: int
    printed: bytes
    # What all of its standard error matches.
    reported: bytes

    def difference(self, program: Path) -> str | None:
        """In what the run differs, or None. It runs in an empty directory."""
        with tempfile.TemporaryDirectory() as folder:
            ran = subprocess.run([program, *self.words], input=self.text, cwd=folder, capture_output=True, check=False)
        if (ran.returncode, ran.stdout) != (self.status, self.printed):
            return f"status {ran.returncode}, {ran.stdout} in place of status {self.status}, {self.printed}"
        if not re.fullmatch(self.reported, ran.stderr, re.DOTALL):
            return f"{ran.stderr} on standard error"
        return None


def reading(words: tuple[str, ...], text: bytes, printed: bytes) -> Run:
    return Run(("read", *words), text, 0, printed, rb"read %d bytes, \d+ microseconds, \d+\.\d MB/s\n" % len(text))


def runs() -> list[Run]:
    return [
        reading((), MODEL, b"rows 2 columns 2 elements 3\n"),
        reading(("lp",), (EXAMPLES / "small.lp").read_bytes(), b"rows 2 columns 2 elements 2\n"),
        Run(("numbers",), LITERALS, 0, b"4 numbers, 33 bytes of canonical text\n", SPEEDS_OF_NUMBERS),
        Run(("vectors",), b"", 1, b"", rb".+"),
        Run((), b"", 2, b"", USAGE),
        Run(("unknown",), b"", 2, b"", USAGE),
    ]


def arguments() -> argparse.Namespace:
    parser = argparse.ArgumentParser(description=__doc__, formatter_class=argparse.RawDescriptionHelpFormatter)
    parser.add_argument("--program", type=Path, default=PROGRAM, help="the path of try_library")
    return parser.parse_args()


def main() -> int:
    program = arguments().program.resolve()
    if not program.is_file():
        sys.exit(f"{program} is missing: python3 scripts/prove.py try_library builds it")
    compared = runs()
    wrong = 0
    for run in compared:
        if difference := run.difference(program):
            wrong += 1
            print(f"{' '.join(('try_library', *run.words))}: {difference}", file=sys.stderr)
    print(f"try_library: {len(compared)} runs compared, {wrong} answered in another way")
    return 1 if wrong else 0


if __name__ == "__main__":
    sys.exit(main())
