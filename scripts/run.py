#!/usr/bin/env python3
"""Prints the canonical text of a model file: scripts/run.py FILE [FORMAT]

If the proved program is built and up to date, it is run. If not, the same sources are compiled without any proof and
run by `rt try`, and a line on standard error says so. The exit status is the program's.
"""

import os
import re
import subprocess
import sys
from pathlib import Path
from typing import NoReturn

from crates import below, built, crates_of_repository, is_proved_and_built
from kit import ROOT, require_kit

FORMATS = ("mps", "lp")
# The limits of `rt try` for a program: bytes of output, and seconds.
MOST_OUTPUT, MOST_SECONDS = "1 MiB", 60
# What `rt try` writes about the run itself, after what the program wrote to standard error.
OF_THE_RUN = re.compile(rb"^(?:checked: |(?:run|call)=\S+ ).*\n?", re.M)
# The status with which `rt try` reports that the program had no result within these limits.
NO_RESULT = 6
# The statuses of the program for a usage error, and for a file that cannot be opened or read.
USAGE_ERROR, READ_ERROR = 3, 4


def stop(why: str, status: int) -> NoReturn:
    print(why, file=sys.stderr)
    raise SystemExit(status)


def format_of(file: Path) -> str:
    extension = file.suffix.lower().removeprefix(".")
    if extension not in FORMATS:
        stop(f"{file}: the format of a file is its extension, .mps or .lp", USAGE_ERROR)
    return extension


def run_proved(program: Path, words: list[str], file: Path) -> int:
    with file.open("rb") as model:
        return subprocess.run([program, *words], stdin=model, check=False).returncode


def run_unproved(words: list[str], file: Path) -> int:
    print(
        "not proved on this machine yet: running the same sources without proof (up to a minute);"
        " `make` proves and builds the program",
        file=sys.stderr,
        flush=True,
    )
    with file.open("rb") as model:
        ran = subprocess.run(
            ["rt", "try", "--seconds", str(MOST_SECONDS), "--", *words],
            cwd=ROOT / "crates" / "mpslp",
            stdin=model,
            capture_output=True,
            check=False,
        )
    has_ended = re.search(rb"^run=ended status=(\d+)", ran.stderr, re.M)
    if has_ended:
        sys.stdout.buffer.write(ran.stdout)
        sys.stdout.flush()
        sys.stderr.buffer.write(OF_THE_RUN.sub(b"", ran.stderr))
        return int(has_ended[1])
    if ran.returncode == NO_RESULT:
        stop(
            f"{file}: an unproved run ends after {MOST_SECONDS} seconds or {MOST_OUTPUT} of output: build the "
            "program with `make` first",
            ran.returncode,
        )
    sys.stderr.buffer.write(ran.stderr)
    sys.stderr.flush()
    stop("the unproved run gave no result; the lines above are what the kit says", ran.returncode or NO_RESULT)


def main() -> int:
    if len(sys.argv) not in (2, 3) or not sys.argv[1]:
        stop("usage: make run [FILE=model.mps] [TO=mps|lp]", USAGE_ERROR)
    file = Path(sys.argv[1])
    source = format_of(file)
    target = sys.argv[2] if len(sys.argv) == 3 and sys.argv[2] else source
    if target not in FORMATS:
        stop(f"unknown format: {target}; TO is mps or lp", USAGE_ERROR)
    if not file.is_file():
        stop(f"{file}: {'is a directory' if file.is_dir() else 'no such file'}", READ_ERROR)
    if not os.access(file, os.R_OK):
        stop(f"{file}: permission denied", READ_ERROR)
    words = ["canon", source, target, "-"]
    crates = below(crates_of_repository(), "mpslp")
    if is_proved_and_built(crates):
        return run_proved(built(crates[-1]), words, file)
    require_kit()
    return run_unproved(words, file)


if __name__ == "__main__":
    sys.exit(main())
