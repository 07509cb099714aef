#!/usr/bin/env python3
"""Checks one crate over the proved libraries of `make`: scripts/check.py CRATE [FLAG ..]

The flags are those of the kit's `rattle check`, such as --only=module::function or --allow-holes. The crates below are
proved first, as far as they are not. What a check has proved is kept for the next one, which then takes seconds.
"""

import subprocess
import sys
from pathlib import Path

from crates import LIBRARIES, Crate, crates_of_repository, words_of
from kit import kit_folder, require_kit
from prove import prove_all


def crate_to_check(usage: str) -> Crate:
    """The crate that the first argument names, once those below it are proved. Ends the program if it names none, or if
    they are not."""
    crates = crates_of_repository()
    if len(sys.argv) < 2 or sys.argv[1] not in crates:
        print(usage, file=sys.stderr)
        raise SystemExit(2)
    require_kit()
    crate = crates[sys.argv[1]]
    if not prove_all(crate.uses):
        raise SystemExit(1)
    return crate


def check(crate: Crate, kept: Path, flags: list[str], output: int | None = None) -> int:
    """The exit status of a check that keeps what it proves in this directory."""
    words = [
        f"{kit_folder()}/bin/rattle",
        "check",
        *words_of(crate, crates_of_repository(), LIBRARIES),
        "--incremental",
        str(kept),
        *flags,
    ]
    return subprocess.run(words, cwd=crate.folder, stdout=output, check=False).returncode


def main() -> int:
    crate, flags = crate_to_check(__doc__), sys.argv[2:]
    kept = LIBRARIES / crate.name / "incremental"
    kept.mkdir(parents=True, exist_ok=True)
    jobs = [] if any(it.startswith("--jobs") for it in flags) else ["--jobs", "2"]
    return check(crate, kept, [*jobs, *flags])


if __name__ == "__main__":
    sys.exit(main())
