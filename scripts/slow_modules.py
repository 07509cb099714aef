#!/usr/bin/env python3
"""Checks a crate from nothing, and prints which modules of its proofs took long: scripts/slow_modules.py CRATE [FLAG
..]

The flags are those of the kit's `rattle check`, such as --test or --only=module::function. The crates below are proved
first, as far as they are not. The prover saves each module when it is done with it, so the time between two files is
that of the second module. `Lts` of a function grows with the paths on which it drops values, `Proof` has what is
searched for its goals, and `Answers` what a person wrote; a module without a function is a file of lemmas. Run it while
little else runs: these are seconds of the clock.
"""

import subprocess
import sys
import tempfile
from itertools import pairwise
from pathlib import Path

from check import check, crate_to_check

# Modules that took less are not printed.
SECONDS = 1.0


def slow_modules(kept: Path) -> list[tuple[float, str]]:
    """The modules in an incremental directory that took long, the slowest first."""
    saved = sorted((file.stat().st_mtime, file.name) for file in kept.rglob("*.oantt"))
    took = [
        (after - before, name.removesuffix(".oantt").removesuffix(".decls"))
        for (before, _), (after, name) in pairwise(saved)
    ]
    return sorted((it for it in took if it[0] >= SECONDS), reverse=True)


def main() -> int:
    crate = crate_to_check(__doc__)
    with tempfile.TemporaryDirectory() as kept:
        status = check(crate, Path(kept), ["--jobs", "1", *sys.argv[2:]], subprocess.DEVNULL)
        for seconds, name in slow_modules(Path(kept)):
            print(f"{seconds:6.1f}  {name}")
    return status


if __name__ == "__main__":
    sys.exit(main())
