#!/usr/bin/env python3
"""What `mpslp-tools canon --for SOLVER` does, with the built program instead of the library, so that tests need no
wheel.

canon_for.py PROGRAM canon --for SOLVER [-t FORMAT] [-o PATH] FILE
"""

import argparse
import subprocess
import sys
from pathlib import Path

from adapt_package import SOLVERS, SolverError, solver_text


def main():
    parser = argparse.ArgumentParser()
    parser.add_argument("program")
    parser.add_argument("command", choices=("canon",))
    parser.add_argument("--for", dest="solver", choices=tuple(SOLVERS), required=True)
    parser.add_argument("-t", dest="to", choices=("mps", "lp", "glp"))
    parser.add_argument("-o", dest="output", type=Path)
    parser.add_argument("file", type=Path)
    options = parser.parse_args()
    canonical = subprocess.run(
        [options.program, "canon", options.file.suffix[1:], "mps", options.file], stdout=subprocess.PIPE
    )
    if canonical.returncode:
        return canonical.returncode
    suffix = options.output.suffix[1:] if options.output else ""
    try:
        text = solver_text(
            canonical.stdout, options.solver, options.to or (suffix if suffix in ("mps", "lp") else None)
        )
    except SolverError as error:
        print(f"{options.file}: {error}", file=sys.stderr)
        return 2
    for warning in text.warnings:
        print(f"warning: {options.file}: {warning}", file=sys.stderr)
    if options.output:
        options.output.write_bytes(text)
    else:
        sys.stdout.buffer.write(text)
    return 0


if __name__ == "__main__":
    sys.exit(main())
