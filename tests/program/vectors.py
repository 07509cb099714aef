#!/usr/bin/env python3
"""Check the built program, or another one that takes the same arguments, on the files of vectors/.

Exits with 1 if a result differs, and names the input.
"""

import argparse
import sys
from pathlib import Path

sys.path.insert(0, str(Path(__file__).resolve().parents[1]))

from shared.vector_suite import Checker, check_program

PROGRAM = Path(__file__).resolve().parents[2] / "crates" / "mpslp" / "out" / "mpslp"


def arguments():
    parser = argparse.ArgumentParser(description=__doc__, formatter_class=argparse.RawDescriptionHelpFormatter)
    parser.add_argument("--program", type=Path, default=PROGRAM, help="the path of mpslp")
    parser.add_argument("--without-show", action="store_true", help="the program knows no show")
    return parser.parse_args()


def main():
    options = arguments()
    checker = Checker(options.program.resolve(), not options.without_show)
    check_program(checker)
    for line in checker.wrong:
        print(line, file=sys.stderr)
    print(f"{checker.count} runs: {len(checker.wrong)} answered in another way")
    return 1 if checker.wrong else 0


if __name__ == "__main__":
    sys.exit(main())
