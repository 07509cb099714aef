#!/usr/bin/env python3
"""Run mpslp on files with a stack of 256 KiB, which is guaranteed to be enough.

Each command must have the same result there as with 8 MiB. The smallest stack that
is enough for all of them is printed, to 4 KiB; the system puts the stack at a random
place, so it differs by a few KiB from run to run.

Exits with 1 if a result differs, and names the command.
"""

import argparse
import resource
import subprocess
import sys
from pathlib import Path

AMPLE = 8192
PROMISED = 256
STEP = 4
TRIES = 3
FORMATS = ("mps", "lp")


def answer(command, kibibytes):
    """Status and both streams of a command in a stack of so many KiB."""

    def limit():
        resource.setrlimit(resource.RLIMIT_STACK, (kibibytes * 1024, kibibytes * 1024))

    done = subprocess.run(command, capture_output=True, preexec_fn=limit, env={})
    return done.returncode, done.stdout, done.stderr


def is_enough(command, expected, kibibytes):
    return all(answer(command, kibibytes) == expected for _ in range(TRIES))


def least(command, expected, too_little, enough):
    """The smallest stack that is enough, between one that is not and one that is."""
    while enough - too_little > STEP:
        middle = (too_little + enough) // (2 * STEP) * STEP
        if is_enough(command, expected, middle):
            enough = middle
        else:
            too_little = middle
    return enough


def commands(program, files):
    yield [program, "--help"]
    yield [program, "canon"]
    for path in files:
        form = path.suffix[1:]
        yield [program, "show", form, path]
        yield [program, "same", form, path, form, path]
        for to in FORMATS:
            yield [program, "canon", form, to, path]


def arguments():
    parser = argparse.ArgumentParser(description=__doc__, formatter_class=argparse.RawDescriptionHelpFormatter)
    parser.add_argument("--program", type=Path, required=True, help="the path of mpslp")
    parser.add_argument("files", type=Path, nargs="+", help="model files, whose formats are their extensions")
    return parser.parse_args()


def main():
    options = arguments()
    count, wrong, needed = 0, 0, STEP
    for command in commands(options.program.resolve(), options.files):
        count += 1
        expected = answer(command, AMPLE)
        if expected[0] < 0 or not is_enough(command, expected, PROMISED):
            wrong += 1
            print("another answer in a small stack:", *command[1:], file=sys.stderr)
        elif not is_enough(command, expected, needed):
            needed = least(command, expected, needed, PROMISED)
    print(
        f"{count} commands in a stack of {PROMISED} KiB: {wrong} with another answer; {needed} KiB are enough "
        "for all others"
    )
    return 1 if wrong else 0


if __name__ == "__main__":
    sys.exit(main())
