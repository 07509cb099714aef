#!/usr/bin/env python3
"""Check the built program on random model files.

Each model is spelled in many ways, as MPS and, if its names are legal, as LP. For every
spelling the program must write the canonical texts that models.py makes of the model by
docs/FORMATS.md; these are fixed points, and a conversion there and back gives them again.
Then the files are broken at random, and the program must have the same canonical texts or
the same first error as independent_reader.py.

The same seed makes the same files. Exits with 1 at the first file with another result, and
keeps it as failed.mps or failed.lp.
"""

import argparse
import random
import subprocess
import sys
from pathlib import Path

sys.path.insert(0, str(Path(__file__).resolve().parents[1]))

from shared import independent_reader
from shared.models import canonical_lp, canonical_mps, drawn_model
from shared.mutations import mutated
from shared.spellings import lp_text, mps_text

PROGRAM = Path(__file__).resolve().parents[2] / "crates" / "mpslp" / "out" / "mpslp"
SPELLINGS = 3
BREAKS = 3


class Wrong(Exception):
    pass


class Checker:
    """Runs of the program, and how many files it was given."""

    def __init__(self, program):
        self.program = program
        self.count = 0

    def canon(self, form, to, text):
        self.count += 1
        run = subprocess.run([self.program, "canon", form, to, "-"], input=text, capture_output=True)
        return run.returncode, run.stdout, run.stderr

    def answers(self, form, to, text, expected):
        answer = self.canon(form, to, text)
        if answer != expected:
            raise Wrong(f"{form} to {to}: {answer!r} in place of {expected!r}", form, text)

    def wants(self, form, to, text, canonical):
        self.answers(form, to, text, (0, canonical, b""))

    def refuses(self, form, to, text, error):
        self.answers(form, to, text, (2, b"", f"{error}\n".encode()))


def check_model(checker, source):
    model = drawn_model(source)
    mps, lp = canonical_mps(model).encode(), canonical_lp(model)
    is_lp = not lp.endswith(": NotLp\n")
    files = [("mps", mps)] + [("mps", mps_text(source, model)) for _ in range(SPELLINGS)]
    if is_lp:
        files += [("lp", lp.encode())] + [("lp", lp_text(source, model)) for _ in range(SPELLINGS)]
    for form, text in files:
        checker.wants(form, "mps", text, mps)
        if is_lp:
            checker.wants(form, "lp", text, lp.encode())
        else:
            checker.refuses(form, "lp", text, lp.removesuffix("\n"))
    for form, text in files:
        for _ in range(BREAKS):
            check_broken(checker, form, mutated(source, form, text))


def check_broken(checker, form, text):
    """The results are those of the independent reader; canonical texts are fixed points and come back from the other
    format."""
    model = independent_reader.read(text, form)
    if isinstance(model, independent_reader.Fault):
        for to in ("mps", "lp"):
            checker.refuses(form, to, text, model)
        return
    answers = {to: independent_reader.canonical(model, to) for to in ("mps", "lp")}
    texts = {to: answer for to, answer in answers.items() if isinstance(answer, bytes)}
    for source_form, source_text in ((form, text), *texts.items()):
        for to, answer in answers.items():
            if to in texts:
                checker.wants(source_form, to, source_text, answer)
            else:
                checker.refuses(source_form, to, source_text, answer)


def arguments():
    parser = argparse.ArgumentParser(description=__doc__, formatter_class=argparse.RawDescriptionHelpFormatter)
    parser.add_argument("--program", default=PROGRAM, help="the path of mpslp")
    parser.add_argument("--seed", type=int, default=1)
    parser.add_argument("--models", type=int, default=500)
    return parser.parse_args()


def main():
    options = arguments()
    checker = Checker(options.program)
    for number in range(options.models):
        source = random.Random(options.seed << 32 | number)
        try:
            check_model(checker, source)
        except Wrong as wrong:
            message, form, text = wrong.args
            kept = Path(f"failed.{form}")
            kept.write_bytes(text)
            print(f"model {number} of seed {options.seed}: {message}; the file is {kept}", file=sys.stderr)
            return 1
    print(f"{options.models} models of seed {options.seed}, {checker.count} runs: each answered as it should be")
    return 0


if __name__ == "__main__":
    sys.exit(main())
