#!/usr/bin/env python3
"""Compare the built program with the reader of independent_reader.py.

That reader was written from docs/FORMATS.md and the order of errors in docs/ERRORS.md,
and from nothing else of this repository. For each file both must produce the same
canonical text, the same text of show, or the same error, to the byte.

First every file of examples/ and vectors/ is compared, and every text that the tables of
vectors/ describe, with each command. Then come random files, one command for each:
models in many spellings, and broken files. The same seed makes the same files.

The last line says how many files of which kinds were compared. Exits with 1 if a result
differs, and keeps the first such file as failed.mps or failed.lp; or if there is an error
that no file had, although there were enough files for it.
"""

import argparse
import random
import subprocess
import sys
from collections import Counter
from concurrent.futures import ProcessPoolExecutor
from itertools import islice
from pathlib import Path
from typing import NamedTuple

from close_cases import CASES

sys.path.insert(0, str(Path(__file__).resolve().parents[1]))

from shared import independent_reader as reader
from shared import vector_suite as vectors
from shared.fault_examples import EXAMPLES as FAULTS
from shared.models import drawn_model, is_lp_name
from shared.mutations import assembled, mutated
from shared.spellings import lp_text, mps_text

ROOT = Path(__file__).resolve().parents[2]
PROGRAM = ROOT / "crates" / "mpslp" / "out" / "mpslp"
COMMANDS = ("canon mps", "canon lp", "show")
BATCH = 100
# So many random files have every kind of error.
ENOUGH = 20_000
# TooLong needs 1 GiB, and NameByte concerns names that a program makes.
NEVER = {"NameByte"}


class File(NamedTuple):
    sort: str  # where it comes from
    form: str  # mps or lp
    text: bytes


class Differs(Exception):
    """The results of a command differ for a file."""

    def __init__(self, file, command, expected, found):
        super().__init__(file, command, expected, found)
        self.file, self.command, self.expected, self.found = file, command, expected, found


# ---- the two results


def expected(model, command):
    """The reader's result of a command: exit status, standard output and standard error."""
    answer = model
    if not isinstance(model, reader.Fault):
        answer = reader.show(model) if command == "show" else reader.canonical(model, command.removeprefix("canon "))
    return (0, answer, b"") if isinstance(answer, bytes) else (2, b"", f"{answer}\n".encode())


def found(program, file, command):
    """The program's result."""
    word, *to = command.split()
    run = subprocess.run([program, word, file.form, *to, "-"], input=file.text, capture_output=True)
    return run.returncode, run.stdout, run.stderr


def compare(program, file, commands=COMMANDS):
    """The kind of the file: an error, NotLp or a model. Raises Differs."""
    model = reader.read(file.text, file.form)
    for command in commands:
        own, answer = expected(model, command), found(program, file, command)
        if own != answer:
            raise Differs(file, command, own, answer)
    if isinstance(model, reader.Fault):
        return model.kind
    return "model" if isinstance(reader.canonical(model, "lp"), bytes) else "NotLp"


# ---- the files


def described_texts():
    """Format and text of each input that the tables of vectors/ describe."""
    for _, name, number, _, *lines in vectors.rows("changed-lines.tsv"):
        yield vectors.form_of(name), vectors.with_changed_line(name, number, lines)
    for name, least, greatest, _ in vectors.rows("cuts.tsv"):
        for length in range(int(least), int(greatest) + 1):
            yield vectors.form_of(name), vectors.content(name)[:length]
    for form, first, last, _ in vectors.rows("single-bytes.tsv"):
        for byte in range(int(first), int(last) + 1):
            yield form, bytes([byte])
    for *line, name, _ in vectors.rows("long-lines.tsv"):
        yield vectors.form_of(name), vectors.with_long_line(*line, name)


def given_files():
    """Files of the repository, inputs that the tables of vectors/ describe, close cases, and files with each usual
    error."""
    for folder in ("examples", "vectors"):
        for path in sorted((ROOT / folder).iterdir()):
            if path.suffix in (".mps", ".lp"):
                yield File("given", vectors.form_of(path.name), path.read_bytes())
    for form, text in described_texts():
        yield File("given", form, text)
    for form, text, _ in CASES:
        yield File("given", form, text.encode("latin-1"))
    for broken, mended in FAULTS.values():
        for form, text in (*broken, *mended):
            yield File("given", form, text.encode("latin-1"))


def random_file(seed, number):
    source = random.Random(f"{seed} {number}")
    form = source.choice(("mps", "lp"))
    sort = source.choice(("spelled", "mutated", "mutated", "mutated", "assembled", "assembled"))
    if sort == "assembled":
        return File(sort, form, assembled(source, form))
    model = drawn_model(source)
    if form == "lp" and not all(map(is_lp_name, (model.objective, *model.rows, *model.columns))):
        form = "mps"
    text = mps_text(source, model) if form == "mps" else lp_text(source, model)
    return File(sort, form, text if sort == "spelled" else mutated(source, form, text))


# ---- comparing them


def tallied(compared):
    """The number of files by sort, format and kind; or the difference."""
    tally = Counter()
    try:
        for file, kind in compared:
            tally[file.sort, file.form, kind] += 1
    except Differs as differs:
        return tally, differs
    return tally, None


def check_close_cases():
    """The close cases have the results that are stated with them."""
    for form, text, answer in CASES:
        model = reader.read(text.encode("latin-1"), form)
        read = str(model) if isinstance(model, reader.Fault) else "model"
        if read != answer:
            raise SystemExit(f"{text!r}: {read} in place of {answer}")


def compare_given(program, files):
    return tallied((file, compare(program, file)) for file in files)


def compare_random(program, seed, numbers):
    def compared():
        for number in numbers:
            file = random_file(seed, number)
            yield file, compare(program, file, (COMMANDS[number % len(COMMANDS)],))

    return tallied(compared())


def batches(items):
    items = iter(items)
    while batch := list(islice(items, BATCH)):
        yield batch


def compare_all(options):
    total = Counter()
    with ProcessPoolExecutor(options.jobs) as pool:
        results = [pool.submit(compare_given, options.program, batch) for batch in batches(given_files())]
        results += [
            pool.submit(compare_random, options.program, options.seed, batch) for batch in batches(range(options.runs))
        ]
        for result in results:
            tally, differs = result.result()
            total += tally
            if differs:
                pool.shutdown(cancel_futures=True)
                raise differs
    return total


def summary(total):
    def of(place, name):
        return sum(count for key, count in total.items() if key[place] == name)

    errors = {key[2] for key in total} & set(reader.KINDS)
    sorts = ", ".join(f"{of(0, sort)} {sort}" for sort in ("given", "spelled", "mutated", "assembled"))
    forms = f"{of(1, 'mps')} MPS and {of(1, 'lp')} LP"
    models = f"{of(2, 'model') + of(2, 'NotLp')} models, {of(2, 'NotLp')} of them NotLp"
    return f"{total.total()} files, each answered alike: {sorts}; {forms}; {models}; {len(errors)} kinds of error"


def arguments():
    parser = argparse.ArgumentParser(description=__doc__, formatter_class=argparse.RawDescriptionHelpFormatter)
    parser.add_argument("--program", type=Path, default=PROGRAM, help="the path of mpslp")
    parser.add_argument("--runs", type=int, default=2000, help="how many random files")
    parser.add_argument("--seed", type=int, default=1)
    parser.add_argument(
        "--jobs", type=int, default=None, help="how many processes; as many as there are processors if it is left out"
    )
    return parser.parse_args()


def main():
    options = arguments()
    options.program = options.program.resolve()
    check_close_cases()
    try:
        total = compare_all(options)
    except Differs as differs:
        kept = Path(f"failed.{differs.file.form}")
        kept.write_bytes(differs.file.text)
        print(f"{differs.command} of a {differs.file.sort} file, kept as {kept}:", file=sys.stderr)
        print(f"  reader:  {differs.expected!r}\n  program: {differs.found!r}", file=sys.stderr)
        return 1
    random_kinds = {kind for sort, _, kind in total if sort != "given"}
    missing = set(reader.KINDS) - NEVER - random_kinds
    if options.runs >= ENOUGH and missing:
        print(f"no random file has {', '.join(sorted(missing))}", file=sys.stderr)
        return 1
    print(summary(total))
    return 0


if __name__ == "__main__":
    sys.exit(main())
