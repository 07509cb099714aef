#!/usr/bin/env python3
"""Compare the canonical texts of the program with their frozen digests.

tests/program/canonical-digests.tsv has a row for each accepted file of vectors/ and
examples/: the SHA-256 digests of its canonical MPS and LP texts or, if a name is
not legal in LP, the report of that. docs/VERSIONS.md guarantees that these digests
do not change. Each accepted file needs a row, and each row a file.

Exits with 1 if a digest differs, or a row or a file is missing, and names the file.
"""

import argparse
import csv
import hashlib
import subprocess
import sys
from pathlib import Path

ROOT = Path(__file__).resolve().parents[2]
PROGRAM = ROOT / "crates" / "mpslp" / "out" / "mpslp"
TABLE = ROOT / "tests" / "program" / "canonical-digests.tsv"
FOLDERS = ("examples", "vectors")
FORMATS = ("mps", "lp")
TITLES = ["file", "canonical MPS", "canonical LP"]
REJECTED = 2


def inputs():
    """The model files, by their paths from the top of the repository."""
    files = [path for folder in FOLDERS for path in (ROOT / folder).iterdir() if path.suffix[1:] in FORMATS]
    return sorted(path.relative_to(ROOT).as_posix() for path in files)


def answer(program, name, to):
    """The digest of a canonical text, or the report why there is none."""
    words = [program, "canon", name.rsplit(".", 1)[1], to, name]
    done = subprocess.run(words, cwd=ROOT, capture_output=True)
    if done.returncode == 0:
        return hashlib.sha256(done.stdout).hexdigest()
    if done.returncode == REJECTED and not done.stdout:
        return done.stderr.decode().removesuffix("\n")
    sys.exit(f"{name} to {to} ends with status {done.returncode}: {done.stderr.decode(errors='replace').strip()}")


def is_digest(text):
    return len(text) == 2 * hashlib.sha256().digest_size and " " not in text


def answers(program):
    """The results of the program for each file that it accepts."""
    found = {name: [answer(program, name, to) for to in FORMATS] for name in inputs()}
    return {name: texts for name, texts in found.items() if is_digest(texts[0])}


def frozen():
    """The rows of the table."""
    if not TABLE.exists():
        return {}
    with open(TABLE, newline="") as table:
        titles, *rows = csv.reader(table, delimiter="\t", quoting=csv.QUOTE_NONE)
    names = [name for name, *_ in rows]
    if titles != TITLES or names != sorted(set(names)):
        sys.exit(f"{TABLE}: the titles are other ones, a file has two rows, or the rows are not in order")
    return {name: texts for name, *texts in rows}


def differences(kept, found):
    """A line for each file whose row differs from the program's results."""
    for name in sorted(kept.keys() | found.keys()):
        if name not in found:
            yield f"{name}: frozen, and the file is missing or rejected"
        elif name not in kept:
            yield f"{name}: accepted, and not frozen: --add gives it a row"
        else:
            for title, old, new in zip(TITLES[1:], kept[name], found[name], strict=True):
                if old != new:
                    yield f"{name}: {title} is {new}, frozen as {old}"


def write(rows):
    lines = ["\t".join(fields) + "\n" for fields in (TITLES, *([name, *rows[name]] for name in sorted(rows)))]
    TABLE.write_text("".join(lines))


def arguments():
    parser = argparse.ArgumentParser(description=__doc__, formatter_class=argparse.RawDescriptionHelpFormatter)
    parser.add_argument("--program", type=Path, default=PROGRAM, help="the path of mpslp")
    parser.add_argument("--add", action="store_true", help="add the rows of files that have none; no row is changed")
    return parser.parse_args()


def main():
    options = arguments()
    program = options.program.resolve()
    if not program.is_file():
        sys.exit(f"{program} is missing: make run builds the program")
    kept, found = frozen(), answers(program)
    if options.add:
        kept = found | kept
        write(kept)
    wrong = list(differences(kept, found))
    for line in wrong:
        print(line, file=sys.stderr)
    print(f"canonical texts of {len(found)} files: {len(wrong)} differences from the frozen digests")
    return 1 if wrong else 0


if __name__ == "__main__":
    sys.exit(main())
