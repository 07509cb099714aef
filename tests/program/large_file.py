#!/usr/bin/env python3
"""Check the built program on a file of some megabytes that has everything.

The file and its canonical text are made separately, each by the rules of the
format: names, set names and literals have up to 255 bytes, and no number is
longer than one digit in its shortest text. Then the same for rows and columns in
ascending and in descending order. A dense model, whose coefficients are too many
for the cache of a core, is written in canonical order as MPS, and in others as LP.

Exits with 1 if a result differs.
"""

import argparse
import subprocess
import sys
import tempfile
from pathlib import Path

ROOT = Path(__file__).resolve().parents[2]
PROGRAM = ROOT / "crates" / "mpslp" / "out" / "mpslp"

# Rows without the objective, and columns; the columns from the first marked one on are between the marker lines.
COUNT = 2000
FIRST_MARKED = 1000

# Of the dense model: more coefficients than FEWEST of crates/mpslp_builder_parts/src/moving.rt.
DENSE_ROWS, DENSE_COLUMNS = 600, 500

# For each type of bound: how its line writes the value, and the canonical lines of a continuous and of an integer
# column.
BOUNDS = [
    ("LO", "  2.", [" LO  BND  {}  2"], [" LO  BND  {}  2", " PL  BND  {}"]),
    ("UP", "  +7e0", [" UP  BND  {}  7"], [" UP  BND  {}  7"]),
    ("FX", "  .3e1", [" FX  BND  {}  3"], [" FX  BND  {}  3"]),
    ("FR", "", [" FR  BND  {}"], [" FR  BND  {}"]),
    ("MI", "", [" FR  BND  {}"], [" FR  BND  {}"]),
    ("PL", "  1e9", [], [" PL  BND  {}"]),
    ("BV", "", None, [" UP  BND  {}  1"]),
    ("LI", "  20e-1", None, [" LO  BND  {}  2", " PL  BND  {}"]),
    ("UI", "  7", None, [" UP  BND  {}  7"]),
]


def name(letter, number):
    """Names of each length from 5 to 255."""
    return f"{letter}{number:04}" + "x" * (number % 251)


def row(number):
    return name("r", number)


def column(number):
    return name("c", number)


def row_type(number):
    return "LGE"[number % 3]


def has_range(number):
    return number % 4 == 0


def right_side(number):
    return 3 + number % 5


def value(number):
    return 1 + number % 9


def is_integer(number):
    return number >= FIRST_MARKED or BOUNDS[number % 9][2] is None


def large_file():
    yield from ("* every section", "NAME  large", "OBJSENSE", "    MAX", "ROWS", " N  cost")
    yield from (f" {row_type(i)}  {row(i)}" for i in range(COUNT))
    yield "COLUMNS"
    for j in range(COUNT):
        if j == FIRST_MARKED:
            yield "    M1  'MARKER'  'INTORG'"
        further = f"  {row(j + 1)}  -0.5" if j < COUNT - 1 else ""
        yield f"\t{column(j)}  {row(j)}  {value(j)}.{'0' * 253}{further}"
        yield f" \t{column(j)}  cost  .25E+1"
    yield from ("    M2  'MARKER'  'INTEND'", "RHS")
    for i in range(0, COUNT, 2):
        yield f"    {'s' * 255}  {row(i)}  {right_side(i)}  {row(i + 1)}  {right_side(i + 1)}.0"
    yield "RANGES"
    yield from (f"    {row(i)}  2" for i in range(COUNT) if has_range(i))
    yield "BOUNDS"
    for j in range(COUNT):
        letters, number, _, _ = BOUNDS[j % 9]
        yield f" {letters}    {'b' * 255}  {column(j)}{number}"
    yield "ENDATA"


def canonical_columns(integer):
    for j in range(COUNT):
        if is_integer(j) != integer:
            continue
        yield f"    {column(j)}  cost  2.5"
        yield f"    {column(j)}  {row(j)}  {value(j)}"
        if j < COUNT - 1:
            yield f"    {column(j)}  {row(j + 1)}  -0.5"


def canonical_text():
    yield from ("NAME", "OBJSENSE", "    MAX", "ROWS", " N  cost")
    yield from (f" {'G' if has_range(i) else row_type(i)}  {row(i)}" for i in range(COUNT))
    yield "COLUMNS"
    yield from canonical_columns(False)
    yield "    MARKER  'MARKER'  'INTORG'"
    yield from canonical_columns(True)
    yield from ("    MARKER  'MARKER'  'INTEND'", "RHS")
    for i in range(COUNT):
        lower = right_side(i) - 2 if has_range(i) and row_type(i) == "L" else right_side(i)
        yield f"    RHS  {row(i)}  {lower}"
    yield "RANGES"
    yield from (f"    RNG  {row(i)}  2" for i in range(COUNT) if has_range(i))
    yield "BOUNDS"
    for j in range(COUNT):
        _, _, continuous, integer = BOUNDS[j % 9]
        for line in integer if is_integer(j) else continuous:
            yield line.format(column(j))
    yield "ENDATA"


def ordered_file(falling):
    """A file whose rows, columns, and rows within columns are all in ascending or all in descending byte order."""
    numbers = range(COUNT - 1, -1, -1) if falling else range(COUNT)
    yield from ("ROWS", " N  cost")
    yield from (f" G  {row(i)}" for i in numbers)
    yield "COLUMNS"
    for j in numbers:
        for i in sorted({j, COUNT - 1 - j}, reverse=falling):
            yield f"    {column(j)}  {row(i)}  {value(i)}"
    yield "ENDATA"


def dense_value(i, j):
    return 1 + (i * (DENSE_COLUMNS + 1) + j) % 9973


def dense_mps():
    """The canonical text of a model in which each column has each row."""
    yield from ("NAME", "ROWS", " N  cost")
    yield from (f" G  r{i:03}" for i in range(DENSE_ROWS))
    yield "COLUMNS"
    for j in range(DENSE_COLUMNS):
        yield f"    c{j:03}  cost  1"
        yield from (f"    c{j:03}  r{i:03}  {dense_value(i, j)}" for i in range(DENSE_ROWS))
    yield "ENDATA"


def dense_lp():
    """The same model, in which every other row names the columns in descending order."""
    yield from ("Minimize", " cost:", *(f"  + c{j:03}" for j in range(DENSE_COLUMNS)), "Subject To")
    for i in range(DENSE_ROWS):
        columns = range(DENSE_COLUMNS) if i % 2 == 0 else range(DENSE_COLUMNS - 1, -1, -1)
        yield f" r{i:03}:"
        yield from (f"  + {dense_value(i, j)} c{j:03}" for j in columns)
        yield "  >= 0"
    yield "End"


def text_of(lines):
    return "".join(f"{line}\n" for line in lines).encode()


def arguments():
    parser = argparse.ArgumentParser(description=__doc__, formatter_class=argparse.RawDescriptionHelpFormatter)
    parser.add_argument("--program", type=Path, default=PROGRAM, help="the path of mpslp")
    return parser.parse_args()


def main():
    program = arguments().program.resolve()
    wrong = []

    def run(*words, text=b""):
        done = subprocess.run([program, *words], input=text, capture_output=True)
        return done.returncode, done.stdout, done.stderr

    def wants(place, is_right):
        if not is_right:
            wrong.append(place)

    text, canonical = text_of(large_file()), text_of(canonical_text())
    wants("a file of over two million bytes", len(text) > 2_000_000)
    wants("its canonical text", run("canon", "mps", "mps", "-", text=text) == (0, canonical, b""))
    wants("a canonical text", run("canon", "mps", "mps", "-", text=canonical) == (0, canonical, b""))
    status, lp, _ = run("canon", "mps", "lp", "-", text=text)
    wants("its canonical LP", status == 0)
    wants("its canonical text from LP", run("canon", "lp", "mps", "-", text=lp) == (0, canonical, b""))
    with tempfile.TemporaryDirectory() as folder:
        path, other = Path(folder, "large.mps"), Path(folder, "other.mps")
        path.write_bytes(text)
        other.write_bytes(canonical)
        wants("a model and itself", run("same", "mps", path, "mps", other) == (0, b"same\n", b""))
        changed = canonical.replace(f"RHS  {row(1)}  {right_side(1)}\n".encode(), f"RHS  {row(1)}  9\n".encode())
        wants("a text with another digit", changed != canonical)
        other.write_bytes(changed)
        wants("two models", run("same", "mps", other, "mps", path) == (1, b"not the same\n", b""))
    rising = run("canon", "mps", "mps", "-", text=text_of(ordered_file(False)))
    falling = run("canon", "mps", "mps", "-", text=text_of(ordered_file(True)))
    wants("names that rise", rising[0] == 0 and len(rising[1]) > 500_000)
    wants("names that fall", falling == rising)
    dense = text_of(dense_mps())
    wants("a dense model", run("canon", "mps", "mps", "-", text=dense) == (0, dense, b""))
    wants("the dense model from LP", run("canon", "lp", "mps", "-", text=text_of(dense_lp())) == (0, dense, b""))
    for place in wrong:
        print(f"{place}: answered in another way", file=sys.stderr)
    print(f"a large file: {len(wrong)} answered in another way")
    return 1 if wrong else 0


if __name__ == "__main__":
    sys.exit(main())
