#!/usr/bin/env python3
"""Measure how models that are the same but for names are found: maps of a collection, and times and memory of large
files.

    any_names.py [--models N] [--sizes 10M,..] [--shapes SHAPE,..] [--python PYTHON] [--only collection|large]

First all models of vectors/, and N random ones with many symmetries, are renamed and shuffled, and each map is looked
for. Then `same --any-names` and `digest --any-names` run on large files and on their renamed copies, and the table of
docs/SPEED.md is printed: it has processor time, with that of igraph's process, and the largest resident memory of a
process. Exits with 1 if a map is not found.

PYTHON has the package, as the one of `make python-check` in build/python/bin/python.
"""

import argparse
import os
import random
import subprocess
import sys
import tempfile
from collections.abc import Iterator
from pathlib import Path
from typing import NamedTuple

HERE = Path(__file__).resolve().parent
ROOT = HERE.parent

# Run by the Python that has the package.
RENAME = """
import random, sys
import mpslp
def drawn(draw, letter, names):
    found = [f"{letter}{number}" for number in range(len(names))]
    draw.shuffle(found)
    return dict(zip(names, found))
for path, other in zip(sys.argv[1::2], sys.argv[2::2]):
    model, draw = mpslp.load(path), random.Random(path.rpartition("/")[2])
    rows, columns = drawn(draw, "R", model.rows), drawn(draw, "C", model.columns)
    names = {"objective": {model.objective: "other"}, "rows": rows, "columns": columns}
    mpslp.dump(mpslp.renamed(model, names), other)
"""
FIND_ALL = """
import sys, time
import mpslp
found, slowest, wrong = 0, (0.0, ""), 0
for first, second in zip(sys.argv[1::2], sys.argv[2::2]):
    one, other = mpslp.load(first), mpslp.load(second)
    start = time.perf_counter()
    try:
        names = mpslp.same_but_for_names(one, other)
        result = "" if names is not None and mpslp.renamed(one, names) == other else "NOT THE SAME"
    except mpslp.UndecidedError:
        result = "not decided"
    slowest = max(slowest, (time.perf_counter() - start, first))
    if mpslp.digest_any_names(one) != mpslp.digest_any_names(other):
        result = "OTHER DIGEST"
    found += not result
    if result:
        wrong += 1
        print(f"{first}: {result}")
print(f"maps found: {found} of {found + wrong}; the slowest took {slowest[0]:.2f} s: {slowest[1].rpartition('/')[2]}")
sys.exit(wrong > 0)
"""


# ---- models with many symmetries, as LP


def assignment(draw: random.Random, size: int) -> str:
    """Each of some agents does one of some tasks; the costs are few, and differ by groups."""
    groups, kinds = draw.randint(1, 3), draw.randint(1, 3)
    cost = {(i, j): 1 + (i % groups) * (j % kinds) for i in range(size) for j in range(size)}
    rows = [_row(f"a{i}", [f"x{i}_{j}" for j in range(size)], "= 1") for i in range(size)]
    rows += [_row(f"t{j}", [f"x{i}_{j}" for i in range(size)], "= 1") for j in range(size)]
    return _text([f"{value} x{i}_{j}" for (i, j), value in cost.items()], rows, [f"x{i}_{j}" for i, j in cost])


def packing(draw: random.Random, size: int) -> str:
    """Items of few weights go into equal bins."""
    bins, weights = size, [draw.randint(1, 3) for _ in range(2 * size)]
    items = range(len(weights))
    rows = [_row(f"b{i}", [f"{weights[j]} x{i}_{j}" for j in items] + [f"- 9 y{i}"], "<= 0") for i in range(bins)]
    rows += [_row(f"i{j}", [f"x{i}_{j}" for i in range(bins)], "= 1") for j in items]
    return _text(
        [f"y{i}" for i in range(bins)],
        rows,
        [f"y{i}" for i in range(bins)] + [f"x{i}_{j}" for i in range(bins) for j in items],
    )


def grid(draw: random.Random, size: int) -> str:
    """A grid, or a ring of grids, in which each place has a row of itself and its neighbours."""
    wide, high, is_ring = size + draw.randint(0, 2), size, draw.random() < 0.5
    rows = []
    for i in range(wide):
        for j in range(high):
            terms = [f"4 x{i}_{j}"]
            for a, b in ((i + 1, j), (i - 1, j), (i, j + 1), (i, j - 1)):
                a, b = (a % wide, b % high) if is_ring else (a, b)
                if 0 <= a < wide and 0 <= b < high and f"- x{a}_{b}" not in terms and (a, b) != (i, j):
                    terms.append(f"- x{a}_{b}")
            rows.append(_row(f"r{i}_{j}", terms, ">= 1"))
    return _text([f"x{i}_{j}" for i in range(wide) for j in range(high)], rows, [])


def blocks(draw: random.Random, size: int, copies: int = 200) -> str:
    """Copies of one block, with a row that has all of them, or without."""
    block = [
        [f"{draw.choice((1, 2))} x{{0}}_{j}" for j in sorted(draw.sample(range(size), draw.randint(1, size)))]
        for _ in range(size)
    ]
    rows = [
        _row(f"r{copy}_{i}", [term.format(copy) for term in terms], "<= 4")
        for copy in range(copies)
        for i, terms in enumerate(block)
    ]
    names = [f"x{copy}_{j}" for copy in range(copies) for j in range(size)]
    if draw.random() < 0.5:
        rows.append(_row("all", names, "<= 100"))
    return _text(names, rows, names)


def _row(name: str, terms: list[str], limit: str) -> str:
    return f" {name}: {_sum(terms)} {limit}"


def _sum(terms: list[str]) -> str:
    """A sum of terms, some on a line."""
    signed = [term if number == 0 or term.startswith("- ") else f"+ {term}" for number, term in enumerate(terms)]
    return "\n  ".join(" ".join(signed[at : at + 8]) for at in range(0, len(signed), 8))


def _text(costs: list[str], rows: list[str], integers: list[str]) -> str:
    bounds = "".join(f" {name} <= 1\n" for name in integers)
    listed = "".join(f" {name}\n" for name in integers)
    return (
        f"Minimize\n obj: {_sum(costs)}\nSubject To\n" + "\n".join(rows) + f"\nBounds\n{bounds}Generals\n{listed}End\n"
    )


SYMMETRIES = (assignment, packing, grid, blocks)

# Sizes whose text has about 10 MB.
LARGE = {"assignment": 330, "packing": 200, "grid": 300}
COPIES = 25_000


def collection(folder: Path, count: int) -> Iterator[Path]:
    """The models of vectors/ that are accepted, and random ones."""
    for path in sorted((ROOT / "vectors").glob("*.canonical.*")):
        yield path
    for number in range(count):
        draw = random.Random(number)
        make = SYMMETRIES[number % len(SYMMETRIES)]
        path = folder / f"{make.__name__}{number}.lp"
        path.write_text(make(draw, draw.randint(2, 9 if make is not blocks else 6)))
        yield path


def large(folder: Path, sizes: list[str], shapes: list[str]) -> Iterator[Path]:
    for size in sizes:
        yield _made(folder / f"thin-{size}.mps", "generate.py", "--size", size)
    for shape in shapes:
        yield _made(folder / f"{shape}-10M.mps", "shapes.py", shape, "10M")
    for make in (assignment, packing, grid):
        count = LARGE[make.__name__]
        path = folder / f"{make.__name__}-{count}.lp"
        path.write_text(make(random.Random(1), count))
        yield path
    path = folder / f"blocks-{COPIES}.lp"
    path.write_text(blocks(random.Random(3), 4, COPIES))
    yield path


def _made(path: Path, *words: str) -> Path:
    with path.open("wb") as file:
        subprocess.run([sys.executable, str(HERE / words[0]), *words[1:]], stdout=file, check=True)
    return path


def renamed(paths: list[Path], folder: Path, python: str) -> list[Path]:
    """The models of these files under other names, in another order, in MPS."""
    others = [folder / f"renamed-{number}-{path.stem}.mps" for number, path in enumerate(paths)]
    pairs = [str(each) for pair in zip(paths, others) for each in pair]
    subprocess.run([python, "-c", RENAME, *pairs], check=True)
    return others


class Measured(NamedTuple):
    """Processor time of a command and its processes, the largest resident memory of one, and the first line printed."""

    seconds: float
    megabytes: float
    printed: str


def measured(words: list[str]) -> Measured:
    with tempfile.TemporaryFile() as output:
        child = subprocess.Popen(words, stdout=output, stderr=subprocess.STDOUT)
        _, status, usage = os.wait4(child.pid, 0)
        child.returncode = os.waitstatus_to_exitcode(status)
        output.seek(0)
        printed = output.read().decode().partition("\n")[0]
    return Measured(usage.ru_utime + usage.ru_stime, usage.ru_maxrss * 1024 / 1e6, printed)


def all_are_found(folder: Path, count: int, python: str) -> bool:
    """Whether the maps of a collection are found, which is printed."""
    paths = list(collection(folder, count))
    others = renamed(paths, folder, python)
    pairs = [str(each) for pair in zip(paths, others) for each in pair]
    return subprocess.run([python, "-c", FIND_ALL, *pairs], check=False).returncode == 0


def large_are_found(paths: Iterator[Path], python: str) -> bool:
    """Whether the maps of large files are found; prints the rows of a table."""
    print(
        "| file | MB | same --any-names, s | memory, MB | digest --any-names, s | memory, MB |",
        "|---" * 6 + "|",
        sep="\n",
    )
    are_found = True
    for path in paths:
        (other,) = renamed([path], path.parent, python)
        tool = [python, "-m", "mpslp"]
        same = measured([*tool, "same", "--any-names", "--no-warnings", str(path), str(other)])
        digest = measured([*tool, "digest", "--any-names", str(path)])
        name, size = path.stem.rpartition("-")[0], path.stat().st_size / 1e6
        print(
            f"| {name} | {size:.1f} | {same.seconds:.1f} | {same.megabytes:.0f}"
            f" | {digest.seconds:.1f} | {digest.megabytes:.0f} |",
            flush=True,
        )
        if same.printed != "same but for names":
            are_found = False
            print(f"{path.name}: {same.printed}", flush=True)
        path.unlink()
        other.unlink()
    return are_found


def main() -> int:
    parser = argparse.ArgumentParser(description=__doc__, formatter_class=argparse.RawDescriptionHelpFormatter)
    parser.add_argument("--models", type=int, default=300, help="how many random models there are")
    parser.add_argument("--sizes", default="10M,100M", help="sizes of files of generate.py")
    parser.add_argument(
        "--shapes", default="network,binary,many-rows,many-columns,covering", help="shapes of shapes.py, of 10 MB"
    )
    python = str(ROOT / "build" / "python" / "bin" / "python")
    parser.add_argument("--python", default=python, help="a Python that has the package")
    parser.add_argument("--only", choices=("collection", "large"), help="what is measured, if not both")
    options = parser.parse_args()
    shapes = [each for each in options.shapes.split(",") if each]
    are_found = True
    with tempfile.TemporaryDirectory() as name:
        folder = Path(name)
        if options.only != "large":
            are_found = all_are_found(folder, options.models, options.python)
        if options.only != "collection":
            are_found &= large_are_found(large(folder, options.sizes.split(","), shapes), options.python)
    return 0 if are_found else 1


if __name__ == "__main__":
    sys.exit(main())
