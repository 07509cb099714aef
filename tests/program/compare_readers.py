#!/usr/bin/env python3
"""Compare what glpsol and CoinUtils read from a file with what mpslp reads, in full.

Each accepted file of examples/ and vectors/ is read by the model of independent_reader.py,
which make random compares with the program; so no built program is needed. glpsol and
CoinUtils read the same file, and every row limit, bound, type, name and coefficient is
compared, as doubles. A line that a reader requires and that means nothing is added to MPS
before: for glpsol NAME, and for CoinUtils, the reader of clp and cbc, `NAME ANY FREE` and
RHS, as the recipe of docs/SOLVERS.md has it.

tests/program/reader_differences.tsv lists what differs: the reader, the format, what differs, the
files, and the reason. A difference that is not listed is reported, and one that is listed
and not found. --list prints the differences as they are found.

It needs glpk-utils, and for CoinUtils g++ and coinor-libcoinutils-dev. What is missing is
reported and skipped. Exits with 1 if something differs from the table.
"""

import argparse
import csv
import shutil
import subprocess
import sys
import tempfile
from collections import defaultdict
from collections.abc import Callable
from concurrent.futures import ThreadPoolExecutor
from pathlib import Path

sys.path.insert(0, str(Path(__file__).resolve().parents[1]))

from shared.other_readers import Read, Rejected, accepted_files, by_coin, by_glpsol, coin_reader, differences, minimised

TABLE = Path(__file__).resolve().parent / "reader_differences.tsv"


def compared(name: str, read: Callable[[str, Path], Read], form: str, text: bytes, want: Read) -> str:
    """What differs for a file, or an empty text."""
    with tempfile.TemporaryDirectory() as folder:
        file = Path(folder) / f"model.{form}"
        file.write_bytes(text)
        try:
            have = read(form, file)
        except Rejected:
            return "rejected"
        except subprocess.TimeoutExpired:
            return "does not end"
    return ", ".join(differences(have, minimised(want) if name == "CoinUtils" and form == "lp" else want))


def readers(folder: Path) -> dict[str, Callable[[str, Path], Read]]:
    """The readers that are installed."""
    found: dict[str, Callable[[str, Path], Read]] = {}
    if shutil.which("glpsol"):
        found["glpsol"] = by_glpsol
    else:
        print("skipped: glpsol: apt-get install glpk-utils")
    program = coin_reader(folder)
    if program is not None:
        found["CoinUtils"] = lambda form, file: by_coin(program, form, file)
    return found


def found_differences(installed: dict) -> tuple[int, dict[tuple[str, str, str], list[str]]]:
    """The number of comparisons, and the files by reader, format and difference."""
    tasks = [
        (name, read, path, form, text, want)
        for path, form, text, want in accepted_files()
        for name, read in installed.items()
    ]
    with ThreadPoolExecutor() as pool:
        results = list(pool.map(lambda task: compared(task[0], task[1], task[3], task[4], task[5]), tasks))
    found = defaultdict(list)
    for (name, _, path, form, _, _), difference in zip(tasks, results):
        if difference:
            found[name, form, difference].append(path)
    return len(tasks), dict(found)


def known_differences() -> dict[tuple[str, str, str], list[str]]:
    known = defaultdict(list)
    with TABLE.open(newline="") as file:
        for row in list(csv.reader(file, delimiter="\t", quoting=csv.QUOTE_NONE))[1:]:
            known[tuple(row[:3])] += row[3].split()
    return dict(known)


def main() -> int:
    parser = argparse.ArgumentParser(description=__doc__, formatter_class=argparse.RawDescriptionHelpFormatter)
    parser.add_argument("--list", action="store_true", help="print the differences as they are found")
    options = parser.parse_args()
    with tempfile.TemporaryDirectory() as folder:
        installed = readers(Path(folder))
        number, found = found_differences(installed)
    if options.list:
        for key, files in sorted(found.items()):
            print("\t".join([*key, " ".join(files)]))
        return 0
    known, differing = known_differences(), []
    for key in sorted(found.keys() | {key for key in known if key[0] in installed}):
        have, want = set(found.get(key, ())), set(known.get(key, ()))
        differing += [f"{key[0]}, {file}: {key[2]}" for file in sorted(have - want)]
        differing += [f"{key[0]}, {file}: not found: {key[2]}" for file in sorted(want - have)]
    print(
        "\n".join(
            [
                *differing,
                f"{number} compared, {sum(map(len, found.values()))} known differences, {len(differing)} not as "
                "the table has them",
            ]
        )
    )
    return 1 if differing else 0


if __name__ == "__main__":
    sys.exit(main())
