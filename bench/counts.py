#!/usr/bin/env python3
"""Compare the counts that mpslp and glpsol report for the same MPS files.

Without paths: the files of examples/, and those that the package glpk-utils
installs. glpsol counts the objective among rows and coefficients, mpslp does
not. Exits with 1 if the counts of a file differ, or mpslp rejects a file
that glpsol reads as free MPS. A file that glpsol reads only as fixed MPS, such
as one with spaces in names or with comments after fields, is outside the
profile of mpslp.
"""

import argparse
import re
import shutil
import subprocess
import sys
from pathlib import Path

HERE = Path(__file__).resolve().parent
EXAMPLES = HERE.parent / "examples"
INSTALLED = Path("/usr/share/doc/glpk-utils/examples")
READER = HERE.parent / "crates" / "try_library" / "out" / "try_library"

COUNTS = re.compile(r"^(\d+) rows?, (\d+) columns?, (\d+) non-zeros?$", re.MULTILINE)
OURS = re.compile(r"^rows (\d+) columns (\d+) elements (\d+)$", re.MULTILINE)


def counts_of_glpsol(path):
    """Rows, columns and coefficients, the objective among them; None if it does not read the file as free MPS."""
    output = subprocess.run(["glpsol", "--freemps", str(path), "--check"], capture_output=True, text=True).stdout
    found = COUNTS.search(output)
    return tuple(int(count) for count in found.groups()) if found else None


def answer_of_mpslp(reader, path):
    """Its counts without the objective, or the line of its error."""
    with open(path, "rb") as source:
        output = subprocess.run([str(reader), "read"], stdin=source, capture_output=True, text=True).stdout
    found = OURS.search(output)
    return tuple(int(count) for count in found.groups()) if found else output.strip()


def objective_entries(path):
    """The number of nonzero coefficients of the first row of type N."""
    objective, section, count = None, None, 0
    for line in path.read_text(encoding="latin-1").splitlines():
        if line.startswith("*") or not line.strip():
            continue
        fields = line.split()
        if line[0] not in " \t":
            section = fields[0]
        elif section == "ROWS" and fields[0] == "N" and objective is None:
            objective = fields[1]
        elif section == "COLUMNS" and fields[1] != "'MARKER'":
            pairs = zip(fields[1::2], fields[2::2])
            count += sum(row == objective and float(value) != 0 for row, value in pairs)
    return count


def agree(reader, path):
    theirs = counts_of_glpsol(path)
    ours = answer_of_mpslp(reader, path)
    if theirs is None:
        print(f"{path.name}: glpsol does not read its fields; mpslp: {ours}")
        return True
    if isinstance(ours, str):
        print(f"{path.name}: mpslp: {ours}; glpsol: {theirs}")
        return False
    rows, columns, entries = theirs
    expected = (rows - 1, columns, entries - objective_entries(path))
    print(
        f"{path.name}: {ours[0]} rows, {ours[1]} columns, {ours[2]} elements: "
        + ("the same" if ours == expected else f"glpsol has {expected}")
    )
    return ours == expected


def main():
    parser = argparse.ArgumentParser(description=__doc__, formatter_class=argparse.RawDescriptionHelpFormatter)
    parser.add_argument("--reader", default=READER, help="the path of try_library")
    parser.add_argument("paths", nargs="*", type=Path)
    options = parser.parse_args()
    if shutil.which("glpsol") is None:
        sys.exit("glpsol is not there: install glpk-utils")
    paths = options.paths or sorted(EXAMPLES.glob("*.mps")) + sorted(INSTALLED.glob("*.mps"))
    results = [agree(options.reader, path) for path in paths]
    sys.exit(0 if all(results) else 1)


if __name__ == "__main__":
    main()
