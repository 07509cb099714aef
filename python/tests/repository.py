"""Where the files are that the tests read, and what they share."""

import sys
from pathlib import Path

ROOT = Path(__file__).resolve().parents[2]
EXAMPLES = ROOT / "examples"
VECTORS = ROOT / "vectors"

# Models, spellings, a second reader and what else is shared with the tests of the program: `from shared import models`.
sys.path.insert(0, str(ROOT / "tests"))


def form_of(path):
    """The format of a file, by its ending."""
    return path.suffix[1:]


def model_files(folder):
    return sorted(path for path in folder.iterdir() if path.suffix in (".mps", ".lp"))


def large_text(columns):
    """MPS text of so many columns, in an order that is not canonical."""
    names = [f"x{number}" for number in range(columns)]
    rows = [f"r{number}" for number in range(columns // 4 + 1)]
    lines = ["ROWS", " N  cost", *(f" L  {row}" for row in rows), "COLUMNS"]
    lines += [f"    {name}  cost  {number}.50  {rows[number // 4]}  1e1" for number, name in enumerate(names)]
    lines += ["RHS", *(f"    RHS  {row}  40" for row in rows), "ENDATA"]
    return "".join(line + "\n" for line in lines).encode()
