"""Every error with its causes and fixes: the rows of docs/errors.tsv.

A line of the file is one cause: the kind of the error, the cause, the fix, and an
example: its place, and its lines before and after the fix, with \\n between lines; then the
rule of the messages of mpslp-tools that recognises the cause, if it needs one.
"""

import csv
import re
from pathlib import Path
from typing import NamedTuple

SOURCE = Path(__file__).resolve().parents[2] / "docs" / "errors.tsv"


class Cause(NamedTuple):
    kind: str
    cause: str
    fix: str
    place: str
    before: str
    after: str
    rule: str

    def example(self):
        """The example for a cell of a table in Markdown."""
        if not self.place:
            return ""
        shown = [
            "<br>".join(f"`{line}`" for line in lines.split("\n") if line) or "(nothing)"
            for lines in (self.before, self.after)
        ]
        return f"{self.place}: {shown[0]} → {shown[1]}"

    def file(self, lines):
        """The format and the text of a file that has the lines of the example."""
        rows, columns, head, tail = " N  COST\n L  LIM\n", "    X  COST  1  LIM  1\n", "", ""
        lines = f"{lines}\n" if lines else ""
        match self.place:
            case "MPS":
                tail = lines
            case "MPS head":
                head = lines
            case "MPS ROWS":
                rows, columns = lines, "    X  COST  1\n"
            case "MPS COLUMNS":
                columns = lines
            case "LP":
                return "lp", f"min x\nst\n{lines}end\n"
            case "LP objective":
                return "lp", f"min {lines}end\n"
            case "LP file":
                return "lp", lines
            case _:
                raise ValueError(f"no such place: {self.place}")
        return "mps", f"NAME\n{head}ROWS\n{rows}COLUMNS\n{columns}{tail}ENDATA\n"


def causes():
    with SOURCE.open(encoding="utf-8", newline="") as file:
        for row in csv.reader(file, delimiter="\t", quoting=csv.QUOTE_NONE):
            if row[0] != "kind":
                yield Cause(*(cell.replace("\\n", "\n") for cell in row))


def plain(text):
    """A text for the manual page: without code marks, and with the file instead of a link."""
    return re.sub(r"\[[^\]]*\]\(([^)#]*)[^)]*\)", r"\1", text).replace("`", "")
