"""Headers by which a file names the program that wrote it."""

import re
from dataclasses import dataclass

from mpslp._files._sources import Format


@dataclass(frozen=True)
class Writer:
    """A program that writes a header of its own: its name, and the dialect that its files are read in."""

    name: str
    dialect: str

    def __str__(self) -> str:
        return f"written by {self.name} (its header says so): read with --from {self.dialect}"


_COINUTILS = Writer("CoinUtils", "coinutils")
_GLPSOL = Writer("glpsol", "glpsol")
_LP_SOLVE = Writer("lp_solve", "lp_solve")
_PULP = Writer("PuLP", "pulp")
_QSOPT = Writer("QSopt_ex", "qsopt")
_SENSE = r"(?:minimize|maximize)\n"

# A header includes as much of what comes after it as no other program writes: CPLEX writes `\Problem name:` as well,
# but indents the objective, and a first comment in `\* *\` is often written by hand.
_HEADERS: dict[Format, tuple[tuple[str, Writer], ...]] = {
    "mps": (
        (r"\*SENSE:(?:Minimize|Maximize)[ \t]*\n", _PULP),
        (r"\* Problem: .*\n\* Class: .*\n", _GLPSOL),
        (r"\*<meta creator='lp_solve [^\n]*\n", _LP_SOLVE),
    ),
    "lp": (
        (r"\\\* Problem: .* \*\\\n\n" + _SENSE, _GLPSOL),
        (r"\\Problem name:.*\n\n" + _SENSE + r"[^\s:]+:\s", _COINUTILS),
        (r"\\\* Objective function \*\\\n" + _SENSE, _LP_SOLVE),
        (r"\\\* \S+ \*\\\n" + _SENSE + r"[^\s:]+:\s", _PULP),
        (r"problem[ \t]*\n(?:[ \t]*\S+[ \t]*\n)?" + _SENSE, _QSOPT),
    ),
}
MOST_OF_HEADER = 100_000
"""More characters than a header has; a line of a whole file may be very long."""


def writer_of(text: str, format: Format) -> Writer | None:
    """The program that the header of a text names, if it is one whose files are read in a dialect."""
    first = text[:MOST_OF_HEADER].replace("\r\n", "\n")
    return next((writer for header, writer in _HEADERS[format] if re.match(header, first, re.IGNORECASE)), None)
