"""The modules of the Python package that need no library, for scripts that run without the wheel.

If the package is installed, it is that one; else the sources of this repository, or those in the directory
MPSLP_SOURCES, with the program mpslp in place of the library. What the program said of a text is kept, for
other scripts, too, if there is a file MPSLP_ANSWERS.
"""

import atexit
import importlib.util
import json
import os
import re
import subprocess
import sys
import types
from pathlib import Path
from unittest.mock import patch

from repository import ROOT

GIVEN = os.environ.get("MPSLP_SOURCES")
SOURCES = Path(GIVEN) if GIVEN else ROOT / "python" / "src" / "mpslp"
PROGRAM = ROOT / "crates" / "mpslp" / "out" / "mpslp"
FORMATS = ("mps", "lp")


def _stand_in():
    package = types.ModuleType("mpslp")
    package.__path__ = [str(SOURCES)]
    library = types.ModuleType("mpslp._mpslp")
    library.MPS, library.LP = range(len(FORMATS))
    library.load = _load
    library.count_line_feeds = lambda content, start, end: content.count(b"\n", start, end)
    library.find_first_column = _find_first_column
    library.find_marker = _find_marker
    library.first_fields = _first_fields
    library.bounded_columns = _bounded_columns
    sys.modules.update({"mpslp": package, "mpslp._mpslp": library})
    package._mpslp = library


def _find_first_column(content, start, end):
    found = re.compile(rb"\n[A-Z*]").search(content, start, end)
    return -1 if found is None else found.start() + 1 - start


def _find_marker(content, start, end):
    place = content.find(b"'MARKER'", start, end)
    return place - start if place >= 0 else -1


def _first_fields(content, start, end):
    fields = re.findall(rb"\n[ \t]+(\S+)", content[start:end])
    return [field for field, before in zip(fields, [b"", *fields]) if field != before]


def _bounded_columns(content, start, end, types_without_number):
    lines = (line.split() for line in re.findall(rb"\n([ \t]+\S[^\n]*)", content[start:end]))
    return [
        fields[2 if len(fields) == 4 or (len(fields) == 3 and fields[0] in types_without_number.split()) else 1]
        for fields in lines
    ]


class _UnknownArrays:
    """The arrays of a text that the program accepts, as far as adapt asks: a column without coefficients, as there may
    be one."""

    def doubles(self):
        return bytes(8), bytes(8)


def _load(content, number):
    """Raises the error of the program if it rejects a text; without the program each text is accepted."""
    from mpslp._errors._faults import ModelFileError

    if not PROGRAM.exists():
        return _UnknownArrays()
    key = f"{FORMATS[number]} {content.decode('latin-1')}"
    if key not in _answers:
        done = subprocess.run([PROGRAM, "canon", FORMATS[number], "mps", "-"], input=content, capture_output=True)
        _answers[key] = done.stderr.decode("latin-1") if done.returncode else ""
    if _answers[key]:
        line, kind, name = re.search(r"(?:line (\d+)|file): (\w+)(?: (\S+))?", _answers[key]).groups()
        raise ModelFileError(kind, line and int(line), name)
    return _UnknownArrays()


def _load_answers():
    """What the program said of texts, from the file MPSLP_ANSWERS; if there is none, it is written at the end."""
    path = Path(os.environ["MPSLP_ANSWERS"])
    if path.exists():
        _answers.update(json.loads(path.read_text()))
    else:
        atexit.register(lambda: path.write_text(json.dumps(_answers)))


_answers = {}
if "MPSLP_ANSWERS" in os.environ:
    _load_answers()
if GIVEN or importlib.util.find_spec("mpslp") is None or importlib.util.find_spec("mpslp._adapt") is None:
    _stand_in()

from mpslp._adapt import AdaptError, _texts, adapt_text, command  # noqa: E402
from mpslp._portable import AGREED, KINDS, remarks_of  # noqa: E402
from mpslp._solver_texts import SOLVERS, SolverError, solver_text  # noqa: E402
from mpslp._warnings import KINDS as WARNING_KINDS, warnings_in  # noqa: E402

__all__ = [
    "AGREED",
    "AdaptError",
    "KINDS",
    "SOLVERS",
    "SolverError",
    "WARNING_KINDS",
    "adapt_rejected",
    "adapt_text",
    "command",
    "remarks_of",
    "solver_text",
    "warnings_in",
]


def adapt_rejected(content, format, dialect=None):
    """What adapt makes of a text that is taken as rejected, in much less time than with the program: its rules and its
    check."""
    with patch.object(_texts, "accepted", return_value=None), patch.object(_texts, "require_accepted"):
        return adapt_text(content, format, dialect)
