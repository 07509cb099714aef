#!/usr/bin/env python3
"""Check that something starts each script and program of tests/ and python/tests/: tests/documents/scripts_check.py

A script counts as started if the merge gate, a target of the Makefile or another script names its file, or imports it
as a module; each test_*.py of python/tests/ is started by its run.py. A script of these directories starts others only
if it is started itself, so scripts that only start one another are found. Comments and documents start nothing. Exits
with 1 if a script is started by nothing, or if this test does not find one.
"""

import re
import sys
import tempfile
import unittest
from collections.abc import Iterable
from pathlib import Path

from names_check import COMMENTS

ROOT = Path(__file__).resolve().parents[2]
# What may start a script, from the top: whatever it is, somebody runs it as a command of the repository.
STARTERS = (
    "Makefile",
    ".ci/run",
    "scripts/*.py",
    "lib/*.sh",
    "python/*.sh",
    "python/*.py",
    "python/tests/test_*.py",
    "release/*",
    "bench/*.py",
    "bench/*.sh",
)
FOLDERS = ("tests", "python/tests")
SCRIPTS = (".py", ".sh", ".c", ".cpp")
# What is imported: modules, modules of a room, or what a module has.
IMPORT = re.compile(
    r"^ *(?:import ([\w, .]+)|from (?:shared|\.) import ([\w, .]+)|from (?:shared)?\.?(\w+) import )", re.M
)


def code_of(file: Path) -> str:
    """A file without its comments."""
    comment = COMMENTS.get(file.suffix, COMMENTS[".sh"] if file.suffix in ("", ".mk") else r"(?!)")
    return re.sub(comment, "", file.read_text(errors="replace"), flags=re.M)


def started_by(code: str) -> set[str]:
    """The names of the files that a text without comments names, and those of the modules that it imports."""
    named = set(re.findall(r"[\w-]+\.(?:py|sh|cpp|c)\b", code))
    listed = (part.strip() for found in IMPORT.finditer(code) for part in found[found.lastindex or 0].split(","))
    return named | {f"{re.split('[. ]', it)[0]}.py" for it in listed if it}


def files(root: Path, patterns: Iterable[str]) -> list[Path]:
    return [file for pattern in patterns for file in sorted(root.glob(pattern)) if file.is_file()]


def not_started(root: Path) -> list[str]:
    """The scripts of these directories that nothing starts."""
    all_files = [file for folder in FOLDERS for file in (root / folder).rglob("*") if "__pycache__" not in file.parts]
    reached = files(root, STARTERS)
    left = {file for file in all_files if file.suffix in SCRIPTS} - {*reached}
    while reached:
        names = {name for file in reached for name in started_by(code_of(file))}
        reached = [file for file in left if file.name in names]
        left -= {*reached}
    return sorted(str(file.relative_to(root)) for file in left)


class Scripts(unittest.TestCase):
    def test_each_script_is_started(self) -> None:
        what = "nothing starts these: name them in TESTS of scripts/gate.py, or in the Makefile"
        self.assertEqual(not_started(ROOT), [], what)

    def test_a_script_that_nothing_starts_is_found(self) -> None:
        texts = {
            "Makefile": "test:\n\tpython3 tests/program/first.py\n# by hand: python3 tests/commented.py\n",
            "scripts/gate.py": '"""Runs tests/described.py."""\nTESTS = (("sh", "tests/second.sh"),)\n',
            "tests/program/first.py": "import third\nfrom fourth import it\n"
            "from shared import sixth, seventh as other\n",
            "tests/second.sh": "cc tests/c/fifth.c\n",
            **{f"tests/program/{name}.py": "" for name in ("third", "fourth")},
            **{f"tests/{name}.py": "" for name in ("commented", "described")},
            "tests/c/fifth.c": "int main(void) { return 0; }\n",
            "tests/shared/sixth.py": "from .eighth import it\n",
            "tests/shared/seventh.py": "from . import ninth\n",
            **{f"tests/shared/{name}.py": "" for name in ("eighth", "ninth", "tenth", "unused")},
            "python/tests/test_calls.py": "from shared.tenth import it\nimport helper\n",
            **{f"python/tests/{name}.py": "" for name in ("helper", "left")},
            # Each starts the other, and nothing else starts them.
            "tests/one.py": "import other_one\n",
            "tests/other_one.py": "import one\n",
        }
        with tempfile.TemporaryDirectory() as name:
            for path, text in texts.items():
                file = Path(name) / path
                file.parent.mkdir(parents=True, exist_ok=True)
                file.write_text(text)
            found = not_started(Path(name))
        none = ("commented", "described", "one", "other_one", "shared/unused")
        self.assertEqual(found, ["python/tests/left.py", *(f"tests/{name}.py" for name in none)])


if __name__ == "__main__":
    sys.exit(0 if unittest.main(exit=False).result.wasSuccessful() else 1)
