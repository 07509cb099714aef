#!/usr/bin/env python3
"""Check the Python files of the repository with black, pyflakes and pycodestyle: scripts/lint.py [--write] [PATH ...]

black has to leave the layout of each file unchanged, pyflakes and pycodestyle must report nothing, and no line may be
longer than WIDTH. PATH is a file or a directory; without one all files are checked. With --write black lays the files
out first. A tool that is missing is reported and skipped. Exits with 1 if a tool reports anything.
"""

import argparse
import shutil
import subprocess
import sys
from pathlib import Path

from kit import ROOT

WIDTH = 120
LAYOUT = ("black", "--quiet", f"--line-length={WIDTH}", "--skip-magic-trailing-comma")
# Each tool by its package in Debian, which has its name. Where lines break is left to black.
TOOLS = (
    (*LAYOUT, "--check", "--diff"),
    ("pyflakes3",),
    ("pycodestyle", "--select=E501,W1,W2,W3,W6", f"--max-line-length={WIDTH}"),
)
ENDINGS = (".py", ".pyi")


def files(paths: list[Path]) -> list[str]:
    """The Python files at or below the paths: those that git knows, or would."""
    listed = subprocess.run(
        ("git", "ls-files", "-z", "--cached", "--others", "--exclude-standard", *map(str, paths)),
        cwd=ROOT,
        capture_output=True,
        text=True,
        check=True,
    )
    names = set(listed.stdout.split("\0"))
    return sorted(name for name in names if name.endswith(ENDINGS) and (ROOT / name).is_file())


def passes(tool: tuple[str, ...], names: list[str]) -> bool:
    """Runs a tool on the files, and prints what it reports."""
    if not shutil.which(tool[0]):
        print(f"skipped: {tool[0]} is missing: apt-get install {tool[0]}")
        return True
    done = subprocess.run((*tool, *names), cwd=ROOT, stdout=subprocess.PIPE, stderr=subprocess.STDOUT, text=True)
    print(done.stdout, end="")
    return done.returncode == 0


def main() -> int:
    parser = argparse.ArgumentParser(description=__doc__, formatter_class=argparse.RawDescriptionHelpFormatter)
    parser.add_argument("--write", action="store_true", help="let black lay the files out first")
    parser.add_argument("paths", nargs="*", type=Path, metavar="PATH", help="a file or a directory")
    options = parser.parse_args()
    names = files([path.resolve() for path in options.paths])
    if options.write:
        passes(LAYOUT, names)
    failed = [tool[0] for tool in TOOLS if not passes(tool, names)]
    print(f"{len(names)} Python files, {len(failed)} of {len(TOOLS)} tools report something")
    return 1 if failed else 0


if __name__ == "__main__":
    sys.exit(main())
