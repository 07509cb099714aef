"""The Rattle kit that proves this repository, and whether it is the one that the repository was proved with."""

import functools
import re
import shutil
import subprocess
import sys
from pathlib import Path

ROOT = Path(__file__).resolve().parent.parent


def wanted_sum() -> str:
    """The sum of the kit's logic that the repository was proved with."""
    return (ROOT / "kit-sum").read_text().strip()


@functools.cache
def kit_version() -> str | None:
    """What `rt version` prints, or None if there is no kit."""
    if not shutil.which("rt"):
        return None
    return subprocess.run(["rt", "version"], capture_output=True, text=True, check=False).stdout.strip()


@functools.cache
def kit_sum() -> str | None:
    """The sum of the installed kit's logic, or None if there is none."""
    found = re.search(r"\blogic (\w+)", kit_version() or "")
    return found[1] if found else None


@functools.cache
def kit_folder() -> Path:
    """The directory of the kit, which has its compiler and its libraries."""
    return Path(subprocess.run(["rt", "doc"], capture_output=True, text=True, check=True).stdout.strip()).parent


def complaint() -> str | None:
    """Why the installed kit cannot prove this repository, and what to do about it, or None if it can."""
    version = kit_version()
    if version is None:
        return (
            "mpslp is proved and built with the Rattle kit, and its command rt is not on your PATH.\n"
            f"Install the kit whose `rt version` ends with: logic {wanted_sum()}\n"
            "A release archive or package of mpslp needs no kit: see README, Install."
        )
    if kit_sum() != wanted_sum():
        return (
            f"This repository was proved with the Rattle kit whose logic has the sum {wanted_sum()},\n"
            f"and the installed one is another: {version or 'rt version prints nothing'}\n"
            "Install the kit with that sum. To prove with the installed one all the same, which may fail at some "
            "proof,\n"
            "put its sum into the file kit-sum."
        )
    return None


def require_kit() -> None:
    """Ends the program with status 2 if the kit is missing or is another one."""
    reason = complaint()
    if reason:
        print(reason, file=sys.stderr)
        raise SystemExit(2)


if __name__ == "__main__":
    require_kit()
