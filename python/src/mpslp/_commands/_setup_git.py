"""The command setup-git."""

from __future__ import annotations

import argparse
import subprocess
from collections.abc import Iterator

from mpslp._commands import _options
from mpslp._commands._options import add_options, flag
from mpslp._commands._outcomes import Outcome, Status
from mpslp._commands._work import for_outcome

USAGE = "[OPTION].."
DESCRIPTION = """\
Write mpslp-tools into the configuration of the git repository around the
current directory: a diff driver, a merge driver and a clean filter, all named
mpslp. Print what was written, and the lines of .gitattributes that use it."""
DETAILS = """\
Nothing changes for a file that has none of these attributes. The clean filter stores canonical text, without
comments: give it only to files that programs write. Run it in every clone, or once with --global: git takes no
commands from the files of a repository."""

SETTINGS = {
    "diff.mpslp.command": (
        'f() { test $# -gt 1 || { echo "unmerged $1"; return; }; echo "model $1"; mpslp-tools diff --no-warnings "$2"'
        ' "$5" 2>&1 || true; }; f'
    ),
    "merge.mpslp.name": "models by rows, columns and coefficients",
    "merge.mpslp.driver": "mpslp-tools merge --git-path=%P --marker-size=%L -o %A %O %A %B",
    "filter.mpslp.clean": "mpslp-tools canon --git-path=%f -Werror=sense-in-comment -",
    "filter.mpslp.smudge": "cat",
    "filter.mpslp.required": "true",
}
"""The keys of git's configuration, and what is written."""

_ATTRIBUTES = ("*.[mM][pP][sS] diff=mpslp merge=mpslp", "*.[lL][pP] diff=mpslp merge=mpslp")


def add(parser: argparse.ArgumentParser) -> None:
    add_options(
        parser, flag("--global", dest="is_global", help="write it for all repositories of the user"), _options.QUIET
    )


def run(options: argparse.Namespace) -> Status:
    return for_outcome(options, lambda: _outcome(options))


def _outcome(options: argparse.Namespace) -> Outcome:
    for key, value in SETTINGS.items():
        try:
            done = subprocess.run(
                ["git", "config", *(["--global"] if options.is_global else []), "--replace-all", key, value],
                capture_output=True,
            )
        except OSError as error:
            return Outcome(Status.FAILED, error=f"git: {error.strerror}")
        if done.returncode:
            return Outcome(Status.FAILED, error=done.stderr.decode(errors="replace").strip())
    return Outcome(lines=[] if options.quiet else _lines())


def _lines() -> Iterator[str]:
    yield from (f"{key} = {value}" for key, value in SETTINGS.items())
    yield ""
    yield "Add these lines to .gitattributes, and commit it:"
    yield from _ATTRIBUTES
    yield "With filter=mpslp in such a line, git stores canonical text, without comments."
