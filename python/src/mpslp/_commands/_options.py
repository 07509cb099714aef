"""The options that several commands have. Each is here once, so that it means the same in all of them."""

from __future__ import annotations

import argparse
import os
from collections.abc import Mapping
from functools import partial
from typing import Any, NamedTuple

from mpslp._adapt._changes import DIALECTS, NO_DIALECT
from mpslp._text._numbers import MOST_DIGITS
from mpslp._warnings import KINDS as WARNING_KINDS

_MOST_JOBS = 1000
FORMATS = ("mps", "lp")


class Option(NamedTuple):
    """An option: its names, its help, and what argparse has to know of it."""

    names: tuple[str, ...]
    help: str
    settings: Mapping[str, Any]


def option(*names: str, help: str, **settings: Any) -> Option:
    """An option, as ``add_argument`` takes it."""
    return Option(names, help, settings)


def flag(*names: str, help: str, **settings: Any) -> Option:
    """An option without an argument."""
    return option(*names, help=help, action="store_true", **settings)


def add_options(parser: argparse._ActionsContainer, *options: Option) -> None:
    """Gives a parser, or a group of one, these options."""
    for each in options:
        parser.add_argument(*each.names, help=each.help, **each.settings)


def add_one_of(parser: argparse.ArgumentParser, *options: Option) -> None:
    """Gives a parser options of which one at most may be given."""
    add_options(parser.add_mutually_exclusive_group(), *options)


def add_files(parser: argparse.ArgumentParser, help: str, **settings: Any) -> None:
    """Gives a parser its files, with the option for their format."""
    parser.add_argument("files", nargs="+", metavar="FILE", help=help, **settings)
    add_options(parser, FORMAT)


def whole_number(word: str, most: int) -> int:
    """An argument that is a whole number from 1 on."""
    if not word.isdecimal() or not 1 <= int(word) <= most:
        raise argparse.ArgumentTypeError(f"{word!r} is not a whole number from 1 to {most}")
    return int(word)


def _processors() -> int:
    return len(os.sched_getaffinity(0))


class _WarningOption(argparse.Action):
    """-Werror, -Werror=KIND and -Wno-KIND, as compilers have them."""

    def __call__(
        self, parser: argparse.ArgumentParser, options: argparse.Namespace, value: Any, option: str | None = None
    ) -> None:
        word, _, kind = str(value).partition("=")
        if word == "error" and (not kind or kind in WARNING_KINDS):
            options.strict = (*options.strict, *((kind,) if kind else WARNING_KINDS))
        elif not kind and word.startswith("no-") and word[3:] in WARNING_KINDS:
            options.ignored = (*options.ignored, word[3:])
        else:
            parser.error(
                f"argument -W: {value!r} is neither error, error=KIND nor no-KIND; KIND is one of"
                f" {', '.join(WARNING_KINDS)}"
            )


FILES = "a model file or a directory; - is standard input"

ANY_NAMES = flag("--any-names", help="names do not count")
NAMES = option("--map", metavar="FILE", help="write the names given and written, as JSON")
NAMES_BACK = flag("--names-back", help="write a model or a solution with the names given")
FORMAT = option(
    "-f",
    "--format",
    type=str.lower,
    choices=FORMATS,
    metavar="FORMAT",
    help="the format, if the extension does not say it: mps or lp",
)
JOBS = option(
    "-j",
    "--jobs",
    type=partial(whole_number, most=_MOST_JOBS),
    default=_processors(),
    metavar="N",
    help="work in N processes (default: all processors)",
)
QUIET = flag("-q", "--quiet", help="print errors only; the exit status says the rest")
JSON = flag("--json", help="print JSON, also about files that are rejected")
OUTPUT = option("-o", "--output", metavar="FILE", help="write to FILE instead of standard output")
OUT_DIR = option("--out-dir", metavar="DIR", help="write all files below DIR, in the same directories")
IN_PLACE = flag("-i", "--in-place", help="rewrite the files, and print their paths")
PATCH = flag("--diff", dest="patch", help="print what -i would change, as diff -u does")
GIT_PATH = option("--git-path", metavar="PATH", help="the file's path in git, for messages and the format")
DIALECT = option(
    "--from",
    dest="dialect",
    choices=(*DIALECTS, NO_DIALECT),
    metavar="DIALECT",
    help="the program that wrote the file: coinutils, glpsol,\nlp_solve, pulp, qsopt; none ignores its header",
)
ALL = flag("--all", help="leave out no line, kind or coefficient")
DIGITS = option(
    "--digits",
    type=partial(whole_number, most=MOST_DIGITS),
    metavar="N",
    help="numbers are equal if N significant digits are",
)
BY_POSITION = flag("--by-position", help="compare by position, not by name")
NO_WARNINGS = option("--no-warnings", dest="warnings", action="store_false", help="print no warnings")
WARNINGS = option(
    "-W", action=_WarningOption, metavar="HOW", help="-Werror[=KIND] rejects warnings, -Wno-KIND hides them"
)


def add_warnings(parser: argparse.ArgumentParser) -> None:
    """Gives a parser the options for warnings."""
    add_options(parser, NO_WARNINGS, WARNINGS)
    parser.set_defaults(strict=(), ignored=())
