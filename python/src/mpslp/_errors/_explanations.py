"""What each kind that a command prints means, and what to do: the lists of docs/errors.tsv, warnings.tsv, portable.tsv
and adapt.tsv.
"""

# Annotations are evaluated here: the classes say that they are of the package, whose names are fewer.

import re
from collections.abc import Iterator, Mapping
from dataclasses import dataclass
from functools import lru_cache
from typing import Literal

Printed = Literal["error", "warning", "remark", "change"]
"""What a kind is a kind of: an error, a warning, a remark of ``check --portable``, or a change of ``adapt``."""

_HEADINGS: Mapping[Printed, str] = {
    "error": "An error:",
    "warning": "A warning of canon, same, diff and check:",
    "remark": "A remark of check --portable:",
    "change": "A change of adapt:",
}
_WITHOUT_EXAMPLES = {
    "compressed": "a file of gzip, bzip2, xz or zstd whose name does not say so is decompressed",
    "long-line": "a line of more than 1,048,576 bytes is broken",
}
"""The changes of adapt that no example of a few lines has."""

_MOST_NEAR = 3
"""How many kinds are named for a word that is none, if they are very near."""
_VERY_NEAR = 0.75
"""How near they are then, on the scale of difflib."""

_PROGRAMS = ("clp", "cbc", "esolver", "glpsol", "lp_solve")
_LINK = re.compile(r"((?: \()?)\[[^\]]*\]\(([^)#]*)[^)]*\)(\)?)")


@dataclass(frozen=True)
class Cause:
    """One usual cause of an error, and what to do about it; or a case of a warning, a remark or a change."""

    cause: str
    """What is in the file, as ``a column appears twice in one row``."""
    fix: str
    """What to do, as ``add the coefficients, or keep one``."""
    place: str
    """Where the example is from, as ``LP objective``; empty if there is no example."""
    before: str
    """The lines of the example that are rejected."""
    after: str
    """The lines after the fix; of a warning or a remark, lines that have none."""
    printed: Printed = "error"
    """What is printed of it: ``error``, ``warning``, ``remark`` or ``change``."""

    def __str__(self) -> str:
        parts = [f"- {_sentence(self.cause)}", *([f"  {_sentence(self.fix)}"] if self.fix else [])]
        if self.place:
            label = (
                f"    without {'the warning' if self.printed == 'warning' else 'the remark'}:"
                if self.printed in ("warning", "remark")
                else "    becomes:"
            )
            parts += [
                "",
                f"    {self.place}:",
                *_indented(self.before),
                label,
                *_indented(self.after or "(nothing)"),
                "",
            ]
        return "\n".join(parts)


@dataclass(frozen=True)
class Explanation:
    """A kind of error, and its usual causes; or a kind of warning, remark or change.

    As text it is what ``mpslp-tools explain`` prints.
    """

    kind: str
    """The kind, as ``DuplicateEntry`` or ``upper-zero``."""
    causes: tuple[Cause, ...]
    """At least one."""

    def __str__(self) -> str:
        return "\n".join([f"{self.kind}", "", *self._parts()]).rstrip("\n")

    def _parts(self) -> Iterator[str]:
        last: Printed = "error"
        for cause in self.causes:
            if cause.printed != last:
                yield f"{_HEADINGS[cause.printed]}\n"
            last = cause.printed
            yield str(cause)


def explain(kind: str) -> Explanation:
    """Returns the usual causes of a kind of error, and what to do about each; or the cases of a kind of warning, remark
    or change.

    Upper and lower case do not matter. Raises ValueError for what is no kind.

    >>> print(mpslp.explain("DuplicateRange"))
    DuplicateRange
    <BLANKLINE>
    - A row has two ranges.
      Keep one.
    <BLANKLINE>
        MPS:
          RANGES
              RNG  LIM  1
              RNG  LIM  2
        becomes:
          RANGES
              RNG  LIM  2
    """
    if not isinstance(kind, str):
        raise TypeError(f"a kind is a str, not {type(kind).__name__}")
    known = next((each for each in kinds() if each.lower() == kind.lower()), None)
    if known is not None:
        return Explanation(known, tuple(cause for _, cause in causes_with_rules(known)))
    found = _others().get(kind.lower())
    if found is None:
        raise ValueError(_no_such_kind(kind))
    return Explanation(kind.lower(), found)


def _no_such_kind(kind: str) -> str:
    import difflib

    lower = {each.lower(): each for each in all_kinds()}
    near = difflib.get_close_matches(kind.lower(), lower, _MOST_NEAR, _VERY_NEAR) or difflib.get_close_matches(
        kind.lower(), lower, 1
    )
    meant = f"did you mean {' or '.join(lower[each] for each in near)}? " if near else ""
    return f"no such kind: {kind!r}; {meant}'mpslp-tools explain' prints all kinds"


def kinds() -> list[str]:
    """All kinds of errors, in alphabetical order."""
    return list(_causes())


def all_kinds() -> list[str]:
    """All kinds of errors, and then those of warnings, remarks and changes, in alphabetical order."""
    return [*kinds(), *sorted(_others())]


def causes_with_rules(kind: str) -> tuple[tuple[str, Cause], ...]:
    """The causes of a kind of error, each after the rule of the messages that recognises it; the rule is empty for the
    usual cause.
    """
    return _causes()[kind]


@lru_cache(maxsize=None)
def _causes() -> dict[str, tuple[tuple[str, Cause], ...]]:
    found: dict[str, tuple[tuple[str, Cause], ...]] = {}
    for row in _rows("errors.tsv"):
        cause = Cause(
            _plain(row["cause"]),
            _plain(row["fix"]),
            row["place"],
            row["before"].replace("\\n", "\n"),
            row["after"].replace("\\n", "\n"),
        )
        found[row["kind"]] = (*found.get(row["kind"], ()), (row["rule"], cause))
    return found


@lru_cache(maxsize=None)
def _others() -> dict[str, tuple[Cause, ...]]:
    """The kinds that are not those of errors."""
    found: dict[str, tuple[Cause, ...]] = {}
    for kind, cause in (*_warnings(), *_remarks(), *_changes()):
        found[kind] = (*found.get(kind, ()), cause)
    return found


def _warnings() -> Iterator[tuple[str, Cause]]:
    for row in _rows("warnings.tsv"):
        yield row["kind"], Cause(
            _plain(row["here"]), _plain(row["fix"]), _place(row), _lines(row["text"]), _lines(row["plain"]), "warning"
        )


def _remarks() -> Iterator[tuple[str, Cause]]:
    for row in _rows("portable.tsv"):
        said = f"{_plain(row['here'])}; {_plain(row['others'])}"
        yield row["kind"], Cause(
            said, _plain(row["fix"]), _place(row), _lines(row["text"]), _lines(row["plain"]), "remark"
        )


def _changes() -> Iterator[tuple[str, Cause]]:
    for row in _rows("adapt.tsv"):
        dialect = row["dialect"] if row["dialect"] != "header" else ""
        said = _plain(row["what"]) + (f", with --from {dialect}" if dialect else "")
        if row["kind"] not in ("stop", "note"):  # why a file is left, and what may be meant in it, is printed in words
            yield row["kind"], Cause(said, "", _place(row), _lines(row["before"]), _lines(row["after"]), "change")
    for kind, said in _WITHOUT_EXAMPLES.items():
        yield kind, Cause(said, "", "", "", "", "change")


def _rows(name: str) -> Iterator[dict[str, str]]:
    """The rows of a table of the documents, which the package has."""
    import csv  # it and what follows take longer than all else of the package to be imported
    from importlib.resources import files

    text = files("mpslp").joinpath(name).read_text(encoding="utf-8")
    yield from csv.DictReader(text.splitlines(), delimiter="\t", quoting=csv.QUOTE_NONE)


def _place(row: Mapping[str, str]) -> str:
    return f"{row['format'].upper()} {row['part']}"


def _lines(cell: str) -> str:
    return cell.replace("\\\\", "\0").replace("\\n", "\n").replace("\0", "\\").rstrip("\n")


def _plain(text: str) -> str:
    """Text without marks of code, and with the name of the file for a link; of several in parentheses, for the first
    one.
    """
    named: set[str] = set()

    def name_once(link: re.Match[str]) -> str:
        is_again = bool(link[1]) and link[2] in named
        named.add(link[2])
        return "" if is_again else f"{link[1]}{link[2]}{link[3]}"

    return _LINK.sub(name_once, text).replace("`", "")


def _sentence(text: str) -> str:
    return (text if text.startswith(_PROGRAMS) else text[0].upper() + text[1:]) + "."


def _indented(lines: str) -> list[str]:
    return [f"      {line}" for line in lines.split("\n")]
