"""What is said of a line."""

# Annotations are evaluated here: the class appears as one of the package, whose names are fewer.

from collections.abc import Callable, Iterable, Iterator
from dataclasses import dataclass
from typing import Literal, TypeVar

Program = Literal["glpsol", "clp", "cbc", "lp_solve", "esolver", "coinutils", "highs", "scip"]
"""A program that was measured, where coinutils is the reader of clp and cbc; or highs or scip, by their documents."""

MEASURED: tuple[Program, ...] = ("glpsol", "clp", "cbc", "lp_solve", "esolver", "coinutils")
PUBLISHED: tuple[Program, ...] = ("highs", "scip")
PROGRAMS: tuple[Program, ...] = (*MEASURED, *PUBLISHED)
COIN: tuple[Program, ...] = ("clp", "cbc", "coinutils")
NONE: tuple[Program, ...] = ()

ONLY_PUBLISHED = frozenset(("coefficient-size", "fixed-bound", "name-in-dialects", "semi-continuous-bound"))
"""The kinds about what is published of programs that were not measured."""
AGREED = frozenset(("name-like-arithmetic", "range-on-equation", "upper-zero", *ONLY_PUBLISHED))
"""The kinds in which all programs that were measured read what is read here."""


@dataclass(frozen=True, order=True)
class Remark:
    """A line of an accepted file that other programs may read differently.

    As text it is what ``mpslp-tools check --portable`` prints after the path.
    """

    line: int
    """The line, from 1."""
    kind: str
    """The name of the rule, as ``upper-zero``; docs/DIALECTS.md lists all."""
    text: str
    """What is read here, and what other programs read."""
    programs: tuple[Program, ...] = ()
    """The programs that were found to read something else, or to reject it."""

    def __str__(self) -> str:
        return f"{self.line}: {self.kind}: {self.text}"


SHOWN = 3
"""How many lines of a kind are shown where not all are."""


def grouped(remarks: Iterable[Remark]) -> Iterator[str]:
    """The lines of a summary: for each kind, in the order of their first lines, how many lines have it, and the first
    ones.
    """
    kinds: dict[str, list[Remark]] = {}
    for remark in remarks:
        kinds.setdefault(remark.kind, []).append(remark)
    for kind, found in kinds.items():
        rest = f", of which the first {SHOWN} follow; --all prints each" if len(found) > SHOWN else ""
        yield f" {kind}: {len(found)} {'line' if len(found) == 1 else 'lines'}{rest}"
        yield from map(str, found[:SHOWN])


Found = Iterator[tuple[int, str, tuple[Program, ...]]]
"""The lines that a rule finds, what it says of each, and the programs that read something else or reject it."""

File = TypeVar("File")


def by_kind(*rules: Callable[[File], Found]) -> dict[str, Callable[[File], Found]]:
    """The rules by the kinds of their remarks, which are their names."""
    return {rule.__name__.replace("_", "-"): rule for rule in rules}
