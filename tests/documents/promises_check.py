#!/usr/bin/env python3
"""Compares what docs/PROMISES.md says of a builder after an error with the contracts.

Every public method of `Builder` that may change the builder and returns a `Result` must have
an `ensures` clause by the definition `AnswersTo` or `AnswersToAll` of `self.old` and `self.new`:
after each error the builder is as before. Both must say so by `Answers`, and `Answers` itself of
both kinds of error, those of a declaration and `OutOfMemory`. The row of PROMISES must name these methods and no
others, and mpslp_model must re-export nothing else of mpslp_builder.

Prints a line for each difference and exits with 1, or prints the number of methods.
"""

import argparse
import re
import sys
from collections.abc import Iterator
from dataclasses import dataclass
from pathlib import Path

ROOT = Path(__file__).resolve().parents[2]
ROW = "| a builder is unchanged after an error |"
# What begins the results of `Answers`, by the kind of error, and how the clauses use it.
ANSWERS = {
    "an error of the declaration": re.compile(
        r"^Answers \(fault ∷ later\) answer IsDeclared IsUnchanged = \(answer ≡ Err fault\) × IsUnchanged$", re.M
    ),
    "OutOfMemory": re.compile(
        r"^Answers \[\] answer IsDeclared IsUnchanged = MatchResult answer \(λ _\. IsDeclared\)"
        r" \(λ fault\. \(fault ≡ OutOfMemory\) × IsUnchanged\)$",
        re.M,
    ),
    "an error of one declaration": re.compile(
        r"^AnswersTo before declaration answer after = Answers \(refusals before declaration\) answer \(.*\)"
        r" \(after ≡ before\)$",
        re.M,
    ),
    "an error of several declarations": re.compile(
        r"^AnswersToAll faults before declarations answer after = Answers faults answer \(.*\) \(after ≡ before\)$",
        re.M,
    ),
}
BLOCK = re.compile(r"^impl Builder \{\n(.*?)^\}", re.M | re.S)
METHOD = re.compile(r"^    pub fn (\w+)(.*?)^    \{\n", re.M | re.S)
CLAUSE = re.compile(r"^        (ensures|requires) ?(\w*) \{ (.*?) \}\n", re.M | re.S)
UNCHANGED = re.compile(r"^(?:AnswersTo|AnswersToAll \(.*\)) self\.old \(.*\) result self\.new$", re.S)
# The only premise that PROMISES lists for a builder's calls: the size of a finite limit.
LISTED_PREMISE = "is_given"


@dataclass(frozen=True)
class Method:
    """A public method of `Builder`."""

    name: str
    head: str
    ensures: tuple[str, ...]
    requires: tuple[str, ...]

    @property
    def may_change(self) -> bool:
        """Whether there is a builder after an error that may differ from the one before."""
        return "&mut self" in self.head and "-> Result<" in self.head

    @property
    def is_unchanged(self) -> bool:
        return any(UNCHANGED.search(clause) for clause in self.ensures)


def method_of(name: str, head: str) -> Method:
    clauses = [(kind, text) for kind, _, text in CLAUSE.findall(head)]
    return Method(
        name,
        head,
        tuple(text for kind, text in clauses if kind == "ensures"),
        tuple(text for kind, text in clauses if kind == "requires"),
    )


def methods(root: Path) -> list[Method]:
    files = sorted((root / "crates" / "mpslp_builder" / "src").rglob("*.rt"))
    blocks = (block for file in files for block in BLOCK.findall(file.read_text()))
    return [method_of(name, head) for block in blocks for name, head in METHOD.findall(block)]


def promised(root: Path) -> list[str]:
    """The methods that the row of PROMISES names."""
    rows = [line for line in (root / "docs" / "PROMISES.md").read_text().splitlines() if line.startswith(ROW)]
    return re.findall(r"`([a-z_]+)`", rows[0].split(" | ")[1]) if rows else []


def exported(root: Path) -> list[str]:
    """What mpslp_model re-exports of mpslp_builder, besides laws."""
    text = (root / "crates" / "mpslp_model" / "src" / "lib.rt").read_text()
    lists = re.findall(r"^pub use mpslp_builder::(?:\{([^}]*)\}|(\w+));", text, re.M)
    return [name.strip() for several, one in lists for name in (several or one).split(",") if name.strip()]


def differences(root: Path) -> Iterator[str]:
    found = methods(root)
    if not found:
        yield "mpslp_builder: no public method of Builder was found"
    for method in filter(lambda it: it.may_change, found):
        if not method.is_unchanged:
            yield f"Builder::{method.name}: no clause says that the builder is unchanged after an error"
        for premise in method.requires:
            if LISTED_PREMISE not in premise:
                yield f"Builder::{method.name}: PROMISES lists no premise such as {premise}"
    definition = (root / "crates" / "mpslp_builder" / "specs" / "Answer.antt").read_text()
    for kind, form in ANSWERS.items():
        if not form.search(definition):
            yield f"mpslp_builder specs/Answer: does not say that {kind} changes nothing"
    names, in_words = {it.name for it in found if it.may_change}, set(promised(root))
    for name in sorted(names - in_words):
        yield f"PROMISES: the row on builders does not name {name}"
    for name in sorted(in_words - names):
        yield f"PROMISES: the row on builders names {name}, which is no such method of Builder"
    for name in exported(root):
        if name != "Builder":
            yield f"mpslp_model: re-exports {name} of mpslp_builder, of which PROMISES says nothing"


def main() -> int:
    parser = argparse.ArgumentParser(description=__doc__, formatter_class=argparse.RawDescriptionHelpFormatter)
    parser.add_argument("--root", type=Path, default=ROOT, help="the repository to check")
    root = parser.parse_args().root
    wrong = list(differences(root))
    for line in wrong:
        print(line, file=sys.stderr)
    if not wrong:
        print(
            f"builder: {sum(it.may_change for it in methods(root))} methods are unchanged after an error, as "
            "PROMISES says"
        )
    return 1 if wrong else 0


if __name__ == "__main__":
    sys.exit(main())
