"""What is said of a line."""

# Annotations are evaluated here: the class appears as one of the package, whose names are fewer.

from collections.abc import Callable, Iterator
from dataclasses import dataclass
from typing import TypeVar


@dataclass(frozen=True, order=True)
class ModelFileWarning:
    """A line of an accepted file that is rarely meant as it is read.

    As text it is what ``mpslp-tools check`` prints after the path.
    """

    line: int
    """The line, from 1."""
    kind: str
    """The name of the rule, as ``late-name``; docs/ERRORS.md lists all."""
    text: str
    """What is read, and why that is rarely meant."""

    def __str__(self) -> str:
        return f"{self.line}: {self.kind}: {self.text}"


Found = Iterator[tuple[int, str]]
"""Where in the file a rule finds something, as the number of bytes before it, and what it says of it."""

File = TypeVar("File")


def by_kind(*rules: Callable[[File], Found]) -> dict[str, Callable[[File], Found]]:
    """The rules by the kinds of their warnings, which are their names."""
    return {rule.__name__.replace("_", "-"): rule for rule in rules}


def shown(word: bytes) -> str:
    """A word of a file in a message."""
    return word.decode("ascii", "backslashreplace")
