"""The index of the pages of many files: what each file is, and which have no page because they are rejected."""

from __future__ import annotations

import os
from collections.abc import Sequence
from typing import NamedTuple
from urllib.parse import quote

import mpslp
from mpslp._report._markup import Content, Heading, Markup, document, element, joined, many, path_text, table
from mpslp._report._sections import remarks
from mpslp._report._style import STYLE
from mpslp._report._subjects import Subject


class Facts(NamedTuple):
    """What the index says of a file with a page."""

    rows: int
    columns: int
    integers: int
    nonzeros: int
    remarks: int
    digest: str


class Listed(NamedTuple):
    """A file of the index."""

    place: str
    """Where it is below the directory that was given."""
    page: str
    """Where its page is, from the directory of the index."""
    found: Facts | str
    """What it is, or why it has no page."""


def facts_of(subject: Subject) -> Facts:
    """What the index says of a file."""
    kinds = subject.contents.columns.items()
    return Facts(
        len(subject.model.rows),
        len(subject.model.columns),
        sum(count for (_, kind), count in kinds if kind == "integer"),
        subject.contents.coefficients.count,
        sum(1 for _ in remarks(subject)),
        subject.digest,
    )


def index(files: Sequence[Listed]) -> str:
    """The page that lists files, in their order, with links to their pages."""
    title = many(len(files), "model file")
    body = (
        element("header", element("h1", title)),
        element("main", joined(filter(None, (_accepted(files), _others(files))), "\n")),
        element("footer", element("p", f"mpslp {mpslp.__version__}")),
    )
    return document(title, STYLE, body)


def _accepted(files: Sequence[Listed]) -> Markup:
    found = [(each, each.found) for each in files if isinstance(each.found, Facts)]
    if not found:
        return Markup()
    head: list[Content | Heading] = [
        Heading("file", "words"),
        "rows",
        "columns",
        "integer columns",
        "nonzeros",
        "remarks",
        Heading("same model", "words"),
    ]
    first_places = {facts.digest: each.place for each, facts in reversed(found)}
    lines: list[Sequence[Content]] = []
    for each, facts in found:
        first = first_places[facts.digest]
        same = Markup() if first == each.place else element("code", path_text(first))
        link = element("a", element("code", path_text(each.place)), href=_address(each.page))
        lines.append([link, facts.rows, facts.columns, facts.integers, facts.nonzeros, facts.remarks, same])
    return table("Files that define a model", head, lines)


def _others(files: Sequence[Listed]) -> Markup:
    lines = [(element("code", path_text(each.place)), each.found) for each in files if isinstance(each.found, str)]
    head: list[Content | Heading] = [Heading("file", "words"), Heading("why", "words")]
    return table("Files without a page", head, lines) if lines else Markup()


def _address(path: str) -> str:
    """A path as the address of a link: it begins with a dot, so that no name is taken for a scheme."""
    return f"./{quote(os.fsencode(path))}"
