"""Pieces of HTML. Whatever is no piece is text, and is escaped."""

from __future__ import annotations

import html
import os
from collections.abc import Iterable, Sequence
from decimal import Decimal
from typing import Literal, NamedTuple, TypeAlias

from mpslp._models._numbers import number_text

MOST_NAMES = 8
"""So many names are listed; of the others only the number."""

# Nothing is fetched, whatever a name may contain: images are within the page.
_POLICY = "default-src 'none'; img-src data:; style-src 'unsafe-inline'"


class Markup(str):
    """A piece of HTML, which is used as it is."""

    __slots__ = ()


Content = str | int
"""A piece of HTML, or text, or a count."""


def markup(content: Content) -> Markup:
    """Content as HTML: text is escaped, and a count has its thousands grouped."""
    if isinstance(content, Markup):
        return content
    if isinstance(content, int):
        return Markup(f"{content:,}")
    return Markup(html.escape(_printable(content)))


def joined(contents: Iterable[Content], between: str = "") -> Markup:
    """Contents one after the other."""
    return Markup(Markup(between).join(map(markup, contents)))


def element(tag: str, *contents: Content, **attributes: Content) -> Markup:
    """An element with its contents; an attribute whose word Python keeps for itself is given as ``class_``."""
    given = "".join(
        f' {name.rstrip("_").replace("_", "-")}="{markup(str(value))}"' for name, value in attributes.items()
    )
    return Markup(f"<{tag}{given}>{joined(contents)}</{tag}>")


def code(name: str) -> Markup:
    """A name of a model."""
    return element("code", name)


def digits(number: Decimal) -> Markup:
    """A number of a model, exactly."""
    return element("code", number_text(number), class_="digits")


def many(count: int, word: str) -> str:
    """A count and its word, as ``1 row`` or ``2,000 rows``."""
    return f"{count:,} {word if count == 1 else word + 's'}"


def link(section: str, *contents: Content) -> Markup:
    """A link to a section of the page."""
    return element("a", *contents, href=f"#{section}")


def path_text(path: str | bytes | os.PathLike[str] | os.PathLike[bytes]) -> str:
    """A path as text that can be shown: bytes that are no UTF-8 are written as ``\\xff``."""
    return os.fsencode(path).decode("utf-8", "backslashreplace")


def names(found: Sequence[str], most: int = MOST_NAMES) -> Markup:
    """The first names of a list, and how many others there are."""
    shown = joined(map(code, found[:most]), ", ")
    others = len(found) - most
    return joined((shown, f" and {others:,} more")) if others > 0 else shown


ColumnSort: TypeAlias = Literal["name", "words", "formula", "count", "exact", "bars"]
"""What a column of a table has. All columns of a sort begin with the same width, so that tables can be compared."""


_NUMBERS = ("count", "exact", "bars")


class Heading(NamedTuple):
    """The heading of a column that has no counts."""

    content: Content
    sort: ColumnSort


def table(
    caption: Content,
    head: Sequence[Content | Heading],
    rows: Iterable[Sequence[Content]],
    total: Sequence[Content] = (),
    class_: str = "plain",
) -> Markup:
    """A table whose first column heads its rows, with a row of totals if there is one.

    A heading that is content is that of names in the first column, and that of counts in the others.
    """
    headings = [_heading(place, given) for place, given in enumerate(head)]
    attributes = [{"class_": "number"} if each.sort in _NUMBERS else {} for each in headings]

    def cell(place: int, content: Content) -> Markup:
        if place == 0:
            return element("th", content, scope="row")
        is_zero = content == 0 and attributes[place]
        return element("td", content, **({"class_": "number zero"} if is_zero else attributes[place]))

    def line(row: Sequence[Content]) -> Markup:
        return element("tr", *(cell(place, content) for place, content in enumerate(row)))

    columns = (element("th", each.content, scope="col", **given) for each, given in zip(headings, attributes))
    return element(
        "div",
        element(
            "table",
            element("caption", caption),
            element("colgroup", *(Markup(f'<col class="{each.sort}">') for each in headings)),
            element("thead", element("tr", *columns)),
            element("tbody", joined(map(line, rows), "\n")),
            element("tfoot", line(total)) if total else Markup(),
            class_=class_,
        ),
        class_="wide",
    )


def _heading(place: int, given: Content | Heading) -> Heading:
    return given if isinstance(given, Heading) else Heading(given, "count" if place else "name")


def document(title: str, style: str, body: Iterable[Content]) -> str:
    """A whole page, which has everything within it."""
    head = element(
        "head",
        Markup('<meta charset="utf-8">'),
        Markup(f'<meta http-equiv="Content-Security-Policy" content="{_POLICY}">'),
        Markup('<meta name="viewport" content="width=device-width, initial-scale=1">'),
        element("title", title),
        element("style", Markup(style)),
    )
    return f'<!DOCTYPE html>\n<html lang="en">\n{head}\n{element("body", joined(body, chr(10)))}\n</html>\n'


def section(name: str, heading: Content, *contents: Content) -> Markup:
    """A section of the page, with its heading."""
    return element("section", element("h2", heading, id=name), joined(contents, "\n"), aria_labelledby=name)


def _printable(text: str) -> str:
    """Text in which what has no picture, as a control character or a change of direction, is written as an escape."""
    if text.isprintable():
        return text
    return "".join(
        each if each.isprintable() or each == "\n" else each.encode("unicode_escape").decode() for each in text
    )
