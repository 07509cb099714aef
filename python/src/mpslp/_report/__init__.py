"""A page of HTML about a model, or about two models and their differences; and one that lists the pages of many files.

Each has everything within it: no network, no script, and it opens from the disk.
"""

from __future__ import annotations

from collections.abc import Sequence
from typing import Any

import mpslp
from mpslp._files._sources import Path, Text
from mpslp._report import _sections
from mpslp._report._differences import differences
from mpslp._report._index import Facts, Listed, facts_of, index
from mpslp._report._markup import document, element, joined, link, section
from mpslp._report._record import record_of_subjects
from mpslp._report._sections import HEADINGS
from mpslp._report._style import STYLE
from mpslp._report._subjects import Subject, subjects_of

__all__ = ["Facts", "Listed", "index", "page", "page_and_facts", "record"]


def page(paths: Sequence[Path | Text], *, digits: int | None = None, by_position: bool = False) -> str:
    """Returns a page of HTML about the model of a file, or about the models of two files and their differences.

    A file is given by its path, or by its text, which has a path.

    ``digits`` and ``by_position`` are those of :func:`mpslp.diff`. The page depends only on the files, their paths and
    the version.

    Raises ModelFileError where a file declares no model, OSError where it does not open or read, and ValueError where a
    path ends in no format, or where there are not one or two paths.
    """
    return _page(_subjects(paths), digits, by_position)


def page_and_facts(text: Text) -> tuple[str, Facts]:
    """Returns the page of one file, and what an index says of it; raises what :func:`page` raises."""
    subjects = _subjects([text])
    return _page(subjects), facts_of(subjects[0])


def record(paths: Sequence[Path | Text], *, digits: int | None = None, by_position: bool = False) -> dict[str, Any]:
    """Returns what the page of these files has, without the picture, as JSON has it; raises what
    :func:`page` raises.
    """
    return record_of_subjects(_subjects(paths), digits, by_position)


def _page(subjects: Sequence[Subject], digits: int | None = None, by_position: bool = False) -> str:
    all_sections = {
        "formulas": _sections.model_formulas(subjects),
        "remarks": _sections.remark_list(subjects),
        "counts": _sections.counts(subjects),
        "magnitudes": _sections.magnitudes(subjects),
        "picture": _sections.pictures(subjects),
        "defaults": _sections.defaults(subjects),
    }
    if len(subjects) == 2:
        all_sections = {"differences": differences(subjects[0], subjects[1], digits, by_position), **all_sections}
    sections = {name: content for name, content in all_sections.items() if content}
    title = " and ".join(subject.label for subject in subjects)
    links = (element("li", link(name, HEADINGS[name])) for name in sections)
    version = f"mpslp {mpslp.__version__}. Numbers are exact; ratios and shares are rounded."
    body = (
        element("header", element("h1", title), *map(_sections.summary, subjects)),
        element("nav", element("ul", *links), aria_label="Sections"),
        element("main", joined((section(name, HEADINGS[name], content) for name, content in sections.items()), "\n")),
        element("footer", element("p", version)),
    )
    return document(title, STYLE, body)


def _subjects(paths: Sequence[Path | Text]) -> list[Subject]:
    if len(paths) not in (1, 2):
        raise ValueError(f"a page is about one file or two, not {len(paths)}")
    return subjects_of(paths)
