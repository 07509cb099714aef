"""What a page has, as JSON for programs: counts, magnitudes, remarks and rules, without the picture."""

from __future__ import annotations

import html
import re
from collections import Counter
from collections.abc import Iterator
from typing import Any

from mpslp._models._numbers import number_text
from mpslp._report._contents import Contents, Extreme, Lengths, Magnitudes
from mpslp._report._differences import found_differences
from mpslp._report._markup import Content
from mpslp._report._rules import rules_of
from mpslp._report._sections import remarks
from mpslp._report._subjects import Subject

_TAG = re.compile(r"<[^>]*>")


def record_of_subjects(subjects: list[Subject], digits: int | None, by_position: bool) -> dict[str, Any]:
    """The record of one file, or of two with the numbers of their differences."""
    found: dict[str, Any] = {"files": [_record(subject) for subject in subjects]}
    if len(subjects) == 2:
        found["differences"] = _differences(subjects[0], subjects[1], digits, by_position)
    return found


def _record(subject: Subject) -> dict[str, Any]:
    model, contents = subject.model, subject.contents
    return {
        "path": subject.path,
        "bytes": len(subject.text.content),
        "sense": model.sense,
        "objective": model.objective,
        "constant": number_text(model.constant),
        "rows": len(model.rows),
        "columns": len(model.columns),
        "entries": contents.coefficients.count,
        "digest": subject.digest,
        "row_kinds": dict(contents.row_kinds),
        "column_kinds": list(_column_kinds(contents)),
        "row_lengths": _lengths(contents.row_lengths),
        "column_lengths": _lengths(contents.column_lengths),
        "magnitudes": {each.what: _magnitudes(each) for each in contents.magnitudes},
        "remarks": [{"section": each.section, "text": _plain(each.what)} for each in remarks(subject)],
        "rules": [
            {"what": _plain(each.what), "number": each.number, "effect": _plain(each.effect)}
            for each in rules_of(subject.declared, model, contents)
        ],
    }


def _column_kinds(contents: Contents) -> Iterator[dict[str, Any]]:
    for (bounds, kind), number in sorted(contents.columns.items()):
        yield {"bounds": bounds, "kind": kind, "number": number}


def _lengths(lengths: Lengths | None) -> dict[str, Any] | None:
    if lengths is None:
        return None
    return {
        "least": lengths.least,
        "median": lengths.median,
        "most": lengths.most,
        "longest": lengths.longest,
        "empty": len(lengths.empty),
    }


def _magnitudes(magnitudes: Magnitudes) -> dict[str, Any]:
    return {
        "zeros": magnitudes.zeros,
        "powers": {str(power): number for power, number in sorted(magnitudes.powers.items())},
        "smallest": _extreme(magnitudes.smallest),
        "largest": _extreme(magnitudes.largest),
    }


def _extreme(extreme: Extreme | None) -> dict[str, Any] | None:
    return None if extreme is None else {"number": number_text(extreme.number), "names": list(extreme.where)}


def _differences(first: Subject, second: Subject, digits: int | None, by_position: bool) -> dict[str, Any]:
    if first.model == second.model:
        return {"verdict": "same", "number": 0, "sorts": {}}
    sorts = Counter(type(each).__name__ for each in found_differences(first, second, digits, by_position))
    return {"verdict": "not the same" if sorts else "close", "number": sum(sorts.values()), "sorts": dict(sorts)}


def _plain(content: Content) -> str:
    """A piece of the page as text."""
    return html.unescape(_TAG.sub("", str(content)))
