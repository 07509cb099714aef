"""The message about a rejected file: its place, the line with a caret, the cause that fits it, and what to do."""

from __future__ import annotations

import re
from typing import NamedTuple

from mpslp import _mpslp
from mpslp._errors._explanations import Cause, causes_with_rules
from mpslp._errors._faults import ModelFileError
from mpslp._files._sources import Text
from mpslp._messages import (
    _causes_both,
    _causes_files,
    _causes_lp,
    _causes_lp_edits,
    _causes_lp_files,
    _causes_lp_headings,
    _causes_lp_languages,
    _causes_lp_marks,
    _causes_lp_numbers,
    _causes_lp_others,
    _causes_lp_parts,
    _causes_lp_relations,
    _causes_lp_text,
    _causes_lp_words,
    _causes_mps,
    _causes_mps_fields,
    _causes_mps_files,
    _causes_mps_lines,
    _expected,
)
from mpslp._messages._adapted import with_adapt
from mpslp._messages._case import FOUND, Case, Found
from mpslp._messages._causes_both import Rule
from mpslp._messages._details import detail_of
from mpslp._messages._excerpt import excerpt
from mpslp._messages._place import about

_HOW_IT_IS_SEEN = re.compile(r" \((?:[^()]|\([^()]*\))*\)$")
"""What is in parentheses at the end of a cause says how the cause is seen, which the rule has done."""


class Message(NamedTuple):
    """The parts of a message."""

    first: str
    """The line ``FILE:LINE: Kind: name``."""
    words: str
    """What the error is about: the name of the first line; empty if it is not known."""
    excerpt: str
    """The lines of the text, with carets; empty if none is known."""
    cause: str
    """The cause that fits the line; empty if none does."""
    fix: str
    """What to do about it."""
    mend: str = ""
    """What to write instead, which is a part of the fix; empty if it is not known."""
    written: str = ""
    """Lines that say the same in a form that mpslp reads; empty if there are none."""

    def __str__(self) -> str:
        parts = [self.first, self.excerpt]
        parts += [f"  cause: {self.cause}", f"  fix: {self.fix}"] if self.cause else []
        parts += [f"    {line}" for line in self.written.split("\n")] if self.written else []
        return "\n".join(filter(None, parts))


_OF_MPS = (_causes_mps_files, _causes_mps_fields, _causes_mps, _causes_mps_lines)
_OF_LP = (
    _causes_lp_others,
    _causes_lp_headings,
    _causes_lp_marks,
    _causes_lp_languages,
    _causes_lp_parts,
    _causes_lp_text,
    _causes_lp_numbers,
    _causes_lp_relations,
    _causes_lp_words,
    _causes_lp,
    _causes_lp_edits,
)
MODULES = (_causes_lp_files, _causes_files, *_OF_MPS, *_OF_LP, _causes_both, _expected)
"""The modules that have rules."""


def rules_of(case: Case) -> tuple[Rule, ...]:
    """The rules for the format of a text, in the order in which they are asked."""
    own = tuple(rule for module in (_OF_MPS if case.is_mps else _OF_LP) for rule in module.RULES)
    names = {rule.__name__ for rule in own}
    both = (rule for rule in _causes_both.RULES if rule.__name__ not in names)
    if case.is_mps:
        return (*_causes_files.RULES, *own, *both)
    return (*_causes_lp_files.RULES, *_causes_files.RULES, *own, *both, *_expected.RULES)


def name_of(rule: Rule) -> str:
    """The name that the table of causes has for a rule."""
    return rule.__name__.replace("_", "-")


def message(path: str, error: ModelFileError, text: Text | None) -> Message:
    """The message about the file of a path, which has a text, or None if that is not known."""
    where = path if error.line is None else f"{path}:{error.line}"
    if text is None:
        return Message(
            f"{where}: {error.kind}" + (f": {error.name}" if error.name else ""), error.name or "", "", "", ""
        )
    case = Case(text, error)
    cause, found = _cause_of(case)
    words = (case.words if error.line is not None else about(text, error)) or found.words
    first = f"{where}: {error.kind}" + (f": {words}" if words else "")
    marks = [
        *found.marks,
        *([case.mark] if case.mark is not None and not (found.moves and _has_line(found, case)) else []),
    ]
    shown = excerpt(marks)
    if cause is None:
        return Message(
            first, words, shown, "not recognised", f"mpslp-tools explain {error.kind} lists the usual causes"
        )
    said = without_note(cause.cause)
    detail = f"; {found.detail}" if found.detail else ""
    mend = f": {found.mend}" if found.mend else ""
    fix = cause.fix + mend
    fix = fix if error.place is not None else with_adapt(fix, text, found.means_other)
    return Message(first, words, shown, said + detail, fix, found.mend, found.written)


def cause_of(error: ModelFileError, text: Text) -> Cause | None:
    """The cause that a message names; None if it is not recognised."""
    return _cause_of(Case(text, error))[0]


def without_note(cause: str) -> str:
    """A cause without the note in parentheses at its end."""
    return _HOW_IT_IS_SEEN.sub("", cause)


def verdict(path: str, text: Text) -> Message | None:
    """The message about the file of a path, or None if it is accepted."""
    try:
        _mpslp.is_canonical(text.content, text.format)
    except ModelFileError as error:
        return message(path, error, text)
    return None


def _has_line(found: Found, case: Case) -> bool:
    return any(mark.number == case.line.number for mark in found.marks)


def _cause_of(case: Case) -> tuple[Cause | None, Found]:
    """The cause that a rule recognises; else the usual one of the kind, which no rule is needed for."""
    known = causes_with_rules(case.kind)
    by_rule = {rule: cause for rule, cause in known if rule}
    for rule in rules_of(case):
        cause = by_rule.get(name_of(rule))
        found = rule(case) if cause is not None else None
        if found is not None:
            return cause, found
    usual = [cause for rule, cause in known if not rule]
    if not usual:
        return None, FOUND
    own = next((cause for cause in usual if cause.place.startswith("MPS" if case.is_mps else "LP")), usual[0])
    return own, detail_of(case)
