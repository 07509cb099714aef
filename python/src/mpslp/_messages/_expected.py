"""What may come at the place of an error of LP, which the proved reader says: it is asked with one thing after another
there.
"""

from __future__ import annotations

from mpslp._messages._case import Case, Found
from mpslp._messages._causes_both import Rule
from mpslp._messages._lp_edits import is_used
from mpslp._messages._lp_suspects import is_word, lp_section
from mpslp._messages._lp_trials import Trial
from mpslp._messages._tokens import Token

_TRIED = {
    "a number": "1",
    "a column": "unused_name",
    "a sign": "+",
    "a relation": "<=",
    "a colon": ":",
    "free": "free",
    "subject to": "subject to",
    "bounds": "bounds",
    "end": "end",
}
_PARTS = {"": "the objective", "rows": "a row", "bounds": "a bound", "list": "a list of columns"}


def unexpected(case: Case) -> Found | None:
    """Whatever is not legal after what comes before it."""
    token, before = case.token, case.before()
    if case.place is None or token is None:
        return None
    trial, place = Trial(case), case.line.start + case.place.start
    may_come = [words for words, tried in _TRIED.items() if trial.may_come(place, tried)]
    if not may_come:
        return None
    listed = may_come[0] if len(may_come) == 1 else f"{', '.join(may_come[:-1])} or {may_come[-1]}"
    if before is None:
        return Found(f"the file starts with {listed}")
    return Found(f"{_what(case, token)} in {_part_of(case)}, where {listed} may come after {before.text}")


def _what(case: Case, token: Token) -> str:
    """What a token is."""
    if token.is_number:
        return f"the number {token.text}"
    if token.is_relation or token.is_sign:
        return f"the {'relation' if token.is_relation else 'sign'} {token.text}"
    if not token.is_name:
        return f"the mark {token.text}"
    if not is_word(token):
        return f"the reserved word {token.text}"
    return f"the name {token.text}" + ("" if is_used(case, token.text) else ", which is nowhere else,")


def _part_of(case: Case) -> str:
    """The part of the model that has the error: the row by its label, if it has one."""
    section = lp_section(case)
    tokens = case.tokens[: case.token_at]
    if section == "rows" and ":" in (each.text for each in tokens):
        at = max(at for at, each in enumerate(tokens) if each.text == ":")
        if at and not any(each.is_relation for each in tokens[at:]):
            return f"the row {tokens[at - 1].text}"
    return _PARTS[section]


RULES: tuple[Rule, ...] = (unexpected,)
