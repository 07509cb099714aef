"""Names that a solver reads, for names that it does not read."""

from __future__ import annotations

from mpslp._solver_texts._solvers import Language
from mpslp._text._names import is_lp_name

_ROOM = 12
"""What is left for a number after a name that is cut."""
_REPLACED = str.maketrans("[]", "()")


def is_read(name: str, language: Language) -> bool:
    """Whether a name is read as it is."""
    if len(name) > language.most_bytes or language.name is not None and not language.name.fullmatch(name):
        return False
    return language.format != "lp" or is_lp_name(name)


def readable_name(name: str, language: Language) -> str:
    """A name that is read, and looks like the one given. Names that are different may become the same."""
    text = language.replaced.sub("_", name.translate(_REPLACED))[: language.most_bytes - _ROOM]
    return text if is_read(text, language) else f"_{text}"
