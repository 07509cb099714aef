"""Names that look like something else."""

from __future__ import annotations

import re

_OPERATOR = re.compile(r"[-+*/^<>=]")
_NUMBER = re.compile(r"\.?[0-9]")
_EXPONENT = re.compile(r"[eE][0-9]*")


def arithmetic(name: str) -> str | None:
    """What a name looks like, if it looks like arithmetic; a reader of another language may take it apart."""
    if _NUMBER.match(name):
        return "it starts with a number"
    if _EXPONENT.fullmatch(name):
        return "it looks like an exponent"
    operator = _OPERATOR.search(name)
    if operator is not None:
        return f"it contains {operator[0]}"
    if name.count("(") != name.count(")"):
        return "it has a parenthesis without the other"
    if ";" in name or name.startswith(",") or name.endswith(","):
        return f"it contains {';' if ';' in name else ','}"
    return None
