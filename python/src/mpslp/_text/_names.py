"""The names that MPS and LP have."""

from __future__ import annotations

import re

from mpslp._text._lp_words import RESERVED
from mpslp._text._mps_words import MARKER

MOST_BYTES = 255
_MPS_NAME = re.compile(rf"[!-~]{{1,{MOST_BYTES}}}")
_LP_NAME = re.compile(r"[A-Za-z!\"#$%&()/,;?@_'`{}|~][A-Za-z0-9!\"#$%&()/,.;?@_'`{}|~]*")
_EXPONENT = re.compile(r"[eE](?:[0-9].*)?")


def is_lp_name(name: str) -> bool:
    """Whether a word is a legal name of LP."""
    return (
        _LP_NAME.fullmatch(name) is not None
        and len(name) <= MOST_BYTES
        and _EXPONENT.fullmatch(name) is None
        and name != MARKER
        and name.lower() not in RESERVED
    )


def is_mps_name(name: str) -> bool:
    """Whether a word is a legal name of MPS, and so of a model."""
    return _MPS_NAME.fullmatch(name) is not None and name != MARKER
