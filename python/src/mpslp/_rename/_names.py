"""The legal name of LP for each name of MPS, and back.

A byte is written as ``_x`` and two hexadecimal digits, 0 to 9 and A to F, if it is not a symbol of LP names. So is the
first byte of a name that is then still not legal: one that starts with a digit or a period, that looks like an
exponent, or that is a reserved word. And so is the ``_`` of each ``_x`` and two such digits that a name has itself. All
other bytes stay.

No two names become the same, since reading each escape back gives the name again: an escape starts with ``_``, which is
neither ``x`` nor a digit, so what looks like an escape in a written name is one that was written, or lies in bytes that
stayed; and of those each ``_`` was written as an escape. A legal name without such an escape stays as it is.
"""

from __future__ import annotations

import re

from mpslp._text._names import MOST_BYTES, is_lp_name, is_mps_name

_ESCAPE = re.compile(r"_x([0-9A-F]{2})")
_ESCAPED = re.compile(r"_(?=x[0-9A-F]{2})|[^A-Za-z0-9!\"#$%&()/,.;?@_'`{}|~]")


class RenameError(ValueError):
    """A name that has no legal name of at most 255 bytes, or that is not one of those that are written."""


def lp_name(name: str) -> str:
    """The name of LP for a name of MPS; raises RenameError if it is too long."""
    written = _written(name)
    if len(written) > MOST_BYTES:
        raise RenameError(f"renamed for LP, a name has {len(written)} bytes, and {MOST_BYTES} are the most: {name}")
    return written


def original_name(written: str) -> str:
    """The name that is written so; raises RenameError if there is none."""
    name = _ESCAPE.sub(lambda found: chr(int(found[1], 16)), written)
    if not is_mps_name(name) or _written(name) != written:
        raise RenameError(f"--rename writes no such name: {written}")
    return name


def _written(name: str) -> str:
    written = _ESCAPED.sub(lambda found: _escape(found[0]), name)
    is_legal = is_lp_name(
        written[:MOST_BYTES]
    )  # what a name is not legal for is within its first bytes, except its length
    return written if is_legal else _escape(written[0]) + written[1:]


def _escape(byte: str) -> str:
    return f"_x{ord(byte):02X}"
