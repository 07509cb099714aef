"""The call that formats a text, and checks by the proved comparison that it defines the same model."""

from __future__ import annotations

import re

from mpslp import _mpslp
from mpslp._errors._own_checks import OwnCheckError, require_same
from mpslp._files._sources import Format, Source, Text, naming, read
from mpslp._format._lp import formatted_lp
from mpslp._format._mps import formatted_mps

_MPS_COMMENT = re.compile(rb"^\*.*", re.MULTILINE)
_LP_COMMENT = re.compile(rb"\\.*")


def formatted(source: Source, format: Format | None = None) -> str:
    """Returns a text with the spacing, letter case of keywords, number text and line breaks of ``mpslp-tools fmt``.

    Comments, the NAME line, the order of rows, columns and sections, and what follows the end stay as they are. The
    result is compared with the text by :func:`same` before it is returned, and so are its comments. Formatting it again
    changes nothing.

    The format is optional for a path that ends in ``.mps`` or ``.lp``. Bytes of comments that are no UTF-8 are
    surrogates in the result, as in names of files: ``.encode("utf-8", "surrogateescape")`` makes bytes of it.

    Raises ModelFileError if the text declares no model.

    >>> print(mpslp.formatted(b"MAX c: 3.0 x+2e0 y ST limit:x + y<=4.50 \\\\ hours\\nEND", "lp"), end="")
    Max
     c: 3 x + 2 y
    <BLANKLINE>
    st
     limit: x + y <= 4.5 \\ hours
    <BLANKLINE>
    End
    """
    text = read(source, format)
    with naming(text):
        return formatted_text(text).decode("utf-8", "surrogateescape")


def formatted_text(text: Text) -> bytes:
    """The same for the bytes of a text; raises OwnCheckError if it is not the same model, or has
    not the same comments.
    """
    _mpslp.is_canonical(text.content, text.format)  # raises the error of a text that is rejected
    try:
        content = _formatted(text)
    except (ValueError, LookupError, AssertionError, AttributeError) as error:
        raise OwnCheckError from error
    require_same(text.content, text.format, content, text.format)
    if _comments(text.content, text.format) != _comments(content, text.format):
        raise OwnCheckError("the result does not have the same comments")
    return content


def _comments(content: bytes, format: int) -> list[bytes]:
    """The comments of a text, without reading anything else; what looks like one after the end is kept, too."""
    found: list[bytes] = (_MPS_COMMENT if format == _mpslp.MPS else _LP_COMMENT).findall(content)
    return [comment.rstrip(b"\r") for comment in found]


def _formatted(text: Text) -> bytes:
    return (formatted_mps if text.format == _mpslp.MPS else formatted_lp)(text.content)
