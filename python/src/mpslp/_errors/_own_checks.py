"""The checks of texts that this package makes without a proof, before they are written."""

from __future__ import annotations

from mpslp import _mpslp
from mpslp._errors._faults import ModelFileError


class OwnCheckError(RuntimeError):
    """A text that was made is not what it has to be: an error of this package."""

    def __init__(self, reason: str = "the result is not the same model") -> None:
        super().__init__(f"internal error: {reason}")


def require_same(given: bytes, given_format: int, made: bytes, made_format: int) -> None:
    """Raises OwnCheckError unless the proved comparison finds that both texts define the same model."""
    try:
        is_same = _mpslp.same(given, given_format, made, made_format)
    except ModelFileError as error:
        raise OwnCheckError from error
    if not is_same:
        raise OwnCheckError
