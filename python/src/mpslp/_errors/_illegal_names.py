"""The name that an error about a name which is not legal in LP is about. The library reports its place only."""

from __future__ import annotations

from collections.abc import Callable, Iterator
from contextlib import contextmanager, suppress

from mpslp import _mpslp
from mpslp._errors._faults import ModelFileError


def name_not_legal(arrays: _mpslp.Arrays, error: ModelFileError) -> str:
    """The name that is not legal in LP, of the model that has the error."""
    if error.number is None:
        return arrays.objective()[1]
    return arrays.row_name(error.number) if error.place == "row" else arrays.column_name(error.number)


@contextmanager
def naming_what_is_not_legal(arrays: Callable[[], _mpslp.Arrays]) -> Iterator[None]:
    """Within it, an error about a name that is not legal in LP gets that name."""
    try:
        yield
    except ModelFileError as error:
        if error.place is not None:
            with suppress(MemoryError):  # the error is reported without the name then
                error.name = name_not_legal(arrays(), error)
        raise
