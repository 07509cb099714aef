"""The columns without terms, which the canonical text of a model shows: no file has to be searched for them."""

import re
from collections.abc import Iterator

_OBJECTIVE_OF_MPS = re.compile(rb"\n N  (.*)\n")
_ROWS_OF_LP = b"\nSubject To\n"
_TERM_OF_LP = re.compile(rb"\n  \+ 0 (.*)")


def columns_without_terms(canonical: bytes) -> frozenset[bytes]:
    """The columns of a model that are in no row and have no cost, by its canonical text in either format."""
    return frozenset(_of_mps(canonical) if canonical.startswith(b"NAME") else _of_lp(canonical))


def _of_lp(canonical: bytes) -> list[bytes]:
    return _TERM_OF_LP.findall(canonical, 0, canonical.find(_ROWS_OF_LP) + 1)


def _of_mps(canonical: bytes) -> Iterator[bytes]:
    objective = _OBJECTIVE_OF_MPS.search(canonical)
    assert objective is not None
    term = b"  %b  0\n" % objective[1]
    place = canonical.find(term)
    while place >= 0:
        yield canonical[canonical.rfind(b"\n", 0, place) + 1 : place].strip()
        place = canonical.find(term, place + len(term))
