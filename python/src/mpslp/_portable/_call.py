"""The call."""

from collections.abc import Callable, Iterator, Mapping

from mpslp import _mpslp
from mpslp._files._sources import Format, Source, naming, read
from mpslp._portable import _lp_rules, _mps_rules
from mpslp._portable._lp import LpFile
from mpslp._portable._mps import MpsFile
from mpslp._portable._remarks import PROGRAMS, Found, Program, Remark

KINDS = tuple(dict.fromkeys([*_mps_rules.RULES, *_lp_rules.RULES]))
"""The kinds of remarks."""


def portability(source: Source, format: Format | None = None, *, target: Program | None = None) -> tuple[Remark, ...]:
    """Returns what other programs may read differently in a text that this package accepts, in the order of lines.

    The format may be left out for a path that ends in ``.mps`` or ``.lp``. With a target, only what this program was
    found to read differently, or to reject, is returned.

    Raises ModelFileError where the text declares no model, and ValueError for an unknown target.

    >>> for remark in mpslp.portability(b"min x/2\\nend\\n", "lp"):
    ...     print(remark)
    1: name-like-arithmetic: x/2 is one name; it contains /
    """
    if target is not None and target not in PROGRAMS:
        raise ValueError(f"the target {target!r} is none of {', '.join(PROGRAMS)}")
    text = read(source, format)
    with naming(text):
        _mpslp.is_canonical(text.content, text.format)  # it raises the error of a text that is rejected
    return tuple(
        remark for remark in remarks_of(text.content, text.format) if target is None or target in remark.programs
    )


def remarks_of(content: bytes, format: int) -> tuple[Remark, ...]:
    """The remarks on a text that is accepted."""
    if format == _mpslp.LP:
        return tuple(sorted(_said(LpFile(content), _lp_rules.RULES)))
    return tuple(sorted(_said(MpsFile(content), _mps_rules.RULES)))


def _said(file: object, rules: Mapping[str, Callable[..., Found]]) -> Iterator[Remark]:
    return (Remark(line, kind, text, programs) for kind, rule in rules.items() for line, text, programs in rule(file))
