"""The call."""

from collections.abc import Callable, Mapping

from mpslp import _mpslp
from mpslp._files._sources import Format, Source, naming, read
from mpslp._text._lines import numbers_of
from mpslp._text._mps import MpsText
from mpslp._warnings import _lp_rules, _mps_rules
from mpslp._warnings._canonical import columns_without_terms
from mpslp._warnings._lp import LpText
from mpslp._warnings._records import Found, ModelFileWarning

KINDS = tuple(dict.fromkeys([*_mps_rules.RULES, *_lp_rules.RULES]))
"""The kinds of warnings."""


def warnings_of(source: Source, format: Format | None = None) -> tuple[ModelFileWarning, ...]:
    """Returns what is accepted in a text and rarely meant, in the order of lines.

    The format may be left out for a path that ends in ``.mps`` or ``.lp``.

    Raises ModelFileError if the text defines no model.

    >>> for warning in mpslp.warnings_of(b"min x\\nbounds\\nX <= 4\\nend\\n", "lp"):
    ...     print(warning)
    3: late-name: X first appears in Bounds, as a new column that is in no row; the name x is there
    """
    text = read(source, format)
    with naming(text):
        canonical = _mpslp.canonical(text.content, text.format, text.format)
    return warnings_in(text.content, text.format, canonical)


def warnings_in(content: bytes, format: int, canonical: bytes | None = None) -> tuple[ModelFileWarning, ...]:
    """The warnings about a text that is accepted. With its canonical text, in either format, it takes less time."""
    if format == _mpslp.MPS:
        return _in_order(content, MpsText(content), _mps_rules.RULES)
    unused = None if canonical is None else columns_without_terms(canonical)
    return _in_order(content, LpText(content, unused), _lp_rules.RULES)


def _in_order(content: bytes, file: object, rules: Mapping[str, Callable[..., Found]]) -> tuple[ModelFileWarning, ...]:
    found = sorted((place, kind, text) for kind, rule in rules.items() for place, text in rule(file))
    return tuple(
        ModelFileWarning(line, kind, text)
        for line, (_, kind, text) in zip(numbers_of(content, [place for place, _, _ in found]), found)
    )
