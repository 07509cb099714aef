"""The merge of models."""

# Annotations are evaluated here: the class says that it is of the package, whose names are fewer.

from typing import NamedTuple

from mpslp._errors._own_checks import OwnCheckError
from mpslp._files._sources import Format, Source
from mpslp._merge._check import require_merged
from mpslp._merge._conflicts import Conflict
from mpslp._merge._rules import Decided, Three
from mpslp._models._model import Model, load


class Merged(NamedTuple):
    """What comes of a merge.

    model
        The merged model; None if there is a conflict.
    conflicts
        The items about which both sides disagree: a :class:`Conflict` for each.
    """

    model: Model | None
    conflicts: tuple[Conflict, ...]


def merge(base: Model | Source, ours: Model | Source, theirs: Model | Source, format: Format | None = None) -> Merged:
    """Merges two models that were made of one base, each a :class:`Model` or a text.

    The items of a model are its sense, the name of its objective and its constant; the existence and each limit of a
    row; the existence, kind, each bound and cost of a column; and each coefficient. An item has the value of the side
    that changed it. It is a conflict if both sides changed it to different values, or if one side removed a row or
    column that the other one changed or uses; so are values that do not fit each other, such as a lower limit of one
    side above the upper one of the other.

    ``format`` is the format of texts; it may be left out for a path that ends in ``.mps`` or ``.lp``.

    Raises ModelFileError where a text declares no model.

    >>> base = mpslp.load(b"max 3 x + 2 y\\nst flour: x + y <= 40\\nend\\n", "lp")
    >>> ours = base.replace(rows=[mpslp.Row("flour", upper=42)])
    >>> model, conflicts = mpslp.merge(base, ours, base.replace(constant=5))
    >>> model.rows["flour"].upper, model.constant
    (Decimal('42'), Decimal('5'))
    >>> print(*mpslp.merge(base, ours, base.replace(rows=[mpslp.Row("flour", upper=44)])).conflicts)
    conflict: row flour, upper limit: base 40, ours 42, theirs 44
    """
    models = Three(*(each if isinstance(each, Model) else load(each, format) for each in (base, ours, theirs)))
    return merged_of(models, Decided(models))


def merged_of(models: Three, decided: Decided) -> Merged:
    """The merged model, which is checked, or the conflicts."""
    if decided.conflicts:
        return Merged(None, decided.conflicts)
    try:
        model = decided.model()
    except ValueError as error:
        raise OwnCheckError(f"the merged values are no model: {error}") from error
    require_merged(models, decided.of_ours, decided.of_theirs, model)
    return Merged(model, ())
