"""The map of names between two models that are the same but for names."""

# Annotations are evaluated here: the class appears as one of the package, which has fewer names.

import json
from collections.abc import Iterable, Mapping
from dataclasses import dataclass
from typing import Any

from mpslp import _mpslp
from mpslp._models._model import Model, _check_name, model_of

_PARTS = ("objective", "rows", "columns")


@dataclass(frozen=True)
class NameMap:
    """The names of a model, and those that the same rows, the same columns and the objective have in another one.

    objective
        The name of the objective, and its other name.
    rows, columns
        The names of the rows, and those of the columns, in byte order, each with its other name.
    inverse
        The map from the other names to these.
    json()
        The map as JSON, which ``--names-back`` of ``mpslp-tools canon`` and ``adapt`` takes.
    """

    objective: Mapping[str, str]
    rows: Mapping[str, str]
    columns: Mapping[str, str]

    @property
    def inverse(self) -> "NameMap":
        return NameMap(*({other: name for name, other in getattr(self, part).items()} for part in _PARTS))

    def json(self) -> str:
        """The map as a JSON object of the three parts, each an object of names."""
        return json.dumps({part: dict(getattr(self, part)) for part in _PARTS}, indent=1) + "\n"

    def of_word(self, word: str) -> str:
        """The other name of whatever has a name; a word that is no name is unchanged.

        Raises ValueError if a row and a column, say, have this name and other names that differ.
        """
        found = {names[word]: part for part in _PARTS if word in (names := getattr(self, part))}
        if len(found) > 1:
            others = " and ".join(f"{other} ({part})" for other, part in found.items())
            raise ValueError(f"{word} is the name of several parts of the model, whose other names are {others}")
        return next(iter(found), word)


GivenNames = NameMap | Mapping[str, str] | Mapping[str, Mapping[str, str]]
"""A map of names: a NameMap, what is read from its JSON, or one mapping for all names."""


def name_map_of(given: GivenNames) -> NameMap:
    """A map of names that is given in any of these forms; raises ValueError for anything else."""
    if isinstance(given, NameMap):
        return given
    if not isinstance(given, Mapping):
        raise TypeError(f"a map of names is a mpslp.NameMap or a mapping, not {type(given).__name__}")
    if all(isinstance(other, str) for other in given.values()):
        return NameMap(*[_distinct("the map", given)] * 3)
    if not set(given) <= {*_PARTS} or not all(isinstance(names, Mapping) for names in given.values()):
        raise ValueError(
            "a map of names has the keys objective, rows and columns, each with names and their other names"
        )
    return NameMap(*(_distinct(part, given.get(part, {})) for part in _PARTS))


def _distinct(part: str, names: Any) -> dict[str, str]:
    """Names and their other names, of which no two are equal."""
    if not all(isinstance(each, str) for pair in names.items() for each in pair):
        raise ValueError(f"{part}: names are str")
    twice = _repeated(names.values())
    if twice is not None:
        raise ValueError(f"{part}: two names would be {twice}")
    return dict(names)


def renamed(model: Model, names: GivenNames) -> Model:
    """Returns a model under other names: those of a map, such as :func:`same_but_for_names` returns. Other names stay.

    Raises ValueError if two rows or two columns would have one name, or a row that of the objective, or if a name is
    not legal.

    >>> model = mpslp.load(b"min x + 2 y\\nend\\n", "lp")
    >>> list(mpslp.renamed(model, {"columns": {"x": "a", "y": "b"}}).columns)
    ['a', 'b']
    """
    if not isinstance(model, Model):
        raise TypeError(f"a model is a mpslp.Model, not {type(model).__name__}")
    return model_of(renamed_arrays(model._arrays, name_map_of(names)))


def renamed_arrays(arrays: _mpslp.Arrays, names: NameMap) -> _mpslp.Arrays:
    """The arrays of a model under the names of a map."""
    rows, columns = arrays.names()
    _, objective, _ = arrays.objective()
    objective = names.objective.get(objective, objective)
    new_rows = [names.rows.get(row, row) for row in rows]
    new_columns = [names.columns.get(column, column) for column in columns]
    _check_name(objective, "objective")
    for what, each in (("row", new_rows), ("column", new_columns)):
        for name in each:
            _check_name(name, what)
        twice = _repeated(each)
        if twice is not None:
            raise ValueError(f"two {what}s would be {twice}")
    if objective in set(new_rows):
        raise ValueError(f"row {objective!r} would have the name of the objective")
    return _mpslp.make_renamed(arrays, objective, new_rows, new_columns)


def _repeated(names: Iterable[str]) -> str | None:
    """A name that is there twice, or None."""
    seen = set[str]()
    for name in names:
        if name in seen:
            return name
        seen.add(name)
    return None
