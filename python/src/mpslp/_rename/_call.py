"""Models under legal names of LP and under their own names, checked by the proved comparison."""

from __future__ import annotations

from typing import NamedTuple

from mpslp import _mpslp
from mpslp._errors._own_checks import OwnCheckError, require_same
from mpslp._files._sources import Text
from mpslp._matching._map import NameMap, renamed_arrays
from mpslp._rename._names import RenameError, lp_name, original_name
from mpslp._rename._texts import GivenNames, name_from, with_names


class Renamed(NamedTuple):
    """A canonical LP text, and the names that are other ones in it, with what is written for them."""

    text: bytes
    names: dict[str, str]


def renamed(text: Text) -> Renamed:
    """The canonical LP text of a model under legal names. Renamed back, it is the same model.

    Raises RenameError if a name would be too long.
    """
    names: dict[str, str] = {}

    def name_of(name: str) -> str:
        written = lp_name(name)
        if written != name:
            names[name] = written
        return written

    canonical = _mpslp.canonical(text.content, text.format, _mpslp.MPS)
    content = _mpslp.canonical(with_names(canonical, name_of), _mpslp.MPS, _mpslp.LP)
    _check(canonical, with_names(_mpslp.canonical(content, _mpslp.LP, _mpslp.MPS), original_name))
    return Renamed(content, names)


def names_back(text: Text, names: GivenNames | None) -> bytes:
    """The canonical MPS text of a model under the names of a table, or else under those that the rule gives back.

    Raises RenameError if the rule writes no such names, or if names would be the same.
    """
    if isinstance(names, NameMap):
        return _mapped(text, names)
    name_of = original_name if names is None else name_from(names)
    canonical = _mpslp.canonical(text.content, text.format, _mpslp.MPS)
    restored: dict[str, str] = {}

    def restored_name(name: str) -> str:
        found = name_of(name)
        if restored.setdefault(found, name) != name:
            raise RenameError(f"two names would be {found}: {restored[found]} and {name}")
        return found

    content = _mpslp.canonical(with_names(canonical, restored_name), _mpslp.MPS, _mpslp.MPS)
    _check(canonical, with_names(content, restored.__getitem__))
    return content


def _mapped(text: Text, names: NameMap) -> bytes:
    """The same for a map that has names of rows and of columns apart."""
    arrays = _mpslp.load(text.content, text.format)
    try:
        mapped = renamed_arrays(arrays, names)
    except ValueError as error:
        raise RenameError(str(error)) from None
    content = _mpslp.store(mapped, _mpslp.MPS)
    # The model that is written is read again, and compared under the names before, which are those at the same places
    # of both models.
    if renamed_arrays(_mpslp.load(content, _mpslp.MPS), _back(arrays, names)) != arrays:
        raise OwnCheckError
    return content


def _back(arrays: _mpslp.Arrays, names: NameMap) -> NameMap:
    """The names of a model by those that a map gives them."""
    (rows, columns), (_, objective, _) = arrays.names(), arrays.objective()
    return NameMap(
        {names.objective.get(objective, objective): objective},
        {names.rows.get(row, row): row for row in rows},
        {names.columns.get(column, column): column for column in columns},
    )


def _check(given: bytes, back: bytes) -> None:
    """Checks that renaming back gives the model that was given; both texts are MPS."""
    require_same(given, _mpslp.MPS, back, _mpslp.MPS)
