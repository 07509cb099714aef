"""Read-only mappings from names, in byte order of names."""

from __future__ import annotations

from bisect import bisect
from collections.abc import ItemsView, Iterable, Iterator, KeysView, Mapping, ValuesView
from itertools import islice
from typing import Any, TypeVar

from mpslp import _mpslp

Value = TypeVar("Value", covariant=True)

_MOST_SHOWN = 20
_MOST_COMPARED = 10_000
"""Of a large mapping so many names before a missing one, and as many after it, are compared with it."""


class MissingNameError(KeyError):
    """A name that is not in a mapping. As text it has the nearest one that is, which is not looked for before."""

    def __init__(self, name: str, names: Iterable[str]) -> None:
        super().__init__(name)
        self._names = names

    def __str__(self) -> str:
        from difflib import get_close_matches

        name = self.args[0]
        near = get_close_matches(name, _around(name, list(self._names)), n=1) if isinstance(name, str) else []
        return f"{name!r}; did you mean {near[0]!r}?" if near else repr(name)

    def __reduce__(self) -> tuple[Any, ...]:
        return KeyError, self.args


def _around(name: str, names: list[str]) -> list[str]:
    """The names around the place of one, in byte order."""
    place = bisect(names, name)
    return names[max(place - _MOST_COMPARED, 0) : place + _MOST_COMPARED]


class _Keys(KeysView[str]):
    """Names, which can be reversed like those of a dict."""

    _mapping: ReadOnly[Any]

    def __reversed__(self) -> Iterator[str]:
        return reversed(self._mapping)


class _Values(ValuesView[Value]):
    """Values in turn, without a search for each name."""

    _mapping: ReadOnly[Value]

    def __iter__(self) -> Iterator[Value]:
        return (value for _, value in self._mapping.pairs())

    def __reversed__(self) -> Iterator[Value]:
        return reversed(list(self))


class _Items(ItemsView[str, Value]):
    """Names and values in turn, without a search for each name."""

    _mapping: ReadOnly[Value]

    def __iter__(self) -> Iterator[tuple[str, Value]]:
        return iter(self._mapping.pairs())

    def __reversed__(self) -> Iterator[tuple[str, Value]]:
        return reversed(list(self))


class ReadOnly(Mapping[str, Value]):
    """The common part of these mappings. Their values do not change, so a copy is the mapping itself."""

    __slots__ = ("__weakref__",)

    def pairs(self) -> Iterable[tuple[str, Value]]:
        """Each name with its value."""
        raise NotImplementedError

    def keys(self) -> KeysView[str]:
        return _Keys(self)

    def values(self) -> ValuesView[Value]:
        return _Values(self)

    def items(self) -> ItemsView[str, Value]:
        return _Items(self)

    def __reversed__(self) -> Iterator[str]:
        return reversed(list(self))

    def __hash__(self) -> int:
        return hash(frozenset(self.items()))

    def __repr__(self) -> str:
        shown = [f"{name!r}: {value!r}" for name, value in islice(self.pairs(), _MOST_SHOWN)]
        if len(self) > _MOST_SHOWN:
            shown.append("...")
        return "{" + ", ".join(shown) + "}"

    def __copy__(self) -> ReadOnly[Value]:
        return self

    def __deepcopy__(self, memo: object) -> ReadOnly[Value]:
        return self

    def __reduce__(self) -> tuple[Any, ...]:
        return dict, (dict(self),)


class Held(ReadOnly[Value]):
    """A mapping that stores its values."""

    __slots__ = ("_held",)

    def __init__(self, items: Iterable[tuple[str, Value]] = ()) -> None:
        self._held = dict(sorted(items, key=lambda item: item[0]))

    def __getitem__(self, name: str) -> Value:
        if name not in self._held:
            raise MissingNameError(name, self._held)
        return self._held[name]

    def __iter__(self) -> Iterator[str]:
        return iter(self._held)

    def __len__(self) -> int:
        return len(self._held)

    def pairs(self) -> Iterable[tuple[str, Value]]:
        return self._held.items()


class Numbered(ReadOnly[Value]):
    """A mapping whose values are made from the arrays of a model on access."""

    __slots__ = ("_arrays",)

    def __init__(self, arrays: _mpslp.Arrays) -> None:
        self._arrays = arrays
