"""Other names in canonical MPS texts and in solutions, and the table of names."""

from __future__ import annotations

import json
import re
from collections.abc import Callable, Mapping
from functools import partial

from mpslp._matching._map import NameMap, name_map_of
from mpslp._rename._names import RenameError, original_name

GivenNames = Mapping[str, str] | NameMap
"""The names that are given by those that are written: one mapping, or a map with parts for rows, columns and the
objective.
"""

_PLACES = {"ROWS": (1,), "COLUMNS": (0, 1), "RHS": (1,), "RANGES": (1,), "BOUNDS": (2,)}
"""The fields of the sections of a canonical text that are names."""
_WORD = re.compile(r"[^ \t\r\n]+")


def with_names(canonical: bytes, name_of: Callable[[str], str]) -> bytes:
    """A canonical MPS text in which each name is another one."""
    lines: list[str] = []
    places: tuple[int, ...] = ()
    for line in canonical.decode("ascii").splitlines():
        if not line.startswith(" "):
            places = _PLACES.get(line, ())
            lines.append(line)
            continue
        fields = line.split()
        if fields[1:2] != ["'MARKER'"]:
            for place in places:
                fields[place] = name_of(fields[place])
        lines.append(f" {'  '.join(fields)}")
    return "".join(f"{line}\n" for line in lines).encode("ascii")


def words_back(solution: bytes, names: GivenNames | None) -> bytes:
    """A solution with the names of a table, or else with those that the rule gives back; other words stay.

    A word is what is between spaces, tabs and line ends.
    """
    name_of = _name_if_written if names is None else name_from(names)
    text = solution.decode("latin-1")  # a letter a byte
    return _WORD.sub(lambda word: name_of(word[0]), text).encode("latin-1")


def name_from(names: GivenNames) -> Callable[[str], str]:
    """The names of a table; a name that is not in it stays.

    The function raises RenameError for a name of several parts of the model whose names in the table differ.
    """
    return partial(_name_of_part, names) if isinstance(names, NameMap) else partial(_name_in, names)


def _name_in(names: Mapping[str, str], name: str) -> str:
    return names.get(name, name)


def _name_of_part(names: NameMap, name: str) -> str:
    try:
        return names.of_word(name)
    except ValueError as error:
        raise RenameError(str(error)) from None


def _name_if_written(word: str) -> str:
    try:
        return original_name(word)
    except RenameError:
        return word


def table(names: Mapping[str, str]) -> bytes:
    """The names given and the names that are written for them, as a JSON object."""
    text = json.dumps({name: names[name] for name in sorted(names)}, indent=1, ensure_ascii=False)
    return f"{text}\n".encode("utf-8", "surrogateescape")


def table_of(content: bytes) -> dict[str, str] | NameMap:
    """The names given by those that are written for them; raises ValueError for what is no such table, nor the map of a
    NameMap.
    """
    names = json.loads(content.decode("utf-8", "surrogateescape"))
    if isinstance(names, dict) and any(isinstance(each, dict) for each in names.values()):
        return name_map_of(names).inverse
    if not isinstance(names, dict) or not all(isinstance(each, str) for each in names.values()):
        raise ValueError("it is not a JSON object of names")
    return {written: name for name, written in names.items()}
