"""Coefficients that are given with rows, and rows and columns that are removed."""

from __future__ import annotations

from collections.abc import Collection, Iterable, Mapping
from dataclasses import replace
from typing import TYPE_CHECKING, Any

if TYPE_CHECKING:
    from mpslp._models._model import Column, Model, Row


def with_row_entries(rows: Iterable[Row], columns: Mapping[str, Column]) -> dict[str, Column]:
    """Columns with the coefficients that rows give, too."""
    found: dict[str, dict[str, Any]] = {}
    for row in rows:
        for name, value in (row._own or {}).items():
            if name not in columns:
                raise ValueError(f"row {row.name!r} has an entry in column {name!r}, which does not exist")
            entries = found.setdefault(name, dict(columns[name].entries))
            if entries.setdefault(row.name, value) != value:
                both = f"{value} and {entries[row.name]}"
                raise ValueError(f"row {row.name!r} and column {name!r} give different coefficients, {both}")
    return {**columns, **{name: replace(columns[name], entries=entries) for name, entries in found.items()}}


def columns_by_rows(
    model: Model, rows: Mapping[str, Row], columns: Mapping[str, Column], without: Collection[str]
) -> dict[str, Column]:
    """The columns that are given, and those that rows with entries change, with the coefficients that the rows give."""
    complete = {name: row for name, row in rows.items() if row._own is not None}
    met = {name for row in complete.values() for name in (*row.entries, *model.rows.get(row.name, row).entries)}
    changed = {
        name: _without(model.columns[name], complete)
        for name in met.difference(columns, without)
        if name in model.columns
    }
    return with_row_entries(complete.values(), {**columns, **changed})


def columns_without(model: Model, rows: Collection[str], columns: Collection[str]) -> dict[str, Column]:
    """The columns of a model without some of them, and without their coefficients in some rows."""
    met = {name for row in rows for name in model.rows[row].entries}
    kept = {name: column for name, column in model.columns.items() if name not in columns}
    return {name: _without(column, rows) if name in met else column for name, column in kept.items()}


def removed(names: Iterable[str], what: str, parts: Mapping[str, Any], given: Collection[str]) -> set[str]:
    """The names of the rows or the columns to be removed, which have to exist."""
    if isinstance(names, str):
        raise TypeError(f"the {what}s to be removed are given as several names, not as a str")
    found = set(names)
    for name in found:
        if name in given:
            raise ValueError(f"{what} {name!r} is to be removed, and is given")
        parts[name]  # it raises KeyError if there is none
    return found


def _without(column: Column, rows: Collection[str]) -> Column:
    """A column without its coefficients in some rows."""
    return replace(column, entries={row: value for row, value in column.entries.items() if row not in rows})
