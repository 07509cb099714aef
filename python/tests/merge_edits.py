"""Random models with changes of two sides, and what a merge has to make of them. Nothing here is of the package but the
models.

A model is drawn as dictionaries. An edit sets some of its items, removes rows and columns, or adds them. The edits of
two sides are independent if no item is set by both, and none needs what the other one removes; then the merged model is
the base with all of them.
"""

from __future__ import annotations

import copy
import random
from collections.abc import Callable, Iterator
from dataclasses import dataclass, field
from decimal import Decimal
from typing import Any

import mpslp

INFINITY = Decimal("Infinity")
Key = tuple[str, ...]
"""An item: its kind, and its names."""


@dataclass
class Drawn:
    """A model."""

    head: dict[str, Any]
    rows: dict[str, list[Any]]
    columns: dict[str, list[Any]]
    entries: dict[tuple[str, str], int]

    def made(self) -> mpslp.Model:
        rows = [mpslp.Row(name, *limits) for name, limits in self.rows.items()]
        of_columns: dict[str, dict[str, int]] = {name: {} for name in self.columns}
        for (row, column), value in self.entries.items():
            of_columns[column][row] = value
        columns = [mpslp.Column(name, *parts, of_columns[name]) for name, parts in self.columns.items()]
        return mpslp.Model(self.head["sense"], self.head["objective"], self.head["constant"], rows, columns)

    def edited(self, *edits: Edit) -> Drawn:
        found = copy.deepcopy(self)
        for each in edits:
            each.apply(found)
        return found


@dataclass
class Edit:
    """What one side does: values by items, new rows and columns, and those that are removed."""

    values: dict[Key, Any] = field(default_factory=dict)
    new_rows: dict[str, list[Any]] = field(default_factory=dict)
    new_columns: dict[str, list[Any]] = field(default_factory=dict)
    removed: tuple[Key, ...] = ()

    def apply(self, model: Drawn) -> None:
        """Changes a model. What it does not have is not changed."""
        model.rows.update(copy.deepcopy(self.new_rows))
        model.columns.update(copy.deepcopy(self.new_columns))
        for (kind, *names), value in self.values.items():
            if kind == "head":
                model.head[names[0]] = value
            elif kind == "entry" and names[0] in model.rows and names[1] in model.columns:
                model.entries[names[0], names[1]] = value
            elif kind == "row" and names[0] in model.rows:
                model.rows[names[0]][("lower", "upper").index(names[1])] = value
            elif kind == "column" and names[0] in model.columns:
                model.columns[names[0]][("kind", "lower", "upper", "cost").index(names[1])] = value
        for kind, name in self.removed:
            (model.rows if kind == "row" else model.columns).pop(name, None)
            at = 0 if kind == "row" else 1
            model.entries = {key: value for key, value in model.entries.items() if key[at] != name}
        model.entries = {key: value for key, value in model.entries.items() if value}

    @property
    def items(self) -> set[Key]:
        """What it sets or removes, or creates."""
        return {
            *self.values,
            *self.removed,
            *(("row", name) for name in self.new_rows),
            *(("column", name) for name in self.new_columns),
        }

    @property
    def needed(self) -> set[Key]:
        """The rows and columns of the base that it needs."""
        found: set[Key] = set()
        for kind, *names in self.values:
            if kind == "entry":
                found |= {("row", names[0]), ("column", names[1])}
            elif kind != "head":
                found.add((kind, names[0]))
        return found

    def is_independent(self, other: Edit) -> bool:
        return not (self.items & other.items or {*self.removed} & other.needed or {*other.removed} & self.needed)


class Edits:
    """Draws a base and its edits. Limits and bounds are drawn so that any two fit each other."""

    def __init__(self, source: random.Random, rows: int, columns: int) -> None:
        self._source = source
        self._count = 0
        draw = source.randint
        self.base = Drawn({"sense": "minimize", "objective": "cost", "constant": 0}, {}, {}, {})
        for number in range(rows):
            self.base.rows[f"r{number}"] = self._limits()
        for number in range(columns):
            self.base.columns[f"x{number}"] = self._column(f"x{number}")
            for row in source.sample(sorted(self.base.rows), draw(0, min(4, rows))):
                self.base.entries[row, f"x{number}"] = draw(1, 9)

    def _limits(self) -> list[Any]:
        return [
            self._source.choice((-INFINITY, self._source.randint(-9, 0))),
            self._source.choice((INFINITY, self._source.randint(1, 99))),
        ]

    def _column(self, name: str) -> list[Any]:
        draw = self._source.randint
        if self.is_narrow(name):
            return [
                self._source.choice(("continuous", "integer", "semi-continuous")),
                draw(0, 2),
                draw(3, 60),
                draw(-5, 9),
            ]
        return [self._source.choice(("continuous", "integer")), *self._limits(), draw(-5, 9)]

    @staticmethod
    def is_narrow(name: str) -> bool:
        """Whether the bounds of a column are always those that a semi-continuous one may have."""
        return int(name[-1]) % 2 == 1

    def new_name(self, letter: str) -> str:
        self._count += 1
        return f"{letter}new{self._count}"

    def row(self) -> str:
        return self._source.choice(sorted(self.base.rows))

    def column(self) -> str:
        return self._source.choice(sorted(self.base.columns))

    def narrow_column(self) -> str:
        return self._source.choice(sorted(filter(self.is_narrow, self.base.columns)))

    # ---- edits

    def drawn(self) -> Edit:
        kinds: tuple[Callable[[], Edit], ...] = (
            self.change_head,
            self.change_row,
            self.change_row,
            self.change_column,
            self.change_column,
            self.change_entry,
            self.change_entry,
            self.drop_entry,
            self.add_row,
            self.add_column,
            self.remove_row,
            self.remove_column,
            self.rename_row,
            self.rename_column,
        )
        return self._source.choice(kinds)()

    def change_head(self) -> Edit:
        what, value = self._source.choice(
            (("sense", "maximize"), ("objective", self.new_name("o")), ("constant", self._source.randint(1, 99)))
        )
        return Edit({("head", what): value})

    def change_row(self) -> Edit:
        name, side = self.row(), self._source.choice((0, 1))
        value = next(each for each in iter(lambda: self._limits()[side], None) if each != self.base.rows[name][side])
        return Edit({("row", name, ("lower", "upper")[side]): value})

    def change_column(self) -> Edit:
        name = self.column()
        what = self._source.choice(("kind", "lower", "upper", "cost"))
        at = ("kind", "lower", "upper", "cost").index(what)
        value = next(each for each in iter(lambda: self._column(name)[at], None) if each != self.base.columns[name][at])
        return Edit({("column", name, what): value})

    def change_entry(self) -> Edit:
        row, column = self.row(), self.column()
        return Edit({("entry", row, column): self.base.entries.get((row, column), 0) + self._source.randint(1, 9)})

    def drop_entry(self) -> Edit:
        if not self.base.entries:
            return self.change_entry()
        return Edit({("entry", *self._source.choice(sorted(self.base.entries))): 0})

    def add_row(self) -> Edit:
        name = self.new_name("r")
        columns = self._source.sample(
            sorted(self.base.columns), self._source.randint(0, min(3, len(self.base.columns)))
        )
        return Edit(
            {("entry", name, column): self._source.randint(1, 9) for column in columns}, new_rows={name: self._limits()}
        )

    def add_column(self) -> Edit:
        name = self.new_name("x")
        rows = self._source.sample(sorted(self.base.rows), self._source.randint(0, min(3, len(self.base.rows))))
        return Edit(
            {("entry", row, name): self._source.randint(1, 9) for row in rows}, new_columns={name: self._column(name)}
        )

    def remove_row(self) -> Edit:
        return Edit(removed=(("row", self.row()),))

    def remove_column(self) -> Edit:
        return Edit(removed=(("column", self.column()),))

    def rename_row(self) -> Edit:
        old, new = self.row(), self.new_name("r")
        entries = {("entry", new, column): value for (row, column), value in self.base.entries.items() if row == old}
        return Edit(dict(entries), new_rows={new: self.base.rows[old]}, removed=(("row", old),))

    def rename_column(self) -> Edit:
        old, new = self.column(), self.new_name("x")
        entries = {("entry", row, new): value for (row, column), value in self.base.entries.items() if column == old}
        return Edit(dict(entries), new_columns={new: self.base.columns[old]}, removed=(("column", old),))

    def independent(self, count: int, others: tuple[Clash, ...] = ()) -> list[Edit]:
        """Edits that are independent of each other and of clashes, and leave a column."""
        found: list[Edit] = []
        removed = sum(
            kind == "column" for each in others for edit in (each.ours, each.theirs) for kind, _ in edit.removed
        )
        for _ in range(20 * count):
            each = self.drawn()
            removes = sum(kind == "column" for kind, _ in each.removed)
            is_free = all(each.is_independent(other) for other in found) and all(
                other.is_independent(each) for other in others
            )
            if is_free and removed + removes < len(self.base.columns):
                found.append(each)
                removed += removes
            if len(found) == count:
                break
        return found


@dataclass
class Clash:
    """Edits of two sides that do not go together, and the lines that say so."""

    ours: Edit
    theirs: Edit
    lines: tuple[str, ...]
    as_ours: tuple[Edit, ...]
    """The edits if the conflict is resolved as ours."""
    as_theirs: tuple[Edit, ...]
    reserved: frozenset[Key] = frozenset()
    """Further items that are in the lines."""

    def swapped(self) -> Clash:
        lines = tuple(_swapped(line) for line in self.lines)
        return Clash(self.theirs, self.ours, lines, self.as_theirs, self.as_ours, self.reserved)

    def is_independent(self, other: Edit) -> bool:
        return self.ours.is_independent(other) and self.theirs.is_independent(other) and not self.reserved & other.items


def _swapped(line: str) -> str:
    head, ours = line.split(", ours ")
    own, other = ours.split(", theirs ")
    return f"{head}, ours {other}, theirs {own}"


def _text(value: Any | None, missing: str) -> str:
    return missing if value is None else {INFINITY: "inf", -INFINITY: "-inf"}.get(value, str(value))


def _sides(lower: Any, upper: Any) -> str:
    return f"{_text(lower, '')} to {_text(upper, '')}"


def line(item: str, base: Any, ours: Any, theirs: Any, removed: str = "") -> str:
    """The line of a conflict; ``removed`` is the row or the column of a coefficient that a side removed."""
    missing = f"removed {removed}".rstrip()
    sides = f"ours {_text(ours, missing)}, theirs {_text(theirs, missing)}"
    return f"conflict: {item}: base {_text(base, 'none')}, {sides}"


class Clashes:
    """Draws clashes."""

    def __init__(self, edits: Edits, source: random.Random) -> None:
        self._edits, self._source, self._base = edits, source, edits.base

    def drawn(self) -> Clash:
        kinds = (
            self.head,
            self.row_limit,
            self.column_part,
            self.kind,
            self.entry,
            self.same_row,
            self.same_column,
            self.entry_of_same_row,
            self.removed_row,
            self.removed_row_entry,
            self.removed_row_column,
            self.removed_column,
            self.removed_column_entry,
            self.removed_column_row,
            self.renamed_row,
            self.limits,
            self.bounds,
            self.kind_and_bound,
            self.name,
        )
        found = self._source.choice(kinds)()
        return self._source.choice((found, found.swapped()))

    def _two(self, key: Key, item: str, base: Any, ours: Any, theirs: Any) -> Clash:
        mine, other = Edit({key: ours}), Edit({key: theirs})
        return Clash(mine, other, (line(item, base, ours, theirs),), (mine,), (other,))

    def head(self) -> Clash:
        if self._source.random() < 0.5:
            return self._two(("head", "constant"), "constant", 0, 200, 300)
        ours, theirs = self._edits.new_name("o"), self._edits.new_name("o")
        return self._two(("head", "objective"), "name of the objective", "cost", ours, theirs)

    def row_limit(self) -> Clash:
        name, side = self._edits.row(), self._source.choice((0, 1))
        ours, theirs = ((-200, -300), (200, 300))[side]
        side_name = ("lower", "upper")[side]
        return self._two(
            ("row", name, side_name), f"row {name}, {side_name} limit", self._base.rows[name][side], ours, theirs
        )

    def column_part(self) -> Clash:
        name, (what, at, ours, theirs) = self._edits.column(), self._source.choice(
            (("upper", 2, 200, 300), ("cost", 3, 200, 300))
        )
        item = "upper bound" if what == "upper" else what
        return self._two(("column", name, what), f"column {name}, {item}", self._base.columns[name][at], ours, theirs)

    def kind(self) -> Clash:
        name = self._edits.narrow_column()
        base = self._base.columns[name][0]
        ours, theirs = (each for each in ("continuous", "integer", "semi-continuous") if each != base)
        return self._two(("column", name, "kind"), f"column {name}, kind", base, ours, theirs)

    def entry(self) -> Clash:
        row, column = self._edits.row(), self._edits.column()
        base = self._base.entries.get((row, column), 0)
        theirs = 300 if base == 0 else self._source.choice((0, 300))
        return self._two(("entry", row, column), f"row {row}, coefficient of {column}", base, 200, theirs)

    def same_row(self) -> Clash:
        name, column = self._edits.new_name("r"), self._edits.column()
        ours, theirs = (Edit({("entry", name, column): 5}, new_rows={name: [-INFINITY, upper]}) for upper in (7, 8))
        return Clash(ours, theirs, (line(f"row {name}, upper limit", None, 7, 8),), (ours,), (theirs,))

    def same_column(self) -> Clash:
        name, row = self._edits.new_name("x"), self._edits.row()
        ours, theirs = (Edit({("entry", row, name): 5}, new_columns={name: ["integer", 0, 9, cost]}) for cost in (7, 8))
        return Clash(ours, theirs, (line(f"column {name}, cost", None, 7, 8),), (ours,), (theirs,))

    def entry_of_same_row(self) -> Clash:
        """Both add a row, with and without a coefficient."""
        name, column = self._edits.new_name("r"), self._edits.column()
        ours, theirs = (Edit({("entry", name, column): value}, new_rows={name: [0, 7]}) for value in (5, 0))
        return Clash(ours, theirs, (line(f"row {name}, coefficient of {column}", None, 5, 0),), (ours,), (theirs,))

    def _removal(self, kind: str, name: str, theirs: Edit, *lines: str) -> Clash:
        ours = Edit(removed=((kind, name),))
        return Clash(ours, theirs, lines, (theirs, ours), (theirs,))

    def removed_row(self) -> Clash:
        name = self._edits.row()
        return self._removal(
            "row",
            name,
            Edit({("row", name, "upper"): 200}),
            line(f"row {name}, upper limit", self._base.rows[name][1], None, 200),
        )

    def removed_row_entry(self) -> Clash:
        row, column = self._edits.row(), self._edits.column()
        said = line(
            f"row {row}, coefficient of {column}", self._base.entries.get((row, column), 0), None, 200, f"row {row}"
        )
        return self._removal("row", row, Edit({("entry", row, column): 200}), said)

    def removed_row_column(self) -> Clash:
        row, column = self._edits.row(), self._edits.new_name("x")
        theirs = Edit({("entry", row, column): 4}, new_columns={column: ["continuous", 0, 9, 1]})
        return self._removal(
            "row", row, theirs, line(f"row {row}, coefficient of {column}", None, None, 4, f"row {row}")
        )

    def removed_column(self) -> Clash:
        name = self._edits.column()
        return self._removal(
            "column",
            name,
            Edit({("column", name, "cost"): 200}),
            line(f"column {name}, cost", self._base.columns[name][3], None, 200),
        )

    def removed_column_entry(self) -> Clash:
        row, column = self._edits.row(), self._edits.column()
        said = line(
            f"row {row}, coefficient of {column}",
            self._base.entries.get((row, column), 0),
            None,
            200,
            f"column {column}",
        )
        return self._removal("column", column, Edit({("entry", row, column): 200}), said)

    def removed_column_row(self) -> Clash:
        row, column = self._edits.new_name("r"), self._edits.column()
        theirs = Edit({("entry", row, column): 4}, new_rows={row: [0, 9]})
        return self._removal(
            "column", column, theirs, line(f"row {row}, coefficient of {column}", None, None, 4, f"column {column}")
        )

    def renamed_row(self) -> Clash:
        """One side renames a row, and the other changes it under its name."""
        ours = self._edits.rename_row()
        ((_, name),) = ours.removed
        theirs = Edit({("row", name, "lower"): -200})
        added = Edit(ours.values, ours.new_rows)
        said = line(f"row {name}, lower limit", self._base.rows[name][0], None, -200)
        return Clash(ours, theirs, (said,), (ours,), (theirs, added))

    def limits(self) -> Clash:
        """A lower limit of one side above an upper limit of the other."""
        name = self._edits.row()
        lower, upper = self._base.rows[name]
        above, below = 100 if upper == INFINITY else upper, -100 if lower == -INFINITY else lower
        top = self._source.choice(
            (upper, above + 100)
        )  # with another one, both sides change it, and those of ours are legal together
        ours = Edit({("row", name, "lower"): above, **({} if top == upper else {("row", name, "upper"): top})})
        theirs = Edit({("row", name, "upper"): below})
        said = line(f"row {name}, limits", *(_sides(*each) for each in ((lower, upper), (above, top), (lower, below))))
        return Clash(ours, theirs, (said,), (ours,), (theirs,))

    def bounds(self) -> Clash:
        name = self._edits.narrow_column()
        kind, lower, upper, _ = self._base.columns[name]
        ours, theirs = Edit({("column", name, "lower"): upper}), Edit({("column", name, "upper"): 2})
        said = line(
            f"column {name}, bounds",
            *(f"{kind}, {_sides(*each)}" for each in ((lower, upper), (upper, upper), (lower, 2))),
        )
        return Clash(ours, theirs, (said,), (ours,), (theirs,), frozenset([("column", name, "kind")]))

    def kind_and_bound(self) -> Clash:
        name = self._edits.narrow_column()
        kind, lower, upper, _ = self._base.columns[name]
        if kind == "semi-continuous":
            return self.kind()
        what, limits = self._source.choice((("upper", (lower, INFINITY)), ("lower", (-4, upper))))
        ours = Edit({("column", name, "kind"): "semi-continuous"})
        theirs = Edit({("column", name, what): limits[what == "upper"]})
        base, mine, other = (
            f"{kind}, {_sides(lower, upper)}",
            f"semi-continuous, {_sides(lower, upper)}",
            f"{kind}, {_sides(*limits)}",
        )
        reserved = frozenset([("column", name, "lower"), ("column", name, "upper")])
        return Clash(ours, theirs, (line(f"column {name}, bounds", base, mine, other),), (ours,), (theirs,), reserved)

    def name(self) -> Clash:
        """A name that one side gives the objective, and the other a row."""
        name = self._edits.new_name("o")
        ours, theirs = Edit({("head", "objective"): name}), Edit(
            {("entry", name, self._edits.column()): 3}, new_rows={name: [0, 9]}
        )
        return Clash(
            ours, theirs, (f"conflict: name {name}: base none, ours objective, theirs row",), (ours,), (theirs,)
        )


def clashes(edits: Edits, source: random.Random, count: int) -> Iterator[Clash]:
    """Clashes that are independent of each other."""
    found: list[Clash] = []
    draw = Clashes(edits, source)
    for _ in range(20 * count):
        each = draw.drawn()
        if all(
            a.is_independent(b.ours) and a.is_independent(b.theirs)
            for other in found
            for a, b in ((each, other), (other, each))
        ):
            found.append(each)
            yield each
        if len(found) == count:
            return
