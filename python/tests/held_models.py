"""Models as a program holds them: what is compared in full between a writer and the reading of what it wrote.

A model is printed as lines: `sense SENSE`, `constant NUMBER`, `row NAME LOWER UPPER`, `column NAME KIND LOWER UPPER`,
`cost COLUMN NUMBER` and `entry COLUMN ROW NUMBER`. Numbers are decimals or fractions, or `inf` and `-inf`.
"""

from __future__ import annotations

from collections.abc import Iterator, Mapping
from dataclasses import dataclass, field
from fractions import Fraction

Limit = Fraction | None
Limits = tuple[Limit, Limit]


@dataclass(frozen=True)
class Precision:
    """What a writer keeps of a number: significant digits, or places after the decimal point. Without either, all
    digits."""

    digits: int | None = None
    places: int | None = None

    def holds(self, held: Fraction, read: Fraction, largest: Fraction = Fraction(0)) -> bool:
        """Whether a number that is read is the one held, as the writer rounds it; it may be a sum with a term of that
        magnitude."""
        if held == read:
            return True
        if largest and self.digits is not None:
            return abs(held - read) <= largest / 10**self.digits
        if self.digits is None and self.places is None:
            return False
        if self.places is not None:
            return abs(held - read) <= Fraction(1, 2 * 10**self.places) + abs(held) / 2**53
        return float(held) == float(read) or f"{float(held):.{self.digits}g}" == f"{float(read):.{self.digits}g}"

    def holds_limit(self, held: Limit, read: Limit, largest: Fraction = Fraction(0)) -> bool:
        return held is read if held is None or read is None else self.holds(held, read, largest)

    def holds_row(self, held: Limits, read: Limits) -> bool:
        """Whether limits of a row are those held; in MPS a ranged row has one of them and the distance."""
        lower, upper = held
        largest = (
            max(abs(lower), abs(upper)) if lower is not None and upper is not None and lower != upper else Fraction(0)
        )
        return all(self.holds_limit(*pair, largest) for pair in zip(held, read))


@dataclass
class Column:
    kind: str
    lower: Limit
    upper: Limit
    cost: Fraction = Fraction(0)
    entries: dict[str, Fraction] = field(default_factory=dict)


@dataclass
class Held:
    """A model; the limits of a row are its lower and its upper one, and None is an infinite one."""

    sense: str = "minimize"
    constant: Fraction = Fraction(0)
    rows: dict[str, Limits] = field(default_factory=dict)
    columns: dict[str, Column] = field(default_factory=dict)

    def coefficients(self, row: str) -> dict[str, Fraction]:
        return {name: column.entries[row] for name, column in self.columns.items() if row in column.entries}


def limit(word: str) -> Limit:
    return None if word in ("inf", "-inf") else Fraction(word)


def from_lines(text: str) -> Held:
    """The model of the lines that a writer prints."""
    held = Held()
    for line in text.splitlines():
        kind, *words = line.split(" ")
        if kind == "sense":
            held.sense = words[0]
        elif kind == "constant":
            held.constant = Fraction(words[0])
        elif kind == "row":
            held.rows[words[0]] = limit(words[1]), limit(words[2])
        elif kind == "column":
            held.columns[words[0]] = Column(words[1], limit(words[2]), limit(words[3]))
        elif kind == "cost":
            held.columns[words[0]].cost = Fraction(words[1])
        elif kind == "entry" and Fraction(words[2]):
            held.columns[words[0]].entries[words[1]] = Fraction(words[2])
    return held


def to_lines(held: Held) -> str:
    def shown(number: Limit, infinite: str) -> str:
        return infinite if number is None else str(number)

    lines = [f"sense {held.sense}", f"constant {held.constant}"]
    lines += [f"row {name} {shown(lower, '-inf')} {shown(upper, 'inf')}" for name, (lower, upper) in held.rows.items()]
    for name, column in held.columns.items():
        lines.append(f"column {name} {column.kind} {shown(column.lower, '-inf')} {shown(column.upper, 'inf')}")
        lines.append(f"cost {name} {column.cost}")
        lines += [f"entry {name} {row} {number}" for row, number in column.entries.items()]
    return "\n".join(lines) + "\n"


def from_show(text: str) -> Held:
    """The model of what `mpslp show` prints."""
    held = Held()
    rows: list[str] = []
    columns: list[str] = []
    for line in text.splitlines():
        words = line.split(" ")
        if words[0] == "sense":
            held.sense = words[1]
        elif words[0] == "objective":
            held.constant = Fraction(words[3])
        elif words[0] == "row":
            rows.append(words[2])
            held.rows[words[2]] = limit(words[4]), limit(words[5])
        elif words[0] == "column":
            columns.append(words[2])
            held.columns[words[2]] = Column(words[3], limit(words[4]), limit(words[5]), Fraction(words[7]))
        elif words[0] == "entry" and Fraction(words[3]):
            held.columns[columns[int(words[1])]].entries[rows[int(words[2])]] = Fraction(words[3])
    return held


# ---- the comparison


def renamed(held: Held, names: Mapping[str, str]) -> Held:
    """A model with the names written for names given."""

    def name(given: str) -> str:
        return names.get(given, given)

    columns = {}
    for given, column in held.columns.items():
        entries = {name(row): number for row, number in column.entries.items()}
        columns[name(given)] = Column(column.kind, column.lower, column.upper, column.cost, entries)
    return Held(held.sense, held.constant, {name(row): limits for row, limits in held.rows.items()}, columns)


def differences(held: Held, read: Held, precision: Precision, lost: frozenset[str] = frozenset()) -> Iterator[str]:
    """In what a model that is read is not the one held. `lost` is what the format of the writer has no place for."""
    drop_dummy(held)
    drop_dummy(read)
    join_ranges(held, read)
    if "sense" not in lost and held.sense != read.sense:
        yield f"sense: held {held.sense}, read {read.sense}"
    if "constant" not in lost and not precision.holds(held.constant, read.constant):
        yield f"constant: held {held.constant}, read {read.constant}"
    rows = {
        name
        for name, limits in held.rows.items()
        if limits != (None, None) and ("empty rows" not in lost or held.coefficients(name))
    }
    yield from name_differences("row", rows, set(held.rows), set(read.rows))
    columns = set(held.columns) - (empty_columns(held, "plain columns" in lost) if lost & EMPTY else set())
    yield from name_differences("column", columns, set(held.columns), set(read.columns))
    for name in held.rows.keys() & read.rows.keys():
        if not precision.holds_row(held.rows[name], read.rows[name]):
            yield f"row {name}: held {shown(held.rows[name])}, read {shown(read.rows[name])}"
    for name in held.columns.keys() & read.columns.keys():
        yield from column_differences(
            name, held.columns[name], read.columns[name], precision, set(held.rows) & set(read.rows), lost
        )


PLAIN = [
    (kind, Fraction(0), upper) for kind, upper in (("continuous", None), ("integer", None), ("integer", Fraction(1)))
]
EMPTY = frozenset({"plain columns", "empty columns"})


def empty_columns(held: Held, is_plain: bool) -> set[str]:
    """Columns without coefficients; the plain ones have bounds that need no line."""
    empty = {name: each for name, each in held.columns.items() if not each.entries and not each.cost}
    return {name for name, each in empty.items() if not is_plain or (each.kind, each.lower, each.upper) in PLAIN}


def name_differences(kind: str, required: set[str], held: set[str], read: set[str]) -> Iterator[str]:
    if missing := sorted(required - read):
        yield f"{kind}s missing: {' '.join(missing)}"
    if added := sorted(read - held):
        yield f"{kind}s added: {' '.join(added)}"


def column_differences(
    name: str, held: Column, read: Column, precision: Precision, rows: set[str], lost: frozenset[str]
) -> Iterator[str]:
    is_fixed = held.lower is not None and held.lower == held.upper
    is_empty = not held.cost and not held.entries
    has_no_type = (is_fixed and "types of fixed columns" in lost) or (is_empty and "types of empty columns" in lost)
    if held.kind != read.kind and not has_no_type:
        yield f"column {name}: held {held.kind}, read {read.kind}"
    if not (precision.holds_limit(held.lower, read.lower) and precision.holds_limit(held.upper, read.upper)):
        yield f"column {name}: held {shown((held.lower, held.upper))}, read {shown((read.lower, read.upper))}"
    if not precision.holds(held.cost, read.cost):
        yield f"objective coefficient of {name}: held {held.cost}, read {read.cost}"
    for row in (held.entries.keys() | read.entries.keys()) & rows:
        pair = held.entries.get(row, Fraction(0)), read.entries.get(row, Fraction(0))
        if not precision.holds(*pair):
            yield f"coefficient of {name} in {row}: held {pair[0]}, read {pair[1]}"


def shown(limits: Limits) -> str:
    lower, upper = limits
    return f"[{'-inf' if lower is None else lower}, {'inf' if upper is None else upper}]"


def drop_dummy(model: Held) -> None:
    """Takes away the column that PuLP fixes at 0 and has in rows without terms, and the row that fixes it."""
    column = model.columns.get("__dummy")
    if column is not None and (column.lower, column.upper) == (Fraction(0), Fraction(0)):
        del model.columns["__dummy"]
        model.rows.pop("_dummy", None)


def join_ranges(held: Held, read: Held) -> None:
    """Takes a ranged row that is written as two rows, or with a column between its limits, as one row."""
    ranged = {name: limits for name, limits in held.rows.items() if None not in limits and limits[0] != limits[1]}
    for name, (lower, upper) in ranged.items():
        if name not in read.rows or shown(read.rows[name]) == shown((lower, upper)):
            continue
        own = read.coefficients(name)
        slack = next((column for column in own if column not in held.columns), None)
        if slack is not None:
            take_slack(read, name, slack)
            continue
        others = [each for each in read.rows if each not in held.rows]
        for other in sorted(others, key=lambda each: not each.startswith(name)):
            limits = [merged(*pair) for pair in zip(read.rows[name], read.rows[other])]
            if read.coefficients(other) == own and None not in limits:
                read.rows[name] = limits[0], limits[1]
                for column in read.columns.values():
                    column.entries.pop(other, None)
                del read.rows[other]
                break


def minimised(held: Held) -> Held:
    """The model with its objective negated, if it is maximised."""
    if held.sense == "minimize":
        return held
    columns = {
        name: Column(each.kind, each.lower, each.upper, -each.cost, dict(each.entries))
        for name, each in held.columns.items()
    }
    return Held("minimize", -held.constant, dict(held.rows), columns)


def take_slack(read: Held, row: str, slack: str) -> None:
    """Takes a column of an equation that has the distance from its right-hand side as the range of the row."""
    column, (side, other) = read.columns[slack], read.rows[row]
    is_slack = set(column.entries) == {row} and not column.cost and column.kind == "continuous"
    if is_slack and column.entries[row] == -1 and side is not None and side == other:
        read.rows[row] = moved(column.lower, side), moved(column.upper, side)
        del read.columns[slack]


def moved(number: Limit, distance: Fraction) -> Limit:
    return None if number is None else number + distance


def merged(one: Limit, other: Limit) -> Limit:
    """The limit that one of two rows has; none if both have one."""
    return other if one is None else one if other is None else None
