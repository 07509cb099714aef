"""Calls of the extension module that take each way out of it; as a program, it makes each of them."""

from decimal import Decimal
from functools import partial

from mpslp import _mpslp
from repository import EXAMPLES

MPS = (EXAMPLES / "small.mps").read_bytes()
LP = (EXAMPLES / "small.lp").read_bytes()
OTHER = (EXAMPLES / "semi.lp").read_bytes()
CANONICAL = (EXAMPLES / "small.canonical.mps").read_bytes()
ON_A_LINE = b"ROWS\n N  cost\n N  cost\nENDATA\n"
WITH_A_NAME = b"ROWS\n N  cost\nCOLUMNS\n    x  cost  1\nBOUNDS\n UP  B  x  -1\nENDATA\n"
BOUNDS = b"BOUNDS\n UP  B  x  4\n LO  y  1\n* no bound\n FR  B  z\n MI  v\r\n  \r\n FR B w any\n"
LOADED = _mpslp.load(OTHER, _mpslp.LP)
NOT_LP = b"ROWS\n N  cost\nCOLUMNS\n    x[1]  cost  1\nENDATA\n"
LOW, SMALL, LARGE, HIGH = Decimal("-Infinity"), Decimal("-1.5E-7"), Decimal("40"), Decimal("Infinity")
ROWS = [("weight", LOW, LARGE), ("size", SMALL, HIGH)]
FUEL = ("fuel", _mpslp.INTEGER, SMALL, HIGH, LARGE, [(0, LARGE)])
COLUMNS = [
    ("y", _mpslp.INTEGER, SMALL, HIGH, LARGE, [(1, SMALL), (0, LARGE)]),
    ("x", _mpslp.CONTINUOUS, LOW, LARGE, SMALL, []),
]


def extended(rows, columns=[], objective="cost"):
    """The call that makes a model with further rows and columns."""
    return partial(_mpslp.make_extended, LOADED, _mpslp.MINIMIZE, objective, LARGE, rows, columns)


def replaced(rows, columns):
    """The call that makes a model with other rows and columns."""
    return partial(_mpslp.make_replaced, LOADED, _mpslp.make(_mpslp.MINIMIZE, "cost", LARGE, rows, columns))


# Each has all of its arguments, so that nothing but the call itself takes memory.
CALLS = {
    "canonical": partial(_mpslp.canonical, MPS, _mpslp.MPS, _mpslp.LP),
    "canonical, refused on a line": partial(_mpslp.canonical, ON_A_LINE, _mpslp.MPS, _mpslp.MPS),
    "canonical, refused with a name": partial(_mpslp.canonical, WITH_A_NAME, _mpslp.MPS, _mpslp.MPS),
    "canonical, not LP": partial(_mpslp.canonical, NOT_LP, _mpslp.MPS, _mpslp.LP),
    "same": partial(_mpslp.same, MPS, _mpslp.MPS, LP, _mpslp.LP),
    "same, not": partial(_mpslp.same, MPS, _mpslp.MPS, OTHER, _mpslp.LP),
    "same, first refused": partial(_mpslp.same, ON_A_LINE, _mpslp.MPS, LP, _mpslp.LP),
    "same, second refused": partial(_mpslp.same, LP, _mpslp.LP, b"", _mpslp.LP),
    "is_canonical": partial(_mpslp.is_canonical, CANONICAL, _mpslp.MPS),
    "is_canonical, not": partial(_mpslp.is_canonical, MPS, _mpslp.MPS),
    "is_canonical, refused": partial(_mpslp.is_canonical, b"", _mpslp.MPS),
    "lines of a text": lambda: (
        _mpslp.count_line_feeds(MPS, 0, len(MPS)),
        _mpslp.find_first_column(MPS, 0, len(MPS)),
        _mpslp.find_first_column(MPS, 0, 1),
    ),
    "a marker": lambda: (
        _mpslp.find_marker(MPS, 0, len(MPS)),
        _mpslp.find_marker(b"'MARKE''MARKER", 0, 14),
        _mpslp.find_marker(b"''MARKER'", 0, 9),
    ),
    "first fields of lines": partial(_mpslp.first_fields, MPS, 0, len(MPS)),
    "columns of bounds": partial(_mpslp.bounded_columns, BOUNDS, 0, len(BOUNDS), b"FR MI"),
    "load": partial(_mpslp.load, OTHER, _mpslp.LP),
    "a model's counts and objective": lambda: (LOADED.counts(), LOADED.objective()),
    "a model's doubles": LOADED.doubles,
    "a model's lists of names": LOADED.names,
    "a model's row": partial(LOADED.row, 0),
    "a model's column": partial(LOADED.column, 0),
    "a model's names": lambda: (LOADED.row_name(1), LOADED.column_name(0)),
    "a model's numbers": lambda: (
        LOADED.find_row("weight"),
        LOADED.find_column("none"),
        LOADED.find_row("\udcff"),
        LOADED.find_row(7),
    ),
    "a model's entry": lambda: (LOADED.entry(0, 0), LOADED.entry(1, 1)),
    "a model's column's entries": lambda: (LOADED.column_len(0), LOADED.column_entries(0)),
    "a model's row's entries": lambda: (lambda loaded: (loaded.row_len(0), loaded.row_entries(0)))(
        _mpslp.load(OTHER, _mpslp.LP)
    ),
    "where models differ": lambda: (
        LOADED.next_row_difference(0, LOADED, 1),
        LOADED.next_column_difference(0, LOADED, 0, False),
    ),
    "where models with the same rows differ": lambda: (
        LOADED.has_same_rows(LOADED),
        LOADED.next_column_difference(0, LOADED, 1, True),
    ),
    "a model's magnitudes": LOADED.magnitudes,
    "a model's kinds of limits": LOADED.kinds,
    "a model's lines": lambda: (LOADED.lines(0), LOADED.lines(1)),
    "load, refused": partial(_mpslp.load, ON_A_LINE, _mpslp.MPS),
    "store": partial(_mpslp.store, LOADED, _mpslp.LP),
    "store, not LP": partial(_mpslp.store, _mpslp.load(NOT_LP, _mpslp.MPS), _mpslp.LP),
    "make": lambda: _mpslp.store(_mpslp.make(_mpslp.MAXIMIZE, "profit", SMALL, ROWS, COLUMNS), _mpslp.MPS),
    "make, refused": partial(_mpslp.make, _mpslp.MINIMIZE, "weight", SMALL, ROWS, COLUMNS),
    "make_extended": extended(ROWS[1:]),
    "make_extended, by a column": extended(ROWS[1:], COLUMNS),
    "make_extended, refused": extended(ROWS),
    "make_replaced": replaced(ROWS[:1], [FUEL]),
    "a model's shape": LOADED.shape,
    "make_renamed": partial(_mpslp.make_renamed, LOADED, "o", ["b", "a"], ["z", "y", "x", "w"]),
    "make_renamed, refused": partial(_mpslp.make_renamed, LOADED, "o", ["a", "a"], ["z", "y", "x", "w"]),
    "colours": partial(_mpslp.refined, *LOADED.shape()[:4], LOADED.shape()[5], 2),
}

# Arguments that the modules of the package never give.
WRONG_CALLS = {
    "an unknown format": partial(_mpslp.canonical, MPS, 2, 2),
    "no bytes": partial(_mpslp.is_canonical, "NAME", _mpslp.MPS),
    "a part that is not there": partial(_mpslp.count_line_feeds, MPS, 0, len(MPS) + 1),
    "a part that ends before it starts": partial(_mpslp.find_first_column, MPS, 2, 1),
    "a marker of a part that is not there": partial(_mpslp.find_marker, MPS, 0, len(MPS) + 1),
    "fields of a part that is not there": partial(_mpslp.first_fields, MPS, -1, 1),
    "columns of a part that is not there": partial(_mpslp.bounded_columns, BOUNDS, 0, len(BOUNDS) + 1, b""),
    "columns of lines without any": partial(_mpslp.bounded_columns, b"\n UP\n", 0, 5, b"FR"),
    "a row that is not there": partial(LOADED.row, 2),
    "a column that is not there": partial(LOADED.column_entries, 2**64),
    "a number below 0": partial(LOADED.row_entries, -1),
    "no number": partial(LOADED.entry, 0, None),
    "a model that is none": partial(_mpslp.store, None, _mpslp.MPS),
    "an unknown format of a model": partial(_mpslp.store, LOADED, 2),
    "a name without a byte": partial(_mpslp.make, _mpslp.MINIMIZE, "", SMALL, [], []),
    "a row that is no tuple": partial(_mpslp.make, _mpslp.MINIMIZE, "cost", SMALL, ["weight"], []),
    "a row below 0": partial(
        _mpslp.make, _mpslp.MINIMIZE, "cost", SMALL, [], [("x", 0, SMALL, HIGH, LARGE, [(-1, SMALL)])]
    ),
    "a number that is none": partial(_mpslp.make, _mpslp.MINIMIZE, "cost", Decimal("NaN"), [], []),
    "differences from rows that are not there": lambda: LOADED.next_row_difference(0, LOADED, 9),
    "differences from no model": partial(LOADED.next_column_difference, 0, None, 0, False),
    "the rows of no model": partial(LOADED.has_same_rows, None),
    "a line that is not there": partial(LOADED.lines, 2**20),
    "another row that is not there": replaced(ROWS, [FUEL]),
    "another column that is not there": replaced(ROWS[:1], [FUEL, COLUMNS[1]]),
    "a replacement by no model": partial(_mpslp.make_replaced, LOADED, None),
    "a further row that is no tuple": extended([None]),
    "a further row with a number that is none": extended([("size", SMALL, None)]),
    "names that are too few": partial(_mpslp.make_renamed, LOADED, "o", ["a"], ["z", "y", "x", "w"]),
    "names that are none": partial(_mpslp.make_renamed, LOADED, "o", ["a", None], ["z", "y", "x", "w"]),
    "other names of no model": partial(_mpslp.make_renamed, None, "o", [], []),
    "what is no graph": partial(_mpslp.refined, bytes(8), b"", b"", bytes(8), bytes(8), 1),
    "an argument too few": partial(_mpslp.same, MPS, _mpslp.MPS, LP),
}


def answer_of(call):
    """What a call answers, or what it raises but for MemoryError."""
    try:
        return call()
    except MemoryError:
        raise
    except Exception as error:
        return type(error), str(error)


if __name__ == "__main__":
    for each in (CALLS | WRONG_CALLS).values():
        answer_of(each)
