"""Small models with one feature each, and their optima.

The optimum differs if a solver ignores the feature. Names are long unless they are the
feature, because some solvers misread short ones as fixed columns.
"""

import copy

from .models import Column, Model, Number, Row

LONG = "quantity" + "x" * 247
SYMBOLS = [f"{symbol}amount{symbol}" for symbol in "!\"#%&(),/;?@_'`{}|~"] + ["amount.", "amount$"]


def lp(objective, rows="", bounds="", tail="", sense="min"):
    section = f"bounds\n{bounds}\n" if bounds else ""
    return "lp", f"{sense} total: {objective}\nst\n{rows}\n{section}{tail}end\n"


# feature: the format and text of a model, its optimum
FEATURES = {
    "one-letter names": (*lp("x", "r: x >= 2"), "2"),
    "maximise": (*lp("amount", "ceiling: amount <= 3", sense="max"), "3"),
    "constant": (*lp("amount + 10", "minimum_need: amount >= 2"), "12"),
    "maximise with a constant": (*lp("amount + 10", "ceiling: amount <= 3", sense="max"), "13"),
    "empty objective": (*lp("", "minimum_need: amount >= 2"), "0"),
    "no row": (*lp("2 amount + surplus", bounds="amount >= 3"), "6"),
    "all right-hand sides 0": (*lp("amount + surplus", "balance: amount - surplus >= 0", "surplus >= 2"), "4"),
    "ranged row": (*lp("amount - surplus", "between: 2 <= amount <= 9\nwithin: 1 <= surplus <= 5"), "-3"),
    "row without limits": (
        *lp("amount", "watched: amount - 1000 surplus >= -inf\nminimum_need: amount + surplus >= 4", "surplus <= 1"),
        "3",
    ),
    "row without terms": (*lp("amount", "minimum_need: amount >= 2\nempty_row: 0 amount <= 3"), "2"),
    "column without terms": (*lp("amount", "minimum_need: amount >= 2", "unused <= 4"), "2"),
    "fixed column": (*lp("2 amount + surplus", "minimum_need: amount + surplus >= 10", "amount = 3"), "13"),
    "free column": (*lp("amount", "minimum_need: amount + surplus >= -7", "amount free\nsurplus <= 2"), "-9"),
    "only an upper bound": (
        *lp("amount - surplus", "minimum_need: amount + surplus >= -6", "-inf <= amount <= 4\n-inf <= surplus <= 4"),
        "-14",
    ),
    "upper bound below 0": (
        *lp("amount - surplus", "minimum_need: amount + surplus >= -16", "-inf <= amount <= -4\n-inf <= surplus <= -4"),
        "-8",
    ),
    "lower bound below 0": (*lp("amount", "minimum_need: amount >= -9", "-5 <= amount <= 5"), "-5"),
    "integer column": (*lp("- amount", "ceiling: 2 amount <= 7", tail="generals\namount\n"), "-3"),
    "integer column from 0 to 1": (
        *lp("- amount - surplus", "ceiling: amount + surplus <= 1.5", tail="binaries\namount surplus\n"),
        "-1",
    ),
    "integer column, any sign": (
        *lp("amount", "minimum_need: 2 amount >= -7", "amount free", "generals\namount\n"),
        "-3",
    ),
    "semi-continuous column": (
        *lp("amount + 1.5 surplus", "minimum_need: amount + surplus >= 1", "2 <= amount <= 10", "semi\namount\n"),
        "3/2",
    ),
    "36-digit number": (*lp("amount", "minimum_need: amount >= 2.00000000000000000000000000000000001"), "2"),
    "255-byte name": (*lp(LONG, f"minimum_need: {LONG} >= 2"), "2"),
    "names with every LP symbol": (*lp(" + ".join(SYMBOLS), f"need(1): {' + '.join(SYMBOLS)} >= 2"), "2"),
    "name that begins with $": (*lp("$amount + 3 surplus", "minimum_need: $amount + surplus >= 2"), "2"),
    "names with [ ], or a digit first": (
        "mps",
        "NAME\nROWS\n N  total\n G  need[1]\nCOLUMNS\n    2amount  total  3\n    2amount  need[1]  1\n"
        "    amount[1]  total  1\n    amount[1]  need[1]  1\nRHS\n    RHS  need[1]  2\nENDATA\n",
        "2",
    ),
}


def bounded_model(source, model):
    """A random model with the names, kinds and places of another one, and with small numbers: most such models have an
    optimum."""
    found = copy.deepcopy(model)
    point = {}
    is_continuous = source.random() < 0.5
    for name, column in found.columns.items():
        column.kind = "continuous" if is_continuous else column.kind
        low = source.choice((0, 0, 0, source.randint(-9, 9)))
        high = low + source.choice((0, 1, 4, 4, 20))
        if column.kind == "semi":
            low, high = source.choice((0, source.randint(1, 4))), source.randint(5, 20)
        column.lower, column.upper = Number.of(low, 0), Number.of(high, 0)
        point[name] = source.randint(low, high)
        if column.kind != "semi" and source.random() < 0.2:
            column.lower = source.choice((column.lower, None))
            column.upper = source.choice((column.upper, None)) if column.lower is not None else None
        for row in column.values:
            column.values[row] = Number.of(source.choice((1, 1, 2, 5, 15, -1, -1, -4)), source.choice((0, 0, -1)))
    for name, row in found.rows.items():
        value = sum(
            column.values[name].scaled(-1) * point[each]
            for each, column in found.columns.items()
            if name in column.values
        )
        room, further = source.randint(0, 60), source.randint(0, 60)
        if row.lower is not None and row.lower == row.upper:
            row.lower = row.upper = Number.of(value, -1)
        else:
            row.lower = None if row.lower is None else Number.of(value - room, -1)
            row.upper = None if row.upper is None else Number.of(value + further, -1)
    found.constant = Number.of(source.choice((0, source.randint(-99, 99))), -source.randint(0, 1))
    return found


def unlike_model(source):
    """A small random model of what solvers read differently: semi-continuous columns, most of them without a lower
    bound, and bounds of integer columns that are no whole numbers. Many such models have no optimum, as they are
    infeasible or unbounded.
    """
    rows = {f"row{number}": _unlike_row(source) for number in range(source.randint(1, 4))}
    kinds = source.choice(
        (("continuous",), ("continuous", "semi"), ("integer", "continuous"), ("integer", "semi", "continuous"))
    )
    columns = {
        f"column{number}": _unlike_column(source, source.choice(kinds)) for number in range(source.randint(2, 5))
    }
    for column in columns.values():
        places = [name for name in ("total", *rows) if source.random() < 0.7]
        column.values = {
            name: Number.of(source.choice((1, 1, 2, 5, -1, -1, -3)), source.choice((0, 0, -1))) for name in places
        }
    return Model(
        source.random() < 0.4, "total", Number.of(source.choice((0, 0, source.randint(-9, 9))), 0), rows, columns
    )


def _unlike_row(source):
    low = Number.of(source.randint(-20, 90), -1)
    high = source.choice((low, Number.of(low.scaled(-1) + source.randint(1, 90), -1)))
    return Row(*source.choice(((low, None), (None, high), (None, high), (low, high))))


def _unlike_column(source, kind):
    if kind == "semi":
        return Column(
            kind, Number.of(source.choice((0, 0, 0, source.randint(1, 30))), -1), Number.of(source.randint(31, 200), -1)
        )
    scale = source.choice((0, -1)) if kind == "continuous" else -1
    low = Number.of(source.choice((0, 0, source.randint(-30, 30))), scale)
    high = Number.of(low.scaled(scale) + source.choice((0, 4, 12, 25, 60)), scale)
    return Column(
        kind, *source.choice(((low, high), (low, high), (low, high), (low, None), (None, high), (None, None)))
    )
