"""Models with many symmetries, under names of their own and under others."""

import random

import mpslp


def model(rows, columns, **parts):
    """A model of rows, as names with limits, and of columns, as names with kind, upper bound, cost and entries."""
    return mpslp.Model(
        rows=[mpslp.Row(*row) for row in rows],
        columns=[
            mpslp.Column(name, kind, upper=upper, cost=cost, entries=entries)
            for name, kind, upper, cost, entries in columns
        ],
        **parts,
    )


def assignment(draw, size):
    groups = draw.randint(1, 3)
    rows = [(f"{letter}{i}", 1, 1) for letter in "at" for i in range(size)]
    return model(
        rows,
        [
            (f"x{i}_{j}", "integer", 1, 1 + i % groups, {f"a{i}": 1, f"t{j}": 1})
            for i in range(size)
            for j in range(size)
        ],
    )


def packing(draw, size):
    weights = [draw.randint(1, 3) for _ in range(2 * size)]
    rows = [(f"b{i}", 0, 9) for i in range(size)] + [(f"i{j}", 1, 1) for j in range(len(weights))]
    columns = [
        (f"x{i}_{j}", "integer", 1, 0, {f"b{i}": weight, f"i{j}": 1})
        for i in range(size)
        for j, weight in enumerate(weights)
    ]
    return model(rows, columns + [(f"y{i}", "integer", 1, 1, {f"b{i}": -9}) for i in range(size)])


def grid(draw, size):
    wide, is_ring, columns = size + draw.randint(0, 2), draw.random() < 0.5, []
    for i in range(wide):
        for j in range(size):
            entries = {}
            for a, b in ((i + 1, j), (i - 1, j), (i, j + 1), (i, j - 1)):
                a, b = (a % wide, b % size) if is_ring else (a, b)
                if 0 <= a < wide and 0 <= b < size:
                    entries[f"r{a}_{b}"] = -1
            columns.append((f"x{i}_{j}", "continuous", 1, 1, {**entries, f"r{i}_{j}": 4}))
    return model([(f"r{i}_{j}", 0, 4) for i in range(wide) for j in range(size)], columns)


def blocks(draw, size, copies=200):
    block = [{i: draw.choice((1, 2)) for i in draw.sample(range(size), draw.randint(1, size))} for _ in range(size)]
    is_linked = draw.random() < 0.5
    rows = [(f"r{copy}_{i}", 0, 5) for copy in range(copies) for i in range(size)] + [("all", 0, 100)] * is_linked
    linked = {"all": 1} if is_linked else {}
    columns = [
        (f"x{copy}_{j}", "integer", 3, 1, {**{f"r{copy}_{i}": value for i, value in entries.items()}, **linked})
        for copy in range(copies)
        for j, entries in enumerate(block)
    ]
    return model(rows, columns)


def ring_of_rows(sizes):
    """Rows that are joined to rings by columns of two entries: all rows have one colour, and all columns."""
    rows, columns = [], []
    for number, size in enumerate(sizes):
        rows += [(f"r{number}_{i}", 0, 1) for i in range(size)]
        columns += [
            (f"x{number}_{i}", "continuous", 1, 1, {f"r{number}_{i}": 1, f"r{number}_{(i + 1) % size}": 1})
            for i in range(size)
        ]
    return model(rows, columns)


def of_graph(is_joined):
    """A model of 16 rows, and of a column for each pair of numbers below 16 that is joined."""
    pairs = [(v, w) for v in range(16) for w in range(v) if is_joined(v, w)]
    return model(
        [(f"r{v}", 0, 1) for v in range(16)],
        [(f"x{v}_{w}", "integer", 1, 1, {f"r{v}": 1, f"r{w}": 1}) for v, w in pairs],
    )


def two_hubs(count):
    """Copies of a block between two rows, of which neither is known by its coefficients: a map takes igraph very
    long."""
    rows = [(f"{letter}{i}", 0, 1) for letter in "ab" for i in range(count)] + [("h", 0, 9), ("k", 0, 9)]
    columns = [
        (f"{letter}{i}", "integer", 1, 1, {f"{letter}{i}": 1, hub: 1})
        for letter, hub in ("ah", "bk")
        for i in range(count)
    ]
    return model(rows, columns + [(f"c{i}", "integer", 1, 2, {f"a{i}": 1, f"b{i}": 1}) for i in range(count)])


def rook(v, w):
    """The squares of a board of 4 by 4 in one row or column."""
    return v // 4 == w // 4 or v % 4 == w % 4


def shrikhande(v, w):
    """Another graph in which each vertex has six neighbours, and each two vertices have two neighbours in common."""
    return ((v // 4 - w // 4) % 4, (v % 4 - w % 4) % 4) in {(0, 1), (0, 3), (1, 0), (3, 0), (1, 1), (3, 3)}


SYMMETRIES = (assignment, packing, grid, blocks)


def symmetric(number):
    """One of many models."""
    draw = random.Random(number)
    make = SYMMETRIES[number % len(SYMMETRIES)]
    return make(draw, draw.randint(2, 5 if make is blocks else 7))


def shuffled(given, seed=0):
    """A model under other names, so that rows and columns have another order."""
    draw = random.Random(seed)

    def drawn(letter, names):
        found = [f"{letter}{number}" for number in range(len(names))]
        draw.shuffle(found)
        return dict(zip(names, found))

    return mpslp.renamed(
        given,
        {"objective": {given.objective: "other"}, "rows": drawn("R", given.rows), "columns": drawn("C", given.columns)},
    )
