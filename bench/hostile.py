"""Files that were made to be slow: by kind, and by format.

Each structure that an author of a file can fill has a kind that fills it in the way that is worst for a simple
implementation. A kind is a function of a count, to which the size of the file is proportional. `generate.py --hostile`
writes one such file.
"""

import random
from collections.abc import Callable, Iterable, Iterator
from itertools import chain, repeat

from colliding import alike, colliding
from literals import literal

Lines = Callable[[int, int], Iterator[str]]
"""The lines of a file of this count, from this seed."""
Names = Callable[[int, int], Iterable[str]]
"""So many names, from this seed."""

# The longest legal names have 255 bytes; comparing two of these means reading nearly all of both.
NAME_BYTES = 255
LONG_FRONT = "a_name_that_is_the_same_as_all_others_but_for_its_number_" * 5
NUMBER_BYTES = 8
LONGEST_LINE = 1_048_576
LONGEST_NUMBER = 255
SAMPLE = 200


def of_size(lines: Lines, size: int, seed: int = 1) -> Iterator[str]:
    """The lines of a file of about so many bytes."""
    return lines(max(1, size * SAMPLE // sum(map(len, lines(SAMPLE, seed)))), seed)


# ---- the parts of files


def entry(column: str, row: str, value: str = "1") -> str:
    """A line of COLUMNS."""
    return f"    {column:<10}  {row:<10}  {value:>12}\n"


def mps(rows: Iterable[str], columns: Iterable[str], *sections: Iterable[str], end: str = "ENDATA") -> Iterator[str]:
    """A file of these rows of type L, these lines of COLUMNS, and these sections."""
    # Without FREE, clp may misread short fields as fixed columns.
    yield "NAME          HOSTILE  FREE\nROWS\n N  COST\n"
    yield from (f" L  {row}\n" for row in rows)
    yield "COLUMNS\n"
    yield from columns
    yield "RHS\n"
    for section in sections:
        yield from section
    yield f"{end}\n"


def lp(rows: Iterable[str], *sections: Iterable[str], end: str = "End") -> Iterator[str]:
    """A file of these rows, each with its label and its terms, and these sections."""
    yield "Minimize\n COST: x\nSubject To\n"
    yield from rows
    for section in sections:
        yield from section
    yield f"{end}\n"


def row_names(count: int) -> list[str]:
    return [f"row_{number:08d}" for number in range(count)]


def column_names(count: int) -> list[str]:
    return [f"c{number:07d}" for number in range(count)]


def drawn(names: Iterable[str], seed: int) -> list[str]:
    """The names in random order."""
    listed = list(names)
    random.Random(seed).shuffle(listed)
    return listed


# ---- names


def long_names(count: int, seed: int) -> list[str]:
    """Names of 255 bytes, of which the last eight differ: a comparison reads nearly all of both."""
    front = LONG_FRONT[: NAME_BYTES - NUMBER_BYTES]
    return drawn((f"{front}{number:08d}" for number in range(count)), seed)


def named_as_mps(names: Names) -> Lines:
    """Rows and columns have these names, and each column has a row."""

    def lines(count: int, seed: int) -> Iterator[str]:
        listed = list(names(count, seed))
        return mps(listed, map(entry, listed, reversed(listed)))

    return lines


def named_as_lp(names: Names) -> Lines:
    def lines(count: int, seed: int) -> Iterator[str]:
        listed = list(names(count, seed))
        return lp(f" {row}: 2 {name} + x >= 1\n" for name, row in zip(listed, reversed(listed)))

    return lines


# ---- all coefficients in one column or in one row


Order = Callable[[list[str], random.Random], Iterable[str]]
ORDERS: dict[str, Order] = {
    "rising": lambda names, source: names,
    "falling": lambda names, source: reversed(names),
    "random": lambda names, source: source.sample(names, len(names)),
}


def one_column_of_mps(order: Order) -> Lines:
    """A reader that inserts each row into a sorted column moves all later rows each time."""

    def lines(count: int, seed: int) -> Iterator[str]:
        source, rows = random.Random(seed), row_names(count)
        return mps(rows, (entry("X", row, literal(source)) for row in ("COST", *order(rows, source))))

    return lines


def one_column_of_lp(order: Order) -> Lines:
    def lines(count: int, seed: int) -> Iterator[str]:
        source = random.Random(seed)
        return lp(f" {row}: 2 x >= 1\n" for row in order(row_names(count), source))

    return lines


def tiny_columns_of_mps(count: int, seed: int) -> Iterator[str]:
    """The stored data of each column is larger than its coefficients."""
    return mps(["LIMIT"], (entry(column, "LIMIT") for column in drawn(column_names(count), seed)))


def one_row_of_lp(count: int, seed: int) -> Iterator[str]:
    """A reader that looks for each term among those before it takes quadratic time."""
    terms = (f" + 2 {column}\n" for column in drawn(column_names(count), seed))
    return lp([" LIMIT:\n", *terms, " >= 1\n"])


def long_lines_of_lp(count: int, seed: int) -> Iterator[str]:
    """Lines of nearly the greatest length: what is not complete is kept, and must not be read again from its start."""
    line = ""
    yield "Minimize\n COST: x\nSubject To\n"
    for column in drawn(column_names(count), seed):
        row = f" r{column}: {column} >= 1"
        if len(line) + len(row) > LONGEST_LINE:
            yield f"{line}\n"
            line = ""
        line += row
    yield f"{line}\nEnd\n"


# ---- bounds, lists, and what may be repeated


def bounds_of_mps(count: int, seed: int) -> Iterator[str]:
    names = column_names(count)
    bounds = (f" UP BND {name} 4\n LO BND {name} 1\n" for name in drawn(names, seed))
    return mps([], (entry(name, "COST") for name in names), ["BOUNDS\n"], bounds)


def bounds_of_lp(count: int, seed: int) -> Iterator[str]:
    names = column_names(count)
    others = drawn(names, seed)
    bounds, generals = (f" {name} <= 4\n" for name in others), (f" {name}\n" for name in others)
    return lp((f" r{name}: {name} >= 1\n" for name in names), ["Bounds\n"], bounds, ["Generals\n"], generals)


def repeated_in_mps(count: int, seed: int) -> Iterator[str]:
    """Each column between markers of its own, and one row without limits that has a right-hand side for each of
    them."""
    yield "NAME HOSTILE FREE\nROWS\n N COST\n N FREE\nCOLUMNS\n"
    for column in column_names(count):
        yield f" M 'MARKER' 'INTORG'\n {column} COST 1\n M 'MARKER' 'INTEND'\n"
    yield "RHS\n"
    yield from (f" RHS FREE {number}\n" for number in range(count))
    yield "ENDATA\n"


def repeated_in_lp(count: int, seed: int) -> Iterator[str]:
    """One column is listed again and again, and one coefficient has very many signs."""
    return lp(
        [" r: 2 x\n", *(" - - + + - -\n" for _ in range(count)), " + y >= 1\n"],
        ["Generals\n"],
        (" x x\n" for _ in range(count)),
    )


# ---- comments and numbers


def comments(mark: str, small: str) -> Lines:
    """Comments of the greatest length before a small file."""
    comment = mark + "c" * (LONGEST_LINE - len(mark)) + "\n"
    return lambda count, seed: chain(repeat(comment, max(1, count // SAMPLE)), [small])


def wide_lines_of_mps(count: int, seed: int) -> Iterator[str]:
    """Lines of the greatest length, nearly all of which is spaces between fields."""
    columns = column_names(max(1, count // SAMPLE))
    return mps([], (f" {column} {'COST':<{LONGEST_LINE - len(column) - 3}}1\n" for column in columns))


def long_number(number: int) -> str:
    """A small number of the greatest length."""
    return f"{number:0{LONGEST_NUMBER // 2}d}.{'0' * (LONGEST_NUMBER - LONGEST_NUMBER // 2 - 1)}"


def long_numbers_of_mps(count: int, seed: int) -> Iterator[str]:
    rows = row_names(count)
    return mps(rows, (entry("X", row, long_number(number)) for number, row in enumerate(rows)))


def long_numbers_of_lp(count: int, seed: int) -> Iterator[str]:
    return lp(f" {row}: {long_number(number + 1)} x >= 1\n" for number, row in enumerate(row_names(count)))


def chained_comments(mark: str, text: str) -> Lines:
    """Comments between empty lines, of which only the first one and those at the ends of what is left occur once: the
    lines of both texts that a diff compares, if one has fewer empty lines."""

    def lines(count: int, seed: int) -> Iterator[str]:
        head, *rest = text.splitlines(keepends=True)
        names = chain(
            ["x1", "u"], chain.from_iterable((f"x{number}", f"x{number - 1}") for number in range(2, count // 2 + 2))
        )
        return chain([head], (f"{mark} {name}\n\n\n" for name in names), rest)

    return lines


# ---- files that are rejected


def late_error_of_mps(count: int, seed: int) -> Iterator[str]:
    """Only the last line is wrong."""
    names = row_names(count)
    return mps(names, map(entry, names, names), end="ENDATE")


def late_error_of_lp(count: int, seed: int) -> Iterator[str]:
    return lp((f" {name}: c{name} >= 1\n" for name in row_names(count)), end="Endd")


def crossed_in_mps(count: int, seed: int) -> Iterator[str]:
    """All columns are wrong, which is found at the end: the first name in byte order is reported."""
    names = column_names(count)
    columns = (entry(name, "COST") for name in reversed(names))
    return mps([], columns, ["BOUNDS\n"], (f" UP BND {name} 1\n LO BND {name} 4\n" for name in names))


def crossed_in_lp(count: int, seed: int) -> Iterator[str]:
    names = column_names(count)
    rows = (f" r{name}: {name} >= 1\n" for name in reversed(names))
    return lp(rows, ["Bounds\n"], (f" 4 <= {name} <= 1\n" for name in names))


def one_bound_of_mps(count: int, seed: int) -> Iterator[str]:
    """Very many bounds of one column: the second is an error, and what follows it is not read."""
    return mps([], [entry("X", "COST")], ["BOUNDS\n"], (f" UP BND X {number:07d}\n" for number in range(count)))


def one_bound_of_lp(count: int, seed: int) -> Iterator[str]:
    return lp([" r: x >= 1\n"], ["Bounds\n"], (f" x <= {number:07d}\n" for number in range(count)))


def one_term_of_mps(count: int, seed: int) -> Iterator[str]:
    """Very many coefficients of one column in one row: the second is an error."""
    return mps(["LIMIT"], (entry("X", "LIMIT", f"{number:07d}") for number in range(count)))


def one_term_of_lp(count: int, seed: int) -> Iterator[str]:
    return lp([" r:\n", *(f" + {number:07d} x\n" for number in range(count)), " >= 1\n"])


ACCEPTED: dict[str, dict[str, Lines]] = {
    **{
        f"one-column-{name}": {"mps": one_column_of_mps(order), "lp": one_column_of_lp(order)}
        for name, order in ORDERS.items()
    },
    "tiny-columns": {"mps": tiny_columns_of_mps, "lp": one_row_of_lp},
    "many-names": {"mps": named_as_mps(long_names), "lp": named_as_lp(long_names)},
    "colliding": {"mps": named_as_mps(colliding), "lp": named_as_lp(colliding)},
    "not-colliding": {"mps": named_as_mps(alike), "lp": named_as_lp(alike)},
    "bounds": {"mps": bounds_of_mps, "lp": bounds_of_lp},
    "repeated": {"mps": repeated_in_mps, "lp": repeated_in_lp},
    "long-lines": {"mps": wide_lines_of_mps, "lp": long_lines_of_lp},
    "long-numbers": {"mps": long_numbers_of_mps, "lp": long_numbers_of_lp},
    "comments": {
        "mps": comments("*", "NAME HOSTILE\nROWS\n N COST\nCOLUMNS\n X COST 1\nRHS\nENDATA\n"),
        "lp": comments("\\", "Minimize\n x\nEnd\n"),
    },
    "chained-comments": {
        "mps": chained_comments("*", "NAME HOSTILE\nROWS\n N COST\nCOLUMNS\n X COST 1\nRHS\nENDATA\n"),
        "lp": chained_comments("\\", "Minimize\n x\nEnd\n"),
    },
}
"""Kinds that are accepted."""

REJECTED: dict[str, dict[str, Lines]] = {
    "late-error": {"mps": late_error_of_mps, "lp": late_error_of_lp},
    "crossed-bounds": {"mps": crossed_in_mps, "lp": crossed_in_lp},
    "one-bound": {"mps": one_bound_of_mps, "lp": one_bound_of_lp},
    "one-coefficient": {"mps": one_term_of_mps, "lp": one_term_of_lp},
}
"""Kinds that are rejected."""

KINDS = {**ACCEPTED, **REJECTED}
