#!/usr/bin/env python3
"""Write a large, valid MPS or LP file to standard output.

The same options and the same seed give the same file. With --shuffle the file
declares the same model as without, with its rows, columns and entries in another
order. Sizes are in bytes and are met within a few percent; with --lp they are
those of the MPS file of the same model.
"""

import argparse
import random
import sys
from decimal import Context, Decimal
from functools import lru_cache
from string import ascii_letters

import hostile
from literals import literal, whole

COLUMNS_PER_ROW = 3
# Names and integer parts come in families of neighbours, as in files that are
# written from a model's indexed variables.
FAMILY_SIZE = 100
INTEGER_FAMILY_SHARE = 0.2
OBJECTIVE = "COST"
OBJECTIVE_NUMBER = -1
INFINITE = "1e30"
# Enough digits for every sum of two literals to be exact.
EXACT = Context(prec=100)
MOST_DIGITS = 18
INFINITE_SIZE = Decimal(10) ** 20
SAMPLE = 400
# Only the start of the search for the right count; the file is measured then.
GUESSED_BYTES_PER_COLUMN = 250

UNITS = {"k": 10**3, "M": 10**6, "G": 10**9}


def size_in_bytes(text):
    unit = UNITS.get(text[-1:])
    return int(text[:-1]) * unit if unit else int(text)


def name_line():
    # Without FREE, clp may misread short fields as fixed columns.
    return "NAME          BENCH  FREE\n"


def row_line(kind, name):
    return f" {kind}  {name}\n"


def pair_lines(front, pairs, pairs_per_line):
    """Lines of a first field and pairs of a row's name and a literal."""
    lines = []
    for start in range(0, len(pairs), pairs_per_line):
        fields = [f"    {front:<10}"]
        fields += [f"  {name:<10}  {value:>12}" for name, value in pairs[start : start + pairs_per_line]]
        lines.append("".join(fields) + "\n")
    return "".join(lines)


def marker_line(number, opens):
    word = "'INTORG'" if opens else "'INTEND'"
    return f"    MARKER{number}    'MARKER'                 {word}\n"


def bound_line(kind, name, value):
    return f" {kind} BND       {name:<10}" + (f"  {value:>12}\n" if value else "\n")


class Row:
    """A row's type, name, optional right-hand side and optional range."""

    def __init__(self, source, name, thin):
        self.kind = source.choice("LGE")
        self.name = name
        self.right_side = literal(source) if source.random() < 0.5 else None
        self.range = None
        if not thin:
            self.add_extras(source)

    def add_extras(self, source):
        if source.random() < 0.03:
            self.range = fitting_range(self.kind, self.right_side, literal(source))
        elif self.kind == "L" and source.random() < 0.003:
            self.right_side = INFINITE


def fitting_range(kind, right_side, text):
    """The range, or None if a limit that it gives has too many digits."""
    right = Decimal(right_side or "0")
    size = abs(Decimal(text))
    falls = kind == "L" or (kind == "E" and text.startswith("-"))
    limit = EXACT.subtract(right, size) if falls else EXACT.add(right, size)
    return text if is_limit(limit) else None


def is_limit(value):
    digits = value.normalize(EXACT).as_tuple().digits
    return len(digits) <= MOST_DIGITS and abs(value) < INFINITE_SIZE


class Column:
    """A column's pairs of row numbers and literals, and its bounds."""

    def __init__(self, source, name, row_count, thin, is_integer):
        self.name = name
        self.pairs_per_line = source.choice((1, 2, 2, 2))
        self.pairs = drawn_pairs(source, row_count)
        has_bounds = not thin and source.random() < 0.3
        self.bounds = drawn_bounds(source, is_integer) if has_bounds else []


def drawn_pairs(source, row_count):
    count = min(row_count, source.randint(5, 10))
    numbers = source.sample(range(row_count), count)
    if source.random() < 0.6:
        numbers.insert(0, OBJECTIVE_NUMBER)
    return [(number, literal(source)) for number in numbers]


def upper(source, value):
    # An upper bound below 0 with no lower bound is rejected: solvers disagree on it.
    return [("UP", value(source).lstrip("-"))]


def lower(source, value):
    return [("LO", value(source))]


def lower_and_upper(source, value):
    low, high = sorted((value(source), value(source)), key=Decimal)
    return [("LO", low), ("UP", high)]


def fixed(source, value):
    return [("FX", value(source))]


def free(source, value):
    return [("FR", None)]


def no_lower(source, value):
    return [("MI", None)]


def no_lower_and_upper(source, value):
    return [("MI", None), ("UP", value(source))]


def no_upper(source, value):
    return [("PL", None)]


def lower_and_no_upper(source, value):
    return [("LO", value(source)), ("PL", None)]


def infinite_both(source, value):
    return [("LO", "-" + INFINITE), ("UP", INFINITE)]


def binary(source, value):
    return [("BV", None)]


def whole_lower(source, value):
    return [("LI", signed_whole(source))]


def whole_upper(source, value):
    return [("UI", whole(source))]


def whole_lower_and_upper(source, value):
    low, high = sorted((signed_whole(source), signed_whole(source)), key=int)
    return [("LI", low), ("UI", high)]


def signed_whole(source):
    return source.choice(("", "", "-")) + whole(source)


BOUND_KINDS = {
    upper: 40,
    lower: 8,
    lower_and_upper: 12,
    fixed: 6,
    free: 8,
    no_lower: 3,
    no_lower_and_upper: 3,
    no_upper: 3,
    lower_and_no_upper: 2,
    infinite_both: 2,
    binary: 8,
    whole_lower: 1,
    whole_upper: 2,
    whole_lower_and_upper: 2,
}


def drawn_bounds(source, is_integer):
    (kind,) = source.choices(list(BOUND_KINDS), weights=BOUND_KINDS.values())
    return kind(source, signed_whole if is_integer else literal)


class Model:
    """What a file declares, apart from its order.

    Every row and every column is drawn from its own seed. So they can be made in
    any order, without keeping a large file in memory.
    """

    def __init__(self, seed, thin, column_count):
        self.seed = seed
        self.thin = thin
        self.column_count = column_count
        self.row_count = max(1, column_count // COLUMNS_PER_ROW)
        self.source = random.Random()
        self.family_word = lru_cache(None)(self.drawn_family_word)
        self.is_integer_family = lru_cache(None)(self.drawn_integer_family)
        self.row_names = [self.name("row", number) for number in range(self.row_count)]

    def seeded(self, part, number):
        parts = ("row", "column", "row family", "column family", "integer family")
        self.source.seed((self.seed << 64) | (parts.index(part) << 48) | number)
        return self.source

    def drawn_family_word(self, part, family):
        source = self.seeded(part + " family", family)
        return "".join(source.choices(ascii_letters, k=source.randint(1, 5)))

    def drawn_integer_family(self, family):
        return self.seeded("integer family", family).random() < INTEGER_FAMILY_SHARE

    def name(self, part, number):
        # The number after the last underscore makes every name unique.
        return f"{self.family_word(part, number // FAMILY_SIZE)}_{number}"

    def is_integer(self, number):
        return not self.thin and self.is_integer_family(number // FAMILY_SIZE)

    def row(self, number):
        return Row(self.seeded("row", number), self.row_names[number], self.thin)

    def column(self, number):
        name = self.name("column", number)
        is_integer = self.is_integer(number)
        return Column(self.seeded("column", number), name, self.row_count, self.thin, is_integer)

    def named(self, pairs):
        return [(OBJECTIVE if number == OBJECTIVE_NUMBER else self.row_names[number], value) for number, value in pairs]

    def column_text(self, column):
        return pair_lines(column.name, self.named(column.pairs), column.pairs_per_line)


def bound_lines(column):
    return [bound_line(kind, column.name, value) for kind, value in column.bounds]


def right_side_lines(rows):
    return [pair_lines("RHS", [(row.name, row.right_side)], 1) for row in rows if row.right_side]


def range_lines(rows):
    return [pair_lines("RNG", [(row.name, row.range)], 1) for row in rows if row.range]


def sampled(count):
    return range(0, count, max(1, count // SAMPLE))


def text_length(lines):
    return sum(map(len, lines))


def mean_column_bytes(model):
    columns = [model.column(number) for number in sampled(model.column_count)]
    total = sum(len(model.column_text(column)) + text_length(bound_lines(column)) for column in columns)
    return total / len(columns)


def mean_row_bytes(model):
    rows = [model.row(number) for number in sampled(model.row_count)]
    lines = [row_line(row.kind, row.name) for row in rows]
    return text_length(lines + right_side_lines(rows) + range_lines(rows)) / len(rows)


def model_of_size(options):
    """A model whose file has about the wanted size, found by a sample of its lines."""
    guess = Model(options.seed, options.thin, max(1, options.size // GUESSED_BYTES_PER_COLUMN))
    per_column = mean_column_bytes(guess) + mean_row_bytes(guess) / COLUMNS_PER_ROW
    return Model(options.seed, options.thin, max(1, round(options.size / per_column)))


class Layout:
    """The order in which a file declares its model."""

    def __init__(self, options):
        self.source = random.Random(options.seed)
        self.shuffles = options.shuffle
        self.sorts = options.sorted
        self.place = None

    def ordered(self, items):
        if self.shuffles:
            self.source.shuffle(items)
        return items

    def row_order(self, count):
        order = self.ordered(list(range(count)))
        self.place = [0] * count
        for place, number in enumerate(order):
            self.place[number] = place
        return order

    def pair_order(self, pairs):
        """The drawn order of a column's rows is random already."""
        if self.sorts:
            return sorted(pairs, key=self.pair_place)
        return self.ordered(pairs)

    def pair_place(self, pair):
        number = pair[0]
        return number if number == OBJECTIVE_NUMBER else self.place[number]

    def column_order(self, model):
        numbers = range(model.column_count)
        if not self.shuffles:
            return numbers
        return self.in_runs(
            self.ordered([number for number in numbers if model.is_integer(number)]),
            self.ordered([number for number in numbers if not model.is_integer(number)]),
        )

    def in_runs(self, integers, others):
        """Both lists in turns: a marker at nearly every column would be unusual."""
        order = []
        while integers or others:
            for numbers in (integers, others):
                run = self.source.randint(1, FAMILY_SIZE)
                order += numbers[-run:]
                del numbers[-run:]
        return order


def write_sense(out, options):
    if not options.thin and not options.minimise:
        out.write("OBJSENSE\n    MAX\n")


def write_rows(out, rows):
    out.write("ROWS\n" + row_line("N", OBJECTIVE))
    out.writelines(row_line(row.kind, row.name) for row in rows)


def write_columns(out, model, layout):
    """Writes the columns and returns the lines of their bounds."""
    out.write("COLUMNS\n")
    bounds = []
    in_integers, markers = False, 0
    for number in layout.column_order(model):
        if model.is_integer(number) != in_integers:
            in_integers = not in_integers
            out.write(marker_line(markers, in_integers))
            markers += 1
        column = model.column(number)
        column.pairs = layout.pair_order(column.pairs)
        out.write(model.column_text(column))
        bounds += bound_lines(column)
    if in_integers:
        out.write(marker_line(markers, False))
    return bounds


def write_section(out, keyword, lines):
    out.write(keyword + "\n")
    out.writelines(lines)


def write_usual(out, options):
    model = model_of_size(options)
    layout = Layout(options)
    rows = [model.row(number) for number in layout.row_order(model.row_count)]
    out.write(name_line())
    write_sense(out, options)
    write_rows(out, rows)
    bounds = write_columns(out, model, layout)
    right_sides = right_side_lines(rows)
    if not options.thin:
        right_sides.append(pair_lines("RHS", [(OBJECTIVE, "-12.5")], 1))
    write_section(out, "RHS", layout.ordered(right_sides))
    if not options.thin:
        write_section(out, "RANGES", layout.ordered(range_lines(rows)))
        write_section(out, "BOUNDS", layout.ordered(bounds))
    out.write("ENDATA\n")


class Terms:
    """Terms on lines of a usual length."""

    MOST_BYTES = 75

    def __init__(self, out):
        self.out = out
        self.line = ""

    def put(self, text):
        if len(self.line) + len(text) >= self.MOST_BYTES:
            self.end()
        self.line += " " + text

    def end(self):
        if self.line:
            self.out.write(self.line + "\n")
        self.line = ""


def term(name, value):
    sign, size = ("-", value[1:]) if value.startswith("-") else ("+", value)
    return f"{sign} {size} {name}"


def write_lp_row(out, label, terms, end):
    out.write(f" {label}:\n")
    line = Terms(out)
    for name, value in terms:
        line.put(term(name, value))
    line.put(end)
    line.end()


def write_lp(out, options):
    """The thin model as LP text: no bounds, and each row with the terms of its columns."""
    model = model_of_size(options)
    rows = [[] for _ in range(model.row_count)]
    objective = []
    for number in range(model.column_count):
        column = model.column(number)
        for row, value in column.pairs:
            (objective if row == OBJECTIVE_NUMBER else rows[row]).append((column.name, value))
    out.write("Minimize\n")
    write_lp_row(out, OBJECTIVE, objective, "")
    out.write("Subject To\n")
    senses = {"L": "<=", "G": ">=", "E": "="}
    for number, terms in enumerate(rows):
        row = model.row(number)
        terms = terms or [(model.name("column", 0), "0")]
        write_lp_row(out, row.name, terms, f"{senses[row.kind]} {row.right_side or '0'}")
    out.write("End\n")


def arguments():
    parser = argparse.ArgumentParser(description=__doc__, formatter_class=argparse.RawDescriptionHelpFormatter)
    parser.add_argument(
        "--size", type=size_in_bytes, default="10M", help="bytes; k, M and G stand for 10^3, 10^6 and 10^9"
    )
    parser.add_argument("--seed", type=int, default=1)
    parser.add_argument("--thin", action="store_true", help="only NAME, ROWS, COLUMNS, RHS and ENDATA, and no markers")
    parser.add_argument("--minimise", action="store_true", help="no OBJSENSE section, which glpsol does not read")
    parser.add_argument(
        "--shuffle", action="store_true", help="rows, columns, right sides, ranges and bounds in random order"
    )
    parser.add_argument("--lp", action="store_true", help="LP text of the thin model of this seed and size")
    parser.add_argument("--sorted", action="store_true", help="the rows of each column in the order of ROWS")
    parser.add_argument(
        "--hostile",
        choices=sorted(hostile.KINDS),
        metavar="KIND",
        help="a file made to be slow instead, of the size and the seed, with --lp as LP: "
        + ", ".join(sorted(hostile.KINDS)),
    )
    parser.add_argument(
        "--colliding",
        action="store_const",
        dest="hostile",
        const="colliding",
        help="the same as --hostile colliding: names with one hash under a known seed",
    )
    return parser.parse_args()


def main():
    options = arguments()
    if options.hostile:
        lines = hostile.KINDS[options.hostile]["lp" if options.lp else "mps"]
        sys.stdout.writelines(hostile.of_size(lines, options.size, options.seed))
    elif options.lp:
        options.thin = True
        write_lp(sys.stdout, options)
    else:
        write_usual(sys.stdout, options)


if __name__ == "__main__":
    main()
