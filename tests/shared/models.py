"""Random models, and their canonical texts by docs/FORMATS.md.

Nothing here is taken from the program: the texts are those that a reader of the
document would write.
"""

from dataclasses import dataclass, field

MOST_DIGITS = 36
LARGE = 10**20
LETTERS = "abcdefghijklmnopqrstuvwxyzABCDEFGHIJKLMNOPQRSTUVWXYZ"
LP_SYMBOLS = "!\"#$%&()/,.;?@_'`{}|~"
LP_INNER = LETTERS + "0123456789" + LP_SYMBOLS
LP_FIRST = LETTERS + LP_SYMBOLS.replace(".", "")
MPS_BYTES = "".join(map(chr, range(33, 127)))
RESERVED = {
    "min",
    "minimize",
    "minimum",
    "max",
    "maximize",
    "maximum",
    "subject",
    "such",
    "st",
    "s.t.",
    "st.",
    "bound",
    "bounds",
    "general",
    "generals",
    "gen",
    "integer",
    "integers",
    "int",
    "binary",
    "binaries",
    "bin",
    "end",
    "inf",
    "infinity",
    "free",
    "semi",
    "semis",
    "sos",
    "sos1",
    "sos2",
}


@dataclass(frozen=True)
class Number:
    """An exact decimal: mantissa times ten to the exponent, in normal form."""

    mantissa: int
    exponent: int

    @staticmethod
    def of(mantissa, exponent):
        if mantissa == 0:
            return Number(0, 0)
        while mantissa % 10 == 0:
            mantissa //= 10
            exponent += 1
        return Number(mantissa, exponent)

    def scaled(self, exponent):
        return self.mantissa * 10 ** (self.exponent - exponent)

    def compare(self, other):
        exponent = min(self.exponent, other.exponent)
        return self.scaled(exponent) - other.scaled(exponent)

    def minus(self, other):
        exponent = min(self.exponent, other.exponent)
        return Number.of(self.scaled(exponent) - other.scaled(exponent), exponent)

    def negated(self):
        return Number(-self.mantissa, self.exponent)

    def size(self):
        return Number(abs(self.mantissa), self.exponent)

    def is_decimal(self):
        return len(str(abs(self.mantissa))) <= MOST_DIGITS and -500 <= self.exponent <= 500

    def is_large(self):
        return self.size().compare(Number.of(LARGE, 0)) >= 0

    def text(self):
        digits, exponent = str(abs(self.mantissa)), self.exponent
        sign = "-" if self.mantissa < 0 else ""
        if 0 <= exponent <= 5:
            return sign + digits + "0" * exponent
        if -18 <= exponent <= -1:
            digits = digits.rjust(1 - exponent, "0")
            return f"{sign}{digits[:exponent]}.{digits[exponent:]}"
        return f"{sign}{digits}e{exponent}"


ZERO = Number(0, 0)
ONE = Number(1, 0)


@dataclass
class Row:
    """Limits; None is an infinite one."""

    lower: Number | None
    upper: Number | None


@dataclass
class Column:
    """Its kind is one of continuous, integer and semi."""

    kind: str
    lower: Number | None
    upper: Number | None
    values: dict = field(default_factory=dict)


@dataclass
class Model:
    maximise: bool
    objective: str
    constant: Number
    rows: dict
    columns: dict


def is_lp_name(name):
    if len(name) > 255 or name[0] not in LP_FIRST or any(c not in LP_INNER for c in name):
        return False
    if name in ("e", "E", "'MARKER'") or (name[0] in "eE" and name[1:2].isdigit()):
        return False
    return name.lower() not in RESERVED


def same(a, b):
    return a is not None and b is not None and a.compare(b) == 0


def is_zero(number):
    return number is not None and number.mantissa == 0


# ---- canonical MPS


def mps_row_letter(row):
    if row.lower is None and row.upper is None:
        return "N"
    if same(row.lower, row.upper):
        return "E"
    return "L" if row.lower is None else "G"


def mps_bounds(name, column):
    lower, upper = column.lower, column.upper
    lines = []
    if column.kind == "semi":
        if not is_zero(lower):
            lines.append(f" LO  BND  {name}  {lower.text()}")
        return lines + [f" SC  BND  {name}  {upper.text()}"]
    if same(lower, upper):
        return [f" FX  BND  {name}  {upper.text()}"]
    if lower is None and upper is None:
        return [f" FR  BND  {name}"]
    if lower is None:
        lines.append(f" MI  BND  {name}")
    elif not is_zero(lower):
        lines.append(f" LO  BND  {name}  {lower.text()}")
    if upper is not None:
        lines.append(f" UP  BND  {name}  {upper.text()}")
    elif column.kind == "integer":
        lines.append(f" PL  BND  {name}")
    return lines


def mps_column(model, name):
    values = model.columns[name].values
    rows = [row for row in [model.objective] + sorted(model.rows) if row in values]
    if not rows:
        return [f"    {name}  {model.objective}  0"]
    return [f"    {name}  {row}  {values[row].text()}" for row in rows]


def canonical_mps(model):
    lines = ["NAME"]
    if model.maximise:
        lines += ["OBJSENSE", "    MAX"]
    lines += ["ROWS", f" N  {model.objective}"]
    lines += [f" {mps_row_letter(model.rows[name])}  {name}" for name in sorted(model.rows)]
    lines.append("COLUMNS")
    names = sorted(model.columns)
    integers = [name for name in names if model.columns[name].kind == "integer"]
    for name in names:
        if name not in integers:
            lines += mps_column(model, name)
    if integers:
        lines.append("    MARKER  'MARKER'  'INTORG'")
        for name in integers:
            lines += mps_column(model, name)
        lines.append("    MARKER  'MARKER'  'INTEND'")
    sides, ranges = [], []
    if not is_zero(model.constant):
        sides.append(f"    RHS  {model.objective}  {model.constant.negated().text()}")
    for name in sorted(model.rows):
        row = model.rows[name]
        side = row.upper if row.lower is None else row.lower
        if side is not None and not is_zero(side):
            sides.append(f"    RHS  {name}  {side.text()}")
        if row.lower is not None and row.upper is not None and not same(row.lower, row.upper):
            ranges.append(f"    RNG  {name}  {row.upper.minus(row.lower).text()}")
    bounds = [line for name in names for line in mps_bounds(name, model.columns[name])]
    for header, section in (("RHS", sides), ("RANGES", ranges), ("BOUNDS", bounds)):
        if section:
            lines += [header] + section
    return "".join(line + "\n" for line in lines + ["ENDATA"])


# ---- canonical LP


def lp_signed(number):
    return f"{'-' if number.mantissa < 0 else '+'} {number.size().text()}"


def lp_terms(model, row):
    return [
        f"  {lp_signed(model.columns[name].values[row])} {name}"
        for name in sorted(model.columns)
        if row in model.columns[name].values
    ]


def lp_objective(model):
    lines = []
    for name in sorted(model.columns):
        values = model.columns[name].values
        if model.objective in values:
            lines.append(f"  {lp_signed(values[model.objective])} {name}")
        elif not values:
            lines.append(f"  + 0 {name}")
    return lines if is_zero(model.constant) else lines + [f"  {lp_signed(model.constant)}"]


def lp_row(model, name):
    row = model.rows[name]
    lines = [f" {name}:"]
    is_double = row.lower is not None and row.upper is not None and not same(row.lower, row.upper)
    if is_double:
        lines.append(f"  {row.lower.text()} <=")
    lines += lp_terms(model, name) or [f"  + 0 {min(model.columns)}"]
    if same(row.lower, row.upper):
        return lines + [f"  = {row.upper.text()}"]
    if row.upper is not None:
        return lines + [f"  <= {row.upper.text()}"]
    return lines + [f"  >= {row.lower.text() if row.lower is not None else '-1e20'}"]


def lp_bounds(name, column):
    lower, upper = column.lower, column.upper
    if same(lower, upper):
        return [f" {name} = {upper.text()}"]
    if lower is None and upper is None:
        return [f" {name} free"]
    if lower is None:
        return [f" -infinity <= {name} <= {upper.text()}"]
    if upper is not None:
        return [f" {lower.text()} <= {name} <= {upper.text()}"]
    return [] if is_zero(lower) else [f" {name} >= {lower.text()}"]


def canonical_lp(model):
    """The text, or the line that reports the first name that is not legal in LP."""
    if not is_lp_name(model.objective):
        return "objective: NotLp\n"
    for kind, names in (("row", model.rows), ("column", model.columns)):
        for number, name in enumerate(sorted(names)):
            if not is_lp_name(name):
                return f"{kind} {number}: NotLp\n"
    names = sorted(model.columns)
    lines = ["Maximize" if model.maximise else "Minimize", f" {model.objective}:"]
    lines += lp_objective(model) + ["Subject To"]
    for name in sorted(model.rows):
        lines += lp_row(model, name)
    bounds = [line for name in names for line in lp_bounds(name, model.columns[name])]
    integers = [f" {name}" for name in names if model.columns[name].kind == "integer"]
    semis = [f" {name}" for name in names if model.columns[name].kind == "semi"]
    for header, section in (("Bounds", bounds), ("Generals", integers), ("Semi-Continuous", semis)):
        if section:
            lines += [header] + section
    return "".join(line + "\n" for line in lines + ["End"])


# ---- random models


def drawn_name(source, is_lp):
    while True:
        length = source.choice((1, 1, 2, 3, 5, 8, 20))
        if is_lp:
            name = source.choice(LP_FIRST) + "".join(source.choices(LP_INNER, k=length - 1))
        else:
            name = "".join(source.choices(MPS_BYTES, k=length))
        if name == "'MARKER'" or (is_lp and not is_lp_name(name)):
            continue
        # NAME lines, comments and headers are recognised by their first bytes; names come after a space or a tab.
        return name


def drawn_number(source):
    kind = source.random()
    if kind < 0.1:
        return ZERO
    if kind < 0.5:
        number = Number.of(source.randint(1, 999), 0)
    elif kind < 0.8:
        number = Number.of(source.randint(1, 10 ** source.randint(1, 9)), -source.randint(0, 8))
    else:
        number = Number.of(source.randint(1, 10 ** source.randint(1, MOST_DIGITS) - 1), source.randint(-60, 30))
    return number.negated() if source.random() < 0.4 else number


def drawn_limit(source):
    """A number with a magnitude below 10^20, so that it is a finite limit."""
    while True:
        number = drawn_number(source)
        if not number.is_large():
            return number


def drawn_row(source):
    kind = source.choice("NLGEERR")
    if kind == "N":
        return Row(None, None)
    while True:
        one, other = drawn_limit(source), drawn_limit(source)
        if kind == "L":
            return Row(None, one)
        if kind == "G":
            return Row(one, None)
        if kind == "E":
            return Row(one, one)
        low, high = (one, other) if one.compare(other) <= 0 else (other, one)
        distance = high.minus(low)
        if distance.is_decimal() and not distance.is_large():
            return Row(low, high)


def drawn_column(source):
    kind = source.choice(("continuous", "continuous", "continuous", "integer", "integer", "semi"))
    one, other = drawn_limit(source), drawn_limit(source)
    low, high = (one, other) if one.compare(other) <= 0 else (other, one)
    if kind == "semi":
        high = source.choice((high.size(), low.size()))
        low = source.choice((ZERO, low.size()))
        if is_zero(high):
            high = ONE
        if low.compare(high) > 0:
            low, high = high, low
        return Column(kind, low, high)
    lower = source.choice((ZERO, ZERO, low, None))
    upper = source.choice((None, None, high, low))
    if lower is not None and upper is not None and lower.compare(upper) > 0:
        lower, upper = upper, lower
    return Column(kind, lower, upper)


def drawn_model(source):
    is_lp = source.random() < 0.8
    names = set()
    for _ in range(source.randint(2, 14)):
        names.add(drawn_name(source, is_lp))
    names = sorted(names)
    source.shuffle(names)
    objective = names.pop()
    rows = {name: drawn_row(source) for name in names[: source.randint(0, len(names) - 1) if names else 0]}
    columns = {}
    for _ in range(source.randint(1, 8)):
        columns[drawn_name(source, is_lp)] = drawn_column(source)
    for column in columns.values():
        for row in [objective] + list(rows):
            if source.random() < 0.5:
                value = drawn_number(source)
                if not is_zero(value):
                    column.values[row] = value
    return Model(source.random() < 0.4, objective, drawn_number(source), rows, columns)
