"""The formulas of a page: they are the model, in the order of its file."""

import re
import unittest
from decimal import Decimal

import mpslp
from report_pages import SAMPLE, Reader, models, read_page
from repository import EXAMPLES

INFINITY = Decimal("Infinity")
LESS, GREATER, MINUS = "\N{LESS-THAN OR EQUAL TO}", "\N{GREATER-THAN OR EQUAL TO}", "\N{MINUS SIGN}"
# No name has these.
OPEN, CLOSE = "\N{MATHEMATICAL LEFT WHITE SQUARE BRACKET}", "\N{MATHEMATICAL RIGHT WHITE SQUARE BRACKET}"
NAME = rf"{OPEN}([^{CLOSE}]*){CLOSE}"
NUMBER = rf"{MINUS}?[\d.]+(?:e-?\d+)?"
TERM = re.compile(rf"([+{MINUS}] |{MINUS})?([\d.]+(?:e-?\d+)?)?(?: ?{NAME})?")
BETWEEN = re.compile(rf"(?:({NUMBER}) {LESS} )?(.*?)(?: ([={LESS}{GREATER}]) ({NUMBER})| free|, without a limit)")
TYPES = {
    "continuous": "continuous",
    "integer": "integer",
    "semi-continuous: 0, or within the bounds": "semi-continuous",
}


class Formulas(Reader):
    """A page with its names between brackets."""

    def handle_starttag(self, tag, attributes):
        super().handle_starttag(tag, attributes)
        if tag == "code":
            self.handle_data(OPEN)

    def handle_endtag(self, tag):
        if tag == "code":
            self.handle_data(CLOSE)
        super().handle_endtag(tag)


def formulas_of(path, caption=""):
    """The tables of formulas of a page, without their heads."""
    from mpslp._report import page

    reader = Formulas(page([path]))
    return [
        reader.tables.get(f"{each}{caption}", [[]])[1:]
        for each in ("Objective and rows", "Bounds and types of columns")
    ]


def decimal(text):
    return Decimal(text.replace(MINUS, "-"))


def sum_of(text):
    """The coefficients of a sum, and its constant."""
    found, constant = {}, Decimal(0)
    for part in re.split(rf" (?=[+{MINUS}] )", text):
        sign, number, name = TERM.fullmatch(part).groups()
        value = decimal(number) if number else Decimal(1)
        value = -value if sign and MINUS in sign else value
        if name is None:
            constant += value
        else:
            found[name] = value
    return found, constant


def limits_of(text):
    """What is between limits, and these."""
    found = BETWEEN.fullmatch(text)
    if not found:
        raise ValueError(f"no limits: {text!r}")
    before, what, relation, number = found.groups()
    lower, upper = -INFINITY, INFINITY
    if relation == "=":
        lower = upper = decimal(number)
    elif relation == LESS:
        lower, upper = decimal(before) if before else lower, decimal(number)
    elif relation == GREATER:
        lower = decimal(number)
    return what, lower, upper


class Models(unittest.TestCase):
    def test_every_small_model(self):
        """What the formulas say is the whole model."""
        count = 0
        for path in models():
            model = mpslp.load(path)
            if len(model.rows) <= 30 and len(model.columns) <= 30:
                with self.subTest(path.name):
                    self.assertEqual(self.model_of(*formulas_of(path)), model)
                    count += 1
        self.assertGreater(count, 50)

    def model_of(self, rows, bounds):
        """The model that is read from formulas."""
        (objective, costs), *others = rows
        sense, name = re.fullmatch(rf"(\w+) {NAME}", objective).groups()
        costs, constant = sum_of(costs)
        made_rows, entries = [], {}
        for row, formula in others:
            terms, lower, upper = limits_of(formula)
            row = re.fullmatch(NAME, row)[1]
            made_rows.append(mpslp.Row(row, lower, upper))
            for column, value in sum_of(terms)[0].items():
                entries.setdefault(column, {})[row] = value
        columns = []
        for formula, kind in bounds:
            if formula.endswith(" \N{ELEMENT OF} {0, 1}"):
                names, lower, upper = formula, 0, 1
            else:
                names, lower, upper = limits_of(formula)
            for column in re.findall(NAME, names):
                columns.append(
                    mpslp.Column(column, TYPES[kind], lower, upper, costs.get(column, 0), entries.get(column, {}))
                )
        return mpslp.Model(sense, name, constant, made_rows, columns)

    def test_a_sample(self):
        reader = read_page(SAMPLE)
        self.assertEqual(
            reader.tables["Objective and rows"][1:],
            [
                ["minimize COST", f"3.25 FIRST {MINUS} 2 LINE\"1\" + 12 LINE'2' + THREE + 5 SEVEN + 125"],
                ["CO2", "0, without a limit"],
                ["HOURS", f"10 {LESS} FIRST + 0.000001 LINE\"1\" + 4 LINE'2' + 2.5 <b>FOUR</b> + EIGHT {LESS} 40"],
                ["<script>alert(1)</script>", f"0 {LESS} 3 THREE {LESS} 5"],
                ["EVEN", f"3 {LESS} FIRST {MINUS} <b>FOUR</b> {LESS} 7"],
                ["LOW", f'4 {LESS} {MINUS}LINE"1" {LESS} 6'],
                ["SAME", "LINE'2' + FIVE, without a limit"],
                ["BIG&BOLD", f"1e7 FIRST {GREATER} 5e11"],
                ["EMPTY", f"0 {LESS} 0"],
            ],
        )
        self.assertEqual(
            reader.tables["Bounds and types of columns"][1:],
            [
                [f"0 {LESS} FIRST {LESS} 8", "continuous"],
                ['LINE"1" \N{ELEMENT OF} {0, 1}', "integer"],
                [f"LINE'2' {GREATER} 2", "integer"],
                [f"THREE {GREATER} 0", "integer"],
                [f"<b>FOUR</b> {LESS} {MINUS}1", "continuous"],
                ["FIVE free", "continuous"],
                [f"SIX, SEVEN {GREATER} 0", "continuous"],
                ["EIGHT = 0", "continuous"],
            ],
        )

    def test_semi_continuous_columns(self):
        reader = read_page(EXAMPLES / "semi.mps")
        self.assertEqual(
            reader.table("Bounds and types of columns")[f"0.8 {LESS} fuel {LESS} 2"],
            ["semi-continuous: 0, or within the bounds"],
        )

    def test_two_models(self):
        reader = read_page(SAMPLE, EXAMPLES / "small.lp")
        self.assertEqual(reader.tables["Objective and rows: a.mps"][1][0], "minimize COST")
        self.assertEqual(reader.tables["Objective and rows: small.lp"][1:][1], ["MYG", f"1.5 Y {GREATER} 1"])


class Large(unittest.TestCase):
    def text(self, rows, columns):
        """Each row has each column, and each column bounds of its own."""
        lines = [f"    x{column}  r{row}  1" for column in range(columns) for row in range(rows)]
        names = [f" L  r{row}" for row in range(rows)]
        bounds = [f" UP  B  x{column}  {column + 1}" for column in range(columns)]
        return "\n".join(["ROWS", " N  c", *names, "COLUMNS", *lines, "BOUNDS", *bounds, "ENDATA", ""])

    def test_rows(self):
        self.assertEqual(len(read_page(self.text(30, 2)).tables["Objective and rows"]), 1 + 1 + 30)
        for rows in (31, 500):
            reader = read_page(self.text(rows, 2))
            self.assertNotIn("Objective and rows", reader.tables)
            self.assertNotIn("Formulas", reader.text["h2"] + reader.text["a"])

    def test_the_smaller_one_of_two(self):
        reader = read_page(self.text(31, 2), self.text(3, 2))
        self.assertNotIn("Objective and rows: a.mps", reader.tables)
        self.assertEqual(len(reader.tables["Objective and rows: b.mps"]), 1 + 1 + 3)

    def test_terms(self):
        (formula,) = read_page(self.text(3, 1040)).table("Objective and rows")["r1"]
        self.assertTrue(formula.startswith("x0 + x1 + x2 + "))
        self.assertTrue(formula.endswith(f" + x39 + 1,000 other terms {LESS} 0"), formula)
        (formula,) = read_page(self.text(3, 41)).table("Objective and rows")["r1"]
        self.assertTrue(formula.endswith(f" + x39 + 1 other term {LESS} 0"), formula)

    def test_bounds(self):
        reader = read_page(self.text(3, 1040))
        self.assertEqual(len(reader.table("Bounds and types of columns")), 40)
        self.assertIn("1,000 more columns with other bounds.", reader.text["p"])
        same = self.text(3, 1040).partition("BOUNDS")[0] + "ENDATA\n"
        (bounds,) = read_page(same).table("Bounds and types of columns")
        self.assertTrue(bounds.endswith(f"x29 and 1,010 more {GREATER} 0"), bounds)


if __name__ == "__main__":
    unittest.main()
