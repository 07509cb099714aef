"""Models that are loaded, against the canonical texts that are stated for them."""

import copy
import dataclasses
import pickle
import unittest
from decimal import Decimal, localcontext
from fractions import Fraction
from itertools import combinations

import mpslp
from repository import EXAMPLES, VECTORS, model_files

from shared import models, vector_suite as vectors

INFINITY = Decimal("Infinity")
SAMPLE = b"""\\ one of everything
maximize
 profit: 3.50 x - 2e1 y + 0.25 whole + 7
subject to
 both: -4 <= x + y <= 40
 even: y - 0.5 s = 0
 anything: x >= -inf
 least: 123456789012345678901234567890123456 x + 1e-500 y >= -1e19
 most: whole <= 1e6
bounds
 -3 <= x <= 2.50
 y free
 s <= 9
generals
 whole
semi-continuous
 s
end
"""


def sample():
    return mpslp.load(SAMPLE, "lp")


def number(decimal):
    """A number of tests/shared/models.py, where None is an infinite side."""
    if not decimal.is_finite():
        return None
    sign, digits, exponent = decimal.as_tuple()
    mantissa = int("".join(map(str, digits)))
    return models.Number.of(-mantissa if sign else mantissa, exponent)


def described(model):
    """The model as tests/shared/models.py describes it, which can say its canonical texts."""
    rows = {row.name: models.Row(number(row.lower), number(row.upper)) for row in model.rows.values()}
    columns = {}
    for column in model.columns.values():
        values = {name: number(value) for name, value in column.entries.items()}
        if column.cost:
            values[model.objective] = number(column.cost)
        kind = "semi" if column.kind == "semi-continuous" else column.kind
        columns[column.name] = models.Column(kind, number(column.lower), number(column.upper), values)
    return models.Model(model.sense == "maximize", model.objective, number(model.constant), rows, columns)


def entries():
    return [vectors.Entry(*fields) for fields in vectors.rows("index.tsv")]


class Vectors(unittest.TestCase):
    def test_models(self):
        for entry in entries():
            if entry.answer != "model":
                continue
            with self.subTest(entry.input):
                model = described(mpslp.load(VECTORS / entry.input))
                self.assertEqual(models.canonical_mps(model).encode(), vectors.content(entry.mps))
                lp = entry.lp + "\n" if entry.lp.endswith(": NotLp") else vectors.content(entry.lp).decode()
                self.assertEqual(models.canonical_lp(model), lp)

    def test_faults(self):
        for entry in entries():
            if entry.answer == "model":
                continue
            with self.subTest(entry.input), self.assertRaises(mpslp.ModelFileError) as caught:
                mpslp.load(VECTORS / entry.input)
            error = caught.exception
            self.assertEqual((error.which, error.filename), (None, str(VECTORS / entry.input)))
            self.assertEqual(str(error), f"{VECTORS / entry.input}: {entry.answer}")

    def test_models_are_equal_exactly_if_they_are_the_same(self):
        loaded = {}
        for entry in entries():
            if entry.answer == "model":
                model = mpslp.load(VECTORS / entry.input)
                self.assertEqual(model, loaded.setdefault(entry.mps, model), entry.input)
        for (first, model), (second, other) in combinations(loaded.items(), 2):
            self.assertNotEqual(model, other, (first, second))

    def test_examples(self):
        for path in model_files(EXAMPLES):
            with self.subTest(path.name):
                text = models.canonical_mps(described(mpslp.load(path)))
                self.assertEqual(text.encode(), mpslp.canonical(path, to_format="mps"))

    def test_order(self):
        for path in model_files(EXAMPLES) + [VECTORS / entry.input for entry in entries() if entry.answer == "model"]:
            model = mpslp.load(path)
            rows = list(model.rows)
            self.assertEqual(rows, sorted(rows))
            self.assertEqual(list(model.columns), sorted(model.columns))
            for name, row in model.rows.items():
                self.assertEqual(name, row.name)
            for name, column in model.columns.items():
                self.assertEqual(name, column.name)
                self.assertEqual(list(column.entries), [row for row in rows if row in column.entries])
                self.assertNotIn(0, column.entries.values())


class Models(unittest.TestCase):
    def test_a_model(self):
        model = sample()
        self.assertEqual((model.sense, model.objective, model.constant), ("maximize", "profit", 7))
        self.assertEqual(
            list(model.rows.values()),
            [
                mpslp.Row("anything", -INFINITY, INFINITY),
                mpslp.Row("both", Decimal(-4), Decimal(40)),
                mpslp.Row("even", Decimal(0), Decimal(0)),
                mpslp.Row("least", Decimal("-1e19"), INFINITY),
                mpslp.Row("most", -INFINITY, Decimal("1e6")),
            ],
        )
        long = Decimal("123456789012345678901234567890123456")
        self.assertEqual(
            list(model.columns.values()),
            [
                mpslp.Column("s", "semi-continuous", Decimal(0), Decimal(9), Decimal(0), {"even": Decimal("-0.5")}),
                mpslp.Column("whole", "integer", Decimal(0), INFINITY, Decimal("0.25"), {"most": Decimal(1)}),
                mpslp.Column(
                    "x",
                    "continuous",
                    Decimal(-3),
                    Decimal("2.5"),
                    Decimal("3.5"),
                    {"anything": Decimal(1), "both": Decimal(1), "least": long},
                ),
                mpslp.Column(
                    "y",
                    "continuous",
                    -INFINITY,
                    INFINITY,
                    Decimal(-20),
                    {"both": Decimal(1), "even": Decimal(1), "least": Decimal("1e-500")},
                ),
            ],
        )

    def test_types(self):
        model = sample()
        self.assertEqual({type(model.sense), type(model.objective)}, {str})
        for row in model.rows.values():
            self.assertEqual((type(row.name), type(row.lower), type(row.upper)), (str, Decimal, Decimal))
        for column in model.columns.values():
            self.assertEqual({type(column.name), type(column.kind)}, {str})
            self.assertEqual(
                {type(value) for value in (column.lower, column.upper, column.cost, *column.entries.values())},
                {Decimal},
            )

    def test_how_numbers_print(self):
        for text, printed in (
            ("40", "40"),
            ("1.50", "1.5"),
            ("-20", "-20"),
            ("1e6", "1000000"),
            ("1e20", "1" + 20 * "0"),
            ("1e21", "1E+21"),
            ("0.000001", "0.000001"),
            ("25e-9", "2.5E-8"),
            ("-1e-500", "-1E-500"),
            ("1e500", "1E+500"),
            ("0", "0"),
            ("-0", "0"),
            ("9" * 36, "9" * 36),
            ("-" + "9" * 36 + "e-36", "-0." + "9" * 36),
            ("18446744073709551616", "18446744073709551616"),
            ("-18446744073709551615", "-18446744073709551615"),
            ("9223372036854775808", "9223372036854775808"),
        ):
            with self.subTest(text):
                source = f"ROWS\n N  c\nCOLUMNS\n    x  c  {text}\nENDATA\n".encode()
                self.assertEqual(str(mpslp.load(source, "mps").columns["x"].cost), printed)

    def test_numbers_do_not_depend_on_the_context(self):
        wanted = sample()
        with localcontext() as context:
            context.prec = 3
            context.Emax, context.Emin = 9, -9
            self.assertEqual(sample(), wanted)

    def test_fractions(self):
        model = sample()
        self.assertEqual(mpslp.fraction(model.columns["x"].cost), Fraction(7, 2))
        self.assertIs(type(mpslp.fraction(model.constant)), Fraction)
        self.assertEqual(mpslp.fraction(model.columns["y"].entries["least"]), Fraction(1, 10**500))
        self.assertIsNone(mpslp.fraction(model.columns["y"].lower))
        self.assertIsNone(mpslp.fraction(model.rows["anything"].upper))

    def test_no_rows(self):
        model = mpslp.load(b"min x\nend\n", "lp")
        self.assertEqual((model.rows, model.columns["x"].entries), ({}, {}))

    def test_sources(self):
        wanted = mpslp.load(EXAMPLES / "small.mps")
        text = (EXAMPLES / "small.mps").read_bytes()
        for model in (
            mpslp.load(text, "mps"),
            mpslp.load(bytearray(text), "mps"),
            mpslp.load(str(EXAMPLES / "small.lp")),
            mpslp.load(source=EXAMPLES / "small.lp", format="lp"),
        ):
            self.assertEqual(model, wanted)
        with self.assertRaisesRegex(ValueError, "has to be given"):
            mpslp.load(text)
        with self.assertRaisesRegex(ValueError, "^unknown format: "):
            mpslp.load(text, "qps")
        with self.assertRaises(FileNotFoundError):
            mpslp.load("none.lp")

    def test_copies(self):
        model = sample()
        for other in (pickle.loads(pickle.dumps(model)), copy.deepcopy(model)):
            self.assertEqual(other, model)

    def test_parts_are_not_assigned(self):
        model = sample()
        for part, name in ((model, "sense"), (model.rows["both"], "upper"), (model.columns["x"], "cost")):
            with self.assertRaises(dataclasses.FrozenInstanceError):
                setattr(part, name, 0)


if __name__ == "__main__":
    unittest.main()
