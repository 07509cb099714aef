"""Models that are written, and models that are made of plain Python."""

import dataclasses
import random
import tempfile
import unittest
from decimal import Decimal, localcontext
from fractions import Fraction
from pathlib import Path

import mpslp
from drawn_models import INFINITY, made
from repository import EXAMPLES, VECTORS, model_files
from test_load import entries, sample

from shared import models

NOT_LP = mpslp.Model(columns=[mpslp.Column("x"), mpslp.Column("x[1]")])


def answer(call, *arguments, **named):
    """What a call answers, or its fault without the path."""
    try:
        return call(*arguments, **named)
    except mpslp.ModelFileError as error:
        return error.kind, error.line, error.name, error.place, error.number


def made_again(model):
    """The model made of its own parts, in another order."""
    rows = [mpslp.Row(row.name, row.lower, row.upper) for row in model.rows.values()]
    columns = [
        mpslp.Column(
            column.name, column.kind, column.lower, column.upper, column.cost, dict(reversed(column.entries.items()))
        )
        for column in model.columns.values()
    ]
    return mpslp.Model(model.sense, model.objective, model.constant, reversed(rows), reversed(columns))


class Texts(unittest.TestCase):
    def test_texts_of_models_that_are_loaded(self):
        for path in model_files(EXAMPLES) + [VECTORS / entry.input for entry in entries() if entry.answer == "model"]:
            model = mpslp.load(path)
            again = made_again(model)
            self.assertEqual(again, model)
            self.assertEqual(
                mpslp.Model(model.sense, model.objective, model.constant, model.rows, model.columns), model
            )
            for format in ("mps", "lp"):
                with self.subTest(path.name, format=format):
                    wanted = answer(mpslp.canonical, path, to_format=format)
                    self.assertEqual(answer(mpslp.dumps, model, format), wanted)
                    self.assertEqual(answer(mpslp.dumps, again, format), wanted)
                    if isinstance(wanted, bytes):
                        self.assertEqual(mpslp.load(wanted, format), model)

    def test_texts_of_random_models(self):
        source = random.Random(7)
        for _ in range(1000):
            drawn = models.drawn_model(source)
            model = made(drawn)
            text = models.canonical_mps(drawn).encode()
            self.assertEqual(mpslp.dumps(model, "mps"), text)
            self.assertEqual(mpslp.canonical(text, "mps"), text)
            self.assertEqual(mpslp.load(text, "mps"), model)
            lp = models.canonical_lp(drawn)
            if lp.endswith(": NotLp\n"):
                with self.assertRaises(mpslp.ModelFileError) as caught:
                    mpslp.dumps(model, "lp")
                self.assertEqual(f"{caught.exception}\n", lp)
            else:
                self.assertEqual(mpslp.dumps(model, "lp"), lp.encode())
                self.assertEqual(mpslp.load(lp.encode(), "lp"), model)

    def test_texts_do_not_depend_on_the_context(self):
        wanted = mpslp.dumps(sample(), "lp")
        with localcontext() as context:
            context.prec = 3
            context.Emax, context.Emin = 9, -9
            context.capitals = 0
            self.assertEqual(mpslp.dumps(sample(), "lp"), wanted)
            self.assertEqual(mpslp.dumps(made_again(sample()), "lp"), wanted)

    def test_what_is_no_model_or_no_format(self):
        for model in (None, EXAMPLES / "small.mps", b"min x\nend\n", mpslp.Row("r")):
            with self.assertRaisesRegex(TypeError, "^a model is a mpslp.Model, not "):
                mpslp.dumps(model, "mps")
        for format in ("qps", None, 0, b"mps"):
            with self.assertRaisesRegex(ValueError, "^unknown format: "):
                mpslp.dumps(sample(), format)


class Files(unittest.TestCase):
    def setUp(self):
        folder = tempfile.TemporaryDirectory()
        self.addCleanup(folder.cleanup)
        self.folder = Path(folder.name)

    def test_files(self):
        model = sample()
        for name, format, wanted in (
            ("a.mps", None, "mps"),
            ("a.LP", None, "lp"),
            ("a.mps", "lp", "lp"),
            ("a", "mps", "mps"),
        ):
            for path in (self.folder / name, str(self.folder / name)):
                path = Path(path)
                path.write_bytes(b"a longer text that is there" * 100)
                self.assertIsNone(mpslp.dump(model, path, format))
                self.assertEqual(path.read_bytes(), mpslp.dumps(model, wanted))

    def test_a_file_stays_where_there_is_no_text(self):
        path = self.folder / "a.lp"
        path.write_bytes(b"text")
        with self.assertRaisesRegex(mpslp.ModelFileError, "^column 1: NotLp$"):
            mpslp.dump(NOT_LP, path)
        with self.assertRaises(TypeError):
            mpslp.dump("model", path)
        with self.assertRaisesRegex(ValueError, "^unknown format: "):
            mpslp.dump(NOT_LP, path, "qps")
        self.assertEqual(path.read_bytes(), b"text")

    def test_paths(self):
        with self.assertRaisesRegex(ValueError, "has to be given"):
            mpslp.dump(sample(), self.folder / "a.txt")
        for path in (None, 3, b"a.mps"):
            with self.assertRaisesRegex(TypeError, "^a path is a str or an os.PathLike, not "):
                mpslp.dump(sample(), path, "mps")
        with self.assertRaises(FileNotFoundError):
            mpslp.dump(sample(), self.folder / "none" / "a.mps")


class Made(unittest.TestCase):
    def test_defaults(self):
        model = mpslp.Model(columns=[mpslp.Column("x")])
        self.assertEqual(mpslp.dumps(model, "lp"), b"Minimize\n obj:\n  + 0 x\nSubject To\nEnd\n")
        row, column = mpslp.Row("r"), mpslp.Column("x")
        self.assertEqual((row.lower, row.upper, row.entries), (-INFINITY, INFINITY, {}))
        self.assertEqual(
            (column.kind, column.lower, column.upper, column.cost, column.entries), ("continuous", 0, INFINITY, 0, {})
        )

    def test_numbers_of_python(self):
        for number, printed in (
            (3, "3"),
            (-20, "-20"),
            (10**20, "1" + 20 * "0"),
            (10**21, "1E+21"),
            (0, "0"),
            (0.1, "0.1"),
            (-0.0, "0"),
            (1e22, "1E+22"),
            (5e-324, "5E-324"),
            (1.5, "1.5"),
            (2.0, "2"),
            (1 / 3, "0.3333333333333333"),
            (Decimal("1.50"), "1.5"),
            (Decimal("-0.00"), "0"),
            (Decimal("1e500"), "1E+500"),
            (Fraction(7, 2), "3.5"),
            (Fraction(-1, 8), "-0.125"),
            (Fraction(1, 10**500), "1E-500"),
            (Fraction(3), "3"),
            (int("9" * 36), "9" * 36),
            (Decimal("123000"), "123000"),
            (Decimal("0E+7"), "0"),
        ):
            with self.subTest(number):
                column = mpslp.Column("x", cost=number, entries={"r": number})
                self.assertEqual(str(column.cost), printed)
                self.assertEqual(column.entries, {"r": column.cost} if number else {})
                model = mpslp.Model(constant=number, rows=[mpslp.Row("r")], columns=[column])
                self.assertEqual((str(model.constant), str(model.columns["x"].cost)), (printed, printed))
                self.assertEqual(model.columns["x"], column)

    def test_numbers_of_numpy(self):
        try:
            import numpy
        except ImportError:
            self.skipTest("there is no numpy")
        for number, wanted in (
            (numpy.float64(0.1), "0.1"),
            (numpy.int32(7), "7"),
            (numpy.int64(-7), "-7"),
            (numpy.float32(0.5), "0.5"),
        ):
            self.assertEqual(str(mpslp.Column("x", cost=number).cost), wanted)

    def test_infinite_limits(self):
        infinity = float("inf")
        for low, high in (
            (-infinity, infinity),
            (-1e20, 1e20),
            (-(10**30), 10**30),
            (Decimal("-Infinity"), Decimal("1e20")),
        ):
            self.assertEqual(mpslp.Row("r", low, high), mpslp.Row("r"))
            column = mpslp.Column("x", "continuous", low, high)
            self.assertEqual((column.lower, column.upper), (-INFINITY, INFINITY))
        self.assertEqual(mpslp.Row("r", upper=Decimal("99999999999999999999")).upper, Decimal("99999999999999999999"))
        self.assertEqual(mpslp.Column("x", cost=1e30).cost, Decimal("1e30"))

    def test_parts_that_are_replaced(self):
        model = sample()
        changed = dataclasses.replace(
            model,
            sense="minimize",
            rows={**model.rows, "both": dataclasses.replace(model.rows["both"], upper=7.5)},
            columns={
                **model.columns,
                "x": dataclasses.replace(model.columns["x"], kind="integer", entries={"both": 2}),
            },
        )
        self.assertEqual(
            (changed.sense, changed.rows["both"].lower, changed.rows["both"].upper), ("minimize", -4, Decimal("7.5"))
        )
        self.assertEqual(
            (changed.columns["x"].kind, changed.columns["x"].entries, changed.columns["x"].cost),
            ("integer", {"both": 2}, Decimal("3.5")),
        )
        self.assertEqual(changed.rows["both"].entries, {"x": 2, "y": 1})
        self.assertEqual((changed.columns["y"], changed.objective, changed.constant), (model.columns["y"], "profit", 7))
        self.assertNotEqual(changed, model)
        self.assertEqual(dataclasses.replace(model), model)

    def test_what_is_given_may_change_later(self):
        values = {"r": 1}
        column = mpslp.Column("x", entries=values)
        values["r"] = 2
        self.assertEqual(column.entries, {"r": 1})


class Unsound(unittest.TestCase):
    def test_names(self):
        for name in ("", "a b", "x" * 256, "é", "\t", "a\n", "\x7f", "'MARKER'"):
            for call in (
                lambda: mpslp.Row(name),
                lambda: mpslp.Column(name),
                lambda: mpslp.Model(objective=name, columns=[mpslp.Column("x")]),
                lambda: mpslp.Column("x", entries={name: 1}),
            ):
                with self.subTest(name), self.assertRaisesRegex(ValueError, " name .* is not legal: "):
                    call()
        for call in (lambda: mpslp.Row(3), lambda: mpslp.Column(b"x"), lambda: mpslp.Column("x", entries={1: 1})):
            with self.assertRaisesRegex(TypeError, "is a str, not"):
                call()
        for name in ("x" * 255, "!", "~", "*", "'", "MARKER", "RHS", "x[1]"):
            self.assertEqual(list(mpslp.Model(columns=[mpslp.Column(name)], rows=[mpslp.Row(name)]).columns), [name])

    def test_numbers(self):
        for number, words in (
            (float("nan"), "is not a number"),
            (Decimal("NaN"), "is not a number"),
            (Fraction(1, 3), "not a finite decimal"),
            (int("1" * 37), "more than 36 digits"),
            (Decimal("1e501"), "exponent beyond 500"),
            (Decimal("1e-501"), "exponent beyond 500"),
            (Fraction(1, 2**200), "more than 36 digits"),
        ):
            for call in (
                lambda: mpslp.Column("x", cost=number),
                lambda: mpslp.Column("x", entries={"r": number}),
                lambda: mpslp.Model(constant=number, columns=[mpslp.Column("x")]),
            ):
                with self.subTest(number), self.assertRaisesRegex(ValueError, words):
                    call()
        for number in (float("inf"), Decimal("-Infinity")):
            for call in (
                lambda: mpslp.Column("x", cost=number),
                lambda: mpslp.Column("x", entries={"r": number}),
                lambda: mpslp.Model(constant=number, columns=[mpslp.Column("x")]),
            ):
                with self.subTest(number), self.assertRaisesRegex(ValueError, "is not finite"):
                    call()
        for number in ("3", None, True, 1j, b"1", [1]):
            for call in (
                lambda: mpslp.Column("x", cost=number),
                lambda: mpslp.Row("r", number),
                lambda: mpslp.Row("r", upper=number),
            ):
                with self.subTest(number), self.assertRaises(TypeError):
                    call()

    def test_limits_and_bounds(self):
        for lower, upper, words in (
            (2, 1, "row 'r': lower 2 is above upper 1"),
            (float("inf"), float("inf"), "lower is plus infinity"),
            (-1e30, -1e20, "upper is minus infinity"),
            (Decimal("1e-40"), 1, "row 'r': upper minus lower: .* more than 36 digits"),
            (-6 * 10**19, 6 * 10**19, "upper minus lower has size"),
        ):
            with self.subTest(lower), self.assertRaisesRegex(ValueError, words):
                mpslp.Row("r", lower, upper)
        for kind, lower, upper, words in (
            ("continuous", 2, 1, "column 'x': lower 2 is above upper 1"),
            ("integer", 0, -1, "above upper"),
            ("continuous", 1e20, 1e30, "plus infinity"),
            ("continuous", -1e20, -1e20, "minus infinity"),
            ("semi-continuous", 0, 1e20, "is semi-continuous"),
            ("semi-continuous", -1, 1, "is semi-continuous"),
            ("semi-continuous", 0, 0, "is semi-continuous"),
        ):
            with self.subTest(kind, lower=lower), self.assertRaisesRegex(ValueError, words):
                mpslp.Column("x", kind, lower, upper)
        # A column's bounds may have any distance.
        for column in (
            mpslp.Column("x", "continuous", Decimal("1e-40"), 1),
            mpslp.Column("x", "integer", -6 * 10**19, 6 * 10**19),
        ):
            self.assertEqual(mpslp.Model(columns=[column]).columns["x"], column)

    def test_words(self):
        with self.assertRaisesRegex(ValueError, "^column 'x': the kind 'binary' is none of"):
            mpslp.Column("x", "binary")
        with self.assertRaisesRegex(ValueError, "^the sense 'max' is neither"):
            mpslp.Model("max", columns=[mpslp.Column("x")])

    def test_models(self):
        x, r = mpslp.Column("x", entries={"r": 1}), mpslp.Row("r")
        for named, error, words in (
            ({"columns": []}, ValueError, "at least one column"),
            ({"columns": [x]}, ValueError, "column 'x' has an entry in row 'r', which does not exist"),
            ({"columns": [x, x], "rows": [r]}, ValueError, "column 'x' is there twice"),
            ({"columns": [x], "rows": [r, r]}, ValueError, "row 'r' is there twice"),
            ({"columns": [x], "rows": [r], "objective": "r"}, ValueError, "row 'r' has the name of the objective"),
            (
                {"columns": {"y": x}, "rows": [r]},
                ValueError,
                "the key 'y' has the column 'x': the key of a column is its name",
            ),
            (
                {"columns": [x], "rows": {"s": r}},
                ValueError,
                "the key 's' has the row 'r': the key of a row is its name",
            ),
            ({"columns": [r]}, TypeError, "a column is a mpslp.Column, not Row"),
            ({"columns": [x], "rows": ["r"]}, TypeError, "a row is a mpslp.Row, not str"),
        ):
            with self.subTest(words), self.assertRaisesRegex(error, words):
                mpslp.Model(**named)


if __name__ == "__main__":
    unittest.main()
