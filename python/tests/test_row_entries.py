"""Rows with coefficients, rows and columns that are removed, and what is said of a name that does not exist."""

import pickle
import re
import unittest
import unittest.mock
from dataclasses import replace
from decimal import Decimal
from random import Random

import mpslp
from drawn_models import drawn
from mpslp._models import _mappings

TEXT = b"max 3 x + y\nst\n limit: x + y <= 4\n least: x - y >= 1\nend\n"


def sample():
    return mpslp.load(TEXT, "lp")


class Entries(unittest.TestCase):
    def test_a_model_of_rows_is_that_of_columns(self):
        source = Random(7)
        for _ in range(40):
            model = drawn(source)
            rows = [mpslp.Row(row.name, row.lower, row.upper, entries=row.entries) for row in model.rows.values()]
            columns = [replace(column, entries={}) for column in model.columns.values()]
            made = mpslp.Model(model.sense, model.objective, model.constant, rows, columns)
            self.assertEqual(made, model)
            both = mpslp.Model(model.sense, model.objective, model.constant, rows, model.columns)
            self.assertEqual(both, model)

    def test_numbers_as_everywhere(self):
        row = mpslp.Row("r", entries={"y": 0.1, "x": 2, "z": 0})
        self.assertEqual(list(row.entries.items()), [("x", Decimal(2)), ("y", Decimal("0.1"))])
        with self.assertRaisesRegex(ValueError, "row 'r': entry in column x: inf is not finite"):
            mpslp.Row("r", entries={"x": float("inf")})
        with self.assertRaisesRegex(ValueError, "column name 'a b' is not legal"):
            mpslp.Row("r", entries={"a b": 1})

    def test_a_coefficient_has_one_value_and_a_column(self):
        columns = [mpslp.Column("x", entries={"r": 1})]
        with self.assertRaisesRegex(ValueError, "row 'r' and column 'x' give different coefficients, 2 and 1"):
            mpslp.Model(rows=[mpslp.Row("r", entries={"x": 2})], columns=columns)
        with self.assertRaisesRegex(ValueError, "row 'r' has an entry in column 'z', which does not exist"):
            mpslp.Model(rows=[mpslp.Row("r", entries={"z": 2})], columns=columns)

    def test_rows_of_a_model_give_none(self):
        """A change of the columns of a model is one of its coefficients, whatever rows of it are given."""
        model = sample()
        changed = replace(model.columns["x"], entries={})
        for rows in (model.rows, [replace(row, upper=9) for row in model.rows.values()]):
            made = mpslp.Model(rows=rows, columns=[changed, model.columns["y"]])
            self.assertEqual(made.rows["limit"].entries, {"y": 1})
        self.assertEqual(
            model.replace(rows=[replace(model.rows["limit"], upper=9)]).rows["limit"].entries, {"x": 1, "y": 1}
        )

    def test_replace_and_copies_keep_them(self):
        row = mpslp.Row("limit", upper=4, entries={"x": 7})
        for copied in (replace(row, upper=5), pickle.loads(pickle.dumps(row))):
            self.assertEqual(copied.entries, {"x": 7})
            self.assertEqual(sample().replace(rows=[copied]).rows["limit"].entries, {"x": 7})
        self.assertEqual(replace(row, entries={"y": 2}).entries, {"y": 2})
        shown = pickle.loads(pickle.dumps(sample().rows["limit"]))
        self.assertEqual(shown.entries, {"x": 1, "y": 1})
        other = mpslp.load(TEXT.replace(b"limit: x", b"limit: 5 x"), "lp")
        self.assertEqual(other.replace(rows=[shown]), other)

    def test_a_row_that_is_replaced_has_those_that_are_given(self):
        model = sample()
        found = model.replace(rows=[mpslp.Row("limit", upper=5, entries={"y": 2})])
        self.assertEqual(found, mpslp.load(TEXT.replace(b"x + y <= 4", b"2 y <= 5"), "lp"))
        self.assertEqual(model.replace(rows=[mpslp.Row("limit", upper=4, entries={})]).rows["limit"].entries, {})
        new = model.replace(rows=[mpslp.Row("new", entries={"x": 3, "z": 4})], columns=[mpslp.Column("z")])
        self.assertEqual(new.columns["z"].entries, {"new": 4})
        self.assertEqual(new.columns["x"].entries, {"new": 3, "limit": 1, "least": 1})

    def test_a_column_that_is_given_with_the_row(self):
        model = sample()
        row = mpslp.Row("limit", upper=4, entries={"y": 2})
        kept = model.replace(rows=[row], columns=[replace(model.columns["x"], cost=5)])
        self.assertEqual(kept.rows["limit"].entries, {"x": 1, "y": 2})
        with self.assertRaisesRegex(ValueError, "different coefficients, 2 and 1"):
            model.replace(rows=[row], columns=[model.columns["y"]])


class Removed(unittest.TestCase):
    def test_rows_and_columns(self):
        model = sample()
        self.assertEqual(
            model.replace(remove_rows=["least"]), mpslp.load(TEXT.replace(b" least: x - y >= 1\n", b""), "lp")
        )
        without = b"max y\nst\n limit: y <= 4\n least: - y >= 1\nend\n"
        self.assertEqual(model.replace(remove_columns={"x"}), mpslp.load(without, "lp"))
        self.assertEqual(model, sample())
        self.assertEqual(model.replace(remove_rows=(), remove_columns=()), model)

    def test_each_part_of_a_random_model(self):
        source = Random(8)
        for _ in range(25):
            model = drawn(source)
            rows = {name for name in model.rows if source.random() < 0.4}
            columns = {name for name in list(model.columns)[1:] if source.random() < 0.4}
            found = model.replace(remove_rows=rows, remove_columns=columns)
            self.assertEqual(list(found.rows), [name for name in model.rows if name not in rows])
            self.assertEqual(list(found.columns), [name for name in model.columns if name not in columns])
            for name, column in found.columns.items():
                left = {row: value for row, value in model.columns[name].entries.items() if row not in rows}
                self.assertEqual(column, replace(model.columns[name], entries=left))
            for name, row in found.rows.items():
                self.assertEqual(row, model.rows[name])
            self.assertEqual(
                (found.sense, found.objective, found.constant), (model.sense, model.objective, model.constant)
            )

    def test_with_others_that_are_given(self):
        model = sample()
        found = model.replace(
            remove_rows=["limit"],
            remove_columns=["x", "y"],
            rows=[mpslp.Row("new", 1, entries={"z": 2})],
            columns=[mpslp.Column("z", cost=4)],
            objective="limit",
            constant=3,
        )
        self.assertEqual(
            found,
            mpslp.Model(
                "maximize",
                "limit",
                3,
                [mpslp.Row("new", 1), mpslp.Row("least", 1)],
                [mpslp.Column("z", cost=4, entries={"new": 2})],
            ),
        )

    def test_what_does_not_exist_or_is_given(self):
        model = sample()
        with self.assertRaises(KeyError) as caught:
            model.replace(remove_rows=["limits"])
        self.assertEqual(str(caught.exception), "'limits'; did you mean 'limit'?")
        with self.assertRaisesRegex(ValueError, "row 'limit' is to be removed, and is given"):
            model.replace(remove_rows=["limit"], rows=[mpslp.Row("limit")])
        with self.assertRaisesRegex(TypeError, "columns to be removed are given as several names, not as a str"):
            model.replace(remove_columns="x")
        with self.assertRaisesRegex(ValueError, "at least one column"):
            model.replace(remove_columns=["x", "y"])
        with self.assertRaisesRegex(ValueError, "entry in row 'limit', which does not exist"):
            model.replace(remove_rows=["limit"], columns=[replace(model.columns["x"], cost=1)])


class MissingNames(unittest.TestCase):
    def test_the_nearest_name(self):
        model = sample()
        for mapping, name, text in (
            (model.rows, "limt", "'limt'; did you mean 'limit'?"),
            (model.columns, "X", "'X'"),
            (model.columns["x"].entries, "last", "'last'; did you mean 'least'?"),
            (model.rows["limit"].entries, "quite another", "'quite another'"),
            (mpslp.Column("x", entries={"hours": 1}).entries, "hour", "'hour'; did you mean 'hours'?"),
            (model.rows, 7, "7"),
        ):
            with self.assertRaises(KeyError) as caught:
                mapping[name]
            self.assertEqual(str(caught.exception), text)
            self.assertEqual(caught.exception.args, (name,))
            self.assertIs(type(pickle.loads(pickle.dumps(caught.exception))), KeyError)

    def test_it_is_looked_for_when_it_is_shown(self):
        def fail(*_):
            raise AssertionError("names are compared")

        with unittest.mock.patch.object(_mappings, "_around", fail):
            self.assertIsNone(sample().rows.get("limt"))
            self.assertNotIn("limt", sample().rows)

    def test_of_many_names_those_near_by(self):
        names = [f"row{number:06}" for number in range(60_000)]
        error = _mappings.MissingNameError("row030000y", names)
        self.assertEqual(str(error), "'row030000y'; did you mean 'row030000'?")


class Shown(unittest.TestCase):
    def test_arrays(self):
        self.assertEqual(repr(sample().arrays()), "<mpslp.Arrays: maximize obj, 2 rows, 2 columns, 4 entries>")

    def test_adapted(self):
        done = mpslp.adapt(b"min 2 * x\nend\n", "lp")
        self.assertEqual(repr(done), f"<mpslp.Adapted: lp, 1 changes, {len(done.notes)} notes, {len(done.text)} bytes>")

    def test_notebooks_show_formulas(self):
        html = sample().replace(columns=[mpslp.Column("<b>", "integer", cost=2, upper=1)])._repr_html_()
        text = re.sub(r"<[^>]*>", "", html)
        for part in (
            "3 columns",
            "maximize obj",
            "2 &lt;b&gt; + 3 x + y",
            "x \N{MINUS SIGN} y \N{GREATER-THAN OR EQUAL TO} 1",
        ):
            self.assertIn(part, text)
        self.assertNotIn("<b>", html)
        self.assertNotIn("script", html)

    def test_notebooks_show_the_first_rows(self):
        rows = [mpslp.Row(f"r{number:02}", 1, entries={"x": number}) for number in range(1, 26)]
        html = mpslp.Model(rows=rows, columns=[mpslp.Column("x")])._repr_html_()
        self.assertIn("the first 10 of 25 rows", html)
        self.assertIn("<code>r10</code>", html)
        self.assertNotIn("<code>r11</code>", html)
        many = mpslp.Model(columns=[mpslp.Column(f"x{number}") for number in range(10_001)])
        self.assertEqual(
            many._repr_html_(), "<p>&lt;mpslp.Model: minimize obj, 0 rows, 10001 columns, 0 entries&gt;</p>"
        )

    def test_the_names_of_the_package(self):
        public = {name for name in dir(mpslp) if not name.startswith("__")}
        self.assertEqual(public, {*mpslp.__all__} - {"__version__"})


if __name__ == "__main__":
    unittest.main()
