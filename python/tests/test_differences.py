"""In what models differ: one place of each kind in random models, numbers that are near, and names by position."""

import dataclasses
import pickle
import random
import unittest
from dataclasses import replace
from decimal import Decimal
from itertools import combinations

import mpslp
from drawn_models import INFINITY, drawn, made
from mpslp import ColumnDifference, ColumnOnly, EntryDifference, ModelDifference, RowDifference, RowOnly
from mpslp._models._numbers import number_text
from repository import EXAMPLES, VECTORS, model_files
from test_load import entries

from shared import independent_reader, models, spellings

RUNS = 40
NEW = "brand-new"


def with_row(model, row):
    return replace(model, rows={**model.rows, row.name: row})


def with_column(model, column):
    return replace(model, columns={**model.columns, column.name: column})


# Each makes models that differ from a model in one place, with the one difference that is expected.


def other_sense(model, source):
    sense = "minimize" if model.sense == "maximize" else "maximize"
    yield replace(model, sense=sense), [ModelDifference("sense", model.sense, sense)]


def other_objective(model, source):
    yield replace(model, objective=NEW), [ModelDifference("objective", model.objective, NEW)]


def other_constant(model, source):
    constant = other_number(model.constant)
    yield replace(model, constant=constant), [ModelDifference("constant", model.constant, constant)]


def another_row(model, source):
    changed = with_row(model, mpslp.Row(NEW, -1, 5))
    yield changed, [RowOnly("second", changed.rows[NEW])]


def missing_row(model, source):
    for name in one_of(source, model.rows):
        columns = [
            replace(each, entries={row: value for row, value in each.entries.items() if row != name})
            for each in model.columns.values()
        ]
        rows = [row for row in model.rows.values() if row.name != name]
        yield replace(model, rows=rows, columns=columns), [RowOnly("first", model.rows[name])]


def other_limits(model, source):
    for name in one_of(source, model.rows):
        row = model.rows[name]
        if row.lower.is_finite():
            yield with_row(model, replace(row, lower=-INFINITY)), [RowDifference(name, "lower", row.lower, -INFINITY)]
            if row.upper.is_finite():
                yield with_row(model, replace(row, upper=INFINITY)), [RowDifference(name, "upper", row.upper, INFINITY)]
            if row.upper != row.lower:
                yield with_row(model, replace(row, upper=row.lower)), [
                    RowDifference(name, "upper", row.upper, row.lower)
                ]


def another_column(model, source):
    changed = with_column(model, mpslp.Column(NEW, "integer", 0, 3, 2, dict.fromkeys(model.rows, 1)))
    yield changed, [ColumnOnly("second", changed.columns[NEW])]


def missing_column(model, source):
    for name in one_of(source, model.columns):
        if len(model.columns) > 1:
            columns = [column for column in model.columns.values() if column.name != name]
            yield replace(model, columns=columns), [ColumnOnly("first", model.columns[name])]


def other_kind(model, source):
    for name in one_of(source, model.columns):
        column = model.columns[name]
        kind = "continuous" if column.kind != "continuous" else "integer"
        yield with_column(model, replace(column, kind=kind)), [ColumnDifference(name, "kind", column.kind, kind)]


def other_bounds(model, source):
    for name in one_of(source, model.columns):
        column = model.columns[name]
        if column.kind != "semi-continuous":
            if column.lower.is_finite():
                yield with_column(model, replace(column, lower=-INFINITY)), [
                    ColumnDifference(name, "lower", column.lower, -INFINITY)
                ]
            if column.upper.is_finite():
                yield with_column(model, replace(column, upper=INFINITY)), [
                    ColumnDifference(name, "upper", column.upper, INFINITY)
                ]


def other_cost(model, source):
    for name in one_of(source, model.columns):
        column = model.columns[name]
        cost = other_number(column.cost)
        yield with_column(model, replace(column, cost=cost)), [ColumnDifference(name, "cost", column.cost, cost)]


def other_entry(model, source):
    for name in one_of(source, model.columns):
        column = model.columns[name]
        for row in one_of(source, model.rows):
            value = column.entries.get(row, Decimal(0))
            for changed in (other_number(value), Decimal(0)):
                if changed != value:
                    yield with_column(model, replace(column, entries={**column.entries, row: changed})), [
                        EntryDifference(row, name, value, changed)
                    ]


def renamed_row(model, source):
    for name in one_of(source, model.rows):
        rows = [replace(row, name=NEW) if row.name == name else row for row in model.rows.values()]
        columns = [
            replace(each, entries={NEW if row == name else row: value for row, value in each.entries.items()})
            for each in model.columns.values()
        ]
        changed = replace(model, rows=rows, columns=columns)
        yield changed, sorted(
            [RowOnly("first", model.rows[name]), RowOnly("second", changed.rows[NEW])], key=lambda each: each.row.name
        )


PLACES = (
    other_sense,
    other_objective,
    other_constant,
    another_row,
    missing_row,
    other_limits,
    another_column,
    missing_column,
    other_kind,
    other_bounds,
    other_cost,
    other_entry,
    renamed_row,
)


def other_number(number):
    return -number if number else Decimal("0.5")


def one_of(source, names):
    return [source.choice(list(names))] if names else []


class Found(unittest.TestCase):
    def test_each_kind_of_place(self):
        source, counts = random.Random(20), dict.fromkeys(PLACES, 0)
        for _ in range(RUNS):
            model = drawn(source)
            for place in PLACES:
                for changed, wanted in place(model, source):
                    counts[place] += 1
                    with self.subTest(
                        place.__name__, first=mpslp.dumps(model, "mps"), second=mpslp.dumps(changed, "mps")
                    ):
                        differences = mpslp.diff(model, changed)
                        self.assertEqual(list(differences), wanted)
                        self.assertEqual(str(differences), "\n".join(map(str, wanted)))
                        self.assertTrue(differences)
                        self.assertEqual(differences.verdict, "not the same")
                        self.assertEqual(list(differences), wanted, "a second time")
        self.assertGreater(min(counts.values()), RUNS // 3, counts)

    def test_the_same_models(self):
        for path in model_files(EXAMPLES) + [VECTORS / entry.input for entry in entries() if entry.answer == "model"]:
            differences = mpslp.diff(path, mpslp.canonical(path, to_format="mps"), second_format="mps")
            self.assertEqual(
                (list(differences), str(differences), bool(differences), differences.verdict), ([], "", False, "same")
            )

    def test_pairs_of_files(self):
        found = {path: mpslp.load(path) for path in model_files(EXAMPLES)}
        for first, second in combinations(found, 2):
            with self.subTest(first.name, second=second.name):
                self.assertEqual(bool(mpslp.diff(first, second)), found[first] != found[second])

    def test_several_in_order(self):
        first = b"min c: x + 2 y + 1\nst\na: x + y <= 4\nb: x >= 1\nbounds\ny <= 9\nend\n"
        second = b"max d: x + 2.5 y\nst\na: 2 x + y <= 5\nz: w = 1\nbounds\n1 <= y <= 9\ngenerals\nx\nend\n"
        self.assertEqual(
            str(mpslp.diff(first, second, "lp", "lp")).split("\n"),
            [
                "sense: minimize -> maximize",
                "objective: c -> d",
                "constant: 1 -> 0",
                "row a: upper 4 -> 5",
                "- row b: 1 to inf, 1 entry",
                "+ row z: 1 to 1, 1 entry",
                "+ column w: continuous, 0 to inf, cost 0, 1 entry",
                "column x: kind continuous -> integer",
                "column y: lower 0 -> 1",
                "column y: cost 2 -> 2.5",
                "entry a x: 1 -> 2",
            ],
        )

    def test_differences_are_values(self):
        differences = list(mpslp.diff(EXAMPLES / "small.mps", EXAMPLES / "semi.mps"))
        self.assertGreater(len(differences), 5)
        for each in differences:
            self.assertEqual(pickle.loads(pickle.dumps(each)), each)
            with self.assertRaises(dataclasses.FrozenInstanceError):
                each.which = "third"
        self.assertEqual(
            hash(EntryDifference("r", "x", Decimal(1), Decimal(2))),
            hash(EntryDifference("r", "x", Decimal("1.0"), Decimal(2))),
        )

    def test_a_source_that_is_rejected(self):
        good = EXAMPLES / "small.mps"
        for arguments, which in ((("", good, "lp"), "first"), ((good, b"", None, "mps"), "second")):
            with self.subTest(which), self.assertRaises(mpslp.ModelFileError) as caught:
                mpslp.diff(*[b"" if each == "" else each for each in arguments])
            self.assertEqual((caught.exception.which, caught.exception.kind), (which, "MissingEnd"))


class Near(unittest.TestCase):
    def near(self, first, second, digits):
        a, b = (mpslp.Model(columns=[mpslp.Column("x", cost=Decimal(each))]) for each in (first, second))
        found = {bool(mpslp.diff(*pair, digits=digits)) for pair in ((a, b), (b, a))}
        self.assertEqual(len(found), 1, "in both directions")
        return not found.pop()

    def test_digits(self):
        for first, second, most in (
            ("0.333333333333", "0.3333333333333333", 12),
            ("0.3333333333333333", "0.3333333333333334", 15),
            ("0.66666666666", "0.666666666667", 11),
            ("1", "2", 0),
            ("9", "10", 1),
            ("0.9999", "1", 4),
            ("1e400", "1.001e400", 3),
            ("-1e-400", "-1.001e-400", 3),
            ("5", "-5", 0),
            ("1e-300", "0", 0),
            ("123456789012345678901234567890123456", "123456789012345678901234567890123457", 35),
            ("7", "7", 36),
        ):
            for digits in range(1, 37):
                with self.subTest(first, second=second, digits=digits):
                    self.assertEqual(self.near(first, second, digits), digits <= most)

    def test_infinite_limits(self):
        for row in (mpslp.Row("r"), mpslp.Row("r", 1), mpslp.Row("r", 1, Decimal("99999999999999999999"))):
            models_of = [mpslp.Model(rows=[each], columns=[mpslp.Column("x")]) for each in (row, mpslp.Row("r", 1))]
            self.assertEqual(bool(mpslp.diff(*models_of, digits=1)), row != mpslp.Row("r", 1))

    def test_all_numbers_of_a_model(self):
        text = "max o: {0} x + {0}\nst\nr: {0} x <= {0}\ns: {0} x >= {0}\nbounds\n{0} <= x\ny <= {0}\nend\n"
        pair = [text.format(number).encode() for number in ("1.00001", "1.00002")]
        self.assertEqual(len(list(mpslp.diff(*pair, "lp", "lp"))), 8)
        close = mpslp.diff(*pair, "lp", "lp", digits=5)
        self.assertEqual((list(close), close.verdict), ([], "close"))
        self.assertEqual(len(list(mpslp.diff(*pair, "lp", "lp", digits=6))), 8)

    def test_what_is_no_number_of_digits(self):
        for digits in (0, 37, -1, 1.5, "3"):
            with self.assertRaisesRegex(ValueError, "^digits is a whole number from 1 to 36, not "):
                mpslp.diff(EXAMPLES / "small.mps", EXAMPLES / "small.lp", digits=digits)


class Names(unittest.TestCase):
    def test_the_name_of_the_objective(self):
        source = random.Random(21)
        for _ in range(RUNS):
            model = drawn(source)
            other = replace(model, objective=NEW)
            self.assertEqual(mpslp.diff(model, other, ignore_objective_name=True).verdict, "close")
            self.assertEqual(mpslp.diff(model, model, ignore_objective_name=True).verdict, "same")
            changed = replace(other, constant=other_number(model.constant))
            self.assertEqual(
                [each.what for each in mpslp.diff(model, changed, ignore_objective_name=True)], ["constant"]
            )

    def test_positions_are_those_of_the_texts(self):
        """Against the order in which another reader has the declarations."""
        from mpslp._files._sources import read
        from mpslp._models._positions import names_by_position

        source = random.Random(22)
        texts = [(path.read_bytes(), path.suffix[1:]) for path in model_files(EXAMPLES)]
        texts += [
            ((VECTORS / each.input).read_bytes(), each.input.rsplit(".")[-1])
            for each in entries()
            if each.answer == "model"
        ]
        for _ in range(4 * RUNS):
            each = models.drawn_model(source)
            texts.append((spellings.mps_text(source, each), "mps"))
            if not models.canonical_lp(each).endswith("NotLp\n"):
                texts.append((spellings.lp_text(source, each), "lp"))
        texts += [
            (text, "lp")
            for text in (
                b"min x\nsubject to y + to >= 1\n c: to + z <= 1 end\n",
                b"max x\nSuch\nThat\n y + That + that >= 1\nend\n",
                b"min x st c1: x >= 1 y + x <= 2 c: z <= 2 x + to >= 1 a: y <= 9\n"
                b"bounds s <= 3 continuous <= 4 semi - continuous s continuous\nend\n",
                b"min x\nbounds y <= 3 continuous <= 4 semi-continuous continuous y\nend\nto: x : 3\n",
                b"min 3e5x + 2 x1 \\ a + b\n st 4c>=1\nend\n",
            )
        ]
        self.assertGreater(len(texts), 300)
        for text, form in texts:
            with self.subTest(text):
                found = names_by_position(read(text, form), mpslp.load(text, form))
                self.assertEqual((found.rows, found.columns), order_of_declarations(text, form))

    def test_models_whose_names_differ(self):
        source = random.Random(23)
        for run in range(RUNS):
            each = models.drawn_model(source)
            text, numbered = models.canonical_mps(each).encode(), made(renamed_by_position(each))
            model = mpslp.load(text, "mps")
            differences = mpslp.diff(text, mpslp.dumps(numbered, "mps"), "mps", "mps", by_position=True)
            self.assertEqual((list(differences), differences.verdict), ([], "close"), text)
            rows, columns = order_of_declarations(text, "mps")
            for name in one_of(source, model.columns):
                cost = other_number(model.columns[name].cost)
                number = f"C{columns.index(name):07}"
                changed = with_column(numbered, replace(numbered.columns[number], cost=cost))
                found = list(mpslp.diff(text, mpslp.dumps(changed, "mps"), "mps", "mps", by_position=True))
                self.assertEqual(found, [ColumnDifference(name, "cost", model.columns[name].cost, cost)])
                for row in one_of(source, model.rows):
                    value = model.columns[name].entries.get(row, Decimal(0))
                    entries = {**numbered.columns[number].entries, f"R{rows.index(row):07}": other_number(value)}
                    changed = with_column(numbered, replace(numbered.columns[number], entries=entries))
                    found = list(mpslp.diff(text, mpslp.dumps(changed, "mps"), "mps", "mps", by_position=True))
                    self.assertEqual(found, [EntryDifference(row, name, value, other_number(value))])

    def test_names_that_change_places(self):
        first, second = b"min x st a: x >= 1 b: 0 x >= 1\nend\n", b"min x st b: 0 x >= 1 a: x >= 1\nend\n"
        self.assertEqual(mpslp.diff(first, second, "lp", "lp").verdict, "same")
        moved = b"min x st b: x >= 1 a: 0 x >= 1\nend\n"
        self.assertEqual(mpslp.diff(first, moved, "lp", "lp", by_position=True).verdict, "close")
        other = first.replace(b"min x", b"min x + 5")
        self.assertEqual(
            [str(each) for each in mpslp.diff(other, second, "lp", "lp", by_position=True)],
            ["constant: 5 -> 0", "entry a x: 1 -> 0", "entry b x: 0 -> 1"],
        )

    def test_more_rows_and_columns_by_position(self):
        first = mpslp.Model(rows=[mpslp.Row("a", 1)], columns=[mpslp.Column("x", entries={"a": 1})])
        rows = [mpslp.Row("p", 1), mpslp.Row("q", 2)]
        second = mpslp.Model(
            rows=rows, columns=[mpslp.Column("v", entries={"p": 1, "q": 5}), mpslp.Column("w", entries={"p": 1})]
        )
        self.assertEqual(
            list(mpslp.diff(first, second, by_position=True)),
            [RowOnly("second", second.rows["q"]), ColumnOnly("second", second.columns["w"])],
        )
        self.assertEqual(
            list(mpslp.diff(second, first, by_position=True)),
            [RowOnly("first", second.rows["q"]), ColumnOnly("first", second.columns["w"])],
        )


def order_of_declarations(text, form):
    """The names of the rows and columns in the order in which tests/shared/independent_reader.py has them."""
    if form == "mps":
        reader = independent_reader.MpsReader()
        for _, line in independent_reader.lines_of(text):
            reader.line(line)
            if reader.ended():
                break
        declared = reader.all_declared()
    else:
        reader = independent_reader.LpReader(independent_reader.lp_tokens(text)[0])
        reader.file()
        declared = reader.declared
    return [name for name in declared.rows if name != independent_reader.read(text, form).objective], list(
        declared.columns
    )


def renamed_by_position(model):
    """A model of tests/shared/models.py with the names that glpsol gives to what its canonical MPS text has."""
    rows = {name: f"R{number:07}" for number, name in enumerate(sorted(model.rows))}
    plain = [name for name in sorted(model.columns) if model.columns[name].kind != "integer"]
    columns = plain + [name for name in sorted(model.columns) if name not in plain]
    renamed = {**rows, model.objective: "R-objective"}
    return models.Model(
        model.maximise,
        "R-objective",
        model.constant,
        {rows[name]: row for name, row in model.rows.items()},
        {
            f"C{number:07}": models.Column(
                column.kind, column.lower, column.upper, {renamed[row]: value for row, value in column.values.items()}
            )
            for number, column in enumerate(model.columns[name] for name in columns)
        },
    )


class Asserted(unittest.TestCase):
    def test_the_same_models(self):
        self.assertIsNone(mpslp.assert_same_model(EXAMPLES / "small.mps", EXAMPLES / "small.lp"))
        self.assertIsNone(mpslp.assert_same_model(mpslp.load(EXAMPLES / "small.mps"), EXAMPLES / "small.lp", digits=1))

    def test_the_message_has_the_differences(self):
        other = mpslp.canonical(EXAMPLES / "small.mps").replace(b"1.5", b"1.25")
        with self.assertRaises(AssertionError) as caught:
            mpslp.assert_same_model(EXAMPLES / "small.mps", other, second_format="mps")
        self.assertEqual(
            str(caught.exception),
            f"{EXAMPLES / 'small.mps'} and the second are not the same model:\n  entry MYG Y: 1.5 -> 1.25",
        )

    def test_what_does_not_count(self):
        other = mpslp.canonical(EXAMPLES / "small.mps").replace(b"COST", b"R0000000").replace(b"1.5", b"1.5000000001")
        for options in ({}, {"digits": 9}, {"ignore_objective_name": True}, {"digits": 11, "by_position": True}):
            with self.subTest(options), self.assertRaises(AssertionError):
                mpslp.assert_same_model(EXAMPLES / "small.mps", other, second_format="mps", **options)
        mpslp.assert_same_model(
            EXAMPLES / "small.mps", other, second_format="mps", digits=9, ignore_objective_name=True
        )
        mpslp.assert_same_model(EXAMPLES / "small.mps", other, second_format="mps", digits=9, by_position=True)

    def test_a_long_message_is_cut(self):
        first, second = (
            mpslp.Model(columns=[mpslp.Column(f"x{number}", cost=cost) for number in range(500)]) for cost in (1, 2)
        )
        with self.assertRaises(AssertionError) as caught:
            mpslp.assert_same_model(first, second)
        lines = str(caught.exception).split("\n")
        self.assertEqual((len(lines), lines[-1]), (102, "  ..."))

    def test_a_file_that_is_rejected(self):
        with self.assertRaises(mpslp.ModelFileError):
            mpslp.assert_same_model(EXAMPLES / "small.mps", b"", second_format="mps")


class NumberText(unittest.TestCase):
    def test_the_text_is_that_of_canonical_texts(self):
        source = random.Random(24)
        for _ in range(2000):
            number = models.drawn_number(source)
            for zeros in (0, 3):
                decimal = (
                    Decimal(number.mantissa * 10**zeros).scaleb(number.exponent - zeros)
                    if abs(number.mantissa) < 10**24
                    else None
                )
                if decimal is not None:
                    self.assertEqual(number_text(decimal), number.text())
        self.assertEqual(
            [number_text(each) for each in (INFINITY, -INFINITY, Decimal("-0.0"), Decimal("0e9"))],
            ["inf", "-inf", "0", "0"],
        )


if __name__ == "__main__":
    unittest.main()
