"""Models as objects of Python: mappings that are made when they are looked at, parts that are frozen, and digests."""

import copy
import dataclasses
import gc
import hashlib
import pickle
import pickletools
import unittest
import weakref
from collections.abc import Mapping
from decimal import Decimal
from fractions import Fraction
from random import Random

import mpslp
from heap import bytes_in_use
from mpslp._models._numbers import EXACT, number_text
from mpslp._models._shown import shown
from repository import EXAMPLES, VECTORS, large_text, model_files
from test_load import entries, sample

INFINITY = Decimal("Infinity")


def models():
    """Each model of the examples and the vectors, with its path."""
    for path in model_files(EXAMPLES) + [VECTORS / entry.input for entry in entries() if entry.answer == "model"]:
        yield path, mpslp.load(path)


class Mappings(unittest.TestCase):
    def test_they_are_mappings(self):
        model = sample()
        for mapping in (model.rows, model.columns, model.columns["x"].entries, model.rows["both"].entries):
            self.assertIsInstance(mapping, Mapping)
            as_dict = dict(mapping)
            self.assertEqual(mapping, as_dict)
            self.assertEqual(list(mapping), sorted(as_dict))
            self.assertEqual(list(reversed(mapping)), sorted(as_dict, reverse=True))
            self.assertEqual(list(mapping.keys()), list(as_dict))
            self.assertEqual(list(mapping.values()), list(as_dict.values()))
            self.assertEqual(list(mapping.items()), list(as_dict.items()))
            for view, wanted in (
                (mapping.keys(), as_dict.keys()),
                (mapping.values(), as_dict.values()),
                (mapping.items(), as_dict.items()),
            ):
                self.assertEqual(list(reversed(view)), list(reversed(wanted)))
            self.assertEqual(len(mapping), len(as_dict))
            self.assertEqual(repr(mapping), repr(as_dict))
            for name, value in as_dict.items():
                self.assertEqual(mapping[name], value)
                self.assertIn(name, mapping)
                self.assertIn(value, mapping.values())
                self.assertIn((name, value), mapping.items())

    def test_they_are_only_read(self):
        model = sample()
        for mapping in (
            model.rows,
            model.columns,
            model.columns["x"].entries,
            model.rows["both"].entries,
            mpslp.Column("x", entries={"r": 1}).entries,
            mpslp.Row("r").entries,
        ):
            with self.assertRaises(TypeError):
                mapping["x"] = None
            with self.assertRaises(TypeError):
                del mapping["x"]
            for call in ("update", "pop", "clear", "setdefault", "popitem"):
                self.assertFalse(hasattr(mapping, call))

    def test_names_that_are_not_there(self):
        model = sample()
        for mapping in (model.rows, model.columns, model.columns["x"].entries, model.rows["both"].entries):
            for name in ("", "none", "bot", "both ", "xx", "\x00", "é", "\udcff", b"x", b"both", 0, None, ("x",)):
                with self.subTest(name):
                    self.assertNotIn(name, mapping)
                    self.assertIsNone(mapping.get(name))
                    with self.assertRaises(KeyError) as caught:
                        mapping[name]
                    self.assertEqual(caught.exception.args, (name,))

    def test_an_entry_that_is_0(self):
        model = sample()
        self.assertIn("even", model.rows)
        self.assertNotIn("even", model.columns["x"].entries)
        self.assertNotIn("x", model.rows["even"].entries)

    def test_entries_of_rows_are_those_of_columns(self):
        for path, model in models():
            wanted = {name: {} for name in model.rows}
            for column in model.columns.values():
                for row, value in column.entries.items():
                    wanted[row][column.name] = value
            for name, row in model.rows.items():
                with self.subTest(path.name, row=name):
                    self.assertEqual(list(row.entries.items()), list(wanted[name].items()))
                    self.assertEqual(list(row.entries), list(wanted[name]))
                    self.assertEqual(len(row.entries), len(wanted[name]))
                    for column in model.columns:
                        self.assertEqual(row.entries.get(column), wanted[name].get(column))

    def test_a_long_mapping_is_shown_in_part(self):
        model = mpslp.load(large_text(100), "mps")
        self.assertTrue(repr(model.columns).endswith(", ...}"))
        self.assertLess(len(repr(model.columns)), 10_000)
        self.assertEqual(repr(model), "<mpslp.Model: minimize cost, 26 rows, 100 columns, 100 entries>")

    def test_parts_outlive_their_model(self):
        row, column = sample().rows["both"], sample().columns["x"]
        gc.collect()
        self.assertEqual(row.entries, {"x": 1, "y": 1})
        self.assertEqual(list(column.entries), ["anything", "both", "least"])

    def test_a_model_is_its_arrays(self):
        """No more than the library's arrays stay in use: 64 bytes a row, 104 a column, 32 an element, and names."""
        text = large_text(20_000)
        mpslp.load(text, "mps")
        gc.collect()
        before = bytes_in_use()
        model = mpslp.load(text, "mps")
        grown = bytes_in_use() - before
        names = sum(map(len, model.rows)) + sum(map(len, model.columns)) + len(model.objective)
        arrays = 64 * len(model.rows) + 104 * len(model.columns) + 32 * 20_000 + names
        self.assertLess(grown, 1.3 * arrays + 10_000)
        del model
        gc.collect()
        self.assertLess(bytes_in_use() - before, 10_000)


class Shown(unittest.TestCase):
    """The lines of show, which the extension module makes, beside those of exact numbers of Python."""

    def lines_of(self, model):
        return "\n".join(shown(model)).split("\n")

    def test_limits_of_rows(self):
        random = Random(5)
        rows = []
        while len(rows) < 3000:
            limits = [
                Decimal(
                    (
                        random.getrandbits(1),
                        tuple(random.choices(range(10), k=random.choice((1, 2, 5, 17, 18)))),
                        random.randint(-18, 3),
                    )
                )
                for _ in "ab"
            ]
            limits = [random.choice((each, each, each, Decimal(random.choice((0, 1, 1000))))) for each in limits]
            try:
                row = mpslp.Row(f"r{len(rows):04}", min(limits), max(limits))
            except ValueError:  # their difference is no number of a model
                continue
            if row.lower.is_finite() and row.upper.is_finite():
                rows.append(row)
        lines = self.lines_of(mpslp.Model(rows=rows, columns=[mpslp.Column("x")]))[3:-1]
        for number, (row, line) in enumerate(zip(rows, lines, strict=True)):
            letter, side = ("E", row.lower) if row.lower == row.upper else ("R", row.upper)
            numbers = [number_text(each) for each in (row.lower, row.upper, side, EXACT.subtract(row.upper, row.lower))]
            self.assertEqual(line, "row {} {} {} {} {} rhs {} range {}".format(number, row.name, letter, *numbers))

    def test_numbers(self):
        """Each number of digits with each exponent near those at which the form of the text changes, and at the
        limits."""
        numbers = [
            Decimal((sign, tuple(range(1, 1 + digits)) if digits < 10 else (9,) * digits, exponent))
            for sign in (0, 1)
            for digits in (1, 2, 9, 18, 19, 20, 36)
            for exponent in (*range(-22, 9), -500, -499, 499, 500)
        ]
        columns = [
            mpslp.Column(f"x{number:04}", cost=value, entries={"r": value}) for number, value in enumerate(numbers)
        ]
        lines = self.lines_of(mpslp.Model(rows=[mpslp.Row("r")], columns=columns))[4:]
        wanted = [
            line
            for number, each in enumerate(columns)
            for line in (
                f"column {number} {each.name} continuous 0 inf objective {number_text(each.cost)}",
                f"entry {number} 0 {number_text(each.cost)}",
            )
        ]
        self.assertEqual(lines, wanted)

    def test_blocks(self):
        """Lines in order and without gaps where blocks end at rows, at columns, and within a long column."""
        rows = [mpslp.Row(f"row{number:05}{'_' * 200}", 1, 2) for number in range(2000)]
        long = {row.name: 1 for row in rows}
        model = mpslp.Model(
            rows=rows,
            columns=[mpslp.Column(f"c{number:04}", entries=long if number in (0, 7) else {}) for number in range(5000)],
        )
        self.assertGreater(len(list(shown(model))), 10)
        lines = self.lines_of(model)[3:]
        wanted = [f"row {number} {row.name} R 1 2 rhs 2 range 1" for number, row in enumerate(rows)]
        for number, column in enumerate(model.columns.values()):
            wanted.append(f"column {number} {column.name} continuous 0 inf objective 0")
            wanted.extend(f"entry {number} {row} 1" for row in range(len(column.entries)))
        self.assertEqual(lines, wanted)


class Replaced(unittest.TestCase):
    """A model with some parts replaced is the one that is made of all parts anew."""

    def same_as_anew(self, model, sense=None, objective=None, constant=None, rows=(), columns=()):
        before, digest = repr(model), mpslp.dumps(model, "mps")
        found = model.replace(sense=sense, objective=objective, constant=constant, rows=rows, columns=columns)
        wanted = mpslp.Model(
            model.sense if sense is None else sense,
            model.objective if objective is None else objective,
            model.constant if constant is None else constant,
            dict(model.rows) | {row.name: row for row in rows},
            dict(model.columns) | {column.name: column for column in columns},
        )
        self.assertEqual(found, wanted)
        self.assertEqual(mpslp.dumps(found, "mps"), mpslp.dumps(wanted, "mps"))
        self.assertEqual(
            {name: dict(row.entries) for name, row in found.rows.items()},
            {name: dict(row.entries) for name, row in wanted.rows.items()},
        )
        self.assertEqual((repr(model), mpslp.dumps(model, "mps")), (before, digest))

    def test_nothing(self):
        for path, model in models():
            with self.subTest(path.name):
                self.same_as_anew(model)

    def test_each_part(self):
        """One part at a time, and all at once, in the first, the last and other places."""
        for path, model in models():
            with self.subTest(path.name):
                rows = [dataclasses.replace(row, lower=-7, upper=Decimal("99.5")) for row in model.rows.values()]
                columns = [
                    dataclasses.replace(column, kind="integer", lower=-1, upper=3, cost=Decimal("0.25"))
                    for column in model.columns.values()
                ]
                emptied = [dataclasses.replace(column, entries={}) for column in columns]
                filled = [dataclasses.replace(column, entries={row: 2 for row in model.rows}) for column in columns]
                for row in rows[:5] + rows[-1:]:
                    self.same_as_anew(model, rows=[row])
                for some in (columns, emptied, filled):
                    for column in some[:5] + some[-1:]:
                        self.same_as_anew(model, columns=[column])
                    self.same_as_anew(model, "maximize", "another!", -1, rows, some[::-1])
                self.same_as_anew(model, rows=rows[::2], columns=emptied[1::3] + filled[2::3])

    def test_new_parts(self):
        for path, model in models():
            with self.subTest(path.name):
                rows = [mpslp.Row(name, 1, 2) for name in ("~~new", "!new")]
                columns = [
                    mpslp.Column(name, entries={"~~new": 1, "!new": Fraction(1, 8)}) for name in ("~~column", "!column")
                ]
                old = next(iter(model.columns.values()))
                self.same_as_anew(model, rows=rows)
                self.same_as_anew(model, columns=[mpslp.Column("~~empty")])
                self.same_as_anew(model, rows=rows, columns=columns)
                self.same_as_anew(
                    model, rows=rows, columns=[columns[0], dataclasses.replace(old, entries={**old.entries, "!new": 3})]
                )

    def test_mappings(self):
        model = sample()
        column = dataclasses.replace(model.columns["x"], upper=2.5)
        self.assertEqual(model.replace(columns={"x": column}), model.replace(columns=[column]))
        self.assertEqual(model.replace(columns={"x": column}).columns["x"], column)
        self.assertEqual(
            model.replace(rows={"both": mpslp.Row("both", 1)}).rows["both"].entries, model.rows["both"].entries
        )

    def test_what_is_no_model(self):
        model = sample()
        for message, changes in {
            "the sense 'up' is neither 'minimize' nor 'maximize'": {"sense": "up"},
            "row 'both' has the name of the objective": {"objective": "both"},
            f"row {model.objective!r} has the name of the objective": {"rows": [mpslp.Row(model.objective)]},
            "the objective: constant: inf is not finite": {"constant": float("inf")},
            "the key 'x' has the column 'y': the key of a column is its name": {"columns": {"x": mpslp.Column("y")}},
            "row 'both' is there twice": {"rows": [mpslp.Row("both"), mpslp.Row("both")]},
            "column 'x' has an entry in row 'none', which does not exist": {
                "columns": [mpslp.Column("x", entries={"none": 1})]
            },
            "column 'new' has an entry in row 'none', which does not exist": {
                "columns": [mpslp.Column("new", entries={"none": 1})]
            },
        }.items():
            with self.subTest(message), self.assertRaises(ValueError) as caught:
                model.replace(**changes)
            self.assertEqual(str(caught.exception), message)
        for changes in (
            {"rows": [mpslp.Column("x")]},
            {"columns": [("x", 1)]},
            {"columns": 7},
            {"objective": 7},
            {"constant": "1"},
        ):
            with self.subTest(changes), self.assertRaises(TypeError):
                model.replace(**changes)

    def test_an_objective_and_a_row_change_names(self):
        """The name that the objective had is free for a row."""
        model = sample()
        changed = model.replace(objective="goal", rows=[mpslp.Row(model.objective, 0, 1)])
        self.assertEqual((changed.objective, changed.rows[model.objective].upper), ("goal", 1))

    def test_it_outlives_the_model_it_is_made_of(self):
        model = mpslp.load(large_text(20_000), "mps")
        name = next(iter(model.columns))
        changed = model.replace(columns=[dataclasses.replace(model.columns[name], upper=5)])
        del model
        gc.collect()
        self.assertEqual(changed.columns[name].upper, 5)
        self.assertEqual(sum(len(column.entries) for column in changed.columns.values()), 20_000)


class Parts(unittest.TestCase):
    def test_frozen_in_full(self):
        model = sample()
        for part in (model, model.rows["both"], model.columns["x"], mpslp.Row("r"), mpslp.Column("x")):
            for each in dataclasses.fields(part):
                with self.assertRaises(dataclasses.FrozenInstanceError):
                    setattr(part, each.name, getattr(part, each.name))
                with self.assertRaises(dataclasses.FrozenInstanceError):
                    delattr(part, each.name)
            with self.assertRaises((dataclasses.FrozenInstanceError, AttributeError, TypeError)):
                part.other = 1
            self.assertFalse(hasattr(part, "__dict__"))
        with self.assertRaises(AttributeError):
            model.digest = ""

    def test_parts_that_are_made_again(self):
        """Like a tuple, a part that is made stays as it is."""
        for path in (None, EXAMPLES / "small.lp"):
            model = (
                mpslp.Model(rows=[mpslp.Row("r", 1)], columns=[mpslp.Column("x", entries={"r": 2})])
                if path is None
                else mpslp.load(path)
            )
            text, digest = mpslp.dumps(model, "mps"), model.digest
            model.__init__("maximize", columns=[mpslp.Column("z")])
            self.assertEqual((mpslp.dumps(model, "mps"), model.digest, hash(model)), (text, digest, hash(digest)))
            for part in (*model.rows.values(), *model.columns.values()):
                shown = repr(part), dict(part.entries)
                part.__init__("another")
                self.assertEqual((repr(part), dict(part.entries)), shown)

    def test_hashes(self):
        model, other = sample(), sample()
        self.assertIsNot(model, other)
        self.assertEqual(len({model, other}), 1)
        self.assertEqual(
            len({mpslp.load(path) for path in model_files(EXAMPLES)}),
            len({path.name.split(".")[0] for path in model_files(EXAMPLES)}),
        )
        for part, same in (
            (model.rows["both"], other.rows["both"]),
            (model.columns["x"], other.columns["x"]),
            (model.columns["x"].entries, other.columns["x"].entries),
            (model.rows, other.rows),
        ):
            self.assertEqual((part, hash(part)), (same, hash(same)))

    def test_made_and_loaded_parts_are_one(self):
        model = sample()
        row = mpslp.Row("both", -4, 40)
        column = mpslp.Column("s", "semi-continuous", 0, 9, 0, {"even": Fraction(-1, 2)})
        self.assertEqual({row, column}, {model.rows["both"], model.columns["s"]})

    def test_digests(self):
        for path, model in models():
            with self.subTest(path.name):
                self.assertEqual(model.digest, hashlib.sha256(mpslp.canonical(path, to_format="mps")).hexdigest())

    def test_weak_references(self):
        model = sample()
        for part in (model, model.rows, model.rows["both"], model.columns["x"], model.columns["x"].entries):
            reference = weakref.ref(part)
            self.assertIs(reference(), part)
        reference = weakref.ref(model)
        del part, model
        gc.collect()
        self.assertIsNone(reference())

    def test_pickles_have_public_names(self):
        model = sample()
        for part in (
            model,
            model.rows["both"],
            model.columns["x"],
            model.columns["x"].entries,
            mpslp.Row("r"),
            mpslp.Column("x"),
        ):
            for protocol in range(2, pickle.HIGHEST_PROTOCOL + 1):
                text = pickle.dumps(part, protocol)
                copied = pickle.loads(text)
                self.assertEqual(copied, part)
                words = [str(argument) for code, argument, _ in pickletools.genops(text) if argument is not None]
                self.assertFalse([word for word in words if "mpslp._" in word or "_mpslp" in word])
        self.assertEqual(pickle.loads(pickle.dumps(model.rows["both"])).entries, model.rows["both"].entries)
        self.assertIs(type(pickle.loads(pickle.dumps(model))), mpslp.Model)

    def test_a_copy_is_the_part_itself(self):
        model = sample()
        for part in (model, model.rows, model.rows["both"], model.columns["x"], model.columns["x"].entries):
            self.assertIs(copy.copy(part), part)
            self.assertIs(copy.deepcopy(part), part)

    def test_models_that_differ_in_one_thing(self):
        texts = [
            b"min o: x + y\nst\nr: x + y <= 2\nend\n",
            b"max o: x + y\nst\nr: x + y <= 2\nend\n",
            b"min p: x + y\nst\nr: x + y <= 2\nend\n",
            b"min o: x + y + 1\nst\nr: x + y <= 2\nend\n",
            b"min o: x + y\nst\nr: x + y >= 2\nend\n",
            b"min o: x + y\nst\ns: x + y <= 2\nend\n",
            b"min o: x + y\nst\nr: x + 2 y <= 2\nend\n",
            b"min o: x + y\nst\nr: x <= 2\nend\n",
            b"min o: x + 2 y\nst\nr: x + y <= 2\nend\n",
            b"min o: x + y\nst\nr: x + y <= 2\nbounds\nx <= 1\nend\n",
            b"min o: x + y\nst\nr: x + y <= 2\nbounds\nx >= 1\nend\n",
            b"min o: x + y\nst\nr: x + y <= 2\ngenerals\nx\nend\n",
            b"min o: x + z\nst\nr: x + z <= 2\nend\n",
            b"min o: x + y\nst\nr: x + y <= 2\nt: x <= 3\nend\n",
            b"min o: x + y + z\nst\nr: x + y <= 2\nend\n",
        ]
        loaded = [mpslp.load(text, "lp") for text in texts]
        for number, model in enumerate(loaded):
            self.assertEqual([model == other for other in loaded], [number == other for other in range(len(loaded))])
        self.assertNotEqual(loaded[0], "a model")


if __name__ == "__main__":
    unittest.main()
