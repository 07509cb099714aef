"""Models that are the same but for names: colours, digests, maps, differences in words, and the commands."""

import hashlib
import json
import os
import random
import subprocess
import sys
import time
import unittest
from dataclasses import replace
from decimal import Decimal
from importlib.util import find_spec
from unittest import mock

import mpslp
from mpslp import _mpslp
from mpslp._matching import _by_igraph, _by_refinement, _call, _colours, _components, _search
from mpslp._matching._colours import ROUNDS_OF_DIGEST, Graph, mixed
from drawn_models import drawn
from repository import EXAMPLES, VECTORS, model_files
from symmetric_models import model, of_graph, ring_of_rows, rook, shrikhande, shuffled, symmetric, two_hubs
from test_tools import Directory

HAS_IGRAPH = find_spec("igraph") is not None
MASK = 2**64 - 1


def all_models():
    """The models of the examples and the vectors, once each."""
    found = {}
    for path in [*model_files(EXAMPLES), *model_files(VECTORS)]:
        try:
            loaded = mpslp.load(path)
        except mpslp.ModelFileError:
            continue
        found[loaded.digest] = loaded
    return list(found.values())


# ---- the definition of the digest once more, from python/README.md


def add(colour, word):
    found = (colour ^ (word & MASK)) + 0x9E3779B97F4A7C15 & MASK
    found = (found ^ found >> 30) * 0xBF58476D1CE4E5B9 & MASK
    found = (found ^ found >> 27) * 0x94D049BB133111EB & MASK
    return found ^ found >> 31


def add_number(colour, number):
    """Adds a number: its digits without zeros at the end, in two words, its exponent, and 1 or -1 if it is infinite."""
    infinity = (-1 if number < 0 else 1) if number.is_infinite() else 0
    sign, digits, exponent = (0, (0,), 0) if infinity or not number else number.as_tuple()
    mantissa = int("".join(map(str, digits))) * (-1 if sign else 1)
    while mantissa and mantissa % 10 == 0:
        mantissa, exponent = mantissa // 10, exponent + 1
    for word in (mantissa, mantissa >> 64, exponent, infinity):
        colour = add(colour, word)
    return colour


def digest_in_words(given):
    kinds = {"continuous": 0, "integer": 1, "semi-continuous": 2}
    rows = {name: add_number(add_number(add(0, 1), row.lower), row.upper) for name, row in given.rows.items()}
    columns = {}
    for name, column in given.columns.items():
        colour = add(add(0, 2), kinds[column.kind])
        for number in (column.lower, column.upper, column.cost):
            colour = add_number(colour, number)
        columns[name] = colour
    values = {
        name: {row: add_number(add(0, 3), value) for row, value in column.entries.items()}
        for name, column in given.columns.items()
    }
    for _ in range(16):
        row_sums, column_sums = dict.fromkeys(rows, 0), dict.fromkeys(columns, 0)
        for column, entries in values.items():
            for row, value in entries.items():
                row_sums[row] += add(columns[column], value)
                column_sums[column] += add(rows[row], value)
        rows = {row: add(colour, row_sums[row]) for row, colour in rows.items()}
        columns = {column: add(colour, column_sums[column]) for column, colour in columns.items()}
    whole = add_number(add(add(0, 4), {"minimize": 0, "maximize": 1}[given.sense]), given.constant)
    words = [whole, len(rows), *sorted(rows.values()), *sorted(columns.values())]
    return hashlib.sha256(b"".join(word.to_bytes(8, "little") for word in words)).hexdigest()


class Checks:
    """What has to be so for a model and one with other names. Wrong versions of the code are given to these checks,
    too."""

    def check_digest(self, given):
        self.assertEqual(mpslp.digest_any_names(given), digest_in_words(given))

    def check_map(self, given, other):
        """That the map between two models that are the same but for names is found, and is right."""
        found = mpslp.same_but_for_names(given, other)
        self.assertIsNotNone(found)
        self.assertEqual(found.objective, {given.objective: other.objective})
        self.assertEqual((list(found.rows), list(found.columns)), (list(given.rows), list(given.columns)))
        for name, row in given.rows.items():
            self.assertEqual(
                (row.lower, row.upper), (other.rows[found.rows[name]].lower, other.rows[found.rows[name]].upper)
            )
        for name, column in given.columns.items():
            entries = {found.rows[row]: value for row, value in column.entries.items()}
            self.assertEqual(
                replace(column, name=found.columns[name], entries=entries), other.columns[found.columns[name]]
            )
        self.assertEqual(mpslp.renamed(given, found), other)
        self.assertEqual(mpslp.renamed(other, found.inverse), given)


class Colours(unittest.TestCase, Checks):
    def test_the_definition(self):
        for given in [*all_models(), *map(drawn, map(random.Random, range(200))), *map(symmetric, range(8))]:
            self.check_digest(given)
        self.assertEqual(ROUNDS_OF_DIGEST, 16)

    def test_what_it_is_for_ever(self):
        self.assertEqual(
            mpslp.digest_any_names(EXAMPLES / "small.lp"),
            "b5b8840fb26d67edc0d8d2b953bd12f580cd575f6860c6259f90f2f6ffbe1417",
        )
        self.assertEqual(
            mpslp.digest_any_names(b"min x\nend\n", "lp"), digest_in_words(mpslp.load(b"min x\nend\n", "lp"))
        )

    def test_it_does_not_depend_on_names_or_hashes_or_libraries(self):
        code = (
            "import sys; sys.modules['numpy'] = sys.modules['igraph'] = None; import mpslp; "
            "print(mpslp.digest_any_names(sys.argv[1]))"
        )
        path = str(EXAMPLES / "semi.mps")
        for seed in ("0", "1"):
            done = subprocess.run(
                [sys.executable, "-c", code, path],
                capture_output=True,
                text=True,
                check=True,
                env={**os.environ, "PYTHONHASHSEED": seed},
            )
            self.assertEqual(done.stdout.strip(), mpslp.digest_any_names(path))
        for given in [*all_models(), *map(symmetric, range(8))]:
            self.assertEqual(mpslp.digest_any_names(shuffled(given)), mpslp.digest_any_names(given))

    def test_mixed_is_that_of_the_extension_module(self):
        draw = random.Random(5)
        for _ in range(100):
            colour, word = draw.getrandbits(64), draw.getrandbits(64)
            self.assertEqual(mixed(colour, word), add(colour, word))

    def test_what_is_no_graph(self):
        word, index = bytes(8), bytes(4)
        good = (word * 2, b"", b"", word, word, 1)
        _mpslp.refined(*good)
        for wrong in (
            (word, b"", b"", word, word, 1),
            (word + b"\1" + bytes(7), b"", b"", word, word, 1),
            (word * 2, b"", b"", b"1", word, 1),
            (word + b"\1" + bytes(7), b"\1\0\0\0", word, word, word, 1),
            (word * 2, index, b"", word, word, 1),
            (b"\1" + bytes(15), index, word, word, word, 1),
            (word * 2, b"1", b"1", word, word, 1),
        ):
            with self.subTest(wrong=wrong), self.assertRaises(ValueError):
                _mpslp.refined(*wrong)


class WithoutIgraph:
    """Tests of a class, without igraph."""

    def setUp(self):
        super().setUp()
        patched = mock.patch.object(_by_igraph, "is_installed", lambda: False)
        patched.start()
        self.addCleanup(patched.stop)


class Maps(unittest.TestCase, Checks):
    COUNT = 40

    def test_files(self):
        for number, given in enumerate(all_models()):
            with self.subTest(given=given):
                self.check_map(given, shuffled(given, number))
                self.check_map(given, given)

    def test_random_models(self):
        for number in range(300):
            given = drawn(random.Random(number))
            self.check_map(given, shuffled(given, number))

    def test_models_with_symmetries(self):
        for number in range(self.COUNT):
            with self.subTest(number=number):
                given = symmetric(number)
                self.check_map(given, shuffled(given, number))

    def test_rings(self):
        for sizes in ([7], [3, 5], [4, 4, 4], [2, 9]):
            given = ring_of_rows(sizes)
            self.check_map(given, shuffled(given))

    def test_other_rings_are_not_the_same(self):
        """All colours are the same."""
        self.assertIsNone(mpslp.same_but_for_names(ring_of_rows([6]), ring_of_rows([3, 3])))
        self.assertIsNone(mpslp.same_but_for_names(ring_of_rows([4, 6]), ring_of_rows([5, 5])))

    def test_a_search_that_gives_up(self):
        """The colours of both are the same, and there is no map: that is not said, since only the search finds it."""
        one, other = of_graph(rook), of_graph(shrikhande)
        self.assertEqual(mpslp.digest_any_names(one), mpslp.digest_any_names(other))
        with self.assertRaisesRegex(mpslp.UndecidedError, "all colours are the same"):
            mpslp.same_but_for_names(one, other)
        self.check_map(one, shuffled(one))

    def test_numbers_that_are_one_double(self):
        one = model(
            [("r", 0, 1)],
            [
                ("x", "continuous", 1, Decimal("0.1"), {"r": Decimal("0.1")}),
                ("y", "continuous", 1, Decimal("0.10000000000000000000001"), {"r": 1}),
            ],
        )
        self.check_map(one, shuffled(one))
        x = one.columns["x"]
        self.assertIsNone(
            mpslp.same_but_for_names(
                one, shuffled(one.replace(columns=[replace(x, cost=Decimal("0.10000000000000000000001"))]))
            )
        )

    def test_near_misses(self):
        """A coefficient, a limit, a bound, a kind or a cost is another one: never the same, and hardly ever
        undecided."""
        undecided = 0
        for number in range(200):
            draw = random.Random(number)
            given = symmetric(number) if number % 2 else drawn(draw)
            other = near_miss(given, draw)
            if other == given:
                continue
            try:
                self.assertIsNone(mpslp.same_but_for_names(given, shuffled(other, number)))
            except mpslp.UndecidedError:
                undecided += 1
        self.assertEqual(undecided, 0)

    def test_twins_are_many(self):
        """Neither equal columns nor equal rows nor equal blocks take time that grows with their square."""
        count = 20000
        columns = [(f"x{i}", "integer", 1, 1, {"r": 1, "s": 1}) for i in range(count)] + [
            (f"y{i}", "integer", 1, 1, {f"t{i}": 1}) for i in range(count)
        ]
        given = model([("r", 0, 5), ("s", 0, 5), *((f"t{i}", 0, 1) for i in range(count))], columns)
        start = time.process_time()
        self.assertIsNotNone(mpslp.same_but_for_names(given, shuffled(given)))
        self.assertLess(time.process_time() - start, 20)


class MapsWithoutIgraph(WithoutIgraph, Maps):
    COUNT = 12

    def test_work_has_an_end(self):
        given = ring_of_rows([50])
        with mock.patch.object(_by_refinement, "MOST_SECONDS", -1), self.assertRaisesRegex(
            mpslp.UndecidedError, "without igraph: install"
        ):
            mpslp.same_but_for_names(given, shuffled(given))


def near_miss(given, draw):
    """The model with one number, or one kind, changed."""
    column = draw.choice(list(given.columns.values()))
    what = draw.choice(("entry", "limit", "cost", "bound", "kind"))
    if what == "entry" and column.entries:
        row = draw.choice(list(column.entries))
        return given.replace(columns=[replace(column, entries={**column.entries, row: column.entries[row] + 1 or 7})])
    if what == "limit" and given.rows:
        row = draw.choice(list(given.rows.values()))
        return given.replace(
            rows=[mpslp.Row(row.name, row.lower, Decimal("Infinity"))]
            if row.upper.is_finite() and row.lower.is_finite()
            else []
        )
    if what == "bound" and column.upper.is_finite():
        return given.replace(columns=[replace(column, upper=column.upper + 1)])
    if what == "kind" and column.kind != "semi-continuous":
        return given.replace(columns=[replace(column, kind="integer" if column.kind == "continuous" else "continuous")])
    return given.replace(columns=[replace(column, cost=column.cost + 1)])


@unittest.skipUnless(HAS_IGRAPH, "igraph is missing")
class Igraph(unittest.TestCase, Checks):
    def test_it_is_used_where_colours_are_not_enough(self):
        for number in range(4):
            given = symmetric(number)
            with mock.patch.object(_by_refinement, "paired", side_effect=AssertionError):
                self.check_map(given, shuffled(given))
        with mock.patch.object(_by_igraph.Igraph, "paired", side_effect=AssertionError), self.assertRaises(
            AssertionError
        ):
            mpslp.same_but_for_names(symmetric(0), shuffled(symmetric(0)))

    def test_a_process_that_takes_too_long(self):
        """Then refinement is tried, as without igraph."""
        given = two_hubs(3000)
        with mock.patch.object(_by_igraph, "MOST_SECONDS", 1), mock.patch.object(_by_refinement, "MOST_SECONDS", -1):
            with self.assertRaisesRegex(mpslp.UndecidedError, "igraph takes more than 1 seconds"):
                mpslp.same_but_for_names(given, shuffled(given))

    def test_a_process_that_fails(self):
        given = symmetric(0)
        with mock.patch.object(_by_igraph._canonical_order, "__file__", os.devnull):
            self.check_map(given, shuffled(given))


class WrongVersions(unittest.TestCase, Checks):
    """Each is found by the checks above."""

    MODEL = symmetric(3)

    def assert_found(self, check, *patches):
        for patched in patches:
            patched.start()
            self.addCleanup(patched.stop)
        with self.assertRaises((AssertionError, mpslp.UndecidedError)):
            check()

    def test_colours_that_depend_on_the_order(self):
        refined = Graph.refined
        wrong = mock.patch.object(
            Graph,
            "refined",
            lambda graph, rounds: refined(graph._replace(row_colours=graph.row_colours[:-8] + bytes(8)), rounds),
        )
        self.assert_found(lambda: self.check_digest(self.MODEL), wrong)

    def test_colours_without_coefficients(self):
        refined = Graph.refined
        wrong = mock.patch.object(
            Graph, "refined", lambda graph, rounds: refined(graph._replace(values=bytes(len(graph.values))), rounds)
        )
        self.assert_found(lambda: self.check_digest(self.MODEL), wrong)

    def test_colours_of_fewer_rounds(self):
        self.assert_found(lambda: self.check_digest(self.MODEL), mock.patch.object(_colours, "ROUNDS_OF_DIGEST", 15))

    def test_a_wrong_map_is_not_returned(self):
        """Two rows change places, or nothing is paired as it was found: the models are compared under the map."""
        pairs_of = _search.pairs_of

        def turned(one, other):
            pairs = list(pairs_of(one, other))
            pairs[0], pairs[1] = pairs[1], pairs[0]
            return pairs

        given = drawn(random.Random(1))
        while len(given.rows) < 2 or not any(column.entries for column in given.columns.values()):
            given = symmetric(1)
        with mock.patch.object(_call, "pairs_of", turned), self.assertRaisesRegex(
            mpslp.UndecidedError, "does not make the models equal"
        ):
            mpslp.same_but_for_names(given, shuffled(given))

    def test_a_wrong_map_that_is_not_compared(self):
        pairs_of = _search.pairs_of
        unchecked = mock.patch.object(_call, "_checked", _call.name_map)
        wrong = mock.patch.object(_call, "pairs_of", lambda one, other: list(pairs_of(one, other))[::-1])
        given = model([], [("x", "continuous", 1, 1, {}), ("y", "continuous", 2, 1, {})])
        self.assert_found(lambda: self.check_map(given, shuffled(given)), unchecked, wrong)

    def test_components_in_no_order(self):
        wrong = mock.patch.object(_components.Component, "in_order", lambda component, order: component)
        self.assert_found(lambda: self.check_map(symmetric(0), shuffled(symmetric(0), 5)), wrong)


class Words(unittest.TestCase):
    """The first difference, in words."""

    ROWS = [("a", 0, 4), ("b", 0, 4), ("c", 1, 1)]
    COLUMNS = [
        ("x", "integer", 1, 3, {"a": 1, "b": 1, "c": 1}),
        ("y", "integer", 1, 3, {"a": 1, "b": 1}),
        ("z", "continuous", 1, 3, {"c": 2}),
    ]

    def said(self, rows=ROWS, columns=COLUMNS, **parts):
        given, other = model(self.ROWS, self.COLUMNS), shuffled(model(rows, columns, **parts))
        self.assertIsNone(mpslp.same_but_for_names(given, other))
        return _call.match(given._arrays, other._arrays).text

    def changed(self, at, **values):
        names = ("name", "kind", "upper", "cost", "entries")
        return [
            tuple(values.get(name, value) if number == at else value for name, value in zip(names, column))
            for number, column in enumerate(self.COLUMNS)
        ]

    def test_words(self):
        self.assertEqual(self.said(sense="maximize"), "minimize, maximize in the other")
        self.assertEqual(self.said(constant=Decimal("2.50")), "the constant 0, 2.5 in the other")
        self.assertEqual(self.said(rows=[*self.ROWS, ("d", 0, 4)]), "3 rows, 4 in the other")
        self.assertEqual(self.said(columns=[*self.COLUMNS, ("d", "integer", 1, 0, {})]), "3 columns, 4 in the other")
        self.assertEqual(self.said(rows=[*self.ROWS[:2], ("c", 0, 4)]), "2 rows with limits 0 and 4, 3 in the other")
        self.assertEqual(self.said(rows=[*self.ROWS[:2], ("c", 1)]), "1 row with limits 1 and 1, 0 in the other")
        self.assertEqual(
            self.said(columns=self.changed(2, kind="integer")),
            "1 continuous column with bounds 0 and 1, 0 in the other",
        )
        self.assertEqual(
            self.said(columns=self.changed(1, upper=2)), "2 integer columns with bounds 0 and 1, 1 in the other"
        )
        self.assertEqual(
            self.said(columns=self.changed(1, cost=4)),
            "2 integer columns with bounds 0 and 1 and cost 3, 1 in the other",
        )
        self.assertEqual(self.said(columns=self.changed(2, entries={"c": 3})), "1 coefficient 2, 0 in the other")
        self.assertEqual(self.said(columns=self.changed(1, entries={"a": 1})), "5 coefficients 1, 4 in the other")
        self.assertEqual(
            self.said(columns=self.changed(1, entries={"a": 1, "c": 1})),
            "0 rows with limits 0 and 4 and 1 coefficient, 1 in the other",
        )
        self.assertEqual(
            self.said(
                columns=[*self.changed(0, entries={"a": 1, "b": 1, "c": 2})[:2], ("z", "continuous", 1, 3, {"c": 1})]
            ),
            "1 of 3 rows and 2 of 3 columns have no partner in the other: their coefficients are with other "
            "columns and rows",
        )


class Renaming(unittest.TestCase):
    def setUp(self):
        self.model = model(
            [("a", 0, 4), ("b", 0, 4)], [("x", "integer", 1, 3, {"a": 1, "b": 2}), ("a", "integer", 1, 3, {"a": 1})]
        )

    def test_forms_of_maps(self):
        parts = {"objective": {"obj": "cost"}, "rows": {"a": "c"}, "columns": {"a": "y"}}
        found = mpslp.renamed(self.model, parts)
        self.assertEqual((found.objective, list(found.rows), list(found.columns)), ("cost", ["b", "c"], ["x", "y"]))
        self.assertEqual(found.columns["y"].entries, {"c": 1})
        self.assertEqual(mpslp.renamed(self.model, mpslp.NameMap(**parts)), found)
        self.assertEqual(mpslp.renamed(found, mpslp.NameMap(**parts).inverse), self.model)
        self.assertEqual(list(mpslp.renamed(self.model, {"a": "n"}).rows), ["b", "n"])
        self.assertEqual(mpslp.renamed(self.model, {}), self.model)
        self.assertEqual(mpslp.renamed(self.model, json.loads(mpslp.NameMap(**parts).json())), found)

    def test_names_that_make_no_model(self):
        for names, words in (
            ({"rows": {"a": "b"}}, "two rows would be b"),
            ({"columns": {"x": "n", "a": "n"}}, "columns: two names would be n"),
            ({"columns": {"x": "a"}}, "two columns would be a"),
            ({"rows": {"a": "obj"}}, "would have the name of the objective"),
            ({"rows": {"a": "a b"}}, "not legal"),
            ({"columns": {"x": ""}}, "not legal"),
            ({"rows": {"a": 7}}, "names are str"),
            ({"lines": {"a": "b"}}, "has the keys"),
            ({"rows": {"a": "b"}, "x": "y"}, "has the keys"),
        ):
            with self.subTest(names=names), self.assertRaisesRegex(ValueError, words):
                mpslp.renamed(self.model, names)
        for given, names in ((self.model, 7), (b"", {})):
            with self.assertRaises(TypeError):
                mpslp.renamed(given, names)

    def test_words(self):
        found = mpslp.NameMap({"obj": "cost"}, {"a": "r1", "b": "r2"}, {"a": "c1", "x": "r2"})
        self.assertEqual(
            (found.of_word("b"), found.of_word("x"), found.of_word("none"), found.of_word("obj")),
            ("r2", "r2", "none", "cost"),
        )
        with self.assertRaisesRegex(
            ValueError, "a is the name of several parts of the model, whose other names are r1 .rows. and c1 .columns."
        ):
            found.of_word("a")


class Commands(Directory):
    def setUp(self):
        super().setUp()
        self.model = symmetric(1)
        self.other = shuffled(self.model)
        mpslp.dump(self.model, "a.mps")
        mpslp.dump(self.other, "b.lp")
        first = next(iter(self.other.columns.values()))
        mpslp.dump(self.other.replace(columns=[replace(first, upper=5)]), "c.mps")

    def test_same(self):
        done = self.run_tools("same", "--any-names", "a.mps", "b.lp")
        self.assertEqual((done.stdout, done.stderr, done.returncode), (b"same but for names\n", b"", 0))
        self.assertEqual(self.run_tools("same", "--any-names", "a.mps", "a.mps").stdout, b"same\n")
        done = self.run_tools("same", "--any-names", "a.mps", "c.mps")
        self.assertEqual(done.stdout.splitlines()[0], b"not the same")
        self.assertRegex(done.stdout.splitlines()[1], rb"^\d+ integer columns with bounds 0 and 1, \d+ in the other$")
        self.assertEqual(done.returncode, 1)
        self.assertEqual(self.run_tools("same", "-q", "--any-names", "a.mps", "c.mps").stdout, b"")
        self.assertEqual(self.run_tools("same", "a.mps", "b.lp").stdout, b"not the same\n")

    def test_json(self):
        found = json.loads(self.run_tools("same", "--any-names", "--json", "a.mps", "b.lp").stdout)
        self.assertEqual((found["verdict"], found["reason"]), ("same but for names", ""))
        found = json.loads(self.run_tools("same", "--any-names", "--json", "a.mps", "c.mps").stdout)
        self.assertEqual(found["verdict"], "not the same")
        self.assertIn("columns with bounds", found["reason"])
        found = json.loads(self.run_tools("diff", "--any-names", "--json", "a.mps", "c.mps").stdout)
        self.assertEqual(
            set(found["matched"]), {"rows_by_name", "columns_by_name", "rows_by_shape", "columns_by_shape"}
        )

    def test_not_decided(self):
        mpslp.dump(of_graph(rook), "rook.mps")
        mpslp.dump(of_graph(shrikhande), "other.mps")
        done = self.run_tools("same", "--any-names", "--map", "map.json", "rook.mps", "other.mps")
        self.assertEqual((done.stdout.splitlines()[0], done.returncode), (b"not decided", 6))
        self.assertFalse(os.path.exists("map.json"))
        self.assertEqual(
            json.loads(self.run_tools("same", "--any-names", "--json", "rook.mps", "other.mps").stdout)["verdict"],
            "not decided",
        )
        self.assertEqual(self.run_tools("diff", "--any-names", "rook.mps", "other.mps").returncode, 1)
        found = mpslp.survey("rook.mps", "other.mps")
        self.assertEqual(
            (found.groups_any_names, found.files[0].digest_any_names), ((), found.files[1].digest_any_names)
        )

    def test_a_map_and_back(self):
        self.assertEqual(self.run_tools("same", "--any-names", "--map", "map.json", "a.mps", "b.lp").returncode, 0)
        names = json.loads((self.folder / "map.json").read_bytes())
        self.assertEqual(list(names), ["objective", "rows", "columns"])
        self.assertEqual(mpslp.renamed(self.model, names), self.other)
        self.assertEqual(
            self.run_tools("canon", "--names-back", "--map", "map.json", "b.lp").stdout, mpslp.dumps(self.model, "mps")
        )
        row, column = next(iter(names["rows"])), next(iter(names["columns"]))
        solution = f"other 7\n{names['rows'][row]}\t1.5\n {names['columns'][column]}  2\n".encode()
        wanted = f"obj 7\n{row}\t1.5\n {column}  2\n".encode()
        self.file("solution.txt", solution)
        self.assertEqual(self.run_tools("canon", "--names-back", "--map", "map.json", "solution.txt").stdout, wanted)
        self.assertEqual(self.run_tools("adapt", "--names-back", "--map", "map.json", "solution.txt").stdout, wanted)

    def test_words_with_two_meanings(self):
        self.file("map.json", b'{"rows": {"a": "r1"}, "columns": {"b": "r1"}}')
        self.file("solution.txt", b"r1 7\n")
        for command in ("canon", "adapt"):
            done = self.run_tools(command, "--names-back", "--map", "map.json", "solution.txt")
            self.assertEqual((done.returncode, done.stdout), (2, b""))
            self.assertIn(b"r1 is the name of several parts of the model", done.stderr)
        self.file("wrong.json", b'{"rows": {"a": 7}}')
        self.assertEqual(self.run_tools("canon", "--names-back", "--map", "wrong.json", "solution.txt").returncode, 3)
        self.file(
            "twice.json",
            json.dumps({"rows": {"new": next(iter(self.other.rows))}, "columns": {}})
            .replace("new", list(self.other.rows)[1])
            .encode(),
        )
        self.assertEqual(self.run_tools("canon", "--names-back", "--map", "twice.json", "b.lp").returncode, 2)

    def test_usage(self):
        for words in (
            ("same", "--map", "m", "a.mps", "b.lp"),
            ("same", "--any-names", "--map", "m", ".", "."),
            ("diff", "--any-names", "--by-position", "a.mps", "b.lp"),
        ):
            self.assertEqual(self.run_tools(*words).returncode, 3)

    def test_rejected_files(self):
        self.file("broken.lp", b"min x y\nend\n")
        for words in (("a.mps", "broken.lp"), ("broken.lp", "a.mps")):
            done = self.run_tools("same", "--any-names", *words)
            self.assertEqual((done.returncode, done.stdout), (2, b""))
            self.assertIn(b"broken.lp:1: BadToken", done.stderr)

    def test_directories(self):
        mpslp.dump(self.model, self.folder / (self.file("one/a.mps").parent / "a.mps"))
        mpslp.dump(self.other, self.folder / (self.file("two/a.mps").parent / "a.mps"))
        done = self.run_tools("same", "--any-names", "one", "two")
        self.assertEqual((done.stdout, done.returncode), (b"same but for names\n", 0))
        self.file("two/b.mps")
        self.assertEqual(self.run_tools("same", "--any-names", "one", "two").returncode, 1)

    def test_digest(self):
        lines = self.run_tools("digest", "--any-names", "a.mps", "b.lp", "c.mps").stdout.decode().splitlines()
        digests = [line.split()[0] for line in lines]
        self.assertEqual(
            (digests[0], digests[0] == digests[1], digests[1] == digests[2]),
            (mpslp.digest_any_names(self.model), True, False),
        )

    def test_survey(self):
        mpslp.dump(self.other, "d.mps.gz")
        self.file("e.lp", b"min x\nst\nx + 3 >= 5\nend\n")
        self.file("f.lp", b"min y\nst\nrow: y + 3 >= 5\nend\n")
        found = mpslp.survey(".")
        self.assertEqual(found.groups, (("./b.lp", "./d.mps.gz"),))
        self.assertEqual(found.groups_any_names, (("./a.mps", "./b.lp", "./d.mps.gz"), ("./e.lp", "./f.lp")))
        self.assertIn("models equal but for names:\n  ./a.mps ./b.lp ./d.mps.gz\n", f"{found}\n")
        self.assertEqual(json.loads(found.json())["groups_any_names"][1], ["./e.lp", "./f.lp"])
        self.assertIn(",group,group_any_names\n", found.csv())
        self.assertTrue(found.csv().splitlines()[1].endswith(",1"))
        with mock.patch.object(_call, "match", side_effect=_call.UndecidedError):
            self.assertEqual(mpslp.survey(".").groups_any_names, ())

    def test_diff(self):
        self.assertEqual(self.run_tools("diff", "--any-names", "a.mps", "b.lp").stdout, b"same but for names\n")
        self.assertEqual(mpslp.diff(self.model, self.other, any_names=True).verdict, "same but for names")
        self.assertEqual(self.run_tools("diff", "--any-names", "a.mps", "a.mps").stdout, b"same\n")


class Differences(unittest.TestCase):
    """Partners in models that differ."""

    ROWS = [("flour", 0, 40), ("sugar", 0, 20), ("work", 0, 8)]
    COLUMNS = [
        ("bread", "integer", 9, 3, {"flour": 2, "work": 1}),
        ("cake", "integer", 7, 5, {"flour": 1, "sugar": 2, "work": 2}),
        ("jam", "continuous", 5, 1, {"sugar": 3}),
    ]

    def setUp(self):
        self.model = model(self.ROWS, self.COLUMNS)

    def lines(self, other, **options):
        found = mpslp.diff(self.model, other, any_names=True, **options)
        return list(map(str, found)), found.matched and tuple(found.matched), found.verdict

    def test_one_number(self):
        for changed, line in (
            (replace(self.model.columns["cake"], upper=8), "column cake: upper 7 -> 8"),
            (replace(self.model.columns["jam"], kind="integer"), "column jam: kind continuous -> integer"),
            (
                replace(self.model.columns["cake"], entries={"flour": 1, "sugar": 2, "work": 3}),
                "entry work cake: 2 -> 3",
            ),
        ):
            with self.subTest(line=line):
                other = shuffled(self.model.replace(columns=[changed]), 4)
                self.assertEqual(self.lines(other), ([line], (0, 0, 3, 3), "not the same"))
        other = shuffled(self.model.replace(rows=[mpslp.Row("sugar", 0, 25)]), 4)
        self.assertEqual(self.lines(other), (["row sugar: upper 20 -> 25"], (0, 0, 3, 3), "not the same"))

    def test_names_come_first(self):
        other = mpslp.renamed(
            self.model.replace(columns=[replace(self.model.columns["cake"], cost=6)]), {"columns": {"cake": "pie"}}
        )
        self.assertEqual(self.lines(other), (["column cake: cost 5 -> 6"], (3, 2, 0, 1), "not the same"))

    def test_what_only_one_has(self):
        other = shuffled(
            self.model.replace(columns=[mpslp.Column("tart", "integer", upper=4, cost=2, entries={"sugar": 1})]), 4
        )
        lines, matched, _ = self.lines(other)
        self.assertEqual((len(lines), matched), (1, (0, 0, 3, 3)))
        self.assertRegex(lines[0], r"^\+ column C\d: integer, 0 to 4, cost 2, 1 entry$")
        found = mpslp.diff(other, self.model, any_names=True)
        self.assertRegex(str(found), r"^- column C\d: integer, 0 to 4, cost 2, 1 entry$")

    def test_what_has_several_partners_is_not_matched(self):
        one = model([("r", 0, 1)], [("x", "integer", 1, 1, {"r": 1}), ("y", "integer", 1, 1, {"r": 1})])
        other = model([("q", 0, 2)], [("v", "integer", 1, 1, {"q": 1}), ("w", "integer", 1, 1, {"q": 1})])
        found = mpslp.diff(one, other, any_names=True)
        self.assertEqual(tuple(found.matched), (0, 0, 1, 0))
        self.assertEqual(
            [str(each).split(":")[0] for each in found],
            ["row r", "- column x", "- column y", "+ column v", "+ column w"],
        )
        self.assertEqual(str(found.matched), "matched: 0 rows and 0 columns by name, 1 row and 0 columns by shape")

    def test_digits(self):
        other = shuffled(
            self.model.replace(columns=[replace(self.model.columns["cake"], cost=Decimal("5.0000001"))]), 4
        )
        self.assertEqual(self.lines(other, digits=6), ([], (0, 0, 3, 3), "close"))
        with self.assertRaises(ValueError):
            mpslp.diff(self.model, other, any_names=True, by_position=True)

    def test_random_models(self):
        """A change of one number is the only line if all else has one partner; each line is of what differs."""
        whole = 0
        for number in range(100):
            draw = random.Random(number)
            given = drawn(draw)
            other = near_miss(given, draw)
            if other == given:
                continue
            found = mpslp.diff(given, shuffled(other, number), any_names=True)
            self.assertTrue(list(found))
            self.assertEqual(found.verdict, "not the same")
            whole += len(list(found)) == len(list(mpslp.diff(given, other)))
        self.assertGreater(whole, 50)


if __name__ == "__main__":
    unittest.main()
