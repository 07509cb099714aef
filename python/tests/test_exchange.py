"""Models of PuLP and of scipy's milp, and models as those of PuLP."""

import importlib.util
import itertools
import random
import tempfile
import unittest
import warnings
from decimal import Decimal
from pathlib import Path
from unittest import mock

import mpslp
from drawn_models import drawn
from mpslp._exchange import _pulp
from repository import EXAMPLES, model_files

INFINITY = Decimal("Infinity")


def bounded_model(source):
    """A small model of all that models have, whose optimum is finite if there is one."""
    rows = [
        mpslp.Row("range", source.randint(-4, 0), source.randint(1, 9)),
        mpslp.Row("equal", *[source.randint(0, 6)] * 2),
        mpslp.Row("least", source.randint(-3, 2)),
        mpslp.Row("most", upper=source.randint(1, 9) / 2),
        mpslp.Row("free[1]"),
    ]
    columns = []
    for number, kind in enumerate(("continuous", "integer", "semi-continuous", "semi-continuous", "integer")):
        lower = source.choice((0.5, 2, 0)) if kind == "semi-continuous" else source.randint(-3, 1)
        upper = lower + source.randint(1, 5)
        entries = {row.name: source.randint(-6, 6) / 2 for row in rows if source.random() < 0.6}
        columns.append(mpslp.Column(f"x[{number}]", kind, lower, upper, source.randint(-9, 9) / 4, entries))
    return mpslp.Model(source.choice(("minimize", "maximize")), "cost", source.randint(-5, 5), rows, columns)


@unittest.skipUnless(importlib.util.find_spec("pulp"), "there is no PuLP")
class FromPulp(unittest.TestCase):
    def setUp(self):
        import pulp

        self.pulp = pulp

    def problem(self):
        """A problem with each kind of constraint and of variable, and with more digits than PuLP writes."""
        pulp = self.pulp
        x, y = pulp.LpVariable("x", 0, 0.1 + 0.2), pulp.LpVariable("y", cat="Integer")
        z, unused = pulp.LpVariable("z", None, 7, "Binary"), pulp.LpVariable("unused", -2)
        made = pulp.LpProblem("made", pulp.LpMaximize)
        made += 1 / 3 * x + 2 * y - 5
        made += x + y <= 4.5, "most"
        made += x - 1.5 * y >= -2, "least"
        made += z + y == 1, "equal"
        made += pulp.LpConstraint(pulp.LpAffineExpression(), pulp.LpConstraintLE, "empty", 3)
        made.addVariable(unused)
        return made

    def test_all_of_a_problem(self):
        found = mpslp.from_pulp(self.problem())
        self.assertEqual(
            found,
            mpslp.Model(
                "maximize",
                "OBJ",
                -5,
                [
                    mpslp.Row("most", upper=4.5),
                    mpslp.Row("least", -2),
                    mpslp.Row("equal", 1, 1),
                    mpslp.Row("empty", upper=3),
                ],
                [
                    mpslp.Column(
                        "x",
                        upper=Decimal("0.30000000000000004"),
                        cost=Decimal("0.3333333333333333"),
                        entries={"most": 1, "least": 1},
                    ),
                    mpslp.Column("y", "integer", -INFINITY, cost=2, entries={"most": 1, "least": -1.5, "equal": 1}),
                    mpslp.Column("z", "integer", upper=1, entries={"equal": 1}),
                    mpslp.Column("unused", lower=-2),
                ],
            ),
        )

    def test_an_objective_may_have_a_name_or_be_left_out(self):
        pulp = self.pulp
        named, x = pulp.LpProblem("named"), pulp.LpVariable("x", 0)
        named += 2 * x, "profit"
        self.assertEqual(mpslp.from_pulp(named), mpslp.Model(objective="profit", columns=[mpslp.Column("x", cost=2)]))
        without = pulp.LpProblem("without")
        without += x >= 1, "least"
        self.assertEqual(mpslp.from_pulp(without).columns["x"].cost, 0)

    def test_it_is_what_pulp_writes_but_for_its_digits_and_the_constant(self):
        """The second reader of a problem is PuLP's own writer."""
        source, count = random.Random(61), 0
        for _ in range(40):
            problem = mpslp.to_pulp(bounded_model(source))
            found = mpslp.from_pulp(problem)
            if not all(row.entries for row in found.rows.values()):
                continue  # PuLP writes a further column into a row without terms
            with tempfile.TemporaryDirectory() as folder:
                path = Path(folder) / "written.lp"
                problem.writeLP(str(path))
                written = mpslp.load(mpslp.adapt(path, dialect="pulp").text, "lp")
            self.assertEqual(found.replace(constant=0), written)
            count += bool(found.constant)
        self.assertGreater(count, 15)

    def test_what_pulp_adds_when_it_writes_is_left_out(self):
        pulp = self.pulp
        problem, x = pulp.LpProblem("problem"), pulp.LpVariable("x", 0, 3)
        problem += x >= 1, "least"
        problem += pulp.LpConstraint(pulp.LpAffineExpression(), pulp.LpConstraintLE, "empty", 3)
        before = mpslp.from_pulp(problem)
        with tempfile.TemporaryDirectory() as folder:
            problem.writeLP(f"{folder}/written.lp")
            problem.writeMPS(f"{folder}/written.mps")
        self.assertIn("__dummy", [variable.name for variable in problem.variables()])
        self.assertEqual(mpslp.from_pulp(problem), before)
        self.assertEqual(list(before.columns), ["x"])

    def test_what_no_model_has(self):
        pulp = self.pulp
        x, twin = pulp.LpVariable("x", 0), pulp.LpVariable("x", 0)
        twice = pulp.LpProblem("twice")
        twice += x + twin
        with self.assertRaisesRegex(ValueError, "column 'x' is there twice"):
            mpslp.from_pulp(twice)
        sets = pulp.LpProblem("sets")
        sets += x
        sets.sos1["s"] = {x: 1}
        with self.assertRaisesRegex(ValueError, "special ordered sets"):
            mpslp.from_pulp(sets)
        infinite = pulp.LpProblem("infinite")
        infinite += float("inf") * x
        with self.assertRaisesRegex(ValueError, "column 'x': cost"):
            mpslp.from_pulp(infinite)
        for other in (None, x, "problem", mpslp):
            with self.assertRaisesRegex(TypeError, "pulp.LpProblem, not"):
                mpslp.from_pulp(other)


@unittest.skipUnless(importlib.util.find_spec("pulp"), "there is no PuLP")
class ToPulp(unittest.TestCase):
    def test_and_back(self):
        """What PuLP has is the same model; numbers are the nearest doubles."""
        source, count = random.Random(62), 0
        for _ in range(60):
            model = drawn(source)
            with warnings.catch_warnings():
                warnings.simplefilter("ignore", RuntimeWarning)
                arrays = model.arrays()
                try:
                    nearest = mpslp.from_arrays(arrays)
                    names = {}
                    found = mpslp.from_pulp(mpslp.to_pulp(model, names))
                except ValueError:  # a number is infinite as a double
                    continue
            if names or any(
                row.lower != row.upper and row.lower.is_finite() is row.upper.is_finite() for row in model.rows.values()
            ):
                continue
            if any(column.kind == "semi-continuous" for column in model.columns.values()):
                continue
            self.assertEqual(found, nearest)
            count += 1
        self.assertGreater(count, 5)

    def test_what_pulp_does_not_have(self):
        model = mpslp.Model(
            rows=[mpslp.Row("r", 1, 4), mpslp.Row("r_upper", upper=9), mpslp.Row("free")],
            columns=[
                mpslp.Column("s", "semi-continuous", 2, 5, 1, {"r": 1, "free": 3}),
                mpslp.Column("t", "semi-continuous", 0, 5, 1, {"r_upper": 1}),
            ],
        )
        wanted = mpslp.Model(
            rows=[
                mpslp.Row("r", 1),
                mpslp.Row("r_upper_2", upper=4),
                mpslp.Row("r_upper", upper=9),
                mpslp.Row("s_used_lower", 0),
                mpslp.Row("s_used_upper", upper=0),
            ],
            columns=[
                mpslp.Column(
                    "s", "continuous", 0, 5, 1, {"r": 1, "r_upper_2": 1, "s_used_lower": 1, "s_used_upper": 1}
                ),
                mpslp.Column("s_used", "integer", 0, 1, 0, {"s_used_lower": -2, "s_used_upper": -5}),
                mpslp.Column("t", "continuous", 0, 5, 1, {"r_upper": 1}),
            ],
        )
        self.assertEqual(mpslp.from_pulp(mpslp.to_pulp(model)), wanted)

    def test_names(self):
        model = mpslp.load(
            b"NAME\nROWS\n N  a-b\n L  x_1_\nCOLUMNS\n    x[1]  a-b  1  x_1_  1\n    x(1)  a-b  2\nENDATA\n", "mps"
        )
        names = {}
        found = mpslp.from_pulp(mpslp.to_pulp(model, names))
        self.assertEqual(names, {"a-b": "a_b", "x[1]": "x_1__2"})
        self.assertEqual(found, mpslp.renamed(model, names))

    def test_the_optimum_is_that_of_the_model(self):
        if not importlib.util.find_spec("scipy"):
            self.skipTest("there is no scipy")
        source, optima = random.Random(63), []
        for _ in range(60):
            model = bounded_model(source)
            found = optimum(mpslp.from_pulp(mpslp.to_pulp(model)))
            self.assertEqual(found, optimum(model))
            optima.append(found)
        self.assertGreater(len(set(optima) - {None}), 20)
        self.assertIn(None, optima)

    def test_files(self):
        for path in model_files(EXAMPLES):
            model = mpslp.load(path)
            self.assertEqual(mpslp.to_pulp(model).sense, 1 if model.sense == "minimize" else -1)

    def test_a_problem_that_is_not_the_model_is_not_returned(self):
        model = mpslp.load(EXAMPLES / "transport.mps")
        right = _pulp._problem
        for wrong in (
            lambda arrays: right(arrays._replace(data=[*arrays.data[:-1], 7])),
            lambda arrays: right(arrays._replace(constant=1.0)),
            lambda arrays: right(arrays._replace(integrality=[1, *arrays.integrality[1:]])),
            lambda arrays: right(arrays._replace(sense="maximize")),
        ):
            with mock.patch.object(_pulp, "_problem", wrong), self.assertRaisesRegex(RuntimeError, "internal error"):
                mpslp.to_pulp(model)

    def test_what_is_no_model(self):
        with self.assertRaisesRegex(TypeError, "mpslp.Model, not str"):
            mpslp.to_pulp("model.mps")


def optimum(model):
    """The optimum of a model by scipy, which gets its arrays; None if there is none."""
    from scipy.optimize import Bounds, LinearConstraint, milp

    arrays = model.arrays()
    sign = -1 if arrays.sense == "maximize" else 1
    rows = LinearConstraint(arrays.matrix, arrays.row_lower, arrays.row_upper)
    found = milp(
        sign * arrays.c, constraints=rows, bounds=Bounds(arrays.lower, arrays.upper), integrality=arrays.integrality
    )
    return None if found.x is None else round(sign * found.fun + arrays.constant, 6)


@unittest.skipUnless(importlib.util.find_spec("scipy"), "there is no scipy")
class FromMilp(unittest.TestCase):
    def setUp(self):
        import numpy
        from scipy import optimize, sparse

        self.numpy, self.optimize, self.sparse = numpy, optimize, sparse

    def test_each_form_of_the_arguments(self):
        """The same model, as often as the arguments have forms."""
        wanted = mpslp.Model(
            rows=[mpslp.Row("r0", 1, 4), mpslp.Row("r1", upper=2.5)],
            columns=[
                mpslp.Column("x0", "integer", -1, 8, 3, {"r0": 0.5}),
                mpslp.Column("x1", "semi-continuous", 1, 8, -1, {"r0": 1, "r1": 2}),
            ],
        )
        inf, sparse, constraint, bounds = (
            self.numpy.inf,
            self.sparse,
            self.optimize.LinearConstraint,
            self.optimize.Bounds,
        )
        dense = [[0.5, 1], [0, 2]]
        given_rows = [
            constraint(dense, [1, -inf], [4, 2.5]),
            constraint(sparse.csc_matrix(dense), [1, -inf], [4, 2.5]),
            (dense, [1, -inf], [4, 2.5]),
            [constraint(dense[0], 1, 4), constraint([dense[1]], -inf, [2.5])],
            (constraint(dense[0], 1, 4), constraint(dense[1], ub=2.5)),
            [(dense[:1], 1, 4), (sparse.csr_matrix(dense[1:]), -inf, 2.5)],
            ((dense[:1], 1, 4), (dense[1:], -1e20, 2.5)),
        ]
        given_bounds = [
            bounds([-1, 1], 8),
            ([-1, 1], [8, 8]),
            bounds(self.numpy.array([-1.0, 1.0]), self.numpy.array([8])),
        ]
        for rows, limits in itertools.product(given_rows, given_bounds):
            for kinds in ([1, 2], self.numpy.array([1, 2], "uint8")):
                self.assertEqual(mpslp.from_milp([3, -1], rows, limits, kinds), wanted)

    def test_what_is_left_out(self):
        self.assertEqual(
            mpslp.from_milp(self.numpy.array([2.0, 0.1])),
            mpslp.Model(columns=[mpslp.Column("x0", cost=2), mpslp.Column("x1", cost=0.1)]),
        )
        self.assertEqual(mpslp.from_milp([1], integrality=1).columns["x0"].kind, "integer")
        named = mpslp.from_milp([1], ([[2]], 3, 3), row_names=["only"], column_names=iter(["y"]))
        self.assertEqual((list(named.rows), list(named.columns)), (["only"], ["y"]))

    def test_numbers_of_one_place_are_added(self):
        matrix = self.sparse.csc_matrix(([1.0, 2.0, 0.0], [0, 0, 1], [0, 2, 3]), shape=(2, 2))
        found = mpslp.from_milp([1, 1], self.optimize.LinearConstraint(matrix, 0, 9))
        self.assertEqual(found.rows["r0"].entries, {"x0": 3})
        self.assertEqual(found.rows["r1"].entries, {})
        self.assertEqual(list(matrix.data), [1.0, 2.0, 0.0])  # the caller's is left as it is

    def test_the_optimum_is_that_of_milp(self):
        source, optima = random.Random(64), set()
        for _ in range(60):
            model = bounded_model(source).replace(sense="minimize", constant=0)
            arrays = model.arrays()
            arguments = (
                arrays.c,
                self.optimize.LinearConstraint(arrays.matrix, arrays.row_lower, arrays.row_upper),
                self.optimize.Bounds(arrays.lower, arrays.upper),
                arrays.integrality,
            )
            found = mpslp.from_milp(*arguments, row_names=model.rows, column_names=model.columns)
            self.assertEqual(replace_objective(found), replace_objective(model))
            optima.add(optimum(found))
        self.assertGreater(len(optima), 20)

    def test_what_milp_does_not_take(self):
        constraint, bounds = self.optimize.LinearConstraint, self.optimize.Bounds
        for error, arguments in (
            ("semi-integer", ([1], (), None, 3)),
            ("has 2 columns, and c has 1", ([1], constraint([[1, 2]], 0, 1))),
            ("integrality has 2 numbers, and not 1 or 3", ([1, 2, 3], (), None, [1, 1])),
            ("bounds.lb has 2 numbers", ([1, 2, 3], (), bounds(0, [1, 2]))),
            ("constraints: 5 is no LinearConstraint", ([1], [5])),
            ("bounds: 5 is no Bounds", ([1], (), 5)),
            ("several dimensions", ([[1, 2], [3, 4]],)),
            ("lower 3 is above upper 2", ([1], (), bounds(3, 2))),
            ("cost: NaN", ([float("nan")],)),
            ("integrality", ([1], (), None, 7)),
        ):
            with self.subTest(error), self.assertRaisesRegex(ValueError, error):
                mpslp.from_milp(*arguments)


def replace_objective(model):
    return model.replace(objective="obj")


if __name__ == "__main__":
    unittest.main()
