"""Models as arrays of doubles, and back."""

import ctypes
import ctypes.util
import math
import platform
import random
import sys
import typing
import unittest
import warnings
from array import array
from decimal import Decimal
from importlib.util import find_spec
from unittest import mock

import mpslp
from repository import EXAMPLES, VECTORS, model_files
from test_load import entries, sample

KINDS = ["continuous", "integer", "semi-continuous"]


def doubles(numbers):
    return [float(number) for number in numbers]


def plain(arrays):
    """The arrays as lists of Python's numbers."""
    return arrays._replace(
        **{name: list(value) for name, value in arrays._asdict().items() if not isinstance(value, (str, float))}
    )


ROUNDING_MODES = {"x86_64": (0, 0x400, 0x800, 0xC00), "aarch64": (0, 0x400000, 0x800000, 0xC00000)}
"""The arguments of fesetround: to nearest, and in each other direction."""


class NotHeld(unittest.TestCase):
    """Numbers that no double is near."""

    def said(self, text):
        with warnings.catch_warnings(record=True) as found:
            warnings.simplefilter("always")
            mpslp.load(text, "lp").arrays()
        self.assertTrue(all(each.category is RuntimeWarning and each.filename == __file__ for each in found))
        return [str(each.message) for each in found]

    def test_infinite_and_zero(self):
        self.assertEqual(
            self.said(b"min 1e400 x\nst\nc: x >= 1\nend\n"), ["1E+400, the cost of x, is infinite as a double"]
        )
        self.assertEqual(
            self.said(b"min x + 1e-400\nst\nc: x >= 1\nend\n"),
            ["1E-400, the constant of the objective, is 0 as a double"],
        )
        text = b"min 3 x\nst\nc: 1e400 x + 2 y >= 1e-400\nd: x + 1e-400 y <= 1\nbounds\ny <= 1e-390\nend\n"
        self.assertEqual(
            self.said(text),
            [
                "1E-400, the coefficient of y in the row d, is 0 as a double",
                "1E+400, the coefficient of x in the row c, is infinite as a double",
                "1E-400, a limit of c, is 0 as a double",
                "1E-390, a bound of y, is 0 as a double",
            ],
        )

    def test_others(self):
        """Infinite limits and bounds, zeros, and the smallest and the largest doubles are held."""
        self.assertEqual(
            self.said(b"min 0 x + 1e308 y\nst\nc: 5e-324 x + y >= -1e30\nbounds\nx free\ny <= 1e300\nend\n"), []
        )


class ToArrays(unittest.TestCase):
    def agrees(self, model):
        arrays = plain(model.arrays())
        rows, columns = list(model.rows.values()), list(model.columns.values())
        self.assertEqual(arrays.sense, model.sense)
        self.assertEqual(arrays.objective, model.objective)
        self.assertEqual(arrays.constant, float(model.constant))
        self.assertEqual(arrays.row_names, list(model.rows))
        self.assertEqual(arrays.column_names, list(model.columns))
        self.assertEqual(arrays.c, doubles(column.cost for column in columns))
        self.assertEqual(arrays.row_lower, doubles(row.lower for row in rows))
        self.assertEqual(arrays.row_upper, doubles(row.upper for row in rows))
        self.assertEqual(arrays.lower, doubles(column.lower for column in columns))
        self.assertEqual(arrays.upper, doubles(column.upper for column in columns))
        self.assertEqual([KINDS[kind] for kind in arrays.integrality], [column.kind for column in columns])
        self.assertEqual(arrays.indptr[0], 0)
        self.assertEqual(arrays.indptr[-1], len(arrays.data))
        for j, column in enumerate(columns):
            part = slice(arrays.indptr[j], arrays.indptr[j + 1])
            found = [(arrays.row_names[row], value) for row, value in zip(arrays.indices[part], arrays.data[part])]
            self.assertEqual(found, [(row, float(value)) for row, value in column.entries.items()])

    def test_models(self):
        for path in model_files(EXAMPLES) + [VECTORS / entry.input for entry in entries() if entry.answer == "model"]:
            with self.subTest(path.name):
                self.agrees(mpslp.load(path))

    def test_each_double_is_the_nearest(self):
        source = random.Random(3)
        literals = [
            source.choice(("", "-"))
            + f"{source.randrange(1, 10 ** source.randrange(1, 20))}e{source.randrange(-30, 30)}"
            for _ in range(5000)
        ]
        literals += [
            f"{sign}{mantissa}e{exponent}"
            for sign in ("", "-")
            for mantissa in (1, 3, 2**53 - 1, 2**53, 2**53 + 1, 2**64 - 1, 2**64 + 1)
            for exponent in (-500, -330, -324, -23, -22, -21, -1, 0, 1, 21, 22, 23, 290, 308, 400)
        ]
        columns = [mpslp.Column(f"x{number:06}", cost=Decimal(literal)) for number, literal in enumerate(literals)]
        costs = mpslp.Model(columns=columns).arrays().c
        for literal, cost in zip(literals, costs):
            self.assertEqual(
                (float(cost), math.copysign(1, cost)), (float(literal), math.copysign(1, float(literal))), literal
            )

    def test_types_with_and_without_numpy(self):
        with mock.patch.dict(sys.modules, numpy=None):
            arrays = sample().arrays()
        codes = {
            "c": "d",
            "indptr": "i",
            "indices": "i",
            "data": "d",
            "row_lower": "d",
            "row_upper": "d",
            "lower": "d",
            "upper": "d",
            "integrality": "b",
        }
        for name, code in codes.items():
            self.assertIs(type(getattr(arrays, name)), array)
            self.assertEqual(getattr(arrays, name).typecode, code)
        self.assertEqual(mpslp.from_arrays(arrays).columns["x"].cost, Decimal("3.5"))
        try:
            import numpy
        except ImportError:
            self.skipTest("there is no numpy")
        others = sample().arrays()
        for name, code in codes.items():
            found = getattr(others, name)
            self.assertIsInstance(found, numpy.ndarray)
            self.assertEqual(found.dtype, numpy.dtype(code))
            self.assertTrue(found.flags.writeable)
            self.assertEqual(list(found), list(getattr(arrays, name)))
        others.c[0] = 99  # they are the caller's
        self.assertEqual(sample().arrays().c[0], 0)

    def test_the_matrix_of_scipy(self):
        if find_spec("scipy") is None:
            self.skipTest("there is no scipy")
        model = sample()
        matrix = model.arrays().matrix
        self.assertEqual(matrix.shape, (5, 4))
        for j, column in enumerate(model.columns.values()):
            for i, row in enumerate(model.rows):
                self.assertEqual(matrix[i, j], float(column.entries.get(row, 0)))
        self.assertEqual(mpslp.load(b"min x\nend\n", "lp").arrays().matrix.shape, (0, 1))

    def test_types_can_be_asked_for(self):
        self.assertIs(typing.get_type_hints(mpslp.Model.arrays)["return"], mpslp.Arrays)


class FromArrays(unittest.TestCase):
    def test_models_whose_numbers_are_short(self):
        for path in model_files(EXAMPLES):
            model = mpslp.load(path)
            with self.subTest(path.name):
                self.assertEqual(mpslp.from_arrays(model.arrays()), model)
                self.assertEqual(mpslp.from_arrays(plain(model.arrays())), model)

    def test_each_double_is_its_shortest_text(self):
        source = random.Random(5)
        numbers = [source.choice([-1, 1]) * source.random() * 10.0 ** source.randrange(-20, 20) for _ in range(3000)]
        numbers += [source.randrange(-(10**9), 10**9) / 10 ** source.randrange(12) for _ in range(3000)]
        numbers += [
            0.0,
            -0.0,
            5e-324,
            0.1 + 0.2,
            2.0**53,
            2.0**53 + 2,
            1e15,
            1e15 - 1,
            999999999999999.9,
            1e22,
            123456789012345.6,
            1e-9,
            1e-10,
            1.7976931348623157e308,
        ]
        count = len(numbers)
        model = mpslp.from_arrays(
            mpslp.Arrays(numbers, [0] * (count + 1), [], [], [], [], [-abs(number) for number in numbers])
        )
        for column, number in zip(model.columns.values(), numbers):
            self.assertEqual(column.cost, Decimal(repr(number)))
            self.assertEqual(column.lower, -abs(Decimal(repr(number))) if abs(number) < 1e20 else -math.inf, number)

    def test_numbers_that_are_no_doubles_stay_exact(self):
        numbers = [Decimal("0.1"), 2**53 + 1, Decimal("0.1000000000000000000001")]
        model = mpslp.from_arrays(
            mpslp.Arrays(numbers, [0, 0, 0, 0], [], [], [], [], constant=Decimal("0.3000000000000000000000001"))
        )
        self.assertEqual([column.cost for column in model.columns.values()], numbers)
        self.assertEqual(model.constant, Decimal("0.3000000000000000000000001"))

    def test_buffers_of_each_type(self):
        wanted = mpslp.from_arrays(mpslp.Arrays([1, 2], [0, 1, 2], [1, 0], [5, 7], [0, 1], [9, 9], integrality=[0, 1]))
        for code in "ilqIL":
            found = mpslp.Arrays(
                array("d", [1, 2]),
                array(code, [0, 1, 2]),
                array(code, [1, 0]),
                array("f", [5, 7]),
                array("i", [0, 1]),
                (9, 9),
                integrality=array(code, [0, 1]),
            )
            self.assertEqual(mpslp.from_arrays(found), wanted, code)

    def test_arrays_of_numpy(self):
        try:
            import numpy
        except ImportError:
            self.skipTest("numpy is missing")
        good = mpslp.Arrays([1, 2], [0, 1, 2], [1, 0], [5, 7], [0, 1], [9, 9], integrality=[0, 1])
        wanted = mpslp.from_arrays(good)
        for code in ("i1", "u2", "i4", "u8", "i8"):
            for order in "<>":
                for name in ("indptr", "indices", "integrality"):
                    numbers = numpy.array(getattr(good, name), dtype=order + code)
                    self.assertEqual(mpslp.from_arrays(good._replace(**{name: numbers})), wanted, (name, order, code))
                    self.assertEqual(
                        mpslp.from_arrays(good._replace(**{name: numpy.repeat(numbers, 2)[::2]})),
                        wanted,
                        (name, order, code),
                    )
        for name in ("c", "data", "row_lower"):
            for order in "<>":
                self.assertEqual(
                    mpslp.from_arrays(good._replace(**{name: numpy.array(getattr(good, name), dtype=order + "f8")})),
                    wanted,
                    name,
                )
        for name in ("indptr", "indices"):
            for code in ("O", "f8", ">f4", "U3", "S3", "c16", "M8[s]"):
                with self.assertRaisesRegex(TypeError, f"^{name}"):
                    mpslp.from_arrays(good._replace(**{name: numpy.array(getattr(good, name)).astype(code)}))

    def test_indexes_that_are_no_integers(self):
        good = mpslp.Arrays([1, 2], [0, 1, 2], [1, 0], [5, 7], [0, 1], [9, 9])
        for wrong in ([1, "0"], [1, None], [1.0, 0], "ab", [[1], [0]]):
            with self.assertRaisesRegex(TypeError, "^indices: .* is not an integer$"):
                mpslp.from_arrays(good._replace(indices=wrong))
        for wrong in (5, None, "x", [1], tuple(good)):
            with self.assertRaisesRegex(TypeError, "^arrays are a mpslp.Arrays, not "):
                mpslp.from_arrays(wrong)

    def test_each_rounding_mode(self):
        """What from_arrays and arrays make of doubles does not depend on the rounding mode."""
        library = ctypes.util.find_library("m")
        if library is None or platform.machine() not in ROUNDING_MODES:
            self.skipTest("the numbers of the rounding modes are not known")
        functions, source = ctypes.CDLL(library), random.Random(90)
        numbers = [0.30000000000000004, 0.1, 1e15, 1e-10, 0.0, 2.0**50, 2.0**-20]
        for _ in range(3000):
            number = source.choice(
                (
                    source.randrange(-(10**9), 10**9) / 10 ** source.randrange(12),
                    source.uniform(-1, 1) * 10.0 ** source.randrange(-20, 20),
                )
            )
            numbers += [number, math.nextafter(number, math.inf), math.nextafter(number, -math.inf)]
        given = mpslp.Arrays(
            array("d", numbers), [0] * (len(numbers) + 1), [], [], [], [], constant=0.30000000000000004
        )
        wanted = [Decimal(repr(number)) for number in numbers]
        for mode in ROUNDING_MODES[platform.machine()]:
            functions.fesetround(mode)
            try:
                model = mpslp.from_arrays(given)
                found = model.arrays()
            finally:
                functions.fesetround(0)
            with self.subTest(mode):
                self.assertEqual([column.cost for column in model.columns.values()], wanted)
                self.assertEqual((list(found.c), found.constant), (numbers, given.constant))

    def test_integrality_that_is_complex(self):
        good = mpslp.Arrays([1, 2], [0, 1, 2], [1, 0], [5, 7], [0, 1], [9, 9])
        for wrong in ([1 + 0j, 0], [0, 2 + 0j], [complex("nan"), 0]):
            with self.assertRaisesRegex(TypeError, "integrality is 0, 1 or 2, and no complex number"):
                mpslp.from_arrays(good._replace(integrality=wrong))

    def test_zeros_are_no_entries(self):
        model = mpslp.from_arrays(mpslp.Arrays([0.0], [0, 2], [1, 0], [-0.0, 7.0], [0.0, 1.0], [9.0, 9.0]))
        self.assertEqual(model.columns["x0"].entries, {"r0": 7})

    def test_another_order(self):
        model = mpslp.from_arrays(
            mpslp.Arrays(
                [1, 2], [0, 1, 3], [1, 1, 0], [5, 7, 6], [0, 1], [9, 9], row_names=["b", "a"], column_names=["y", "x"]
            )
        )
        self.assertEqual(list(model.rows), ["a", "b"])
        self.assertEqual((model.columns["y"].cost, model.columns["y"].entries), (1, {"a": 5}))
        self.assertEqual((model.columns["x"].cost, model.columns["x"].entries), (2, {"a": 7, "b": 6}))

    def test_what_is_left_out(self):
        count = 12
        arrays = mpslp.Arrays(range(count), range(count + 1), [0] * count, [0.1] * count, [float("-inf")], [4])
        model = mpslp.from_arrays(arrays)
        self.assertEqual(
            (list(model.rows), list(model.columns)), (["r0"], [f"x{number:02}" for number in range(count)])
        )
        self.assertEqual([column.cost for column in model.columns.values()], list(range(count)))
        self.assertEqual(
            {(column.kind, column.lower, column.upper) for column in model.columns.values()},
            {("continuous", 0, Decimal("Infinity"))},
        )
        self.assertEqual((model.sense, model.objective, model.constant), ("minimize", "obj", 0))
        self.assertEqual(model.columns["x00"].entries, {"r0": Decimal("0.1")})

    def test_arrays_that_are_wrong(self):
        good = mpslp.Arrays([1, 2], [0, 1, 2], [0, 0], [5, 7], [0], [9], [0, 0], [1, 1], [0, 0], ["r"], ["x", "y"])
        self.assertEqual(len(mpslp.from_arrays(good).columns), 2)
        for changes, words in (
            ({"c": [1]}, "one name"),
            ({"row_lower": [0, 0]}, "one name"),
            ({"row_upper": [9, 9]}, "differ in length"),
            ({"lower": [0]}, "differ in length"),
            ({"upper": [1, 1, 1]}, "differ in length"),
            ({"integrality": [0]}, "differ in length"),
            ({"integrality": [0, 3]}, "integrality is 0, 1 or 2"),
            ({"indptr": [0, 2]}, "compressed columns"),
            ({"indptr": [1, 1, 2]}, "compressed columns"),
            ({"indptr": [0, 1, 3]}, "compressed columns"),
            ({"indptr": [0, 3, 2]}, "compressed columns"),
            ({"indices": [0]}, "compressed columns"),
            ({"data": [5]}, "compressed columns"),
            ({"indices": [0, 1]}, "a row that is not there"),
            ({"indices": [-1, 0]}, "a row that is not there"),
            ({"indptr": [0, 0, 2]}, "column 'y' has two entries in one row"),
            ({"data": [float("nan"), 1]}, "is not a number"),
            ({"data": [float("inf"), 1]}, "is not finite"),
            ({"c": [float("inf"), 1]}, "is not finite"),
            ({"row_names": ["r", "r"]}, "one name"),
            ({"column_names": ["x", "x"]}, "one name"),
            ({"column_names": ["x", "a b"]}, "is not legal"),
            ({"lower": [2, 0]}, "is above upper"),
            ({"integrality": [2, 0], "upper": [0, 1]}, "is semi-continuous"),
            ({"sense": "max"}, "the sense 'max'"),
            ({"objective": "r"}, "the name of the objective"),
            ({"constant": float("nan")}, "is not a number"),
        ):
            with self.subTest(words, changes=changes), self.assertRaisesRegex(ValueError, words):
                mpslp.from_arrays(good._replace(**changes))


if __name__ == "__main__":
    unittest.main()
