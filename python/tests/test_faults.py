"""What a ModelFileError reports."""

import copy
import pickle
import unittest

import mpslp

GOOD = b"min x\nend\n"
MPS = b"ROWS\n N  cost\nCOLUMNS\n    %s  cost  1\n%sENDATA\n"


def fault(call, *arguments, **named):
    try:
        call(*arguments, **named)
    except mpslp.ModelFileError as error:
        return error
    raise AssertionError("no error was reported")


class Faults(unittest.TestCase):
    def reports(self, error, line_of_program, **given):
        wanted = {"line": None, "name": None, "place": None, "number": None, "which": None, "filename": None, **given}
        self.assertEqual({name: getattr(error, name) for name in wanted}, wanted)
        self.assertEqual(str(error), line_of_program)

    def test_a_line(self):
        error = fault(mpslp.canonical, MPS % (b"x", b"    x  cost  2\n"), "mps")
        self.reports(error, "line 5: DuplicateEntry", kind="DuplicateEntry", line=5)

    def test_a_whole_text(self):
        self.reports(fault(mpslp.is_canonical, b"", "mps"), "file: MissingEnd", kind="MissingEnd")

    def test_a_name(self):
        error = fault(mpslp.canonical, MPS % (b"x", b"BOUNDS\n UP  B  x  -1\n"), "mps", "lp")
        self.reports(error, "file: NegativeUpper x", kind="NegativeUpper", name="x")

    def test_a_long_name(self):
        name = "x" * 255
        error = fault(mpslp.canonical, MPS % (name.encode(), b"BOUNDS\n UP  B  %s  -1\n" % name.encode()), "mps")
        self.assertEqual(error.name, name)

    def test_names_that_lp_cannot_express(self):
        to_lp = {"from_format": "mps", "to_format": "lp"}
        self.reports(
            fault(mpslp.canonical, MPS % (b"x[1]", b""), **to_lp),
            "column 0: NotLp",
            kind="NotLp",
            place="column",
            number=0,
            name="x[1]",
        )
        rows = b"ROWS\n N  cost\n L  b[2]\n L  a\nCOLUMNS\n    x  cost  1\nENDATA\n"
        self.reports(
            fault(mpslp.canonical, rows, **to_lp), "row 1: NotLp", kind="NotLp", place="row", number=1, name="b[2]"
        )
        objective = b"ROWS\n N  free\nCOLUMNS\n    x  free  1\nENDATA\n"
        self.reports(
            fault(mpslp.canonical, objective, **to_lp), "objective: NotLp", kind="NotLp", place="objective", name="free"
        )
        model = mpslp.load(MPS % (b"x[1]", b""), "mps")
        self.reports(
            fault(mpslp.dumps, model, "lp"), "column 0: NotLp", kind="NotLp", place="column", number=0, name="x[1]"
        )

    def test_which_text(self):
        first = fault(mpslp.same, b"min x y\nend\n", b"", "lp", "lp")
        self.reports(first, "first: line 1: BadToken", kind="BadToken", line=1, which="first")
        second = fault(mpslp.same, GOOD, b"", "lp", "mps")
        self.reports(second, "second: file: MissingEnd", kind="MissingEnd", which="second")

    def test_it_is_a_value_error(self):
        self.assertTrue(issubclass(mpslp.ModelFileError, ValueError))

    def test_copies(self):
        error = fault(mpslp.same, GOOD, b"min x y\nend\n", "lp", "lp")
        for other in (pickle.loads(pickle.dumps(error)), copy.copy(error), copy.deepcopy(error)):
            self.assertIs(type(other), mpslp.ModelFileError)
            self.reports(other, "second: line 1: BadToken", kind="BadToken", line=1, which="second")


if __name__ == "__main__":
    unittest.main()
