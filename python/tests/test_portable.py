"""What other programs may read differently: the call and the command; the rules are tested by
python/tests/portable_rules.py, too."""

import gzip
import io
import pickle
import random
import re
import unittest
from dataclasses import FrozenInstanceError

import mpslp
import portable_rules
from mpslp import _mpslp
from mpslp._portable import AGREED, KINDS, PROGRAMS, grouped, remarks_of
from mpslp._portable._lp import LpFile
from mpslp._portable._mps import MpsFile
from repository import EXAMPLES, VECTORS, model_files
from test_tools import BROKEN, CANONICAL_LP, Directory

from shared import models, spellings

MAX = b"NAME\nOBJSENSE\n    MAX\nROWS\n N  C\nCOLUMNS\n    x/2  C  1\nBOUNDS\n UP  BND  x/2  0\nENDATA\nmore\n"
MANY = (
    b"min c: x\nst\n"
    + b"".join(b" r%d: 1 <= x <= %d\n" % (number, number + 2) for number in range(5))
    + b"bounds\n x <= 0\nend\n"
)
NO_OBJECTIVE = b"NAME  T  FREE\nROWS\n L  R\nCOLUMNS\n    X  R  1\nRHS\n    RHS  R  4\n    RHS  obj  5\nENDATA\n"


def summary(path, remarks):
    """What the command prints of remarks without --all."""
    return "".join(f"{path}:{line}\n" for line in grouped(each for each in remarks if each.kind not in AGREED))


LINES = ("3: objsense: ", "7: name-like-arithmetic: ", "9: upper-zero: ", "11: text-after-end: ")


class Calls(unittest.TestCase):
    def test_the_examples_of_the_rules(self):
        found, tried = portable_rules.check(None)
        self.assertEqual(found, [])
        self.assertGreaterEqual(tried, len(KINDS))

    def test_remarks_are_in_the_order_of_lines(self):
        found = mpslp.portability(MAX, "mps")
        self.assertEqual([str(each)[: len(line)] for each, line in zip(found, LINES)], list(LINES))
        self.assertEqual(len(found), len(LINES))
        self.assertEqual(found[2], mpslp.Remark(9, "upper-zero", found[2].text))
        self.assertEqual(found[0].programs, ("glpsol", "clp", "cbc", "coinutils"))
        self.assertEqual(str(found[2]), f"9: upper-zero: {found[2].text}")

    def test_the_objective_of_a_file_without_an_n_row(self):
        text = b"NAME  T  FREE\nROWS\n L  R\nCOLUMNS\n    X  R  1\nRHS\n    RHS  obj  5  R  1e25\nENDATA\n"
        self.assertEqual(
            [(each.line, each.kind) for each in mpslp.portability(text, "mps")],
            [(7, "large-limit"), (7, "objective-rhs")],
        )
        self.assertEqual(mpslp.portability(text.replace(b"obj  5", b"obj  1e25"), "mps")[0].kind, "large-limit")

    def test_fields_that_are_joined(self):
        """CoinUtils reads fixed columns up to the first line that cannot be read so, and not in files that say FREE."""
        text = b"NAME  T\nROWS\n N  C\n L  R\nCOLUMNS\n    X  R  1\n    Y  C  2\nRHS\n    S  R  4\nENDATA\n"
        self.assertEqual(
            [(each.line, each.kind) for each in mpslp.portability(text, "mps")],
            [(6, "short-fields"), (7, "short-fields"), (9, "short-fields")],
        )
        self.assertEqual(mpslp.portability(text.replace(b"\n", b"\r\n"), "mps"), mpslp.portability(text, "mps"))
        self.assertEqual([each.line for each in mpslp.portability(text.replace(b"Y  C", b"long_name  C"), "mps")], [6])
        self.assertEqual(mpslp.portability(text.replace(b"NAME  T", b"NAME  T  FREE"), "mps"), ())

    def test_remarks_are_records(self):
        remark = mpslp.portability(MAX, "mps")[0]
        with self.assertRaises(FrozenInstanceError):
            remark.line = 1
        self.assertEqual(pickle.loads(pickle.dumps(remark)), remark)

    def test_sources(self):
        wanted = mpslp.portability(MAX, "mps")
        self.assertEqual(mpslp.portability(io.BytesIO(MAX), "mps"), wanted)
        self.assertEqual(mpslp.portability(MAX.replace(b"\n", b"\r\n"), "mps"), wanted)
        self.assertEqual(mpslp.portability(EXAMPLES / "small.canonical.lp"), ())
        with self.assertRaisesRegex(ValueError, "format"):
            mpslp.portability(MAX)

    def test_targets(self):
        everything = mpslp.portability(MAX, "mps")
        for program in PROGRAMS:
            found = mpslp.portability(MAX, "mps", target=program)
            self.assertEqual(found, tuple(each for each in everything if program in each.programs))
        self.assertEqual([each.kind for each in mpslp.portability(MAX, "mps", target="clp")], ["objsense"])
        self.assertEqual(mpslp.portability(MAX, "mps", target="lp_solve"), ())
        free = b"NAME\nROWS\n N  cost\n N  next\nCOLUMNS\n    x  cost  1  next  2\nRHS\nENDATA\n"
        for program in ("highs", "scip", "glpsol"):
            self.assertIn(
                "further-n-row", [each.kind for each in mpslp.portability(free, "mps", target=program)], program
            )
        self.assertEqual(mpslp.portability(MAX, "mps", target="highs"), ())
        with self.assertRaisesRegex(ValueError, "'gurobi' is none of glpsol, clp"):
            mpslp.portability(MAX, "mps", target="gurobi")

    def test_a_file_without_an_n_row(self):
        """Its objective has the name obj, which RHS may have."""
        self.assertEqual(
            [(each.line, each.kind) for each in mpslp.portability(NO_OBJECTIVE, "mps")], [(8, "objective-rhs")]
        )
        large = NO_OBJECTIVE.replace(b"obj  5", b"obj  1e25")
        self.assertEqual([each.kind for each in mpslp.portability(large, "mps")], ["objective-rhs"])

    def test_a_last_column_that_is_integer(self):
        """lp_solve keeps it, also without an RHS section and without bounds."""
        marked = b"NAME  T  FREE\nROWS\n N  C\nCOLUMNS\n    M  'MARKER'  'INTORG'\n    X  C  1\nENDATA\n"
        self.assertEqual([each.kind for each in mpslp.portability(marked, "mps")], ["marked-without-bound"])

    def test_a_text_that_is_rejected(self):
        with self.assertRaisesRegex(mpslp.ModelFileError, "line 1: BadToken"):
            mpslp.portability(BROKEN, "lp")

    def test_every_accepted_file(self):
        """Each remark has a line of the file, and its kind is one of the list."""
        found = set()
        for path in [*model_files(EXAMPLES), *model_files(VECTORS)]:
            text = path.read_bytes()
            try:
                remarks = mpslp.portability(path)
            except mpslp.ModelFileError:
                continue
            with self.subTest(path.name):
                self.assertEqual(list(remarks), sorted(remarks))
                self.assertTrue(all(1 <= each.line <= text.count(b"\n") + 1 for each in remarks))
                found.update(each.kind for each in remarks)
        self.assertLessEqual(found, set(KINDS))
        self.assertGreater(len(found), 5)

    def test_what_is_read_of_random_models(self):
        """However a model is spelled, it is read to its end: all rows, columns and numbers are found, and lines have
        what is said of them."""
        source = random.Random(4)
        for _ in range(300):
            model = models.drawn_model(source)
            for form, number in (("mps", _mpslp.MPS), ("lp", _mpslp.LP)):
                text = {"mps": spellings.mps_text, "lp": spellings.lp_text}[form](source, model)
                if form == "lp" and not all(map(models.is_lp_name, (model.objective, *model.rows, *model.columns))):
                    continue
                with self.subTest(text):
                    self.check_rows_and_columns(text, form, model)
                    lines = text.decode("latin-1").split("\n")
                    for remark in remarks_of(text, number):
                        if remark.kind in ("name-like-arithmetic", "number-not-held"):
                            self.assertIn(remark.text.split()[0], lines[remark.line - 1])

    def check_rows_and_columns(self, text, form, model):
        if form == "mps":
            file = MpsFile(text)
            self.assertEqual(set(file.columns), set(model.columns))
            self.assertEqual(set(file.types) | {model.objective}, {*model.rows, model.objective})
            self.assertEqual(file.sense is not None and file.sense.text.startswith("MAX"), model.maximise)
            return
        file = LpFile(text)
        self.assertEqual(len(file.rows), len(model.rows))
        self.assertEqual({row.label for row in file.rows if row.label} - set(model.rows), set())
        self.assertLessEqual(set(model.columns), set(file.names))
        self.assertLessEqual(set(file.names), {*model.columns, *model.rows, model.objective})
        two_limits = sum(
            row.lower is not None and row.upper is not None and not models.same(row.lower, row.upper)
            for row in model.rows.values()
        )
        self.assertGreaterEqual(sum(len(row.sides) == 2 for row in file.rows), two_limits)


class Command(Directory):
    def test_what_is_published(self):
        """Each row of the table of SOLVERS that is about HiGHS or SCIP has a remark; check has them with --target."""
        mps = (
            b"NAME\nROWS\n N  cost\n N  next\n L  cap\nCOLUMNS\n M  'MARKER'  'INTORG'\n    i  cost  1  cap  1e-9\n"
            b"    j  cap  1e15\n M  'MARKER'  'INTEND'\n    s  cap  1234567890.123456789012\nRHS\nBOUNDS\n"
            b" UP  BND  j  2.99999\n SC  BND  s  200000\nENDATA\n"
        )
        lp = (
            b"min x + y + s\nst\nc: 1 <= x + 1e15 y <= 4\nd: 1e-9 x + y#1 >= 0.1234567890123456789\nbounds\nx = 3\n"
            b"y <= 0.99999\ns <= 200000\ngeneral\ny\nsemi\ns\nend\n"
        )
        of_both = {"near-whole-bound", "number-not-held", "coefficient-size"}
        in_mps = of_both | {"further-n-row", "marked-without-bound"}
        in_lp = of_both | {"ranged-row", "fixed-bound", "name-in-dialects"}
        self.file("a.mps", mps)
        self.file("a.lp", lp)
        for text, form, wanted in ((mps, "mps", in_mps), (lp, "lp", in_lp)):
            for program, kinds in (("highs", wanted | {"semi-continuous-bound"}), ("scip", wanted)):
                found = mpslp.portability(text, form, target=program)
                self.assertEqual({each.kind for each in found}, kinds)
                done = self.run_tools("check", "--portable", "--target", program, f"a.{form}")
                self.assertEqual(set(re.findall(r"^a\.\w+: ([a-z-]+): ", done.stdout.decode(), re.M)), kinds)

    def test_statuses(self):
        self.file("a.lp", CANONICAL_LP)
        self.prints(["check", "--portable", "a.lp"], 0)
        self.file("b.mps", MAX)
        lines = summary("b.mps", mpslp.portability(MAX, "mps"))
        self.assertEqual(lines.split("\n")[0], "b.mps: objsense: 1 line")
        self.prints(["check", "--portable", "a.lp", "b.mps"], 1, lines)
        self.file("c.lp", BROKEN)
        self.prints(["check", "--portable", "c.lp", "b.mps"], 2, lines, "c.lp:1: BadToken: y\n")
        self.prints(["check", "--portable", "d.mps"], 4, error="d.mps: No such file or directory\n")

    def test_sources(self):
        self.file("deep/b.mps.gz", gzip.compress(MAX))
        remarks = mpslp.portability(MAX, "mps")
        self.prints(["check", "--portable", "."], 1, summary("./deep/b.mps.gz", remarks))
        self.prints(["check", "--portable", "-f", "mps", "-"], 1, summary("-", remarks), content=MAX)

    def test_all_lines(self):
        """With --all each line is printed, in their order, and also the kinds in which all programs agree."""
        self.file("b.mps", MAX)
        self.prints(
            ["check", "--portable", "--all", "b.mps"],
            1,
            "".join(f"b.mps:{each}\n" for each in mpslp.portability(MAX, "mps")),
        )
        self.file("agreed.lp", b"min x\nst\n x >= -1\nbounds\n x <= 0\nend\n")
        self.prints(["check", "--portable", "agreed.lp"], 0)
        self.assertEqual(self.run_tools("check", "--portable", "--all", "agreed.lp").returncode, 1)

    def test_many_lines_of_a_kind(self):
        self.file("many.lp", MANY)
        remarks = mpslp.portability(MANY, "lp")
        shown = "".join(f"many.lp:{each}\n" for each in remarks[:3])
        self.prints(
            ["check", "--portable", "many.lp"],
            1,
            "many.lp: ranged-row: 5 lines, of which the first 3 follow; --all prints each\n" + shown,
        )

    def test_targets(self):
        self.file("b.mps", MAX)
        remarks = mpslp.portability(MAX, "mps")
        self.prints(["check", "--portable", "--target", "glpsol", "b.mps"], 1, summary("b.mps", remarks[:1]))
        self.prints(["check", "--portable", "--target", "lp_solve", "--all", "b.mps"], 0)
        self.assertEqual(self.run_tools("check", "--target", "clp", "b.mps").returncode, 3)
        self.assertEqual(self.run_tools("check", "--all", "b.mps").returncode, 3)
        self.assertEqual(self.run_tools("check", "--portable", "--target", "gurobi", "b.mps").returncode, 3)

    def test_kinds_that_are_left_out(self):
        self.file("b.mps", MAX)
        found = mpslp.portability(MAX, "mps")
        words = [word for each in found[1:] for word in ("--ignore", each.kind)]
        self.prints(["check", "--portable", "--all", "b.mps", *words], 1, f"b.mps:{found[0]}\n")
        self.prints(["check", "--portable", "--all", "b.mps", *words, "--ignore", found[0].kind], 0)
        self.assertEqual(self.run_tools("check", "--portable", "--ignore", "sense", "b.mps").returncode, 3)
        self.prints(
            ["check", "--ignore", "objsense", "b.mps"],
            3,
            error="python3 -m mpslp: error: --ignore leaves out remarks of --portable\n",
        )


if __name__ == "__main__":
    unittest.main()
