"""Names that are not legal in LP, under legal names and back: the rule, models, solutions, and the command."""

import itertools
import random
import re
import unittest
from unittest import mock

import mpslp
from mpslp import _mpslp
from mpslp._errors._own_checks import OwnCheckError
from mpslp._files._sources import Text
from mpslp._rename import RenameError, _call, lp_name, names_back, original_name, renamed, table, table_of, words_back
from mpslp._text._names import is_lp_name
from test_tools import Directory

from shared import models, spellings

MPS = b"""\
NAME
OBJSENSE
    MAX
ROWS
 N  free
 G  x[1]
 L  cap[1,2]
COLUMNS
    x[1]  free  1
    x[1]  cap[1,2]  2
    2y  x[1]  1
    MARKER  'MARKER'  'INTORG'
    plain  free  3
    MARKER  'MARKER'  'INTEND'
RHS
    RHS  free  5
    RHS  cap[1,2]  40
RANGES
    RNG  x[1]  7
BOUNDS
 UP  BND  2y  8
 PL  BND  plain
ENDATA
"""
LP = b"""\
Maximize
 _x66ree:
  + 3 plain
  + 1 x_x5B1_x5D
  - 5
Subject To
 cap_x5B1,2_x5D:
  + 2 x_x5B1_x5D
  <= 40
 x_x5B1_x5D:
  0 <=
  + 1 _x32y
  <= 7
Bounds
 0 <= _x32y <= 8
Generals
 plain
End
"""
TABLE = b'{\n "2y": "_x32y",\n "cap[1,2]": "cap_x5B1,2_x5D",\n "free": "_x66ree",\n "x[1]": "x_x5B1_x5D"\n}\n'
NAMES = {
    "x[1,2]": "x_x5B1,2_x5D",
    "2x": "_x32x",
    ".5": "_x2E5",
    "e": "_x65",
    "E1": "_x451",
    "free": "_x66ree",
    "Inf": "_x49nf",
    "s.t.": "_x73.t.",
    "a*b": "a_x2Ab",
    "_x5B": "_x5Fx5B",
    "a_x5B_x5D": "a_x5Fx5B_x5Fx5D",
    "_[": "__x5B",
    "_x5[": "_x5_x5B",
    "_x[41": "_x_x5B41",
    "[": "_x5B",
    "9": "_x39",
}
SAME = ("x", "x_", "_x5", "_x5b", "_xG1", "__x", "y(1,2)", "x/2", "element", "e_1", "_2x", "x.5", "freedom")


def text_of(content, format="mps"):
    return Text(content, {"mps": _mpslp.MPS, "lp": _mpslp.LP}[format], None)


class Names(unittest.TestCase):
    def test_examples(self):
        for name, written in {**NAMES, **{name: name for name in SAME}}.items():
            with self.subTest(name=name):
                self.assertEqual(lp_name(name), written)
                self.assertEqual(original_name(written), name)

    def test_names_are_legal_and_read_back(self):
        """All short names of letters that are next to escapes, or look like them."""
        for letters, most in (("_x5B[", 5), ("e1.E", 5), ("_x5Fe", 5), ("free", 4), ("infx_", 4)):
            for length in range(1, most + 1):
                for each in itertools.product(sorted(set(letters)), repeat=length):
                    name = "".join(each)
                    written = lp_name(name)
                    self.assertTrue(is_lp_name(written), name)
                    self.assertEqual(original_name(written), name)
                    if is_lp_name(name) and not re.search("_x[0-9A-F]{2}", name):
                        self.assertEqual(written, name)

    def test_random_names(self):
        source = random.Random(5)
        for _ in range(20000):
            name = "".join(source.choice(models.MPS_BYTES) for _ in range(source.randint(1, 12)))
            if name != "'MARKER'":
                self.assertTrue(is_lp_name(lp_name(name)), name)
                self.assertEqual(original_name(lp_name(name)), name)

    def test_each_byte(self):
        for byte in models.MPS_BYTES:
            for name in (byte, f"a{byte}", f"{byte}a"):
                self.assertTrue(is_lp_name(lp_name(name)), name)
                self.assertEqual(original_name(lp_name(name)), name)
                if models.is_lp_name(name):
                    self.assertEqual(lp_name(name), name)

    def test_length(self):
        self.assertEqual(len(lp_name("x" * 250 + "[")), 254)
        self.assertEqual(lp_name("x" * 255), "x" * 255)
        for name in ("x" * 252 + "[", "2" + "x" * 252, "[" * 64):
            with self.assertRaisesRegex(RenameError, "a name has 25[6] bytes, and 255 are the most"):
                lp_name(name)

    def test_names_that_are_not_written(self):
        for written in ("a_x41", "_x00", "_xFF", "_x20", "2x", "x[1]", "free", "_x5Fx5", "", "_x27MARKER'"):
            with self.assertRaises(RenameError, msg=written):
                original_name(written)


class Models(unittest.TestCase):
    def test_a_model(self):
        done = renamed(text_of(MPS))
        self.assertEqual(done.text, LP)
        self.assertEqual(table(done.names), TABLE)
        self.assertTrue(mpslp.same(names_back(text_of(LP, "lp"), None), MPS, "mps", "mps"))
        self.assertTrue(mpslp.same(names_back(text_of(LP, "lp"), table_of(TABLE)), MPS, "mps", "mps"))

    def test_random_models(self):
        source = random.Random(8)
        changed = 0
        for _ in range(60):
            model = models.drawn_model(source)
            content = spellings.mps_text(source, model)
            try:
                done = renamed(text_of(content))
            except RenameError:  # long names of bytes that LP does not have
                continue
            self.assertTrue(mpslp.is_canonical(done.text, "lp"))
            self.assertTrue(mpslp.same(names_back(text_of(done.text, "lp"), None), content, "mps", "mps"))
            self.assertEqual(
                set(done.names),
                {name for name in (model.objective, *model.rows, *model.columns) if lp_name(name) != name},
            )
            changed += bool(done.names)
        self.assertGreater(changed, 5)

    def test_another_model_is_not_returned(self):
        with mock.patch.object(_call, "lp_name", return_value="x"), self.assertRaises(
            (OwnCheckError, mpslp.ModelFileError)
        ):
            renamed(text_of(MPS))
        with mock.patch.object(
            _call, "original_name", side_effect=lambda name: f"{original_name(name)}!"
        ), self.assertRaises(OwnCheckError):
            renamed(text_of(MPS))

    def test_names_that_would_be_the_same(self):
        with self.assertRaisesRegex(RenameError, "two names would be b: a and b"):
            names_back(text_of(b"min a + b\nend\n", "lp"), {"a": "b"})

    def test_tables(self):
        self.assertEqual(table_of(b'{"a":"b"}'), {"b": "a"})
        for content in (b"a b\n", b"[]", b'{"a": 1}'):
            with self.assertRaises(ValueError):
                table_of(content)

    def test_solutions(self):
        solution = b"# \x80 x_x41\r\n  x_x5B1_x5D\t 4\n_x32y=1 _x32y 3.5\n\nplain 40"
        wanted = b"# \x80 x_x41\r\n  x[1]\t 4\n_x32y=1 2y 3.5\n\nplain 40"
        self.assertEqual(words_back(solution, None), wanted)
        self.assertEqual(words_back(solution, table_of(TABLE)), wanted)
        self.assertEqual(words_back(solution, {"plain": "p"}), solution.replace(b"plain", b"p"))


class Command(Directory):
    def test_a_model_and_back(self):
        self.file("a.mps", MPS)
        self.prints(["canon", "-t", "lp", "--rename", "--no-warnings", "a.mps"], 0, LP.decode())
        self.prints(["canon", "--no-warnings", "--rename", "-o", "a.lp", "--map", "a.json", "a.mps"], 0)
        self.leaves(a_mps=MPS, a_lp=LP, a_json=TABLE)
        canonical = mpslp.canonical(MPS, "mps").decode()
        self.prints(["canon", "--names-back", "a.lp"], 0, canonical)
        self.prints(["canon", "--names-back", "-f", "lp", "-"], 0, canonical, content=LP)
        self.prints(["canon", "--names-back", "--map", "a.json", "a.lp"], 0, canonical)
        self.prints(["canon", "--names-back", "-o", "b.mps", "a.lp"], 0)
        self.leaves(a_mps=MPS, a_lp=LP, a_json=TABLE, b_mps=canonical.encode())

    def test_a_solution(self):
        self.file("a.json", TABLE)
        self.file("a.sol", b"x_x5B1_x5D 4\n")
        self.prints(["canon", "--names-back", "a.sol"], 0, "x[1] 4\n")
        self.prints(["canon", "--names-back", "--map", "a.json", "-"], 0, "x[1] 4\n", content=b"x_x5B1_x5D 4\n")
        self.prints(["canon", "--names-back", "-o", "b.sol", "a.sol"], 0)
        self.leaves(a_json=TABLE, a_sol=b"x_x5B1_x5D 4\n", b_sol=b"x[1] 4\n")

    def test_nothing_is_replaced(self):
        """A warning and status 1, unless the map has no names."""
        self.file("a.json", TABLE)
        self.file("empty.json", b"{}\n")
        self.file("a.sol", b"x 4\n")
        self.file("a.lp", b"min x\nend\n")
        by_rule = "no name in it is one that --rename writes; for names that --for replaced, give --map\n"
        by_map = "none of the names that a.json has as written is in it\n"
        text = mpslp.canonical(b"min x\nend\n", "lp", "mps").decode()
        self.prints(["canon", "--names-back", "a.sol"], 1, "x 4\n", error=f"warning: a.sol: {by_rule}")
        self.prints(
            ["canon", "--names-back", "--map", "a.json", "a.sol"], 1, "x 4\n", error=f"warning: a.sol: {by_map}"
        )
        self.prints(["canon", "--names-back", "--map", "a.json", "a.lp"], 1, text, error=f"warning: a.lp: {by_map}")
        self.prints(["canon", "--names-back", "a.lp"], 1, text, error=f"warning: a.lp: {by_rule}")
        self.prints(["canon", "--names-back", "--map", "empty.json", "a.sol"], 0, "x 4\n")
        self.prints(
            ["adapt", "--names-back", "--map", "a.json", "a.sol"], 1, "x 4\n", error=f"warning: a.sol: {by_map}"
        )
        self.prints(["adapt", "--names-back", "--map", "empty.json", "a.sol"], 0, "x 4\n")

    def test_the_names_of_a_solver(self):
        self.file("a.mps", MPS)
        self.prints(["canon", "--for", "cbc", "--no-warnings", "--map", "a.json", "-o", "a.lp", "a.mps"], 0)
        names = mpslp.text_for(mpslp.load(MPS, "mps"), "cbc", "lp").names
        self.assertIn("x[1]", names)
        self.assertEqual(
            table_of((self.folder / "a.json").read_bytes()), {written: name for name, written in names.items()}
        )
        written = (self.folder / "a.lp").read_bytes()
        self.assertTrue(all(name.encode() in written for name in names.values()))
        self.file("a.sol", " ".join(names.values()).encode())
        self.prints(["canon", "--names-back", "--map", "a.json", "a.sol"], 0, " ".join(names))
        self.prints(["canon", "--for", "glpsol", "--no-warnings", "--map", "b.json", "-o", "a.glp", "a.mps"], 0)
        self.assertEqual((self.folder / "b.json").read_bytes(), b"{}\n")
        self.assertEqual(
            self.run_tools("canon", "--for", "cbc", "--map", "c.json", "--out-dir", "out", "a.mps").returncode, 3
        )
        hint = self.run_tools("canon", "--for", "cbc", "-o", "a.lp", "a.mps").stderr
        self.assertIn("--names-back --map FILE restores them", hint if isinstance(hint, str) else hint.decode())

    def test_names_that_are_too_long(self):
        name = "[" * 64
        self.file("a.mps", MPS.replace(b"2y", name.encode()))
        self.prints(
            ["canon", "-t", "lp", "--rename", "--map", "a.json", "a.mps"],
            2,
            error=f"a.mps: renamed for LP, a name has 256 bytes, and 255 are the most: {name}\n",
        )
        self.assertFalse((self.folder / "a.json").exists())

    def test_errors(self):
        self.file("a.mps", MPS)
        self.file("b.lp", b"min x_x41\nend\n")
        self.file("c.lp", b"min x y\nend\n")
        self.file("d.lp", LP)
        self.file("bad.json", b"[1]\n")
        usage = "python3 -m mpslp: error: "
        self.prints(["canon", "--names-back", "b.lp"], 2, error="b.lp: --rename writes no such name: x_x41\n")
        self.prints(["canon", "-t", "lp", "--rename", "c.lp"], 2, error="c.lp:1: BadToken: y\n")
        self.prints(["canon", "-t", "lp", "--names-back", "d.lp"], 2, error="d.lp: NotLp: objective free\n")
        self.prints(
            ["canon", "--rename", "a.mps"],
            3,
            error="--rename writes LP: give -t lp, or -o with a path that ends in .lp\n",
        )
        self.prints(
            ["canon", "--map", "a.json", "a.mps"], 3, error=usage + "--map goes with --rename, --for or --names-back\n"
        )
        self.prints(
            ["canon", "--names-back", "--map", "bad.json", "d.lp"],
            3,
            error="bad.json: it is not a JSON object of names\n",
        )
        self.prints(
            ["canon", "--names-back", "--map", "absent.json", "d.lp"],
            4,
            error="absent.json: No such file or directory\n",
        )
        self.prints(["canon", "--names-back", "absent.sol"], 4, error="absent.sol: No such file or directory\n")
        for words in (["-i"], ["--for", "glpsol"], ["a.mps"], ["--names-back"]):
            self.assertEqual(self.run_tools("canon", "-t", "lp", "--rename", *words, "a.mps").returncode, 3, words)
        self.assertEqual(self.run_tools("canon", "--names-back", "--map", "bad.json", "absent.sol").returncode, 4)

    def test_another_model_is_not_written(self):
        self.file("a.mps", MPS)
        with mock.patch.object(_call, "original_name", side_effect=lambda name: f"{original_name(name)}!"):
            self.prints(
                ["canon", "--rename", "-o", "a.lp", "--map", "a.json", "a.mps"],
                2,
                error="a.mps: internal error: the result is not the same model\n",
            )
        self.leaves(a_mps=MPS)


if __name__ == "__main__":
    unittest.main()
