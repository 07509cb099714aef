"""The package as Python finds it: its version, names, help and types, and further interpreters."""

import inspect
import os
import pickle
import pydoc
import subprocess
import sys
import typing
import unittest
from decimal import Decimal
from fractions import Fraction
from importlib import metadata

import mpslp
from repository import EXAMPLES, ROOT

sys.path.insert(0, str(ROOT / "python"))

from wheel_tag import PLATFORM, excesses  # noqa: E402
from wheel_tag import name as wheel_name  # noqa: E402

PUBLIC = [
    each
    for each in (getattr(mpslp, name) for name in mpslp.__all__)
    if inspect.isclass(each) or inspect.isfunction(each)
]

# What objdump prints of a shared object, in part.
HEADERS = """
Dynamic Section:
  NEEDED               libc.so.6
  NEEDED               libm.so.6

Version References:
  required from libc.so.6:
    0x06969194 0x00 05 GLIBC_2.14
    0x069691b4 0x00 03 GLIBC_2.34
    0x09691a75 0x00 02 GLIBC_2.2.5
"""

IN_AN_INTERPRETER = """
try:
    import _interpreters as interpreters
except ImportError:
    import _xxsubinterpreters as interpreters
import sys, threading
sys.path[:0] = {path!r}
import mpslp
for _ in range(3):
    each = interpreters.create()
    failed = interpreters.run_string(each, '''
import sys
sys.path[:0] = {path!r}
import mpslp
assert mpslp.load({file!r}).rows["weight"].upper.as_tuple() == (0, (4, 5), -1)
try:
    mpslp.canonical(b"", "lp")
except mpslp.ModelFileError as error:
    assert str(error) == "file: MissingEnd"
else:
    raise AssertionError
''')
    assert failed is None, failed
    interpreters.destroy(each)
print(mpslp.load({file!r}).objective)
"""


class Package(unittest.TestCase):
    def test_version(self):
        self.assertEqual(mpslp.__version__, (ROOT / "VERSION").read_text().strip())
        self.assertEqual(mpslp.__version__, metadata.version("mpslp"))

    def test_names_are_public(self):
        self.assertGreater(len(PUBLIC), 5)
        for each in PUBLIC:
            with self.subTest(each):
                self.assertEqual(each.__module__, "mpslp")
                self.assertIs(pickle.loads(pickle.dumps(each)), each)
                self.assertNotIn("mpslp._", repr(each))
        self.assertEqual(repr(mpslp.Model), "<class 'mpslp.Model'>")
        self.assertEqual(repr(mpslp.Row("r", 0, 1)), "mpslp.Row(name='r', lower=Decimal('0'), upper=Decimal('1'))")
        self.assertEqual(eval(repr(mpslp.Row("r", 0))), mpslp.Row("r", 0))
        self.assertEqual(eval(repr(mpslp.Column("x", entries={"r": 1}))), mpslp.Column("x", entries={"r": 1}))

    def test_modules_that_few_programs_need_are_imported_later(self):
        """Neither the package nor its help, list of names or errors import them."""
        loads = (
            "import sys, mpslp; dir(mpslp); hasattr(mpslp, 'none'); mpslp.load(b'min x\\nend\\n', 'lp'); "
            "print(*sys.modules)"
        )
        imports = "import sys; from mpslp import *; print(*sys.modules)"
        few, all_modules = (
            subprocess.run([sys.executable, "-c", code], capture_output=True, text=True, check=True).stdout.split()
            for code in (loads, imports)
        )
        for name in ("_adapt", "_models._differences", "_portable", "_solver_texts", "_survey", "_warnings"):
            self.assertNotIn(f"mpslp.{name}", few)
            self.assertIn(f"mpslp.{name}", all_modules)

    def test_each_name_by_itself(self):
        """Whichever name of a module that is imported later is used first, it is found, and is one of the package."""
        for name in (each for names in mpslp._LATER.values() for each in (names[0], names[-1])):
            with self.subTest(name):
                code = (
                    f"import pickle; from mpslp import {name}; print(getattr({name}, '__module__', 'mpslp')); "
                    f"pickle.dumps({name})"
                )
                done = subprocess.run([sys.executable, "-c", code], capture_output=True, text=True)
                self.assertEqual((done.stderr, done.stdout.strip() in ("mpslp", "typing", "types")), ("", True))

    def test_a_name_that_is_not_there(self):
        with self.assertRaises(AttributeError) as caught:
            mpslp.none
        self.assertEqual(str(caught.exception), "module 'mpslp' has no attribute 'none'")
        self.assertEqual({*mpslp.__all__} - {*dir(mpslp)}, set())

    def test_types_can_be_asked_for(self):
        for each in PUBLIC:
            with self.subTest(each):
                self.assertIsInstance(typing.get_type_hints(each), dict)
        self.assertEqual(typing.get_type_hints(mpslp.load)["return"], mpslp.Model)
        self.assertEqual(typing.get_type_hints(mpslp.Row)["lower"], Decimal)

    def test_help_has_the_fields(self):
        for each, words in (
            (mpslp.Row, ("The lower limit", "The upper limit", "nonzero coefficients of columns")),
            (
                mpslp.Column,
                (
                    "The lower bound",
                    "'semi-continuous'",
                    "coefficient in the objective",
                    "nonzero coefficients in rows",
                ),
            ),
            (mpslp.Model, ("The name of the objective", "added to the objective", "The rows by name", "SHA-256")),
            (mpslp.Differences, ("verdict\n", '"close"', "digits")),
            (mpslp.EntryDifference, ("0 if there is none", "entry MYG Y: 1.5 -> 0")),
            (
                mpslp.ModelFileError,
                ("kind\n", "line\n", "name\n", "place\n", "number\n", "which\n", "filename\n", "explanation\n"),
            ),
        ):
            text = pydoc.render_doc(each, renderer=pydoc.plaintext)
            for word in words:
                with self.subTest(each, word=word):
                    self.assertIn(word, text)

    def test_fractions_of_all_numbers(self):
        for number, wanted in (
            (3, Fraction(3)),
            (0.5, Fraction(1, 2)),
            (Fraction(1, 3), Fraction(1, 3)),
            (Decimal("1e500"), Fraction(10**500)),
            (float("inf"), None),
            (Decimal("-Infinity"), None),
            (10**400, Fraction(10**400)),
        ):
            with self.subTest(number):
                self.assertEqual(mpslp.fraction(number), wanted)

    def test_formats_as_bytes_where_these_are_errors(self):
        program = "import mpslp\ntry: mpslp.canonical(b'', b'mps')\nexcept ValueError as error: print(error)"
        done = subprocess.run([sys.executable, "-bb", "-c", program], capture_output=True, text=True)
        self.assertEqual((done.stdout, done.stderr), ("unknown format: b'mps' is neither 'mps' nor 'lp'\n", ""))

    def test_further_interpreters(self):
        program = IN_AN_INTERPRETER.format(path=sys.path, file=str(EXAMPLES / "semi.mps"))
        # What is freed is overwritten, so that its use shows.
        environment = {**os.environ, "PYTHONMALLOC": "debug"}
        done = subprocess.run([sys.executable, "-c", program], env=environment, capture_output=True, text=True)
        self.assertEqual((done.returncode, done.stdout, done.stderr), (0, "use\n", ""))


class Tag(unittest.TestCase):
    """What a wheel may need of the system, by its tag."""

    def test_nothing_newer_than_the_tag_says(self) -> None:
        self.assertEqual(list(excesses(HEADERS)), [])
        self.assertEqual(list(excesses(HEADERS, (2, 33))), ["the version GLIBC_2.34"])
        self.assertEqual(list(excesses(HEADERS.replace("2.34", "2.38"))), ["the version GLIBC_2.38"])
        self.assertEqual(list(excesses(HEADERS.replace("GLIBC_2.14", "GCC_3.0"))), ["the version GCC_3.0"])

    def test_no_other_library(self) -> None:
        self.assertEqual(list(excesses(HEADERS.replace("libm.so.6", "libgmp.so.10"))), ["the library libgmp.so.10"])

    def test_the_name_has_the_tag(self) -> None:
        self.assertTrue(wheel_name().endswith(f"-cp310-abi3-{PLATFORM}.whl"))


if __name__ == "__main__":
    unittest.main()
