"""Texts that are made to be slow take time proportional to their size, also in what is not proved."""

import bz2
import gzip
import itertools
import lzma
import tempfile
import time
import unittest
from pathlib import Path

import mpslp

LP_HEAD = "min\n obj: x\nst\n"
MPS_HEAD = "NAME T\nROWS\n N COST\n L LIM\nCOLUMNS\n"
MPS_END = "RHS\nENDATA\n"
LINE_END = "\n"
RELATION_IN_COMMENT = "\\<\n"


def lp(*lines):
    """A file that adapt has to change, with these lines after its rows."""
    return LP_HEAD + " x + 1 >= 2\n" + "".join(f"{line}\n" for line in lines) + "end\n"


def mps(*lines):
    return MPS_HEAD + " X LIM 1\n" + "".join(f"{line}\n" for line in lines) + "ENDATA\n"


def each(count, line):
    """Lines with the numbers from 0 on in the place of the braces."""
    return [line.replace("{}", str(number)) for number in range(count)]


ACCENTS = "\u0301\u0316"
"""Two accents that Unicode puts in another order."""

# Files of about a size for adapt, with what reads each in quadratic time if it is written carelessly.
FOR_ADAPT = {
    "digits before a letter": ("lp", lambda size: lp(f" x >= {'1' * size}x")),
    "digits of a coefficient": ("mps", lambda size: mps(f" Y LIM {'1' * size}x")),
    "digits of a limit": ("lp", lambda size: lp(f" x + 3 >= {'1' * size}")),
    "digits of a right-hand side": ("mps", lambda size: mps("RHS", f" RHS LIM {'1' * size}")),
    "digits of an exponent": ("mps", lambda size: mps("RHS", f" RHS LIM 1e{'1' * size}")),
    "bounds of a column": ("lp", lambda size: lp("bounds", *each(size // 10, "x <= {}"))),
    "sections": ("lp", lambda size: lp(*["bounds", "st"] * (size // 10))),
    "headers": ("mps", lambda size: "OBJSENSE MAX\n" * (size // 13) + mps()),
    "long names": ("mps", lambda size: mps(*each(size // 275, f" {'b' * 260}{{}} LIM 1"))),
    "accents": ("mps", lambda size: mps(f" a{ACCENTS * (size // 4)} LIM 1")),
    "words that are not the end": ("lp", lambda size: lp("generals", "end " * (size // 4) + "x")),
    "right sides that are a name": ("lp", lambda size: lp(*["sos1: x + y = S1"] * (size // 17), "S1 >= 2")),
    "integer columns": ("mps", lambda size: mps(" M 'MARKER' 'INTORG'", *each(size // 13, " Y{} LIM 1"))),
    "constants of the objective": ("mps", lambda size: mps("RHS", *[" RHS COST 1"] * (size // 12))),
    "lines without a set": (
        "mps",
        lambda size: mps(
            "RHS", " RHS LIM 1", "BOUNDS", " UP BND X 1", *each(size // 28, "RHS\n LIM {}\nBOUNDS\n UP X {}")
        ),
    ),
    "empty lines": ("lp", lambda size: f"//{LINE_END * size}{lp()}"),
    "spaces after a relation": ("lp", lambda size: f"{LP_HEAD} x <{' ' * size}1\nend\n"),
    "relations in comments": ("lp", lambda size: f"{LP_HEAD} x <= 1\n{RELATION_IN_COMMENT * (size // 3)}end\n"),
}
DIALECTS = (None, "coinutils", "glpsol", "lp_solve", "pulp", "qsopt")


def seconds_of_adapt(text, format, dialect):
    begun = time.process_time()
    try:
        mpslp.adapt(text.encode(), format, dialect)
    except mpslp.AdaptError as error:
        assert "internal error" not in str(error), error
    return time.process_time() - begun


class CraftedForAdapt(unittest.TestCase):
    # Ten times the size takes some ten times as long, and a hundred times in quadratic time. Processors that are shared
    # are half as fast at times.
    SIZE = 5_000
    MOST_GROWTH = 30
    SECONDS_OF_NOISE = 0.1

    def test_growth(self):
        for name, (format, text_of) in FOR_ADAPT.items():
            small, large = (text_of(size) for size in (self.SIZE, 10 * self.SIZE))
            for dialect in DIALECTS:
                with self.subTest(name, dialect=dialect):
                    seconds = seconds_of_adapt(large, format, dialect)
                    if seconds > self.SECONDS_OF_NOISE:
                        least = min(seconds_of_adapt(small, format, dialect) for _ in range(3))
                        again = min(seconds_of_adapt(large, format, dialect) for _ in range(2))
                        self.assertLess(min(seconds, again), self.MOST_GROWTH * least + self.SECONDS_OF_NOISE)

    def test_long_line_without_spaces(self):
        text = lp("+".join(each(200_000, "x{}")) + ">=1").encode()
        begun = time.process_time()
        with self.assertRaises(mpslp.AdaptError) as caught:
            mpslp.adapt(text, "lp")
        self.assertLess(time.process_time() - begun, Crafted.MOST_SECONDS)
        self.assertIn("no space to break it", str(caught.exception))

    def test_digits_that_are_no_number_of_python(self):
        digits = "1" * 5000
        for format, text, reason in (
            ("lp", lp(f" {digits} x >= 1"), "36 digits"),
            ("lp", lp(f" 1e{digits} x >= 1"), "36 digits"),
            ("mps", mps(f" Y LIM {digits}"), "36 digits"),
            ("mps", mps(f" Y LIM 1e-{digits}"), "36 digits"),
            ("mps", mps(f" Y LIM {digits}/{digits}"), "not a finite decimal"),
        ):
            with self.subTest(text[-20:]), self.assertRaises(mpslp.AdaptError) as caught:
                mpslp.adapt(text.encode(), format)
            self.assertIn(reason, str(caught.exception))

    def test_word_that_is_cut_off(self):
        with self.assertRaisesRegex(mpslp.AdaptError, "the file ends within the word semi-continuous"):
            mpslp.adapt(f"{LP_HEAD} x + 1 >= 2\nsemi-".encode(), "lp")

    def test_digits_that_are_infinite(self):
        digits = "1" * 5000
        self.assertIn(b"RHS LIM 1e30\n", mpslp.adapt(mps("RHS", f" RHS LIM {digits}").encode(), "mps").text)
        self.assertIn(b"x <= inf\n", mpslp.adapt(lp(f" x + 1 <= 1e{digits}").encode(), "lp").text)

    def test_constant_of_glpsol(self):
        for number, reason in (("1" * 5000, "36 digits"), ("1e" + "9" * 5000, "36 digits")):
            with self.subTest(number[:4]), self.assertRaises(mpslp.AdaptError) as caught:
                mpslp.adapt(f"\\* constant term = {number} *\\\n{lp()}".encode(), "lp", "glpsol")
            self.assertIn(reason, str(caught.exception))
        text = f"\\* constant term = 1.2.3 *\\\n{lp()}".encode()
        self.assertIn(b"obj: x\n", mpslp.adapt(text, "lp", "glpsol").text)


class Crafted(unittest.TestCase):
    # Each takes at most a second or two; with quadratic time it would be at least half a minute.
    MOST_SECONDS = 10

    def assert_fast(self, call, text, *arguments):
        begun = time.process_time()
        done = call(text.encode(), *arguments)
        self.assertLess(time.process_time() - begun, self.MOST_SECONDS)
        return done

    def test_spaces_in_a_comment(self):
        text = f"* sense{' ' * 100_000}x\n{MPS_HEAD} X LIM 1\n{MPS_END}"
        self.assertEqual(self.assert_fast(mpslp.warnings_of, text, "mps"), ())

    def test_names_that_may_be_meant(self):
        rows = "".join(f" x{number:07d} >= 1\n" for number in range(4000))
        bounds = "".join(f" y{number:07d} <= 1\n" for number in range(5000))
        found = self.assert_fast(mpslp.warnings_of, f"{LP_HEAD}{rows}bounds\n{bounds}end\n", "lp")
        self.assertEqual([each.kind for each in found], ["late-name"] * 5000)
        self.assertIn("the name x0000000 is there", str(found[0]))
        self.assertNotIn("is there", str(found[-1]))

    def test_spaces_after_a_name(self):
        rows = f" r : {'x' * 255}{' ' * 1_000_000}>= 1\n"
        found = self.assert_fast(mpslp.warnings_of, f"{LP_HEAD}{rows}bounds\n late <= 4\nend\n", "lp")
        self.assertEqual(len(found), 1)

    def test_objective_after_all_rows(self):
        rows = "".join(f" L r{number}\n" for number in range(50_000))
        numbers = "".join(f" S r{number} 1\n" for number in range(50_000))
        text = f"NAME T\nROWS\n{rows} N COST\nCOLUMNS\n X COST 1\nRHS\n{numbers}ENDATA\n"
        self.assertEqual(self.assert_fast(mpslp.portability, text, "mps"), ())

    def test_names_that_become_the_same(self):
        names = ("".join(letters) for letters in itertools.product("/|", repeat=15))
        columns = "".join(f" x{name} LIM 1\n" for name in names)
        made = self.assert_fast(lambda text: mpslp.load(text, "mps"), f"{MPS_HEAD}{columns}{MPS_END}")
        begun = time.process_time()
        text = mpslp.text_for(made, "clp", "lp")
        self.assertLess(time.process_time() - begun, self.MOST_SECONDS)
        self.assertIn(b"_32768", text)

    def test_many_compressed_parts(self):
        text = b"min x\nend\n"
        with tempfile.TemporaryDirectory() as folder:
            for ending, pack in (("gz", gzip.compress), ("bz2", bz2.compress), ("xz", lzma.compress)):
                with self.subTest(ending):
                    path = Path(folder, f"small.lp.{ending}")
                    path.write_bytes(pack(text) + pack(b"") * 200_000)
                    begun = time.process_time()
                    self.assertEqual(list(mpslp.load(path).columns), ["x"])
                    self.assertLess(time.process_time() - begun, self.MOST_SECONDS)
