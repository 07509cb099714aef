"""The messages about rejected files: the line with its caret, the one cause that fits it, and what to do.
docs/messages.tsv has most."""

import gzip
import pickle
import random
import re
import tempfile
import time
import unittest
from itertools import product
from pathlib import Path
from unittest import mock

import mpslp
from mpslp._files._sources import Text, format_number
from mpslp._messages import _place, message, verdict
from mpslp._messages._adapted import MENDS, MOST_TRIED
from mpslp._messages._case import Case
from mpslp._messages._excerpt import Mark, excerpt, readable
from mpslp._messages._mps_lines import Written
from mpslp._messages._nearest import nearest
from mpslp._messages._tokens import tokens_of
from mpslp._text._lines import line_at, line_with
from repository import EXAMPLES, VECTORS, model_files

MPS = "NAME\nROWS\n N  COST\n L  LIM\n G  MYG\nCOLUMNS\n    X  COST  1  LIM  1\n    Y  COST  2  MYG  1\n{}ENDATA\n"


def about(text, form, to=None, path="m"):
    """The message about a text that is rejected."""
    content = text.encode() if isinstance(text, str) else text
    try:
        mpslp.canonical(content, form, to)
    except mpslp.ModelFileError as error:
        return message(path, error, Text(content, format_number(form), None))
    raise AssertionError("it is accepted")


class Whole(unittest.TestCase):
    def test_a_line_of_mps(self):
        self.assertEqual(
            str(about(MPS.format("RHS\n    RHS  LIMM  4\n"), "mps", path="plan.mps")),
            """\
plan.mps:10: UnknownRow: LIMM
   4 |  L  LIM
     |     ^^^
  10 |     RHS  LIMM  4
     |          ^^^^
  cause: a row that is not in ROWS: usually a misspelt name; the nearest row is LIM, in line 4
  fix: add the row to ROWS, or correct its name: LIM""",
        )

    def test_the_line_of_the_mistake_before_that_of_the_report(self):
        self.assertEqual(
            str(about("min x + y\nst\nc2: x >= 2 y + 1\n\nc3: x <= 4\nend\n", "lp", path="plan.lp")),
            """\
plan.lp:5: BadToken: :
  3 | c2: x >= 2 y + 1
    |          ^^^^^^^
  5 | c3: x <= 4
    |   ^
  cause: terms or a parenthesised sum on the right
  fix: move all terms to the left and leave one number on the right: x - 2 y >= 1; mpslp-tools adapt FILE mends this""",
        )

    def test_a_whole_file(self):
        self.assertEqual(
            str(about(MPS.format("BOUNDS\n UP  BND  X  -4\n"), "mps")),
            """\
m: NegativeUpper: X
  10 |  UP  BND  X  -4
     |           ^
  cause: an upper bound below 0 without a lower bound
  fix: give the lower bound too""",
        )
        self.assertEqual(
            str(about("min x\n", "lp")),
            """\
m: MissingEnd
  cause: the last line is missing, and those before it are whole
  fix: fetch the file again if it may be cut; if it is complete, append the last line: end""",
        )
        self.assertEqual(
            str(about("min x +\n", "lp")),
            """\
m: MissingEnd
  cause: the file is truncated
  fix: fetch it again; if it is complete, append ENDATA (MPS) or end (LP)""",
        )

    def test_a_cause_that_no_rule_recognises(self):
        self.assertEqual(
            str(about("min x + y\nst\nd: x + y <= 9\ngenerals 4\nx\nend\n", "lp")),
            """\
m:4: BadToken: 4
  4 | generals 4
    |          ^
  cause: a word or a mark that does not fit; the number 4 in a list of columns, where a column, bounds or end may come \
after generals
  fix: correct it; mpslp-tools explain BadToken lists the usual causes""",
        )

    def test_rows_instead_of_a_set(self):
        self.assertEqual(
            str(about("min x + y\nst\nc: x + y <= 9\nbounds\nx <= 4\nsos1\ns: x:1, y:2\nend\n", "lp")),
            """\
m:6: Sos: sos1
  6 | sos1
    | ^^^^
  cause: special ordered sets; set s: at most one of x, y may be other than 0
  fix: not supported: without them the model has more solutions, and another optimum. Write them as rows with binary \
columns
    s_x: x - 4 x_on <= 0
    s_y: y - UPPER y_on <= 0
    s: x_on + y_on <= 1
    Binaries
     x_on y_on
    UPPER: the greatest value that the column of the row may have""",
        )

    def test_without_the_text(self):
        error = mpslp.ModelFileError("NegativeUpper", None, "X")
        self.assertEqual(str(message("plan.mps", error, None)), "plan.mps: NegativeUpper: X")

    def test_verdict(self):
        self.assertIsNone(verdict("m", Text(b"min x\nend\n", format_number("lp"), None)))
        self.assertEqual(
            verdict("m", Text(b"min x y\nend\n", format_number("lp"), None)), about("min x y\nend\n", "lp")
        )


class Mended(unittest.TestCase):
    """Whether a message names adapt, and what it writes out."""

    def test_adapt_is_named_where_it_mends(self):
        self.assertTrue(about("min x\nst\nc: x == 1\nend\n", "lp").fix.endswith(MENDS))
        self.assertNotIn("adapt", about("min x\nst\nc: x y <= 1\nend\n", "lp").fix)

    def test_adapt_is_not_named_where_it_reads_a_column(self):
        for row in (
            "c: x <= 4 tons",
            "c: x <= 1_000",
            "c: x <= 1O",
            "c: x <= nan",
            "c: x <= 0x10",
            "c: x <= 1d5",
            "c: x := 4",
        ):
            self.assertNotIn("adapt", about(f"min x\nst\n{row}\nend\n", "lp").fix, row)

    def test_a_large_file_is_not_adapted(self):
        for size, is_tried in ((MOST_TRIED - 1000, True), (MOST_TRIED + 1000, False)):
            text = "min x\nst\nc: x == 1\nend\n" + "\\ a comment\n" * (size // 12)
            with mock.patch("mpslp._adapt.adapt_text", side_effect=mpslp.AdaptError(None, "tried")) as adapt_text:
                about(text, "lp")
            self.assertEqual(adapt_text.called, is_tried)

    def test_rows_of_sets_and_indicators_permit_the_same_points(self):
        """For each point with the bounds, the condition holds if and only if some values of the binary columns meet the
        rows."""
        drawn = random.Random(4)
        for _ in range(40):
            count = drawn.randint(2, 4)
            columns = [f"x{number}" for number in range(count)]
            bounds = {column: (drawn.choice((0, 0, -2)), drawn.randint(1, 3)) for column in columns}
            kind = drawn.choice(("sos1", "sos2", "if0", "if1"))
            limit, relation = drawn.randint(-1, 4), drawn.choice(("<=", ">=", "="))
            parts = {"sos1": "sos1\ns: ", "sos2": "sos2\ns: "}
            lines = "".join(f"{low} <= {column} <= {high}\n" for column, (low, high) in bounds.items())
            if kind in parts:
                tail, row = (
                    parts[kind] + " ".join(f"{column}:{number}" for number, column in enumerate(columns, 1)) + "\n",
                    "",
                )
            else:
                tail, row = "", f"r: b = {kind[2]} -> {' + '.join(columns)} {relation} {limit}\n"
            made = about(
                f"min {' + '.join(columns)}\nst\nc: {' + '.join(columns)} <= 99\n{row}bounds\n{lines}{tail}end\n", "lp"
            )
            self.assertNotIn("UPPER", made.written)
            rows = made.written.partition("Binaries")[0].strip().split("\n")
            binaries = made.written.partition("Binaries")[2].split()
            for point in product(*(range(low, high + 1) for low, high in bounds.values())):
                for indicator in (0, 1) if row else (0,):
                    values = dict(zip(columns, point)) | {"b": indicator}
                    meets = any(
                        all(_is_met(each, values | dict(zip(binaries, chosen))) for each in rows)
                        for chosen in product((0, 1), repeat=len(binaries))
                    )
                    self.assertEqual(meets, _holds(kind, point, indicator, relation, limit), (made.written, values))


def _is_met(row, values):
    """Whether a row, with its label, holds."""
    left, relation, right = re.fullmatch(r"[^:]+: (.*) (<=|>=|=) (\S+)", row).groups()
    total = 0
    for sign, coefficient, name in re.findall(r"([-+]?) ?(?:([\d.]+) )?([a-z]\w*)", left):
        total += (-1 if sign == "-" else 1) * float(coefficient or 1) * values[name]
    return {"<=": total <= float(right), ">=": total >= float(right), "=": total == float(right)}[relation]


def _holds(kind, point, indicator, relation, limit):
    others = [number for number, value in enumerate(point) if value]
    if kind == "sos1":
        return len(others) <= 1
    if kind == "sos2":
        return len(others) <= 1 or (len(others) == 2 and others[1] == others[0] + 1)
    total = sum(point)
    return indicator != int(kind[2]) or {"<=": total <= limit, ">=": total >= limit, "=": total == limit}[relation]


class LinesOfMps(unittest.TestCase):
    """What the fields of a rejected line are, and the edits with which it fits."""

    def test_each_edit_gets_past_its_line(self):
        text = MPS.format("RHS\n    RHS  LIM  4\nBOUNDS\n UP  BND  X  4\n")
        lines = text.splitlines()
        changed = random.Random(3)
        tried = 0
        for number, line in enumerate(lines):
            fields = line.split()
            if not line.startswith(" ") or len(fields) < 2:
                continue
            for _ in range(12):
                others = fields[:]
                at = changed.randrange(len(fields))
                others[at : at + 2] = changed.choice(
                    ([*others[at : at + 2]][::-1], ["".join(others[at : at + 2])], [], [others[at]] * 3)
                )
                edited = [*lines[:number], "    " + "  ".join(others), *lines[number + 1 :]]
                tried += self._check("\n".join(edited) + "\n")
        self.assertGreater(tried, 20)

    def _check(self, text):
        """Whether the text is rejected; the first edit of its line has to leave no error of that line."""
        content = text.encode()
        try:
            mpslp.is_canonical(content, "mps")
        except mpslp.ModelFileError as error:
            case = Case(Text(content, format_number("mps"), None), error)
            if error.line is None or not case.edits:
                return 0
            edit = case.edits[0]
            if not any(isinstance(field, Written) for field in edit.texts):
                lines = text.splitlines()
                lines[error.line - 1 : error.line] = [" " + " ".join(fields) for fields in edit.lines]
                with self.subTest(line=case.line.content, edit=edit):
                    self.assertNotIn(f"line {error.line}:", self._error("\n".join(lines) + "\n"))
            return 1
        return 0

    @staticmethod
    def _error(text):
        try:
            mpslp.is_canonical(text.encode(), "mps")
        except mpslp.ModelFileError as error:
            return str(error)
        return ""

    def test_what_a_field_is(self):
        found = about(MPS.format("RHS\n    RHS  LIM  X  4\n"), "mps")
        self.assertIn("field 3 is X, a column, where a number is expected", found.cause)
        found = about(MPS.format("BOUNDS\n UP  BND  LIM  4\n"), "mps")
        self.assertEqual(found.cause, "a row in the field of a column; LIM is a row")

    def test_a_line_of_a_large_file_takes_about_the_time_of_reading_it(self):
        columns = "".join(f"    C{number}  COST  1  R{number % 500}  1\n" for number in range(60_000))
        rows = "".join(f" L  R{number}\n" for number in range(500))
        text = f"NAME\nROWS\n N  COST\n{rows}COLUMNS\n{columns}RHS\n    RHS  {'R1' * 20}  4\nENDATA\n"
        started = time.process_time()
        self._error(text)
        reading, started = time.process_time() - started, time.process_time()
        about(text, "mps")
        self.assertLess(time.process_time() - started, 10 * reading + 1)

    def test_members_of_a_set_between_markers(self):
        columns = "    S1  SET  'MARKER'  'SOSORG'\n    X  COST  1\n    Y  COST  1\n    S1  SET  'MARKER'  'SOSEND'\n"
        text = f"NAME\nROWS\n N  COST\nCOLUMNS\n{columns}BOUNDS\n UP  BND  X  4\n UP  BND  Y  3\nENDATA\n"
        self.assertEqual(
            about(text, "mps").written.split("\n"),
            ["SET_X: X - 4 X_on <= 0", "SET_Y: Y - 3 Y_on <= 0", "SET: X_on + Y_on <= 1", "Binaries", " X_on Y_on"],
        )

    def test_lines_with_the_same_text_before_them(self):
        for before, detail in (("> ", "each line starts with >"), ("\t", "each line starts with a tab")):
            text = "".join(f"{before}{line}\n" for line in MPS.format("").splitlines())
            self.assertTrue(about(text, "mps").cause.endswith(detail))


class OfAnError(unittest.TestCase):
    def test_of_a_file_that_is_read_again(self):
        with tempfile.TemporaryDirectory() as folder:
            path = Path(folder) / "plan.lp.gz"
            path.write_bytes(gzip.compress(b"min x y\nend\n"))
            with self.assertRaises(mpslp.ModelFileError) as caught:
                mpslp.load(path)
            self.assertEqual(caught.exception.message(), str(about("min x y\nend\n", "lp", path=str(path))))
            self.assertEqual(pickle.loads(pickle.dumps(caught.exception)).message(), caught.exception.message())
            path.unlink()
            with self.assertRaises(FileNotFoundError):
                caught.exception.message()

    def test_of_bytes(self):
        with self.assertRaises(mpslp.ModelFileError) as caught:
            mpslp.load(b"min x y\nend\n", "lp")
        self.assertEqual(
            caught.exception.message(b"min x y\nend\n", "lp"), str(about("min x y\nend\n", "lp", path="<text>"))
        )
        self.assertEqual(caught.exception.message(), "<text>:1: BadToken")


class Excerpts(unittest.TestCase):
    def test_long_lines(self):
        """Of a long line the part around the caret is shown, whatever is in it."""
        for filling in ("x" * 200, "\u00f6" * 200, "\t" * 200, "\x07" * 200):
            for before in (0, 1, 59, 60, 61, 99, 100, 101, 200):
                line = (filling[:before] + "HERE" + filling).encode()
                start = line.index(b"HERE")
                shown = excerpt([Mark(7, line, start, start + 4)]).split("\n")
                with self.subTest(filling[0], before=before):
                    self.assertEqual(shown[0][:6], "  7 | ")
                    at = shown[1].index("^")
                    self.assertEqual(shown[0][at : at + 4], "HERE")
                    self.assertEqual(shown[1][at:], "^^^^")
                    self.assertTrue(shown[0].endswith("..."))
                    self.assertLess(len(shown[0]), 500)

    def test_two_parts_of_a_line(self):
        self.assertEqual(
            excerpt([Mark(10, b"a b a", 4, 5), Mark(10, b"a b a", 0, 1), Mark(9, b"", 0, 1)]),
            "   9 |\n     | ^\n  10 | a b a\n     | ^   ^",
        )
        self.assertEqual(excerpt([]), "")

    def test_bytes_that_are_not_printable(self):
        for content, wanted in (
            (b"gr\xf6\xdfe", r"gr\xf6\xdfe"),
            ("gr\u00f6\u00dfe".encode(), "gr\u00f6\u00dfe"),
            (b"a\x07\x00b\x7f", r"a\x07\x00b\x7f"),
            ("\u202eabc\u2028".encode(), r"\u202eabc\u2028"),
            (b"a\tb", "a    b"),
            (b"\x1b[31m", r"\x1b[31m"),
        ):
            self.assertEqual(readable(content), wanted)

    def test_no_control_character_is_printed(self):
        drawn = random.Random(5)
        for _ in range(300):
            content = bytes(drawn.randrange(256) for _ in range(drawn.randrange(1, 400)))
            shown = excerpt([Mark(1, content, drawn.randrange(len(content)), len(content))])
            self.assertTrue(shown.replace("\n", "").isprintable())


class Parts(unittest.TestCase):
    def test_lines(self):
        content = b"a\nb\r\n\nlast\r"
        self.assertEqual([line_at(content, number).content for number in (1, 2, 3, 4)], [b"a", b"b", b"", b"last\r"])
        many = b"line\n" * 500_000
        for number in (1, 2, 209_715, 209_716, 209_717, 500_000):
            self.assertEqual(line_at(many, number)[:2], (number, 5 * (number - 1)))
            self.assertEqual(line_with(many, 5 * (number - 1) + 4), line_at(many, number))

    def test_nearest_names(self):
        for name, names, wanted in (
            ("LIMM", ["LIM", "COST"], "LIM"),
            ("lim", ["LIM", "LIMM"], "LIM"),
            ("Q", ["LIM"], None),
            ("x10", [f"yy{number}" for number in range(50_000)] + ["x1"], "x1"),
            ("ab", ["ba"], "ba"),
            ("ab", ["abc"], "abc"),
            ("ab", ["cab"], "cab"),
            ("ab", ["acb"], "acb"),
            ("x", ["xy"], "xy"),
            ("product", ["prodcut"], "prodcut"),
            ("UPPER_LIMIT", ["upper_limit", "UPPER_LIMITS"], "upper_limit"),
            ("anything", [], None),
            ("same", ["same"], None),
        ):
            self.assertEqual(nearest(name, names), wanted, name)

    def test_tokens_have_their_lines(self):
        self.assertEqual(
            [(each.text, each.line, each.start, each.end) for each in tokens_of(b"min x \\ a + b\n\n st\nx<=1e5", 3)],
            [("min", 3, 0, 3), ("x", 3, 4, 5), ("st", 5, 1, 3), ("x", 6, 0, 1), ("<=", 6, 1, 3), ("1e5", 6, 3, 6)],
        )

    def test_a_large_lp_text_is_read_in_part(self):
        """The token is found among the last rows or bounds; what is before them is not read again."""
        with mock.patch.multiple(_place, _MOST_WHOLE=100, _MOST_OF_LP=100, _MOST_BEFORE=60):
            rows = "".join(f"row{number}: x + y <= {number}\n" for number in range(30))
            for tail, words in (
                ("bad: x y <= 1\nend\n", "y"),
                ("bounds\nx <= 4\n2 y <= 4\nend\n", "y"),
                ("bounds\n" + "x >= -1\n" * 20 + "end\n", "x"),
                ("row0: x <= 1\nend\n", "row0"),
            ):
                self.assertEqual(about(f"min x\nst\n{rows}{tail}", "lp").words, words)


class Robust(unittest.TestCase):
    def test_files_that_are_damaged_anyhow(self):
        """There is a message for each rejected text, with its line, and parts of it under the carets."""
        drawn = random.Random(76)
        pieces = [
            b" ",
            b"\n",
            b":",
            b"<=",
            b"=",
            b"+",
            b"-",
            b"1",
            b"x",
            b"'MARKER'",
            b"\nRHS\n",
            b"\nBOUNDS\n",
            b"\nst\n",
            b"end",
            b",",
            b";",
            b"[",
            b"*",
            b"\t",
            b"\r",
            b"\xf6",
            b"\xc3\xb6",
            b"free",
            b"inf",
            b"nan",
            b"\nbounds\n",
            b"//",
            b"\\",
            b"\nROWS\n",
            b" UP ",
            b" FR ",
            b"max:",
            b"\x00",
        ]
        files = [
            (path.read_bytes(), path.suffix[1:])
            for path in (*model_files(EXAMPLES), *model_files(VECTORS))
            if path.stat().st_size < 3000
        ]
        rejected = 0
        for _ in range(2000):
            content, form = drawn.choice(files)
            for _ in range(drawn.randrange(1, 3)):
                at = drawn.randrange(len(content) + 1)
                content = content[:at] + drawn.choice([b"", drawn.choice(pieces)]) + content[at + drawn.randrange(5) :]
            try:
                mpslp.canonical(content, form, drawn.choice([form, "lp"]))
            except mpslp.ModelFileError as error:
                rejected += 1
                with self.subTest(content):
                    made = message("m", error, Text(content, format_number(form), None))
                    self.assertTrue(
                        made.first.startswith("m" if error.line is None else f"m:{error.line}: {error.kind}")
                    )
                    self.assertTrue(made.cause and made.fix)
                    self.assertTrue(
                        error.line is None or f" {error.line} | " in f"{made.excerpt}\n".replace("|\n", "| \n")
                    )
                    self.assertTrue(str(made).replace("\n", "").isprintable())
        self.assertGreater(rejected, 1000)

    def test_large_texts(self):
        """A message takes a small part of the time of reading the text."""
        columns = "".join(f"    X{number}  COST  1  LIM  1\n" for number in range(200_000))
        text = MPS.replace("{}", columns + "BOUNDS\n UP  BND  X19999O  4\n").encode()
        begun = time.process_time()
        made = about(text, "mps")
        self.assertIn("the nearest column is X19999", made.cause)
        self.assertLess(time.process_time() - begun, 10)


if __name__ == "__main__":
    unittest.main()
