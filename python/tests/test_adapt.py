"""Files of other dialects: the call, the command, and what both report; the rules are tested by
python/tests/adapt_rules.py."""

import contextlib
import gzip
import io
import json
import os
import random
import subprocess
import sys
import tempfile
import unittest
from dataclasses import FrozenInstanceError
from pathlib import Path
from unittest import mock

import adapt_rules
import mpslp
from mpslp import _adapt
from mpslp._adapt import _changes, _check_lp, _check_mps, _check_words, _lp
from mpslp._adapt._lp_plain import PlainStatements
from mpslp._adapt._lp_tokens import Tokens
from mpslp._adapt._writers import writer_of
from repository import EXAMPLES, ROOT

PLAN = b"max\n p: 3 x[1] + 2 y\nst\n c: x[1] + y + 3 <= 5\n d: x[1] >= y\nend\n"
ADAPTED = b"max\n p: 3 x(1) + 2 y\nst\n c: x(1) + y <= 2\n d: x(1) - y >= 0\nend\n"


ROWS = "ROWS\n N  C\n L  A\n"
REJECTED = (
    ("MissingEnd", None, f"{ROWS}COLUMNS\n    X  C  1\n"),
    ("ColumnSplit", 7, f"{ROWS}COLUMNS\n    X  C  1\n    Y  C  1\n    X  A  1\nENDATA\n"),
    ("DuplicateBound", 8, f"{ROWS}COLUMNS\n    X  C  1\nBOUNDS\n UP  B  X  1\n UP  B  X  2\nENDATA\n"),
    ("BoundsCrossed", None, f"{ROWS}COLUMNS\n    X  C  1\nBOUNDS\n UP  B  X  1\n LO  B  X  2\nENDATA\n"),
    ("NoColumns", None, f"{ROWS}COLUMNS\nENDATA\n"),
    ("NegativeUpper", 7, f"{ROWS}COLUMNS\n    X  C  1\nBOUNDS\n UP  B  X  -1\nENDATA\n"),
)
"""Texts that no rule mends: the kind of the error, the line of the AdaptError, and the text."""


class Calls(unittest.TestCase):
    def test_the_text_and_its_changes(self):
        done = mpslp.adapt(PLAN, "lp")
        self.assertEqual(done.text, ADAPTED)
        self.assertEqual(done.format, "lp")
        self.assertEqual(done.names, {"x[1]": "x(1)"})
        self.assertEqual(
            {(each.line, each.kind) for each in done.changes},
            {(2, "name"), (4, "name"), (4, "constant-in-row"), (5, "name"), (5, "terms-on-the-right")},
        )
        self.assertEqual(str(done.changes[0]), "2: name: x[1] -> x(1)")
        self.assertEqual(mpslp.load(done.text, done.format).rows["c"].upper, 2)

    def test_records_are_frozen(self):
        done = mpslp.adapt(PLAN, "lp")
        with self.assertRaises(FrozenInstanceError):
            done.format = "mps"
        with self.assertRaises(FrozenInstanceError):
            done.changes[0].line = 1

    def test_what_is_read_stays(self):
        for path in sorted((*EXAMPLES.iterdir(), *(ROOT / "vectors").iterdir())):
            if path.suffix not in (".mps", ".lp"):
                continue
            try:
                mpslp.canonical(path, path.suffix[1:], "mps")
            except mpslp.ModelFileError:
                continue
            with self.subTest(path.name):
                done = mpslp.adapt(path)
                self.assertEqual((done.text, done.changes), (path.read_bytes(), ()))

    def test_no_other_error_than_its_own(self):
        for path in sorted((ROOT / "vectors").iterdir()):
            if path.suffix in (".mps", ".lp"):
                with self.subTest(path.name), contextlib.suppress(mpslp.AdaptError):
                    mpslp.adapt(path)

    def test_the_examples_of_the_rules(self):
        found, tried = adapt_rules.check(None)
        self.assertEqual(found, [])
        self.assertGreater(tried, 50)

    def test_a_text_that_is_left(self):
        with tempfile.TemporaryDirectory() as folder:
            path = Path(folder) / "square.lp"
            path.write_text("min x\nst\nc: x ^ 2 <= 4\nend\n")
            with self.assertRaisesRegex(mpslp.AdaptError, r"square\.lp:3: a quadratic term") as caught:
                mpslp.adapt(path)
        self.assertEqual(caught.exception.line, 3)
        self.assertIsInstance(caught.exception, ValueError)

    def test_kinds_that_are_not_wanted(self):
        with self.assertRaisesRegex(mpslp.AdaptError, "^4: a change of the kind constant-in-row is needed"):
            mpslp.adapt(PLAN, "lp", strict=["constant-in-row"])
        with self.assertRaisesRegex(ValueError, "unknown kind of changes: 'constants' is none of"):
            mpslp.adapt(PLAN, "lp", strict=["constants"])
        with self.assertRaisesRegex(TypeError, "strict is a collection of kinds"):
            mpslp.adapt(PLAN, "lp", strict="name")

    def test_the_kinds_are_those_of_the_examples(self):
        rows = adapt_rules.rows()
        found = {
            (row["format"], row["kind"])
            for row in rows
            if row["kind"] not in (*adapt_rules.LEFT_OR_NOTED, *_changes.FILE_KINDS)
        }
        self.assertEqual(
            found, {*(("mps", kind) for kind in _changes.MPS_KINDS), *(("lp", kind) for kind in _changes.LP_KINDS)}
        )

    def test_what_is_still_rejected_is_left(self):
        for kind, line, text in REJECTED:
            with self.subTest(kind), self.assertRaisesRegex(mpslp.AdaptError, kind) as caught:
                mpslp.adapt(text.encode(), "mps")
            self.assertEqual(caught.exception.line, line)
            with self.subTest(kind), self.assertRaisesRegex(mpslp.ModelFileError, kind):
                mpslp.load(text.encode(), "mps")

    def test_a_rejection_has_the_line_of_the_source(self):
        text = f"{ROWS}COLUMNS\n    X  A  1\nRHS\n    RHS  A  1\nBOUNDS\n UP  BND  X  1\nRHS\n    RHS  A  2\nENDATA\n"
        with self.assertRaises(mpslp.AdaptError) as caught:
            mpslp.adapt(text.encode(), "mps")
        self.assertEqual((caught.exception.line, caught.exception.rejection.kind), (11, "DuplicateRhs"))

    def test_what_is_accepted_stays_at_once(self):
        for text in (
            "ROWS\n L  A\nCOLUMNS\n    X  obj  1  A  1\nRHS\n    RHS  obj  5\nENDATA\n",
            f"{ROWS}COLUMNS\n    X  A  1\nRHS\n    {'S' * 300}  A  1\nENDATA\n",
            f"*{'a' * 1_048_575}\r\n{ROWS}COLUMNS\n    X  A  1\nENDATA\n",
        ):
            with self.subTest(text[:80]):
                done = mpslp.adapt(text.encode(), "mps")
                self.assertEqual((done.text, done.changes), (text.encode(), ()))

    def test_columns_and_sets_are_kept_where_something_else_is_changed(self):
        text = f"ROWS\n l  A\nCOLUMNS\n    X  obj  1  A  1\nRHS\n    {'S' * 300}  A  1\nENDATA\n"
        done = mpslp.adapt(text.encode(), "mps")
        self.assertEqual(done.text, text.replace(" l  A", " L  A").encode())

    def test_a_second_row_says_where_the_first_is(self):
        text = "ROWS\n N  C\n L  LIM1\n L  LIM1\nCOLUMNS\nENDATA\n"
        with self.assertRaises(mpslp.AdaptError) as caught:
            mpslp.adapt(text.encode(), "mps")
        self.assertEqual(str(caught.exception), "4: a second row LIM1, first in line 3")

    def test_the_sense_of_glpsol_and_lp_solve(self):
        text = f"{ROWS}COLUMNS\n    X  C  1  A  1\nENDATA\n"
        self.assertIn("glpsol does not write the sense", mpslp.adapt(text.encode(), "mps", "glpsol").notes[0].text)
        text = f"*<meta origsense='MAX'>\n{text}"
        self.assertIn("lp_solve maximised this model", mpslp.adapt(text.encode(), "mps", "lp_solve").notes[0].text)

    def test_the_constant_of_lp_solve(self):
        rest = f"{ROWS}COLUMNS\n    X  C  3  A  1\nRHS\n    RHS  C  -5  A  4\nENDATA\n"
        for sense, constant in (("", -5), ("OBJSENSE\n    MIN\n", -5), ("OBJSENSE\n    MAX\n", 5)):
            with self.subTest(sense):
                done = mpslp.adapt(f"{sense}{rest}".encode(), "mps", "lp_solve")
                self.assertEqual(mpslp.load(done.text, "mps").constant, constant)

    def test_dialects(self):
        text = b"NAME\n*SENSE:Maximize\nROWS\n N  C\nCOLUMNS\n    X  C  1\nENDATA\n"
        self.assertEqual(mpslp.load(mpslp.adapt(text, "mps", "pulp").text, "mps").sense, "maximize")
        without = mpslp.adapt(text, "mps")
        self.assertEqual((without.text, without.changes, without.writer), (text, (), None))
        self.assertEqual([note.line for note in without.notes], [2])
        with self.assertRaisesRegex(ValueError, "unknown dialect"):
            mpslp.adapt(text, "mps", "cplex")

    def test_a_header_that_names_the_writer(self):
        text = b"*SENSE:Maximize\nROWS\n N  C\nCOLUMNS\n    X  C  1\nENDATA\n"
        for given in (text, text.replace(b"\n", b"\r\n"), gzip.compress(text)):
            with self.subTest(given):
                done = mpslp.adapt(given, "mps")
                self.assertEqual((done.writer.name, done.writer.dialect), ("PuLP", "pulp"))
                self.assertEqual(mpslp.load(done.text, "mps").sense, "maximize")
        for dialect in ("none", "glpsol"):
            with self.subTest(dialect):
                done = mpslp.adapt(text, "mps", dialect)
                self.assertEqual((done.text, done.changes, done.writer), (text, (), None))

    def test_headers(self):
        for format, text, dialect in (
            ("lp", "\\* Objective function *\\\nMaximize\n +143 x +60 y\n\nEnd\n", "lp_solve"),
            ("lp", "\\* Problem: Unknown *\\\n\nMaximize\n obj: + x\n\nEnd\n", "glpsol"),
            ("lp", "\\* a_plan *\\\nMinimize\nOBJ: x\nSubject To\nEnd\n", "pulp"),
            ("lp", "\\* a plan *\\\nMinimize\n obj: x\nSubject To\nEnd\n", None),
            ("lp", "\\Problem name: a.lp\n\nMinimize\n obj: x\nSubject To\nEnd\n", None),
            ("lp", "\\Problem name: a\n\nMinimize\nobj:\nSubject To\nEnd\n", "coinutils"),
            ("lp", "Minimize\n obj: problem\nEnd\n", None),
            ("lp", "PROBLEM\n a\nMINIMIZE\n obj: x\nEND\n", "qsopt"),
            ("mps", "* Problem:    a\n* Class:      MIP\n* Rows:       3\n", "glpsol"),
            ("mps", "*<meta creator='lp_solve v5.5'>\n*<meta rows=2>\n", "lp_solve"),
            ("mps", "* Problem: write less\nNAME  a\n", None),
            ("mps", "\n*SENSE:Maximize\n", None),
        ):
            with self.subTest(text):
                writer = writer_of(text, format)
                self.assertEqual(writer and writer.dialect, dialect)

    def test_a_text_with_a_header_that_is_left(self):
        text = b"*SENSE:Maximize\nROWS\n N  C\nCOLUMNS\n    X  C  inf\nENDATA\n"
        with self.assertRaises(mpslp.AdaptError) as caught:
            mpslp.adapt(text, "mps")
        self.assertEqual(caught.exception.writer.dialect, "pulp")
        with self.assertRaises(mpslp.AdaptError) as caught:
            mpslp.adapt(text, "mps", "pulp")
        self.assertIsNone(caught.exception.writer)

    def test_long_lines(self):
        columns = "".join(f"+ {number} x{number} " for number in range(150_000))
        for text, format in (
            (f"min {columns}\\ {'a' * 1_100_000}\nend\n\\{'a' * 1_100_000}\n", "lp"),
            (f"*{'a' * 1_100_000}\nROWS\n N  C\nCOLUMNS\n    X  C  1{' ' * 1_100_000}\nENDATA\n", "mps"),
        ):
            with self.subTest(format):
                with self.assertRaisesRegex(mpslp.ModelFileError, "LineTooLong"):
                    mpslp.load(text.encode(), format)
                done = mpslp.adapt(text.encode(), format)
                self.assertEqual({change.kind for change in done.changes}, {"long-line"})
                self.assertEqual(len(mpslp.load(done.text, format).columns), 150_000 if format == "lp" else 1)

    def test_other_encodings(self):
        text = "\\ größe\nmin größe\nend\n"
        for encoding in ("utf-8-sig", "utf-16", "utf-16-be"):
            mark = b"\xfe\xff" if encoding == "utf-16-be" else b""
            with self.subTest(encoding):
                done = mpslp.adapt(mark + text.encode(encoding), "lp")
                self.assertEqual(done.text.decode(), "\\ größe\nmin grosse\nend\n")
                self.assertEqual(done.names, {"größe": "grosse"})

    def test_notes(self):
        for text, format, line in (
            (b"min x\nst\nx >= 2 + y <= 5\nend\n", "lp", 3),
            (b"min c: x\n\\* constant term = 5 *\\\nst\nx >= 2\nend\n", "lp", 2),
            (b"ROWS\n N  C\nCOLUMNS\n    X  C  1\nRHS\n    RHS  C  5\nENDATA\n", "mps", 6),
        ):
            with self.subTest(text):
                done = mpslp.adapt(text, format)
                self.assertEqual((done.text, done.changes, [note.line for note in done.notes]), (text, (), [line]))

    def test_notes_of_a_text_that_is_read_in_part(self):
        columns = "".join(f"    X{number}  A  1\n" for number in range(50))
        text = (
            f"{ROWS}COLUMNS\n{columns}*SENSE:Maximize\n    Y  C  1\nRHS\n    RHS  C  5\nBOUNDS\n*SENSE:Maximize\n"
            " UP  BND  Y  4\nENDATA\nRHS\n"
        )
        for end in ("\n", "\r\n"):
            with self.subTest(end):
                done = mpslp.adapt(text.replace("\n", end).encode(), "mps", "none")
                self.assertEqual([note.line for note in done.notes], [55, 58])
        for row, line in (
            ("x >= 2 + y <= 5", 3),
            ("x >= \\ <\n -2 - y <= 5", 4),
            ("x >= -inf + y <= 5", 3),
            ("x >= 2e-1\n+ y <= 5", None),
            ("-1 <= x - y <= 5", None),
        ):
            with self.subTest(row):
                notes = mpslp.adapt(f"min x\nst\n{row}\nend\n".encode(), "lp").notes
                self.assertEqual([note.line for note in notes], [] if line is None else [line])

    def test_compressed_bytes(self):
        done = mpslp.adapt(gzip.compress((EXAMPLES / "small.mps").read_bytes()), "mps")
        self.assertEqual(done.text, (EXAMPLES / "small.mps").read_bytes())
        self.assertEqual([change.kind for change in done.changes], ["compressed"])


class TheCheck(unittest.TestCase):
    """The check that knows no rule finds what a wrong rule would do."""

    TEXT = (
        f"{ROWS}COLUMNS\n    X  C  1  A  2\nRHS\n    RHS  A  4  C  5\nRANGES\n    RNG  A  1\nBOUNDS\n"
        " UP  BND  X  7\nENDATA\n"
    )

    def difference(self, before, after, *changes, names={}):
        read = _check_mps.readings
        found = _check_mps.differences(read(before, None, changes), read(after), changes, names)
        return None if found is None else found.text

    def test_the_same(self):
        self.assertIsNone(self.difference(self.TEXT, self.TEXT))
        self.assertIsNone(self.difference(self.TEXT, self.TEXT.replace("1", "1.0e+00").replace("  ", "\t")))
        self.assertIsNone(self.difference(self.TEXT, self.TEXT.replace("X", "Y"), names={"X": "Y"}))

    def test_each_part_of_a_declaration(self):
        for old, new in (
            ("C  1", "C  -1"),
            ("C  1", "C  10"),
            ("A  2", "C  2"),
            ("X  C", "Y  C"),
            ("A  4", "A  -4"),
            ("C  5", "C  -5"),
            ("RNG  A  1", "RNG  A  2"),
            (" UP", " LO"),
            ("X  7", "X  70"),
            (" L  A", " G  A"),
            ("  A  2", ""),
            (" UP  BND  X  7\n", ""),
            ("    RNG  A  1\n", ""),
            ("ROWS", "OBJSENSE\n    MAX\nROWS"),
            ("BND", "OTHER"),
            ("COLUMNS", "COLUMNS\n    M  'MARKER'  'INTORG'"),
            ("A  4", "A  1e20"),
            (" N  C\n L  A", " L  A\n N  C\n N  D"),
        ):
            with self.subTest(old=old, new=new):
                after = self.TEXT.replace(old, new, 1)
                self.assertNotEqual(after, self.TEXT)
                self.assertIsNotNone(self.difference(self.TEXT, after))
                self.assertIsNotNone(self.difference(after, self.TEXT))

    def test_a_change_accounts_for_its_own_kind_and_line_only(self):
        remark = self.TEXT.replace("A  2", "A  2  to see")
        for line, kind, is_right in ((5, "trailing-text", True), (6, "trailing-text", False), (5, "number", False)):
            with self.subTest(line=line, kind=kind):
                found = self.difference(remark, self.TEXT, mpslp.Change(line, kind, "", ""))
                self.assertEqual(found is None, is_right)
        for word in ("2", "A", "X", ";A"):
            with self.subTest(word):
                change = mpslp.Change(5, "trailing-text", "", "")
                self.assertIsNotNone(self.difference(self.TEXT.replace("A  2", f"A  2  {word}"), self.TEXT, change))

    def test_what_is_added(self):
        change = mpslp.Change(12, "negative-upper", "", "")
        below = self.TEXT.replace("X  7", "X  -7")
        with_lower = below.replace("ENDATA", " MI  BND  X\nENDATA")
        self.assertIsNone(self.difference(below, with_lower, change))
        self.assertIsNotNone(self.difference(below, with_lower))
        self.assertIsNotNone(self.difference(self.TEXT, self.TEXT.replace("ENDATA", " MI  BND  X\nENDATA"), change))

    def test_one_name_for_two(self):
        before = self.TEXT.replace("RHS\n", "    Y  C  1\nRHS\n", 1)
        self.assertEqual(self.difference(before, before, names={"X": "Z", "Y": "Z"}), "one name is written for two")

    def test_adapt_reports_a_wrong_rule(self):
        text = f"{ROWS}COLUMNS\n    X  C  1D2\nENDATA\n".encode()
        with mock.patch("mpslp._adapt._mps_rules._with_e", lambda field: "5"):
            with self.assertRaisesRegex(
                mpslp.AdaptError, "^5: internal error: the result does not say what the file says: coefficient X C"
            ):
                mpslp.adapt(text, "mps")


class TheCheckOfLp(unittest.TestCase):
    """The check of LP, which knows no rule, finds what a wrong rule would do."""

    TEXT = (
        "min c: 2 x + y + 3\nst\nr: x + 2 y <= 4\n1 <= x - y <= 9\nx >= 2\n+ y <= 7\nbounds\nx <= 8\ngenerals\nx\nend\n"
    )

    def difference(self, before, after, names={}):
        read = _check_lp.readings
        words = _check_lp.tokens_of
        found = _check_lp.differences(
            read(words(before, None), None), read(words(after, None), None, is_of_mpslp=True), names
        )
        return None if found is None else found.text

    def test_the_same(self):
        self.assertIsNone(self.difference(self.TEXT, self.TEXT))
        self.assertIsNone(self.difference(self.TEXT.replace("+ 2 y <= 4", "- 1 + y <= 3 - y"), self.TEXT))
        self.assertIsNone(self.difference(self.TEXT.replace("r: x + 2 y <= 4", "r: 4 >= x + 2 * y"), self.TEXT))
        self.assertIsNone(self.difference(self.TEXT, self.TEXT.replace("y", "z"), {"y": "z"}))

    def test_what_differs(self):
        for right, wrong in (
            ("min", "max"),
            ("c:", "d:"),
            ("+ 3", "- 3"),
            ("2 x", "x"),
            ("r:", "s:"),
            ("+ 2 y", "- 2 y"),
            ("<= 4", "<= 42"),
            ("<= 4", ">= 4"),
            ("1 <= x", "2 <= x"),
            ("<= 9", "<= 90"),
            ("x >= 2\n+", "x >= 23"),
            ("x <= 8", "y <= 8"),
            ("x <= 8", "x <= 9"),
            ("x <= 8", "x >= 8"),
            ("generals", "binaries"),
            ("generals\nx", "generals\ny"),
        ):
            with self.subTest(wrong):
                self.assertIsNotNone(self.difference(self.TEXT, self.TEXT.replace(right, wrong)))

    def test_what_has_two_readings(self):
        for rows in ("x <= 5+x+x <= 4", "x <= 5\n+ y\n+ z <= 4"):
            with self.assertRaisesRegex(mpslp.AdaptError, "more than one reading"):
                _check_lp.check_lp(f"min x\nst\n{rows}\nend\n", "min x\nst\nend\n", None, {}, _changes.Log())


class WholeStatements(unittest.TestCase):
    """Plain statements of LP are read as a whole, and checked by lines: with the same result as token by token."""

    NAMES = ("x", "y", "z", "w", "x1", "y_3", "cost", "a.b", "f(1)", "e1", "st", "free", "inf", "x[1]", "sin", "L")
    PLAIN = 9
    NUMBERS = ("1", "2", "3", "10", "0.5", "2.50", ".5", "1e-5", "1E+3", "2e+20", "1e30", "0", "9" * 21, "3.")

    def drawn(self, source):
        """A text, most lines of which are plain."""
        is_plain = source.random() < 0.7
        names = self.NAMES[: self.PLAIN] if is_plain else self.NAMES

        def number():
            return source.choice(self.NUMBERS if source.random() < 0.3 else self.NUMBERS[:6])

        def term():
            kind = source.random()
            return (
                source.choice(names)
                if kind < 0.4
                else number() + source.choice((" ", " ", " ", " * ", "")) + source.choice(names)
                if kind < 0.75
                else number()
            )

        def total():
            terms = [term() for _ in range(source.randint(1, 3))]
            space = source.choice((" ", " ", " ", "", "\n "))
            signs = source.choice(("", "", "", "- "))
            return signs + terms[0] + "".join(f"{space}{source.choice('+-')} {each}" for each in terms[1:])

        def row():
            label = source.choice((f"c{source.randint(1, 9)}: ", f"c{source.randint(1, 9)}: ", "", "r:\n  "))
            sides = f"{total()} {source.choice(('>=', '<=', '=', '<'))} {source.choice(('', '', '-'))}{number()}"
            return label + (f"{number()} <= {total()} <= {number()}" if source.random() < 0.1 else sides)

        def bound():
            name = source.choice(names)
            return source.choice(
                (f"{name} <= {number()}", f"-inf <= {name} <= 4", f"{name} free", f"1 <= {name}", f"{name} >= -1e30")
            )

        def lines(statement, most):
            ends = ("\n",) * 6 + ("\n\n", "\r\n", " \n", "\n\\ note\n")
            return "".join(f" {statement()}{source.choice(ends)}" for _ in range(source.randint(0, most)))

        text = f"{source.choice(('Minimize', 'max'))}\n obj: {total()}\n{source.choice(('Subject To', 'st'))}\n"
        text += lines(row, 5)
        if source.random() < 0.5:
            text += "Bounds\n" + lines(bound, 4)
        if source.random() < 0.4:
            text += "Generals\n" + lines(lambda: " ".join(source.sample(names, 2)), 3)
        return f"{text}End\n".encode()

    def result(self, text, dialect):
        try:
            adapted = mpslp.adapt(text, "lp", dialect)
        except mpslp.AdaptError as error:
            return error.line, error.reason
        lines = [line.rstrip() for line in adapted.text.splitlines()]  # spaces at the end of a line may be kept or not
        return lines, adapted.changes, dict(adapted.names), adapted.notes

    def test_as_token_by_token(self):
        source = random.Random(11)
        whole, changed, lines = 0, 0, mock.Mock(wraps=_check_lp.says_the_same)
        for _ in range(800):
            text, dialect = self.drawn(source), source.choice((None, None, "coinutils", "glpsol", "lp_solve"))
            with mock.patch.object(_check_lp, "says_the_same", lines):
                found = self.result(text, dialect)
            with mock.patch.object(_lp, "_WITH_PLAIN_STATEMENTS", ()), mock.patch.object(
                _check_lp, "says_the_same", return_value=False
            ):
                self.assertEqual(found, self.result(text, dialect), text.decode())
            changed += len(found) == 4 and bool(found[1])
            tokens = Tokens(text.decode(), None, PlainStatements(text.decode(), None)).all
            whole += any(token.kind.startswith("plain") for token in tokens)
        self.assertGreater(whole, 500)
        self.assertGreater(changed, 50)
        self.assertGreater(lines.call_count, 50)

    def log_of(self, *changes):
        log = _changes.Log()
        log.reported += changes
        return log

    def test_lines_that_say_something_else(self):
        """The check by lines knows each row that says something else, and leaves what it does not know."""
        source = "min\n x\nst\n c: x + 3 >= 5\n d: y <= 2\nend\n"
        changes = [_changes.Reported(4, "constant-in-row", "c: x + 3 >= 5", "c: x >= 2")]

        def is_same(written, changes=changes, names=None, before=source, dialect=None):
            return _check_lp.says_the_same(before, written, dialect, names or {}, self.log_of(*changes))

        good = source.replace("c: x + 3 >= 5", "c: x >= 2")
        self.assertTrue(is_same(good))
        self.assertFalse(is_same(good, []))
        self.assertFalse(is_same(good, changes, {"y": "y_1"}))
        self.assertFalse(is_same(good, dialect="coinutils"))
        for wrong in ("c: x >= 3", "c: x <= 2", "d: x >= 2", "c: y >= 2", "c: 2 x >= 2", "c: x + y >= 2", "x >= 2"):
            reported = [changes[0]._replace(after=wrong)]
            self.assertFalse(is_same(good.replace("c: x >= 2", wrong), reported), wrong)
        for word in ("st", "inf", "e1", "free", "2x", "x +"):
            self.assertFalse(is_same(good.replace("y", word), before=source.replace("y", word)), word)

    def test_headers(self):
        def is_same(header, written):
            texts = (f"{each}\n x\nst\n x + y >= 2\nend\n" for each in (header, written))
            log = self.log_of(_changes.Reported(1, "keyword", header, written))
            return _check_lp.says_the_same(*texts, None, {}, log)

        self.assertTrue(is_same("Minimise", "Minimize"))
        self.assertTrue(is_same("MAXIMISE", "max"))
        self.assertFalse(is_same("Minimise", "Maximize"))
        self.assertFalse(is_same("Minimise", "min z +"))
        self.assertFalse(is_same("Minimise", "st"))

    def test_constants_that_go_to_the_right(self):
        def is_same(row, written):
            texts = (f"min\n x\nst\n {each}\nend\n" for each in (row, written))
            log = self.log_of(_changes.Reported(4, "constant-in-row", row, written))
            return _check_lp.says_the_same(*texts, None, {}, log)

        for row, written in (
            ("c: x + 3 >= 5", "c: x >= 2"),
            ("c: x + 3 => 5", "c: x >= 2"),
            ("c: - 2 x + y - 1.5 < - 2", "c: - 2 x + y <= -0.5"),
            ("c: 4 + price + 2e+3 = 5", "c: price = -1999"),
            ("c: price + 7 + 3 >= 5", "c: price + 7 >= 2"),
        ):
            self.assertTrue(is_same(row, written), row)
        for row, written in (
            ("c: x + 3 => 5", "c: x = 2"),
            ("c: x + 3 =< 5", "c: x = 2"),
            ("c: x + y + 3 >= 5", "c: x >= 2"),
            ("c: x + 3 + y >= 5", "c: x + y >= 5"),
            ("c: 3 + 4 >= 5", "c: 3 >= 1"),
            ("c: x + 2e+3 >= 5", "c: x + 2e >= 2"),
            ("c: 1e+20 x + 3 >= 5", "c: 1e+20 x >= 2"),
            ("c: x + 3 >= 1e+20", "c: x >= 99999999999999999997"),
            ("c: x + 1e+20 >= 5", "c: x >= -99999999999999999995"),
            ("c: x12 + 3 >= 5", "c: x1 >= 3"),
        ):
            self.assertFalse(is_same(row, written), row)


class Words(unittest.TestCase):
    """The second reading of the words of a text, without the rules that it checks."""

    def in_lp(self, before, after, *reported, notes=(), names=None):
        log = _changes.Log()
        for line, kind, old, new in reported:
            log.add(line, kind, old, new)
        for note in notes:
            log.note(1, note)
        words = _check_lp.tokens_of
        found = _check_words.difference_in_lp(words(before, None), words(after, None), None, names or {}, log)
        return None if found is None else found.text

    def test_what_is_lost_or_added(self):
        text = "min x + 2 y\nst\n x + y >= 4\nend\n"
        self.assertIsNone(self.in_lp(text, text.replace("x + y >= 4", "x + y >= 4")))
        for lost, added in (("2 y", "y"), ("+ 2", "2"), ("y >= 4", "y = 4"), ("st", "subject to"), ("x + y", "z + y")):
            self.assertIsNotNone(self.in_lp(text, text.replace(lost, added)))
        changed = text.replace("x + y >= 4", "x + y >= 1")
        self.assertIsNotNone(self.in_lp(text, changed))
        self.assertIsNotNone(self.in_lp(text, changed, (3, "number", "4", "3")))
        self.assertIsNone(self.in_lp(text, changed, (3, "number", "4", "1")))
        self.assertIsNone(self.in_lp(text, text.replace("x", "z"), names={"x": "z"}))

    def test_section_words(self):
        before, after = "max 2 y + 10 st\nsubject to\n y <= 5\nend\n", "max 2 y + 10 st\n y <= 5\nend\n"
        self.assertEqual(
            self.in_lp(before, after, (2, "section-again", "subject to", "")), "st is missing, and no change has it"
        )

    def test_what_has_two_meanings(self):
        for rows in (
            "x >= 10_000",
            "x >= 1D3",
            "x >= 5 hours",
            "2e + x >= 4",
            "x >= 2\n5 + x >= 1",
            "x >= 2\ne5 + x >= 1",
            "x\u00b7 >= 2",
            "\uff58 >= 2",
        ):
            with self.subTest(rows):
                text = f"min x\nst\n{rows}\nend\n".encode().decode("latin-1")
                self.assertIsNotNone(self.in_lp(text, text))
        text = "min x\nst\nx >= 5 hours\nend\n"
        self.assertIsNone(self.in_lp(text, text, notes=["hours comes only after numbers on the right"]))

    def in_mps(self, before, after, *reported, names=None):
        log = _changes.Log()
        for line, kind, old, new in reported:
            log.add(line, kind, old, new)
        found = _check_words.difference_in_mps(before, after, names or {}, log.reported)
        return None if found is None else found.text

    def test_mps(self):
        text = "ROWS\n N  C\n L  R\nCOLUMNS\n    X  C  9  R  1\nRHS\n    RHS  R  4\nENDATA\nthe end\n"
        self.assertIsNone(self.in_mps(text, text.replace("the end", "")))
        self.assertEqual(self.in_mps(text, text.replace("  R  1", "")), "R is missing, and no change has it")
        self.assertIsNone(
            self.in_mps(text, text.replace("  R  1", ""), (5, "trailing-text", "    X  C  9  R  1", "    X  C  9"))
        )
        self.assertEqual(self.in_mps(text, text.replace("9", "9  S")), "S is added, and no change has it")
        self.assertIsNone(self.in_mps(text, text.replace("X", "Y"), names={"X": "Y"}))
        for wrong in ("    X  C  9\n6  R  1", "    X  C  9\ne6  R  1", "    X  C  \uff12"):
            with self.subTest(wrong):
                split = text.replace("    X  C  9  R  1", wrong).encode().decode("latin-1")
                self.assertIsNotNone(self.in_mps(split, split))


class Command(unittest.TestCase):
    def setUp(self):
        folder = tempfile.TemporaryDirectory()
        self.addCleanup(folder.cleanup)
        self.folder = Path(folder.name)
        self.plan = self.folder / "plan.lp"
        self.plan.write_bytes(PLAN)
        self.out = self.folder / "adapted.lp"

    def run_with(self, *arguments):
        errors, output = io.StringIO(), io.TextIOWrapper(io.BytesIO())
        with contextlib.redirect_stderr(errors), contextlib.redirect_stdout(output):
            try:
                status = _adapt.command([str(each) for each in arguments])
            except SystemExit as end:
                status = end.code
        return status, output.buffer.getvalue(), errors.getvalue()

    def test_changes_are_reported(self):
        status, output, errors = self.run_with(self.plan)
        self.assertEqual((status, output), (1, ADAPTED))
        self.assertIn(f"{self.plan}:4: constant-in-row: c: x[1] + y + 3 <= 5 -> c: x(1) + y <= 2\n", errors)

    def test_a_header_is_the_first_line_of_the_report(self):
        file = self.folder / "sense.mps"
        file.write_text("*SENSE:Maximize\nROWS\n N  C\nCOLUMNS\n    X  C  1\nENDATA\n")
        first = f"{file}: written by PuLP (its header says so): read with --from pulp\n"
        status, _, errors = self.run_with(file)
        self.assertEqual((status, errors), (1, f"{first}{file}:1: pulp-sense: *SENSE:Maximize -> OBJSENSE MAX\n"))
        self.assertEqual(self.run_with(file, "--from", "none")[:2], (0, file.read_bytes()))
        self.assertNotIn("written by", self.run_with(file, "--from", "none")[2])
        file.write_text("*SENSE:Maximize\nROWS\n N  C\nCOLUMNS\n    X  C  inf\nENDATA\n")
        status, output, errors = self.run_with(file)
        self.assertEqual((status, output), (2, b""))
        self.assertTrue(errors.startswith(first))

    def test_a_file_that_stays(self):
        self.assertEqual(self.run_with(EXAMPLES / "small.lp"), (0, (EXAMPLES / "small.lp").read_bytes(), ""))

    def test_output_and_names_back(self):
        names, solution = self.folder / "names", self.folder / "solution"
        self.assertEqual(self.run_with(self.plan, "-o", self.out, "--map", names)[0], 1)
        self.assertEqual(self.out.read_bytes(), ADAPTED)
        self.assertEqual(json.loads(names.read_text()), {"x[1]": "x(1)"})
        solution.write_text("0 x(1)  2.5\n1 y\n")
        self.assertEqual(self.run_with("--names-back", names, solution), (0, b"0 x[1]  2.5\n1 y\n", ""))

    def test_a_dry_run_writes_nothing(self):
        status, output, errors = self.run_with("--dry-run", self.plan, "-o", self.out)
        self.assertEqual((status, output, self.out.exists()), (1, b"", False))
        self.assertIn("constant-in-row", errors)

    def test_statuses(self):
        self.plan.write_bytes(b"min x\nst\nx ^ 2 <= 4\nend\n")
        status, output, errors = self.run_with(self.plan, "-o", self.out)
        self.assertEqual((status, output, self.out.exists()), (2, b"", False))
        self.assertTrue(errors.startswith(f"{self.plan}:3: a quadratic term"))
        self.assertEqual(self.run_with("--from", "word", self.plan)[0], 3)
        self.assertEqual(
            self.run_with(self.folder / "plan")[0], 4, "as in the other commands, a file that is missing comes first"
        )
        (self.folder / "plan").write_bytes(PLAN)
        self.assertEqual(self.run_with(self.folder / "plan")[0], 3)
        self.assertEqual(self.run_with(self.folder / "missing.lp")[0], 4)

    def test_nothing_is_written_for_a_file_that_is_still_rejected(self):
        path = self.folder / "plan.mps"
        for kind, line, text in REJECTED:
            with self.subTest(kind):
                path.write_text(text)
                status, output, errors = self.run_with(path, "-o", self.out)
                self.assertEqual((status, output, self.out.exists()), (2, b"", False))
                self.assertRegex(errors, f"^{path}:{'' if line is None else f'{line}:'} {kind}")

    def test_a_kind_that_is_none(self):
        status, output, errors = self.run_with(self.plan, "--strict", "constants")
        self.assertEqual((status, output), (3, b""))
        self.assertIn("unknown kind of changes", errors)

    def test_an_output_that_takes_a_part_only(self):
        text = f"{ROWS}COLUMNS\n" + "".join(f"    X{number}  C  {number}D0\n" for number in range(20_000)) + "ENDATA\n"
        path = self.folder / "plan.mps"
        path.write_text(text)
        program = f"import sys; from mpslp import _adapt; sys.exit(_adapt.command([{str(path)!r}]))"
        environment = {**os.environ, "PYTHONUNBUFFERED": "1"}
        with subprocess.Popen(
            [sys.executable, "-c", program], env=environment, stdout=subprocess.PIPE, stderr=subprocess.DEVNULL
        ) as run:
            first = run.stdout.read(10)
            rest = run.stdout.read()
        self.assertEqual((run.returncode, len(first + rest)), (1, len(text)))
        if os.path.exists("/dev/full"):
            with open("/dev/full", "wb") as full:
                done = subprocess.run(
                    [sys.executable, "-c", program], env=environment, stdout=full, stderr=subprocess.PIPE
                )
            self.assertEqual(done.returncode, 4)

    def test_standard_input(self):
        with mock.patch("sys.stdin", io.TextIOWrapper(io.BytesIO(PLAN))):
            self.assertEqual(self.run_with("-", "--format", "lp")[:2], (1, ADAPTED))

    def test_compressed_output(self):
        self.out = self.folder / "adapted.lp.gz"
        self.run_with(self.plan, "-o", self.out)
        self.assertEqual(gzip.decompress(self.out.read_bytes()), ADAPTED)


if __name__ == "__main__":
    unittest.main()
