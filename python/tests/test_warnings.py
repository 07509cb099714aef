"""What is accepted and rarely meant: the call and the commands; the rules are tested by python/tests/warning_rules.py,
too."""

import os
import pickle
import random
import re
import unittest
from dataclasses import FrozenInstanceError
from pathlib import Path
from unittest import mock

import mpslp
import warning_rules
from mpslp import _mpslp
from mpslp._portable._mps import MpsFile
from mpslp._warnings import KINDS, _lp, warnings_in
from mpslp._warnings._canonical import columns_without_terms
from mpslp._warnings._lp import LpText
from repository import EXAMPLES, VECTORS, form_of, model_files
from test_tools import CANONICAL, Directory

from shared import models, spellings

PULP = b"*SENSE:Maximize\nNAME  plan\nROWS\n N  C\nCOLUMNS\n    x  C  1\nENDATA\n"
COMMENT = "1: sense-in-comment: the comment is ignored, and the model is minimised; write the sense in OBJSENSE"
LATE = b"max production\nst\nc: production <= 40\nbounds\nprodution <= 30\nend\n"
NAME = (
    "5: late-name: prodution first appears in Bounds, as a new column that is in no row; the name production is there"
)


def opens_more_than_it_closes(name):
    """Whether a parenthesis of a name is not closed in it."""
    left = 0
    for letter in name:
        left += (letter == "(") - (letter == ")" and left > 0)
    return left > 0


class Calls(unittest.TestCase):
    def test_the_examples_of_the_rules(self):
        found, tried = warning_rules.check(None)
        self.assertEqual(found, [])
        self.assertGreaterEqual(tried, len(KINDS))

    def test_warnings_are_records(self):
        (warning,) = mpslp.warnings_of(LATE, "lp")
        self.assertEqual((warning.line, warning.kind, str(warning)), (5, "late-name", NAME))
        self.assertEqual(pickle.loads(pickle.dumps(warning)), warning)
        with self.assertRaises(FrozenInstanceError):
            warning.line = 1
        self.assertEqual(
            mpslp.warnings_of(PULP, "mps"), (mpslp.ModelFileWarning(1, "sense-in-comment", COMMENT.split(": ", 2)[2]),)
        )

    def test_a_text_that_is_rejected(self):
        with self.assertRaisesRegex(mpslp.ModelFileError, "^line 1: BadToken$"):
            mpslp.warnings_of(b"min x y\nend\n", "lp")

    def test_order_of_lines(self):
        text = (
            b"*SENSE:Maximize\nROWS\n N  C\nCOLUMNS\n    m  'MARKER'  'INTORG'\n    x  C  1\nRHS\n    RHS  C  2\n"
            b"ENDATA\nQUADOBJ\n"
        )
        found = mpslp.warnings_of(text, "mps")
        self.assertEqual(
            [(each.line, each.kind) for each in found],
            [
                (1, "no-name"),
                (1, "sense-in-comment"),
                (5, "marker-not-closed"),
                (8, "objective-rhs"),
                (10, "section-after-end"),
            ],
        )
        self.assertEqual(
            [(each.line, each.kind) for each in mpslp.warnings_of(text.replace(b"\n", b"\r\n"), "mps")],
            [(each.line, each.kind) for each in found],
        )

    def test_names_with_signs_of_comments(self):
        """A set may be named as a comment starts, a comment may have the word of markers, and a bound without a number
        text after its column."""
        text = (
            b"NAME\nROWS\n N  C\nCOLUMNS\n M 'MARKER' 'INTORG'\n X C 1\n* 'MARKER'\n 'MARKER'5 C 1\n Y C 1\n"
            b" Z C 1\n M 'MARKER' 'INTEND'\nRHS\n *R C 5\n*  R C 6\nBOUNDS\n UP B X 4\n BV B 'MARKER'5\n"
            b" FR B Y any\nENDATA\n"
        )
        self.assertEqual(
            [(each.line, each.kind) for each in mpslp.warnings_of(text, "mps")],
            [(10, "integer-without-bound"), (13, "objective-rhs")],
        )


def mpslp_accepts(text, form):
    try:
        mpslp.is_canonical(text, form)
    except mpslp.ModelFileError:
        return False
    return True


def columns_in_rows(model):
    return {name for name, column in model.columns.items() if column.cost or column.entries}


class Properties(unittest.TestCase):
    """What the rules find is what the model says, of random models in other spellings."""

    def test_canonical_texts(self):
        """They have a line for each default, and a NAME; only the right-hand side of the objective is left."""
        for path in [*model_files(EXAMPLES), *model_files(VECTORS)]:
            try:
                model = mpslp.load(path)
            except mpslp.ModelFileError:
                continue
            for form in ("mps", "lp"):
                try:
                    text = mpslp.dumps(model, form)
                except mpslp.ModelFileError:
                    continue
                wanted = {"objective-rhs"} if form == "mps" and model.constant else set()
                with self.subTest(path.name, form=form):
                    self.assertEqual({each.kind for each in mpslp.warnings_of(text, form)}, wanted)

    def test_late_names_are_columns_without_entries(self):
        """A name is late if its first column after the rows is nowhere before; each is a column that is in no row."""
        source, count = random.Random(11), 0
        for number in range(300):
            names = [f"x{each}" for each in range(6)]
            rows = [f"c{each}: {source.choice(names[:4])} + {source.choice(names[:4])}2 >= {each}" for each in range(3)]
            bounds = [
                f"{source.choice(['', '-1e5 <= '])}{source.choice(names)} <= {source.choice(['1e30', '2e5', 'inf'])}"
                for _ in range(2)
            ]
            lists = [
                f"{source.choice(['generals', 'Integers', 'BIN'])}\n"
                f" {source.choice(names)} {source.choice(names)} \\ {source.choice(names)} upper"
            ]
            text = (
                "\n".join(
                    [f"min {source.choice(names[:4])}", "st \\ x5 x4", *rows, "Bounds", *bounds, *lists, "end", "x5 x4"]
                )
                + "\n"
            )
            try:
                model = mpslp.load(text.encode(), "lp")
            except mpslp.ModelFileError:
                continue
            names = [LpText(text.encode()).late_names, *self.in_other_ways(text.encode())]
            self.assertEqual(names, names[:1] * len(names), text)
            found = {name.name.decode() for name in names[0]}
            self.assertEqual(found, set(model.columns) - columns_in_rows(model), text)
            count += bool(found)
        self.assertGreater(count, 100)

    def in_other_ways(self, text):
        """The late names of a text, found as in a large file, with many of them, and by a canonical text."""
        unused = [
            None,
            *(columns_without_terms(_mpslp.canonical(text, _mpslp.LP, to)) for to in (_mpslp.LP, _mpslp.MPS)),
        ]
        for most_read, most_sought in ((_lp._MOST_READ_IN_FULL, 0), (0, _lp._MOST_SEARCHED_FOR), (0, 0)):
            with mock.patch.multiple(_lp, _MOST_READ_IN_FULL=most_read, _MOST_SEARCHED_FOR=most_sought):
                yield from (LpText(text, columns).late_names for columns in unused)

    def test_sections_in_large_files(self):
        """A section may start within a line, and a comment or the end of a name may look like one."""
        text = (
            b"min 0 zero\nst\nc: 2 x + 0none + 0 glued>= 1\ngeneral zero\nBound_ none semi - \\ int\ncontinuous last "
            b"lend bounds\nglued<=2 \\ binary\nsend <= 4 last <= 1 lend<=2 end\nbinary\nafter\n"
        )
        wanted = [("Bound_", "general"), ("last", "semi"), ("lend", "semi"), ("send", "bounds")]
        for found in (LpText(text).late_names, *self.in_other_ways(text)):
            self.assertEqual(
                [(each.name, each.place, each.section) for each in found],
                [(name.encode(), text.index(name.encode()), _lp._TITLES[_lp.SECTIONS[word]]) for name, word in wanted],
            )

    def test_random_models(self):
        """However a model is spelled, both readers of the package find the same: this one and that of check
        --portable."""
        source, found = random.Random(4), set()
        for _ in range(400):
            model = models.drawn_model(source)
            mps = spellings.mps_text(source, model)
            with self.subTest(mps):
                found |= self.check_mps(mps)
            if all(map(models.is_lp_name, (model.objective, *model.rows, *model.columns))):
                lp = spellings.lp_text(source, model)
                with self.subTest(lp):
                    found |= self.check_lp(lp)
        self.assertLessEqual({"objective-rhs", "late-name", "no-name"}, found)

    def test_accepted_files(self):
        for path in [*model_files(EXAMPLES), *model_files(VECTORS)]:
            text = path.read_bytes()
            if mpslp_accepts(text, form_of(path)):
                with self.subTest(path.name):
                    (self.check_mps if path.suffix == ".mps" else self.check_lp)(text)

    def check_mps(self, text):
        warnings, file = warnings_in(text, _mpslp.MPS), MpsFile(text)
        lines = {kind: [each.line for each in warnings if each.kind == kind] for kind in KINDS}
        remarks = mpslp.portability(text, "mps")
        self.assertEqual(lines["objective-rhs"], [each.line for each in remarks if each.kind == "objective-rhs"])
        self.assertLessEqual(
            {each.line for each in remarks if each.kind == "sense-in-comment"}, set(lines["sense-in-comment"])
        )
        marked = {
            name: column.line for name, column in file.columns.items() if column.is_marked and name not in file.bounds
        }
        self.assertEqual(lines["integer-without-bound"], sorted(marked.values())[:1])
        if len(marked) > 1:
            self.assertIn(
                "as is one more" if len(marked) == 2 else f"as are {len(marked) - 1} more",
                next(each.text for each in warnings if each.kind == "integer-without-bound"),
            )
        self.assertEqual(lines["no-name"], [] if re.search(rb"^NAME", text, re.M) else [1])
        return {each.kind for each in warnings}

    def check_lp(self, text):
        """A name is late if the text up to the first section after the rows, and the end, has no such column."""
        file = LpText(text)
        late = {each.name for each in file.late_names}
        head = text[: file.rows_end] + (b"\nend\n" if file.rows_end < len(text) else b"")
        before = set(mpslp.load(head, "lp").columns) if mpslp_accepts(head, "lp") else set()
        self.assertEqual({name.decode() for name in late}, set(mpslp.load(text, "lp").columns) - before)
        for names in self.in_other_ways(text):
            self.assertLessEqual({each.name for each in names}, late)
        places = [place for place, _ in file._sections]
        with mock.patch.object(_lp, "_MOST_READ_IN_FULL", 0):  # a section of a large file is found if it starts a line
            self.assertLessEqual({each.name for each in LpText(text).late_names}, late)
            lines = text
            for place in sorted(places, reverse=True):
                lines = lines[:place] + b"\n" + lines[place:]
            self.assertEqual({each.name for each in LpText(lines).late_names}, late)
        model, kinds = mpslp.load(text, "lp"), {each.kind for each in warnings_in(text, _mpslp.LP)}
        odd = {
            name
            for name in (model.objective, *model.rows, *model.columns)
            if name.startswith("(") or opens_more_than_it_closes(name)
        }
        self.assertEqual("sum-in-parentheses" in kinds, bool(odd), odd)
        return kinds

    def test_parentheses_and_commas(self):
        """A line has one warning for all parts of its sums; in a large file only the first part is searched."""
        text = (
            b"min 3 (x + y)\nst\nc1: 2(x + y) - 4 (x + z)(1) >= 10(y) \\ (a\nc2: x(1) >= 3,5\n+ y,1 + 1,25z <= 4\n"
            b"\\ 3,5 (x\nend\n(x\n3,5\n"
        )
        found = [(each.line, each.kind, each.text.partition(" read ")[0]) for each in warnings_in(text, _mpslp.LP)]
        self.assertEqual(
            found,
            [
                (1, "sum-in-parentheses", "(x and y) are"),
                (3, "sum-in-parentheses", "(x and y) are"),
                (4, "decimal-comma", "3,5 is"),
                (5, "decimal-comma", "1,25z is"),
            ],
        )
        with mock.patch.object(_lp, "_BLOCK", text.index(b"c2") + 4):
            self.assertEqual([each.line for each in warnings_in(text, _mpslp.LP)], [1, 3])

    def test_blocks_of_large_files(self):
        """Names are found in whichever block of the rows they are, and as parts of words."""
        names = [f"x{number}" for number in range(3000)]
        rows = [f" c{number}: 2{name}-y>=1" for number, name in enumerate(names)]
        text = "\n".join(
            ["min y", "st", *rows, "bounds", *(f" {name} <= 9" for name in names), " late <= 1", "end"]
        ).encode()
        with mock.patch.object(_lp, "_BLOCK", 1000), mock.patch.object(_lp, "_MOST_READ_IN_FULL", 0):
            self.assertEqual([each.name for each in LpText(text).late_names], [b"late"])


class Commands(Directory):
    def test_each_command(self):
        self.file("a.mps", PULP)
        self.file("b.lp", LATE)
        both = f"warning: a.mps:{COMMENT}\nwarning: b.lp:{NAME}\n"
        text = mpslp.canonical(PULP, "mps").decode()
        for words, status, output, error in (
            (["check", "a.mps", "b.lp"], 1, "a.mps\nb.lp\n", both),
            (["canon", "a.mps"], 0, text, both.splitlines(True)[0]),
            (["same", "a.mps", "b.lp"], 1, "not the same\n", both),
            (["diff", "a.mps", "a.mps"], 0, "same\n", f"warning: a.mps:{COMMENT}\n" * 2),
            (["diff", "b.lp", os.devnull], 1, "- model: 1 rows, 2 columns, 1 entries\n", both.splitlines(True)[1]),
        ):
            self.prints(words, status, output, error)
            self.prints([*words, "--no-warnings"], status, output)
            self.prints([*words, "-Wno-late-name", "-Wno-sense-in-comment"], status, output)
            self.prints([*words, "-Werror=no-name", "--no-warnings"], status, output)
            self.prints([*words, "-Werror"], 2, "", error)
            kind = "late-name" if "b.lp" in words else "sense-in-comment"
            self.assertEqual(self.run_tools(*words, f"-Werror={kind}", "--no-warnings").returncode, 2)
        for wrong in ("-Wall", "-Werror=all", "-Wno-all", "-Wno-late-name=1", "-W"):
            self.assertEqual(self.run_tools("check", "a.mps", wrong).returncode, 3, wrong)

    def test_many_of_a_kind(self):
        names = "".join(f" y{number}\n" for number in range(25))
        self.file("a.lp", b"min x\ngenerals\n" + names.encode() + b"end\n")
        lines = self.run_tools("check", "a.lp").stderr.decode().splitlines()
        self.assertEqual(len(lines), 11)
        self.assertEqual(lines[-1], "warning: a.lp: 15 more of late-name")
        self.assertEqual(len(mpslp.warnings_of(self.folder / "a.lp")), 25)

    def test_a_file_whose_sense_is_in_a_comment_is_left(self):
        said = f"a.mps:{COMMENT}; the file is left: write OBJSENSE, or give --force\n"
        new = mpslp.canonical(PULP, "mps")
        self.file("a.mps", PULP)
        self.file("b.mps")
        for words in (
            ["-i", "a.mps"],
            ["-i", "--no-warnings", "a.mps"],
            ["-i", "-Wno-sense-in-comment", "a.mps"],
            ["a.mps", "-o", "a.mps"],
            ["a.mps", "-o", "./a.mps"],
        ):
            self.prints(["canon", *words], 2, error=said)
            self.assertEqual(Path("a.mps").read_bytes(), PULP)
        os.symlink("a.mps", "link.mps")
        self.assertEqual(self.run_tools("canon", "a.mps", "-o", "link.mps").returncode, 2)
        self.assertEqual(Path("a.mps").read_bytes(), PULP)
        os.unlink("link.mps")
        self.prints(["canon", "-i", "a.mps", "b.mps"], 2, "b.mps\n", said)
        self.leaves(a_mps=PULP, b_mps=CANONICAL)
        self.prints(["canon", "a.mps", "-o", "c.mps", "--no-warnings"], 0)
        self.leaves(a_mps=PULP, b_mps=CANONICAL, c_mps=new)
        self.prints(["canon", "-i", "--force", "a.mps"], 0, "a.mps\n", f"warning: a.mps:{COMMENT}\n")
        self.leaves(a_mps=new, b_mps=CANONICAL, c_mps=new)

    def test_a_file_with_warnings_as_errors_is_left(self):
        self.file("b.lp", LATE)
        self.prints(["canon", "-i", "-Werror", "b.lp"], 2, error=f"warning: b.lp:{NAME}\n")
        self.prints(["canon", "-Werror", "b.lp", "-o", "c.lp"], 2, error=f"warning: b.lp:{NAME}\n")
        self.leaves(b_lp=LATE)

    def test_a_comment_that_agrees(self):
        for text in (
            PULP.replace(b"Maximize", b"Minimize"),
            PULP.replace(b"ROWS", b"OBJSENSE\n    MAX\nROWS"),
            PULP.replace(b"ROWS", b"OBJSENSE MAXIMIZE\nROWS"),
        ):
            self.file("a.mps", text)
            self.prints(["canon", "-i", "a.mps"], 0, "a.mps\n")
            self.assertEqual(Path("a.mps").read_bytes(), mpslp.canonical(text, "mps"))


if __name__ == "__main__":
    unittest.main()
