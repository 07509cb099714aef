"""What is said of a mistyped command line, formats of what is written, and what diff and adapt print of a change."""

import json
import unittest
import unittest.mock

import mpslp
from mpslp._commands import _entries_only
from test_tools import CANONICAL_LP, SMALL, Directory

FIRST = b"min x + y\nst\n limit: x + y <= 4\n other: x >= 1\nend\n"
SECOND = b"min x + y + 3 z\nst\n cap: x + y <= 4\n other: x >= 1\n new: x + 2 y >= 1\nend\n"


def wide(name, count):
    """A model with a row of so many columns beside another one."""
    columns = [f"x{number:02}" for number in range(count)]
    terms = " + ".join(f"{number} {column}" for number, column in enumerate(columns, 2))
    return f"min {' + '.join(columns)}\nst\n c: x00 >= 1\n {name}end\n".replace("TERMS", terms).encode()


class Mistyped(Directory):
    def last_line(self, *words):
        done = self.run_tools(*words)
        self.assertEqual((done.returncode, done.stdout), (3, b""))
        return done.stderr.decode().splitlines()[-1]

    def test_the_nearest_command(self):
        self.assertTrue(self.last_line("cannon", "a.mps").endswith("; did you mean canon?"))
        self.assertTrue(self.last_line("setup_git").endswith("; did you mean setup-git?"))
        self.assertNotIn("did you mean", self.last_line("zzz"))

    def test_the_nearest_option(self):
        for words, near in (
            (["canon", "--out-dri", "d", "a.mps"], "--out-dir"),
            (["canon", "--out-dri=d", "a.mps"], "--out-dir"),
            (["diff", "a.mps", "b.mps", "--jsno"], "--json"),
        ):
            line = self.last_line(*words)
            self.assertRegex(line, rf"unrecognized arguments: .*; did you mean {near}\?$")
        self.assertNotIn("did you mean", self.last_line("canon", "--zzz", "a.mps"))

    def test_the_nearest_value(self):
        self.assertTrue(self.last_line("canon", "--for", "hihgs", "a.mps").endswith("; did you mean highs?"))
        self.assertTrue(self.last_line("adapt", "--from", "plup", "a.mps").endswith("; did you mean pulp?"))

    def test_files_after_two_dashes_are_no_options(self):
        self.file("--jsno")
        self.assertEqual(self.run_tools("digest", "-f", "mps", "--", "--jsno").returncode, 0)


class Formats(Directory):
    def test_in_capitals(self):
        self.file("a")
        self.prints(["canon", "-f", "MPS", "-t", "Lp", "a"], 0, CANONICAL_LP.decode())
        self.prints(["canon", "MPS", "LP", "a"], 0, CANONICAL_LP.decode())

    def test_a_name_that_says_another_format(self):
        self.file("a.mps")
        for words in (
            ["canon", "-t", "mps", "-o", "b.lp", "a.mps"],
            ["canon", "-t", "lp", "-o", "b.MPS.gz", "a.mps"],
            ["canon", "mps", "mps", "-o", "b.lp", "a.mps"],
            ["canon", "--for", "glpsol", "-t", "glp", "-o", "b.mps", "a.mps"],
            ["canon", "--rename", "-t", "lp", "-o", "b.mps", "a.mps"],
        ):
            done = self.run_tools(*words)
            self.assertEqual((done.returncode, done.stdout), (3, b""), words)
            self.assertRegex(done.stderr.decode(), r" is asked for, and -o b\.\S+ is the name of a file in (LP|MPS)\n$")
        self.leaves(a_mps=SMALL)
        self.prints(["canon", "-t", "lp", "-o", "b.txt", "a.mps"], 0)
        self.prints(["canon", "-t", "lp", "-o", "b.lp", "a.mps"], 0)
        self.leaves(a_mps=SMALL, b_txt=CANONICAL_LP, b_lp=CANONICAL_LP)

    def test_fmt_writes_to_a_file(self):
        self.file("a.lp", FIRST)
        formatted = mpslp.formatted(FIRST, "lp").encode()
        self.assertNotEqual(formatted, FIRST)
        self.prints(["fmt", "-o", "b.lp", "a.lp"], 0)
        self.prints(["fmt", "-o", "-", "a.lp"], 0, formatted.decode())
        self.leaves(a_lp=FIRST, b_lp=formatted)
        self.prints(["fmt", "-o", "a.lp", "a.lp"], 0)
        self.leaves(a_lp=formatted, b_lp=formatted)
        done = self.run_tools("fmt", "-o", "b.mps", "a.lp")
        self.assertEqual((done.returncode, done.stdout), (3, b""))
        self.assertIn(b"fmt keeps the format: a.lp is in LP, and -o b.mps is not", done.stderr)
        self.assertEqual(self.run_tools("fmt", "-o", "c.lp", "a.lp", "b.lp").returncode, 3)
        self.assertEqual(self.run_tools("fmt", "-o", "c.lp", "-i", "a.lp").returncode, 3)
        self.leaves(a_lp=formatted, b_lp=formatted)


class Differences(Directory):
    def test_coefficients_and_new_names(self):
        self.file("a.lp", FIRST)
        self.file("b.lp", SECOND)
        lines = [
            "row limit: name limit -> cap",
            "+ row new: 1 to inf, 2 entries",
            "+ entry new x: 1",
            "+ entry new y: 2",
            "+ column z: continuous, 0 to inf, cost 3, 0 entries",
        ]
        self.prints(["diff", "a.lp", "b.lp"], 1, "".join(f"{line}\n" for line in lines))
        back = [
            line.replace("+ ", "- ").replace("limit: name limit -> cap", "cap: name cap -> limit") for line in lines
        ]
        self.prints(["diff", "b.lp", "a.lp"], 1, "".join(f"{line}\n" for line in back))
        found = json.loads(self.run_tools("diff", "--json", "a.lp", "b.lp").stdout)["differences"]
        self.assertEqual(
            found[:2],
            [
                {"of": "row", "row": "limit", "what": "name", "first": "limit", "second": "cap", "text": lines[0]},
                {
                    "of": "row",
                    "row": "new",
                    "what": "only",
                    "first": False,
                    "second": True,
                    "entries": {"x": "1", "y": "2"},
                    "text": lines[1],
                },
            ],
        )

    def test_the_first_ten_coefficients(self):
        self.file("a.lp", wide("", 14))
        for count in (10, 11, 14):
            terms = " + ".join(f"{number + 2} x{number:02}" for number in range(count))
            self.file("b.lp", wide(f"d: {terms} <= 1\n", 14))
            entries = [f"+ entry d x{number:02}: {number + 2}\n" for number in range(count)]
            head = f"+ row d: -inf to 1, {count} entries\n"
            others = count - 10
            rest = (
                f"+ {others} more {'entry' if others == 1 else 'entries'} of d: --all prints them\n" if others else ""
            )
            self.prints(["diff", "a.lp", "b.lp"], 1, head + "".join(entries[:10]) + rest)
            self.prints(["diff", "--all", "a.lp", "b.lp"], 1, head + "".join(entries))

    def test_a_column_with_another_name(self):
        self.file("a.lp", b"min 2 x + 3 y\nst\n c: x + y >= 1\ngeneral\n x\nend\n")
        self.file("b.lp", b"min 2 w + 3 y\nst\n c: w + y >= 1\ngeneral\n w\nend\n")
        self.prints(["diff", "a.lp", "b.lp"], 1, "column x: name x -> w\n")

    def test_no_guess_among_several(self):
        """Two rows that are alike, or one with another limit or coefficient, are no row with another name."""
        self.file("a.lp", b"min x\nst\n a: x >= 1\n b: x >= 1\nend\n")
        for text in (b"c: x >= 1\n d: x >= 1", b"c: x >= 1", b"b: x >= 1\n c: x >= 2", b"b: x >= 1\n c: 2 x >= 1"):
            self.file("b.lp", b"min x\nst\n " + text + b"\nend\n")
            printed = self.run_tools("diff", "a.lp", "b.lp").stdout.decode()
            self.assertNotIn("name", printed, text)
            self.assertRegex(printed, r"(?m)^- row a: 1 to inf, 1 entry\n- entry a x: 1$")

    def test_differences_beyond_those_that_are_compared(self):
        with unittest.mock.patch.object(_entries_only, "_MOST_DIFFERENCES", 1):
            found = list(map(str, _entries_only.with_renamed(mpslp.diff(FIRST, SECOND, "lp", "lp"))))
        self.assertEqual(found, list(map(str, mpslp.diff(FIRST, SECOND, "lp", "lp"))))


class Changes(Directory):
    def test_spaces_only(self):
        text = b"NAME\nROWS\n N  C\nL  R\nCOLUMNS\n    x  C  1  R  1\nRHS\n    RHS  R  4\nENDATA\n"
        change = mpslp.adapt(text, "mps").changes[0]
        self.assertEqual(str(change), '4: indent: "L  R" -> " L  R"')
        self.file("a.mps", text)
        done = self.run_tools("adapt", "a.mps")
        self.assertRegex(done.stderr.decode(), r'(?m)^a\.mps:4: indent: "L  R" -> " L  R"$')
        tab = mpslp.adapt(text.replace(b"\nL  R\n", b"\nL\tR\n"), "mps").changes[0]
        self.assertIn('"L\\tR" -> ', str(tab))

    def test_others_are_without_quotes(self):
        self.assertEqual(str(mpslp.adapt(b"min 2 * x\nend\n", "lp").changes[0]), "1: product: 2 * x -> 2 x")


if __name__ == "__main__":
    unittest.main()
