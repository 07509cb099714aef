"""Merges of models: items, conflicts, what is written, and that files are written as a whole."""

import json
import os
import resource
import signal
import stat
import subprocess
import sys
import tempfile
import unittest
from dataclasses import replace
from decimal import Decimal
from pathlib import Path
from unittest import mock

import merge_check
import mpslp
from mpslp._errors._own_checks import OwnCheckError
from mpslp._merge import _check, _markers
from repository import EXAMPLES

TOOLS = [sys.executable, "-m", "mpslp"]
CANONICAL = (EXAMPLES / "small.canonical.lp").read_bytes()
BASE = mpslp.load(b"max profit: 3 x + 2 y + 4\nst flour: x + y <= 40\nmilk: 0 <= x <= 60\nbounds y <= 50\nend\n", "lp")


def merged_lines(ours, theirs, base=BASE):
    return [str(each) for each in mpslp.merge(base, ours, theirs).conflicts]


class Models(unittest.TestCase):
    def test_random_triples(self):
        self.assertEqual(list(merge_check.checked(60, 3, 10)), [])

    def test_model_and_conflicts(self):
        merged = mpslp.merge(BASE, BASE.replace(sense="minimize"), BASE.replace(objective="gain", constant=5))
        self.assertIsInstance(merged, mpslp.Merged)
        self.assertEqual(merged.model, BASE.replace(sense="minimize", objective="gain", constant=5))
        self.assertEqual(merged.conflicts, ())

    def test_lines(self):
        x, y = BASE.columns["x"], BASE.columns["y"]
        without_y = mpslp.Model("maximize", "profit", 4, BASE.rows, [x])
        for ours, theirs, lines in (
            (
                BASE.replace(rows=[mpslp.Row("flour", upper=42)]),
                BASE.replace(rows=[mpslp.Row("flour", upper=44)]),
                ["conflict: row flour, upper limit: base 40, ours 42, theirs 44"],
            ),
            (
                BASE.replace(rows=[mpslp.Row("milk", 50, 60)]),
                BASE.replace(rows=[mpslp.Row("milk", 0, 45)]),
                ["conflict: row milk, limits: base 0 to 60, ours 50 to 60, theirs 0 to 45"],
            ),
            (
                BASE.replace(columns=[replace(y, kind="semi-continuous")]),
                BASE.replace(columns=[replace(y, upper=Decimal("Infinity"))]),
                [
                    "conflict: column y, bounds: base continuous, 0 to 50, ours semi-continuous, 0 to 50, theirs "
                    "continuous, 0 to inf"
                ],
            ),
            (
                without_y,
                BASE.replace(columns=[replace(y, cost=7)]),
                ["conflict: column y, cost: base 2, ours removed, theirs 7"],
            ),
            (
                BASE.replace(columns=[replace(x, entries={"flour": Decimal("1.50e1"), "milk": 1})]),
                BASE.replace(columns=[replace(x, entries={"milk": 1})]),
                ["conflict: row flour, coefficient of x: base 1, ours 15, theirs 0"],
            ),
            (
                BASE.replace(objective="gain"),
                BASE.replace(rows=[mpslp.Row("gain")]),
                ["conflict: name gain: base none, ours objective, theirs row"],
            ),
            (
                without_y,
                mpslp.Model("maximize", "profit", 4, BASE.rows, [y]),
                ["conflict: number of columns: base 2, ours 1, theirs 1"],
            ),
        ):
            with self.subTest(lines):
                self.assertEqual(merged_lines(ours, theirs), lines)
                self.assertIsNone(mpslp.merge(BASE, ours, theirs).model)

    def test_what_was_removed(self):
        """Of a coefficient it may be the row, the column, or both."""
        x, y = BASE.columns["x"], BASE.columns["y"]
        changed = BASE.replace(columns=[replace(x, entries={"flour": 9, "milk": 1})])
        rows, others = [BASE.rows["milk"]], [replace(y, entries={})]
        for removing, parts, words in (
            (BASE.replace(remove_rows=["flour"]), [mpslp.RowItem("flour", "existence")], "row flour"),
            (BASE.replace(remove_columns=["x"]), [mpslp.ColumnItem("x", "existence")], "column x"),
            (
                mpslp.Model("maximize", "profit", 4, rows, others),
                [mpslp.RowItem("flour", "existence"), mpslp.ColumnItem("x", "existence")],
                "row flour and column x",
            ),
        ):
            with self.subTest(words):
                (found,) = mpslp.merge(BASE, changed, removing).conflicts
                self.assertEqual((found.removed, found.ours, found.theirs), (tuple(parts), Decimal(9), None))
                line = f"conflict: row flour, coefficient of x: base 1, ours 9, theirs removed {words}"
                self.assertEqual(str(found), line)
                self.assertEqual(
                    merged_lines(removing, changed), [line.replace("ours 9, theirs", "ours") + ", theirs 9"]
                )

    def test_items(self):
        found = mpslp.merge(BASE, BASE.replace(constant=5), BASE.replace(constant=6)).conflicts
        self.assertEqual(found, (mpslp.Conflict(mpslp.ModelItem("constant"), Decimal(4), Decimal(5), Decimal(6)),))
        self.assertEqual(str(mpslp.RowItem("r", "lower")), "row r, lower limit")

    def test_sources(self):
        base, other = (EXAMPLES / name for name in ("small.mps", "small.canonical.lp"))
        self.assertEqual(mpslp.merge(base, other, mpslp.load(base)).model, mpslp.load(other))
        self.assertEqual(
            mpslp.merge(base.read_bytes(), base.read_bytes(), base.read_bytes(), "mps").model, mpslp.load(base)
        )
        with self.assertRaises(mpslp.ModelFileError):
            mpslp.merge(BASE, b"min x y\nend\n", BASE, "lp")

    def test_the_check(self):
        """A model without a change of one side, or with one more, is no merge."""
        ours, theirs = BASE.replace(constant=5), BASE.replace(sense="minimize")
        models = mpslp._merge._rules.Three(BASE, ours, theirs)
        decided = mpslp._merge._rules.Decided(models)
        right = decided.model()
        _check.require_merged(models, decided.of_ours, decided.of_theirs, right)
        for wrong in (ours, theirs, BASE, right.replace(objective="gain"), right.replace(constant=6)):
            with self.assertRaises(OwnCheckError):
                _check.require_merged(models, decided.of_ours, decided.of_theirs, wrong)
        with self.assertRaises(OwnCheckError):
            _check.require_merged(models, {}, decided.of_theirs, theirs)

    def test_many_lines_are_marked_in_little_time(self):
        """Nothing grows as the square of the lines."""
        lines = [b" row%d\n" % number for number in range(100_000)]
        ours, theirs = b"".join(lines[:-1] + [b"o\n"]), b"".join([b"t\n"] + lines[1:])
        merged = b"".join([b"t\n", *lines[1:-1], b"o\n"])
        found = _markers.marked_changes(merged, ours, theirs, ["o"], True, 7)
        self.assertTrue(found.endswith(b"<<<<<<< ours\no\n=======\n row99999\n>>>>>>> theirs\n"))
        self.assertEqual(found.count(b"<<<<<<<"), 1)


class Command(unittest.TestCase):
    def setUp(self):
        directory = tempfile.TemporaryDirectory()
        self.addCleanup(directory.cleanup)
        self.directory = Path(directory.name)
        self.write("base.lp", CANONICAL)
        self.write("ours.lp", CANONICAL.replace(b"<= 4", b"<= 5"))
        self.write("theirs.lp", CANONICAL.replace(b">= 1", b">= 2"))
        self.merged = CANONICAL.replace(b"<= 4", b"<= 5").replace(b">= 1", b">= 2")

    def write(self, name, content):
        (self.directory / name).write_bytes(content)

    def run_merge(self, *words, limit=None, code=None):
        tool = TOOLS if code is None else [sys.executable, "-c", code]
        before = None if limit is None else lambda: resource.setrlimit(resource.RLIMIT_FSIZE, (limit, limit))
        return subprocess.run([*tool, "merge", *words], cwd=self.directory, capture_output=True, preexec_fn=before)

    def test_output(self):
        done = self.run_merge("base.lp", "ours.lp", "theirs.lp")
        self.assertEqual((done.returncode, done.stdout, done.stderr), (0, self.merged, b""))
        done = self.run_merge("-o", "merged.mps", "base.lp", "ours.lp", "theirs.lp")
        self.assertEqual((done.returncode, done.stdout), (0, b""))
        self.assertEqual((self.directory / "merged.mps").read_bytes(), mpslp.canonical(self.merged, "lp", "mps"))

    def test_conflict(self):
        self.write("theirs.lp", CANONICAL.replace(b"<= 4", b"<= 6"))
        done = self.run_merge("base.lp", "ours.lp", "theirs.lp")
        self.assertEqual(
            (done.returncode, done.stderr), (1, b"conflict: row LIM1, upper limit: base 4, ours 5, theirs 6\n")
        )
        self.assertEqual(
            done.stdout, CANONICAL.replace(b"  <= 4\n", b"<<<<<<< ours\n  <= 5\n=======\n  <= 6\n>>>>>>> theirs\n")
        )
        done = self.run_merge("-q", "--marker-size", "9", "base.lp", "ours.lp", "theirs.lp")
        self.assertEqual((done.returncode, done.stderr), (1, b""))
        self.assertIn(b"\n<<<<<<<<< ours\n", done.stdout)
        self.write("marked.lp", done.stdout)
        for words in (["check", "marked.lp"], ["explain", "marked.lp"]):
            said = subprocess.run([*TOOLS, *words], cwd=self.directory, capture_output=True)
            self.assertEqual(said.returncode, 2)
            self.assertIn(b"a marker of git: the file has a conflict", said.stdout + said.stderr)

    def test_json(self):
        self.write("theirs.lp", CANONICAL.replace(b"<= 4", b"<= 6").replace(b"1.5 Y", b"2 Y"))
        for words in ((), ("-o", "merged.lp")):
            done = self.run_merge("--json", *words, "base.lp", "ours.lp", "theirs.lp")
            self.assertEqual((done.returncode, done.stderr), (1, b""))
            text = "conflict: row LIM1, upper limit: base 4, ours 5, theirs 6"
            conflict = {"of": "row", "row": "LIM1", "what": "upper", "base": "4", "ours": "5", "theirs": "6"}
            self.assertEqual(
                json.loads(done.stdout),
                {
                    "path": "ours.lp",
                    "result": "accepted",
                    "error": "",
                    "line": None,
                    "reason": "",
                    "verdict": "conflicts",
                    "conflicts": [{**conflict, "removed": [], "text": text}],
                },
            )
            self.assertEqual((self.directory / "merged.lp").exists(), bool(words))

    def test_json_of_each_item(self):
        base = b"max p: x + y\nst a: x + y <= 4\n b: x - y >= 1\nend\n"
        self.write("base.lp", base)
        for ours, theirs, found in (
            (base.replace(b"max", b"min"), base, None),
            (base.replace(b"p:", b"q:"), base.replace(b"p:", b"r:"), ("model", "objective", "p", "q", "r", [])),
            (
                base.replace(b"x -", b"3 x -"),
                b"max p: x + y\nst a: x + y <= 4\nend\n",
                ("entry", "value", "1", "3", None, ["row"]),
            ),
            (base.replace(b"p: x", b"p: 2 x"), base.replace(b"p: x", b"p: 3 x"), ("column", "cost", "1", "2", "3", [])),
            (
                base.replace(b"p:", b"c:"),
                base.replace(b"end", b" c: y >= 9\nend"),
                ("name", "name", None, "objective", "row", []),
            ),
        ):
            self.write("ours.lp", ours)
            self.write("theirs.lp", theirs)
            done = json.loads(self.run_merge("--json", "base.lp", "ours.lp", "theirs.lp").stdout)
            keys = ("of", "what", "base", "ours", "theirs", "removed")
            self.assertEqual([tuple(each[key] for key in keys) for each in done["conflicts"]], [found] if found else [])
            self.assertEqual(done["verdict"], "conflicts" if found else "merged")

    def test_json_of_texts(self):
        """Models that merge, in texts that do not; and a file that is rejected."""
        plan = b"\\ a plan\nmin x\nst\n a: x <= 4\n b: x >= 1\nend\n"
        for name, text in (("base", plan), ("ours", plan.replace(b"4", b"5")), ("theirs", plan.replace(b"1", b"2"))):
            self.write(f"{name}.lp", text)
        done = self.run_merge("--json", "base.lp", "ours.lp", "theirs.lp")
        found = json.loads(done.stdout)
        self.assertEqual((done.returncode, found["verdict"], found["conflicts"]), (1, "marked", []))
        self.write("theirs.lp", b"min x y\nend\n")
        for words, path in (((), "theirs.lp"), (("--git-path", "m.lp", "-o", "ours.lp"), "m.lp (theirs)")):
            done = self.run_merge("--json", *words, "base.lp", "ours.lp", "theirs.lp")
            found = json.loads(done.stdout)
            self.assertEqual((done.returncode, done.stderr), (2, b""))
            self.assertEqual((found["path"], found["result"], found["error"]), (path, "rejected", "BadToken"))

    def test_two_formats(self):
        self.write("base.mps", mpslp.canonical(CANONICAL, "lp", "mps"))
        done = self.run_merge("base.mps", "ours.lp", "theirs.lp")
        self.assertEqual((done.returncode, done.stdout), (0, self.merged))

    def test_texts_that_do_not_merge(self):
        base = b"\\ plan\nmin x + y\nst\na: x >= 1\nb: y >= 1\nend\n"
        for name, content in (
            ("base.lp", base),
            ("ours.lp", base.replace(b"x >= 1", b"x >= 2")),
            ("theirs.lp", base.replace(b"y >= 1", b"y >= 2")),
        ):
            self.write(name, content)
        done = self.run_merge("base.lp", "ours.lp", "theirs.lp", "-o", "merged.lp")
        self.assertEqual(done.returncode, 1)
        self.assertEqual(
            done.stderr.decode(),
            "merged.lp: the models merge, and their texts do not: the text has markers; "
            "--canonical writes the merged model as formatted text\n",
        )
        self.assertIn(b"<<<<<<< ours\na: x >= 2\n", (self.directory / "merged.lp").read_bytes())
        done = self.run_merge("base.lp", "ours.lp", "theirs.lp", "--canonical")
        self.assertEqual(
            (done.returncode, mpslp.load(done.stdout, "lp")), (0, mpslp.load(base.replace(b">= 1", b">= 2"), "lp"))
        )

    def test_rejected(self):
        for name in ("base.lp", "ours.lp", "theirs.lp"):
            with self.subTest(name):
                content = (self.directory / name).read_bytes()
                self.write(name, b"min x y\nend\n")
                done = self.run_merge("base.lp", "ours.lp", "theirs.lp", "-o", "merged.lp")
                self.assertEqual((done.returncode, done.stderr.split(b"\n")[0]), (2, f"{name}:1: BadToken: y".encode()))
                self.assertFalse((self.directory / "merged.lp").exists())
                self.write(name, content)

    def test_usage(self):
        for words in (("base.lp", "ours.lp"), ("base.lp",) * 4, ("-f", "lp", "-", "-", "base.lp")):
            self.assertEqual(self.run_merge(*words).returncode, 3, words)
        self.assertEqual(self.run_merge("base.lp", "ours.lp", "none.lp").returncode, 4)

    def test_the_own_check_fails(self):
        with mock.patch("mpslp._merge._call.require_merged", side_effect=OwnCheckError("no")):
            self.assertRaises(OwnCheckError, mpslp.merge, BASE, BASE, BASE)
        code = (
            "import sys, mpslp._merge._rules as rules, mpslp._main as main\n"
            "rules.merged_by = lambda *each: {}\nimport mpslp._merge._check as check\n"
            "check.merged_by = rules.merged_by\nsys.exit(main.run('mpslp-tools'))"
        )
        done = self.run_merge("base.lp", "ours.lp", "theirs.lp", "-o", "merged.lp", code=code)
        self.assertEqual((done.returncode, (self.directory / "merged.lp").exists()), (2, False))
        self.assertIn(b"internal error: the merged model does not have the changes of both sides", done.stderr)

    # ---- files are as before, or complete

    def test_links_and_modes(self):
        ours = self.directory / "ours.lp"
        os.chmod(ours, 0o444)
        (self.directory / "link.lp").symlink_to("ours.lp")
        self.assertEqual(self.run_merge("-o", "link.lp", "base.lp", "ours.lp", "theirs.lp").returncode, 0)
        self.assertTrue((self.directory / "link.lp").is_symlink())
        self.assertEqual((ours.read_bytes(), stat.S_IMODE(ours.stat().st_mode)), (self.merged, 0o444))

    def test_a_full_disk(self):
        before = (self.directory / "ours.lp").read_bytes()
        done = self.run_merge("-o", "ours.lp", "base.lp", "ours.lp", "theirs.lp", limit=40)
        self.assertEqual((done.returncode, (self.directory / "ours.lp").read_bytes()), (4, before))
        self.assertEqual(sorted(os.listdir(self.directory)), ["base.lp", "ours.lp", "theirs.lp"])

    def test_a_killed_process(self):
        for place, is_written in (("os.replace", False), ("mpslp._files._paths._sync_directory", True)):
            before = (self.directory / "ours.lp").read_bytes()
            code = (
                "import os, signal, sys, mpslp._files._paths, mpslp._main as main\n"
                f"{place} = lambda *each: os.kill(os.getpid(), signal.SIGKILL)\nsys.exit(main.run('mpslp-tools'))"
            )
            done = self.run_merge("-o", "ours.lp", "base.lp", "ours.lp", "theirs.lp", code=code)
            self.assertEqual(done.returncode, -signal.SIGKILL)
            self.assertEqual((self.directory / "ours.lp").read_bytes(), self.merged if is_written else before)


if __name__ == "__main__":
    unittest.main()
