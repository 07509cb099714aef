"""The grammar of mpslp-tools: the options that several commands have, many files, JSON, diffs, and the arguments of
mpslp."""

import errno
import gzip
import io
import json
import os
import pty
import random
import re
import shutil
import signal
import subprocess
import sys
import time
import unittest
from pathlib import Path
from unittest import mock

import mpslp
from mpslp import _main
from mpslp._commands import COMMANDS, _work, command_of
from mpslp._commands._parser import parser
from mpslp._errors._own_checks import OwnCheckError
from mpslp._files import _workers
from mpslp._text import _patch
from repository import EXAMPLES, ROOT, VECTORS, model_files
from test_load import entries
from test_tools import BROKEN, CANONICAL, CANONICAL_LP, SMALL, TOOLS, Directory, read_to_the_end

sys.path.insert(0, str(ROOT / "python"))
import pages

ADAPTABLE = b"min x\nst\nx + 3 >= 5\nend\n"
ADAPTED = b"min x\nst\nx >= 2\nend\n"
PULP = b"*SENSE:Maximize\nROWS\n N  C\nCOLUMNS\n    X  C  1\nENDATA\n"
SMALL_LP = (EXAMPLES / "small.lp").read_bytes()
FILE_KEYS = {"path", "result", "error", "line", "reason"}


def commands():
    """The parsers of the commands."""
    made = parser("mpslp-tools")
    return next(action.choices for action in made._actions if isinstance(action.choices, dict))


def patched(folder, patch):
    """What comes of the files of a directory by a unified diff."""
    done = subprocess.run(["patch", "-s", "-p0"], input=patch, cwd=folder, capture_output=True)
    return done.returncode, done.stdout


class OneTable(unittest.TestCase):
    def test_help_fits_a_terminal(self):
        found = {"": parser("mpslp-tools"), **commands()}
        self.assertEqual(list(found)[1:], list(COMMANDS))
        for name, command in found.items():
            lines = command.format_help().splitlines()
            with self.subTest(name):
                self.assertLessEqual(len(lines), 24)
                self.assertLessEqual(max(map(len, lines)), 80, max(lines, key=len))
                self.assertEqual(lines[0].split()[:2], ["usage:", "mpslp-tools"])

    def test_an_option_means_the_same_in_all_commands(self):
        meanings = {}
        for command in commands().values():
            for action in command._actions:
                for name in action.option_strings:
                    meaning = (
                        action.option_strings,
                        action.help,
                        action.metavar,
                        action.choices,
                        action.nargs,
                        action.default,
                        action.dest,
                    )
                    self.assertEqual(meanings.setdefault(name, meaning), meaning, name)
        self.assertGreater(len(meanings), 30)

    def test_commands_that_have_an_option(self):
        have = {
            name: {each for action in command._actions for each in action.option_strings}
            for name, command in commands().items()
        }
        for option, names in (
            ("--json", "check same diff survey digest adapt report fmt merge"),
            ("--diff", "canon adapt fmt"),
            ("--out-dir", "canon adapt report"),
            ("-i", "canon adapt fmt"),
            ("-q", "canon check same diff show digest adapt survey report fmt merge setup-git"),
            ("-f", "canon check same diff show digest adapt survey report explain fmt merge"),
            ("--git-path", "canon merge"),
            ("-j", "canon check digest adapt survey report fmt"),
            ("--from", "adapt survey"),
            ("-o", "canon adapt report fmt merge"),
        ):
            self.assertEqual({name for name, options in have.items() if option in options}, set(names.split()), option)

    def test_completions_and_the_manual_page_are_made_from_the_parser(self):
        for path, text in pages.files():
            with self.subTest(path.name):
                self.assertEqual(path.read_text(), text, "run python3 python/pages.py --write")

    def test_shells_and_roff_accept_them(self):
        for words in (
            ["bash", "-n", "completions/mpslp-tools.bash"],
            ["zsh", "-n", "completions/_mpslp-tools"],
            ["fish", "-n", "completions/mpslp-tools.fish"],
            ["man", "--warnings", "-l", "docs/mpslp-tools.1"],
        ):
            if shutil.which(words[0]) is not None:
                done = subprocess.run(words, cwd=ROOT, stdout=subprocess.DEVNULL, stderr=subprocess.PIPE)
                self.assertEqual((done.returncode, done.stderr), (0, b""), words)

    def test_only_the_command_that_is_given_is_imported(self):
        program = (
            "import sys; from mpslp._main import main; main(['explain', 'Sos']); print(*(name for name in "
            "sys.modules if name.startswith('mpslp._commands._')))"
        )
        done = subprocess.run([sys.executable, "-c", program], capture_output=True, text=True, check=True)
        self.assertIn("mpslp._commands._explain", done.stdout.split())
        self.assertNotIn("mpslp._commands._report", done.stdout.split())


class Words(Directory):
    """Arguments in any order."""

    def test_options_between_files(self):
        self.file("a.mps")
        self.file("b.txt", SMALL_LP)
        self.prints(["same", "a.mps", "-f", "lp", "b.txt"], 0, "same\n")
        self.prints(["check", "a.mps", "-q", "b.txt", "-f", "lp"], 1)
        self.file("-c.mps")
        self.prints(["canon", "-t", "lp", "--", "-c.mps"], 0, CANONICAL_LP.decode())
        self.prints(["same", "a.mps", "--", "-c.mps"], 0, "same\n")

    def test_help_and_version_as_mpslp_has_them(self):
        for name in COMMANDS:
            one, other = self.run_tools("help", name), self.run_tools(name, "--help")
            self.assertEqual((one.returncode, one.stdout, one.stderr), (0, other.stdout, b""))
            self.assertIn(command_of(name).DESCRIPTION.encode(), one.stdout)
        self.assertEqual(self.run_tools("help").stdout, self.run_tools("--help").stdout)
        self.prints(["-V"], 0, f"mpslp {mpslp.__version__}\n")
        for words in (["help", "solve"], ["help", "canon", "show"], ["canon", "--nothing", "a.mps"]):
            self.assertEqual(self.run_tools(*words).returncode, 3)


class AsMpslp(Directory):
    """The arguments of the program mpslp."""

    def test_all_vectors(self):
        for entry in entries():
            path, form = VECTORS / entry.input, entry.input.rsplit(".")[-1]
            for to in ("mps", "lp"):
                try:
                    wanted = (0, mpslp.canonical(path, form, to))
                except mpslp.ModelFileError:
                    wanted = (2, b"")
                done = self.run_tools("canon", "--no-warnings", form, to, path)
                self.assertEqual((done.returncode, done.stdout), wanted, path)
            done = self.run_tools("show", form, path)
            self.assertEqual(done.returncode, 0 if entry.answer == "model" else 2, path)
            if entry.answer == "model" and entry.show != "-":
                self.assertEqual(done.stdout, (VECTORS / entry.show).read_bytes())

    def test_formats_take_precedence_over_extensions(self):
        self.file("a.lp", SMALL)
        self.file("a", SMALL_LP)
        self.prints(["canon", "mps", "lp", "a.lp"], 0, CANONICAL_LP.decode())
        self.prints(["canon", "lp", "mps", "a"], 0, CANONICAL.decode())
        self.prints(["canon", "mps", "mps", "-"], 0, CANONICAL.decode(), content=SMALL)
        self.prints(["same", "mps", "a.lp", "lp", "a"], 0, "same\n")
        self.prints(["same", "lp", "a", "mps", "-"], 0, "same\n", content=SMALL)
        self.assertEqual(self.run_tools("show", "lp", "a").stdout, self.run_tools("show", "mps", "a.lp").stdout)
        self.prints(["canon", "mps", "lp", "a.lp", "-o", "b"], 0)
        self.assertEqual(Path("b").read_bytes(), CANONICAL_LP)

    def test_statuses(self):
        self.file("a.lp", BROKEN)
        self.file("b.mps")
        for words, status in (
            (["canon", "lp", "mps", "a.lp"], 2),
            (["canon", "lp", "mps", "none"], 4),
            (["canon", "qps", "mps", "a.lp"], 3),
            (["canon", "mps", "lp"], 3),
            (["same", "mps", "b.mps", "lp", "a.lp"], 2),
            (["same", "mps", "-", "lp", "-"], 3),
            (["same", "mps", "b.mps", "mps", EXAMPLES / "semi.mps"], 1),
            (["same", "mps", "b.mps", "mps"], 3),
            (["show", "mps", "none"], 4),
            (["canon", "-i", "mps", "lp", "b.mps"], 3),
        ):
            done = self.run_tools(*words)
            self.assertEqual((done.returncode, done.stdout if status not in (1,) else b""), (status, b""), words)
            if status != 1:
                self.assertNotEqual(done.stderr, b"")
        self.leaves(a_lp=BROKEN, b_mps=SMALL)

    def test_files_whose_names_are_formats(self):
        for name in ("mps", "lp"):
            self.file(name)
        done = self.run_tools("show", "-f", "mps", "mps", "lp")
        self.assertEqual((done.returncode, done.stdout.count(b"==> ")), (0, 2))
        self.prints(["same", "-f", "mps", "mps", "lp"], 0, "same\n")


class OutDir(Directory):
    def tree(self):
        return {str(path.relative_to("out")): path.read_bytes() for path in Path("out").rglob("*") if path.is_file()}

    def test_the_tree_is_kept(self):
        for name, content in (
            ("m/a.mps", SMALL),
            ("m/deep/b.LP", SMALL_LP),
            ("m/deep/er/c.mps.gz", gzip.compress(SMALL)),
            ("m/notes.txt", b""),
            ("d.lp", SMALL_LP),
        ):
            self.file(name, content)
        self.prints(["canon", "--out-dir", "out", "m", "d.lp"], 0)
        found = self.tree()
        found["deep/er/c.mps.gz"] = gzip.decompress(found["deep/er/c.mps.gz"])
        self.assertEqual(
            found, {"a.mps": CANONICAL, "deep/b.LP": CANONICAL_LP, "deep/er/c.mps.gz": CANONICAL, "d.lp": CANONICAL_LP}
        )
        self.assertEqual(Path("m/a.mps").read_bytes(), SMALL)

    def test_extensions_follow_the_format(self):
        for name, content in (("m/a.mps", SMALL), ("m/deep/b.LP", SMALL_LP), ("m/deep/c.MPS.gz", gzip.compress(SMALL))):
            self.file(name, content)
        self.file("d.txt", SMALL)
        self.prints(["canon", "-t", "lp", "--out-dir", "out", "m", "d.txt", "-f", "mps"], 0)
        found = self.tree()
        found["deep/c.lp.gz"] = gzip.decompress(found["deep/c.lp.gz"])
        self.assertEqual(found, dict.fromkeys(("a.lp", "deep/b.LP", "deep/c.lp.gz", "d.txt.lp"), CANONICAL_LP))

    def test_a_file_that_is_rejected_is_left_out(self):
        self.file("m/a.mps")
        self.file("m/b.lp", BROKEN)
        self.prints(["canon", "--out-dir", "out", "m"], 2, error="m/b.lp:1: BadToken: y\n")
        self.assertEqual(self.tree(), {"a.mps": CANONICAL})

    def test_two_files_with_one_place(self):
        self.file("m/a.mps")
        self.file("n/a.mps")
        self.file("m/a.lp", SMALL_LP)
        self.prints(
            ["canon", "--out-dir", "out", "m", "n"],
            3,
            error="python3 -m mpslp: error: m/a.mps and n/a.mps would both be written to out/a.mps\n",
        )
        self.prints(
            ["canon", "--out-dir", "out", "-t", "lp", "m"],
            3,
            error="python3 -m mpslp: error: m/a.lp and m/a.mps would both be written to out/a.lp\n",
        )
        self.prints(
            ["canon", "--out-dir", "out", "--for", "glpsol", "m"],
            3,
            error="python3 -m mpslp: error: m/a.lp and m/a.mps would both be written to out/a.*\n",
        )
        self.prints(["canon", "--out-dir", "out", "m/a.mps", "m/a.mps"], 0)
        self.assertEqual(self.tree(), {"a.mps": CANONICAL})

    def test_directories_that_are_read_and_written(self):
        self.file("a.mps")
        self.prints(["canon", "--out-dir", "out", "."], 0)
        self.prints(["canon", "--out-dir", "out", "."], 0)  # what is in it is not read again
        self.assertEqual(self.tree(), {"a.mps": CANONICAL})
        self.prints(
            ["canon", "--out-dir", "./", "."],
            3,
            error="python3 -m mpslp: error: --out-dir ./ is the directory that is read\n",
        )
        self.assertEqual(self.run_tools("canon", "--out-dir", "out", "-", "-f", "mps").returncode, 3)
        self.assertEqual(Path("a.mps").read_bytes(), SMALL)

    def test_a_file_that_replaces_itself_keeps_its_sense(self):
        self.file("m/pulp.mps", PULP)
        done = self.run_tools("canon", "m/pulp.mps", "--out-dir", "m")
        self.assertEqual((done.returncode, Path("m/pulp.mps").read_bytes()), (2, PULP))
        self.assertIn(b"the file is left", done.stderr)
        self.assertEqual(self.run_tools("canon", "m/pulp.mps", "--out-dir", "m", "--force").returncode, 0)

    def test_a_directory_that_cannot_be_made(self):
        self.file("out", b"a file")
        self.file("a.mps")
        done = self.run_tools("canon", "--out-dir", "out", "a.mps")
        self.assertEqual((done.returncode, done.stdout), (4, b""))
        self.assertRegex(done.stderr, rb"^out: [^\n]+\n$")

    def test_texts_for_solvers(self):
        self.file("m/a.mps")
        self.file("m/deep/b.lp", SMALL_LP)
        self.prints(["canon", "--for", "glpsol", "--no-warnings", "--out-dir", "out", "m"], 0)
        self.assertEqual(set(self.tree()), {"a.glp", "deep/b.glp"})
        self.assertEqual(self.tree()["a.glp"], mpslp.text_for(mpslp.load("m/a.mps"), "glpsol"))

    def test_pages(self):
        self.file("m/a.mps")
        self.file("m/deep/a.lp", SMALL_LP)
        self.prints(["report", "--out-dir", "out", "m"], 0)
        self.assertEqual(set(self.tree()), {"a.mps.html", "deep/a.lp.html", "index.html"})
        self.assertEqual(self.tree()["a.mps.html"], self.run_tools("report", "m/a.mps").stdout)


class Patches(Directory):
    def test_what_in_place_would_write(self):
        """A diff, applied by patch, is what -i does; for all files of the repository."""
        if shutil.which("patch") is None:
            self.skipTest("patch is missing")
        for path in [*model_files(EXAMPLES), *model_files(VECTORS)]:
            if path.stat().st_size < 100000:
                shutil.copy(path, self.folder)
        before = {path.name: path.read_bytes() for path in self.folder.iterdir()}
        shown = self.run_tools("canon", "--diff", "--force", "--no-warnings", ".")
        self.assertEqual({path.name: path.read_bytes() for path in self.folder.iterdir()}, before, "nothing is written")
        done = self.run_tools("canon", "-i", "--force", "--no-warnings", ".")
        after = {path.name: path.read_bytes() for path in self.folder.iterdir()}
        self.assertEqual((shown.returncode, shown.stderr), (2, done.stderr))
        for name, content in before.items():
            self.file(name, content)
        self.assertEqual(patched(self.folder, shown.stdout), (0, b""))
        self.assertEqual({path.name: path.read_bytes() for path in self.folder.iterdir()}, after)
        self.assertNotEqual(before, after)

    def test_one_file(self):
        self.file("a.lp", b"min x\nst\nx >= 2.0\nend\n")
        diff = (
            "--- a.lp\n+++ a.lp\n@@ -1,4 +1,7 @@\n-min x\n-st\n-x >= 2.0\n-end\n+Minimize\n+ obj:\n+  + 1 x\n"
            "+Subject To\n+ c1:\n+  + 1 x\n+  >= 2\n+End\n"
        )
        done = self.run_tools("canon", "--diff", "a.lp")
        self.assertEqual((done.returncode, done.stderr), (1, b""))
        self.assertTrue(done.stdout.startswith(b"--- a.lp\n+++ a.lp\n@@ -1,4 +1,"), diff)
        self.assertEqual(self.run_tools("canon", "--diff", "-f", "lp", "-", content=b"min x\nend\n").returncode, 1)
        self.file("b.lp", CANONICAL_LP)
        self.prints(["canon", "--diff", "b.lp"], 0)
        self.file("c.mps", PULP)
        self.assertEqual(self.run_tools("canon", "--diff", "c.mps").returncode, 2, "-i leaves it, too")
        for words in (
            ["canon", "--diff", "-i", "a.lp"],
            ["canon", "--diff", "-t", "mps", "a.lp"],
            ["canon", "--diff", "--for", "clp", "a.lp"],
            ["adapt", "--diff", "--json", "a.lp"],
        ):
            self.assertEqual(self.run_tools(*words).returncode, 3, words)

    def test_adapt(self):
        self.file("m/a.lp", ADAPTABLE)
        self.file("m/b.lp", ADAPTED)
        report = "m/a.lp:3: constant-in-row: x + 3 >= 5 -> x >= 2\n"
        self.prints(
            ["adapt", "--diff", "m"],
            1,
            "--- m/a.lp\n+++ m/a.lp\n@@ -1,4 +1,4 @@\n min x\n st\n-x + 3 >= 5\n+x >= 2\n end\n",
            report,
        )
        self.assertEqual(Path("m/a.lp").read_bytes(), ADAPTABLE)

    def test_random_texts(self):
        if shutil.which("patch") is None:
            self.skipTest("patch is missing")
        source = random.Random(76)
        for _ in range(100):
            words = source.choice((2, 6, 50))
            old, new = (
                b"".join(b"%d\n" % source.randrange(words) for _ in range(source.randrange(40))) for _ in range(2)
            )
            if source.random() < 0.6:
                new = b"".join(line if source.random() < 0.8 else b"new\n" for line in old.splitlines(keepends=True))
            if source.random() < 0.3:
                new = new[:-1]
            if source.random() < 0.3:
                old = old[:-1]
            path = self.file("x", old)
            with self.subTest(old=old, new=new):
                self.assertEqual(patched(self.folder, _patch.unified_diff("x", old, new)), (0, b""))
                self.assertEqual(path.read_bytes() if path.exists() else b"", new)

    def test_long_texts_in_which_most_changes(self):
        source = random.Random(77)
        lines = [b"  x%d  %d\n" % (number, number % 9) for number in range(50000)]
        shuffled = source.sample(lines, len(lines))
        begun = time.process_time()
        self.assertTrue(_patch.unified_diff("x", b"".join(lines), b"".join(shuffled)))
        self.assertLess(time.process_time() - begun, 20)

    def test_texts_that_are_made_to_be_slow(self):
        """Lines between which each pass finds few that occur once, many equal lines, and many of few words."""
        source = random.Random(78)
        chain = ["x1", "u", *(name for number in range(2, 20000) for name in (f"x{number}", f"x{number - 1}"))]
        blocks = "".join(f" q{number}: x >= 1\n" + " x >= 1\ny>=1\n" * 249 for number in range(100))
        words = ["".join(f"{source.randrange(3)}\n" for _ in range(100000)) for _ in range(2)]
        for old, new in (
            ("".join(f"\\ {each}\n\n\n" for each in chain), "".join(f"\\ {each}\n\n" for each in chain)),
            (blocks, blocks.replace("y>=1", " y >= 1")),
            words,
            ("\n" * 200000, "a\n" * 100000),
        ):
            begun = time.process_time()
            patch = _patch.unified_diff("x", old.encode(), new.encode())
            self.assertLess(time.process_time() - begun, 20 * len(old + new) / 10**6)
            self.assertEqual(_patch.applied(old.encode(), patch), new.encode())
        patch = _patch.unified_diff("x", blocks.encode(), blocks.replace("y>=1", " y >= 1").encode())
        self.assertEqual(patch.count(b"\n-"), 249 * 100, "lines that are the same are found")

    def test_differences_are_applied_before_they_are_printed(self):
        for pairs in ([(0, 1)], [(0, 0), (1, 1)], [(1, 0)]):
            with mock.patch.object(_patch, "matched_lines", return_value=pairs), self.assertRaisesRegex(
                OwnCheckError, "do not make the new text"
            ):
                _patch.unified_diff("x", b"1\n2\n", b"3\n4\n5\n")
        good = _patch.unified_diff("x", b"1\n2\n3\n", b"1\n4\n3\n")
        for wrong in (
            good.replace(b"-2", b"-5"),
            good.replace(b"1,3", b"2,3"),
            good.replace(b"+1,3", b"+1,4"),
            good.replace(b"@@", b"@"),
            good + good,
        ):
            self.assertIsNone(_patch.applied(b"1\n2\n3\n", wrong), wrong)
        with mock.patch.object(_patch, "applied", return_value=None):
            self.file("a.lp", SMALL_LP.replace(b"1.5", b"1.50"))
            for words in (["canon", "--diff", "a.lp"], ["fmt", "--diff", "a.lp"]):
                done = self.run_tools(*words)
                self.assertEqual(
                    (done.returncode, done.stdout, done.stderr),
                    (2, b"", b"a.lp: internal error: the differences do not make the new text\n"),
                )

    def test_paths_with_spaces_and_quotes(self):
        self.assertTrue(_patch.unified_diff('a "b"\n', b"1\n", b"2\n").startswith(rb'--- "a \"b\"\012"' + b"\n"))
        self.assertTrue(_patch.unified_diff("\\\x7f", b"1\n", b"2\n").startswith(rb'--- "\\\177"' + b"\n"))
        self.assertTrue(_patch.unified_diff("a b", b"1\n", b"2\n").startswith(b"--- a b\t\n+++ a b\t\n"))


class AdaptMany(Directory):
    def setUp(self):
        super().setUp()
        for name, content in (
            ("m/a.lp", ADAPTABLE),
            ("m/deep/b.lp", ADAPTABLE + b"\\ more\n"),
            ("m/c.mps", SMALL),
            ("m/d.lp.gz", gzip.compress(ADAPTABLE)),
        ):
            self.file(name, content)

    REPORT = "".join(
        f"m/{name}:3: constant-in-row: x + 3 >= 5 -> x >= 2\n" for name in ("a.lp", "d.lp.gz", "deep/b.lp")
    )

    def test_in_place(self):
        self.prints(["adapt", "-i", "m"], 1, "m/a.lp\nm/d.lp.gz\nm/deep/b.lp\n", self.REPORT)
        self.assertEqual((Path("m/a.lp").read_bytes(), Path("m/c.mps").read_bytes()), (ADAPTED, SMALL))
        self.assertEqual(gzip.decompress(Path("m/d.lp.gz").read_bytes()), ADAPTED)
        self.prints(["adapt", "-i", "m"], 0)

    def test_below_a_directory(self):
        self.prints(["adapt", "-q", "--out-dir", "out", "m"], 1)
        self.assertEqual(
            {str(path.relative_to("out")) for path in Path("out").rglob("*.*")},
            {"a.lp", "deep/b.lp", "c.mps", "d.lp.gz"},
        )
        self.assertEqual((Path("out/a.lp").read_bytes(), Path("out/c.mps").read_bytes()), (ADAPTED, SMALL))
        self.assertEqual(Path("m/a.lp").read_bytes(), ADAPTABLE)

    def test_a_summary(self):
        self.file("m/e.lp", b"min x\nst\nx ^ 2 >= 1\nend\n")
        done = self.run_tools("adapt", "--summary", "m")
        self.assertEqual((done.returncode, done.stdout), (2, b"     3  constant-in-row, in 3 files\n"))
        self.assertRegex(done.stderr, rb"\Am/e.lp:3: a quadratic term[^\n]*\n\Z")
        self.assertEqual(Path("m/a.lp").read_bytes(), ADAPTABLE)
        done = self.run_tools("adapt", "--summary", "-q", "-i", "m/a.lp")
        self.assertEqual(
            (done.returncode, done.stdout, Path("m/a.lp").read_bytes()),
            (1, b"     1  constant-in-row, in 1 file\n", ADAPTED),
        )

    def test_a_dry_run(self):
        self.prints(["adapt", "--dry-run", "m"], 1, "", self.REPORT)
        self.assertEqual(Path("m/a.lp").read_bytes(), ADAPTABLE)

    def test_usage(self):
        for words in (
            ["m"],
            ["m/a.lp", "m/c.mps"],
            ["-o", "x.lp", "m"],
            ["--map", "names", "--dry-run", "m"],
            ["-i", "-f", "lp", "-"],
            ["-i", "-o", "x", "m/a.lp"],
            ["--json", "m/a.lp"],
            ["--strict", "word", "-i", "m"],
            ["--names-back", "m/a.lp", "m/a.lp", "m/c.mps"],
            ["--names-back", "m/a.lp", "m/a.lp"],
            ["--names-back", "m/a.lp"],
            ["--names-back", "m/a.lp", "-i", "m/a.lp"],
            ["--names-back", "m/a.lp", "--out-dir", "out", "m/a.lp"],
            ["--names-back", "m/a.lp", "--json", "m/a.lp"],
        ):
            done = self.run_tools("adapt", *words)
            self.assertEqual((done.returncode, done.stdout), (3, b""), words)
            self.assertIn(b"error: ", done.stderr)
        self.assertEqual(Path("m/a.lp").read_bytes(), ADAPTABLE)

    def test_a_write_that_fails(self):
        self.prints(["adapt", "-q", "m/a.lp", "-o", "/dev/full"], 4, error="/dev/full: No space left on device\n")
        self.prints(["adapt", "-q", "m/a.lp", "-o", "none/a.lp"], 4, error="none/a.lp: No such file or directory\n")

    def test_the_format_of_a_name_without_one(self):
        self.file("plan", ADAPTABLE)
        self.prints(["adapt", "-q", "-f", "lp", "plan"], 1, ADAPTED.decode())
        self.prints(
            ["adapt", "plan"], 3, error="plan: its name ends neither in .mps nor in .lp: give -f mps or -f lp\n"
        )


class Quiet(Directory):
    def test_each_command(self):
        self.file("a.lp", b"min x\nst\nx >= 1\nbounds\nX <= 4\nend\n")  # it has a warning
        self.file("b.lp", BROKEN)
        error = "b.lp:1: BadToken: y\n"
        for words, status in (
            (["check", "a.lp"], 1),
            (["check", "--portable", "a.lp"], 0),
            (["same", "a.lp", EXAMPLES / "small.lp"], 1),
            (["same", "a.lp", "a.lp"], 0),
            (["diff", "a.lp", EXAMPLES / "small.lp"], 1),
            (["diff", "a.lp", "a.lp"], 0),
            (["adapt", "--dry-run", "a.lp"], 0),
            (["diff", "a.lp", "/dev/null"], 1),
        ):
            self.prints([words[0], "-q", *words[1:]], status)
            self.assertNotEqual(
                self.run_tools(*words).stdout + self.run_tools(*words).stderr if status else b"-", b"", words
            )
        for words in (["canon"], ["check"], ["same", "a.lp"], ["diff", "a.lp"], ["show"], ["digest"], ["report"]):
            self.prints([words[0], "-q", *words[1:], "b.lp"], 2, error=error)
        self.prints(["canon", "-q", "-i", "a.lp"], 0)
        self.prints(["canon", "-q", "a.lp"], 0, Path("a.lp").read_text())
        self.assertEqual(self.run_tools("digest", "-q", "a.lp").stdout, self.run_tools("digest", "a.lp").stdout)


class Json(Directory):
    def setUp(self):
        super().setUp()
        for name, content in (
            ("a.mps", CANONICAL),
            ("b.lp", b"min x\nst\nx >= 1\nbounds\nX <= 4\nend\n"),
            ("c.lp", BROKEN),
            ("d.mps.gz", b"no gzip"),
        ):
            self.file(name, content)

    def records(self, *words, status=0):
        """The records, each of which is on a line; standard error has nothing."""
        done = self.run_tools(*words)
        self.assertEqual((done.returncode, done.stderr), (status, b""), words)
        return [json.loads(line) for line in done.stdout.decode().splitlines()]

    def test_check(self):
        a, b, c, d = self.records("check", "--json", "a.mps", "b.lp", "c.lp", "d.mps.gz", status=4)
        self.assertEqual(
            a,
            {
                "path": "a.mps",
                "result": "accepted",
                "error": "",
                "line": None,
                "reason": "",
                "canonical": True,
                "warnings": [],
            },
        )
        self.assertEqual(
            (b["result"], b["canonical"], [(each["line"], each["kind"]) for each in b["warnings"]]),
            ("accepted", False, [(5, "late-name")]),
        )
        self.assertEqual(c, {"path": "c.lp", "result": "rejected", "error": "BadToken", "line": 1, "reason": "y"})
        self.assertEqual(
            (d["result"], d["error"], d["reason"]),
            ("unreadable", "", "not a complete .gz file: Not a gzipped file (b'no')"),
        )
        (b,) = self.records("check", "--json", "-Werror", "b.lp", status=2)
        self.assertEqual(
            (b["result"], b["error"], [each["kind"] for each in b["warnings"]]), ("rejected", "", ["late-name"])
        )
        self.assertEqual(self.records("check", "--json", "--no-warnings", "b.lp", status=1)[0]["warnings"], [])

    def test_portable(self):
        self.file("e.mps", PULP)
        (found,) = self.records("check", "--portable", "--json", "e.mps", status=1)
        self.assertEqual(set(found), FILE_KEYS | {"remarks"})
        self.assertEqual(
            [(each["line"], each["kind"]) for each in found["remarks"]],
            [(each.line, each.kind) for each in mpslp.portability("e.mps")],
        )

    def test_digest(self):
        a, c = self.records("digest", "--json", "a.mps", "c.lp", status=2)
        self.assertEqual((a["digest"], c["error"]), (mpslp.digest("a.mps"), "BadToken"))

    def test_adapt(self):
        self.file("e.lp", ADAPTABLE)
        self.file("f.mps", PULP)
        e, f, c = self.records("adapt", "--json", "--dry-run", "e.lp", "f.mps", "c.lp", status=2)
        self.assertEqual(
            (e["result"], e["changes"], e["writer"], e["notes"]), ("adapted", {"constant-in-row": 1}, None, [])
        )
        self.assertEqual(
            e["changed"], [{"line": 3, "kind": "constant-in-row", "before": "x + 3 >= 5", "after": "x >= 2"}]
        )
        self.assertEqual((f["writer"], f["changes"]), ("pulp", {"pulp-sense": 1}))
        self.assertEqual((c["result"], c["line"]), ("rejected", 1))
        self.assertNotEqual(c["reason"], "")
        self.assertEqual(self.records("adapt", "--json", "-i", "e.lp", status=1), [e])
        self.assertEqual(Path("e.lp").read_bytes(), ADAPTED)
        self.assertEqual(
            [each["result"] for each in self.records("adapt", "--json", "--summary", "e.lp")], ["accepted"]
        )

    def test_diff(self):
        self.file("e.mps", CANONICAL.replace(b"1.5", b"1.25").replace(b"COST", b"OBJ"))
        (found,) = self.records("diff", "--json", "a.mps", "e.mps", status=1)
        self.assertEqual(
            (found["path"], found["second"], found["verdict"], found["warnings"]),
            ("a.mps", "e.mps", "not the same", []),
        )
        self.assertEqual(
            found["differences"],
            [
                {
                    "of": "model",
                    "what": "objective",
                    "first": "COST",
                    "second": "OBJ",
                    "text": "objective: COST -> OBJ",
                },
                {
                    "of": "entry",
                    "row": "MYG",
                    "column": "Y",
                    "what": "value",
                    "first": "1.5",
                    "second": "1.25",
                    "text": "entry MYG Y: 1.5 -> 1.25",
                },
            ],
        )
        (found,) = self.records("diff", "--json", "a.mps", EXAMPLES / "small.lp")
        self.assertEqual((found["verdict"], found["differences"]), ("same", []))
        (found,) = self.records("diff", "--json", "a.mps", "c.lp", status=2)
        self.assertEqual((found["path"], found["error"], found["line"]), ("c.lp", "BadToken", 1))
        (found,) = self.records("diff", "--json", "a.mps", "/dev/null", status=1)
        self.assertEqual(
            found["differences"],
            [
                {
                    "of": "model",
                    "what": "only",
                    "first": True,
                    "second": False,
                    "text": "- model: 2 rows, 2 columns, 2 entries",
                }
            ],
        )

    def test_same(self):
        (found,) = self.records("same", "--json", "a.mps", EXAMPLES / "small.lp")
        self.assertEqual(
            found,
            {
                "path": "a.mps",
                "result": "accepted",
                "error": "",
                "line": None,
                "reason": "",
                "second": str(EXAMPLES / "small.lp"),
                "verdict": "same",
                "warnings": [],
            },
        )
        (found,) = self.records("same", "--json", "a.mps", "b.lp", status=1)
        self.assertEqual(
            (found["verdict"], [each["kind"] for each in found["warnings"]]), ("not the same", ["late-name"])
        )
        (found,) = self.records("same", "--json", "a.mps", "c.lp", status=2)
        self.assertEqual((found["path"], found["error"], found["line"]), ("c.lp", "BadToken", 1))
        for directory in ("old", "new"):
            self.file(f"{directory}/a.mps", CANONICAL)
        self.file("old/b.mps", CANONICAL)
        found = self.records("same", "--json", "old", "new", status=1)
        self.assertEqual(
            [(each["path"], each["second"], each["verdict"]) for each in found],
            [("old/a.mps", "new/a.mps", "same"), ("old/b.mps", "/dev/null", "not the same")],
        )

    def test_each_sort_of_difference(self):
        first = b"max p: x + 2 y\nst\nr: x + y <= 4\ns: x >= 1\nbounds\ny <= 5\nend\n"
        second = b"min p: x + 3 y + z\nst\nr: x + 2 y <= 5\nt: x + z >= 1\nbounds\ny <= 5\ngenerals\ny\nend\n"
        self.file("e.lp", first)
        self.file("f.lp", second)
        (found,) = self.records("diff", "--json", "e.lp", "f.lp", status=1)
        wanted = list(mpslp.diff(first, second, "lp", "lp"))
        self.assertEqual([each["text"] for each in found["differences"]], list(map(str, wanted)))
        self.assertEqual(
            {(each["of"], each["what"]) for each in found["differences"]},
            {
                ("model", "sense"),
                ("row", "upper"),
                ("row", "only"),
                ("column", "kind"),
                ("column", "cost"),
                ("column", "only"),
                ("entry", "value"),
            },
        )
        for each in found["differences"]:
            self.assertGreaterEqual(set(each), {"of", "what", "first", "second", "text"})
            if each["of"] in ("row", "column"):
                self.assertIn(each[each["of"]], each["text"])

    def test_report(self):
        (found,) = self.records("report", "--json", EXAMPLES / "semi.mps")
        (file,) = found["files"]
        model = mpslp.load(EXAMPLES / "semi.mps")
        self.assertEqual(
            (file["sense"], file["objective"], file["rows"], file["columns"], file["digest"]),
            (model.sense, model.objective, len(model.rows), len(model.columns), model.digest),
        )
        self.assertEqual(file["entries"], sum(len(row.entries) for row in model.rows.values()))
        self.assertEqual(sum(file["row_kinds"].values()), len(model.rows))
        self.assertEqual(sum(each["number"] for each in file["column_kinds"]), len(model.columns))
        self.assertEqual(sum(file["magnitudes"]["coefficients"]["powers"].values()), file["entries"])
        self.assertNotRegex(json.dumps(file["remarks"] + file["rules"]), "<[a-z]|&[a-z]+;")
        (found,) = self.records("report", "--json", EXAMPLES / "semi.mps", EXAMPLES / "small.mps")
        self.assertEqual(
            (found["differences"]["verdict"], found["differences"]["number"]),
            ("not the same", len(list(mpslp.diff(EXAMPLES / "semi.mps", EXAMPLES / "small.mps")))),
        )
        (found,) = self.records("report", "--json", "c.lp", status=2)
        self.assertEqual((found["path"], found["error"]), ("c.lp", "BadToken"))

    def test_names_of_any_bytes(self):
        name = os.fsdecode(b"\xff.lp")
        self.file(name, BROKEN)
        self.assertEqual(self.records("check", "--json", name, status=2)[0]["path"], name)


class Pairs(Directory):
    """Directories that are compared."""

    def setUp(self):
        super().setUp()
        for name, content in (
            ("old/a.mps", SMALL),
            ("new/a.mps", CANONICAL),
            ("old/deep/b.lp", SMALL_LP),
            ("new/deep/b.lp", SMALL_LP.replace(b"1.5", b"1.25")),
        ):
            self.file(name, content)

    def test_all_the_same(self):
        for command in ("same", "diff"):
            self.prints([command, "old", "old"], 0, "same\n")
            self.prints([command, "-q", "old", "old"], 0)
        self.file("new/deep/b.lp", SMALL_LP.replace(b"1.5", b"1.50000001"))
        self.prints(["diff", "--digits", "6", "old", "new"], 0, "close\n")

    def test_what_differs(self):
        self.file("old/c.mps")
        self.file("new/d.lp", SMALL_LP)
        self.prints(
            ["same", "old", "new"],
            1,
            "==> c.mps <==\nonly in old\n==> d.lp <==\nonly in new\n==> deep/b.lp <==\nnot the same\n",
        )
        model = "model: 2 rows, 2 columns, 2 entries"
        self.prints(
            ["diff", "old", "new"],
            1,
            f"==> c.mps <==\n- {model}\n==> d.lp <==\n+ {model}\n==> deep/b.lp <==\nentry MYG Y: 1.5 -> 1.25\n",
        )
        done = self.run_tools("diff", "--json", "old", "new")
        records = [json.loads(line) for line in done.stdout.splitlines()]
        self.assertEqual(
            [(each["path"], each["second"], each["verdict"]) for each in records],
            [
                ("old/a.mps", "new/a.mps", "same"),
                ("old/c.mps", "/dev/null", "not the same"),
                ("/dev/null", "new/d.lp", "not the same"),
                ("old/deep/b.lp", "new/deep/b.lp", "not the same"),
            ],
        )

    def test_a_directory_that_is_converted(self):
        """Files whose extensions differ are compared, unless there is more than one."""
        self.file("old/packed.mps.gz", gzip.compress(SMALL))
        self.prints(["canon", "-t", "lp", "--out-dir", "out", "old"], 0)
        self.assertEqual(
            {str(path.relative_to("out")) for path in Path("out").rglob("*.*")}, {"a.lp", "deep/b.lp", "packed.lp.gz"}
        )
        self.prints(["same", "old", "out"], 0, "same\n")
        self.file("out/a.lp", SMALL_LP.replace(b"1.5", b"1.25"))
        self.prints(["diff", "old", "out"], 1, "==> a.mps <==\nentry MYG Y: 1.5 -> 1.25\n")
        self.file("out/a.lp.gz", gzip.compress(SMALL_LP))
        self.prints(
            ["same", "old", "out"],
            1,
            "==> a.lp <==\nonly in out\n==> a.lp.gz <==\nonly in out\n==> a.mps <==\nonly in old\n",
        )

    def test_files_that_are_rejected(self):
        self.file("new/a.mps", b"ROWS\n")
        self.prints(["same", "old", "new"], 2, "==> deep/b.lp <==\nnot the same\n", "new/a.mps: MissingEnd\n")

    def test_usage(self):
        for name in ("empty", "none"):
            (self.folder / name).mkdir()
        self.prints(
            ["same", "empty", "none"], 0, error="warning: empty: no model files\nwarning: none: no model files\n"
        )
        self.prints(
            ["check", "empty", "none"], 0, error="warning: empty: no model files\nwarning: none: no model files\n"
        )
        for words in (["old"], ["old", "new", "old"], ["old/a.mps", "new/a.mps", "old/a.mps"]):
            self.assertEqual(self.run_tools("same", *words).returncode, 3, words)
        self.assertEqual(self.run_tools("same", "old", "new/a.mps").returncode, 3)


class Show(Directory):
    def test_several_files(self):
        self.file("m/a.mps")
        self.file("m/b.lp", SMALL_LP)
        text = self.run_tools("show", "m/a.mps").stdout.decode()
        self.prints(["show", "m"], 0, f"==> m/a.mps <==\n{text}==> m/b.lp <==\n{text}")
        self.prints(["show", "-q", "m"], 0, text + text)
        self.file("m/a.mps", b"ROWS\n")
        self.prints(["show", "m"], 2, f"==> m/b.lp <==\n{text}", "m/a.mps: MissingEnd\n")


class Report(Directory):
    def test_standard_input_and_formats(self):
        self.file("plan", SMALL)
        self.file("a.mps")
        page = self.run_tools("report", "-f", "mps", "plan")
        self.assertEqual((page.returncode, page.stderr), (0, b""))
        self.assertIn(b"<h1>plan</h1>", page.stdout)
        done = self.run_tools("report", "-f", "mps", "-", "a.mps", content=SMALL)
        self.assertIn(b"The files define the same model.", done.stdout)
        for words in (["plan"], ["a.mps", "a.mps", "a.mps"], ["-o", "x", "--out-dir", "y", "a.mps"]):
            self.assertEqual(self.run_tools("report", *words).returncode, 3, words)


class Processes(Directory):
    def test_many_processes_are_as_one(self):
        """Also for commands that write files, and with a file of each sort."""
        for number in range(12):
            self.file(f"m/{number:02}.lp", (BROKEN, CANONICAL_LP, SMALL_LP, ADAPTABLE)[number % 4])
        with mock.patch.object(_work, "_BYTES_OF_A_FILE", 10**9):  # so that processes pay
            for words in (
                ["check", "m"],
                ["check", "--json", "m"],
                ["digest", "m"],
                ["canon", "--diff", "m"],
                ["canon", "--out-dir", "out", "m"],
                ["adapt", "--dry-run", "m"],
                ["adapt", "--json", "--summary", "m"],
                ["adapt", "--summary", "m"],
                ["report", "--out-dir", "pages", "m"],
                ["check", "-Werror", "--portable", "m"],
            ):
                one, three = (self.run_tools(words[0], "-j", jobs, *words[1:]) for jobs in ("1", "3"))
                self.assertEqual(
                    (one.returncode, one.stdout, one.stderr), (three.returncode, three.stdout, three.stderr), words
                )
        self.assertEqual(len(list(Path("out").iterdir())), 6)

    def test_small_files_start_no_process(self):
        self.file("a.lp", SMALL_LP)
        self.file("b.lp", SMALL_LP)
        with mock.patch("multiprocessing.get_context", side_effect=AssertionError):
            self.prints(["check", "-j", "4", "a.lp", "b.lp"], 1, "a.lp\nb.lp\n")
            with mock.patch.object(_work, "_BYTES_OF_A_FILE", 10**9), self.assertRaises(AssertionError):
                self.run_tools("check", "-j", "4", "a.lp", "b.lp")

    def test_a_process_that_ends(self):
        with mock.patch.object(
            _work, "results_in_order", side_effect=ChildProcessError("a process ended before its file was done")
        ):
            self.file("a.lp", SMALL_LP)
            self.prints(["check", "a.lp"], 4, error="a process ended before its file was done\n")

    def test_no_process_is_left(self):
        """Whatever ends the command, its processes end as well, and only an interrupted command prints a line."""
        for number, said in (
            (signal.SIGINT, b"mpslp-tools: interrupted\n"),
            (signal.SIGTERM, b""),
            (signal.SIGKILL, b""),
        ):
            for name in ("0.mps", "1.mps"):
                os.mkfifo(name)
            running = self.begun("check", "-j", "2", "0.mps", "1.mps", start_new_session=True)
            writers = [self.opened_as_reader_is_there(name) for name in ("0.mps", "1.mps")]
            running.send_signal(number)
            time.sleep(0.5)
            for writer in writers:
                os.close(writer)
            # They have its output, and its end is that of the last one.
            output, error = running.communicate(timeout=600)
            status = -number if number == signal.SIGKILL else 128 + number
            self.assertEqual((running.returncode, output, error), (status, b"", said))
            for name in ("0.mps", "1.mps"):
                os.unlink(name)

    def test_results_are_in_order(self):
        self.assertEqual(list(_workers.results_in_order(str, range(20), 3)), list(map(str, range(20))))
        self.assertEqual(list(_workers.results_in_order(str, [], 3)), [])
        results = _workers.results_in_order(str, range(20), 2)
        self.assertEqual(next(results), "0")
        results.close()


class FewResources(Directory):
    def test_few_descriptors(self):
        """Processes that cannot be started, or files that cannot be opened: one process does all, or the status is
        4."""
        for number in range(1000):  # processes start for 20 MB; a file counts for 20 kB and its size
            self.file(f"m/{number}.lp", CANONICAL_LP)
        for limit in (7, 12, 16):
            words = ["sh", "-c", f"ulimit -n {limit}; exec {' '.join(TOOLS)} check -q -j 4 m"]
            done = subprocess.run(
                words,
                cwd=self.folder,
                capture_output=True,
                timeout=120,
                env={**os.environ, "PYTHONDONTWRITEBYTECODE": "1"},
            )
            with self.subTest(limit):
                self.assertIn(done.returncode, (0, 4))
                self.assertNotIn(b"Traceback", done.stderr)

    def test_no_more_processes(self):
        for count in range(3):
            started = [mock.DEFAULT] * count + [BlockingIOError(errno.EAGAIN, os.strerror(errno.EAGAIN))]
            with mock.patch.object(_workers, "_started", wraps=_workers._started, side_effect=started):
                self.assertEqual(list(_workers.results_in_order(str, range(20), 3)), list(map(str, range(20))))

    def test_an_error_of_the_system_is_said(self):
        for error, line in (
            (OSError(errno.EMFILE, "Too many open files"), "Too many open files"),
            (OSError(errno.ENFILE, "no", "a\nb\x1b"), "a\\nb\\x1b: no"),
        ):
            with mock.patch.object(_main, "main", side_effect=error), mock.patch.object(
                sys, "stderr", io.TextIOWrapper(io.BytesIO(), write_through=True)
            ) as stream:
                self.assertEqual(_main.run("mpslp-tools"), 4)
                self.assertEqual(stream.buffer.getvalue().decode(), f"{line}\n")


class ControlCharacters(Directory):
    def test_names_of_files(self):
        name, shown = "a\x1b[31m\nb\x7f.lp", r"a\x1b[31m\nb\x7f.lp"
        self.file(f"m/{name}", BROKEN)
        self.file(f"m/2{name}", SMALL_LP)
        words = (
            ["check"],
            ["check", "--portable"],
            ["fmt", "--check"],
            ["show"],
            ["canon", "-i"],
            ["adapt", "--dry-run"],
            ["survey"],
            ["digest"],
            ["explain"],
            ["canon", "--for", "clp"],
            ["same", "m/2" + name],
            ["diff", os.devnull],
        )
        for command in words:
            for path in (f"m/{name}", f"m/2{name}", "m", f"m/none{name}"):
                done = self.run_tools(*command, path)
                with self.subTest(command, path=path):
                    self.assertNotRegex(done.stderr, rb"[\x00-\x08\x0b-\x1f\x7f]")
                    self.assertNotIn(b"a\\x1b[31m\n", done.stderr)
        done = self.run_tools("check", f"m/{name}")
        self.assertTrue(done.stderr.decode().startswith(f"m/{shown}:1: BadToken: y\n"))


class Colours(Directory):
    def printed(self, *words, **environment):
        """What the command prints on a terminal."""
        main, terminal = pty.openpty()
        given = {name: value for name, value in os.environ.items() if name not in ("NO_COLOR", "TERM")}
        subprocess.run(
            [*TOOLS, *words],
            cwd=self.folder,
            stdout=terminal,
            stderr=terminal,
            env={**given, "TERM": "xterm", **environment},
            timeout=600,
        )
        os.close(terminal)
        return read_to_the_end(main).decode().replace("\r\n", "\n")

    def test_on_terminals_only(self):
        self.file("a.lp", SMALL_LP.replace(b"1.5", b"1.25"))
        self.file("b.lp", BROKEN)
        self.file("c.lp", b"min x\nst\nx >= 1\nbounds\nX <= 4\nend\n")
        for words in (["check", "b.lp"], ["check", "c.lp"], ["canon", "--diff", "a.lp"], ["diff", "c.lp", "a.lp"]):
            done = self.run_process(*words)
            coloured = self.printed(*words)
            hint = (
                "python3 -m mpslp explain KIND prints what to do about a kind of error\n"
                if done.returncode == 2
                else ""
            )
            with self.subTest(words):
                self.assertIn("\x1b[", coloured)
                self.assertEqual(re.sub(r"\x1b\[\d*m", "", coloured), (done.stderr + done.stdout).decode() + hint)
                for environment in ({"NO_COLOR": "1"}, {"TERM": "dumb"}):
                    self.assertNotIn("\x1b[", self.printed(*words, **environment))
        self.assertIn("\x1b[1mb.lp:1\x1b[0m: \x1b[31mBadToken\x1b[0m: y\n", self.printed("check", "b.lp"))
        self.assertNotIn("\x1b[", self.printed("canon", "a.lp"), "a text has none")


class Documents(unittest.TestCase):
    def test_json_is_documented(self):
        """Each key that is printed is in the table of the README."""
        text = (ROOT / "python" / "README.md").read_text()
        section = text[text.index("### JSON") : text.index("## A page about a model")]
        for key in (
            "path",
            "result",
            "error",
            "line",
            "reason",
            "canonical",
            "warnings",
            "remarks",
            "digest",
            "writer",
            "changes",
            "changed",
            "notes",
            "second",
            "verdict",
            "differences",
            "files",
            "magnitudes",
            "rules",
        ):
            self.assertIn(f"`{key}`", section)


if __name__ == "__main__":
    unittest.main()
