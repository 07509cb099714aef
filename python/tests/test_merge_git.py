"""The merge driver, the diff driver and the clean filter of setup-git, in real repositories of git."""

import os
import shutil
import subprocess
import sys
import tempfile
import unittest
from pathlib import Path

import mpslp
from repository import EXAMPLES, ROOT

WITH_DRIVERS = "*.[mM][pP][sS] diff=mpslp merge=mpslp\n*.[lL][pP] diff=mpslp merge=mpslp\n"
WITH_FILTER = "*.[mM][pP][sS] diff=mpslp merge=mpslp filter=mpslp\n*.[lL][pP] diff=mpslp merge=mpslp filter=mpslp\n"
PLAN = (
    b"\\ a plan\nmax profit: 3 x + 2 y\nst\n flour: x + y <= 40  \\ tons\n milk: x >= 1\n"
    b" sugar: x - y >= -2\nbounds\n x <= 50\nend\n"
)
SMALL = (EXAMPLES / "small.mps").read_bytes()


@unittest.skipUnless(shutil.which("git"), "git is missing")
class Repository(unittest.TestCase):
    """What people do with models in a repository."""

    def setUp(self):
        directory = tempfile.TemporaryDirectory()
        self.addCleanup(directory.cleanup)
        self.root = Path(directory.name)
        (self.root / "bin").mkdir()
        tool = self.root / "bin" / "mpslp-tools"
        tool.write_text(f'#!/bin/sh\nexec "{sys.executable}" -m mpslp "$@"\n')
        tool.chmod(0o755)
        names = {f"GIT_{who}_{what}": "a@b" for who in ("AUTHOR", "COMMITTER") for what in ("NAME", "EMAIL")}
        path = f"{self.root / 'bin'}{os.pathsep}{os.environ['PATH']}"
        self.environment = {
            **os.environ,
            **names,
            "PATH": path,
            "HOME": str(self.root),
            "GIT_CONFIG_NOSYSTEM": "1",
            "GIT_PAGER": "cat",
            "GIT_EDITOR": "true",
        }
        self.environment.pop("GIT_CONFIG_GLOBAL", None)
        self.work = self.root / "models"
        self.git("init", "-q", "-b", "main", str(self.work), directory=self.root)
        self.said = self.run_tools("setup-git")

    def run_tools(self, *words):
        return subprocess.run(
            ["mpslp-tools", *words], cwd=self.work, env=self.environment, capture_output=True, text=True
        )

    def git(self, *words, status=0, directory=None):
        """What git prints; its exit status has to be the one that is wanted."""
        done = subprocess.run(
            ["git", *words],
            cwd=directory or self.work,
            env=self.environment,
            capture_output=True,
            text=True,
            errors="replace",
        )
        self.assertEqual(done.returncode, status, f"git {' '.join(words)}: {done.stdout}{done.stderr}")
        return done.stdout + done.stderr

    def write(self, **files):
        for name, content in files.items():
            (self.work / name.replace("_", ".")).write_bytes(content)

    def read(self, name):
        return (self.work / name).read_bytes()

    def commit(self, message, **files):
        self.write(**files)
        self.git("add", "-A")
        self.git("commit", "-qm", message)

    def begin(self, attributes, **files):
        (self.work / ".gitattributes").write_text(attributes)
        self.commit("first", **files)

    def test_what_setup_git_prints(self):
        self.assertEqual((self.said.returncode, self.said.stderr), (0, ""))
        for line in self.said.stdout.splitlines()[:6]:
            key, _, value = line.partition(" = ")
            self.assertEqual(self.git("config", key).rstrip("\n"), value)
        self.assertIn("*.[lL][pP] diff=mpslp merge=mpslp\n", self.said.stdout)
        self.assertEqual(self.run_tools("setup-git", "-q").stdout, "")
        self.assertEqual(len(self.git("config", "--get-all", "filter.mpslp.smudge").splitlines()), 1)
        shutil.rmtree(self.work / ".git")
        outside = self.run_tools("setup-git")
        self.assertEqual((outside.returncode, outside.stdout), (4, ""))
        self.assertEqual(self.run_tools("setup-git", "--global").returncode, 0)
        self.assertEqual(self.git("config", "--global", "filter.mpslp.smudge", directory=self.root), "cat\n")

    def test_merge_without_conflicts(self):
        """Each side changes its own items, in a text with comments, and in one that git alone cannot merge."""
        canonical = mpslp.canonical(SMALL, "mps")
        self.begin(WITH_DRIVERS, plan_lp=PLAN, small_mps=canonical)
        self.git("checkout", "-qb", "other")
        self.commit(
            "other",
            plan_lp=PLAN.replace(b"<= 40", b"<= 44"),
            small_mps=canonical.replace(b"RHS  LIM1  4", b"RHS  LIM1  5"),
        )
        self.git("checkout", "-q", "main")
        self.commit(
            "main",
            plan_lp=PLAN.replace(b"<= 50", b"<= 55"),
            small_mps=canonical.replace(b"RHS  MYG  1", b"RHS  MYG  3"),
        )
        self.git("merge", "-q", "other", "-m", "merged")
        self.assertEqual(self.read("plan.lp"), PLAN.replace(b"<= 40", b"<= 44").replace(b"<= 50", b"<= 55"))
        self.assertEqual(
            self.read("small.mps"),
            canonical.replace(b"RHS  LIM1  4", b"RHS  LIM1  5").replace(b"RHS  MYG  1", b"RHS  MYG  3"),
        )
        self.assertEqual(
            self.git("diff", "HEAD~1"),
            "model plan.lp\nrow flour: upper 40 -> 44\nmodel small.mps\nrow LIM1: upper 4 -> 5\n",
        )
        self.assertEqual(self.git("status", "--short"), "")

    def test_rebase_and_cherry_pick(self):
        self.begin(WITH_DRIVERS, plan_lp=mpslp.canonical(PLAN, "lp"))
        text = self.read("plan.lp")
        self.git("checkout", "-qb", "other")
        self.commit("one", plan_lp=text.replace(b"<= 40", b"<= 44"))
        self.commit("two", plan_lp=text.replace(b"<= 40", b"<= 44").replace(b">= 1", b">= 2"))
        self.git("checkout", "-q", "main")
        self.commit("three", plan_lp=text.replace(b">= -2", b">= -3"))
        self.git("checkout", "-q", "other")
        self.git("rebase", "-q", "main")
        wanted = text.replace(b"<= 40", b"<= 44").replace(b">= 1", b">= 2").replace(b">= -2", b">= -3")
        self.assertEqual(self.read("plan.lp"), wanted)
        self.git("checkout", "-qb", "third", "main")
        self.git("cherry-pick", "other")
        self.assertEqual(self.read("plan.lp"), text.replace(b">= 1", b">= 2").replace(b">= -2", b">= -3"))
        self.commit("conflict", plan_lp=self.read("plan.lp").replace(b"<= 40", b"<= 48"))
        said = self.git("cherry-pick", "other~1", status=1)
        self.assertIn("plan.lp:\nconflict: row flour, upper limit: base 40, ours 48, theirs 44\n", said)
        self.write(plan_lp=wanted)
        self.git("add", "plan.lp")
        self.git("cherry-pick", "--continue")
        self.assertEqual(self.git("status", "--short"), "")
        said = self.git("rebase", "other", status=1)
        self.git("rebase", "--abort")
        self.assertEqual(self.read("plan.lp"), wanted)

    def conflict(self, attributes):
        self.begin(attributes, plan_lp=PLAN, small_mps=SMALL)
        self.git("checkout", "-qb", "other")
        self.commit(
            "other",
            plan_lp=PLAN.replace(b"<= 40", b"<= 44"),
            small_mps=self.read("small.mps").replace(b"LIM1  4", b"LIM1  5"),
        )
        self.git("checkout", "-q", "main")
        self.commit(
            "main",
            plan_lp=PLAN.replace(b"<= 40", b"<= 48"),
            small_mps=self.read("small.mps").replace(b"LIM1  4", b"LIM1  6"),
        )
        said = self.git("merge", "other", status=1)
        self.assertIn("conflict: row flour, upper limit: base 40, ours 48, theirs 44\n", said)
        self.assertIn("conflict: row LIM1, upper limit: base 4, ours 6, theirs 5\n", said)

    def test_conflict(self):
        """During a conflict git diff, status, checkout and stash work; afterwards the merge ends."""
        for attributes in (WITH_DRIVERS, WITH_FILTER):
            with self.subTest(attributes):
                self.conflict(attributes)
                self.assertIn(b"<<<<<<< ours\n", self.read("plan.lp"))
                self.assertIn("diff --cc plan.lp", self.git("diff"))
                self.assertIn("UU plan.lp", self.git("status", "--short"))
                self.assertIn("a marker of git", self.git("diff", "HEAD"))
                self.git("diff", "--no-ext-diff", "--ours")
                self.git("checkout", "--theirs", "small.mps")
                self.assertIn(b"5", self.read("small.mps"))
                self.git("checkout", "--merge", "small.mps")
                self.assertIn(b"<<<<<<< ours\n", self.read("small.mps"))
                self.git("checkout", "--ours", "small.mps")
                self.write(plan_lp=PLAN.replace(b"<= 40", b"<= 46"))
                self.git("add", "-A")
                self.git("commit", "-qm", "resolved")
                self.assertEqual(mpslp.load(self.work / "plan.lp").rows["flour"].upper, 46)
                self.assertEqual(mpslp.load(self.work / "small.mps").rows["LIM1"].upper, 6)
                self.git("checkout", "-q", "other")
                self.git("checkout", "-q", "main")
                self.assertEqual(self.git("status", "--short"), "")
                shutil.rmtree(self.work)
                self.git("init", "-q", "-b", "main", str(self.work), directory=self.root)
                self.run_tools("setup-git", "-q")

    def test_the_filter(self):
        """What is added is canonical; files that are removed come back, and changes of branches keep them."""
        self.begin(WITH_FILTER, plan_lp=PLAN, small_mps=SMALL)
        self.assertEqual(self.git("show", ":plan.lp").encode(), mpslp.canonical(PLAN, "lp"))
        (self.work / "small.mps").unlink()
        self.git("checkout", "--", "small.mps")
        self.assertEqual(self.read("small.mps"), mpslp.canonical(SMALL, "mps"))
        self.git("checkout", "-qb", "other")
        self.commit("other", small_mps=SMALL.replace(b"LIM1  4", b"LIM1  5"))
        self.git("checkout", "-q", "main")
        self.assertEqual(self.git("status", "--short"), "")
        self.assertEqual(self.read("small.mps"), mpslp.canonical(SMALL, "mps"))
        self.git("merge", "-q", "other")
        self.write(bad_lp=b"min x y\nend\n")
        self.assertIn("bad.lp:1: BadToken: y", self.git("add", "bad.lp", status=128))
        self.write(bad_lp=b"<<<<<<< HEAD\n=======\n>>>>>>> other\n")
        self.assertIn("warning: bad.lp: it has conflict markers, and is left unchanged\n", self.git("add", "bad.lp"))
        self.assertEqual(self.git("show", ":bad.lp"), "<<<<<<< HEAD\n=======\n>>>>>>> other\n")
        self.write(pulp_mps=b"*SENSE:Maximize\n" + SMALL)
        self.assertIn("pulp.mps:1: sense-in-comment", self.git("add", "pulp.mps", status=128))

    def test_a_file_that_is_rejected(self):
        """It is merged line by line, and git has both sides of it; the merge stops there."""
        rejected = PLAN.replace(b" milk: x >= 1\n", b" milk: x y >= 1\n")
        self.begin(WITH_DRIVERS, plan_lp=PLAN)
        self.git("checkout", "-qb", "other")
        self.commit("other", plan_lp=rejected)
        self.git("checkout", "-q", "main")
        self.commit("main", plan_lp=PLAN.replace(b"<= 50", b"<= 55"))
        said = self.git("merge", "other", status=1)
        self.assertIn("plan.lp (theirs):5: BadToken: y\n", said)
        self.assertIn("plan.lp: merged line by line, not as a model\n", said)
        self.assertEqual(self.read("plan.lp"), rejected.replace(b"<= 50", b"<= 55"))
        self.assertIn("UU plan.lp", self.git("status", "--short"))

    def test_a_file_that_is_new_on_both_sides(self):
        for theirs, status in ((b"\\ the same\n" + PLAN, 0), (PLAN.replace(b"<= 40", b"<= 41"), 1)):
            with self.subTest(status):
                self.begin(WITH_DRIVERS)
                self.git("checkout", "-qb", "other")
                self.commit("other", plan_lp=theirs)
                self.git("checkout", "-q", "main")
                self.commit("main", plan_lp=PLAN)
                self.git("merge", "-q", "other", "-m", "merged", status=status)
                self.assertEqual(b"<<<<<<<" in self.read("plan.lp"), status == 1)
                shutil.rmtree(self.work)
                self.git("init", "-q", "-b", "main", str(self.work), directory=self.root)
                self.run_tools("setup-git", "-q")

    def test_names_of_files(self):
        """Names with spaces, quotes and a dash at the beginning come to the driver and the filter as they are."""
        names = ("a plan.lp", "it's.lp", "-x.lp", 'a"b$c.lp')
        (self.work / ".gitattributes").write_text(WITH_FILTER)
        for name in names:
            (self.work / name).write_bytes(PLAN)
        self.commit("first")
        self.git("checkout", "-qb", "other")
        for name in names:
            (self.work / name).write_bytes(PLAN.replace(b"<= 40", b"<= 44"))
        self.commit("other")
        self.git("checkout", "-q", "main")
        for name in names:
            (self.work / name).write_bytes(PLAN.replace(b"<= 50", b"<= 55"))
        self.commit("main")
        self.git("merge", "-q", "other", "-m", "merged")
        for name in names:
            self.assertEqual(
                mpslp.load(self.read(name), "lp"),
                mpslp.load(PLAN.replace(b"<= 40", b"<= 44").replace(b"<= 50", b"<= 55"), "lp"),
            )
        (self.work / "it's.lp").write_bytes(b"min x y\nend\n")
        self.assertIn("it's.lp:1: BadToken: y", self.git("add", "it's.lp", status=128))


class Options(unittest.TestCase):
    def run_tools(self, *words, given=b""):
        return subprocess.run([sys.executable, "-m", "mpslp", *words], input=given, capture_output=True)

    def test_git_path_of_canon(self):
        done = self.run_tools("canon", "--git-path", "deep/plan.lp", "-", given=PLAN)
        self.assertEqual((done.returncode, done.stdout), (0, mpslp.canonical(PLAN, "lp")))
        done = self.run_tools("canon", "--git-path", "plan", "-f", "lp", "-", given=b"min x y\nend\n")
        self.assertEqual((done.returncode, done.stderr.split(b"\n")[0]), (2, b"plan:1: BadToken: y"))
        for words in (["-i", "-"], ["--for", "clp", "-"], [str(EXAMPLES / "small.lp")], ["--rename", "-"]):
            self.assertEqual(self.run_tools("canon", "--git-path", "plan.lp", *words).returncode, 3, words)

    def test_recipes_have_what_setup_git_writes(self):
        from mpslp._commands._setup_git import SETTINGS

        page = (ROOT / "docs" / "RECIPES.md").read_text()
        for key, value in SETTINGS.items():
            wanted = f"git config {key} " + (f"'{value}'" if " " in value else value)
            self.assertTrue(wanted in page, wanted)


if __name__ == "__main__":
    unittest.main()
