#!/usr/bin/env python3
"""Test scripts/mutants.py with a stand-in for the prover, on a small repository, and with the prover itself:
tests/program/mutants_check.py

The stand-in rejects a function whose body has the word `wrong`, and says of one that calls it that a function it calls
is not proved. If the constant is 2, or a definition of a crate below is, it rejects the function that uses it. So a
mutant with another change is one that the prover accepts.
"""

import os
import shutil
import subprocess
import sys
import tempfile
import unittest
from pathlib import Path

ROOT = Path(__file__).resolve().parents[2]
sys.path.insert(0, str(ROOT / "scripts"))

from crates import Crate
from mutants import bodies_of, leave_out, names_what_is_gone, rejected_for_themselves, unreadable

KIT_SUM = (ROOT / "kit-sum").read_text().strip()

RT = """#!/bin/sh
case "$1" in
    version) echo "rattle-kit-99 logic %s" ;;
    doc) echo "%s/START-HERE.md" ;;
esac
"""

RATTLE = """#!{python}
import re, sys
from pathlib import Path

asked = [name for flag, name in zip(sys.argv, sys.argv[1:]) if flag == "--only"]
with open("{checks}", "a") as checks:
    checks.write(" ".join([sys.argv[1], *asked]) + "\\n")
if sys.argv[1] == "build":
    Path(sys.argv[sys.argv.index("-o") + 1]).write_text(Path("specs/Most.antt").read_text())
    sys.exit()
libraries = [Path(it.partition("=")[2]) for flag, it in zip(sys.argv, sys.argv[1:]) if flag == "--extern"]
bodies = {{}}
for file in sorted(Path("src").glob("*.rt")):
    module = "" if file.stem == "lib" else f"{{file.stem}}::"
    text = file.read_text()
    for name, body in re.findall(r"fn (\\w+)\\(\\) -> u8(?: |\\n    ensures [^\\n]*\\n){{\\n(.*?)\\n}}", text, re.S):
        bodies[f"low::{{module}}{{name}}"] = body
for name in asked:
    if not any(it.endswith(f"::{{name}}") for it in bodies):
        print(f"rattle: error: `low` has no function `{{name}}`: help: write the name that a check prints")
        sys.exit(2)
texts = [it.read_text() for it in [Path("src/lib.rt"), *libraries] if it.exists()]
if any("LIMIT: u8 = 2" in it or "most = 2" in it for it in texts):
    bodies["low::limit"] = "wrong"
for name in [other for body in bodies.values() for other in re.findall(r"spoils (\\S+)", body)]:
    bodies[name] = "wrong"
wrong = [name for name, body in bodies.items() if "wrong" in body]
bodies = {{name: body for name, body in bodies.items() if not asked or any(name.endswith(f"::{{it}}") for it in asked)}}
for name, body in bodies.items():
    calls = [other for other in wrong if other != name and other.rpartition("::")[2] + "()" in body]
    reason = "; it calls `" + calls[0] + "`, which is not proved" if calls else ""
    if name in wrong:
        print(f"fn {{name}}: not proved{{reason}}" if not calls else f"fn {{name}}: no proof: {{reason[2:]}}")
    else:
        print(f"fn {{name}}: no proof: {{reason[2:]}}" if calls else f"fn {{name}}: proved")
if "unreadable" in Path("src/lib.rt").read_text():
    print("src/lib.rt:1:1: error: `unreadable` is not in scope")
failed = [name for name in bodies if name in wrong]
of_crate = "logic=not-proved" if failed else "logic=proved"
print(f"only={{len(bodies)}} proved={{len(bodies) - len(failed)}}" if asked else of_crate)
sys.exit(bool(failed))
"""

LIB = """mod high;

const LIMIT: u8 = 1;

pub fn one() -> u8 {
    1
}

pub fn two() -> u8 {
    2
}

pub fn limit() -> u8 {
    LIMIT
}
"""

HIGH = """pub fn three() -> u8 {
    one() + two()
}

pub fn law() -> u8
    ensures { result ≡ one }
{
    4
}
"""

PAIR = """pub trait Size {
    fn size(&self) -> u8;

    fn is_large(&self) -> bool {
        self.size() > LEAST
    }
}

const LEAST: u8 = least();

const fn least() -> u8 {
    1
}

pub struct Pair;

impl Pair {
    pub fn one(&self) -> u8
        ensures { result ≡ 1 }
    {
        1
    }

    pub fn both(&self) -> bool {
        let [first, second] = [1, 2];
        first < second
    }
}

impl Size for Pair {
    fn size(&self) -> u8 {
        2
    }
}

pub fn empty()
    ensures { Pair }
{}
"""

MORE = """impl Pair {
    pub fn more(&self) -> u8 {
        3
    }
}
"""


class Mutants(unittest.TestCase):
    def setUp(self) -> None:
        self.folder = Path(tempfile.mkdtemp(prefix="mpslp-mutants-"))
        self.addCleanup(shutil.rmtree, self.folder)
        self.crate = self.folder / "crates" / "low"
        for name in ("src", "must-fail"):
            (self.crate / name).mkdir(parents=True)
        (self.crate / "src" / "lib.rt").write_text(LIB)
        (self.crate / "src" / "high.rt").write_text(HIGH)
        (self.folder / "crates.txt").write_text("low:\n")
        (self.folder / "kit-sum").write_text(KIT_SUM)
        shutil.copytree(ROOT / "scripts", self.folder / "scripts")
        self.checks = self.folder / "checks"
        tools = self.folder / "bin"
        tools.mkdir()
        for name, text in (
            ("rt", RT % (KIT_SUM, self.folder)),
            ("rattle", RATTLE.format(python=sys.executable, checks=self.checks)),
        ):
            (tools / name).write_text(text)
            (tools / name).chmod(0o755)

    def add(self, name: str, old: str, new: str, file: str = "src/lib.rt", function: str | None = None) -> None:
        named = f"function: {function}\n" if function else ""
        (self.crate / "must-fail" / f"{name}.edit").write_text(f"file: {file}\n{named}old: {old}\nnew: {new}\n")

    def add_below(self, lines: str) -> None:
        """A crate `under`, with a definition, and these lines of crates.txt above it."""
        (self.folder / "crates.txt").write_text(f"under:\n{lines}")
        definition = self.folder / "crates" / "under" / "specs" / "Most.antt"
        definition.parent.mkdir(parents=True)
        definition.write_text("most : ℕ\nmost = 1\n")

    def run_mutants(self, *options: str) -> tuple[int, str, list[str]]:
        """The exit status, the output, and what each check was asked for."""
        ran = subprocess.run(
            [sys.executable, "scripts/mutants.py", *options],
            cwd=self.folder,
            env={**os.environ, "PATH": f"{self.folder / 'bin'}:{os.environ['PATH']}"},
            capture_output=True,
            text=True,
            timeout=60,
            check=False,
        )
        checks = self.checks.read_text().splitlines() if self.checks.exists() else []
        return ran.returncode, ran.stdout + ran.stderr, checks

    def test_mutants_of_different_functions_are_checked_together(self) -> None:
        self.add("one", "    1", "    wrong")
        self.add("two", "    2", "    wrong + 2")
        status, said, checks = self.run_mutants()
        self.assertEqual((status, checks), (0, ["check two one"] * 2), said)
        self.assertIn("low: 2 of 2 mutants rejected", said)

    def test_mutants_of_one_function_are_checked_one_after_another(self) -> None:
        self.add("one", "    1", "    wrong")
        self.add("another", "    1", "    wrong + 1")
        status, said, checks = self.run_mutants()
        self.assertEqual((status, checks), (0, ["check one"] * 3), said)

    def test_a_function_that_only_calls_a_rejected_one_is_not_rejected_for_itself(self) -> None:
        self.add("one", "    1", "    wrong")
        self.add("three", "    one() + two()", "    one() + wrong", "src/high.rt")
        status, said, checks = self.run_mutants()
        both = "check high::three one"
        self.assertEqual((status, checks), (0, [both, "check high::three", "check high::three", both]), said)

    def test_a_mutant_of_a_constant_is_checked_by_the_function_that_it_names(self) -> None:
        self.add("constant", "u8 = 1;", "u8 = 2;", function="limit")
        status, said, checks = self.run_mutants()
        self.assertEqual((status, checks), (0, ["check limit"] * 2), said)

    def test_a_mutant_of_a_constant_that_names_no_function_is_checked_with_the_whole_crate(self) -> None:
        self.add("constant", "u8 = 1;", "u8 = 2;")
        status, said, checks = self.run_mutants()
        self.assertEqual((status, checks), (0, ["check"] * 2), said)

    def test_where_the_named_function_is_proved_the_whole_crate_is_checked(self) -> None:
        self.add("constant", "u8 = 1;", "u8 = 2;", function="two")
        self.add("accepted", "u8 = 1;", "u8 = 3;", function="limit")
        status, said, checks = self.run_mutants()
        self.assertEqual((status, checks), (1, ["check limit", "check", "check two", "check", "check"]), said)
        self.assertIn("low/accepted: NOT REJECTED: the crate is proved with it", said)
        self.assertIn("1 mutants rejected, 1 not", said)

    def test_a_name_of_no_function_is_reported(self) -> None:
        self.add("constant", "u8 = 1;", "u8 = 2;", function="absent")
        status, said, _ = self.run_mutants()
        self.assertEqual(status, 1)
        self.assertIn("low/constant: `low` has no function `absent`", said)

    def test_an_accepted_mutant_is_reported(self) -> None:
        self.add("one", "    1", "    wrong")
        self.add("three", "    one() + two()", "    two() + one()", "src/high.rt")
        status, said, _ = self.run_mutants()
        self.assertEqual(status, 1)
        self.assertIn("low/three: NOT REJECTED: the crate is proved with it", said)
        self.assertIn("1 mutants rejected, 1 not", said)

    def test_a_mutant_that_cannot_be_read_is_reported(self) -> None:
        self.add("constant", "const LIMIT: u8 = 1;", "const LIMIT: u8 = unreadable;")
        status, said, _ = self.run_mutants()
        self.assertEqual(status, 1)
        self.assertIn("the prover cannot read it", said)

    def test_a_mutant_whose_text_is_not_there_once_is_reported(self) -> None:
        self.add("absent", "    7", "    wrong")
        self.add("thrice", "u8 {", "u16 {")
        status, said, _ = self.run_mutants()
        self.assertEqual(status, 1)
        self.assertIn("low/absent: its text is in src/lib.rt 0 times", said)
        self.assertIn("low/thrice: its text is in src/lib.rt 3 times", said)

    def test_another_function_counts_only_if_its_contract_names_the_one_that_was_edited(self) -> None:
        self.add("one", "    1", "    1 + spoils low::limit")
        self.add("two", "    2", "    2 + spoils low::high::law")
        self.add("another", "    1", "    1 + spoils low::high::law")
        status, said, _ = self.run_mutants()
        self.assertEqual(status, 1)
        self.assertIn("low/one: BAD EDIT: low::limit is rejected, which does not name what it changes", said)
        self.assertIn("low/two: BAD EDIT: low::high::law is rejected, which does not name what it changes", said)
        self.assertIn("1 mutants rejected, 2 not", said)

    def test_a_crate_below_is_built_with_an_edit_of_its_definition(self) -> None:
        self.add_below("low: under\n")
        self.add("most", "most = 1", "most = 2", "../under/specs/Most.antt", function="limit")
        status, said, checks = self.run_mutants()
        self.assertEqual((status, checks), (0, ["build", "check limit", "check limit"]), said)
        self.assertIn("low: 1 of 1 mutants rejected", said)

    def test_no_other_crate_is_between_a_crate_and_that_of_the_definition(self) -> None:
        self.add_below("low: between under\nbetween: under\n")
        self.add("most", "most = 1", "most = 2", "../under/specs/Most.antt", function="limit")
        status, said, checks = self.run_mutants()
        self.assertEqual((status, checks), (1, []), said)
        self.assertIn("low/most: under is not right below low: between", said)

    def test_an_edit_that_cannot_be_applied_is_found_without_the_prover(self) -> None:
        self.add("one", "    1", "    wrong")
        self.add("absent", "    7", "    wrong")
        asked = (
            "from crates import crates_of_repository; from mutants import unusable_edits; "
            "print(*unusable_edits(crates_of_repository()), sep='\\n')"
        )
        ran = subprocess.run(
            [sys.executable, "-c", asked],
            cwd=self.folder / "scripts",
            capture_output=True,
            text=True,
            timeout=60,
            check=True,
        )
        self.assertEqual(ran.stdout, "low/absent: its text is in src/lib.rt 0 times, and not once\n")
        self.assertFalse(self.checks.exists())


class Rejections(unittest.TestCase):
    """Of which functions a check says that they are rejected for themselves."""

    BODIES = bodies_of("src/lib.rt", LIB)

    def rejected(self, *lines: str) -> list[str]:
        return rejected_for_themselves(list(lines), self.BODIES)

    def test_a_proof_that_is_refused_is_one(self) -> None:
        line = (
            "fn low::one: not proved; it stands on `Rattle.low.proofs.one.Answers.returns`, which antt refuses; "
            "it calls `low::two`, which is not proved"
        )
        self.assertEqual(self.rejected(line), ["low::one"])

    def test_a_refused_lemma_is_one(self) -> None:
        line = "fn low::one: not proved; it stands on `Rattle.low.proofs.Lemmas.sum`, which antt refuses"
        self.assertEqual(self.rejected(line), ["low::one"])

    def test_a_proof_of_another_function_is_none(self) -> None:
        line = (
            "fn low::one: not proved; it stands on `Rattle.low.proofs.two.Answers.returns`, which antt refuses; "
            "it calls `low::two`, which is not proved"
        )
        self.assertEqual(self.rejected(line), [])

    GONE = (
        "./proofs/one/Answers.antt:3:5: error: `returns-then`: module `Rattle.low.proofs.one.Goals` has no "
        "`returns-then`"
    )

    def is_gone(self, name: str, *lines: str) -> bool:
        return names_what_is_gone(name, list(lines))

    def test_a_proof_that_names_what_is_gone_says_nothing_of_the_contract(self) -> None:
        other = "proofs/one/Answers.antt:9:5: error: `returns`: the types differ"
        self.assertTrue(self.is_gone("low::one", self.GONE))
        self.assertFalse(self.is_gone("low::one", self.GONE, other))
        self.assertFalse(self.is_gone("low::two", self.GONE))
        self.assertFalse(self.is_gone("low::one", "fn low::one: not proved"))

    def test_a_new_goal_that_stays_open_says_nothing_of_the_contract(self) -> None:
        still_open = "note: src/lib.rt:6:5: it is not proved that the sum fits its type"
        self.assertTrue(self.is_gone("low::one", self.GONE, still_open))
        self.assertFalse(self.is_gone("low::one", still_open))

    def test_a_refused_lemma_that_names_what_is_gone_says_nothing_of_the_contract(self) -> None:
        line = "fn low::one: not proved; it stands on `Rattle.low.proofs.Sums.sum`, which antt refuses"
        gone = "proofs/Sums.antt:3:5: error: `sum`: `c.old` has no field `old`"
        self.assertTrue(self.is_gone("low::one", gone, line))
        self.assertFalse(self.is_gone("low::one", gone, "proofs/Sums.antt:9:5: error: `sum`: the types differ", line))
        self.assertFalse(self.is_gone("low::two", gone, line))

    def test_a_text_that_does_not_compile_is_unreadable(self) -> None:
        for line in (
            "src/lib.rt:1:1: error: `x`: `y` is not in scope",
            "src/lib.rt:1:1: error: a name is expected",
            "src/lib.rt:1:1: error[type]: u8",
        ):
            self.assertEqual(unreadable([line]), line)
        self.assertIsNone(unreadable(["src/lib.rt:1:1: error: `one`: the types differ"]))

    def test_an_open_goal_is_one(self) -> None:
        calls = "fn low::{}: not proved; it calls `low::limit`, which is not proved"
        goal = "note: src/lib.rt:6:5: it is not proved that the sum fits its type"
        self.assertEqual(self.rejected(goal, calls.format("one"), calls.format("two")), ["low::one"])


class Additions(unittest.TestCase):
    """Which edits before a body only add to it."""

    CLAUSE = "ensures { result ≡ 1 }"
    HEADER = "    fn size(&self) -> u8 {"

    def adds_to(self, function: str, old: str, new: str) -> bool:
        body = next(it for it in bodies_of("src/pair.rt", PAIR) if it.name == function)
        return body.begins_with(PAIR[: PAIR.find(old)].count("\n"), old, new)

    def test_a_body_right_after_the_contract(self) -> None:
        self.assertTrue(self.adds_to("Pair::one", self.CLAUSE, f"{self.CLAUSE} {{ 2 }} fn other(&self) -> u8"))

    def test_text_after_the_opening_brace(self) -> None:
        self.assertTrue(self.adds_to("PairSize::size", self.HEADER, f"{self.HEADER} if true {{ return 3; }}"))

    def test_no_other_clause_and_no_other_function(self) -> None:
        self.assertFalse(self.adds_to("Pair::one", self.CLAUSE, f"{self.CLAUSE} requires {{ Pair }}"))
        self.assertFalse(self.adds_to("Pair::one", self.CLAUSE, "ensures { Pair }"))
        self.assertFalse(self.adds_to("Pair::both", self.CLAUSE, f"{self.CLAUSE} {{ 2 }} fn other(&self) -> u8"))


class LeftOut(unittest.TestCase):
    """What a check has of the functions that it is not asked for."""

    def setUp(self) -> None:
        self.room = Path(tempfile.mkdtemp(prefix="mpslp-mutants-"))
        self.addCleanup(shutil.rmtree, self.room)
        for file, text in (("lib.rt", "mod more;\nmod pair;\n"), ("pair.rt", PAIR), ("more.rt", MORE)):
            (self.room / "src").mkdir(exist_ok=True)
            (self.room / "src" / file).write_text(text)
        for path in (
            "pair/Pair/one/Answers",
            "pair/Pair/both/Answers",
            "pair/fn/Pair/both/first/Proof",
            "pair/empty/Proof",
        ):
            file = self.room / "proofs" / f"{path}.antt"
            file.parent.mkdir(parents=True)
            file.write_text("a proof")
        self.leave_out()

    def leave_out(self) -> None:
        leave_out(Crate("low", "low:", (), ()), self.room, ["Pair::one"])

    def text(self, file: str) -> str:
        return "\n".join(line for line in (self.room / "src" / file).read_text().split("\n") if line)

    def test_only_the_bodies_of_calls_are_left_out(self) -> None:
        left = PAIR.replace("        let [first, second] = [1, 2];\n        first < second\n", "loop {}\n").replace(
            "        2\n", "loop {}\n"
        )
        self.assertEqual(self.text("pair.rt"), "\n".join(line for line in left.split("\n") if line))
        self.assertEqual(self.text("more.rt"), MORE.replace("        3\n", "loop {}\n").rstrip("\n"))

    def test_functions_that_call_one_another_stay(self) -> None:
        (self.room / "src" / "more.rt").write_text("fn again() -> u8 {\n    again()\n}\n")
        (self.room / "proofs" / "more" / "+again").mkdir(parents=True)
        self.leave_out()
        self.assertIn("    again()\n", (self.room / "src" / "more.rt").read_text())

    def test_lines_keep_their_numbers(self) -> None:
        self.assertEqual((self.room / "src" / "pair.rt").read_text().count("\n"), PAIR.count("\n"))

    def test_their_proofs_are_holes(self) -> None:
        proofs = self.room / "proofs"
        found = {str(it.relative_to(proofs)): "?" in it.read_text() for it in proofs.rglob("*.antt")}
        holes = ("pair/Pair/both", "pair/Pair/more", "pair/PairSize/size", "pair/empty")
        self.assertEqual(found, {"pair/Pair/one/Answers.antt": False} | {f"{it}/Proof.antt": True for it in holes})


PROVED_LIB = """//! A small crate, whose mutants are tested with the prover itself.
#![tactic(auto)]

ghost use Rattle.std.specs.Prelude.{◌≡◌};
ghost use Rattle.low.specs.Limit.{limited, limit};

/// The largest result.
const LIMIT: u8 = 10;

/// The number, or the limit if that is smaller.
pub fn limited(n: u8) -> u8
    ensures { result ≡ limited n }
{
    if n > LIMIT {
        return LIMIT;
    }
    n
}

/// The limit.
pub fn limit() -> u8
    ensures { result ≡ limit }
{
    LIMIT
}

/// The number, counted.
pub fn counted(n: u8) -> u8
    ensures { result ≡ n }
{
    let mut at = 0;
    while at < n {
        at += 1;
    }
    at
}

/// Twice the limit.
pub fn twice() -> u8
    ensures { result ≡ 20 }
{
    limit() + limit()
}
"""

PROVED_LIMIT = """-- A number that has a limit.
use Rattle.std.specs.Prelude.{ℕ, min}

abbrev pub limit : ℕ
limit = 10

unfoldable pub limited : ℕ → ℕ
limited n = min n limit
"""

PROVED_ANSWERS = """use native.Mathlib.Omega.{arith}
use Rattle.std.specs.Prelude.{◌<◌, ◌≤◌}
use Rattle.low.specs.Limit.{limited, limit}
use Rattle.low.proofs.limited.Goals as goal

pub returns-then-n-gt-LIMIT : goal.returns-then-n-gt-LIMIT
unfolding limited
returns-then-n-gt-LIMIT c =
    let above : 10 < c.args.n = c.if-n-gt-LIMIT.true in
    grind (arith, above)

pub returns : goal.returns
unfolding limited
returns c =
    let small : c.args.n ≤ 10 = c.if-n-gt-LIMIT.false in
    grind (arith, small)
"""

PROVED_INVARIANTS = """use Rattle.std.specs.Prelude.{◌≤◌, ◌-◌}
use Rattle.low.proofs.counted.Given as goal

abbrev pub invariant-loop-at : goal.invariant-loop-at
invariant-loop-at l = l.at ≤ l.fn.n

abbrev pub decreases-loop-at : goal.decreases-loop-at
decreases-loop-at l = l.fn.n - l.at
"""

PROVED_COUNTED = """use native.Mathlib.Omega.{arith}
use Rattle.std.specs.Prelude.{◌<◌, ◌≤◌}
use Rattle.low.proofs.counted.Goals as goal

pub loop-at-init : goal.loop-at-init
loop-at-init c = omega arith

pub loop-at-preserved : goal.loop-at-preserved
loop-at-preserved c = let less : c.loop-at.at < c.args.n = c.loop-at-test.true in omega (arith, less)

pub returns : goal.returns
returns c = let least = c.loop-at-test.false in let most = c.loop-at.invariant in omega (arith, least, most)
"""

PROVED_TWICE = """use native.Mathlib.Omega.{arith}
use Rattle.low.proofs.twice.Goals as goal

pub returns : goal.returns
returns c = grind (arith, c.limit.ensures, c.limit-2.ensures)
"""


class NumberOfEdits(unittest.TestCase):
    MOST = 40

    def test_a_crate_has_few_in_must_fail(self) -> None:
        """`rt must-fail` tries them one after another: further ones are in tests/wrong-bodies/."""
        for folder in sorted(ROOT.glob("crates/*/must-fail")):
            with self.subTest(folder.parent.name):
                self.assertLessEqual(len([*folder.glob("*.edit")]), self.MOST)


class RealProver(unittest.TestCase):
    """What the kit's prover makes of an edit of each kind, in a small crate."""

    REJECTED = {
        "value": ("        return LIMIT;", "        return LIMIT - 1;", ""),
        "another_value": ("    LIMIT\n", "    LIMIT + 1\n", ""),
        "constant": ("const LIMIT: u8 = 10;", "const LIMIT: u8 = 12;", "function: limit\n"),
        "step": ("        at += 1;", "        at += 2;", ""),
        "test_of_the_loop": ("    while at < n {", "    while at != n {", ""),
    }

    # Other bodies that have what the proof names no longer, and so other goals. Some are right, some are wrong: the
    # check does not show it.
    WITHOUT_THE_NAMES = {
        "condition_with_another_name": ("limited", "if n > 11 { return LIMIT; } n"),
        "value_in_place_of_a_test": ("limited", "n"),
        "else_in_place_of_a_return": ("limited", "if n > LIMIT { LIMIT } else { n }"),
        "match_in_place_of_a_test": ("limited", "match n > LIMIT { true => LIMIT, false => n }"),
        "test_in_place_of_a_loop": ("counted", "let mut at = 0; if at < n { at += 1; } at"),
        "value_in_place_of_a_loop": ("counted", "n"),
        "another_variable": ("counted", "let mut count = 0; while count < n { count += 1; } count"),
        "loop_without_a_test": ("counted", "let mut at = 0; loop { if at >= n { break; } at += 1; } at"),
        "loop_over_a_range": ("counted", "let mut at = 0; for _ in 0..n { at += 1; } at"),
        "value_in_place_of_calls": ("twice", "20"),
        "one_call": ("twice", "limit() * 2"),
    }
    # The contract of each function, and the header of one to which its body is left.
    CONTRACTS = {
        "limited": ("    ensures { result ≡ limited n }", "fn other(n: u8) -> u8"),
        "counted": ("    ensures { result ≡ n }", "fn other(n: u8) -> u8"),
        "twice": ("    ensures { result ≡ 20 }", "fn other() -> u8"),
    }

    def run_mutants(self, folder: Path, edits: dict[str, str]) -> str:
        """What the mutants of these edits come to."""
        crate = folder / "crates" / "low"
        files = {
            "src/lib.rt": PROVED_LIB,
            "specs/Limit.antt": PROVED_LIMIT,
            "specs/Lib.antt": "pub mod Limit\n",
            "proofs/limited/Answers.antt": PROVED_ANSWERS,
            "proofs/counted/Invariants.antt": PROVED_INVARIANTS,
            "proofs/counted/Answers.antt": PROVED_COUNTED,
            "proofs/twice/Answers.antt": PROVED_TWICE,
        }
        for path, text in (files | {f"must-fail/{name}.edit": text for name, text in edits.items()}).items():
            (crate / path).parent.mkdir(parents=True, exist_ok=True)
            (crate / path).write_text(text)
        (folder / "crates.txt").write_text("low:\n")
        shutil.copy(ROOT / "kit-sum", folder / "kit-sum")
        shutil.copytree(ROOT / "scripts", folder / "scripts")
        words = [sys.executable, "scripts/mutants.py"]
        ran = subprocess.run(words, cwd=folder, capture_output=True, text=True, timeout=3600, check=False)
        return ran.stdout + ran.stderr

    def body(self, function: str, body: str) -> tuple[str, str, str]:
        """The edit that gives a function another body."""
        contract, header = self.CONTRACTS[function]
        return contract, f"{contract} {{ {body} }} {header}", ""

    def said_of(self, edits: dict[str, tuple[str, str, str]]) -> str:
        texts = {
            name: f"file: src/lib.rt\n{named}old: {old}\nnew: {new}\n" for name, (old, new, named) in edits.items()
        }
        with tempfile.TemporaryDirectory(prefix="mpslp-mutants-") as folder:
            return self.run_mutants(Path(folder), texts)

    def test_a_mutant_that_breaks_a_contract_is_rejected(self) -> None:
        said = self.said_of(self.REJECTED)
        self.assertIn(f"low: {len(self.REJECTED)} of {len(self.REJECTED)} mutants rejected", said)

    def test_a_mutant_without_the_names_that_its_proof_has_is_a_bad_edit(self) -> None:
        said = self.said_of({name: self.body(*edit) for name, edit in self.WITHOUT_THE_NAMES.items()})
        for name, (function, _) in self.WITHOUT_THE_NAMES.items():
            with self.subTest(name):
                self.assertIn(f"low/{name}: BAD EDIT: the proof of {function} names what it took away", said)
        self.assertIn(f"low: 0 of {len(self.WITHOUT_THE_NAMES)} mutants rejected", said)

    def test_a_mutant_that_the_prover_cannot_read_is_a_bad_edit(self) -> None:
        said = self.said_of({"unknown_name": self.body("twice", "limit() + bound()")})
        self.assertIn("low/unknown_name: BAD EDIT: the prover cannot read it", said)

    def test_a_mutant_with_the_same_meaning_is_not_rejected(self) -> None:
        said = self.said_of({"same_meaning": self.body("twice", "limit() + limit() + 0")})
        self.assertIn("low/same_meaning: NOT REJECTED", said)


if __name__ == "__main__":
    unittest.main()
