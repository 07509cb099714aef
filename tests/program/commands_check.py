#!/usr/bin/env python3
"""Test `make`, `make run`, the check of the kit and the order of the gate with stand-ins for the kit:
tests/program/commands_check.py

Nothing is proved: the stand-ins for `rt`, `rattle` and `rattle-link` record their calls.
"""

import os
import shutil
import signal
import subprocess
import sys
import tempfile
import threading
import time
import unittest
from pathlib import Path
from unittest.mock import patch

ROOT = Path(__file__).resolve().parents[2]
sys.path.insert(0, str(ROOT / "scripts"))

import gate  # noqa: E402
import prove  # noqa: E402
from crates import crates_of_repository  # noqa: E402

KIT_SUM = (ROOT / "kit-sum").read_text().strip()

RT = """#!/bin/sh
case "$1" in
    version) echo "rattle-kit-99 logic ${STAND_IN_SUM:-%s}" ;;
    doc) echo "$(dirname "$0")/START-HERE.md" ;;
    try) sh "$0.try" ;;
esac
"""

# Builds a library only over libraries that are there, as `rattle` does. What it makes names the libraries that it was
# built over.
RATTLE = """#!/bin/sh
verb=$1 name=$3 over=
echo "$verb $name" >> "$STAND_IN_CALLS"
while test $# -gt 0; do
    case "$1" in
        --extern)
            library=${2#*=}
            case "$library" in
                */build/*)
                    test -e "$library/proved" || { echo "$library is not there"; exit 1; }
                    over="$over ${2%%=*}" ;;
            esac ;;
        --statements) is_library=yes ;;
        -o) to=$2 ;;
    esac
    shift
done
case "$name" in
    "$STAND_IN_FAILS") echo "fn bounds::put: not proved"; echo "logic=not-proved"; exit 1 ;;
    "$STAND_IN_SLOW") sleep 60 ;;
    "$STAND_IN_SILENT") echo "no verdict"; exit 0 ;;
esac
test "$verb" = check && to=/dev/null
if test -n "$is_library"; then mkdir -p "$to" && echo "$over" > "$to/proved"; else echo "$over" > "$to"; fi
echo "logic=proved functions=1"
"""

LINK = """#!/bin/sh
echo "link" >> "$STAND_IN_CALLS"
while test "$1" != -o; do shift; done
cp "$(dirname "$0")/program" "$2"
"""


class Commands(unittest.TestCase):
    def setUp(self) -> None:
        self.folder = Path(tempfile.mkdtemp(prefix="mpslp-commands-"))
        self.addCleanup(shutil.rmtree, self.folder)
        self.copy = self.folder / "copy"
        for name in (
            "Makefile",
            "HANDLES",
            "VERSION",
            "kit-sum",
            "crates.txt",
            "docs/errors.tsv",
            "docs/warnings.tsv",
            "docs/portable.tsv",
            "docs/adapt.tsv",
        ):
            (self.copy / name).parent.mkdir(parents=True, exist_ok=True)
            shutil.copy(ROOT / name, self.copy / name)
        for name in ("scripts", "examples", "release", "python"):
            if (ROOT / name).exists():
                shutil.copytree(ROOT / name, self.copy / name, ignore=shutil.ignore_patterns("__pycache__", "build"))
        # The roots of the crates are enough for a stand-in.
        for source in ROOT.glob("crates/*/src/*.rt"):
            if source.name in ("lib.rt", "main.rt"):
                copied = self.copy / source.relative_to(ROOT)
                copied.parent.mkdir(parents=True)
                shutil.copyfile(source, copied)
        self.tools = self.folder / "tools"
        (self.tools / "bin").mkdir(parents=True)
        self.write_tool("rt", RT % KIT_SUM)
        self.write_tool("bin/rattle", RATTLE)
        self.write_tool("bin/rattle-link", LINK)
        self.write_tool("bin/program", '#!/bin/sh\necho proved "$@"\n')
        self.calls_file = self.folder / "calls"

    def write_tool(self, name: str, text: str) -> None:
        (self.tools / name).write_text(text)
        (self.tools / name).chmod(0o755)

    def environment(self, **more: str) -> dict[str, str]:
        path = f"{self.tools}:{os.environ['PATH']}"
        return {**os.environ, "PATH": path, "STAND_IN_CALLS": str(self.calls_file), "MAKEFLAGS": "", **more}

    def make(self, *words: str, **more: str) -> subprocess.CompletedProcess[str]:
        return subprocess.run(
            ["make", "--no-print-directory", *words],
            cwd=self.copy,
            env=self.environment(**more),
            capture_output=True,
            text=True,
            timeout=120,
            check=False,
        )

    def calls(self) -> list[str]:
        return self.calls_file.read_text().splitlines() if self.calls_file.exists() else []

    def test_another_kit_is_reported_at_once(self) -> None:
        for target in ("program", "run", "test"):
            begun = time.monotonic()
            made = self.make(target, STAND_IN_SUM="0123456789abcdef")
            self.assertLess(time.monotonic() - begun, 5)
            self.assertNotEqual(made.returncode, 0)
            self.assertIn(KIT_SUM, made.stderr)
            self.assertIn("0123456789abcdef", made.stderr)
        self.assertEqual(self.calls(), [])

    def test_a_missing_kit_is_reported_at_once(self) -> None:
        (self.tools / "rt").unlink()
        # Only what the commands need, so that an installed kit is not found.
        for tool in ("make", "python3", "sh"):
            (self.tools / tool).symlink_to(sys.executable if tool == "python3" else shutil.which(tool))
        for target in ("program", "run", "test"):
            made = self.make(target, PATH=str(self.tools))
            self.assertNotEqual(made.returncode, 0)
            self.assertIn("rt is not on your PATH", made.stderr)

    def test_each_crate_is_proved_once_and_after_those_that_it_uses(self) -> None:
        made = self.make()
        self.assertEqual(made.returncode, 0, made.stderr)
        self.assertLessEqual(len((made.stdout + made.stderr).splitlines()), 60)
        self.assertEqual(self.calls()[-2:], ["build mpslp", "link"])
        proved = [call.split()[1] for call in self.calls()[:-1]]
        self.assertEqual(len(proved), len(set(proved)))
        for line in (self.copy / "crates.txt").read_text().splitlines():
            name, _, uses = line.partition("#")[0].partition(":")
            if name in proved:
                for use in (use for use in uses.split() if use in proved):
                    self.assertLess(proved.index(use), proved.index(name), f"{name} before {use}")
        self.assertNotIn("mpslp_tests", proved)

    def test_a_second_make_proves_nothing(self) -> None:
        self.make()
        before = self.calls()
        made = self.make()
        self.assertEqual((made.returncode, made.stdout, self.calls()), (0, "", before))

    def test_a_change_proves_its_crate_and_those_above(self) -> None:
        self.make()
        before = len(self.calls())
        with (self.copy / "crates" / "mpslp_convert" / "src" / "lib.rt").open("a") as source:
            source.write("// changed\n")
        self.assertEqual(self.make().returncode, 0)
        self.assertEqual(self.calls()[before:], ["build mpslp_convert", "build mpslp", "link"])

    def test_a_library_that_is_missing_is_proved_again_with_those_above(self) -> None:
        self.make()
        before = len(self.calls())
        (self.copy / "crates" / "mpslp" / "out" / "mpslp").unlink()
        shutil.rmtree(self.copy / "build" / "proofs" / "mpslp_convert")
        self.assertEqual(self.make().returncode, 0)
        self.assertEqual(self.calls()[before:], ["build mpslp_convert", "build mpslp", "link"])

    def test_an_interrupted_make_goes_on(self) -> None:
        process = subprocess.Popen(
            [sys.executable, "scripts/prove.py", "mpslp"],
            cwd=self.copy,
            env=self.environment(STAND_IN_SLOW="mpslp_builder"),
            stdout=subprocess.PIPE,
            stderr=subprocess.PIPE,
            text=True,
            # In a gate that runs in the background, processes begin with interrupts ignored.
            preexec_fn=lambda: signal.signal(signal.SIGINT, signal.SIG_DFL),
        )
        for _ in range(600):
            if "build mpslp_builder" in self.calls():
                break
            time.sleep(0.1)
        process.send_signal(signal.SIGINT)
        _, said = process.communicate(timeout=60)
        self.assertNotEqual(process.returncode, 0)
        self.assertIn("interrupted", said)
        before = self.calls()
        self.assertIn("build mpslp_types", before)
        self.assertEqual(self.make().returncode, 0)
        after = self.calls()[len(before) :]
        self.assertIn("build mpslp_builder", after)
        self.assertNotIn("build mpslp_types", after)

    def test_nothing_is_started_after_a_stop(self) -> None:
        runner = prove.Runner()
        begun = self.folder / "begun"
        words = ["touch", str(begun)]
        self.assertEqual(runner.run(words, self.folder, self.folder / "log"), 0)
        begun.unlink()
        runner.stop()
        self.assertNotEqual(runner.run(words, self.folder, self.folder / "log"), 0)
        self.assertFalse(begun.exists())

    def test_what_is_started_while_others_stop_is_ended_too(self) -> None:
        for _ in range(20):
            runner = prove.Runner()
            statuses: list[int] = []
            calls = [
                threading.Thread(
                    target=lambda: statuses.append(runner.run(["sleep", "30"], self.folder, self.folder / "log"))
                )
                for _ in range(8)
            ]
            for call in calls:
                call.start()
            runner.stop()
            for call in calls:
                call.join(10)
            self.assertEqual(statuses, [-signal.SIGTERM] * len(calls))

    def test_what_is_above_a_crate_that_is_proved_again_is_proved_again_too(self) -> None:
        self.make()
        source = self.copy / "crates" / "mpslp_builder" / "src" / "lib.rt"
        text = source.read_text()
        source.write_text(text + "// changed\n")
        self.assertNotEqual(self.make(STAND_IN_FAILS="mpslp_model").returncode, 0)
        # The library of the builder is now another one, so nothing counts that was proved over the one before.
        source.write_text(text)
        before = len(self.calls())
        self.assertEqual(self.make().returncode, 0)
        after = self.calls()[before:]
        self.assertIn("build mpslp_builder", after)
        self.assertIn("build mpslp_convert", after)
        self.assertNotIn("build mpslp_types", after)

    def test_a_crate_that_fails_is_shown_with_its_last_lines(self) -> None:
        made = self.make(STAND_IN_FAILS="mpslp_lp_write")
        self.assertNotEqual(made.returncode, 0)
        self.assertIn("mpslp_lp_write is not proved", made.stderr)
        self.assertIn("fn bounds::put: not proved", made.stderr)
        self.assertNotIn("build mpslp", self.calls())

    def test_a_crate_without_a_verdict_is_not_proved(self) -> None:
        made = self.make(STAND_IN_SILENT="mpslp_types")
        self.assertNotEqual(made.returncode, 0)
        self.assertIn("mpslp_types is not proved", made.stderr)
        self.assertNotIn("build mpslp_model_core", self.calls())

    def test_only_the_crate_is_proved_over_libraries_in_another_directory(self) -> None:
        self.assertEqual(self.make().returncode, 0)
        (self.copy / "build" / "proofs").rename(self.copy / "build" / "others")
        before = len(self.calls())
        words = [sys.executable, "scripts/prove.py", "mpslp_c", "--over", "build/others"]
        over = subprocess.run(
            words, cwd=self.copy, env=self.environment(), capture_output=True, text=True, timeout=60, check=False
        )
        self.assertEqual((over.returncode, self.calls()[before:]), (0, ["build mpslp_c"]), over.stderr)
        self.assertIn("mpslp_conversions", (self.copy / "crates" / "mpslp_c" / "out" / "libmpslp_c.a").read_text())

    def test_a_check_proves_the_crates_below_and_hands_on_its_flags(self) -> None:
        words = [sys.executable, "scripts/check.py", "mpslp_types", "--only=kinds"]
        checked = subprocess.run(
            words, cwd=self.copy, env=self.environment(), capture_output=True, text=True, timeout=60, check=False
        )
        self.assertEqual(checked.returncode, 0, checked.stderr)
        self.assertEqual(sorted(self.calls()), ["build mpslp_decimal", "check mpslp_types"])

    def test_run_takes_the_proved_program_only_while_it_is_current(self) -> None:
        self.write_tool("rt.try", "cat > /dev/null; echo unproved; echo 'run=ended status=0 runners=1 proved=no' >&2\n")
        made = self.make("run")
        self.assertEqual((made.returncode, made.stdout), (0, "unproved\n"))
        self.assertIn("not proved on this machine yet", made.stderr)
        self.assertNotIn("run=ended", made.stderr)
        self.make()
        made = self.make("run", "FILE=examples/small.lp", "TO=mps")
        self.assertEqual((made.returncode, made.stdout, made.stderr), (0, "proved canon lp mps -\n", ""))
        with (self.copy / "crates" / "mpslp" / "src" / "main.rt").open("a") as source:
            source.write("// changed\n")
        self.assertEqual(self.make("run").stdout, "unproved\n")

    def test_run_says_what_is_wrong_with_its_arguments(self) -> None:
        for words, said in (
            (("FILE=examples/none.mps",), "examples/none.mps: no such file"),
            (("FILE=HANDLES",), "the format of a file is its extension"),
            (("TO=xml",), "unknown format: xml"),
        ):
            made = self.make("run", *words)
            self.assertNotEqual(made.returncode, 0)
            self.assertIn(said, made.stderr)
        self.assertEqual(self.calls(), [])

    def test_run_hands_on_the_programs_error_and_the_limits_of_an_unproved_run(self) -> None:
        self.write_tool(
            "rt.try", "echo 'line 7: DuplicateEntry' >&2; echo 'run=ended status=2 runners=1 proved=no' >&2; exit 2\n"
        )
        made = self.make("run")
        self.assertIn("line 7: DuplicateEntry", made.stderr)
        self.assertIn("Error 2", made.stderr)
        self.write_tool("rt.try", "echo 'run=none proved=no' >&2; exit 6\n")
        made = self.make("run")
        self.assertIn("build the program with `make` first", made.stderr)


# Crates of a repository, and what each uses.
CRATES_OF_GATE = (("low", ()), ("middle", ("low",)), ("high", ("low", "middle")), ("other", ("middle",)))


class Gate(unittest.TestCase):
    def tally(self, ci_passes: bool) -> gate.Tally:
        """What the gate counts over a stand-in for `rt ci` and two scripts, without memory for anything beside `rt
        ci`."""
        scripts = [gate.Job(gate.Test(name, (name,))) for name in ("true", "false")]
        with tempfile.TemporaryDirectory() as logs, patch.multiple(
            gate,
            LOGS=Path(logs),
            copy_crates=lambda: None,
            crates_of_repository=dict,
            free_memory=lambda: 0,
            all_jobs=lambda crates: scripts,
            prove_all=lambda report, proved: (ci_passes, "3 passed, 0 failed" if ci_passes else "2 passed, 1 failed"),
            report_test=lambda report, test, status, *rest: gate.Tally(int(not status), int(bool(status))),
        ), open(os.devnull, "w") as silent, patch("sys.stdout", silent):
            return gate.Gate(gate.Report()).run()

    def test_scripts_run_after_rt_ci_if_nothing_ran_beside_it(self) -> None:
        self.assertEqual(self.tally(ci_passes=True), gate.Tally(passed=4, failed=1))

    def test_a_program_is_marked_with_the_sum_of_the_sources_that_were_copied(self) -> None:
        """Also if they are edited between the copy and the proof."""
        marks: list[tuple[str, str]] = []
        with tempfile.TemporaryDirectory() as name:
            root = Path(name)
            copy, source = root / "build" / "ci", root / "crates" / gate.PROGRAM / "src" / "main.rt"

            def sum_of_tree() -> str:
                return gate.sums_of([*gate.crates_of_repository(root).values()])[gate.PROGRAM]

            source.parent.mkdir(parents=True)
            source.write_text("fn main() {}\n")
            for file in ("crates.txt", "HANDLES"):
                (root / file).write_text(f"{gate.PROGRAM}:\n")
            kit = root / "rt"
            kit.write_text(f"#!/bin/sh\necho 'rt: {gate.PROGRAM} proved'\necho 'rt: ok'\necho '1 passed, 0 failed'\n")
            kit.chmod(0o755)
            proved: set[str] = set()
            with patch.multiple(
                gate,
                ROOT=root,
                COPY=copy,
                LOGS=root,
                crates_of_repository=lambda top=root: crates_of_repository(top),
                mark=lambda crate, sum: marks.append((crate.name, sum)),
            ), patch.dict(os.environ, PATH=f"{root}:{os.environ['PATH']}"), open(os.devnull, "w") as silent, patch(
                "sys.stdout", silent
            ):
                gate.copy_crates()
                copied = sum_of_tree()
                source.write_text("fn main() { loop {} }\n")
                edited = sum_of_tree()
                (copy / "crates" / gate.PROGRAM / "out").mkdir(parents=True)
                (copy / "crates" / gate.PROGRAM / "out" / gate.PROGRAM).write_text("proved\n")
                result = gate.prove_all(gate.Report(), proved)
            self.assertEqual((result, proved), ((True, "1 passed, 0 failed"), {gate.PROGRAM}))
            self.assertEqual((root / "crates" / gate.PROGRAM / "out" / gate.PROGRAM).read_text(), "proved\n")
            self.assertNotEqual(copied, edited)
            self.assertEqual({*marks}, {(gate.PROGRAM, copied)})

    def test_sources_that_were_edited_before_their_proof_are_not_what_was_planned(self) -> None:
        """Otherwise what is built of them would be marked with the sum of the old ones, and count as theirs once the
        edit is undone."""
        with tempfile.TemporaryDirectory() as name, patch.multiple(
            prove, LOGS=Path(name), LIBRARIES=Path(name), built=lambda crate: Path(name) / "out" / crate.name
        ), patch.object(prove.Prover, "is_proved", return_value=True):
            crate = gate.Crate("low", "low:", (), (), Path(name))
            source = crate.folder / "src" / "lib.rt"
            source.parent.mkdir(parents=True)
            source.write_text("//! Low.\n")
            planned, prover = crate.sum(), prove.Prover({"low": crate})
            self.assertTrue(prover.build(crate, 1, planned=planned))
            source.write_text("//! Edited.\n")
            self.assertFalse(prover.build(crate, 1, planned=planned))
            self.assertIn("the sources of low changed", (Path(name) / "low.log").read_text())

    def test_what_is_not_run_counts_as_failed(self) -> None:
        self.assertEqual(self.tally(ci_passes=False), gate.Tally(passed=2, failed=3))

    def test_mutants_begin_once_the_libraries_below_them_are_complete(self) -> None:
        low, middle, high, other = [gate.Crate(name, "", uses, uses) for name, uses in CRATES_OF_GATE]
        for proved, is_ready in (
            ([], False),
            ([low], False),
            # The library of a crate is still to be built when it is proved.
            ([low, middle], False),
            ([low, middle, other], True),
            ([low, middle, high], True),
        ):
            self.assertEqual(gate.Job(high).is_ready(gate.Ci.RUNNING, proved), is_ready)
        self.assertTrue(gate.Job(low).is_ready(gate.Ci.RUNNING, []))

    def test_a_script_begins_once_what_it_needs_is_built(self) -> None:
        low, middle = [gate.Crate(name, "", uses, uses) for name, uses in CRATES_OF_GATE[:2]]
        of_two, of_all = [gate.Job(gate.Test("", (), needs=frozenset(needs))) for needs in (("low", "middle"), ())]
        for job, proved, ready_in in (
            (of_two, [low], {gate.Ci.PASSED}),
            (of_two, [low, middle], set(gate.Ci)),
            (of_all, [low, middle], {gate.Ci.PASSED}),
        ):
            self.assertEqual({ci for ci in gate.Ci if job.is_ready(ci, proved)}, ready_in)


if __name__ == "__main__":
    unittest.main()
