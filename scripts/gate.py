#!/usr/bin/env python3
"""The merge gate, quietly: scripts/gate.py

`rt ci` proves every crate and its tests, and runs the tests and programs, on a copy of the crates in build/ci/. The
copy has no mutants, since `rt ci` would check a whole crate for each: scripts/mutants.py checks that the prover rejects
them, those of a crate as soon as `rt ci` has built what it needs, on processors that `rt ci` leaves idle. The scripts
of TESTS test what was built. One line is printed for each crate, its mutants and each script; all of their output goes
to build/log/. A mutant that cannot be applied, and a file that is not laid out, are found before `rt ci` begins.
"""

import os
import re
import shutil
import subprocess
import sys
import time
from collections.abc import Iterable, Iterator
from concurrent.futures import FIRST_COMPLETED, Future, ThreadPoolExecutor, wait
from contextlib import contextmanager, nullcontext
from dataclasses import dataclass
from enum import Enum, auto
from pathlib import Path
from threading import Lock

from crates import Crate, below, crates_of_repository, mark, sums_of
from kit import ROOT, kit_folder, require_kit
from mutants import Outcome, crates_with_mutants, test_crate, unusable_edits
from prove import LOGS, MEMORY_OF_A_LANE, default_lanes, free_memory

# Where `rt ci` runs, and what it leaves there: the library of each crate, its program and its tests.
COPY = ROOT / "build" / "ci"
# The crate of the program that `make` builds.
PROGRAM = "mpslp"
# What a crate has that `rt ci` does not read here.
LEFT_OUT = shutil.ignore_patterns("must-fail", "out")

# There are at most so many checks side by side, since each takes memory, and fewer while `rt ci` runs.
MOST_CHECKS, MOST_BESIDE_CI = 4, 3
# How often the gate looks for what `rt ci` has built.
SECONDS_BETWEEN_LOOKS = 5


@dataclass(frozen=True)
class Test:
    """A script that tests what `rt ci` built: all of it, or only these crates and those below them."""

    name: str
    words: tuple[str, ...]
    folder: Path = ROOT
    needs: frozenset[str] = frozenset()
    # A test that has to end before, whose results it uses.
    after: str | None = None


# What the documents and the tests of the tools need of the Python package: the environment in which it was tested.
CALLERS = "C library and Python package"
PACKAGE = ROOT / "build" / "python" / "bin"

# The longest first. It takes minutes on one processor, so it begins before `rt ci` has ended.
TESTS = (
    Test(CALLERS, ("sh", "tests/program/callers.sh"), needs=frozenset({PROGRAM, "mpslp_c"})),
    Test("program on vectors/", ("python3", "tests/program/vectors.py")),
    Test("library on vectors/", ("../crates/try_library/out/try_library", "vectors"), ROOT / "vectors"),
    Test("refused memory", ("python3", "tests/program/refused.py")),
    Test("independent reader", ("python3", "tests/program/independent_check.py", "--runs", "20000")),
    Test("random models in many spellings", ("python3", "tests/program/random_files.py", "--models", "100")),
    Test("make and make run", ("python3", "tests/program/commands_check.py")),
    Test("mutants in one check", ("python3", "tests/program/mutants_check.py")),
    Test("a large file", ("python3", "tests/program/large_file.py")),
    Test("documents", ("python3", "tests/documents/docs_check.py"), after=CALLERS),
    Test("random models in other dialects", ("python3", "python/tests/adapt_random.py", "--models", "300")),
    Test("glued and damaged LP files", ("python3", "python/tests/adapt_glued.py", "--files", "600")),
    Test("files with two meanings", ("python3", "python/tests/adapt_doubts.py", "--files", "8000", "--wrong")),
    Test("what installed programs write", ("python3", "python/tests/adapt_writers.py", "--models", "20")),
    Test("what programs write of published models", ("python3", "python/tests/adapt_published.py", "--every", "20")),
    Test("what other programs read", ("python3", "tests/program/compare_readers.py")),
    Test("what other programs make of small files", ("python3", "python/tests/portable_programs.py")),
    Test("rules for other dialects", ("python3", "python/tests/adapt_rules.py", "--wrong")),
    Test("formatting", ("python3", "python/tests/format_check.py", "--wrong"), after=CALLERS),
    Test("merges of models", ("python3", "python/tests/merge_check.py", "--models", "150", "--wrong"), after=CALLERS),
    Test("solvers", ("python3", "tests/program/solvers.py")),
    Test("names that collide", ("python3", "bench/growth.py", "--names", "8000"), after=CALLERS),
    Test("what other programs read otherwise", ("python3", "python/tests/portable_rules.py", "--wrong")),
    Test("texts for solvers", ("python3", "python/tests/solver_texts.py", "--gate")),
    Test("warnings", ("python3", "python/tests/warning_rules.py", "--wrong")),
    Test("messages about rejected files", ("python3", "python/tests/messages_check.py", "--wrong"), after=CALLERS),
    Test("causes of files as people write them", ("python3", "python/tests/rejected_files.py"), after=CALLERS),
    Test("digests of canonical texts", ("python3", "tests/program/digests.py")),
    Test("program on files", ("python3", "tests/program/program.py")),
    Test("library on standard input", ("python3", "tests/program/library.py")),
    Test("scripts of tests/ that nothing starts", ("python3", "tests/documents/scripts_check.py")),
    Test("page of the rules of dialects", ("python3", "python/tests/dialect_rows.py")),
    Test("layout of Python files", ("python3", "scripts/lint.py")),
    Test("version", ("sh", "release/version.sh", "crates/mpslp/out/mpslp")),
)

PROVED = re.compile(r"rt: (\w+) proved$")
TESTS_PROVED = re.compile(r"rt: (\w+): its tests are proved$")
KEPT = re.compile(r"rt: (\w+) is kept:")
FAILURE = re.compile(r"^fn \S+: (?:not proved|no proof)|NOT PROVED|FAILED|\berror\b|^rt: .*(?:failed|refuse)")
CLOSING = re.compile(r"(\d+) passed, (\d+) failed$")
# A script that skips a test because a tool is missing reports it with this prefix. Whatever Debian has is installed by
# .ci/run, so the test has failed then. The others are named at the end.
SKIPPED = "skipped: "
NOT_IN_DEBIAN = ("highspy",)


# How many lines of a script that failed are shown.
LAST_LINES = 15

# What a script or the mutants of a crate came to.
Result = tuple[int, float, Path] | Outcome


class Report:
    """What is printed, with the minutes since the beginning. What failed is printed when it is known and again at the
    end, since only the end of a long output may be kept."""

    def __init__(self) -> None:
        self.begun = time.monotonic()
        self.failures: list[str] = []

    @property
    def minutes(self) -> float:
        return (time.monotonic() - self.begun) / 60

    def say(self, text: str) -> None:
        print(f"{self.minutes:5.1f} min  {text}", flush=True)

    def fail(self, text: str, lines: Iterable[str] = ()) -> None:
        """Reports a failure, and lines about it."""
        self.say(text)
        about = [f"    {line[:300]}" for line in lines]
        print(*about, sep="\n", end="\n" if about else "", flush=True)
        self.failures += [text, *about]


def processors() -> int:
    return min(MOST_CHECKS, len(os.sched_getaffinity(0)))


def proofs_of_ci() -> int:
    """How many proofs `rt ci` runs now."""

    def is_proof(process: Path) -> bool:
        try:
            return (process / "comm").read_text() == "rattle\n" and (process / "cwd").readlink().is_relative_to(COPY)
        except OSError:
            # It has ended.
            return False

    return sum(map(is_proof, Path("/proc").glob("[0-9]*")))


class Turns:
    """Lets a check of mutants begin only when a processor is idle. More checks than processors take a fifth more
    processor time each, since one takes the caches from another."""

    def __init__(self) -> None:
        self.lock, self.checks = Lock(), 0

    @contextmanager
    def turn(self) -> Iterator[None]:
        while not self.begins():
            time.sleep(1)
        try:
            yield
        finally:
            with self.lock:
                self.checks -= 1

    def begins(self) -> bool:
        """Whether a check can begin now, and then it counts as begun."""
        with self.lock:
            is_idle = self.checks + proofs_of_ci() < processors()
            self.checks += is_idle
            return is_idle


def copy_crates() -> None:
    """Copies what `rt ci` reads to a directory of its own, which it takes for the top of a repository by its .git."""
    shutil.rmtree(COPY, ignore_errors=True)
    shutil.copytree(ROOT / "crates", COPY / "crates", ignore=LEFT_OUT)
    for name in ("crates.txt", "HANDLES"):
        shutil.copyfile(ROOT / name, COPY / name)
    (COPY / ".git").mkdir()


def take_programs(crate: str) -> None:
    """Puts the programs and tests that `rt ci` built of this crate where the scripts look for them. What runs there
    goes on with the file that it has."""
    for file in COPY.glob(f"crates/{crate}/out/*"):
        if file.is_file():
            to = ROOT / file.relative_to(COPY)
            to.parent.mkdir(exist_ok=True)
            shutil.copy2(file, to.with_name(f"{to.name}.part")).replace(to)


def sum_of_program() -> str:
    """A checksum of everything that `rt ci` reads for the proof of the program: of the copy, whatever was edited since
    it was made."""
    return sums_of(below(crates_of_repository(COPY), PROGRAM))[PROGRAM]


def mark_program(sum: str) -> None:
    """Records that the program of `rt ci` is the proved one of the sources with this checksum, so that `make` and `make
    run` use it."""
    mark(crates_of_repository()[PROGRAM], sum)


def prove_all(report: Report, proved: set[str]) -> tuple[bool, str]:
    """Runs `rt ci`, and returns whether it passed, and its closing line. Adds the name of each crate that it has
    proved."""
    log, closing, sum = LOGS / "rt-ci.log", "", sum_of_program()
    # With RT_JOBS each proof has one process. With several a proof takes up to a third more processor time, and the
    # mutants use what the proofs leave idle.
    environment = {**os.environ, "RT_JOBS": str(default_lanes())}
    with log.open("w") as output, subprocess.Popen(
        ["rt", "ci"],
        cwd=COPY,
        stdout=subprocess.PIPE,
        stderr=subprocess.STDOUT,
        text=True,
        errors="replace",
        env=environment,
    ) as ci:
        for line in ci.stdout:
            output.write(line)
            output.flush()
            line = line.rstrip("\n")
            if found := PROVED.match(line):
                report.say(f"{found[1]}: proved")
                take_programs(found[1])
                if found[1] == PROGRAM:
                    mark_program(sum)
                proved.add(found[1])
            elif found := TESTS_PROVED.match(line):
                report.say(f"{found[1]}: its tests proved")
            elif found := KEPT.match(line):
                report.say(f"{found[1]}: proved by an earlier run")
            elif found := CLOSING.match(line):
                closing = line
    passed = ci.returncode == 0
    if passed:
        for crate in crates_of_repository():
            take_programs(crate)
        mark_program(sum)
    else:
        report.fail("rt ci: FAILED", failures(log))
    return passed, closing or "0 passed, 1 failed"


def failures(log: Path) -> list[str]:
    """The lines of the log that say what failed, and where the rest is."""
    lines = [line for line in log.read_text(errors="replace").splitlines() if FAILURE.search(line)]
    return [*lines[-40:], f"all of the output: {log.relative_to(ROOT)}"]


def run_test(test: Test) -> tuple[int, float, Path]:
    log = LOGS / f"{re.sub(r'[^a-z]+', '-', test.name.lower()).strip('-')}.log"
    begun = time.monotonic()
    with log.open("wb") as output:
        status = subprocess.run(
            test.words,
            cwd=test.folder,
            stdin=subprocess.DEVNULL,
            stdout=output,
            stderr=subprocess.STDOUT,
            env={**os.environ, "PATH": f"{PACKAGE}:{os.environ['PATH']}"} if test.after == CALLERS else None,
            check=False,
        ).returncode
    return status, time.monotonic() - begun, log


@dataclass
class Tally:
    """What passed and failed, and what was skipped for want of a tool."""

    passed: int = 0
    failed: int = 0
    skipped: tuple[str, ...] = ()

    def __add__(self, other: "Tally") -> "Tally":
        return Tally(self.passed + other.passed, self.failed + other.failed, self.skipped + other.skipped)


def report_test(report: Report, test: Test, status: int, seconds: float, log: Path) -> Tally:
    lines = log.read_text(errors="replace").splitlines()
    skipped = [line.removeprefix(SKIPPED) for line in lines if line.startswith(SKIPPED)]
    excused = tuple(line for line in skipped if any(f"{name} is missing" in line for name in NOT_IN_DEBIAN))
    for line in (it for it in skipped if it not in excused):
        report.fail(f"{test.name}: FAILED, since a test was skipped: {line}")
    if status:
        said = f"{test.name}: FAILED in {seconds:.0f} s; the last lines of {log.relative_to(ROOT)}:"
        report.fail(said, lines[-LAST_LINES:])
    else:
        report.say(f"{test.name}: passed in {seconds:.0f} s{': ' + lines[-1][:100] if lines else ''}")
    has_failed = bool(status) or len(skipped) > len(excused)
    return Tally(int(not has_failed), int(has_failed), tuple(f"{line} (it is not in Debian)" for line in excused))


def report_mutants(report: Report, outcome: Outcome) -> Tally:
    if outcome.problems:
        report.fail(outcome.line, outcome.problems)
    else:
        report.say(outcome.line)
    return Tally(outcome.rejected, len(outcome.problems))


class Ci(Enum):
    """What is known of `rt ci`."""

    RUNNING = auto()
    PASSED = auto()
    FAILED = auto()


@dataclass(frozen=True)
class Job:
    """The mutants of a crate, or a script."""

    of: Crate | Test

    @property
    def after(self) -> str | None:
        return self.of.after if isinstance(self.of, Test) else None

    def is_ready(self, ci: Ci, proved: list[Crate]) -> bool:
        """Whether `rt ci` has built what the job needs: all of it, or what these crates are that it has proved. Mutants
        need the libraries of the crates below theirs. A library is complete once a crate over it is proved."""
        if isinstance(self.of, Crate):
            has_built = self.of in proved or {*self.of.uses} <= {use for crate in proved for use in crate.uses}
        else:
            has_built = bool(self.of.needs) and self.of.needs <= {crate.name for crate in proved}
        return ci == Ci.PASSED or has_built

    def run(self, crates: dict[str, Crate], turns: Turns) -> Result:
        if isinstance(self.of, Crate):
            return test_crate(self.of, crates, COPY / "crates", turns.turn)
        with turns.turn() if self.of.needs else nullcontext():
            return run_test(self.of)

    def report(self, report: Report, result: Result) -> Tally:
        return report_mutants(report, result) if isinstance(result, Outcome) else report_test(report, self.of, *result)


def all_jobs(crates: dict[str, Crate]) -> list[Job]:
    """All jobs, in the order in which they begin: the script that takes longest, and the mutants and scripts in the
    order of their time."""
    scripts = [Job(test) for test in TESTS]
    mutants = [Job(it) for it in crates_with_mutants(crates)]
    return [scripts[0], *mutants, *scripts[1:]]


class Gate:
    """`rt ci`, and beside it and after it the jobs."""

    def __init__(self, report: Report) -> None:
        self.report, self.crates = report, crates_of_repository()
        self.ci, self.waiting, self.tally = Ci.RUNNING, all_jobs(self.crates), Tally()
        self.proved: set[str] = set()
        self.ended: set[str] = set()
        self.turns = Turns()

    def run(self) -> Tally:
        """Runs everything, and returns what passed and failed."""
        copy_crates()
        with ThreadPoolExecutor(1 + processors()) as pool:
            running: dict[Future, Job | None] = {pool.submit(prove_all, self.report, self.proved): None}
            while running:
                for it in wait(running, timeout=SECONDS_BETWEEN_LOOKS, return_when=FIRST_COMPLETED).done:
                    if job := running.pop(it):
                        self.tally += job.report(self.report, it.result())
                        self.ended.add(job.of.name)
                    else:
                        self.end_ci(*it.result())
                # Last, so that the loop goes on where `rt ci` ended while nothing ran beside it.
                self.begin(running, pool)
        return self.tally + self.left_out()

    def begin(self, running: dict[Future, Job | None], pool: ThreadPoolExecutor) -> None:
        """Starts the jobs that can run now."""
        room = self.room() - sum(job is not None for job in running.values())
        proved = [crate for name, crate in self.crates.items() if name in self.proved]
        ready = [it for it in self.waiting if it.is_ready(self.ci, proved) and it.after in {None, *self.ended}]
        for job in ready[: max(0, room)]:
            self.waiting.remove(job)
            running[pool.submit(job.run, self.crates, self.turns)] = job

    def left_out(self) -> Tally:
        """What was never begun counts as failed, whatever else passed."""
        if self.waiting:
            self.report.fail(f"not run: {', '.join(job.of.name for job in self.waiting)}")
        return Tally(failed=len(self.waiting))

    def room(self) -> int:
        """How many jobs may run side by side now."""
        if self.ci == Ci.RUNNING:
            return min(MOST_BESIDE_CI, processors() - 1) if free_memory() > MEMORY_OF_A_LANE else 0
        return processors() if self.ci == Ci.PASSED else 0

    def end_ci(self, passed: bool, closing: str) -> None:
        print(closing, flush=True)
        self.ci = Ci.PASSED if passed else Ci.FAILED
        self.tally += Tally(*map(int, CLOSING.match(closing).groups()))


def not_laid_out(crates: Iterable[Crate]) -> list[str]:
    """What the kit's formatter says of the files that it would change."""
    files = [file for crate in crates for file in crate.files() if file.suffix in (".rt", ".antt")]
    words = [f"{kit_folder()}/bin/rattle", "fmt", "--check", *map(str, files)]
    run = subprocess.run(words, stdout=subprocess.PIPE, stderr=subprocess.STDOUT, text=True, check=False)
    # Any other status says nothing of the layout.
    return run.stdout.splitlines() if run.returncode == 1 else []


def main() -> int:
    require_kit()
    LOGS.mkdir(parents=True, exist_ok=True)
    report = Report()
    crates = crates_of_repository()
    # These would be found only minutes later, when their crate is proved, or in an hour, with its mutants.
    if wrong := [*not_laid_out(crates.values()), *unusable_edits(crates)]:
        print(*wrong, f"0 passed, {len(wrong)} failed", sep="\n")
        return 1
    report.say(f"rt ci proves on {processors()} processors; the prover's output is in {LOGS.relative_to(ROOT)}/")
    tally = Gate(report).run()
    for what in tally.skipped:
        report.say(f"skipped: {what}")
    if report.failures:
        print("what failed, again:", *report.failures, sep="\n", flush=True)
    report.say(
        f"the gate {'FAILED' if tally.failed else 'passed'} in {report.minutes:.0f} minutes: crates, mutants "
        "and scripts together:"
    )
    print(f"{tally.passed} passed, {tally.failed} failed", flush=True)
    return 1 if tally.failed else 0


if __name__ == "__main__":
    sys.exit(main())
