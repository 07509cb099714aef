#!/usr/bin/env python3
"""Proves a crate and all crates below it, in parallel and quietly: scripts/prove.py CRATE

Crates that do not depend on one another are proved side by side. Those for which the longest chains of crates wait come
first, and the others give way to them. One line is printed for each crate; the prover's own output goes to build/log/.
A second call proves what has changed since, and a call after an interrupted one goes on where that was.

Each crate is proved by one call of the kit's `rattle` over the proved libraries in build/proofs/. Such a library has
the statements of a crate without their proofs, as those of `rt ci` do. A program is linked to crates/NAME/out/NAME, a
static library is put to crates/NAME/out/libNAME.a.
"""

import argparse
import fcntl
import os
import re
import signal
import subprocess
import sys
import threading
import time
from collections.abc import Iterator
from concurrent.futures import FIRST_COMPLETED, Future, ThreadPoolExecutor, wait
from contextlib import contextmanager
from pathlib import Path

from crates import (
    LIBRARIES,
    Crate,
    below,
    built,
    crates_of_repository,
    is_current,
    is_proved_and_built,
    mark,
    seconds_of_crates,
    sums_of,
    unmark,
    words_of,
)
from kit import ROOT, kit_folder, require_kit

LOGS = ROOT / "build" / "log"
# The maximum memory of a check of a large crate, in bytes.
MEMORY_OF_A_LANE = 4_000_000_000
# More processes seldom help one check.
MOST_JOBS = 4
# A crate is urgent if the chain of crates that wait for it is nearly as long as the longest one.
NEARLY = 0.7
TARGET = "x86_64-unknown-linux-gnu"
# What the prover starts ends with it. In a session of its own, `nice` would mean nothing to processes of other
# sessions.
OWN_GROUP = {"process_group": 0} if sys.version_info >= (3, 11) else {"start_new_session": True}


class Estimate:
    """An estimate of the time left, from the time of each crate in scripts/proof-seconds.tsv."""

    def __init__(self, crates: list[Crate]):
        known = seconds_of_crates("proof-seconds.tsv")
        self.seconds = {crate.name: known.get(crate.name, 60.0) for crate in crates}
        self.crates = {crate.name: crate for crate in crates}
        self.begun = time.monotonic()

    def chain(self, names: set[str]) -> float:
        """The time of the longest chain of these crates."""
        ends: dict[str, float] = {}
        for name, crate in self.crates.items():
            first = max((ends[use] for use in crate.uses), default=0.0)
            ends[name] = first + (self.seconds[name] if name in names else 0.0)
        return max(ends.values(), default=0.0)

    def chain_from(self, name: str) -> float:
        """The time of the crate and the longest chain of crates that wait for it."""
        above = [self.chain_from(it.name) for it in self.crates.values() if name in it.uses]
        return self.seconds[name] + max(above, default=0.0)

    def left(self, all_names: set[str], left: set[str], lanes: int) -> float:
        """Seconds left, by comparing the crates done so far with the table."""
        planned = self.span(all_names, lanes) - self.span(left, lanes)
        pace = (time.monotonic() - self.begun) / planned if planned > 0 else 1.0
        return min(max(pace, 0.3), 5.0) * self.span(left, lanes)

    def span(self, names: set[str], lanes: int) -> float:
        return max(self.chain(names), sum(self.seconds[it] for it in names) / lanes)


def minutes(seconds: float) -> str:
    return "less than a minute" if seconds < 60 else f"{seconds / 60:.0f} min"


class Interrupted(Exception):
    pass


class Runner:
    """Runs the kit's commands, and ends those still running when this program is interrupted."""

    def __init__(self) -> None:
        self.running: set[subprocess.Popen[bytes]] = set()
        self.is_stopped = False
        self.lock = threading.Lock()

    def run(self, words: list[str], folder: Path, log: Path) -> int:
        """The command's status. After a stop nothing is started, and the status is that of a command which the stop
        ended."""
        with log.open("ab") as output:
            # It is started under the lock, so that a stop finds it.
            with self.lock:
                if self.is_stopped:
                    return -signal.SIGTERM
                process = subprocess.Popen(
                    words, cwd=folder, stdin=subprocess.DEVNULL, stdout=output, stderr=output, **OWN_GROUP
                )
                self.running.add(process)
            try:
                return process.wait()
            finally:
                with self.lock:
                    self.running.discard(process)

    def stop(self) -> None:
        with self.lock:
            self.is_stopped = True
            for process in self.running:
                try:
                    os.killpg(process.pid, signal.SIGTERM)
                except ProcessLookupError:
                    pass


def last_lines(log: Path, number: int) -> list[str]:
    return log.read_text(errors="replace").splitlines()[-number:] if log.exists() else []


class Prover:
    """Proves one crate over the proved libraries of those below it, and builds it."""

    def __init__(self, crates: dict[str, Crate], libraries: Path = LIBRARIES):
        self.crates, self.libraries, self.runner = crates, libraries, Runner()

    def build(self, crate: Crate, jobs: int, is_urgent: bool = True, planned: str | None = None) -> bool:
        """Whether the crate is proved and built, from sources with the planned checksum. Only then is what was built of
        it before replaced."""
        log = LOGS / f"{crate.name}.log"
        log.unlink(missing_ok=True)
        before = planned or crate.sum()
        (LIBRARIES / crate.name).mkdir(parents=True, exist_ok=True)
        built(crate).parent.mkdir(exist_ok=True)
        is_built = self.is_proved(crate, jobs, is_urgent, log) and (not crate.is_program or self.is_linked(crate, log))
        if is_built and crate.sum() != before:
            with log.open("a") as output:
                output.write(f"the sources of {crate.name} changed while it was proved: prove it again\n")
            return False
        return is_built

    def is_proved(self, crate: Crate, jobs: int, is_urgent: bool, log: Path) -> bool:
        """Whether `rattle` proves the crate and writes what it builds of it."""
        toolchain = ["--toolchain", f"{kit_folder()}/toolchain"]
        words = ["build", *words_of(crate, self.crates, self.libraries)]
        words += ["--crate-type", "staticlib"] if crate.is_static else []
        words += ["--statements"] if crate.is_library else [*toolchain, "--backend", "llvm"]
        words += ["-o", str(object_of(crate) if crate.is_program else built(crate))]
        # The others leave the processors to the crates for which the longest chains of crates wait.
        polite = [] if is_urgent else ["nice", "-n", "10"]
        rattle = [*polite, f"{kit_folder()}/bin/rattle", *words, "--jobs"]
        status = self.runner.run([*rattle, str(jobs)], crate.folder, log)
        if status == -signal.SIGKILL and jobs > 1:
            # Most likely for memory, of which one process takes less.
            status = self.runner.run([*rattle, "1"], crate.folder, log)
        return status == 0 and "".join(last_lines(log, 1)).startswith("logic=proved ")

    def is_linked(self, crate: Crate, log: Path) -> bool:
        """Whether the program is linked."""
        kit = kit_folder()
        words = [
            f"{kit}/bin/rattle-link",
            "--target",
            TARGET,
            "--toolchain",
            f"{kit}/toolchain",
            "-o",
            str(built(crate)),
        ]
        words += [str(object_of(crate)), f"{kit}/c/libos_c.a", f"{kit}/c/liblibc_c.a"]
        return self.runner.run(words, crate.folder, log) == 0


def object_of(crate: Crate) -> Path:
    return LIBRARIES / crate.name / f"{crate.name}.o"


class Proof:
    """Proves crates and the crates below them."""

    def __init__(self, every: dict[str, Crate], tops: tuple[str, ...], lanes: int):
        tops = tuple(it for it in tops if not is_proved_and_built(below(every, it)))
        crates = below(every, *tops)
        self.tops, self.crates = tops, {crate.name: crate for crate in crates}
        self.sums, self.own_sums = sums_of(crates), {crate.name: crate.sum() for crate in crates}
        self.estimate = Estimate(crates)
        self.processors = len(os.sched_getaffinity(0))
        self.lanes = lanes
        self.prover = Prover(every)
        self.done: set[str] = set()
        for crate in crates:
            if is_current(crate, self.sums[crate.name]) and all(use in self.done for use in crate.uses):
                self.done.add(crate.name)
        self.to_do = [crate.name for crate in crates if crate.name not in self.done]

    def say(self, name: str, seconds: float) -> None:
        number = len(self.crates) - len(self.to_do) + len([it for it in self.to_do if it in self.done])
        rest = set(self.to_do) - self.done
        left = self.estimate.left(set(self.to_do), rest, self.lanes) if rest else 0.0
        tail = f"   about {minutes(left)} left" if rest else ""
        what = "proved" if self.crates[name].is_library else "built "
        print(f"{number:3}/{len(self.crates)}  {name:20} {what} in {seconds:4.0f} s{tail}", flush=True)

    def all(self) -> bool:
        """Proves what is left to prove, and returns whether all of it is proved."""
        # What was proved over a library that is now replaced is proved again, also by a later call if this one is
        # interrupted.
        for name in self.to_do:
            unmark(self.crates[name])
        running: dict[Future[bool], tuple[str, float, int]] = {}
        failed: str | None = None
        with ThreadPoolExecutor(self.lanes) as pool:
            try:
                while not failed and (running or set(self.to_do) - self.done):
                    self.begin(running, pool)
                    for ended in wait(running, return_when=FIRST_COMPLETED).done:
                        name, begun, _ = running.pop(ended)
                        if not ended.result():
                            failed = failed or name
                            continue
                        self.done.add(name)
                        mark(self.crates[name], self.sums[name])
                        self.say(name, time.monotonic() - begun)
            except (KeyboardInterrupt, Interrupted):
                self.prover.runner.stop()
                print("interrupted: what was proved is kept, and the next call goes on from there", file=sys.stderr)
                raise SystemExit(130) from None
            finally:
                if failed:
                    self.prover.runner.stop()
        if failed:
            report(failed)
        return not failed

    def begin(self, running: dict[Future[bool], tuple[str, float, int]], pool: ThreadPoolExecutor) -> None:
        """Starts what can be proved now, the longest chain first."""
        at_work = {name for name, _, _ in running.values()}
        ready = [
            name
            for name in self.to_do
            if name not in self.done and name not in at_work and all(use in self.done for use in self.crates[name].uses)
        ]
        ready.sort(key=self.estimate.chain_from, reverse=True)
        longest = max((self.estimate.chain_from(it) for it in {*ready, *at_work}), default=0.0)
        free = self.lanes - len(running)
        for place, name in enumerate(ready[:free]):
            is_urgent = self.estimate.chain_from(name) >= NEARLY * longest
            idle = self.processors - sum(jobs for _, _, jobs in running.values())
            # An urgent crate may use all processors, since the others give way. Each of these gets one, and the first
            # all idle ones.
            jobs = self.processors if is_urgent else max(1, idle - (min(len(ready), free) - place - 1))
            jobs = min(MOST_JOBS, jobs)
            build = pool.submit(self.prover.build, self.crates[name], jobs, is_urgent, self.own_sums[name])
            running[build] = name, time.monotonic(), jobs


def report(name: str) -> None:
    log = LOGS / f"{name}.log"
    print(f"{name} is not proved. The last lines of {log.relative_to(ROOT)}:", file=sys.stderr)
    for line in last_lines(log, 15):
        print(f"    {line[:300]}", file=sys.stderr)


def free_memory() -> int:
    return int(re.search(r"MemAvailable:\s+(\d+)", Path("/proc/meminfo").read_text())[1]) * 1024


def default_lanes() -> int:
    """As many crates side by side as there are processors and memory for."""
    return max(1, min(len(os.sched_getaffinity(0)), free_memory() // MEMORY_OF_A_LANE))


@contextmanager
def only_run() -> Iterator[None]:
    """Waits until no other call proves in this checkout. SIGTERM then ends what the prover runs, as an interrupt
    does."""
    LOGS.mkdir(parents=True, exist_ok=True)
    with (ROOT / "build" / "lock").open("w") as lock:
        try:
            fcntl.flock(lock, fcntl.LOCK_EX | fcntl.LOCK_NB)
        except BlockingIOError:
            print("waiting for another call that proves in this checkout", file=sys.stderr, flush=True)
            fcntl.flock(lock, fcntl.LOCK_EX)
        signal.signal(signal.SIGTERM, lambda *_: (_ for _ in ()).throw(Interrupted()))
        yield


def prove_all(tops: tuple[str, ...], lanes: int | None = None) -> bool:
    """Proves crates and those below them, as far as they are not proved, and returns whether all are. Prints what it
    does."""
    with only_run():
        proof = Proof(crates_of_repository(), tops, lanes or default_lanes())
        if not proof.to_do:
            return True
        begun = time.monotonic()
        left = proof.estimate.span(set(proof.to_do), proof.lanes)
        print(
            f"proving {len(proof.to_do)} of {len(proof.crates)} crates, {proof.lanes} side by side: about "
            f"{minutes(left)};"
            f" the prover's output is in build/log/",
            flush=True,
        )
        if not proof.all():
            return False
        files = ", ".join(str(built(proof.crates[it]).relative_to(ROOT)) for it in proof.tops)
        print(f"proved and built, in {(time.monotonic() - begun) / 60:.1f} minutes: {files}")
        return True


def prove_over(top: str, libraries: Path) -> bool:
    """Proves and builds one crate over proved libraries that are in another directory, and returns whether it is
    proved."""
    crates = crates_of_repository()
    with only_run():
        is_built = Prover(crates, libraries).build(crates[top], 1)
    if not is_built:
        report(top)
    return is_built


def main() -> int:
    parser = argparse.ArgumentParser(description=__doc__.split("\n")[0])
    parser.add_argument("crate", nargs="?", default="mpslp", help="the crate to prove and build (mpslp)")
    parser.add_argument("--lanes", type=int, default=None, help="how many crates are proved side by side")
    parser.add_argument(
        "--over", type=Path, default=None, help="prove only this crate, over the proved libraries in this directory"
    )
    arguments = parser.parse_args()
    require_kit()
    if arguments.crate not in crates_of_repository():
        parser.error(f"crates.txt has no crate {arguments.crate}")
    if arguments.over:
        return 0 if prove_over(arguments.crate, arguments.over.resolve()) else 1
    return 0 if prove_all((arguments.crate,), arguments.lanes) else 1


if __name__ == "__main__":
    sys.exit(main())
