#!/usr/bin/env python3
"""Measure two versions of mpslp and the installed peers in turns.

    turns.py PROGRAM OTHER [--files KIND,..] [--sizes 10M,..] [--rounds N] [--instructions]

Each file is read and written again by every program, one after another, in rounds whose order rotates, so that other
load on the machine affects all alike. The table has, for each file and program, the median over the rounds of the
processor time of that program divided by that of PROGRAM in the same round (above 1: PROGRAM is faster), the same for
wall time, PROGRAM's seconds, and the largest memory of any run, divided by the size of the file. Times of runs in
different rounds are never compared.

A peer that rejects a file, or writes less than an eighth of it, has no time. Files are kept in bench/data/, with the
converter that is compiled of coinutils.cpp, since CoinUtils has no program of its own; it needs g++ and
coinor-libcoinutils-dev.

With --instructions the table has how many million instructions PROGRAM and OTHER execute for each file, by valgrind,
and the second divided by the first. That takes one run of each, and does not depend on other load.
"""

import argparse
import os
import shutil
import signal
import statistics
import subprocess
import sys
import threading
import time
from collections.abc import Iterator
from dataclasses import dataclass
from pathlib import Path

from generate import size_in_bytes
from instructions import instructions
from shapes import SHAPES, SHORTEST

HERE = Path(__file__).resolve().parent
DATA = HERE / "data"
OUTPUT = DATA / "turns-output"

# Kinds of files of generate.py, with its options.
GENERATED = {
    "thin": ("--thin",),
    "thin-shuffled": ("--thin", "--shuffle"),
    "full": ("--minimise",),
    "full-shuffled": ("--minimise", "--shuffle"),
    "lp": ("--lp",),
    "lp-shuffled": ("--lp", "--shuffle"),
}
# The canonical text of a file of this kind.
CANONICAL = {"canonical": "thin", "canonical-lp": "lp"}
CANONICAL_SHAPES = {f"{shape}-lp": shape for shape in SHAPES}
KINDS = (*GENERATED, *CANONICAL, *SHAPES, *CANONICAL_SHAPES, *SHORTEST)
ALWAYS_LP = ("lp", "lp-shuffled", "canonical-lp", "shortest-rows", *CANONICAL_SHAPES)

LEAST_OUTPUT = 1 / 8

# Reads and writes a model by CoinUtils: made of coinutils.cpp where CoinUtils can be compiled with.
COIN, COIN_HEADERS = DATA / "coinutils", Path("/usr/include/coin")


@dataclass(frozen=True)
class Program:
    """A program, and its arguments for reading INPUT and writing OUTPUT; without INPUT it uses its standard streams."""

    name: str
    words: tuple[str, ...]

    def start(self, source: Path) -> "subprocess.Popen[bytes]":
        words = [str(source) if it == "INPUT" else str(OUTPUT) if it == "OUTPUT" else it for it in self.words]
        by_streams = "INPUT" not in self.words
        with open(source if by_streams else os.devnull, "rb") as given, open(
            OUTPUT if by_streams else os.devnull, "wb"
        ) as taken:
            return subprocess.Popen(words, stdin=given, stdout=taken, stderr=subprocess.DEVNULL)


@dataclass(frozen=True)
class Run:
    processor_seconds: float
    wall_seconds: float
    memory: int


def programs(path: str, other: str, source: str, target: str) -> list[Program]:
    """PROGRAM first, then the other version, then the peers that are installed."""
    ours = [
        Program(name, (os.path.abspath(at), "canon", source, target, "-"))
        for name, at in (("mpslp", path), ("other", other))
    ]
    reads = {"mps": "--freemps", "lp": "--lp"}[source]
    writes = {"mps": "--wfreemps", "lp": "--wlp"}[target]
    peers = [Program("glpsol", ("glpsol", reads, "INPUT", "--check", writes, "OUTPUT"))]
    if target == "mps":
        # Without "presolve off" clp writes the presolved model; its format 4 keeps all digits of a double.
        peers.append(
            Program("clp", ("clp", "INPUT", "-presolve", "off", "-outputFormat", "4", "-export", "OUTPUT", "-quit"))
        )
    lp_solve_reads = {"mps": ("-fmps", "INPUT"), "lp": None}[source]
    if lp_solve_reads and target == "mps":
        peers.append(Program("lp_solve", ("lp_solve", "-parse", *lp_solve_reads, "-wfmps", "OUTPUT")))
    peers.append(Program("CoinUtils", (str(COIN), source, "INPUT", target, "OUTPUT")))
    return ours + [peer for peer in peers if shutil.which(peer.words[0])]


def build_coinutils() -> None:
    """Compiles the converter by CoinUtils, if it is missing or older than its source and can be compiled."""
    code = HERE / "coinutils.cpp"
    is_current = COIN.exists() and COIN.stat().st_mtime >= code.stat().st_mtime
    if not is_current and COIN_HEADERS.is_dir() and shutil.which("g++"):
        DATA.mkdir(exist_ok=True)
        subprocess.run(["g++", "-O2", "-I", str(COIN_HEADERS), "-o", str(COIN), str(code), "-lCoinUtils"], check=True)


def run_once(program: Program, source: Path, limit: float) -> Run | None:
    """The run, or None if it failed or wrote too little."""
    OUTPUT.unlink(missing_ok=True)
    begun = time.perf_counter()
    process = program.start(source)
    timer = threading.Timer(limit, process.send_signal, (signal.SIGKILL,))
    timer.start()
    _, status, usage = os.wait4(process.pid, 0)
    timer.cancel()
    wall = time.perf_counter() - begun
    process.returncode = os.waitstatus_to_exitcode(status)
    written = OUTPUT.stat().st_size if OUTPUT.exists() else 0
    if process.returncode != 0 or written < LEAST_OUTPUT * source.stat().st_size:
        return None
    return Run(usage.ru_utime + usage.ru_stime, wall, usage.ru_maxrss * 1024)


def generated(name: str, words: list[str], canonical_in: tuple[str, str, str] | None = None) -> Path:
    """The file of this name in bench/data/, made if it is missing."""
    DATA.mkdir(exist_ok=True)
    path = DATA / name
    if not path.exists():
        part = path.with_name(name + ".part")
        print(f"generating {name}", file=sys.stderr)
        with part.open("wb") as writer:
            subprocess.run([sys.executable, *words], stdout=writer, check=True, cwd=HERE)
        part.replace(path)
    if canonical_in is None:
        return path
    program, source, target = canonical_in
    canonical = path.with_name(f"{path.stem}.canonical.{target}")
    if not canonical.exists():
        with path.open("rb") as reader, canonical.open("wb") as writer:
            subprocess.run([program, "canon", source, target, "-"], stdin=reader, stdout=writer, check=True)
    return canonical


def file_of(kind: str, size: str, program: str) -> Path:
    if kind in CANONICAL:
        base = CANONICAL[kind]
        form = "lp" if kind in ALWAYS_LP else "mps"
        words = ["generate.py", *GENERATED[base], "--size", size, "--seed", "1"]
        return generated(f"{base}-{size}.{form}", words, (program, form, form))
    if kind in CANONICAL_SHAPES:
        shape = CANONICAL_SHAPES[kind]
        return generated(f"{shape}-{size}.mps", ["shapes.py", shape, size], (program, "mps", "lp"))
    form = "lp" if kind in ALWAYS_LP else "mps"
    if kind in GENERATED:
        return generated(f"{kind}-{size}.{form}", ["generate.py", *GENERATED[kind], "--size", size, "--seed", "1"])
    return generated(f"{kind}-{size}.{form}", ["shapes.py", kind, size])


def rounds_of(candidates: list[Program], source: Path, rounds: int, limit: float) -> dict[str, list[Run | None]]:
    """The runs of each program, round by round; one that failed once is left out of later rounds."""
    runs: dict[str, list[Run | None]] = {program.name: [] for program in candidates}
    for number in range(rounds):
        for place in range(len(candidates)):
            program = candidates[(number + place) % len(candidates)]
            own = runs[program.name]
            own.append(None if own and own[-1] is None else run_once(program, source, limit))
    return runs


def rows(source: Path, runs: dict[str, list[Run | None]]) -> Iterator[list[str]]:
    ours = runs["mpslp"]
    size = source.stat().st_size
    for name, own in runs.items():
        pairs = [(mine, its) for mine, its in zip(ours, own) if mine and its]
        if not pairs:
            yield [source.name, f"{size / 1e6:.1f}", name, "-", "-", "-", "-"]
            continue
        processor = statistics.median(its.processor_seconds / mine.processor_seconds for mine, its in pairs)
        wall = statistics.median(its.wall_seconds / mine.wall_seconds for mine, its in pairs)
        seconds = statistics.median(its.processor_seconds for _, its in pairs)
        memory = max(its.memory for _, its in pairs) / size
        yield [
            source.name,
            f"{size / 1e6:.1f}",
            name,
            f"{processor:.2f}",
            f"{wall:.2f}",
            f"{seconds:.2f}",
            f"{memory:.1f}",
        ]


def row_of_instructions(path: str, other: str, source: Path, target: str) -> list[str]:
    form = source.suffix.removeprefix(".")
    ours, its = (
        instructions([os.path.abspath(program), "canon", form, target, str(source)]) / 1e6 for program in (path, other)
    )
    return [source.name, f"{source.stat().st_size / 1e6:.1f}", f"{ours:.1f}", f"{its:.1f}", f"{its / ours:.3f}"]


def print_row(row: list[str]) -> None:
    print("| " + " | ".join(row) + " |", flush=True)


def print_head(*titles: str) -> None:
    print_row(list(titles))
    print("|" + "---|" * len(titles))


def listed(text: str) -> list[str]:
    return text.split(",")


def main() -> None:
    parser = argparse.ArgumentParser(description=__doc__, formatter_class=argparse.RawDescriptionHelpFormatter)
    parser.add_argument("program", help="the program that the others are compared with")
    parser.add_argument("other", help="another version of it")
    parser.add_argument("--files", type=listed, default=list(KINDS), help="some of " + ", ".join(KINDS))
    parser.add_argument("--sizes", type=listed, default=["10M"])
    parser.add_argument("--rounds", type=int, default=9)
    parser.add_argument("--target", choices=("mps", "lp"), help="the format that is written; by default the file's own")
    parser.add_argument("--instructions", action="store_true", help="count instructions instead of measuring time")
    parser.add_argument("--limit", type=float, default=600, help="seconds after which a run is stopped")
    options = parser.parse_args()
    for kind in options.files:
        if kind not in KINDS:
            parser.error(f"unknown kind of file: {kind}")
    for size in options.sizes:
        size_in_bytes(size)
    build_coinutils()
    if options.instructions:
        print_head("file", "MB", "million instructions of mpslp", "of the other version", "ratio")
    else:
        print_head(
            "file",
            "MB",
            "program",
            "processor time, by mpslp's",
            "wall time, by mpslp's",
            "seconds",
            "peak memory, by the file's size",
        )
    for size in sorted(options.sizes, key=size_in_bytes):
        for kind in options.files:
            source = file_of(kind, size, os.path.abspath(options.program))
            form = source.suffix.removeprefix(".")
            target = options.target or form
            if options.instructions:
                print_row(row_of_instructions(options.program, options.other, source, target))
                continue
            candidates = programs(options.program, options.other, form, target)
            for row in rows(source, rounds_of(candidates, source, options.rounds, options.limit)):
                print_row(row)
    OUTPUT.unlink(missing_ok=True)


if __name__ == "__main__":
    main()
