#!/usr/bin/env python3
"""Compare mpslp with other programs that read and write MPS and LP files.

Each program reads a generated file and writes the same model again, without
solving it; with --read it only reads the file. Files are MPS, or LP if --source
or --target say so. The table has the least wall time of some runs, how many
times as fast mpslp is as each other program, and the largest resident memory of
any run, also by the size of the file. The runs of a file's programs take turns,
so that other load on the machine affects all of them. Below the table, for each
file of several sizes, it says whether the time of mpslp grows as the file does.
Files are kept in bench/data/.
"""

import argparse
import os
import resource
import shutil
import signal
import subprocess
import sys
import threading
import time
from pathlib import Path

from generate import size_in_bytes
from hostile import ACCEPTED

HERE = Path(__file__).resolve().parent
DATA = HERE / "data"
FORMATS = ("mps", "lp")
GENERATOR = HERE / "generate.py"
SOURCES = (GENERATOR, HERE / "hostile.py", HERE / "colliding.py", HERE / "literals.py")
CRATES = HERE.parent / "crates"
DEFAULT_PROGRAM = CRATES / "mpslp" / "out" / "mpslp"
DEFAULT_READER = CRATES / "try_library" / "out" / "try_library"

# The full kinds leave out OBJSENSE, which glpsol does not read.
KINDS = {
    "thin": ("--thin",),
    "thin-shuffled": ("--thin", "--shuffle"),
    "full": ("--minimise",),
    "full-shuffled": ("--minimise", "--shuffle"),
}


OURS = "mpslp"
# The time of mpslp grows at most so many times if the file grows ten times: more misses the caches.
MOST_GROWTH = 14


def output_path():
    return DATA / "output"


class Program:
    """A program, and its arguments for reading the input and writing the output."""

    def __init__(self, name, path, words, by_streams=False):
        self.name = name
        self.path = path
        self.words = words
        self.by_streams = by_streams

    def command(self, source):
        return [self.path] + [str(source) if word == "INPUT" else word for word in self.words]

    def start(self, source):
        if not self.by_streams:
            return subprocess.Popen(
                self.command(source), stdin=subprocess.DEVNULL, stdout=subprocess.DEVNULL, stderr=subprocess.DEVNULL
            )
        with open(source, "rb") as reader, open(output_path(), "wb") as writer:
            return subprocess.Popen(self.command(source), stdin=reader, stdout=writer, stderr=subprocess.DEVNULL)


# The options of glpsol for files of each format.
GLPSOL_READS = {"mps": "--freemps", "lp": "--lp"}
GLPSOL_WRITES = {"mps": "--wfreemps", "lp": "--wlp"}


def programs(path_of_ours, source, target):
    output = str(output_path())
    chosen = [
        Program(OURS, found(path_of_ours), ("canon", source, target, "-"), by_streams=True),
        Program("glpsol", found("glpsol"), (GLPSOL_READS[source], "INPUT", "--check", GLPSOL_WRITES[target], output)),
    ]
    if target == "mps":
        # It writes no LP. Without "presolve off" clp writes the presolved model.
        # Its format 4 keeps all digits of a double; its usual one keeps fewer.
        chosen.append(
            Program(
                "clp", found("clp"), ("INPUT", "-presolve", "off", "-outputFormat", "4", "-export", output, "-quit")
            )
        )
    return chosen


def readers(path_of_ours, source):
    own_words = ("read", "lp") if source == "lp" else ("read",)
    return [
        Program(OURS, found(path_of_ours), own_words, by_streams=True),
        Program("glpsol", found("glpsol"), (GLPSOL_READS[source], "INPUT", "--check"), by_streams=True),
        Program("clp", found("clp"), ("INPUT", "-quit"), by_streams=True),
    ]


def found(name):
    """The program's whole path, or None if it is missing."""
    path = shutil.which(str(name))
    return os.path.abspath(path) if path else None


class Result:
    def __init__(self, seconds, memory_bytes, failure):
        self.seconds = seconds
        self.memory_bytes = memory_bytes
        self.failure = failure


def run_once(program, source, limit):
    output_path().unlink(missing_ok=True)
    start = time.perf_counter()
    process = program.start(source)
    timer = threading.Timer(limit, process.kill)
    timer.start()
    _, status, usage = os.wait4(process.pid, 0)
    timer.cancel()
    seconds = time.perf_counter() - start
    process.returncode = os.waitstatus_to_exitcode(status)
    failure = failure_of(process.returncode)
    if process.returncode == -signal.SIGKILL and seconds >= limit:
        failure = f"stopped after {limit} s"
    return Result(seconds, usage.ru_maxrss * 1024, failure)


def failure_of(code):
    if code < 0:
        return f"stopped by signal {-code}"
    if code > 0:
        return f"failed with status {code}"
    # clp also returns 0 for a file that it rejects, but then it writes none.
    output = output_path()
    if not output.exists() or output.stat().st_size == 0:
        return "wrote nothing"
    return None


def best_of(candidates, source, runs, limit):
    """The result of each program: its least time and its most memory, or its first failure."""
    results = {program.name: [] for program in candidates}
    for _ in range(runs):
        for program in candidates:
            own = results[program.name]
            if not (own and own[-1].failure):
                own.append(run_once(program, source, limit))
    return {name: together(own) for name, own in results.items()}


def together(results):
    if results[-1].failure:
        return results[-1]
    least = min(result.seconds for result in results)
    most = max(result.memory_bytes for result in results)
    return Result(least, most, None)


def generated(name, words):
    """The cached file of this name, made anew if the generator has changed."""
    DATA.mkdir(exist_ok=True)
    path = DATA / name
    newest_source = max(source.stat().st_mtime for source in SOURCES)
    if path.exists() and path.stat().st_mtime > newest_source:
        return path
    print(f"generating {path.name}", file=sys.stderr)
    # Under another name first, so that a stopped run leaves no half file. In another
    # process, because otherwise the memory of this one would be counted as that of
    # each program it starts.
    part = path.with_name(path.name + ".part")
    with open(part, "wb") as writer:
        subprocess.run([sys.executable, str(GENERATOR), *words], stdout=writer, check=True)
    part.replace(path)
    return path


def read_once(path):
    """Brings the file into the system's cache: disks are not measured."""
    with open(path, "rb") as reader:
        while reader.read(1 << 20):
            pass


def table_line(source, program, result, ours):
    size = source.stat().st_size
    fields = [source.stem, f"{size / 1e6:.1f}", program.name]
    if result.failure:
        fields += [result.failure, "", "", "", ""]
    else:
        fields += [
            f"{result.seconds:.2f}",
            f"{size / 1e6 / result.seconds:.1f}",
            ratio_text(result, ours),
            memory_text(result.memory_bytes),
            f"{result.memory_bytes / size:.1f}",
        ]
    return "| " + " | ".join(fields) + " |"


def ratio_text(result, ours):
    """How many times as fast mpslp is."""
    if ours is None or ours.failure or ours is result:
        return ""
    return f"{result.seconds / ours.seconds:.1f}"


def memory_text(size):
    """A program's peak memory includes that of this one, which starts it, so smaller values cannot be measured."""
    own = resource.getrusage(resource.RUSAGE_SELF).ru_maxrss * 1024
    text = f"{size / 1e6:.0f}"
    return text if size > own else "at most " + text


def compare(sources, candidates, runs, limit):
    """Prints the table, and returns the seconds of mpslp by shape and size."""
    print("| file | MB | program | seconds | MB/s | mpslp is faster by | peak memory, MB | by the file's size |")
    print("|---|---|---|---|---|---|---|---|")
    seconds = {}
    for shape, size, words in sources:
        ending = "lp" if "--lp" in words else "mps"
        source = generated(f"{shape}-{size}-seed-{words[-1]}.{ending}", words)
        read_once(source)
        results = best_of(candidates, source, runs, limit)
        ours = results.get(OURS)
        for program in candidates:
            print(table_line(source, program, results[program.name], ours), flush=True)
        if ours and not ours.failure:
            seconds.setdefault(shape, []).append((source.stat().st_size, ours.seconds))
    output_path().unlink(missing_ok=True)
    return seconds


def print_growth(seconds):
    """Whether ten times the file takes at most MOST_GROWTH times the time."""
    for shape, measured in seconds.items():
        for (small, before), (large, after) in zip(measured, measured[1:]):
            times, growth = large / small, after / before
            word = "linear" if growth <= times * MOST_GROWTH / 10 else "not linear"
            print(f"{shape}: {times:.1f} times the bytes take {growth:.1f} times the time: {word}")


def present(candidates):
    for program in candidates:
        if program.path is None:
            print(f"{program.name} is not there: left out", file=sys.stderr)
    return [program for program in candidates if program.path]


def wanted_files(options):
    """Shapes and sizes of files, and the generator's arguments for them."""
    as_lp = ("--lp",) if options.source == "lp" else ()
    if options.hostile:
        shapes = {name: ("--hostile", name, *as_lp) for name in sorted(ACCEPTED)}
    elif as_lp:
        shapes = {"thin": as_lp}
    else:
        shapes = {kind: KINDS[kind] for kind in options.kinds}
    return [
        (name, size, words + ("--size", size, "--seed", str(options.seed)))
        for name, words in shapes.items()
        for size in sorted(options.sizes, key=size_in_bytes)
    ]


def listed(text):
    return text.split(",")


def arguments():
    parser = argparse.ArgumentParser(description=__doc__, formatter_class=argparse.RawDescriptionHelpFormatter)
    parser.add_argument("--sizes", type=listed, default=["10M"], help="as 10M,100M; default 10M")
    parser.add_argument(
        "--kinds",
        type=listed,
        default=["thin", "full", "thin-shuffled"],
        help="some of " + ", ".join(KINDS) + "; default thin,full,thin-shuffled",
    )
    parser.add_argument("--hostile", action="store_true", help="the hostile files in place of the kinds")
    parser.add_argument(
        "--source",
        choices=FORMATS,
        default="mps",
        help="the format that is read; of lp there is one kind, thin, whose size is that "
        "of the same model as MPS, and the hostile files",
    )
    parser.add_argument("--target", choices=FORMATS, default="mps", help="the format that is written")
    parser.add_argument("--seed", type=int, default=1)
    parser.add_argument("--runs", type=int, default=5)
    parser.add_argument("--limit", type=int, default=600, help="seconds after which a run is stopped")
    parser.add_argument("--read", action="store_true", help="read files, and write none")
    parser.add_argument("--program", default=DEFAULT_PROGRAM, help="the path of mpslp")
    parser.add_argument("--reader", default=DEFAULT_READER, help="the path of try_library")
    options = parser.parse_args()
    check(parser, options)
    return options


def check(parser, options):
    for kind in options.kinds:
        if kind not in KINDS:
            parser.error(f"unknown kind: {kind}")
    for size in options.sizes:
        try:
            size_in_bytes(size)
        except ValueError:
            parser.error(f"not a size: {size}")
    if options.runs < 1:
        parser.error("at least one run is needed")


def main():
    options = arguments()
    if options.read:
        candidates = readers(options.reader, options.source)
    else:
        candidates = programs(options.program, options.source, options.target)
    print_growth(compare(wanted_files(options), present(candidates), options.runs, options.limit))


if __name__ == "__main__":
    main()
