#!/usr/bin/env python3
"""How the time of each command grows with files that were made to be slow.

    growth.py [--sizes 1M,10M] [--kinds KIND,..] [--commands COMMAND,..] [--tools] [--instructions]
    growth.py --names 40000 [--most 1.2] [--instructions]

For each kind of file of hostile.py and each command: the processor time at two sizes, and the second divided by the
first, both without the time of a small file. Ten times the size may take ten times the instructions, and a little more
for sorting, and twice that time, since a large model misses the caches of the processor; quadratic time would be a
hundred times. A ratio above --most is marked, and the exit status is 1. The commands are those of the program, also fed
by a pipe that gives a few bytes at a time, and the libraries for C and Python where they are built; with --tools, those
of mpslp-tools instead.

With --names only names that collide under the fixed seed are tried, so many of them, and the ratio is that to other
names of the same length. The merge gate runs this with few names and a ratio of 3. --instructions counts instructions
under valgrind instead of measuring time.
"""

import argparse
import os
import resource
import subprocess
import sys
import tempfile
from collections.abc import Callable, Iterable, Iterator
from contextlib import suppress
from dataclasses import dataclass, replace
from enum import Enum
from pathlib import Path

from colliding import alike, colliding
from generate import size_in_bytes
from hostile import KINDS, named_as_lp, named_as_mps, of_size
from instructions import COUNTING, counted
from library import LIBRARY, built_library

ROOT = Path(__file__).resolve().parent.parent
PROGRAM = ROOT / "crates" / "mpslp" / "out" / "mpslp"
PYTHON = ROOT / "build" / "python" / "bin" / "python"
NAMED = {"mps": named_as_mps, "lp": named_as_lp}
OTHER = {"mps": "lp", "lp": "mps"}
MOST_OF_NAMES = 3.0
SEED = 1
SMALLEST = 2000
"""The size of a file whose time is that of starting a command."""
PIECE = 5
PIECES_OF_SIZE = 20
"""A file that is fed in pieces is smaller by this factor: each piece is a call of the system."""
CALLS_OF_PYTHON = """
import mpslp, sys
path = sys.argv[1]
model = mpslp.load(path)
mpslp.dumps(model, path.rpartition(".")[2])
mpslp.from_arrays(model.arrays())
mpslp.same(path, path)
"""


class Feeding(Enum):
    """How a command gets a file."""

    BY_PATH = "by its path"
    IN_PIECES = "by a pipe, a few bytes at a time"


@dataclass(frozen=True)
class Command:
    """A command, whose FILE and FORM are those of a file, and TO the other format."""

    name: str
    words: tuple[str, ...]
    feeding: Feeding = Feeding.BY_PATH

    def on(self, file: Path) -> list[str]:
        form = file.suffix.removeprefix(".")
        places = {"FILE": str(file), "FORM": form, "TO": OTHER[form], "PAGE": os.devnull}
        return [places.get(word, word) for word in self.words]

    def size(self, size: int) -> int:
        return size if self.feeding is Feeding.BY_PATH else size // PIECES_OF_SIZE


def written(file: Path, lines: Iterable[str]) -> Path:
    with file.open("w", encoding="ascii") as target:
        target.writelines(lines)
    return file


def commands(program: str, scratch: Path) -> list[Command]:
    """Those of the program, and of the libraries that are built."""
    found = [
        Command("canon", (program, "canon", "FORM", "FORM", "FILE")),
        Command("convert", (program, "canon", "FORM", "TO", "FILE")),
        Command("same", (program, "same", "FORM", "FILE", "FORM", "FILE")),
        Command("show", (program, "show", "FORM", "FILE")),
        Command("pieces", (program, "canon", "FORM", "FORM", "-"), Feeding.IN_PIECES),
    ]
    if LIBRARY.exists():
        found.append(Command("C", (str(built_library(scratch)), "FORM", "FILE")))
    if PYTHON.exists():
        found.append(Command("Python", (str(PYTHON), "-c", CALLS_OF_PYTHON, "FILE")))
    return found


def tools(scratch: Path) -> list[Command]:
    """The commands of mpslp-tools."""
    other = written(scratch / "other.lp", ["min y\nend\n"])
    words = {
        "canon": ("canon", "FILE"),
        "canon --for": ("canon", "--for", "glpsol", "FILE"),
        "canon --diff": ("canon", "--diff", "FILE"),
        "fmt": ("fmt", "FILE"),
        "fmt --diff": ("fmt", "--diff", "FILE"),
        "check": ("check", "FILE"),
        "portable": ("check", "--portable", "--all", "FILE"),
        "same": ("same", "FILE", "FILE"),
        "diff": ("diff", "FILE", str(other)),
        "positions": ("diff", "--by-position", "FILE", "FILE"),
        "show": ("show", "FILE"),
        "digest": ("digest", "FILE"),
        "adapt": ("adapt", "FILE"),
        "adapt --diff": ("adapt", "--diff", "FILE"),
        "survey": ("survey", "FILE"),
        "report": ("report", "-o", "PAGE", "FILE"),
    }
    return [Command(name, (str(PYTHON), "-m", "mpslp", *rest)) for name, rest in words.items()]


# ---- measuring


def feed(file: Path, end: int) -> None:
    """Writes a file to a pipe. Each piece is a packet, which the reader gets by itself."""
    # A command may end before it has read everything.
    with suppress(BrokenPipeError), file.open("rb") as source, open(end, "wb", buffering=0) as pipe:
        while piece := source.read(PIECE):
            pipe.write(piece)


def run(words: list[str], feeding: Feeding, file: Path) -> str:
    """What a command writes to standard error."""
    if feeding is Feeding.BY_PATH:
        done = subprocess.run(
            words, stdin=subprocess.DEVNULL, stdout=subprocess.DEVNULL, stderr=subprocess.PIPE, check=False
        )
        return done.stderr.decode(errors="replace")
    taken, given = os.pipe2(os.O_DIRECT | os.O_CLOEXEC)
    with tempfile.TemporaryFile() as errors:
        with subprocess.Popen(words, stdin=taken, stdout=subprocess.DEVNULL, stderr=errors):
            os.close(taken)
            feed(file, given)
        errors.seek(0)
        return errors.read().decode(errors="replace")


def seconds(command: Command, file: Path) -> float:
    """The processor time of one run."""
    before = resource.getrusage(resource.RUSAGE_CHILDREN)
    run(command.on(file), command.feeding, file)
    after = resource.getrusage(resource.RUSAGE_CHILDREN)
    return after.ru_utime + after.ru_stime - before.ru_utime - before.ru_stime


def instructions(command: Command, file: Path) -> float:
    """How many million instructions one run executes."""
    return counted(run([*COUNTING, *command.on(file)], command.feeding, file)) / 1e6


@dataclass(frozen=True)
class Measure:
    """What is measured of a run, in how many rounds, what is too little to divide by, and how many times as much ten
    times the size may take."""

    unit: str
    of_run: Callable[[Command, Path], float]
    rounds: int
    least: float
    most_growth: float

    def of_files(self, command: Command, files: list[Path]) -> list[float]:
        """The least of several rounds for each file. The files take turns, so that other load affects all alike."""
        runs = [[self.of_run(command, file) for file in files] for _ in range(self.rounds)]
        return [min(of_file) for of_file in zip(*runs)]


SECONDS = Measure("s", seconds, 5, 0.004, 20)
INSTRUCTIONS = Measure("million instructions", instructions, 1, 0.1, 13)


# ---- the two tables


@dataclass(frozen=True)
class Line:
    """A line of a table: what was measured, twice, and how many times the first the second is."""

    words: tuple[str, ...]
    first: float
    second: float
    ratio: float
    most: float

    def is_right(self) -> bool:
        return self.ratio <= self.most

    def __str__(self) -> str:
        mark = "" if self.is_right() else f" more than {self.most:g}"
        return (
            "| "
            + " | ".join((*self.words, f"{self.first:.3f}", f"{self.second:.3f}", f"{self.ratio:.2f}{mark}"))
            + " |"
        )


def print_head(*words: str) -> None:
    print("| " + " | ".join(words) + " |")
    print("|" + "---|" * len(words))


def report(lines: Iterable[Line]) -> bool:
    """Prints the lines, and returns whether no ratio is too large."""
    is_right = True
    for line in lines:
        print(line, flush=True)
        is_right &= line.is_right()
    return is_right


def growths(
    chosen: list[Command], kinds: list[str], sizes: list[int], measure: Measure, most: float, folder: Path
) -> Iterator[Line]:
    """For each kind, format and command, what the two sizes take."""
    for kind in kinds:
        for form, lines in KINDS[kind].items():
            files = {
                size: folder / f"{size}.{form}" for command in chosen for size in map(command.size, (SMALLEST, *sizes))
            }
            for size, file in files.items():
                written(file, of_size(lines, size, SEED))
            for command in chosen:
                start, small, large = measure.of_files(
                    command, [files[command.size(size)] for size in (SMALLEST, *sizes)]
                )
                ratio = (large - start) / max(small - start, measure.least)
                yield Line((kind, form, command.name), small, large, ratio, most)


def collisions(chosen: list[Command], count: int, measure: Measure, most: float, folder: Path) -> Iterator[Line]:
    """For each format and command, what other names and names that collide under the fixed seed take."""
    for form, named in NAMED.items():
        files = [
            written(folder / f"{names.__name__}.{form}", named(names)(count, SEED)) for names in (alike, colliding)
        ]
        for command in chosen:
            if command.feeding is Feeding.BY_PATH:
                other, same = measure.of_files(command, files)
                yield Line(
                    (f"{files[0].stat().st_size / 1e6:.1f}", form, command.name), other, same, same / other, most
                )


def main() -> int:
    parser = argparse.ArgumentParser(description=__doc__, formatter_class=argparse.RawDescriptionHelpFormatter)
    parser.add_argument("--sizes", default="1M,10M", help="two sizes; default 1M,10M")
    parser.add_argument(
        "--most",
        type=float,
        help=(
            f"the greatest ratio allowed; default {SECONDS.most_growth}, {INSTRUCTIONS.most_growth} of "
            f"instructions, and {MOST_OF_NAMES:g} with --names"
        ),
    )
    parser.add_argument("--kinds", default=",".join(KINDS), help="default: all of " + ", ".join(KINDS))
    parser.add_argument("--commands", help="only these, such as canon,show")
    parser.add_argument("--tools", action="store_true", help="the commands of mpslp-tools instead")
    parser.add_argument("--names", type=int, metavar="N", help="only N colliding names, against others")
    parser.add_argument(
        "--instructions", action="store_true", help="count instructions by valgrind instead of measuring time"
    )
    parser.add_argument(
        "--rounds", type=int, help=f"runs of each command and file; default {SECONDS.rounds}, and 1 with --instructions"
    )
    parser.add_argument("--program", default=str(PROGRAM), help="the path of mpslp")
    options = parser.parse_args()
    measure = INSTRUCTIONS if options.instructions else SECONDS
    if options.rounds:
        measure = replace(measure, rounds=options.rounds)
    with tempfile.TemporaryDirectory() as scratch:
        folder = Path(scratch)
        chosen = tools(folder) if options.tools else commands(options.program, folder)
        if options.commands:
            chosen = [command for command in chosen if command.name in options.commands.split(",")]
        if options.names:
            print_head("MB", "format", "command", f"other names, {measure.unit}", f"colliding, {measure.unit}", "ratio")
            lines = collisions(chosen, options.names, measure, options.most or MOST_OF_NAMES, folder)
        else:
            sizes = options.sizes.split(",")
            print_head("kind", "format", "command", *(f"{size}, {measure.unit}" for size in sizes), "ratio")
            lines = growths(
                chosen,
                options.kinds.split(","),
                list(map(size_in_bytes, sizes)),
                measure,
                options.most or measure.most_growth,
                folder,
            )
        return 0 if report(lines) else 1


if __name__ == "__main__":
    sys.exit(main())
