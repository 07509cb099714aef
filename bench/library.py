#!/usr/bin/env python3
"""Measure the calls of the Python package beside those of the library for C.

    library.py [--files KIND,..] [--sizes 10M,..] [--rounds N] [--python PYTHON]

For each file the calls run in turns, each round in processes of their own: mpslp_load and mpslp_store in C (library.c),
and load, arrays, from_arrays and dumps in Python. The table has the median seconds of each call, the peak of resident
memory by the size of the file, and which part of the time of load other threads of Python could not run.

build/libmpslp.a has to be built, and PYTHON has the package, as the one of `make python-check` in
build/python/bin/python.
"""

import argparse
import os
import statistics
import subprocess
import sys
import tempfile
from pathlib import Path

from turns import KINDS, file_of, listed

HERE = Path(__file__).resolve().parent
ROOT = HERE.parent
PROGRAM = ROOT / "crates" / "mpslp" / "out" / "mpslp"
LIBRARY = ROOT / "build" / "libmpslp.a"

# Run by the Python that has the package, with a path: prints seconds of the calls, the peak, and the part of load in
# which a second thread did not run, by the gaps between its turns.
CALLS = """
import resource, sys, threading, time
import mpslp

path = sys.argv[1]
text = open(path, "rb").read()
format = path.rpartition(".")[2]
LEAST_GAP = 0.001

def timed(call):
    begun = time.perf_counter()
    made = call()
    return time.perf_counter() - begun, made

class Clock(threading.Thread):
    def __init__(self):
        super().__init__()
        self.is_over, self.stopped = False, 0.0
    def run(self):
        last = time.perf_counter()
        while not self.is_over:
            now = time.perf_counter()
            if now - last > LEAST_GAP:
                self.stopped += now - last
            last = now

load, model = timed(lambda: mpslp.load(text, format))
peak = resource.getrusage(resource.RUSAGE_SELF).ru_maxrss * 1024
arrays, made = timed(model.arrays)
back, again = timed(lambda: mpslp.from_arrays(made))
dumps, _ = timed(lambda: mpslp.dumps(model, format))
del again, made, model
clock = Clock()
clock.start()
beside, model = timed(lambda: mpslp.load(text, format))
clock.is_over = True
clock.join()
print(load, arrays, back, dumps, peak, clock.stopped / beside)
"""


def built_library(directory: Path) -> Path:
    """library.c, compiled over the library that is built."""
    program = directory / "library"
    words = [os.environ.get("CC", "cc"), "-O2", f"-I{ROOT / 'include'}", "-o", str(program), str(HERE / "library.c")]
    subprocess.run([*words, str(LIBRARY)], check=True)
    return program


def printed(words: list[str]) -> list[float]:
    """The numbers that a program prints."""
    return [float(word) for word in subprocess.run(words, check=True, capture_output=True, text=True).stdout.split()]


def main() -> None:
    parser = argparse.ArgumentParser(description=__doc__, formatter_class=argparse.RawDescriptionHelpFormatter)
    parser.add_argument(
        "--files", type=listed, default=["thin", "lp", "many-columns"], help="some of " + ", ".join(KINDS)
    )
    parser.add_argument("--sizes", type=listed, default=["10M"])
    parser.add_argument("--rounds", type=int, default=5)
    parser.add_argument(
        "--python", default=str(ROOT / "build" / "python" / "bin" / "python"), help="a Python with the package"
    )
    options = parser.parse_args()
    print(
        "| file | MB | mpslp_load | mpslp_store | memory | load | arrays | from_arrays | dumps | memory | "
        "part of load without others |"
    )
    print("|---|---|---|---|---|---|---|---|---|---|---|")
    with tempfile.TemporaryDirectory() as scratch:
        library = built_library(Path(scratch))
        for size in options.sizes:
            for kind in options.files:
                source = file_of(kind, size, str(PROGRAM))
                form = source.suffix.removeprefix(".")
                rounds = [
                    printed([str(library), form, str(source)]) + printed([options.python, "-c", CALLS, str(source)])
                    for _ in range(options.rounds)
                ]
                load, store, memory, *calls = (statistics.median(column) for column in zip(*rounds, strict=True))
                of_file = source.stat().st_size
                *times, peak, part = calls
                words = [f"{load:.2f}", f"{store:.2f}", f"{memory / of_file:.1f}", *(f"{it:.2f}" for it in times)]
                print(
                    "| "
                    + " | ".join([source.name, f"{of_file / 1e6:.1f}", *words, f"{peak / of_file:.1f}", f"{part:.3f}"])
                    + " |",
                    flush=True,
                )


if __name__ == "__main__":
    sys.exit(main())
