"""No call leaks memory, whatever it returns, and an allocation that fails raises MemoryError."""

import gc
import os
import shutil
import subprocess
import sys
import tempfile
import unittest
from pathlib import Path

import mpslp
from answers import CALLS, WRONG_CALLS, answer_of
from heap import bytes_in_use
from repository import EXAMPLES, large_text

HERE = Path(__file__).resolve().parent
TURNS = 500


def growth(call, turns=TURNS):
    """The bytes that many calls leave in use, after some that fill what Python and malloc keep for later."""
    for _ in range(50):
        call()
    gc.collect()
    before = bytes_in_use()
    for _ in range(turns):
        call()
    gc.collect()
    return bytes_in_use() - before


class Memory(unittest.TestCase):
    # Eight for each call: no block is as small.
    MOST = 8 * TURNS

    def test_each_way_out_of_the_extension(self):
        for name, call in (CALLS | WRONG_CALLS).items():
            with self.subTest(name):
                self.assertLess(growth(lambda: answer_of(call)), self.MOST)

    def test_paths_and_buffers(self):
        text = bytearray((EXAMPLES / "small.mps").read_bytes())
        for name, call in {
            "a path": lambda: mpslp.canonical(EXAMPLES / "small.mps"),
            "a path that does not open": lambda: mpslp.canonical("none.mps"),
            "a buffer": lambda: mpslp.canonical(text, "mps"),
            "a wrong format": lambda: mpslp.canonical(text, "qps"),
            "a wrong source": lambda: mpslp.canonical(7, "mps"),
        }.items():
            with self.subTest(name):
                self.assertLess(growth(lambda: answer_of(call)), self.MOST)

    def test_large_texts(self):
        text = large_text(5000)
        self.assertLess(growth(lambda: mpslp.canonical(text, "mps"), turns=50), self.MOST)


class Checked(unittest.TestCase):
    @unittest.skipUnless(shutil.which("valgrind"), "there is no valgrind")
    def test_valgrind_has_nothing_to_report(self):
        # Of accesses only: at its end Python itself has blocks that nothing points to.
        tool = ["valgrind", "-q", "--error-exitcode=9", "--leak-check=no"]
        done = subprocess.run(
            [*tool, sys.executable, HERE / "answers.py"],
            env={**os.environ, "PYTHONMALLOC": "malloc"},
            capture_output=True,
            text=True,
        )
        self.assertEqual((done.returncode, done.stderr), (0, ""))


class FailingAllocations(unittest.TestCase):
    @unittest.skipUnless(shutil.which("cc"), "there is no C compiler")
    def test_each_request_for_memory_fails_in_turn(self):
        with tempfile.TemporaryDirectory() as folder:
            library = Path(folder) / "refuse.so"
            subprocess.run(["cc", "-O2", "-fPIC", "-shared", "-o", library, HERE / "refuse.c"], check=True)
            for allocator in ("pymalloc", "malloc"):
                with self.subTest(allocator):
                    variables = {"LD_PRELOAD": str(library), "PYTHONMALLOC": allocator}
                    done = subprocess.run(
                        [sys.executable, HERE / "failing_allocations.py"],
                        env={**os.environ, **variables},
                        capture_output=True,
                        text=True,
                    )
                    self.assertEqual((done.returncode, done.stderr), (0, ""))
                    # Where the library has no memory, the call says so.
                    raised = [
                        int(line.split()[-3]) for line in done.stdout.splitlines() if line.startswith("canonical")
                    ]
                    self.assertGreater(min(raised), 0)


if __name__ == "__main__":
    unittest.main()
