"""Interrupts of mpslp-tools while it starts: one line, and the exit status 130, whatever is being imported."""

import re
import signal
import subprocess
import sys
import time
import unittest

from repository import EXAMPLES, ROOT

SCRIPT = ROOT / "release" / "mpslp-tools"
WORDS = ("check", str(EXAMPLES / "small.mps"))
LINE = b"mpslp-tools: interrupted\n"

# Interrupts itself when so many modules were asked for after mpslp_tools.
INTERRUPTED_AT = """
import os, sys
import mpslp_tools
left = int(sys.argv.pop(1))
def count(event, arguments):
    global left
    left -= event == "import"
    if left == 0 and event == "import":
        os.kill(os.getpid(), 2)
sys.addaudithook(count)
sys.exit(mpslp_tools.run("mpslp-tools"))
"""

# A class that raises RuntimeError for an interrupt while it is made, up to Python 3.11.
INTERRUPTED_CLASS = """
import sys, types
import mpslp_tools
class Part:
    def __set_name__(self, owner, name):
        raise KeyboardInterrupt
def run(prog):
    class Whole:
        part = Part()
main = sys.modules["mpslp._main"] = types.ModuleType("mpslp._main")
main.run = run
sys.exit(mpslp_tools.run())
"""


def takes_interrupts():
    """A shell's command in the background, as the tests may be, ignores them."""
    signal.signal(signal.SIGINT, signal.SIG_DFL)


class Interrupts(unittest.TestCase):
    def run_code(self, code, *words):
        return subprocess.run(
            [sys.executable, "-c", code, *words], capture_output=True, timeout=600, preexec_fn=takes_interrupts
        )

    def test_imports(self):
        moment, done = 1, None
        while done is None or done.returncode == 130:
            done = self.run_code(INTERRUPTED_AT, str(moment), *WORDS)
            with self.subTest(moment):
                self.assertIn((done.returncode, done.stderr), ((130, LINE), (1, b"")))
            moment += 1 if moment < 10 else 15
        self.assertGreater(moment, 50)

    def test_classes_that_are_being_made(self):
        done = self.run_code(INTERRUPTED_CLASS)
        self.assertEqual((done.returncode, done.stderr), (130, LINE))

    def test_moments(self):
        """The start of Python has its own messages, which name no module of the command. Once it may be in a callback
        of Python, which prints the interrupt itself."""
        others = []
        for moment in range(0, 300, 10):
            running = subprocess.Popen(
                [sys.executable, str(SCRIPT), *WORDS],
                stdout=subprocess.PIPE,
                stderr=subprocess.PIPE,
                preexec_fn=takes_interrupts,
            )
            time.sleep(moment / 1000)
            running.send_signal(signal.SIGINT)
            _, error = running.communicate(timeout=600)
            if (error == LINE) != (running.returncode == 130) or re.search(rb"mpslp_tools|mpslp/_", error):
                others.append((moment, running.returncode, error))
        self.assertLessEqual(len(others), 1, others)

    def test_closed_standard_error(self):
        for redirected in ("2>&-", "2>/dev/full"):
            done = subprocess.run(
                ["sh", "-c", f'exec "$@" {redirected}', "sh", sys.executable, "-c", INTERRUPTED_AT, "5", *WORDS],
                timeout=600,
                preexec_fn=takes_interrupts,
            )
            self.assertEqual(done.returncode, 130, redirected)


if __name__ == "__main__":
    unittest.main()
