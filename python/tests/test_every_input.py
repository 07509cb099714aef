"""No command ends with a traceback, whatever it reads, and wherever its output goes.

Each command runs on each file of vectors/ and on random ones: in this process, which is fast, and on some of them in
processes of their own with closed and full outputs, and with variables of Python that change its streams.
MPSLP_RANDOM_FILES is the number of random files.
"""

import io
import os
import random
import shutil
import signal
import subprocess
import sys
import unittest
from contextlib import suppress
from functools import lru_cache
from unittest import mock

from mpslp import _main
from repository import EXAMPLES, VECTORS, form_of, model_files
from test_tools import TOOLS, Directory

from shared import models, mutations, spellings

RANDOM_FILES = int(os.environ.get("MPSLP_RANDOM_FILES", "100"))
SMALL = str(EXAMPLES / "small.mps")
COMMANDS = (
    ["canon"],
    ["canon", "-t", "mps"],
    ["canon", "-t", "lp"],
    ["canon", "-i"],
    ["canon", "-o", "out.lp"],
    ["canon", "-Werror"],
    ["canon", "--diff"],
    ["canon", "--out-dir", "out", "-t", "lp"],
    ["canon", "-q", "--for", "glpsol", "--out-dir", "out"],
    ["canon", "mps", "lp"],
    ["canon", "lp", "mps"],
    ["canon", "-t", "lp", "--rename"],
    ["canon", "--names-back"],
    ["fmt"],
    ["fmt", "-i"],
    ["fmt", "--check"],
    ["fmt", "--diff"],
    ["check"],
    ["check", "--portable"],
    ["check", "--json"],
    ["check", "--portable", "--json"],
    ["check", "-q", "-j", "2", SMALL],
    ["same", SMALL],
    ["same", "-q", SMALL],
    ["same", "mps", SMALL, "lp"],
    ["diff", SMALL],
    ["diff", "--digits", "3", "--by-position", SMALL],
    ["diff", "--json", SMALL],
    ["diff", os.devnull],
    ["show"],
    ["show", "mps"],
    ["show", SMALL],
    ["digest"],
    ["digest", "--json"],
    ["explain"],
    ["adapt"],
    ["adapt", "--dry-run"],
    ["adapt", "-i"],
    ["adapt", "--diff"],
    ["adapt", "--json", "--summary"],
    ["adapt", "--out-dir", "out", "--from", "pulp", SMALL],
    ["adapt", "--summary"],
    ["survey"],
    ["survey", "--from", "lp_solve", "--csv"],
    ["survey", "--json"],
    ["report"],
    ["report", SMALL],
    ["report", "--json"],
    ["report", "--json", "--digits", "3", SMALL],
    ["report", "--out-dir", "out"],
)
STATUSES = {0, 1, 2, 3, 4}
ENVIRONMENTS = (
    {},
    {"PYTHONUNBUFFERED": "1"},
    {"PYTHONIOENCODING": "ascii"},
    {"PYTHONIOENCODING": "utf-16", "PYTHONUNBUFFERED": "1"},
    {"LC_ALL": "C", "PYTHONUTF8": "0"},
)
OUTPUTS = (
    "",
    ">/dev/full",
    ">&-",
    "2>/dev/full",
    "2>&-",
    ">&- 2>&-",
    ">/dev/full 2>/dev/full",
    "<&-",
    "| true",
    "2>&1 | true",
)
BYTES = b"\0\t\n\r \x1a*\\'\"-+<>=:;,.[]^0123456789eExXyYRUBNLGOIMF\x80\xff"


def random_texts(count):
    """Models in random spellings, the same with mistakes, texts put together of words, and bytes."""
    source = random.Random(20)
    vectors = model_files(VECTORS)
    for number in range(count):
        form = source.choice(("mps", "lp"))
        sort = number % 4
        if sort == 0:
            yield form, source.randbytes(source.randrange(60)) if source.random() < 0.3 else bytes(
                source.choices(BYTES, k=source.randrange(300))
            )
        elif sort == 1:
            yield form, mutations.assembled(source, form)
        elif sort == 2:
            path = source.choice(vectors)
            yield form_of(path), mutations.mutated(source, form_of(path), path.read_bytes()[:20000])
        else:
            model = models.drawn_model(source)
            text = {"mps": spellings.mps_text, "lp": spellings.lp_text}[form](source, model)
            yield form, mutations.mutated(source, form, text) if source.random() < 0.6 else text


class EveryInput(Directory):
    def setUp(self):
        super().setUp()
        once = mock.patch.object(_main, "parser", lru_cache(_main.parser))  # to make it takes longer than most commands
        once.start()
        self.addCleanup(once.stop)

    def run_quietly(self, words):
        """The status of the command in this process; a traceback is an exception here."""
        streams = [io.TextIOWrapper(io.BytesIO(), "utf-8", "surrogateescape", write_through=True) for _ in range(3)]
        with mock.patch.multiple(sys, stdin=streams[0], stdout=streams[1], stderr=streams[2]):
            try:
                return int(_main.main(words, "mpslp-tools"))
            except SystemExit as ended:
                return ended.code

    def try_all(self, name, text):
        for command in COMMANDS:
            self.file(name, text)
            with self.subTest(command, name=name, text=text):
                self.assertIn(self.run_quietly([*command, *([] if command == ["explain"] else [name])]), STATUSES)
        with suppress(FileNotFoundError):
            os.unlink("out.lp")
        shutil.rmtree("out", ignore_errors=True)

    def test_vectors(self):
        for path in model_files(VECTORS):
            if path.stat().st_size < 100000:
                self.try_all(path.name, path.read_bytes())
                os.unlink(path.name)

    def test_random_files(self):
        for number, (form, text) in enumerate(random_texts(RANDOM_FILES)):
            self.try_all(f"a.{form}", text)

    def test_outputs_and_variables(self):
        """A status of the command, of a signal of a closed pipe, or of none; and no traceback."""
        source = random.Random(21)
        texts = [
            ("mps", (EXAMPLES / "semi.mps").read_bytes()),
            ("lp", b"min x y\nend\n"),
            ("lp", "min gr\u00f6\u00dfe\nend\n".encode()),
            ("mps", b"*SENSE:Max\nROWS\n N C\nCOLUMNS\n X C 1\nENDATA\n"),
        ]
        runs = [
            (command, environment, output) for command in COMMANDS for environment in ENVIRONMENTS for output in OUTPUTS
        ]
        for command, environment, output in source.sample(runs, min(len(runs), RANDOM_FILES // 2)):
            form, text = source.choice(texts)
            name = f"\u00e9.{form}"
            self.file(name, text)
            words = " ".join(map(str, [*TOOLS, *command, *([] if command == ["explain"] else [name])]))
            script = f"({words}; echo $? > status) {output}" if "|" in output else f"{words} {output}; echo $? > status"
            done = subprocess.run(
                ["sh", "-c", script],
                cwd=self.folder,
                capture_output=True,
                env={**os.environ, **environment},
                timeout=600,
            )
            status = int((self.folder / "status").read_text())
            with self.subTest(command, environment=environment, output=output, text=text):
                self.assertIn(status, STATUSES | {128 + signal.SIGPIPE})
                self.assertNotIn(b"Traceback", done.stderr + done.stdout)
                self.assertNotIn(b"Exception ignored", done.stderr + done.stdout)
                if output == ">/dev/full" and command[-1] in ("show", "explain", "--json") and status != 2:
                    self.assertEqual(status, 4)

    def test_an_output_that_fails_is_said(self):
        """What reads a model and prints something ends with 4, in each of the environments."""
        for environment in ENVIRONMENTS[:3]:
            for words in (
                ["canon", SMALL],
                ["show", SMALL],
                ["same", SMALL, SMALL],
                ["digest", SMALL],
                ["survey", SMALL],
                ["report", SMALL],
            ):
                for output in (">/dev/full", ">&-"):
                    done = subprocess.run(
                        ["sh", "-c", f"exec {' '.join([*TOOLS, *words])} {output}"],
                        cwd=self.folder,
                        stderr=subprocess.PIPE,
                        env={**os.environ, **environment},
                        timeout=600,
                    )
                    self.assertEqual(done.returncode, 4, (words, output, environment, done.stderr))
                    self.assertRegex(done.stderr, rb"^standard output: [^\n]+\n$")


if __name__ == "__main__":
    unittest.main()
