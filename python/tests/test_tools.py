"""The command mpslp-tools: what it prints, its exit statuses, and files that it rewrites."""

import gzip
import io
import os
import pty
import re
import resource
import shutil
import signal
import stat
import subprocess
import sys
import tempfile
import time
import unittest
from contextlib import suppress
from pathlib import Path
from unittest import mock

import mpslp
from mpslp import _main
from repository import EXAMPLES, ROOT, VECTORS, large_text, model_files
from test_load import entries

from shared import independent_reader

TOOLS = [sys.executable, "-m", "mpslp"]
SMALL = (EXAMPLES / "small.mps").read_bytes()
CANONICAL = (EXAMPLES / "small.canonical.mps").read_bytes()
CANONICAL_LP = (EXAMPLES / "small.canonical.lp").read_bytes()
BROKEN = b"min x y\nend\n"


def read_to_the_end(terminal):
    """What was written to a terminal whose other end is closed. The kernel hands it on in pieces, and then reports an
    error."""
    pieces = []
    with suppress(OSError):
        while piece := os.read(terminal, 10000):
            pieces.append(piece)
    os.close(terminal)
    return b"".join(pieces)


MORE_OF_A_MESSAGE = re.compile(r"^(?: +\d+ \| .*| +\| [ ^]+|  cause: .+|  fix: .+(?:\n    .+)*)\n", re.M)


def first_lines(error):
    """What is printed on standard error, with the first line only of each message about a rejected file; test_messages
    has the rest."""
    text = os.fsdecode(error) if isinstance(error, bytes) else error
    return os.fsencode(MORE_OF_A_MESSAGE.sub("", text)) if isinstance(error, bytes) else MORE_OF_A_MESSAGE.sub("", text)


class Directory(unittest.TestCase):
    """Tests that have a directory of their own."""

    def setUp(self):
        # In memory if that is possible: on a busy disk it may take minutes until a file is written.
        folder = tempfile.TemporaryDirectory(dir="/dev/shm" if os.access("/dev/shm", os.W_OK) else None)
        self.addCleanup(folder.cleanup)
        self.folder = Path(folder.name)
        self.addCleanup(os.chdir, os.getcwd())
        os.chdir(self.folder)

    def file(self, name, content=SMALL):
        path = self.folder / name
        path.parent.mkdir(parents=True, exist_ok=True)
        path.write_bytes(content)
        return path

    def run_tools(self, *words, content=b""):
        """What the command prints, and its exit status, in this process."""
        streams = [
            io.TextIOWrapper(io.BytesIO(each), "utf-8", "surrogateescape", newline="", write_through=True)
            for each in (content, b"", b"")
        ]
        with mock.patch.multiple(sys, stdin=streams[0], stdout=streams[1], stderr=streams[2]):
            try:
                status = int(_main.main([str(word) for word in words], "python3 -m mpslp"))
            except SystemExit as ended:
                status = ended.code
        return subprocess.CompletedProcess(words, status, *(stream.buffer.getvalue() for stream in streams[1:]))

    def run_process(self, *words, **options):
        """The same in a process of its own."""
        return subprocess.run([*TOOLS, *map(str, words)], capture_output=True, cwd=self.folder, timeout=600, **options)

    def begun(self, *words, **options):
        """The command, which takes interrupts also where the tests run in the background of a shell, which ignores
        them."""
        return subprocess.Popen(
            [*TOOLS, *words],
            cwd=self.folder,
            stdout=subprocess.PIPE,
            stderr=subprocess.PIPE,
            preexec_fn=lambda: signal.signal(signal.SIGINT, signal.SIG_DFL),
            **options,
        )

    def opened_as_reader_is_there(self, name):
        """The end of a pipe that is written to, once its other end is open."""
        for _ in range(600):
            try:
                return os.open(name, os.O_WRONLY | os.O_NONBLOCK)
            except OSError:
                time.sleep(0.1)
        raise AssertionError(f"nobody reads {name}")

    def prints(self, words, status, output="", error="", content=b""):
        done = self.run_tools(*words, content=content)
        found = done.returncode, os.fsdecode(done.stdout), first_lines(os.fsdecode(done.stderr))
        self.assertEqual(found, (status, output, error), words)

    def leaves(self, **files):
        """The directory has these files, and no other ones."""
        self.assertEqual(
            {path.name: path.read_bytes() for path in self.folder.iterdir()},
            {name.replace("_", "."): text for name, text in files.items()},
        )


class Canon(Directory):
    def test_one_file(self):
        self.file("a.mps")
        for words, wanted in (
            (["a.mps"], CANONICAL),
            (["a.mps", "-t", "lp"], CANONICAL_LP),
            (["-o", "-", "a.mps"], CANONICAL),
            (["-", "-f", "mps"], CANONICAL),
            (["-", "-f", "mps", "-t", "lp"], CANONICAL_LP),
        ):
            self.prints(["canon", *words], 0, wanted.decode(), content=SMALL)
        self.leaves(a_mps=SMALL)

    def test_another_file(self):
        self.file("a.mps")
        for name, wanted in (("b.mps", CANONICAL), ("b.lp", CANONICAL_LP), ("b", CANONICAL), ("a.mps", CANONICAL)):
            self.prints(["canon", "a.mps", "-o", name], 0)
            self.assertEqual((self.folder / name).read_bytes(), wanted)
        self.prints(["canon", "a.mps", "-o", "b.txt", "--to", "lp"], 0)
        self.assertEqual((self.folder / "b.txt").read_bytes(), CANONICAL_LP)
        self.prints(["canon", "a.mps", "-o", "b.lp.gz"], 0)
        self.assertEqual(gzip.decompress((self.folder / "b.lp.gz").read_bytes()), CANONICAL_LP)

    def test_another_file_that_is_a_device(self):
        self.file("a.mps")
        self.assertEqual(self.run_process("canon", "a.mps", "-o", "/dev/stdout").stdout, CANONICAL)
        self.prints(["canon", "a.mps", "-o", "/dev/full"], 4, error="/dev/full: No space left on device\n")
        self.assertTrue(stat.S_ISCHR(os.stat("/dev/full").st_mode))

    def test_the_mode_of_a_new_file(self):
        self.file("a.mps")
        old = os.umask(0o027)
        try:
            self.prints(["canon", "a.mps", "-o", "b.mps"], 0)
        finally:
            os.umask(old)
        self.assertEqual(stat.S_IMODE((self.folder / "b.mps").stat().st_mode), 0o640)

    def test_no_text_leaves_the_file(self):
        self.file("a.lp", BROKEN)
        self.file("names.mps", b"ROWS\n N  C\nCOLUMNS\n    x[1]  C  1\nENDATA\n")
        for words, error in (
            (["a.lp", "-o", "b.lp"], "a.lp:1: BadToken: y\n"),
            (["names.mps", "-o", "b.lp"], "names.mps: NotLp: column x[1]\n"),
            (["a.lp"], "a.lp:1: BadToken: y\n"),
            (["names.mps", "-t", "lp"], "names.mps: NotLp: column x[1]\n"),
        ):
            self.file("b.lp", b"old")
            self.prints(["canon", *words], 2, error=error)
            self.assertEqual((self.folder / "b.lp").read_bytes(), b"old")

    def test_usage(self):
        self.file("a.mps")
        for words in (
            ["a.mps", "a.mps"],
            ["."],
            ["-i", "-", "-f", "mps"],
            ["-i", "-t", "lp", "a.mps"],
            ["-i", "-o", "b", "a.mps"],
            [],
            ["-j", "0", "a.mps"],
            ["-t", "qps", "a.mps"],
        ):
            done = self.run_tools("canon", *words)
            self.assertEqual((done.returncode, done.stdout), (3, b""), words)
            self.assertIn(b"error: ", done.stderr)
        self.leaves(a_mps=SMALL)


class InPlace(Directory):
    def test_all_models(self):
        """Every file of examples/ and vectors/ in one directory: those that are rejected stay, the others become
        canonical."""
        answers = {entry.input: entry.answer for entry in entries()}
        for path in [*model_files(EXAMPLES), *model_files(VECTORS)]:
            shutil.copy(path, self.folder)
        before = {path.name: path.read_bytes() for path in self.folder.iterdir()}
        changed, errors = [], []
        for name, text in sorted(before.items()):
            try:
                if not mpslp.is_canonical(text, name.rsplit(".")[-1]):
                    changed.append(name)
            except mpslp.ModelFileError as error:
                errors.append(error)
                self.assertEqual(str(error), answers[name])
        self.assertGreater(len(changed), 40)
        self.assertGreater(len(errors), 40)

        done = self.run_tools("check", ".")
        self.assertEqual((done.returncode, done.stdout.decode()), (2, "".join(f"./{name}\n" for name in changed)))
        done = self.run_tools("canon", "-i", "-j", "3", ".")
        self.assertEqual((done.returncode, done.stdout.decode()), (2, "".join(f"./{name}\n" for name in changed)))
        printed = [line for line in first_lines(done.stderr.decode()).splitlines() if not line.startswith("warning: ")]
        self.assertEqual(len(printed), len(errors))
        for line, error in zip(printed, errors):
            where = "" if error.line is None else f":{error.line}"
            self.assertRegex(line, rf"^\./[^:]+{where}: {error.kind}(: .+)?$")
        after = {path.name: path.read_bytes() for path in self.folder.iterdir()}
        self.assertEqual(
            after,
            {
                name: mpslp.canonical(text, name.rsplit(".")[-1]) if name in changed else text
                for name, text in before.items()
            },
        )
        self.assertEqual(self.run_tools("canon", "-i", ".").stdout, b"")

    def test_what_is_kept(self):
        path, link, packed = self.file("a.mps"), self.folder / "link.mps", self.file("b.mps.gz", gzip.compress(SMALL))
        path.chmod(0o604)
        link.symlink_to("a.mps")
        self.prints(["canon", "-i", "link.mps", "b.mps.gz"], 0, "link.mps\nb.mps.gz\n")
        self.assertEqual(
            (os.readlink(link), path.read_bytes(), stat.S_IMODE(path.stat().st_mode)), ("a.mps", CANONICAL, 0o604)
        )
        self.assertEqual(gzip.decompress(packed.read_bytes()), CANONICAL)
        stamps = [(each.stat().st_mtime_ns, each.stat().st_ino) for each in (path, packed)]
        self.prints(["canon", "-i", "link.mps", "b.mps.gz"], 0)
        self.assertEqual([(each.stat().st_mtime_ns, each.stat().st_ino) for each in (path, packed)], stamps)

    def test_a_write_that_fails(self):
        self.file("a.mps")
        self.file("b.mps", large_text(300))

        def limit():
            signal.signal(signal.SIGXFSZ, signal.SIG_IGN)
            resource.setrlimit(resource.RLIMIT_FSIZE, (1000, 1000))

        done = self.run_process("canon", "-i", "b.mps", "a.mps", preexec_fn=limit)
        self.assertEqual((done.returncode, done.stdout, done.stderr), (4, b"a.mps\n", b"b.mps: File too large\n"))
        self.leaves(a_mps=CANONICAL, b_mps=large_text(300))

    def test_interrupted_runs(self):
        """Whenever it ends, each file has its old text or its new one, and nothing else is left."""
        text, names = large_text(8000), {f"{number}.mps" for number in range(60)}  # so large that processes pay
        new = mpslp.canonical(text, "mps")
        for number in (signal.SIGINT, signal.SIGTERM, signal.SIGKILL):
            for jobs in ("1", "4"):
                for name in names:
                    self.file(name, text)
                running = self.begun("canon", "-i", "-j", jobs, ".")
                running.stdout.readline()  # a file is done
                running.send_signal(number)
                _, error = running.communicate(timeout=600)
                with self.subTest(number, jobs=jobs):
                    # At its end it no longer takes signals.
                    self.assertIn(running.returncode, (0, -number, 128 + number))
                    self.assertNotIn(b"Traceback", error)
                    for left in self.folder.glob(".*.tmp") if number == signal.SIGKILL else ():
                        left.unlink()
                    self.assertEqual({path.name for path in self.folder.iterdir()}, names)
                    self.assertLessEqual({path.read_bytes() for path in self.folder.iterdir()}, {text, new})

    def test_interrupted_runs_begin_no_further_file(self):
        """They are interrupted while they read pipes, which give no end of file before that."""
        for number in (signal.SIGINT, signal.SIGTERM):
            for jobs, pipes in (("1", ["3.mps"]), ("2", ["0.mps", "1.mps"])):
                done, left = [f"{each}.mps" for each in range(3) if jobs == "1"], [
                    f"{each}.mps" for each in range(4, 9)
                ]
                for name in done + left:
                    self.file(name)
                for name in pipes:
                    os.mkfifo(name)
                running = self.begun("canon", "-i", "-j", jobs, *sorted(done + left + pipes))
                writers = [self.opened_as_reader_is_there(name) for name in pipes]
                running.send_signal(number)
                time.sleep(1)  # the signal is handled while the pipes are read
                for writer in writers:
                    os.close(writer)
                _, error = running.communicate(timeout=600)
                with self.subTest(number, jobs=jobs):
                    line = b"mpslp-tools: interrupted\n" if number == signal.SIGINT else b""
                    self.assertEqual((running.returncode, error), (128 + number, line))
                    self.assertEqual(
                        {name: Path(name).read_bytes() for name in done + left},
                        {**dict.fromkeys(done, CANONICAL), **dict.fromkeys(left, SMALL)},
                    )
                for name in os.listdir():
                    os.unlink(name)


class Check(Directory):
    def test_statuses(self):
        self.file("a.mps", CANONICAL)
        self.file("b.lp", CANONICAL_LP)
        self.prints(["check", "a.mps", "b.lp"], 0)
        self.file("c.mps")
        self.prints(["check", "a.mps", "c.mps", "b.lp"], 1, "c.mps\n")
        self.file("d.lp", BROKEN)
        self.prints(["check", "d.lp", "c.mps"], 2, "c.mps\n", "d.lp:1: BadToken: y\n")
        self.prints(["check", "e.mps", "d.lp"], 4, error="e.mps: No such file or directory\nd.lp:1: BadToken: y\n")
        self.prints(["check", "-", "-f", "mps"], 1, "-\n", content=SMALL)

    def test_directories(self):
        for name in (
            "a.mps",
            "b.LP",
            "deep/er/c.mps.gz",
            "deep/d.MPS.xz",
            ".git/e.mps",
            "deep/.hidden/f.lp",
            "g.txt",
            "mps",
            "deep/h.mps.old",
        ):
            self.file(name, b"")
        self.prints(
            ["check", "."],
            4,
            error="".join(
                [
                    "./a.mps: MissingEnd\n",
                    "./b.LP: MissingEnd\n",
                    "./deep/d.MPS.xz: not a complete .xz file: it is empty\n",
                    "./deep/er/c.mps.gz: not a complete .gz file: it is empty\n",
                ]
            ),
        )
        self.file("deep/er/c.mps.gz", gzip.compress(b""))
        self.prints(["check", "deep/er", "a.mps"], 2, error="deep/er/c.mps.gz: MissingEnd\na.mps: MissingEnd\n")

    def test_many_at_a_time_are_in_order(self):
        for number in range(40):
            self.file(f"{number:02}.lp", (BROKEN, CANONICAL_LP, b"min x\nend\n")[number % 3])
        one, four = (self.run_tools("check", "-j", jobs, ".") for jobs in ("1", "4"))
        self.assertEqual((one.returncode, one.stdout, one.stderr), (four.returncode, four.stdout, four.stderr))
        self.assertEqual(one.stdout.decode().split(), [f"./{number:02}.lp" for number in range(2, 40, 3)])

    def test_progress_on_a_terminal(self):
        """It is shown for what takes more than a second, here to read a pipe, and erased before something else is
        printed."""
        for number in range(3):
            self.file(f"{number}.lp", BROKEN if number == 1 else CANONICAL_LP)
        os.mkfifo("3.lp")
        main, terminal = pty.openpty()
        running = subprocess.Popen(
            [*TOOLS, "check", "-j", "1", "."],
            cwd=self.folder,
            stdout=subprocess.PIPE,
            stderr=terminal,
            env={**os.environ, "NO_COLOR": "1"},
        )
        os.close(terminal)
        writer = self.opened_as_reader_is_there("3.lp")
        time.sleep(2)
        os.write(writer, BROKEN)
        os.close(writer)
        output, _ = running.communicate(timeout=600)
        printed = read_to_the_end(main).decode().replace("\r\n", "\n")
        self.assertEqual((running.returncode, output), (2, b""))
        shown = re.findall(r"\r\x1b\[K(\d of \d files, \d+ s)", printed)
        self.assertTrue(any(each.startswith("3 of 4 files, ") for each in shown), printed)
        self.assertTrue(
            first_lines(printed).endswith(
                "\r\x1b[K./3.lp:1: BadToken: y\npython3 -m mpslp explain KIND prints what to do about a kind of error\n"
            ),
            printed,
        )
        self.assertTrue(first_lines(printed).startswith("./1.lp:1: BadToken: y\n\r\x1b[K"), printed)
        for words, error in ((["check", "0.lp", "1.lp"], b"1.lp:1: BadToken: y\n"), (["check", "0.lp"], b"")):
            self.assertEqual(
                first_lines(self.run_tools(*words).stderr), error, "no progress where there is no terminal"
            )


class Files(Directory):
    """Why a file does not open or is rejected."""

    def test_files_that_do_not_open(self):
        (self.folder / "d.mps").mkdir()
        self.file("broken.mps.gz", b"no gzip")
        for command in ("canon", "show"):
            self.prints([command, "a.mps"], 4, error="a.mps: No such file or directory\n")
            self.prints([command, "none"], 4, error="none: No such file or directory\n")
            self.prints(
                [command, "broken.mps.gz"],
                4,
                error="broken.mps.gz: not a complete .gz file: Not a gzipped file (b'no')\n",
            )
        self.prints(["show", "d.mps"], 0, error="warning: d.mps: no model files\n")
        self.prints(["show", "-q", "d.mps"], 0)
        for command in ("same", "diff"):
            self.prints([command, "a.mps", "d.mps"], 4, error="a.mps: No such file or directory\n")
        self.prints(["same", EXAMPLES / "small.mps", "d.mps"], 4, error="d.mps: Is a directory\n")
        (self.folder / "plans").mkdir()
        self.prints(
            ["diff", "plans", EXAMPLES / "small.mps"],
            3,
            error="python3 -m mpslp: error: plans is a directory: give a file\n",
        )
        self.prints(["diff", "plans", "missing"], 4, error="missing: No such file or directory\n")

    def test_a_file_that_may_not_be_read(self):
        self.file("a.mps").chmod(0)
        options = {"user": 65534} if os.geteuid() == 0 else {}  # root reads all files
        self.folder.chmod(0o755)
        try:
            subprocess.run([*TOOLS, "--version"], capture_output=True, check=True, **options)
        except (OSError, subprocess.CalledProcessError):
            self.skipTest("another user cannot run this Python")
        done = self.run_process("check", "a.mps", **options)
        self.assertEqual((done.returncode, done.stderr), (4, b"a.mps: Permission denied\n"))

    def test_a_compression_that_is_missing(self):
        self.file("a.mps.zst", b"\x28\xb5\x2f\xfd")
        with mock.patch.dict(sys.modules, {"compression": None, "compression.zstd": None, "zstandard": None}):
            self.prints(
                ["check", "a.mps.zst"],
                4,
                error="a.mps.zst: import of zstandard halted; None in sys.modules; install it, or use Python 3.14\n",
            )

    def test_formats_that_are_not_known(self):
        self.file("a.txt")
        for words in (["check", "a.txt"], ["show", "a.txt"]):
            self.prints(words, 3, error="a.txt: its name ends neither in .mps nor in .lp: give -f mps or -f lp\n")
        self.prints(
            ["same", "a.txt", EXAMPLES / "small.lp"],
            3,
            error="python3 -m mpslp: error: a.txt: its name ends neither in .mps nor in .lp: give -f mps or -f lp\n",
        )
        self.prints(["check", "-"], 3, error="standard input has no extension: give -f mps or -f lp\n")
        self.prints(["same", "a.txt", EXAMPLES / "small.lp", "-f", "mps"], 0, "same\n")
        self.prints(["canon", "-f", "mps", "a.txt"], 0, CANONICAL.decode())
        self.prints(["canon", "-f", "lp", EXAMPLES / "small.mps"], 0, CANONICAL.decode())

    def test_names_of_any_bytes(self):
        name = os.fsdecode(b"\xff \xc3\xa9\n.mps")
        self.file(name)
        self.file(os.fsdecode(b"\xfe.lp"), BROKEN)
        for locale in ("C", "C.UTF-8"):
            done = self.run_process("check", ".", env={**os.environ, "LC_ALL": locale})
            self.assertEqual(
                (done.returncode, done.stdout, first_lines(done.stderr)),
                (2, b"./\xff \xc3\xa9\n.mps\n", b"./\xfe.lp:1: BadToken: y\n"),
            )
        self.prints(["canon", "-i", name], 0, name + "\n")
        self.assertEqual((self.folder / name).read_bytes(), CANONICAL)

    def test_output_that_fails(self):
        self.file("a.mps")
        full, closed = "standard output: No space left on device\n", "standard output: it is closed\n"
        for unbuffered in ("", "1"):
            environment = {**os.environ, "PYTHONUNBUFFERED": unbuffered}
            for words, output, wanted in (
                ("canon a.mps", ">/dev/full", full),
                ("check a.mps", ">/dev/full", full),
                ("show a.mps", ">/dev/full", full),
                ("diff a.mps a.mps", ">/dev/full", full),
                ("--help", ">/dev/full", full),
                ("--version", ">/dev/full", full),
                ("explain", ">&-", closed),
                ("canon -h", ">&-", closed),
                ("show a.mps", "2>&- >/dev/full", ""),
                ("check b.mps", "2>/dev/full", ""),
                ("check -", "2>/dev/full", ""),
            ):
                done = subprocess.run(
                    f"exec {sys.executable} -m mpslp {words} {output}",
                    shell=True,
                    cwd=self.folder,
                    capture_output=True,
                    env=environment,
                    text=True,
                    timeout=600,
                )
                self.assertEqual((done.returncode, done.stdout, done.stderr), (4, "", wanted), words)

    def test_a_reader_that_is_gone(self):
        """The command ends as grep does, and says nothing."""
        self.file("a.mps")
        for unbuffered in ("", "1"):
            reader, writer = os.pipe()
            os.close(reader)
            done = subprocess.run(
                [*TOOLS, "show", "a.mps"],
                cwd=self.folder,
                stdout=writer,
                stderr=subprocess.PIPE,
                env={**os.environ, "PYTHONUNBUFFERED": unbuffered},
                timeout=600,
            )
            os.close(writer)
            self.assertEqual((done.returncode, done.stderr), (-signal.SIGPIPE, b""))

    def test_pieces_of_output(self):
        """A pipe that takes a part of each write, and one that does not block, get all of it."""
        content = large_text(20000)
        self.file("a.mps", content)
        wanted = mpslp.canonical(content, "mps")
        for unbuffered in ("", "1"):
            for blocks in (True, False):
                reader, writer = os.pipe()
                os.set_blocking(writer, blocks)
                running = subprocess.Popen(
                    [*TOOLS, "canon", "--no-warnings", "a.mps"],
                    cwd=self.folder,
                    stdout=writer,
                    env={**os.environ, "PYTHONUNBUFFERED": unbuffered},
                )
                os.close(writer)
                with os.fdopen(reader, "rb", 0) as file:
                    found = b"".join(iter(lambda: file.read(5000), b""))
                self.assertEqual((running.wait(60), found), (0, wanted))

    def test_standard_input_that_is_closed(self):
        for words in ("canon -f lp -", "show -f mps -", f"same -f lp - {EXAMPLES / 'small.lp'}", "digest -f lp -"):
            done = subprocess.run(
                f"exec {sys.executable} -m mpslp {words} <&-", shell=True, capture_output=True, text=True, timeout=600
            )
            self.assertEqual(
                (done.returncode, done.stdout, done.stderr), (4, "", "-: standard input is closed\n"), words
            )

    def test_names_of_files_in_other_encodings(self):
        self.file("é.lp", BROKEN)
        for encoding in ("ascii", "latin-1", "utf-16", "ascii:strict"):
            for words in (["check", "é.lp"], ["survey", "é.lp"], ["survey", "--json", "."]):
                done = self.run_process(*words, env={**os.environ, "PYTHONIOENCODING": encoding})
                self.assertEqual(done.returncode, 2 if words[0] == "check" else 0, done.stderr)
                self.assertIn(
                    b"\\u00e9.lp" if "--json" in words else "é.lp".encode(),
                    done.stderr if words[0] == "check" else done.stdout,
                )


class Models(Directory):
    def test_same(self):
        for first, second, status, output in (
            ("small.mps", "small.lp", 0, "same\n"),
            ("small.mps", "semi.lp", 1, "not the same\n"),
        ):
            self.prints(["same", EXAMPLES / first, EXAMPLES / second], status, output)
        self.prints(["same", EXAMPLES / "small.mps", "-", "-f", "lp"], 0, "same\n", content=CANONICAL_LP)
        self.file("a.lp", BROKEN)
        self.prints(["same", EXAMPLES / "small.mps", "a.lp"], 2, error="a.lp:1: BadToken: y\n")
        self.prints(["same", "a.lp", EXAMPLES / "small.mps"], 2, error="a.lp:1: BadToken: y\n")
        self.prints(
            ["same", "-", "-", "-f", "lp"], 3, error="python3 -m mpslp: error: at most one file is standard input\n"
        )

    def test_diff(self):
        small, other = EXAMPLES / "small.mps", self.file(
            "b.mps", CANONICAL.replace(b"1.5", b"1.5000001").replace(b"COST", b"OBJROW")
        )
        self.prints(["diff", small, EXAMPLES / "small.lp"], 0, "same\n")
        self.prints(["diff", small, EXAMPLES / "small.lp", "--digits", "3", "--by-position"], 0, "same\n")
        self.prints(["diff", small, other], 1, "objective: COST -> OBJROW\nentry MYG Y: 1.5 -> 1.5000001\n")
        self.prints(["diff", "--ignore-objective-name", small, other], 1, "entry MYG Y: 1.5 -> 1.5000001\n")
        self.prints(["diff", "--digits", "7", small, other], 1, "objective: COST -> OBJROW\n")
        self.prints(["diff", "--digits", "7", "--ignore-objective-name", small, other], 0, "close\n")
        self.prints(["diff", "--digits", "7", "--by-position", small, other], 0, "close\n")
        self.prints(["diff", "--digits", "8", "--by-position", small, other], 1, "entry MYG Y: 1.5 -> 1.5000001\n")
        self.file("a.lp", BROKEN)
        self.prints(["diff", small, "a.lp"], 2, error="a.lp:1: BadToken: y\n")
        self.prints(["diff", small, "/dev/null"], 1, "- model: 2 rows, 2 columns, 2 entries\n")
        self.prints(["diff", "/dev/null", small], 1, "+ model: 2 rows, 2 columns, 2 entries\n")
        self.prints(["diff", "/dev/null", "a.lp"], 2, error="a.lp:1: BadToken: y\n")
        for digits in ("0", "37", "x"):
            self.assertEqual(self.run_tools("diff", "--digits", digits, small, other).returncode, 3)

    def test_show(self):
        for entry in entries():
            if entry.answer == "model" and entry.show != "-":
                self.prints(["show", VECTORS / entry.input], 0, (VECTORS / entry.show).read_text())
        from mpslp._models._shown import shown

        for path in [*model_files(EXAMPLES), *model_files(VECTORS)]:
            model = independent_reader.read(path.read_bytes(), path.suffix[1:])
            if isinstance(model, independent_reader.Model):
                with self.subTest(path.name):
                    self.assertEqual(
                        "".join(f"{line}\n" for line in shown(mpslp.load(path))),
                        independent_reader.show(model).decode(),
                    )

    def test_digest(self):
        paths = model_files(EXAMPLES)
        self.prints(["digest", *paths], 0, "".join(f"{mpslp.load(path).digest}  {path}\n" for path in paths))
        self.file("a.lp", BROKEN)
        self.file("b.mps.gz", gzip.compress(SMALL))
        self.prints(["digest", "."], 2, f"{mpslp.digest(SMALL, 'mps')}  ./b.mps.gz\n", "./a.lp:1: BadToken: y\n")
        self.assertEqual(mpslp.digest(EXAMPLES / "small.lp"), mpslp.digest(EXAMPLES / "small.mps"))
        self.assertNotEqual(mpslp.digest(EXAMPLES / "small.lp"), mpslp.digest(EXAMPLES / "semi.lp"))

    def test_explain(self):
        self.prints(["explain", "badbyte", "Sos"], 0, f"{mpslp.explain('BadByte')}\n\n{mpslp.explain('Sos')}\n")
        listed = self.run_tools("explain")
        self.assertEqual((listed.returncode, listed.stdout.split()[:2]), (0, [b"BadByte", b"BadMarker"]))
        self.prints(
            ["explain", "BadBite"],
            3,
            error=(
                "python3 -m mpslp: error: no such kind: 'BadBite'; did you mean BadByte? 'mpslp-tools explain' "
                "prints all kinds\n"
            ),
        )

    def test_control_characters_do_not_reach_the_terminal(self):
        self.file("a.mps", b"NAME\n\x1b[2J\xe2\x80\xae\nENDATA\n")
        for words in (["adapt", "a.mps"], ["check", "a.mps"]):
            done = self.run_tools(*words)
            self.assertEqual(done.returncode, 2)
            self.assertIn(b"\\x1b[2J\\u202e", done.stderr)
            self.assertTrue(all(char == "\n" or char.isprintable() for char in done.stderr.decode()), done.stderr)

    def test_explain_a_file(self):
        self.file("a.lp", BROKEN)
        message = mpslp.ModelFileError("BadToken", 1, filename="a.lp").message()
        self.assertEqual(self.run_tools("check", "a.lp").stderr.decode(), f"{message}\n")
        self.file("b.mps.gz", gzip.compress(SMALL))
        self.prints(["explain", "a.lp", "b.mps.gz"], 2, f"{message}\nb.mps.gz: accepted\n")
        self.prints(["explain", "-", "-f", "lp"], 2, f"{message}\n".replace("a.lp:", "-:", 1), content=BROKEN)
        self.file("Sos")
        self.prints(["explain", "Sos"], 0, f"{mpslp.explain('Sos')}\n")
        self.prints(["explain", "none.mps"], 4, error="none.mps: No such file or directory\n")
        self.prints(["explain", "."], 2, "".join(f"{line}\n" for line in ("./" + message, "./b.mps.gz: accepted")))
        (self.folder / "none").mkdir()
        self.prints(["explain", "none"], 0, error="warning: none: no model files\n")


class Command(Directory):
    def test_help_and_version(self):
        for words in (["--help"], ["canon", "-h"], ["diff", "--help"]):
            done = self.run_tools(*words)
            self.assertEqual((done.returncode, done.stderr), (0, b""))
            self.assertTrue(done.stdout.startswith(b"usage: python3 -m mpslp"))
        self.prints(["--version"], 0, f"mpslp {mpslp.__version__}\n")
        for words in ([], ["solve"], ["--color"], ["check"], ["diff", "a.mps"]):
            self.assertEqual(self.run_tools(*words).returncode, 3, words)
        self.assertEqual(self.run_process("solve").returncode, 3)

    def test_the_process_is_the_function(self):
        """What the other tests call is what a process does."""
        self.file("a.lp", BROKEN)
        self.file("b.mps")
        for words, content in (
            (["check", "."], b""),
            (["canon", "-", "-f", "lp"], CANONICAL_LP),
            (["digest", "b.mps"], b""),
            (["canon", "b.mps", "a.lp"], b""),
        ):
            one, other = self.run_tools(*words, content=content), self.run_process(*words, input=content)
            self.assertEqual((one.returncode, one.stdout, one.stderr), (other.returncode, other.stdout, other.stderr))

    def test_the_installed_command(self):
        command = Path(sys.executable).parent / "mpslp-tools"
        if not command.exists():
            self.skipTest("the package is not installed beside this Python")
        done = subprocess.run(
            [command, "same", EXAMPLES / "small.mps", EXAMPLES / "small.lp"],
            capture_output=True,
            text=True,
            timeout=600,
        )
        self.assertEqual((done.returncode, done.stdout), (0, "same\n"))
        self.assertTrue(
            subprocess.run([command, "-h"], capture_output=True, text=True, timeout=600).stdout.startswith(
                "usage: mpslp-tools "
            )
        )
        self.assertFalse((Path(sys.executable).parent / "mpslp").exists(), "the command of the program is not hidden")


class Completions(Directory):
    WANTED = {
        "": "canon fmt check same diff merge setup-git show digest explain adapt survey report --help --version",
        "d": "diff digest",
        "s": "same setup-git show survey",
        "check --p": "--portable",
        "survey --": "--help --format --from --jobs --quiet --csv --json",
        "canon -t ": "mps lp glp",
        "canon --for h": "highs",
        "check -f l": "lp",
        "diff --": (
            "--help --format --ignore-objective-name --all --digits --by-position --any-names --json --quiet "
            "--no-warnings"
        ),
        "canon -i sm": "small.lp small.mps",
        "explain DuplicateR": "DuplicateRange DuplicateRhs DuplicateRow",
        "diff --digits ": "",
        "adapt --from q": "qsopt",
        "adapt --in": "--in-place",
        "canon --out-dir d": "deep",
    }

    def setUp(self):
        super().setUp()
        self.file("small.lp")
        self.file("small.mps")
        (self.folder / "deep").mkdir()
        command = self.file("bin/mpslp-tools", f'#!/bin/sh\nexec {sys.executable} -m mpslp "$@"\n'.encode())
        command.chmod(0o755)
        self.environment = {**os.environ, "PATH": f"{command.parent}{os.pathsep}{os.environ['PATH']}"}

    def check(self, shell, script, wanted):
        """A script of a shell that prints the completions of a line, each on a line of its own."""
        if shutil.which(shell) is None:
            self.skipTest(f"{shell} is missing")
        for line, words in wanted.items():
            done = subprocess.run(
                [shell, "-c", script.format(line=line)],
                capture_output=True,
                text=True,
                env=self.environment,
                timeout=600,
            )
            self.assertEqual(
                (sorted(done.stdout.split()), done.stderr), (sorted(words.split()), ""), f"{shell}: {line!r}"
            )

    def test_bash(self):
        script = (
            "compopt() {{ :; }}; source "
            + str(ROOT / "completions" / "mpslp-tools.bash")
            + """
read -ra COMP_WORDS <<< 'mpslp-tools {line}'
case '{line}' in '' | *' ') COMP_WORDS+=('') ;; esac
COMP_CWORD=$((${{#COMP_WORDS[@]}} - 1))
_mpslp_tools
printf '%s\\n' "${{COMPREPLY[@]}}"
"""
        )
        self.check("bash", script, {**self.WANTED, "same -W": "-Werror"})

    def test_fish(self):
        script = (
            "source "
            + str(ROOT / "completions" / "mpslp-tools.fish")
            + "; complete -C 'mpslp-tools {line}' | string replace -r '\\t.*' ''"
        )
        wanted = {
            line: words.replace(" --help --version", "").replace("deep", "deep/") for line, words in self.WANTED.items()
        }
        self.check("fish", script, wanted)


if __name__ == "__main__":
    unittest.main()
