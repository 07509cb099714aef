"""Surveys of collections: the call and the command."""

import csv
import gzip
import io
import json
import os
import pickle
import pty
import re
import signal
import subprocess
import time
import unittest
from dataclasses import replace
from pathlib import Path
from unittest import mock

import mpslp
from mpslp import _survey
from mpslp._files import _workers
from repository import EXAMPLES, VECTORS, form_of, model_files
from test_tools import CANONICAL_LP, SMALL, TOOLS, Directory, read_to_the_end

ADAPTABLE = b"min x\nst\nx + 3 >= 5\n2 * x >= 1 + 1\nend\n"
QUADRATIC = b"min x\nst\nx ^ 2 >= 5\nend\n"


class Collection(Directory):
    """A collection with a file of each result."""

    def setUp(self):
        super().setUp()
        for name, content in (
            ("a.mps", SMALL),
            ("b.lp", ADAPTABLE),
            ("deep/c.lp", CANONICAL_LP),
            ("deep/d.lp.gz", gzip.compress(QUADRATIC)),
            ("e.mps.gz", b"no gzip"),
            ("f.mps", b"ROWS\n"),
            (".hidden/g.mps", SMALL),
            ("notes.txt", b""),
        ):
            self.file(name, content)

    RESULTS = {
        "./a.mps": "accepted",
        "./b.lp": "adapted",
        "./deep/c.lp": "accepted",
        "./deep/d.lp.gz": "rejected",
        "./e.mps.gz": "unreadable",
        "./f.mps": "rejected",
    }


class Calls(Collection):
    def test_each_file(self):
        found = mpslp.survey(".")
        self.assertEqual({file.path: file.result for file in found.files}, self.RESULTS)
        a, b, c, d, e, f = found.files
        self.assertEqual(
            (a.rows, a.columns, a.entries, a.bytes, a.format, a.error, a.note), (2, 2, 2, len(SMALL), "mps", "", "")
        )
        self.assertEqual((a.digest, c.digest), (mpslp.digest(SMALL, "mps"), a.digest))
        self.assertEqual((b.rows, b.columns, b.entries, b.format), (2, 1, 2, "lp"))
        self.assertEqual(
            (b.error, b.line, dict(b.changes)),
            ("ConstantInRow", 3, {"constant-in-row": 1, "product": 1, "added-constants": 1}),
        )
        self.assertEqual(b.digest, mpslp.digest(mpslp.adapt(ADAPTABLE, "lp").text, "lp"))
        self.assertEqual(
            (d.error, d.line, d.rows, d.digest, d.bytes), ("Quadratic", 3, None, None, len(gzip.compress(QUADRATIC)))
        )
        self.assertIn("a quadratic term", d.reason)
        self.assertEqual(d.note, "line 3: Quadratic" + d.reason.removeprefix("line 3"))
        self.assertEqual((e.reason, e.error, e.bytes), ("not a complete .gz file: Not a gzipped file (b'no')", "", 7))
        self.assertEqual((f.error, f.line, f.reason), ("MissingEnd", None, ""))
        self.assertGreater(min(file.seconds for file in found.files), 0)
        self.assertGreaterEqual(found.seconds, max(file.seconds for file in found.files))

    def test_the_whole(self):
        found = mpslp.survey(".")
        self.assertEqual(found.results, {"accepted": 2, "adapted": 1, "rejected": 2, "unreadable": 1})
        self.assertEqual(found.errors, {"ConstantInRow": 1, "MissingEnd": 1, "Quadratic": 1})
        self.assertEqual(found.changes, {"added-constants": 1, "constant-in-row": 1, "product": 1})
        self.assertEqual(found.groups, (("./a.mps", "./deep/c.lp"),))

    def test_frequent_kinds_come_first(self):
        for number in range(3):
            self.file(f"more{number}.lp", QUADRATIC)
        self.assertEqual(list(mpslp.survey(".").errors), ["Quadratic", "ConstantInRow", "MissingEnd"])

    def test_several_paths(self):
        found = mpslp.survey("f.mps", self.folder / "deep", os.fsencode("none.lp"), "f.mps", "notes.txt")
        results = {os.path.basename(file.path): (file.result, file.reason) for file in found.files}
        self.assertEqual(len(found.files), 5)
        self.assertEqual(results["none.lp"], ("unreadable", "No such file or directory"))
        self.assertEqual(results["notes.txt"][0], "unreadable")
        self.assertIn("has to be given", results["notes.txt"][1])
        self.assertEqual(
            (results["c.lp"][0], results["d.lp.gz"][0], results["f.mps"][0]), ("accepted", "rejected", "rejected")
        )
        self.assertEqual(mpslp.survey().files, ())

    def test_processes_find_the_same(self):
        def without_times(found):
            return [replace(file, seconds=0) for file in found.files]

        one, three = mpslp.survey("."), mpslp.survey(".", jobs=3)
        self.assertEqual(without_times(one), without_times(three))
        self.assertEqual(one.groups, three.groups)

    def test_a_process_that_is_killed(self):
        with self.assertRaisesRegex(ChildProcessError, "a process ended before its file was done"):
            list(_workers.results_in_order(os._exit, [3, 3], 2))

    def test_memory_that_is_missing(self):
        with mock.patch.object(_survey, "read", side_effect=MemoryError):
            self.assertEqual({file.reason for file in mpslp.survey("a.mps").files}, {"out of memory"})

    def test_a_directory_that_may_not_be_read(self):
        def walk(path, onerror):
            onerror(PermissionError(13, "Permission denied", path))
            return iter(())

        with mock.patch("os.walk", walk):
            found = mpslp.survey(".")
        self.assertEqual(
            [(file.path, file.result, file.reason, file.format) for file in found.files],
            [(".", "unreadable", "Permission denied", None)],
        )

    def test_records(self):
        found = mpslp.survey(".")
        again = pickle.loads(pickle.dumps(found))
        self.assertEqual((again, str(again)), (found, str(found)))

    def test_all_files_of_the_repository(self):
        """Accepted are those that the package accepts, and no file is left out."""
        paths = [*model_files(EXAMPLES), *model_files(VECTORS)]
        for file in mpslp.survey(*paths).files:
            with self.subTest(file.path):
                try:
                    self.assertEqual((file.result, file.digest), ("accepted", mpslp.digest(file.path)))
                except mpslp.ModelFileError as error:
                    self.assertIn(file.result, ("adapted", "rejected"))
                    self.assertEqual((file.error, file.line), (error.kind, error.line))
                    if file.result == "adapted":
                        self.assertEqual(
                            file.digest, mpslp.digest(mpslp.adapt(file.path).text, form_of(Path(file.path)))
                        )
        self.assertEqual(len(mpslp.survey(EXAMPLES, VECTORS).files), len(paths))

    def test_a_dialect(self):
        """Each file is adapted, also one that is accepted."""
        self.file("pulp.mps", b"*SENSE:Maximize\nROWS\n N  C\nCOLUMNS\n    X  C  1\nENDATA\n")
        self.assertEqual([file.result for file in mpslp.survey("pulp.mps").files], ["accepted"])
        found = mpslp.survey("pulp.mps", "a.mps", "f.mps", dialect="pulp")
        results = {file.path: (file.result, dict(file.changes), file.error) for file in found.files}
        self.assertEqual(
            results,
            {
                "pulp.mps": ("adapted", {"pulp-sense": 1}, ""),
                "a.mps": ("accepted", {}, ""),
                "f.mps": ("rejected", {}, "MissingEnd"),
            },
        )
        self.assertEqual(found.files[2].digest, mpslp.digest(mpslp.adapt("pulp.mps", dialect="pulp").text, "mps"))
        self.assertEqual(mpslp.survey(".", dialect="none").results, mpslp.survey(".").results)
        with self.assertRaisesRegex(ValueError, "unknown dialect"):
            mpslp.survey(".", dialect="word")


class Written(Collection):
    def test_text(self):
        text = str(mpslp.survey("."))
        self.assertRegex(text, r"(?m)^accepted +2 +2 +2 +147 +\d\.\d\d  \./a\.mps$")
        self.assertRegex(
            text, r"(?m)^adapted +2 +1 +2 +39 +\d\.\d\d  \./b\.lp  \(constant-in-row 1, added-constants 1, product 1\)$"
        )
        self.assertRegex(
            text,
            r"(?m)^rejected +- +- +- +\d+ +\d\.\d\d  \./deep/d\.lp\.gz  \(line 3: Quadratic: a quadratic term.*\)$",
        )
        self.assertRegex(
            text, r"(?m)^6 files, [\d,]+ bytes, \d\.\d seconds: 2 accepted, 1 adapted, 2 rejected, 1 unreadable$"
        )
        self.assertIn(
            "\nerrors of the files as found:\n     1  ConstantInRow\n     1  MissingEnd\n     1  Quadratic\n\n"
            "files adapted, by change:\n",
            text,
        )
        self.assertTrue(text.endswith("\nequal models:\n  ./a.mps ./deep/c.lp"))
        self.assertRegex(str(mpslp.survey("a.mps")), r"\A.*\n.*\n\n1 file, 147 bytes, \d\.\d seconds: 1 accepted\Z")
        self.assertEqual(str(mpslp.Survey(())).splitlines()[1:], ["", "0 files, 0 bytes, 0.0 seconds: none"])

    def test_csv(self):
        rows = list(csv.DictReader(io.StringIO(mpslp.survey(".").csv())))
        self.assertEqual({row["path"]: row["result"] for row in rows}, self.RESULTS)
        self.assertEqual([row["group"] for row in rows], ["1", "", "1", "", "", ""])
        self.assertEqual(
            (rows[0]["rows"], rows[0]["digest"], rows[0]["error"], rows[0]["changes"]),
            ("2", mpslp.digest(SMALL, "mps"), "", ""),
        )
        self.assertEqual((rows[1]["line"], rows[1]["changes"]), ("3", "constant-in-row:1 added-constants:1 product:1"))
        self.assertEqual((rows[3]["rows"], rows[3]["error"]), ("", "Quadratic"))

    def test_json(self):
        found = mpslp.survey(".")
        content = json.loads(found.json())
        self.assertEqual({file["path"]: file["result"] for file in content["files"]}, self.RESULTS)
        self.assertEqual(
            (content["results"], content["errors"], content["changes"]), (found.results, found.errors, found.changes)
        )
        self.assertEqual(content["groups"], [["./a.mps", "./deep/c.lp"]])
        self.assertEqual(content["files"][1]["changes"], {"constant-in-row": 1, "product": 1, "added-constants": 1})
        self.assertEqual(
            (content["files"][3]["rows"], content["bytes"]), (None, sum(file.bytes for file in found.files))
        )

    def test_names_of_any_bytes(self):
        name = os.fsdecode(b'\xff,".mps')
        self.file(name)
        found = mpslp.survey(name)
        self.assertEqual(next(csv.DictReader(io.StringIO(found.csv())))["path"], name)
        self.assertEqual(json.loads(found.json())["files"][0]["path"], name)


class Command(Collection):
    def test_forms_and_statuses(self):
        for words, pattern in (
            (["deep"], rb"\Aresult .*\n2 files, .*: 1 accepted, 1 rejected\n"),
            (["--csv", "deep"], rb"\Apath,result,"),
            (["--json", "-j", "1", "deep"], rb'\A\{\n "files": \['),
        ):
            done = self.run_tools("survey", *words)
            self.assertEqual((done.returncode, done.stderr), (0, b""), words)
            self.assertRegex(done.stdout, re.compile(pattern, re.S))
        self.assertEqual(self.run_tools("survey", "-j", "1", ".").returncode, 4, "a file is unreadable")
        self.file("pulp.txt", b"*SENSE:Maximize\nROWS\n N  C\nCOLUMNS\n    X  C  1\nENDATA\n")
        done = self.run_tools("survey", "-f", "mps", "--from", "pulp", "--csv", "pulp.txt")
        self.assertRegex(done.stdout, rb"\npulp.txt,adapted,mps,")
        for words, content, result in (
            (["-f", "lp"], b"min x\nend\n", b"accepted,lp,10,"),
            (["-f", "mps"], Path("pulp.txt").read_bytes(), b"accepted,mps,54,"),
            (["-f", "lp"], b"min x", b"rejected,lp,5,"),
        ):
            done = self.run_tools("survey", "--csv", *words, "-", content=content)
            self.assertEqual((done.returncode, done.stderr), (0, b""))
            self.assertRegex(done.stdout, b"\n-," + result)
        for words in ([], ["--csv", "--json", "."], ["-j", "0", "."], ["-"], ["--from", "word", "."]):
            self.assertEqual(self.run_tools("survey", *words).returncode, 3, words)

    def test_processes_of_the_command(self):
        done = self.run_process("survey", "--csv", "-j", "3", ".")
        self.assertEqual((done.returncode, done.stderr), (4, b""))
        rows = list(csv.DictReader(io.StringIO(os.fsdecode(done.stdout))))
        self.assertEqual({row["path"]: row["result"] for row in rows}, self.RESULTS)

    def test_nothing_is_written(self):
        before = {path: path.read_bytes() for path in self.folder.rglob("*") if path.is_file()}
        self.run_tools("survey", "-j", "2", ".")
        self.assertEqual({path: path.read_bytes() for path in self.folder.rglob("*") if path.is_file()}, before)

    def test_progress_on_a_terminal(self):
        os.mkfifo("deep/e.lp")
        main, terminal = pty.openpty()
        running = subprocess.Popen(
            [*TOOLS, "survey", "-j", "1", "deep"], cwd=self.folder, stdout=subprocess.PIPE, stderr=terminal
        )
        os.close(terminal)
        writer = self.opened_as_reader_is_there("deep/e.lp")
        time.sleep(2)
        os.close(writer)
        running.communicate(timeout=600)
        self.assertEqual(running.returncode, 0)
        self.assertRegex(read_to_the_end(main), rb"\A(\r\x1b\[K2 of 3 files, \d+ s)+\r\x1b\[K\Z")

    def test_interrupted_runs_begin_no_further_file(self):
        """The processes are interrupted, as at a terminal, while they read pipes, which give no end of file before
        that."""
        files = ["a.mps", "b.lp"]
        for jobs, before, pipes, after in (
            ("1", [], ["0.mps"], files),
            ("1", files, ["0.mps"], []),
            ("2", [], ["0.mps", "1.mps"], files),
            ("3", [], ["0.mps", "1.mps"], files),  # the third process is idle, or will be
        ):
            for name in pipes:
                os.mkfifo(name)
            running = self.begun("survey", "-j", jobs, *before, *pipes, *after, start_new_session=True)
            writers = [self.opened_as_reader_is_there(name) for name in pipes]
            time.sleep(1)  # a further process may be done with the other files
            os.killpg(running.pid, signal.SIGINT)
            time.sleep(1)  # the signal is handled while the pipes are read
            for writer in writers:
                os.close(writer)
            output, error = running.communicate(timeout=600)
            with self.subTest(jobs=jobs, before=before):
                self.assertEqual((running.returncode, error), (128 + signal.SIGINT, b"mpslp-tools: interrupted\n"))
                done = re.findall(r"(?m)^(?:accepted|adapted) +\d.*  (\S+)(?:  \(.*\))?$", output.decode())
                if jobs == "3":
                    self.assertIn(done, ([], files[:1], files))
                else:
                    self.assertEqual(done, before)
                self.assertEqual(len(re.findall(rb"(?m)^2 files, .* seconds: ", output)), done == files)
                self.assertEqual(output == b"", not done)
            for name in pipes:
                os.unlink(name)

    def test_a_process_that_is_killed(self):
        with mock.patch.object(
            _survey, "results_as_done", side_effect=ChildProcessError("a process ended before its file was done")
        ):
            self.prints(["survey", "."], 4, error="a process ended before its file was done\n")


if __name__ == "__main__":
    unittest.main()
