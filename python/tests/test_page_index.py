"""The index of the pages of many files: each file once, with a link to its page, or why it has none."""

import contextlib
import io
import os
import tempfile
import unittest
from pathlib import Path
from unittest import mock
from urllib.parse import unquote

import mpslp
from mpslp import _main
from mpslp._commands import _work
from report_pages import SAMPLE, Reader
from repository import EXAMPLES

BROKEN = "max x\nst\n c: x + y 4\nend\n"


class Index(unittest.TestCase):
    def setUp(self):
        directory = tempfile.TemporaryDirectory()
        self.addCleanup(directory.cleanup)
        self.top = Path(directory.name)
        self.models, self.pages = self.top / "models", self.top / "pages"
        self.models.mkdir()

    def file(self, name, text):
        path = os.path.join(os.fsencode(self.models), os.fsencode(name))
        os.makedirs(os.path.dirname(path), exist_ok=True)
        with open(path, "wb") as file:
            file.write(text.encode())

    def run_report(self, *words):
        """The exit status, and what is on standard error."""
        error = io.StringIO()
        with contextlib.redirect_stderr(error):
            status = _main.main(["report", "--out-dir", str(self.pages), *map(str, words or [self.models])])
        return status, error.getvalue()

    def index(self):
        reader = Reader((self.pages / "index.html").read_text("utf-8"))
        self.assertEqual(reader.wrong, [])
        self.assertNotIn("script", [tag for tag, _, _ in reader.elements])
        self.assertEqual([attributes for attributes in reader.found("a") if list(attributes) != ["href"]], [])
        return reader

    def test_files(self):
        self.file("a.mps", SAMPLE)
        self.file("deep/b.lp", (EXAMPLES / "small.lp").read_text())
        self.file("deep/c.mps", (EXAMPLES / "small.mps").read_text())
        self.file("broken.lp", BROKEN)
        status, error = self.run_report()
        self.assertEqual((status, "BadToken" in error), (2, True))
        reader = self.index()
        self.assertEqual(reader.text["h1"], "4 model files\n")
        self.assertEqual(
            reader.table("Files that define a model"),
            {
                "a.mps": ["8", "9", "3", "12", "13", ""],
                "deep/b.lp": ["2", "2", "0", "2", "0", ""],
                "deep/c.mps": ["2", "2", "0", "2", "0", "deep/b.lp"],
            },
        )
        self.assertEqual(reader.table("Files without a page"), {"broken.lp": ["line 3: BadToken: 4"]})
        links = [attributes["href"] for attributes in reader.found("a")]
        self.assertEqual(links, ["./a.mps.html", "./deep/b.lp.html", "./deep/c.mps.html"])
        self.assertTrue(all((self.pages / link).is_file() for link in links))

    def test_the_numbers_of_a_file(self):
        """They are those of the model."""
        for path in EXAMPLES.glob("*.mps"):
            self.file(path.name, path.read_text())
        self.run_report()
        lines = self.index().table("Files that define a model")
        for name, (rows, columns, integers, nonzeros, *_) in lines.items():
            model = mpslp.load(EXAMPLES / name)
            kinds = [column.kind for column in model.columns.values()]
            entries = sum(len(row.entries) for row in model.rows.values())
            counts = (len(model.rows), len(model.columns), kinds.count("integer"), entries)
            self.assertEqual((rows, columns, integers, nonzeros), tuple(map(str, counts)), name)
        self.assertEqual(len(lines), len(list(EXAMPLES.glob("*.mps"))))

    def test_names_of_files(self):
        """A link leads to the page, whatever the name of the file is, and is no address of anything else."""
        for name in ("a b#%3f?.lp", "javascript:alert(1).lp", "<b>&'.lp", b"\xff.lp", "é\n.lp", "x.y/z.lp"):
            self.file(name, (EXAMPLES / "small.lp").read_text())
        self.run_report()
        links = [attributes["href"] for attributes in self.index().found("a")]
        self.assertEqual(len(links), 6)
        for link in links:
            self.assertRegex(link, r"^\./[\w.%/-]+\.lp\.html$")
            path = os.fsencode(self.pages) + unquote(link, "utf-8", "surrogateescape")[1:].encode(
                "utf-8", "surrogateescape"
            )
            self.assertTrue(os.path.isfile(path), link)

    def test_several_processes(self):
        for number in range(6):
            self.file(f"{number}.lp", (BROKEN, (EXAMPLES / "small.lp").read_text())[number % 2])
        texts = []
        with mock.patch.object(_work, "_BYTES_OF_A_FILE", 10**9):  # so that processes pay
            for jobs in ("1", "3"):
                self.run_report("-j", jobs, self.models)
                texts.append((self.pages / "index.html").read_bytes())
        self.assertEqual(texts[0], texts[1])

    def test_a_page_of_this_name(self):
        self.file("index", (EXAMPLES / "small.mps").read_text())
        status, error = self.run_report("-f", "mps", self.models / "index")
        self.assertEqual(status, 3)
        self.assertIn("would have the page index.html, which lists all pages", error)
        self.assertFalse(self.pages.exists())

    def test_nothing_to_list(self):
        self.assertEqual(self.run_report()[0], 0)
        self.assertFalse(self.pages.exists())

    def test_an_index_that_cannot_be_written(self):
        self.file("a.mps", SAMPLE)
        (self.pages / "index.html").mkdir(parents=True)
        status, error = self.run_report()
        self.assertEqual(status, 4)
        self.assertIn("index.html: Is a directory", error)
        self.assertTrue((self.pages / "a.mps.html").is_file())


if __name__ == "__main__":
    unittest.main()
