"""What the documents of the package show is what happens; those of README.md are run by
tests/documents/docs_check.py."""

import doctest
import importlib.util
import os
import shutil
import sys
import tempfile
import unittest
from pathlib import Path
from unittest import mock

import mpslp
from repository import ROOT

from shared import pages


class Page(pages.Document):
    """A page whose comment `needs` may name a module of Python, too."""

    def need(self, number, what):
        if not importlib.util.find_spec(what):
            super().need(number, what)


class Recipes(Page):
    """What a page has for the command of the package: the paragraphs that need it."""

    MARK = "<!-- needs: mpslp-tools -->"

    def __init__(self, path, scratch):
        super().__init__(path, scratch)
        paragraphs = [[]]
        for line in self.lines:
            if pages.PARAGRAPH.match(line):
                paragraphs.append([])
            paragraphs[-1].append(line)
        self.lines = [line if self.MARK in lines else "" for lines in paragraphs for line in lines]


class Shown(unittest.TestCase):
    def check(self, kind, path):
        # Its commands find this Python first, and call only the package.
        found = f"{Path(sys.executable).parent}{os.pathsep}{os.environ['PATH']}"
        with tempfile.TemporaryDirectory() as folder, mock.patch.dict(os.environ, PATH=found):
            page = kind(ROOT / path, pages.Scratch(folder, shutil.which("false")))
            page.check()
        self.assertEqual(page.wrong, [])
        self.assertGreater(page.tried, 5)

    def test_what_the_readme_shows(self):
        self.check(Page, "python/README.md")

    def test_recipes_for_the_command(self):
        self.check(Recipes, "docs/RECIPES.md")

    def test_what_the_package_shows(self):
        for name in mpslp.__all__:
            getattr(mpslp, name)  # some are imported when they are used, and doctest finds those only that are there
        failed, tried = doctest.testmod(mpslp, extraglobs={"mpslp": mpslp})
        self.assertEqual(failed, 0)
        self.assertGreater(tried, 20)


if __name__ == "__main__":
    unittest.main()
