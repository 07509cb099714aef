"""The files of examples/, with the canonical texts that are beside them."""

import unittest

import mpslp
from repository import EXAMPLES, model_files


def stated(path, to_format):
    """The canonical text beside a file, or None."""
    stem = path.name.split(".")[0]
    beside = EXAMPLES / f"{stem}.canonical.{to_format}"
    return beside.read_bytes() if beside.exists() else None


class Examples(unittest.TestCase):
    def test_canonical(self):
        for path in model_files(EXAMPLES):
            for to_format in ("mps", "lp"):
                with self.subTest(path.name, to=to_format):
                    text = mpslp.canonical(path, to_format=to_format)
                    self.assertIn(stated(path, to_format), (text, None))
                    self.assertTrue(mpslp.is_canonical(text, to_format))
                    self.assertTrue(mpslp.same(path, text, second_format=to_format))

    def test_every_mps_text_is_stated(self):
        for path in model_files(EXAMPLES):
            self.assertIsNotNone(stated(path, "mps"), path.name)

    def test_one_model_for_each_name(self):
        files = model_files(EXAMPLES)
        for first in files:
            for second in files:
                with self.subTest(first.name, second=second.name):
                    is_one = first.name.split(".")[0] == second.name.split(".")[0]
                    self.assertIs(mpslp.same(first, second), is_one)


if __name__ == "__main__":
    unittest.main()
