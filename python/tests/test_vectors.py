"""The suite of vectors/, whose README says what it is, through the calls of the package."""

import unittest

import mpslp
from repository import VECTORS, form_of

from shared import vector_suite as vectors


class Calls(vectors.Checker):
    """The words of the program, done by the package: what it prints, and its exit status."""

    def __init__(self):
        super().__init__(program=None, shows=False)

    def run(self, *words, text=b""):
        self.count += 1
        try:
            return 0, self.answer(text, *words), b""
        except mpslp.ModelFileError as error:
            error.filename = None  # so that it is the line of the program
            return 2, b"", str(error).encode() + b"\n"
        except Differs:
            return 1, b"not the same\n", b""

    def answer(self, text, word, *words):
        if word == "canon":
            from_format, to_format, path = words
            assert path == "-"
            return mpslp.canonical(text, from_format, to_format)
        assert word == "same"
        first_format, first, second_format, second = words
        if not mpslp.same(VECTORS / first, VECTORS / second, first_format, second_format):
            raise Differs
        return b"same\n"


class Differs(Exception):
    """Two files declare different models."""


def entries():
    return [vectors.Entry(*fields) for fields in vectors.rows("index.tsv")]


class Vectors(unittest.TestCase):
    def test_the_program_s_bytes_and_faults(self):
        calls = Calls()
        vectors.check_program(calls)
        self.assertEqual(calls.wrong, [])
        self.assertGreater(calls.count, 1000)

    def test_canonical_texts_are_known(self):
        for entry in entries():
            path = VECTORS / entry.input
            with self.subTest(entry.input):
                if entry.answer == "model":
                    own = entry.mps if form_of(path) == "mps" else entry.lp
                    is_own = not own.endswith(": NotLp") and path.read_bytes() == vectors.content(own)
                    self.assertIs(mpslp.is_canonical(path), is_own)
                    continue
                with self.assertRaises(mpslp.ModelFileError) as caught:
                    mpslp.is_canonical(path)
                self.assertEqual(str(caught.exception), f"{path}: {entry.answer}")

    def test_what_a_fault_reports(self):
        for entry in entries():
            if entry.answer == "model" and not entry.lp.endswith(": NotLp"):
                continue
            line = entry.lp if entry.answer == "model" else entry.answer
            with self.subTest(entry.input), self.assertRaises(mpslp.ModelFileError) as caught:
                mpslp.canonical(VECTORS / entry.input, to_format="lp")
            error = caught.exception
            self.assertEqual((error.which, error.kind), (None, line.split(": ")[1].split(" ")[0]))
            where, name, place, number = parts_of_line(line)
            if place is not None:  # the line has the number only of a name that is not legal in LP
                name = name_at(mpslp.load(VECTORS / entry.input), place, number)
            self.assertEqual(parts(error), (where, name, place, number))


def name_at(model, place, number):
    """The name of the objective, or of the row or column with this number in the byte order of the names."""
    if place == "objective":
        return model.objective
    return sorted(model.rows if place == "row" else model.columns)[number]


def parts(error):
    return error.line, error.name, error.place, error.number


def parts_of_line(line):
    """The line, the name, the place and its number, as the line of an error reports them."""
    where, _, what = line.partition(": ")
    word, _, number = where.partition(" ")
    name = what.partition(" ")[2] or None
    if word == "line":
        return int(number), name, None, None
    if word == "file":
        return None, name, None, None
    return None, name, word, int(number) if number else None


if __name__ == "__main__":
    unittest.main()
