"""Names whose hashes are equal for whoever knows the seed are as fast as other names, since each call has a seed of its
own."""

import sys
import time
import unittest

import mpslp
from repository import ROOT

sys.path.insert(0, str(ROOT / "bench"))

from colliding import alike, colliding
from hostile import named_as_lp, named_as_mps

NAMED = {"mps": named_as_mps, "lp": named_as_lp}
COUNT = 8000
SEED = 1
ROUNDS = 5


def text_of(names, form):
    return "".join(NAMED[form](names)(COUNT, SEED)).encode()


def seconds(call):
    """The least processor time of a call."""
    taken = []
    for _ in range(ROUNDS):
        begun = time.process_time()
        call()
        taken.append(time.process_time() - begun)
    return min(taken)


class Seeds(unittest.TestCase):
    # With equal hashes it would be fifty.
    MOST = 3

    def assert_as_fast(self, call, form):
        """A call takes about as long on what names that collide make as on what others make."""
        taken, usual = (
            seconds(lambda: call(text_of_names)) for text_of_names in (text_of(colliding, form), text_of(alike, form))
        )
        self.assertLess(taken, self.MOST * usual)

    def test_texts(self):
        for form in ("mps", "lp"):
            with self.subTest(form):
                self.assert_as_fast(lambda text: mpslp.load(text, form), form)
                self.assert_as_fast(lambda text: mpslp.same(text, text, form, form), form)

    def test_models_that_are_made(self):
        made = {text: mpslp.load(text, "mps").arrays() for text in (text_of(colliding, "mps"), text_of(alike, "mps"))}
        self.assert_as_fast(lambda text: mpslp.from_arrays(made[text]), "mps")
