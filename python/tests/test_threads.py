"""Calls in many threads at once."""

import threading
import time
import unittest
from concurrent.futures import ThreadPoolExecutor

import mpslp
from repository import EXAMPLES, VECTORS, large_text, model_files


class Threads(unittest.TestCase):
    def test_answers_are_those_of_one_thread(self):
        files = model_files(EXAMPLES) + model_files(VECTORS)
        with ThreadPoolExecutor(8) as pool:
            for _ in range(4):
                self.assertEqual(list(pool.map(answer, files)), list(map(answer, files)))

    def test_one_text_in_many_threads(self):
        text = large_text(2000)
        with ThreadPoolExecutor(8) as pool:
            answers = set(pool.map(lambda _: mpslp.canonical(text, "mps", "lp"), range(64)))
        self.assertEqual(answers, {mpslp.canonical(text, "mps", "lp")})

    def test_others_go_on_during_a_call(self):
        text = large_text(100_000)
        for call in (
            lambda: mpslp.canonical(text, "mps"),
            lambda: mpslp.same(text, text, "mps", "mps"),
            lambda: mpslp.is_canonical(text, "mps"),
            lambda: mpslp.load(text, "mps"),
        ):
            during = ticks_during(call)
            # With the lock held there would be none but at the very ends of the call.
            self.assertGreater(during, 5)

    def test_load_holds_the_lock_hardly_at_all(self):
        text = large_text(100_000)
        # Other work on the machine makes gaps, too, so the least of some is taken.
        self.assertLess(min(longest_share_without_ticks(lambda: mpslp.load(text, "mps")) for _ in range(5)), 0.2)

    def test_rows_of_one_model_in_many_threads(self):
        model = mpslp.load(large_text(2000), "mps")
        with ThreadPoolExecutor(8) as pool:
            lengths = list(pool.map(lambda row: len(row.entries), model.rows.values()))
        self.assertEqual(sorted(lengths), [0] + [4] * 500)

    def test_a_buffer_that_another_thread_writes_to(self):
        text = large_text(2000)
        wanted = mpslp.canonical(text, "mps")
        source = bytearray(text)
        is_over = threading.Event()

        def write():
            while not is_over.is_set():
                for at in range(0, len(source), 997):
                    source[at] = 0
                source[:] = text

        writer = threading.Thread(target=write)
        writer.start()
        try:
            answers = {try_canonical(source) for _ in range(20)}
        finally:
            is_over.set()
            writer.join()
        self.assertLessEqual({type(answer) for answer in answers}, {bytes, str})
        self.assertLessEqual({answer for answer in answers if isinstance(answer, bytes)}, {wanted})


def answer(path):
    try:
        return mpslp.canonical(path, to_format="lp")
    except mpslp.ModelFileError as error:
        return str(error)


def try_canonical(source):
    try:
        return mpslp.canonical(source, "mps")
    except mpslp.ModelFileError as error:
        return str(error)


def ticks_during(call):
    """How often this thread ran while another one was within a call."""
    caller = threading.Thread(target=call)
    ticks = 0
    caller.start()
    while caller.is_alive():
        time.sleep(0.0005)
        ticks += 1
    return ticks


def longest_share_without_ticks(call):
    """The longest time in which this thread did not run while another one was within a call, as a share of that
    call's."""
    caller = threading.Thread(target=call)
    longest = 0.0
    begin = last = time.perf_counter()
    caller.start()
    while caller.is_alive():
        time.sleep(0.0002)
        now = time.perf_counter()
        longest = max(longest, now - last)
        last = now
    return longest / (last - begin)


if __name__ == "__main__":
    unittest.main()
