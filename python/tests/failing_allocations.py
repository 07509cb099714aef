"""Lets each request for memory of each call fail in turn, by the library that test_memory.py preloads and runs it with.

Each call has to raise MemoryError or to answer as ever, and to leak no memory. PYTHONMALLOC=malloc makes the
requests of Python's own objects fail, too.
"""

import ctypes
import sys
from itertools import count

from answers import CALLS, answer_of
from heap import bytes_in_use

MOST_TURNS = 20
PRELOADED = ctypes.PyDLL(None)
PRELOADED.call_refusing.restype = ctypes.py_object
PRELOADED.call_refusing.argtypes = [ctypes.py_object, ctypes.c_long]


def fail_in_turn(call, wanted):
    """Answers how many requests there were, and in how many of their refusals the call raised MemoryError."""
    raised = 0
    for number in count():
        try:
            answer = answer_of(lambda: PRELOADED.call_refusing(call, number))
            if answer != wanted:
                raise SystemExit(f"{call}: {answer!r} where request {number} is refused")
        except MemoryError:
            raised += 1
        if not PRELOADED.was_refused():
            return number, raised


def check(name, call):
    """Fails in turn until nothing more stays in use: what Python and malloc keep for later is filled by then."""
    wanted = answer_of(call)
    grown = []
    while not grown or grown[-1] > 0:
        if len(grown) == MOST_TURNS:
            raise SystemExit(f"{name}: {grown} bytes stay in use")
        before = bytes_in_use()
        requests, raised = fail_in_turn(call, wanted)
        grown.append(bytes_in_use() - before)
    print(f"{name}: {requests} requests, {raised} times MemoryError")


def main():
    for name, call in CALLS.items():
        check(name, call)


if __name__ == "__main__":
    sys.exit(main())
