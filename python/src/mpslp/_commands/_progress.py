"""A line of a terminal that says how far a command is, if it takes more than a second."""

from __future__ import annotations

import sys
import time
from collections.abc import Iterator
from contextlib import contextmanager
from threading import Event, Lock, Thread
from types import TracebackType

from mpslp._files._output import OutputError, write_all

_PATIENCE = 1.0
"""How many seconds a command takes before the line appears."""
_PAUSE = 0.5
_ERASE = "\r\x1b[K"


class Progress:
    """How many files are done, and for how long the command runs, in one line of a terminal.

    It is erased at the end.
    """

    def __init__(self, total: int, is_wanted: bool = True) -> None:
        self._total = total
        self._done = 0
        self._start = time.monotonic()
        self._is_shown = False
        self._lock = Lock()
        self._ended = Event()
        is_terminal = is_wanted and sys.stderr is not None and sys.stderr.isatty()
        self._thread = Thread(target=self._run, daemon=True) if is_terminal else None

    def __enter__(self) -> Progress:
        if self._thread is not None:
            self._thread.start()
        return self

    def __exit__(
        self, kind: type[BaseException] | None, error: BaseException | None, trace: TracebackType | None
    ) -> None:
        if self._thread is not None:
            self._ended.set()
            self._thread.join()
            self._erase()

    def count(self) -> None:
        """One more file is done."""
        self._done += 1

    def set(self, done: int, total: int) -> None:
        """So many files are done, of all."""
        self._done, self._total = done, total

    @contextmanager
    def hidden(self) -> Iterator[None]:
        """Within it, something else is printed."""
        with self._lock:
            self._erase()
            yield

    def _run(self) -> None:
        pause = _PATIENCE
        while not self._ended.wait(pause):
            pause = _PAUSE
            with self._lock:
                self._show()

    def _show(self) -> None:
        seconds = int(time.monotonic() - self._start)
        files = f"{self._done} of {self._total} files, " if self._total > 1 else ""
        try:
            write_all(sys.stderr, f"{_ERASE}{files}{seconds} s")
        except OutputError:  # the terminal is gone; what is printed next says so
            self._ended.set()
        self._is_shown = True

    def _erase(self) -> None:
        if self._is_shown:
            self._is_shown = False
            write_all(sys.stderr, _ERASE)
