"""Work on many items in several processes."""

from __future__ import annotations

import signal
import sys
from collections.abc import Callable, Iterator, Sequence
from contextlib import contextmanager, suppress
from typing import TYPE_CHECKING, Any, NoReturn, TypeVar

if TYPE_CHECKING:
    from multiprocessing.connection import Connection

Item = TypeVar("Item")
Result = TypeVar("Result")


def results_in_order(function: Callable[[Item], Result], items: Sequence[Item], jobs: int) -> Iterator[Result]:
    """What a function returns for each item, in order, from so many processes, as :func:`results_as_done` says."""
    done, following = dict[int, Result](), 0
    for number, result in results_as_done(function, items, jobs):
        done[number] = result
        while following in done:
            yield done.pop(following)
            following += 1


def results_as_done(
    function: Callable[[Item], Result], items: Sequence[Item], jobs: int
) -> Iterator[tuple[int, Result]]:
    """The number of each item, and what a function returns for it, as soon as that is there, from so many processes.

    An item is given to a process when it is done with the one before. If this is interrupted, the items that are begun
    are done first. If the system has no descriptors or processes left for so many, this process does all. Raises
    ChildProcessError if a process ends before its item is done.
    """
    workers = min(jobs, len(items))
    if workers < 2:
        yield from enumerate(map(function, items))
        return
    from multiprocessing import get_context, resource_tracker
    from multiprocessing.connection import wait

    # New processes: a forked one may not call the library if its parent has threads.
    context = get_context("spawn")
    numbers, begun = iter(range(len(items))), dict[Any, int]()
    connections, processes = list[Any](), list[Any]()

    def give(connection: Any) -> None:
        number = next(numbers, None)
        if number is not None:
            begun[connection] = number
            connection.send(items[number])

    try:
        for _ in range(workers):
            try:
                resource_tracker.ensure_running()  # the start of it lets interrupts through again
                connection, process = _started(context, function)
            except OSError:
                break
            connections.append(connection)
            processes.append(process)
        if len(processes) < workers:
            _end(connections, processes)  # this process needs the descriptors
            yield from enumerate(map(function, items))
            return
        for connection in connections:
            give(connection)
        while begun:
            for ready in wait(list(begun)):
                number, result = begun.pop(ready), _received(ready)
                give(ready)
                yield number, result
    finally:
        _end(connections, processes)


def _started(context: Any, function: Callable[[Any], Any]) -> tuple[Any, Any]:
    """The connection to a new process that does items, and the process. Raises OSError if the system has none left."""
    mine, other = context.Pipe()
    try:
        process = context.Process(target=_serve, args=(function, other))
        with _interrupts_blocked():  # also in the process, until it ignores them
            process.start()
    except OSError:
        mine.close()
        raise
    finally:
        other.close()  # so that the process ends with this one, whatever ends it
    return mine, process


def _end(connections: Sequence[Any], processes: Sequence[Any]) -> None:
    """Ends processes after the items that they have begun."""
    for connection in connections:
        connection.close()
    for process in processes:
        process.join()


@contextmanager
def _interrupts_blocked() -> Iterator[None]:
    """Within it, interrupts wait."""
    before = signal.pthread_sigmask(signal.SIG_BLOCK, [signal.SIGINT])
    try:
        yield
    finally:
        signal.pthread_sigmask(signal.SIG_SETMASK, before)


def _received(connection: Any) -> Any:
    try:
        return connection.recv()
    except (EOFError, OSError):
        raise ChildProcessError("a process ended before its file was done") from None


def _serve(function: Callable[[Any], Any], connection: Connection) -> None:
    """Does one item after the other, until there are no more."""
    signal.signal(signal.SIGINT, signal.SIG_IGN)  # an interrupt ends the process that waits for this one
    signal.signal(signal.SIGTERM, _terminate)
    with suppress(EOFError, BrokenPipeError, ConnectionResetError):
        while True:
            connection.send(function(connection.recv()))


def _terminate(number: int, frame: object) -> NoReturn:
    """Ends the process as an exception does, so that no temporary file is left."""
    sys.exit(128 + number)
