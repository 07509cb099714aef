"""Two files that are compared, or the files of two directories."""

from __future__ import annotations

import argparse
import errno
import os
from collections.abc import Callable, Collection, Iterable, Iterator
from itertools import chain
from typing import Any, NamedTuple, Protocol

from mpslp._commands._inputs import STANDARD_INPUT, Input, formats_before, text_of
from mpslp._commands._outcomes import Outcome, Record, Status, UsageError, failure, record_of
from mpslp._commands._progress import Progress
from mpslp._commands._targets import with_extension
from mpslp._commands._warned import before, warned
from mpslp._commands._work import for_outcome, print_outcome, without_models
from mpslp._errors._faults import ModelFileError
from mpslp._files._compression import without_ending
from mpslp._files._output import shown_path
from mpslp._files._paths import found_files
from mpslp._files._sources import Text

NO_FILE = os.devnull
"""What git gives instead of a file that is new or deleted."""
NOT_THE_SAME = "not the same"
"""The verdict about models that differ."""
SAME_BUT_FOR_NAMES = "same but for names"
"""The verdict about models that are the same under other names."""


class Paths(NamedTuple):
    """The paths of two files that are compared. One may be NO_FILE."""

    first: str | None
    second: str | None

    def record(self, verdict: str, **more: Any) -> Record:
        """What is printed of the two files as JSON."""
        return {**record_of(self.first, "accepted", second=self.second, verdict=verdict), **more}


class Comparison(Protocol):
    """What a command prints of two files."""

    def of_both(self, first: Text, second: Text) -> Outcome:
        """What is printed of two files that open."""
        ...

    def of_one(self, given: Input, is_first: bool) -> Outcome:
        """What is printed of a file whose other one is missing."""
        ...


class Pair(NamedTuple):
    """Two files that are compared. One may be NO_FILE."""

    first: Input
    second: Input


def run_for_pairs(options: argparse.Namespace, comparison: Comparison) -> Status:
    """Compares the two files of the arguments, or the files that have one place in two directories."""
    if len(options.files) == 2 and all(map(os.path.isdir, options.files)):
        return _run_for_directories(options, comparison)
    pair = _pair(options)
    return for_outcome(options, lambda: outcome_of_files(pair, options, comparison))


def _pair(options: argparse.Namespace) -> Pair:
    """The files of the arguments ``FIRST SECOND``, or ``FROM PATH FROM PATH`` as for the program mpslp."""
    words = options.files
    formats = formats_before(words, 4, (0, 2), options)
    if formats is not None:
        pair = Pair(Input(words[1], format=formats[0]), Input(words[3], format=formats[1]))
    elif len(words) == 2:
        pair = Pair(Input(words[0]), Input(words[1]))
    else:
        raise UsageError(f"{options.command} takes two files, or two directories")
    if pair.first.path == pair.second.path == STANDARD_INPUT:
        raise UsageError("at most one file is standard input")
    return pair


def outcome_of_files(pair: Pair, options: argparse.Namespace, comparison: Comparison) -> Outcome:
    """What comes of two files that both have to be there."""
    texts = []
    for each in pair:
        if each.path != STANDARD_INPUT and not os.path.exists(each.path):
            return failure(each.path, FileNotFoundError(errno.ENOENT, os.strerror(errno.ENOENT), each.path))
    for each in pair:
        try:
            texts.append(text_of(each, options))
        except (OSError, ImportError, MemoryError) as error:
            return failure(each.path, error)
    first, second = texts
    try:
        done = comparison.of_both(first, second)
    except ModelFileError as error:
        text = second if error.which == "second" else first
        return failure(str(text.filename), error, text)
    except MemoryError as error:
        return failure(pair.first.path, error)
    return before((warned(first, options), warned(second, options)), lambda: done).with_shown(
        pair.first.path, pair.second.path
    )


# ---- two directories


def _run_for_directories(options: argparse.Namespace, comparison: Comparison) -> Status:
    failed: list[OSError] = []
    first, second = options.files
    pairs = _pairs(first, second, failed.append)
    worst, verdicts = Status.DONE, {"same"}
    with Progress(len(pairs), not options.quiet) as progress:
        for outcome in chain(
            (failure(str(error.filename), error) for error in failed), _outcomes(pairs, options, comparison)
        ):
            if outcome.status == Status.DONE:
                verdicts.add(outcome.output)
                outcome = outcome._replace(output="")
            print_outcome(outcome, options, progress)
            progress.count()
            worst = max(worst, outcome.status)
        if worst == Status.DONE and not options.quiet and not getattr(options, "json", False):
            print_outcome(_verdict(verdicts) if pairs else without_models(options.files), options, progress)
    return worst


def _verdict(verdicts: Collection[str]) -> Outcome:
    """What is said of two directories in which nothing differs."""
    return Outcome(output=next(verdict for verdict in ("close", SAME_BUT_FOR_NAMES, "same") if verdict in verdicts))


def _pairs(first: str, second: str, report: Callable[[OSError], None]) -> list[tuple[str, Pair]]:
    """The files of two directories by their places, in order.

    Files that have no other one with their place are paired if their places differ in the extensions only.
    """
    ones, others = ({each.place: Input(*each) for each in found_files([path], report)} for path in (first, second))
    left, right = _by_stem(ones.keys() - others.keys()), _by_stem(others.keys() - ones.keys())
    converted = {
        left[stem][0]: right[stem][0] for stem in left.keys() & right.keys() if len(left[stem]) == len(right[stem]) == 1
    }
    missing, partners = Input(NO_FILE), set(converted.values())
    pairs = [(place, Pair(given, others.get(converted.get(place, place), missing))) for place, given in ones.items()]
    pairs += [
        (place, Pair(missing, given)) for place, given in others.items() if place not in ones and place not in partners
    ]
    return sorted(pairs)


def _by_stem(places: Iterable[str]) -> dict[str, list[str]]:
    """Places by what they are without their extensions."""
    found: dict[str, list[str]] = {}
    for place in places:
        found.setdefault(with_extension(without_ending(place)[0], "mps"), []).append(place)
    return found


def _outcomes(
    pairs: Iterable[tuple[str, Pair]], options: argparse.Namespace, comparison: Comparison
) -> Iterator[Outcome]:
    """What comes of each pair; a line with its place comes before what is printed of two that differ."""
    for place, pair in pairs:
        outcome = _outcome(pair, options, comparison)
        if outcome.status in (Status.DIFFERS, Status.UNDECIDED) and (outcome.output or outcome.lines):
            outcome = outcome._replace(lines=chain([f"==> {shown_path(place)} <=="], outcome.lines))
        yield outcome


def _outcome(pair: Pair, options: argparse.Namespace, comparison: Comparison) -> Outcome:
    if pair.second.path == NO_FILE:
        return comparison.of_one(pair.first, True)
    if pair.first.path == NO_FILE:
        return comparison.of_one(pair.second, False)
    return outcome_of_files(pair, options, comparison)
