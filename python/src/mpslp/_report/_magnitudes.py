"""The magnitudes of the numbers of a model: a histogram of powers of ten, the extremes, and remarks on wide ranges."""

from __future__ import annotations

from collections.abc import Iterator, Sequence
from decimal import Context, Decimal

from mpslp._models._numbers import EXACT
from mpslp._report._contents import Extreme, Magnitudes
from mpslp._report._markup import Content, Heading, Markup, code, digits, element, joined, markup, table

# What guides of solvers advise at most for the ratio of the largest to the smallest coefficient.
_WIDE, _VERY_WIDE = Decimal("1e6", EXACT), Decimal("1e9", EXACT)
# Coefficients that HiGHS treats as 0, and those that it rejects, if its options are not changed.
_TREATED_AS_0, _REJECTED = -9, 15
# From this power of ten on, neighbouring doubles differ by more than 1e-6, the usual tolerance for limits and bounds.
_COARSE = 10
# Doubles have no larger and no smaller power of ten.
_MOST_OF_DOUBLES, _LEAST_OF_DOUBLES = 308, -324
# A longer run of powers of ten without numbers is one line.
_MOST_EMPTY = 3
# Ratios of numbers of 36 digits: those that are not 1e6 stay so. The user's own context may round more, or reject it.
_RATIO = Context(prec=50)


def histogram(caption: str, all_magnitudes: Sequence[Magnitudes]) -> Markup:
    """The table of the powers of ten, with bars."""
    powers = sorted({power for magnitudes in all_magnitudes for power in magnitudes.powers}, reverse=True)
    most = [max(magnitudes.powers.values(), default=1) for magnitudes in all_magnitudes]
    rows = []
    for first, last in _lines(powers):
        what = f"1e{first}" if first == last else f"1e{first} to 1e{last}"
        rows.append(
            [markup(what), *(_bar(magnitudes.powers[first], top) for magnitudes, top in zip(all_magnitudes, most))]
        )
    zeros = [markup("zero"), *(_bar(magnitudes.zeros, 0) for magnitudes in all_magnitudes)]
    head: list[Content | Heading] = [
        "power of ten",
        *(Heading(magnitudes.what, "bars") for magnitudes in all_magnitudes),
    ]
    return table(caption, head, rows, zeros, class_="histogram")


def _lines(powers: Sequence[int]) -> Iterator[tuple[int, int]]:
    """The powers of ten from the largest to the smallest, each once, but a long run of those without numbers in one
    line.
    """
    before: int | None = None
    for power in powers:
        missing = range(power if before is None else before - 1, power, -1)
        if len(missing) > _MOST_EMPTY:
            yield missing[0], missing[-1]
        else:
            yield from zip(missing, missing)
        yield power, power
        before = power


def _bar(count: int, most: int) -> Markup:
    """A count, and a bar for its share of the greatest count, if that is not 0."""
    if not count:
        return Markup()
    bar = element("span", class_="bar", style=f"width:{max(1, round(100 * count / most))}%") if most else Markup()
    return joined((count, element("span", bar, class_="track")))


def extremes(caption: str, all_magnitudes: Sequence[Magnitudes]) -> Markup:
    """The table of the smallest and the largest numbers, with the rows and columns that have them."""
    rows = []
    for magnitudes in all_magnitudes:
        cells = [Markup()] * 5
        if magnitudes.smallest is not None and magnitudes.largest is not None:
            ratio = _ratio(magnitudes.smallest, magnitudes.largest)
            cells = [*_cells(magnitudes.smallest), *_cells(magnitudes.largest), markup(_rounded(ratio))]
        rows.append([markup(magnitudes.what), markup(magnitudes.count), *cells])
    smallest, largest = Heading("smallest", "exact"), Heading("largest", "exact")
    where = Heading("where", "words")
    return table(caption, ["numbers", "nonzero", smallest, where, largest, where, "ratio"], rows)


def _cells(extreme: Extreme) -> tuple[Markup, Markup]:
    return digits(extreme.number), joined(map(code, extreme.where), ", ")


def _rounded(number: Decimal) -> str:
    """A positive number with two digits or three, and without zeros at its end."""
    return (
        f"{float(number):.3g}"
        if Decimal("0.01") <= number < 999
        else f"{number:.1e}".replace(".0e", "e").replace("e+", "e")
    )


def _ratio(smallest: Extreme, largest: Extreme) -> Decimal:
    return _RATIO.divide(largest.number.copy_abs(), smallest.number.copy_abs())


def remarks(coefficients: Magnitudes, costs: Magnitudes, limits: Magnitudes, bounds: Magnitudes) -> Iterator[Markup]:
    """What guides of solvers advise against, if the numbers of a model have it."""
    yield from _of_range(coefficients)
    yield from _of_range(costs)
    tiny = _count(coefficients, most=_TREATED_AS_0 - 1)
    if tiny:
        yield markup(
            f"Coefficients of magnitude below 1e{_TREATED_AS_0}: {tiny:,}. Some solvers, such as HiGHS, treat them"
            " as 0."
        )
    huge = _count(coefficients, least=_REJECTED)
    if huge:
        yield markup(
            f"Coefficients of magnitude 1e{_REJECTED} or more: {huge:,}. Some solvers, such as HiGHS, reject them."
        )
    for magnitudes in (limits, bounds):
        coarse = _count(magnitudes, least=_COARSE)
        if coarse:
            yield markup(
                f"{_title(magnitudes)} of magnitude 1e{_COARSE} or more: {coarse:,}. Neighbouring doubles differ by"
                " more than 1e-6 there, the usual tolerance of solvers. Leave out what is not meant as a limit, and"
                " use a larger unit for the rest."
            )
    for magnitudes in (coefficients, costs, limits, bounds):
        beyond = _count(magnitudes, most=_LEAST_OF_DOUBLES - 1) + _count(magnitudes, least=_MOST_OF_DOUBLES + 1)
        if beyond:
            yield markup(
                f"{_title(magnitudes)} of a magnitude that no double has: {beyond:,}. Solvers read them as 0 or as"
                " infinity."
            )


def _of_range(magnitudes: Magnitudes) -> Iterator[Markup]:
    if magnitudes.smallest is None or magnitudes.largest is None:
        return
    ratio = _ratio(magnitudes.smallest, magnitudes.largest)
    if ratio > _WIDE:
        smallest, largest = (_rounded(each.number.copy_abs()) for each in (magnitudes.smallest, magnitudes.largest))
        yield markup(
            f"{_title(magnitudes)}: the range is {'very wide' if ratio > _VERY_WIDE else 'wide'}, from {smallest} to"
            f" {largest}. Guides of solvers advise a ratio of at most 1e6, and never more than 1e9. Other units for"
            " rows or columns reduce it."
        )


def _title(magnitudes: Magnitudes) -> str:
    return magnitudes.what[0].upper() + magnitudes.what[1:]


def _count(magnitudes: Magnitudes, least: int = -1000, most: int = 1000) -> int:
    """How many numbers have a power of ten between these."""
    return sum(count for power, count in magnitudes.powers.items() if least <= power <= most)
