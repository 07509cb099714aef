"""What the rules of docs/FORMATS.md made of a file: what it leaves to defaults, and what it may not be meant to say."""

from __future__ import annotations

from collections import defaultdict
from collections.abc import Iterator
from typing import NamedTuple

from mpslp._models._model import Model
from mpslp._report._contents import Contents
from mpslp._report._declared import BOTH, LOWER, UPPER, Declared
from mpslp._report._markup import Content, code, digits, joined, names


class Rule(NamedTuple):
    """A rule of the format that applies to a file."""

    what: Content
    """What is in the file, or not in it."""
    number: int | None
    """How often it is there, if that may be more than once."""
    effect: Content
    """What the model is by this rule."""
    is_remark: bool = False
    """The rule may be a surprise, so it is among the remarks at the head of the page."""


class GivenBounds(NamedTuple):
    """The columns of which the file gives the same bounds, and what the others are by default."""

    given: str
    bounds: str
    columns: list[str]


def given_bounds(declared: Declared, model: Model) -> list[GivenBounds]:
    """The columns by the bounds that the file gives."""
    groups: defaultdict[tuple[int, bool], list[str]] = defaultdict(list)
    with_upper_1 = declared.columns_with_upper_1()
    for column in model.columns:
        groups[declared.bounds.get(column, 0), column in with_upper_1].append(column)
    where = "between markers" if declared.is_mps else "under Binaries"
    texts = {
        (0, False): ("none", "0 to infinity"),
        (0, True): (f"none, {where}", "0 to 1"),
        (LOWER, False): ("lower", "the given one to infinity"),
        (LOWER, True): (f"lower, {where}", "the given one to 1"),
        (UPPER, False): ("upper", "0 to the given one"),
        (BOTH, False): ("lower and upper", "the given ones"),
    }
    return [GivenBounds(*texts[key], groups[key]) for key in texts if key in groups]


def rules_of(declared: Declared, model: Model, contents: Contents) -> list[Rule]:
    """The rules that apply to a file, in the order of its sections."""
    own = _of_mps(declared, model) if declared.is_mps else _of_lp(declared, model)
    return [*own, *_of_columns(declared, contents), *_of_both(declared, model, contents)]


def _of_mps(declared: Declared, model: Model) -> Iterator[Rule]:
    if declared.sense_in_comment:
        effect = f"ignored, as every comment; the sense is {model.sense}"
        yield Rule(f"the comment *SENSE:{declared.sense_in_comment}", None, effect, is_remark=not declared.has_sense)
    if not declared.has_sense:
        yield Rule("no OBJSENSE", None, "minimize")
    yield _objective(declared, model)
    if declared.has_constant:
        effect = joined(("the objective has the negative as its constant: ", digits(model.constant)))
        yield Rule("a number on the objective in RHS", None, effect)
    free = [row for row, kind in declared.row_types.items() if kind == "N"]
    if free:
        yield Rule("N rows other than the objective", len(free), joined(("kept as free rows: ", names(free))))
    ignored = [row for row in free if row in declared.with_rhs]
    if ignored:
        yield Rule(
            "N rows with a number in RHS",
            len(ignored),
            joined(("the number is ignored: ", names(ignored))),
            is_remark=True,
        )
    without = len(declared.row_types) - len(free) - len(declared.with_rhs) + len(ignored)
    if without:
        yield Rule("rows without a number in RHS", without, "the right-hand side is 0")
    yield from _infinite_sides(declared, "right-hand sides of magnitude 1e20 or more")
    yield from _ranges(declared)
    if declared.marked:
        yield Rule("columns between markers", len(declared.marked), "integer")
    by_bound = sum(declared.bound_types[kind] for kind in ("BV", "LI", "UI"))
    if by_bound:
        yield Rule("bounds of type BV, LI or UI", by_bound, "the column is integer")
    if declared.bound_types["MI"]:
        yield Rule("bounds of type MI", declared.bound_types["MI"], "no lower bound; the upper bound stays what it is")


def _objective(declared: Declared, model: Model) -> Rule:
    if not declared.has_objective:
        return Rule("no N row", None, joined(("an empty objective called ", code(model.objective))), is_remark=True)
    if declared.has_objname:
        return Rule("OBJNAME", None, joined(("it names the objective: ", code(model.objective))))
    return Rule("no OBJNAME", None, joined(("the first N row is the objective: ", code(model.objective))))


def _ranges(declared: Declared) -> Iterator[Rule]:
    texts = {
        ("L", 1): ("L rows", "from RHS - |R| to RHS"),
        ("G", 1): ("G rows", "from RHS to RHS + |R|"),
        ("E", 1): ("E rows, R above 0", "from RHS to RHS + R"),
        ("E", -1): ("E rows, R below 0", "from RHS - |R| to RHS"),
    }
    counts = declared.ranges.copy()
    for kind in "LG":
        counts[kind, 1] += counts.pop((kind, -1), 0)
    for key, (rows, effect) in texts.items():
        if counts[key]:
            yield Rule(f"numbers R in RANGES on {rows}", counts[key], effect, is_remark=key == ("E", -1))
    zeros = counts["L", 0] + counts["G", 0]
    if zeros:
        yield Rule("zeros in RANGES on L or G rows", zeros, "both limits are RHS: an equation", is_remark=True)
    if counts["E", 0]:
        yield Rule("zeros in RANGES on E rows", counts["E", 0], "the row stays an equation")


def _of_lp(declared: Declared, model: Model) -> Iterator[Rule]:
    if not declared.has_objective:
        yield Rule("no label on the objective", None, joined(("its name is ", code(model.objective))))
    unlabelled = len(model.rows) - declared.labels
    if unlabelled:
        yield Rule(
            "rows without a label",
            unlabelled,
            joined(("named ", code("c"), " and the position among all rows")),
            is_remark=bool(declared.labels),
        )
    yield from _infinite_sides(declared, "sides of rows that are inf, or of magnitude 1e20 or more")
    if declared.binaries:
        yield Rule(
            "columns under Binaries", len(declared.binaries), "integer; the bounds that are not given are 0 and 1"
        )


def _infinite_sides(declared: Declared, what: str) -> Iterator[Rule]:
    if declared.infinite_sides:
        yield Rule(
            what, declared.infinite_sides, "no limit: a row without another one is free", is_remark=declared.is_mps
        )


def _of_columns(declared: Declared, contents: Contents) -> Iterator[Rule]:
    with_upper_1 = declared.columns_with_upper_1()
    unit = [column for column in declared.marked if column in with_upper_1]
    if unit:
        yield Rule(
            "columns between markers without a bound",
            len(unit),
            joined(("the bounds are 0 and 1: ", names(unit))),
            is_remark=True,
        )
    open_ended = [column for column in declared.marked if declared.bounds.get(column) == LOWER]
    if open_ended:
        yield Rule(
            "columns between markers with a lower bound only",
            len(open_ended),
            joined(("no upper bound: ", names(open_ended))),
            is_remark=True,
        )
    zero = [column for column in contents.fixed_at_0 if declared.bounds.get(column) == UPPER]
    if zero:
        yield Rule(
            "upper bounds of 0 without a lower bound", len(zero), joined(("fixed at 0: ", names(zero))), is_remark=True
        )
    if contents.negative_upper:
        found = contents.negative_upper
        yield Rule(
            "upper bounds below 0",
            len(found),
            joined(("each has its lower bound in the file, as is required: ", names(found))),
        )
    if declared.infinite_bounds:
        what = (
            "bounds of magnitude 1e20 or more"
            if declared.is_mps
            else "bounds that are inf, or of magnitude 1e20 or more"
        )
        yield Rule(what, declared.infinite_bounds, "infinite: no bound")


def _of_both(declared: Declared, model: Model, contents: Contents) -> Iterator[Rule]:
    zeros = declared.coefficients - contents.coefficients.count - contents.costs.count
    if zeros:
        yield Rule("coefficients of 0", zeros, "accepted, and not part of the model")
    if contents.unused:
        yield Rule(
            "columns without a coefficient",
            len(contents.unused),
            joined(("part of the model: ", names(contents.unused))),
            is_remark=True,
        )
    if declared.problem:
        yield Rule(joined(("the problem name ", code(declared.problem))), None, "not part of the model")
    if declared.goes_on:
        yield Rule(f"text after {'ENDATA' if declared.is_mps else 'end'}", None, "ignored", is_remark=True)
