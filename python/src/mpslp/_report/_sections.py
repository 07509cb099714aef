"""The sections of the page."""

from __future__ import annotations

from collections.abc import Callable, Iterator, Sequence
from typing import NamedTuple

from mpslp import _mpslp
from mpslp._report._contents import COLUMN_BOUNDS, COLUMN_KINDS, ROW_KINDS, Lengths
from mpslp._report._formulas import MOST_ROWS, bounds_as_formulas, rows_as_formulas
from mpslp._report._magnitudes import extremes, histogram
from mpslp._report._magnitudes import remarks as remarks_on_magnitudes
from mpslp._report._markup import (
    Content,
    Heading,
    Markup,
    code,
    digits,
    element,
    joined,
    link,
    many,
    markup,
    names,
    table,
)
from mpslp._report._picture import matrix_of, picture
from mpslp._report._rules import given_bounds, rules_of
from mpslp._report._subjects import Subject

HEADINGS = {
    "differences": "Differences",
    "formulas": "Formulas",
    "remarks": "Remarks",
    "counts": "Counts",
    "magnitudes": "Magnitudes",
    "picture": "Picture of the nonzeros",
    "defaults": "Defaults and rules",
}
"""The headings of the sections by their names."""

_FORMATS = {_mpslp.MPS: "MPS", _mpslp.LP: "LP"}

Lines = Sequence[tuple[str, Content]]


class Remark(NamedTuple):
    """What a reader of the page may want to look at, and the section that has more of it."""

    section: str
    what: Markup


def remarks(subject: Subject) -> Iterator[Remark]:
    """The remarks on a file, in the order of the sections."""
    contents = subject.contents
    if not subject.model.rows:
        yield Remark("counts", markup("The model has no rows."))
    elif contents.row_lengths is not None and contents.row_lengths.empty:
        empty = contents.row_lengths.empty
        yield Remark("counts", joined((f"Rows without a nonzero ({len(empty):,}): ", names(empty), ".")))
    if subject.model.rows and contents.only_costs:
        found = contents.only_costs
        yield Remark(
            "counts", joined((f"Columns that are only in the objective ({len(found):,}): ", names(found), "."))
        )
    for remark in remarks_on_magnitudes(*contents.magnitudes):
        yield Remark("magnitudes", remark)
    for rule in rules_of(subject.declared, subject.model, contents):
        if rule.is_remark:
            count = "" if rule.number is None else f" ({rule.number:,})"
            yield Remark("defaults", joined((_capital(rule.what), count, ": ", rule.effect, ".")))


def remark_list(subjects: Sequence[Subject]) -> Markup:
    """The remarks on all files as a list; those on both of two files once."""
    labels: dict[Remark, list[str]] = {}
    for subject in subjects:
        for remark in remarks(subject):
            labels.setdefault(remark, []).append(subject.label)
    if not labels:
        return element("p", "There are no remarks.")
    lines = []
    for remark, of in labels.items():
        which = "both files" if len(of) > 1 else of[0]
        prefix = joined((element("b", which), ": ")) if len(subjects) > 1 else Markup()
        lines.append(element("li", prefix, remark.what, " ", link(remark.section, HEADINGS[remark.section]), "."))
    return element("ul", *lines, class_="remarks")


def model_formulas(subjects: Sequence[Subject]) -> Markup:
    """The models as formulas; nothing if all are too large."""
    small = [subject for subject in subjects if len(subject.model.rows) <= MOST_ROWS]
    return _beside(
        *(rows_as_formulas(each.model, each.order, _caption(subjects, each)) for each in small),
        *(bounds_as_formulas(each.model, each.order, _caption(subjects, each)) for each in small),
    )


def counts(subjects: Sequence[Subject]) -> Markup:
    """How many rows, columns and nonzeros there are, and of which kinds."""
    facts = _compared("The model", "property", Heading("value", "words"), subjects, _facts)
    rows = _compared("Rows by kind", "rows", "count", subjects, _row_kinds, has_total=True)
    of_columns = [_column_kinds(subjects, subject) for subject in subjects]
    lengths = [_lengths(subjects, subject) for subject in subjects]
    if len(subjects) == 1:
        return _beside(facts, *of_columns, rows, *lengths)
    return joined((facts, rows, _beside(*of_columns, *lengths)), "\n")


def magnitudes(subjects: Sequence[Subject]) -> Markup:
    """The magnitudes of all numbers."""
    note = (
        "The line 1e3 counts the numbers from 1000 to below 10000, by their absolute value. "
        "A row limit or a column bound that is infinite is left out."
    )
    return joined(
        (
            element("p", note, class_="soft"),
            *(
                extremes(f"Smallest and largest numbers{_caption(subjects, subject)}", subject.contents.magnitudes)
                for subject in subjects
            ),
            *(
                histogram(
                    f"How many numbers have each power of ten{_caption(subjects, subject)}", subject.contents.magnitudes
                )
                for subject in subjects
            ),
        ),
        "\n",
    )


def pictures(subjects: Sequence[Subject]) -> Markup:
    """Where the nonzeros are."""
    return element("div", *(_picture(subject, number) for number, subject in enumerate(subjects, 1)), class_="pictures")


def defaults(subjects: Sequence[Subject]) -> Markup:
    """What the files leave to defaults."""
    return joined(
        (each for subject in subjects for each in (_given_bounds(subjects, subject), _rules(subjects, subject))), "\n"
    )


def summary(subject: Subject) -> Markup:
    """A sentence about a file."""
    model, contents = subject.model, subject.contents
    whole = sum(count for (_, kind), count in contents.columns.items() if kind == "integer")
    rows, columns, nonzeros = (
        many(len(model.rows), "row"),
        many(len(model.columns), "column"),
        many(contents.coefficients.count, "nonzero"),
    )
    columns += f", {whole:,} of them integer," if whole else ""
    text = f" ({_FORMATS[subject.text.format]}, {len(subject.text.content):,} bytes): {model.sense} "
    return element(
        "p",
        code(subject.path),
        text,
        code(model.objective),
        f" over {columns} in {rows} with {nonzeros}.",
        class_="soft",
    )


def _facts(subject: Subject) -> Lines:
    model, counted = subject.model, subject.contents.coefficients.count
    places = len(model.rows) * len(model.columns)
    return (
        ("objective", joined((f"{model.sense} ", code(model.objective)))),
        ("constant of the objective", digits(model.constant)),
        ("rows", len(model.rows)),
        ("columns", len(model.columns)),
        ("nonzeros", counted),
        ("density", f"{100 * counted / places:.3g} %" if places else "no rows or no columns"),
        ("SHA-256 of the canonical MPS text", code(subject.digest)),
    )


def _row_kinds(subject: Subject) -> Lines:
    kinds = subject.contents.row_kinds
    return (*((kind, kinds[kind]) for kind in ROW_KINDS), ("all rows", sum(kinds.values())))


def _column_kinds(subjects: Sequence[Subject], subject: Subject) -> Markup:
    columns = subject.contents.columns
    lines: list[list[Content]] = []
    for bounds in COLUMN_BOUNDS:
        found = [columns[bounds, kind] for kind in COLUMN_KINDS]
        if any(found):
            lines.append([bounds, *found, sum(found)])
    totals = [sum(count for (_, each), count in columns.items() if each == kind) for kind in COLUMN_KINDS]
    total: list[Content] = ["all columns", *totals, sum(totals)]
    caption = f"Columns by bounds and type{_caption(subjects, subject)}"
    return table(caption, ["bounds", *COLUMN_KINDS, "all"], lines, total)


def _lengths(subjects: Sequence[Subject], subject: Subject) -> Markup:
    both = (subject.contents.row_lengths, subject.contents.column_lengths)

    def line(what: str, number: Callable[[Lengths], Content]) -> list[Content]:
        return [what, *(Markup() if lengths is None else number(lengths) for lengths in both)]

    lines = (
        line("fewest", lambda lengths: lengths.least),
        line("median", lambda lengths: lengths.median),
        line("most", lambda lengths: lengths.most),
        line("most in", lambda lengths: code(lengths.longest)),
        line("with no nonzero", lambda lengths: len(lengths.empty)),
        line("with one nonzero", lambda lengths: lengths.singles),
    )
    caption = f"Nonzeros of rows and columns{_caption(subjects, subject)}"
    return table(caption, ["nonzeros", "of a row", "of a column"], lines)


def _picture(subject: Subject, number: int) -> Markup:
    rows, columns, counted = len(subject.model.rows), len(subject.model.columns), subject.contents.coefficients.count
    if not rows:
        return element("p", f"{subject.label} has no rows, so there is no picture.")
    title = f"Nonzeros of {subject.label}: {many(rows, 'row')}, {many(columns, 'column')}, {many(counted, 'nonzero')}"
    return picture(matrix_of(subject.model, subject.arrays, subject.order), title, number)


def _given_bounds(subjects: Sequence[Subject], subject: Subject) -> Markup:
    lines = [
        (each.given, each.bounds, len(each.columns), names(each.columns))
        for each in given_bounds(subject.declared, subject.model)
    ]
    caption = f"Column bounds that the file gives{_caption(subjects, subject)}"
    head: list[Content | Heading] = [
        "given in the file",
        Heading("bounds of the model", "words"),
        "columns",
        Heading("which", "words"),
    ]
    return table(caption, head, lines)


def _rules(subjects: Sequence[Subject], subject: Subject) -> Markup:
    rules = rules_of(subject.declared, subject.model, subject.contents)
    of_file = _caption(subjects, subject)
    if not rules:
        return element("p", f"No other rule of the format changes what the file says{of_file}.")
    lines: list[list[Content]] = [
        [rule.what, Markup() if rule.number is None else rule.number, rule.effect] for rule in rules
    ]
    head: list[Content | Heading] = [Heading("in the file", "words"), "count", Heading("in the model", "words")]
    return table(f"Rules that apply to the file{of_file}", head, lines)


def _compared(
    caption: str,
    what: str,
    heading: str | Heading,
    subjects: Sequence[Subject],
    lines_of: Callable[[Subject], Lines],
    has_total: bool = False,
) -> Markup:
    """A table of one file, whose values have this heading; or of two, with a column that says where they differ.

    The last line may be a total.
    """
    lines: list[list[Content]] = []
    for cells in zip(*map(lines_of, subjects)):
        values = [value for _, value in cells]
        differs = [element("b", "differs") if len(set(values)) > 1 else Markup()] if len(subjects) > 1 else []
        lines.append([cells[0][0], *values, *differs])
    total = lines.pop() if has_total else ()
    if len(subjects) == 1:
        return table(caption, [what, heading], lines, total)
    files = (Heading(subject.label, "words") for subject in subjects)
    return table(caption, [what, *files, Heading("comparison", "words")], lines, total)


def _beside(*contents: Content) -> Markup:
    """Tables beside each other where there is room; nothing if there are none."""
    found = [element("div", each) for each in contents if each]
    return element("div", *found, class_="beside") if found else Markup()


def _caption(subjects: Sequence[Subject], subject: Subject) -> str:
    """The end of the caption of a table: the file, if there are two."""
    return "" if len(subjects) == 1 else f": {subject.label}"


def _capital(content: Content) -> Markup:
    """Content with a capital letter, unless it starts with an element."""
    text = markup(content)
    return text if text.startswith("<") else Markup(text[:1].upper() + text[1:])
