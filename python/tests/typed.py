"""What a checker of types has to find right; check.sh gives it to mypy."""

import gzip
from array import array
from collections.abc import Mapping
from dataclasses import replace
from decimal import Decimal
from fractions import Fraction
from io import BytesIO
from mmap import mmap
from os import PathLike
from pathlib import Path
from typing import Literal, assert_type

import mpslp


def calls(
    text: bytes, changing: bytearray, view: memoryview, mapped: mmap, path: Path, name: str, other: PathLike[bytes]
) -> None:
    assert_type(mpslp.canonical(text, "mps", "lp"), bytes)
    assert_type(mpslp.canonical(path, to_format="mps"), bytes)
    assert_type(mpslp.same(changing, name, first_format="lp"), bool)
    assert_type(mpslp.same(view, mapped, "mps", "mps"), bool)
    assert_type(mpslp.is_canonical(other), bool)
    assert_type(mpslp.is_canonical(array("B"), "mps"), bool)
    with open(path, "rb") as file, gzip.open(path) as unpacked:
        assert_type(mpslp.load(file), mpslp.Model)
        assert_type(mpslp.load(unpacked, "lp"), mpslp.Model)
    assert_type(mpslp.canonical(BytesIO(text), "lp"), bytes)


def passed_on(source: mpslp.Source, format: mpslp.Format) -> bytes:
    return mpslp.canonical(source, format)


def faults(error: mpslp.ModelFileError) -> None:
    assert_type(error.kind, str)
    assert_type(error.line, int | None)
    assert_type(error.name, str | None)
    assert_type(error.number, int | None)
    assert_type(error.filename, str | None)
    assert_type(error.explanation, mpslp.Explanation)
    assert_type(error.message(), str)
    assert_type(mpslp.explain("BadByte").causes[0], mpslp.Cause)
    assert_type(mpslp.explain("BadByte").causes[0].fix, str)


def models(source: mpslp.Source) -> None:
    model = mpslp.load(source, "lp")
    assert_type(mpslp.__version__, str)
    assert_type(model.sense, mpslp.Sense)
    assert_type(model.digest, str)
    assert_type(model.rows["r"], mpslp.Row)
    assert_type(model.rows["r"].entries["x"], Decimal)
    assert_type(model.columns["x"].kind, mpslp.Kind)
    assert_type(model.columns["x"].entries, Mapping[str, Decimal])
    assert_type(mpslp.fraction(3), Fraction | None)
    assert_type({model: 1}, dict[mpslp.Model, int])
    assert_type(mpslp.dumps(model, "mps"), bytes)
    assert_type(model.arrays(), mpslp.Arrays)
    assert_type(model.arrays().sense, mpslp.Sense)
    assert_type(mpslp.from_arrays(model.arrays()), mpslp.Model)
    assert_type(mpslp.from_milp([1, 2], (), None, 1, row_names=model.rows), mpslp.Model)
    names: dict[str, str] = {}
    assert_type(mpslp.from_pulp(mpslp.to_pulp(model, names)), mpslp.Model)
    mpslp.dump(model, Path("a.lp"))
    column = mpslp.Column("x", "integer", 0, 2.5, Fraction(1, 2), {"r": Decimal(1)})
    made = mpslp.Model("maximize", rows=[mpslp.Row("r", upper=4)], columns={"x": replace(column, cost=3)})
    assert_type(replace(made, constant=1), mpslp.Model)
    assert_type(
        made.replace(
            sense="minimize",
            constant=Fraction(1, 2),
            rows=[mpslp.Row("r", entries={"x": 0.5})],
            columns={"x": column},
            remove_rows=["s"],
            remove_columns=model.columns,
        ),
        mpslp.Model,
    )


def differences(first: mpslp.Model, second: Path) -> None:
    found = mpslp.diff(first, second, second_format="lp", digits=12, by_position=True)
    assert_type(found, mpslp.Differences)
    assert_type(found.first, mpslp.Model)
    assert_type(found.verdict, Literal["same", "same but for names", "close", "not the same"])
    assert_type(list(found), list[mpslp.Difference])
    for each in found:
        if isinstance(each, mpslp.RowOnly):
            assert_type(each.row, mpslp.Row)
        elif isinstance(each, mpslp.ColumnOnly):
            assert_type(each.column, mpslp.Column)
        elif isinstance(each, mpslp.ColumnDifference):
            assert_type(each.first, mpslp.Kind | Decimal)
        elif isinstance(each, mpslp.RowDifference):
            assert_type(each.first, Decimal)
        elif isinstance(each, mpslp.EntryDifference):
            assert_type(each.row, str)
        else:
            assert_type(each, mpslp.ModelDifference)
    mpslp.assert_same_model(first, second, ignore_objective_name=True)
    assert_type(mpslp.digest(second), str)


def merged(base: mpslp.Model, source: Path) -> None:
    found = mpslp.merge(base, source, source, "lp")
    assert_type(found, mpslp.Merged)
    model, conflicts = found
    assert_type(model, mpslp.Model | None)
    assert_type(conflicts, tuple[mpslp.Conflict, ...])
    assert_type(conflicts[0].ours, mpslp.ItemValue)
    assert_type(conflicts[0].removed, tuple[mpslp.RowItem | mpslp.ColumnItem, ...])
    item = conflicts[0].item
    assert_type(item, mpslp.Item)
    if isinstance(item, mpslp.EntryItem):
        assert_type((item.row, item.column), tuple[str, str])
    elif isinstance(item, (mpslp.RowItem, mpslp.ColumnItem, mpslp.NameItem)):
        assert_type(item.name, str)
    else:
        assert_type(item.what, Literal["sense", "objective", "constant", "columns"])


def any_names(first: mpslp.Model, second: Path) -> None:
    names = mpslp.same_but_for_names(first, second, second_format="lp")
    assert_type(names, mpslp.NameMap | None)
    if names is not None:
        assert_type(names.rows, Mapping[str, str])
        assert_type(names.inverse, mpslp.NameMap)
        assert_type(names.json(), str)
        assert_type(mpslp.renamed(first, names), mpslp.Model)
    assert_type(mpslp.renamed(first, {"columns": {"x": "y"}}), mpslp.Model)
    assert_type(mpslp.digest_any_names(second), str)
    assert_type(mpslp.digest_any_names(first), str)
    matched = mpslp.diff(first, second, any_names=True).matched
    if matched is not None:
        assert_type(matched.rows_by_shape, int)
    try:
        mpslp.same_but_for_names(first, first)
    except mpslp.UndecidedError as error:
        assert_type(str(error), str)


def adapted(source: mpslp.Source) -> None:
    done = mpslp.adapt(source, "mps", "pulp", strict={"number"})
    assert_type(done, mpslp.Adapted)
    assert_type(done.text, bytes)
    assert_type(done.format, mpslp.Format)
    assert_type(done.changes, tuple[mpslp.Change, ...])
    assert_type(done.names, Mapping[str, str])


def for_a_solver(model: mpslp.Model) -> None:
    text = mpslp.text_for(model, "clp", "lp")
    assert_type(text, mpslp.SolverText)
    assert_type(text.names, Mapping[str, str])
    assert_type(text.warnings, tuple[str, ...])


def surveyed(source: mpslp.Source, path: Path, name: str) -> None:
    for remark in mpslp.portability(source, "lp"):
        assert_type(remark, mpslp.Remark)
        assert_type((remark.line, remark.kind, remark.text), tuple[int, str, str])
    for warning in mpslp.warnings_of(source, "lp"):
        assert_type(warning, mpslp.ModelFileWarning)
        assert_type((warning.line, warning.kind, warning.text), tuple[int, str, str])
    found = mpslp.survey(path, name, jobs=2)
    assert_type(found, mpslp.Survey)
    assert_type(found.files[0], mpslp.SurveyedFile)
    assert_type(found.files[0].result, Literal["accepted", "adapted", "rejected", "unreadable"])
    assert_type(found.files[0].rows, int | None)
    assert_type(found.groups, tuple[tuple[str, ...], ...])
    assert_type(found.groups_any_names, tuple[tuple[str, ...], ...])
    assert_type(found.errors, Mapping[str, int])
    assert_type(found.csv(), str)
    assert_type(found.json(), str)
    assert_type(mpslp.formatted(source, "lp"), str)


def wrong(text: bytes) -> None:
    mpslp.canonical(7, "mps")  # type: ignore[arg-type]
    mpslp.canonical(text, "qps")  # type: ignore[arg-type]
    mpslp.Row("r", "3")  # type: ignore[arg-type]
    mpslp.diff(text, text, "mps", "mps", digits="3")  # type: ignore[arg-type]
    mpslp.load(text, "lp").replace(columns={"x": mpslp.Row("x")})  # type: ignore[arg-type]
    mpslp.load(text, "lp").sense = "maximize"  # type: ignore[misc]
    mpslp.load(text, "lp").rows["r"] = mpslp.Row("r")  # type: ignore[index]
