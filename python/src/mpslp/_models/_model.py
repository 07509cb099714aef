"""Models, with exact numbers."""

# Annotations are evaluated here, because the classes appear as those of the package, which has fewer names.

import dataclasses
import math
from collections.abc import Callable, Iterable, Iterator, Mapping
from dataclasses import InitVar, dataclass
from decimal import Decimal
from typing import TYPE_CHECKING, Any, Literal, TypeAlias

from mpslp import _mpslp
from mpslp._errors._illegal_names import naming_what_is_not_legal
from mpslp._files._sources import Format, Path, Source, format_number, naming, read, write
from mpslp._models._arrays import Arrays, arrays_of, bytes_of, doubles_of, integers_of, listed
from mpslp._models._mappings import Held, MissingNameError, Numbered
from mpslp._models._numbers import INFINITY, Number, decimal_of, difference, limit_of
from mpslp._models._row_entries import columns_by_rows, columns_without, removed, with_row_entries
from mpslp._text._names import MOST_BYTES, is_mps_name

Sense: TypeAlias = Literal["minimize", "maximize"]
"""The objective sense."""

Kind: TypeAlias = Literal["continuous", "integer", "semi-continuous"]
"""The type of a column; a semi-continuous one is 0 or within its bounds."""

# By their numbers in the library, and the numbers by these words.
_SENSES: dict[int, Sense] = {_mpslp.MINIMIZE: "minimize", _mpslp.MAXIMIZE: "maximize"}
_KINDS: dict[int, Kind] = {
    _mpslp.CONTINUOUS: "continuous",
    _mpslp.INTEGER: "integer",
    _mpslp.SEMI_CONTINUOUS: "semi-continuous",
}
_SENSE_NUMBERS: dict[str, int] = {word: number for number, word in _SENSES.items()}
_KIND_NUMBERS: dict[str, int] = {word: number for number, word in _KINDS.items()}

# The parts of a model, as the extension module takes them.
_Head: TypeAlias = tuple[int, str, Decimal]
_RowPart: TypeAlias = tuple[str, Decimal, Decimal]
_ColumnPart: TypeAlias = tuple[str, int, Decimal, Decimal, Decimal, list[tuple[int, Decimal]]]


class _Part:
    """The common part of rows, columns and models: they are frozen, and a copy is the part itself.

    Like a tuple, a part that is made does not change if ``__init__`` is called again.
    """

    __slots__ = ()

    def _is_made(self, last: str) -> bool:
        """Whether the attribute that is set last is there."""
        return hasattr(self, last)

    def _fill(self, **values: object) -> None:
        for name, value in values.items():
            object.__setattr__(self, name, value)

    def __copy__(self) -> "_Part":
        return self

    def __deepcopy__(self, memo: object) -> "_Part":
        return self

    def __repr__(self) -> str:
        shown = ", ".join(f"{each.name}={getattr(self, each.name)!r}" for each in dataclasses.fields(self))
        return f"mpslp.{type(self).__name__}({shown})"


@dataclass(frozen=True, init=False, repr=False)
class Row(_Part):
    """A row: the limits of a linear expression.

    Limits are given as any :data:`Number`; one of magnitude 10^20 or more is infinite, by its sign. ``entries`` has the
    coefficients of columns, by the names of the columns; left out, they are those that the columns give. Raises
    ValueError for what no model has: an illegal name, a number outside the limits of decimals, or limits that cross.
    Rows are equal if their names and limits are.

    >>> mpslp.Row("hours", upper=40)
    mpslp.Row(name='hours', lower=Decimal('-Infinity'), upper=Decimal('40'))
    >>> mpslp.Row("hours", upper=40, entries={"bread": 1, "cake": 3}).entries
    {'bread': Decimal('1'), 'cake': Decimal('3')}
    """

    __slots__ = {
        "name": "The name.",
        "lower": "The lower limit, or Decimal('-Infinity').",
        "upper": "The upper limit, or Decimal('Infinity').",
        "_coefficients": "",
        "__weakref__": "",
    }

    name: str
    lower: Decimal
    upper: Decimal
    if TYPE_CHECKING:  # a slot, and no field
        _coefficients: Mapping[str, Decimal] | None
    else:  # no field either, but dataclasses.replace passes it on
        _kept: InitVar[object]

    def __init__(
        self,
        name: str,
        lower: Number = -INFINITY,
        upper: Number = INFINITY,
        *,
        entries: Mapping[str, Number] | None = None,
        _kept: Mapping[str, Decimal] | None = None,
    ) -> None:
        if self._is_made("_coefficients"):
            return
        about = f"row {name!r}"
        _check_name(name, "row")
        self._fill(
            name=name, lower=_given(about, "lower", limit_of, lower), upper=_given(about, "upper", limit_of, upper)
        )
        self._fill(_coefficients=_kept if entries is None else _entries(about, "column", entries))
        _check_sides(about, self.lower, self.upper)
        if self.lower.is_finite() and self.upper.is_finite():
            _given_difference(about, self.upper, self.lower)

    @property
    def entries(self) -> Mapping[str, Decimal]:
        """The nonzero coefficients of columns, by the names of the columns, in byte order of these.

        They are those that were given, or those of the model that has the row.
        """
        return Held[Decimal]() if self._coefficients is None else self._coefficients

    @property
    def _kept(self) -> Mapping[str, Decimal] | None:
        return self._coefficients

    @property
    def _own(self) -> Mapping[str, Decimal] | None:
        """The coefficients that were given with the row; a row of a model has none: they are those of its columns."""
        return self._coefficients if type(self._coefficients) is Held else None

    def __reduce__(self) -> tuple[Any, ...]:
        return Row, (self.name, self.lower, self.upper), (self._own is not None, dict(self.entries))

    def __setstate__(self, state: tuple[bool, Mapping[str, Decimal]]) -> None:
        is_own, entries = state
        self._fill(_coefficients=(Held if is_own else _ShownEntries)(entries.items()))


class _ShownEntries(Held[Decimal]):
    """The coefficients of a row that was one of a model before it was copied."""

    __slots__ = ()


@dataclass(frozen=True, init=False, repr=False)
class Column(_Part):
    """A column: a variable of the model.

    Numbers are given as any :data:`Number`; a bound of magnitude 10^20 or more is infinite, by its sign. Raises
    ValueError for what no model has: an illegal name or type, a number outside the limits of decimals, or bounds that
    cross.

    >>> mpslp.Column("x", "integer", upper=10, cost=2.5, entries={"hours": 1}).cost
    Decimal('2.5')
    """

    __slots__ = {
        "name": "The name.",
        "kind": "'continuous', 'integer' or 'semi-continuous'.",
        "lower": "The lower bound, or Decimal('-Infinity').",
        "upper": "The upper bound, or Decimal('Infinity').",
        "cost": "The coefficient in the objective; 0 where there is none.",
        "entries": "The nonzero coefficients in rows, by the names of the rows, in byte order of these.",
        "__weakref__": "",
    }

    name: str
    kind: Kind
    lower: Decimal
    upper: Decimal
    cost: Decimal
    entries: Mapping[str, Decimal]

    def __init__(
        self,
        name: str,
        kind: Kind = "continuous",
        lower: Number = 0,
        upper: Number = INFINITY,
        cost: Number = 0,
        entries: Mapping[str, Number] = Held[Decimal](),
    ) -> None:
        if self._is_made("entries"):
            return
        about = f"column {name!r}"
        _check_name(name, "column")
        if kind not in _KIND_NUMBERS:
            raise ValueError(f"{about}: the kind {kind!r} is none of {', '.join(map(repr, _KIND_NUMBERS))}")
        self._fill(
            name=name,
            kind=kind,
            lower=_given(about, "lower", limit_of, lower),
            upper=_given(about, "upper", limit_of, upper),
        )
        self._fill(cost=_finite(about, "cost", cost), entries=_entries(about, "row", entries))
        _check_sides(about, self.lower, self.upper)
        if kind == "semi-continuous" and not (self.lower >= 0 and 0 < self.upper < INFINITY):
            raise ValueError(f"{about} is semi-continuous: lower is at least 0, and upper above 0 and finite")

    def __reduce__(self) -> tuple[Any, ...]:
        return Column, (self.name, self.kind, self.lower, self.upper, self.cost, dict(self.entries))


class _Rows(Numbered[Row]):
    """The rows of a loaded model."""

    __slots__ = ()

    def __getitem__(self, name: str) -> Row:
        number = self._arrays.find_row(name)
        if number is None:
            raise MissingNameError(name, self)
        return self._row(number)

    def __iter__(self) -> Iterator[str]:
        return map(self._arrays.row_name, range(len(self)))

    def __len__(self) -> int:
        return self._arrays.counts()[0]

    def pairs(self) -> Iterable[tuple[str, Row]]:
        return ((row.name, row) for row in map(self._row, range(len(self))))

    def _row(self, number: int) -> Row:
        name, lower, upper = self._arrays.row(number)
        row = object.__new__(Row)
        row._fill(name=name, lower=lower, upper=upper, _coefficients=_RowEntries(self._arrays, number))
        return row


class _Columns(Numbered[Column]):
    """The columns of a loaded model."""

    __slots__ = ()

    def __getitem__(self, name: str) -> Column:
        number = self._arrays.find_column(name)
        if number is None:
            raise MissingNameError(name, self)
        return self._column(number)

    def __iter__(self) -> Iterator[str]:
        return map(self._arrays.column_name, range(len(self)))

    def __len__(self) -> int:
        return self._arrays.counts()[1]

    def pairs(self) -> Iterable[tuple[str, Column]]:
        return ((column.name, column) for column in map(self._column, range(len(self))))

    def _column(self, number: int) -> Column:
        name, kind, lower, upper, cost = self._arrays.column(number)
        column = object.__new__(Column)
        entries = _ColumnEntries(self._arrays, number)
        column._fill(name=name, kind=_KINDS[kind], lower=lower, upper=upper, cost=cost, entries=entries)
        return column


class _RowEntries(Numbered[Decimal]):
    """The coefficients of a row, by the names of columns."""

    __slots__ = ("_row",)

    def __init__(self, arrays: _mpslp.Arrays, row: int) -> None:
        super().__init__(arrays)
        self._row = row

    def __getitem__(self, name: str) -> Decimal:
        column = self._arrays.find_column(name)
        value = None if column is None else self._arrays.entry(self._row, column)
        if value is None:
            raise MissingNameError(name, self)
        return value

    def __iter__(self) -> Iterator[str]:
        return (name for name, _ in self.pairs())

    def __len__(self) -> int:
        return self._arrays.row_len(self._row)

    def pairs(self) -> Iterable[tuple[str, Decimal]]:
        return self._arrays.row_entries(self._row)


class _ColumnEntries(Numbered[Decimal]):
    """The coefficients of a column, by the names of rows."""

    __slots__ = ("_column",)

    def __init__(self, arrays: _mpslp.Arrays, column: int) -> None:
        super().__init__(arrays)
        self._column = column

    def __getitem__(self, name: str) -> Decimal:
        row = self._arrays.find_row(name)
        value = None if row is None else self._arrays.entry(row, self._column)
        if value is None:
            raise MissingNameError(name, self)
        return value

    def __iter__(self) -> Iterator[str]:
        return (name for name, _ in self.pairs())

    def __len__(self) -> int:
        return self._arrays.column_len(self._column)

    def pairs(self) -> Iterable[tuple[str, Decimal]]:
        return self._arrays.column_entries(self._column)


@dataclass(frozen=True, init=False, eq=False, repr=False)
class Model(_Part):
    """A model, with all defaults filled in. Two models are equal if and only if they are the same model.

    Numbers are exactly those of the text. A Decimal keeps its digits, but sums and products of Decimals are rounded to
    the 28 digits of Python's usual context; Fraction(number) is exact, and so are computations with it.

    A model keeps the arrays of the library; rows, columns and entries are made from them on access.

    You can also make a model from rows and columns, in any order, or from mappings from their names. Raises ValueError
    if they are not a model: no column, a repeated name, or entries in a row or a column that does not exist. A
    coefficient is given with its column, with its row, or with both, where it has to be the same. A row of another
    model gives none.

    >>> rows, columns = [mpslp.Row("hours", upper=40)], [mpslp.Column("x", cost=3, entries={"hours": 2})]
    >>> model = mpslp.Model("maximize", rows=rows, columns=columns)
    >>> model.rows["hours"].entries["x"]
    Decimal('2')
    """

    __slots__ = {
        "sense": "'minimize' or 'maximize'.",
        "objective": "The name of the objective.",
        "constant": "What is added to the objective.",
        "rows": "The rows by name, in byte order of names.",
        "columns": "The columns by name, in byte order of names.",
        "_arrays": "",
        "_digest": "",
        "__weakref__": "",
    }

    sense: Sense
    objective: str
    constant: Decimal
    rows: Mapping[str, Row]
    columns: Mapping[str, Column]
    if TYPE_CHECKING:  # slots, and no fields
        _arrays: _mpslp.Arrays
        _digest: str | None

    def __init__(
        self,
        sense: Sense = "minimize",
        objective: str = "obj",
        constant: Number = 0,
        rows: Iterable[Row] | Mapping[str, Row] = (),
        columns: Iterable[Column] | Mapping[str, Column] = (),
    ) -> None:
        if self._is_made("_arrays"):
            return
        _check_sense(sense)
        _check_name(objective, "objective")
        all_rows = _distinct(rows, Row, "row")
        all_columns = _distinct(columns, Column, "column")
        if objective in all_rows:
            raise ValueError(f"row {objective!r} has the name of the objective")
        if not all_columns:
            raise ValueError("a model has at least one column")
        all_columns = with_row_entries(all_rows.values(), all_columns)
        numbers = {name: number for number, name in enumerate(all_rows)}
        arrays = _mpslp.make(
            _SENSE_NUMBERS[sense],
            objective,
            _finite("the objective", "constant", constant),
            [_row_part(row) for row in all_rows.values()],
            [_column_part(column, numbers.get) for column in all_columns.values()],
        )
        self._keep(arrays)

    def _keep(self, arrays: _mpslp.Arrays) -> None:
        sense, objective, constant = arrays.objective()
        self._fill(
            sense=_SENSES[sense], objective=objective, constant=constant, rows=_Rows(arrays), columns=_Columns(arrays)
        )
        self._fill(_arrays=arrays, _digest=None)

    def replace(
        self,
        *,
        sense: Sense | None = None,
        objective: str | None = None,
        constant: Number | None = None,
        rows: Iterable[Row] | Mapping[str, Row] = (),
        columns: Iterable[Column] | Mapping[str, Column] = (),
        remove_rows: Iterable[str] = (),
        remove_columns: Iterable[str] = (),
    ) -> "Model":
        """Returns the model with some of its parts replaced or removed; this model does not change.

        A row or a column that is given takes the place of the one with its name, or is added if there is none. A row
        that is given with entries has these coefficients, and those that the columns given have in it; one without
        entries keeps its coefficients. Rows and columns are removed by their names, with their coefficients. Whatever
        is left out stays the same.

        This takes less time and memory than a new :class:`Model`: the library checks what changes, and the rest is
        copied. With something to remove it takes about as much.

        Raises ValueError for what is no model, as :class:`Model` does, and KeyError for a row or a column to be removed
        that does not exist.

        >>> from dataclasses import replace
        >>> model = mpslp.load(b"max 3 x + y\\nst limit: x + y <= 4\\nend\\n", "lp")
        >>> changed = model.replace(columns={"x": replace(model.columns["x"], upper=2.5)})
        >>> changed.columns["x"].upper, changed.columns["y"].upper, changed.rows["limit"].entries
        (Decimal('2.5'), Decimal('Infinity'), {'x': Decimal('1'), 'y': Decimal('1')})
        >>> most = mpslp.Row("most", upper=3, entries={"y": 2})
        >>> changed.replace(remove_columns=["x"], rows=[most]).rows["most"].entries
        {'y': Decimal('2')}
        """
        new_sense = self.sense if sense is None else sense
        new_objective = self.objective if objective is None else objective
        _check_sense(new_sense)
        _check_name(new_objective, "objective")
        given_rows = _distinct(rows, Row, "row")
        given_columns = _distinct(columns, Column, "column")
        without_rows = removed(remove_rows, "row", self.rows, given_rows)
        without_columns = removed(remove_columns, "column", self.columns, given_columns)
        given_columns = columns_by_rows(self, given_rows, given_columns, without_columns)
        new_constant = self.constant if constant is None else _finite("the objective", "constant", constant)
        if without_rows or without_columns:
            kept_rows = {name: row for name, row in self.rows.items() if name not in without_rows}
            kept_columns = columns_without(self, without_rows, {*without_columns, *given_columns})
            all_rows, all_columns = {**kept_rows, **given_rows}, {**kept_columns, **given_columns}
            return Model(new_sense, new_objective, new_constant, all_rows, all_columns)
        if new_objective in given_rows or new_objective in self.rows:
            raise ValueError(f"row {new_objective!r} has the name of the objective")
        head = _SENSE_NUMBERS[new_sense], new_objective, new_constant
        arrays = self._arrays
        changed_rows = [row for row in given_rows.values() if arrays.find_row(row.name) is not None]
        changed_columns = [column for column in given_columns.values() if arrays.find_column(column.name) is not None]
        if (
            new_objective != self.objective
            or len(changed_rows) < len(given_rows)
            or len(changed_columns) < len(given_columns)
        ):
            arrays = _extended(arrays, head, given_rows.values(), given_columns.values())
        # A model has a column.
        changed = _part(arrays, head, changed_rows, changed_columns or [next(iter(self.columns.values()))])
        return model_of(_mpslp.make_replaced(arrays, changed))

    @property
    def digest(self) -> str:
        """The SHA-256 of the model's canonical MPS text, as 64 hexadecimal digits: the same for
        each file of the model.
        """
        found = self._digest
        if found is None:
            import hashlib  # it breaks further interpreters of CPython 3.12.1, and is wanted here only

            found = hashlib.sha256(_mpslp.store(self._arrays, _mpslp.MPS)).hexdigest()
            self._fill(_digest=found)
        return found

    def arrays(self) -> Arrays:
        """Returns the model as arrays of doubles, in the form that solvers use.

        Rows and columns are numbered in byte order of their names, and each number is the nearest double. A
        RuntimeWarning says which number is infinite or 0 as a double and is neither in the model: one of 1e400, or of
        1e-400.

        >>> arrays = mpslp.load(b"max 3 x + y\\nst limit: 0.5 x + y <= 4\\nend\\n", "lp").arrays()
        >>> list(arrays.c), list(arrays.data), list(arrays.row_upper)
        ([3.0, 1.0], [0.5, 1.0], [4.0])
        """
        return arrays_of(self._arrays, self.sense)

    def __eq__(self, other: object) -> bool:
        if not isinstance(other, Model):
            return NotImplemented
        return self._arrays == other._arrays

    def __hash__(self) -> int:
        return hash(self.digest)

    def __reduce__(self) -> tuple[Any, ...]:
        return load, (_mpslp.store(self._arrays, _mpslp.MPS), "mps")

    def __repr__(self) -> str:
        rows, columns, elements = self._arrays.counts()
        return f"<mpslp.Model: {self.sense} {self.objective}, {rows} rows, {columns} columns, {elements} entries>"

    def _repr_html_(self) -> str:
        """What notebooks show: the first rows as formulas."""
        from mpslp._report._notebook import html_of

        return html_of(self)


def load(source: Source, format: Format | None = None) -> Model:
    """Returns the model that a text declares.

    The format is optional for a path that ends in ``.mps`` or ``.lp``.

    Raises ModelFileError if the text declares no model.
    """
    text = read(source, format)
    with naming(text):
        return model_of(_mpslp.load(text.content, text.format))


def from_arrays(arrays: Arrays) -> Model:
    """Returns the model of arrays, with each double as the decimal of its shortest text.

    Raises ValueError for arrays that do not match each other, and for what no model has; TypeError for indexes that are
    no integers, which an array of objects is not either, and for complex numbers. Does not depend on the rounding mode.

    >>> arrays = mpslp.Arrays(c=[3, 1], indptr=[0, 1, 2], indices=[0, 0], data=[0.5, 1], row_lower=[0], row_upper=[4])
    >>> mpslp.from_arrays(arrays).columns["x0"].entries
    {'r0': Decimal('0.5')}
    """
    if not isinstance(arrays, Arrays):
        raise TypeError(f"arrays are a mpslp.Arrays, not {type(arrays).__name__}")
    row_names = _names_of(arrays.row_names, "r", len(arrays.row_lower))
    column_names = _names_of(arrays.column_names, "x", len(arrays.c))
    made = _made_of_doubles(arrays, row_names, column_names)
    return _made_of_numbers(arrays, row_names, column_names) if made is None else model_of(made)


def _made_of_doubles(arrays: Arrays, row_names: list[str], column_names: list[str]) -> _mpslp.Arrays | None:
    """The model of arrays whose numbers are all doubles; None if they are not, or are no model."""
    count = len(column_names)
    parts = (
        doubles_of(arrays.row_lower),
        doubles_of(arrays.row_upper),
        doubles_of([0.0] * count if arrays.lower is None else arrays.lower),
        doubles_of([math.inf] * count if arrays.upper is None else arrays.upper),
        doubles_of(arrays.c),
        bytes(count) if arrays.integrality is None else bytes_of(arrays.integrality),
        integers_of("indptr", arrays.indptr),
        integers_of("indices", arrays.indices),
        doubles_of(arrays.data),
    )
    given = [part for part in parts if part is not None]
    is_plain = (
        len(given) == len(parts) and doubles_of([arrays.constant]) is not None and isinstance(arrays.objective, str)
    )
    if not is_plain or arrays.sense not in _SENSE_NUMBERS:
        return None
    return _mpslp.make_of_doubles(
        _SENSE_NUMBERS[arrays.sense], arrays.objective, arrays.constant, row_names, column_names, *given
    )


def _made_of_numbers(arrays: Arrays, row_names: list[str], column_names: list[str]) -> Model:
    """The model of arrays of any numbers. Raises ValueError for what no model has."""
    starts, indices, values = listed(arrays.indptr), listed(arrays.indices), listed(arrays.data)
    count = len(column_names)
    lower = [0] * count if arrays.lower is None else listed(arrays.lower)
    upper = [INFINITY] * count if arrays.upper is None else listed(arrays.upper)
    kinds = [0] * count if arrays.integrality is None else listed(arrays.integrality)
    if len(arrays.row_upper) != len(row_names) or not len(lower) == len(upper) == len(kinds) == count:
        raise ValueError("the limits of the rows, or the arrays of the columns, differ in length")
    if (
        len(starts) != count + 1
        or starts[0] != 0
        or starts[-1] != len(values)
        or len(indices) != len(values)
        or starts != sorted(starts)
    ):
        raise ValueError("indptr, indices and data are no matrix in compressed columns with as many columns as c")
    if not all(0 <= row < len(row_names) for row in indices):
        raise ValueError("indices has a row that is not there")
    if any(isinstance(kind, complex) for kind in kinds):
        raise TypeError("integrality is 0, 1 or 2, and no complex number")
    if not all(kind in _KINDS for kind in kinds):
        raise ValueError("integrality is 0, 1 or 2")
    rows = [Row(*row) for row in zip(row_names, listed(arrays.row_lower), listed(arrays.row_upper))]
    columns = []
    for j, (name, cost) in enumerate(zip(column_names, listed(arrays.c))):
        entries = {row_names[indices[k]]: values[k] for k in range(starts[j], starts[j + 1])}
        if len(entries) != starts[j + 1] - starts[j]:
            raise ValueError(f"column {name!r} has two entries in one row")
        columns.append(Column(name, _KINDS[kinds[j]], lower[j], upper[j], cost, entries))
    return Model(arrays.sense, arrays.objective, arrays.constant, rows, columns)


def dumps(model: Model, format: Format) -> bytes:
    """Returns the canonical text of a model.

    Raises ModelFileError if a name is not legal in LP and the format is LP; its ``name`` is that name.

    >>> mpslp.dumps(mpslp.Model(columns=[mpslp.Column("x", upper=0.5)]), "lp")
    b'Minimize\\n obj:\\n  + 0 x\\nSubject To\\nBounds\\n 0 <= x <= 0.5\\nEnd\\n'
    """
    number = format_number(format)
    if not isinstance(model, Model):
        raise TypeError(f"a model is a mpslp.Model, not {type(model).__name__}")
    with naming_what_is_not_legal(lambda: model._arrays):
        return _mpslp.store(model._arrays, number)


def dump(model: Model, path: Path, format: Format | None = None) -> None:
    """Writes the canonical text of a model to a file.

    The format is optional for a path that ends in ``.mps`` or ``.lp``. An existing file is replaced after the text is
    made: if the model has no text in the format, the file is unchanged.

    Raises ModelFileError if a name is not legal in LP and the format is LP.
    """
    write(path, format, lambda each: dumps(model, each))


def model_of(arrays: _mpslp.Arrays) -> Model:
    """The model that has these arrays."""
    model = object.__new__(Model)
    model._keep(arrays)
    return model


def _extended(arrays: _mpslp.Arrays, head: _Head, rows: Iterable[Row], columns: Iterable[Column]) -> _mpslp.Arrays:
    """A model with those of the rows and columns that it does not have."""
    new_rows = [_row_part(row) for row in rows if arrays.find_row(row.name) is None]
    numbers = {name: number for number, (name, *_) in enumerate(new_rows, arrays.counts()[0])}

    def number_of(row: str) -> int | None:
        number = arrays.find_row(row)
        return numbers.get(row) if number is None else number

    new_columns = [_column_part(column, number_of) for column in columns if arrays.find_column(column.name) is None]
    return _mpslp.make_extended(arrays, *head, new_rows, new_columns)


def _part(arrays: _mpslp.Arrays, head: _Head, rows: Iterable[Row], columns: Iterable[Column]) -> _mpslp.Arrays:
    """Rows and columns of a model as one of their own, which the library checks; it has the rows in which the columns
    have entries.
    """
    all_rows = [_row_part(row) for row in rows]
    numbers = {name: number for number, (name, *_) in enumerate(all_rows)}

    def number_of(row: str) -> int | None:
        if row not in numbers:
            number = arrays.find_row(row)
            if number is None:
                return None
            numbers[row] = len(all_rows)
            all_rows.append(arrays.row(number))
        return numbers[row]

    return _mpslp.make(*head, all_rows, [_column_part(column, number_of) for column in columns])


def _row_part(row: Row) -> _RowPart:
    return row.name, row.lower, row.upper


def _column_part(column: Column, number_of: Callable[[str], int | None]) -> _ColumnPart:
    """The parts of a column, with the numbers of rows."""
    return (
        column.name,
        _KIND_NUMBERS[column.kind],
        column.lower,
        column.upper,
        column.cost,
        _numbered(column, number_of),
    )


def _numbered(column: Column, number_of: Callable[[str], int | None]) -> list[tuple[int, Decimal]]:
    """The entries of a column, by the numbers of rows."""
    found = []
    for row, value in column.entries.items():
        number = number_of(row)
        if number is None:
            raise ValueError(f"column {column.name!r} has an entry in row {row!r}, which does not exist")
        found.append((number, value))
    return found


def _names_of(names: Iterable[str] | None, letter: str, count: int) -> list[str]:
    """The names of so many rows or columns.

    Default names have the same length, so that their order is that of the arrays.
    """
    if names is None:
        width = len(str(max(count - 1, 0)))
        return [f"{letter}{number:0{width}}" for number in range(count)]
    given = list(names)
    if len(given) != count or len(set(given)) != count:
        raise ValueError("there is not one name for each row and each column")
    return given


def _check_sense(sense: str) -> None:
    if sense not in _SENSE_NUMBERS:
        raise ValueError(f"the sense {sense!r} is neither 'minimize' nor 'maximize'")


def _check_name(name: str, what: str) -> None:
    if not isinstance(name, str):
        raise TypeError(f"the name of a {what} is a str, not {type(name).__name__}")
    if not is_mps_name(name):
        raise ValueError(
            f"the {what} name {name!r} is not legal: a name has 1 to {MOST_BYTES} bytes from '!' to '~', and is not"
            " \"'MARKER'\""
        )


def _given(about: str, what: str, make: Callable[[Number], Decimal], number: Number, row: str = "") -> Decimal:
    """A number as a decimal, or an exception that says where the number is."""
    try:
        return make(number)
    except (TypeError, ValueError) as error:
        raise type(error)(f"{about}: {what}{row and ' '}{row}: {error}") from None


def _finite(about: str, what: str, number: Number, row: str = "") -> Decimal:
    found = _given(about, what, decimal_of, number, row)
    if not found.is_finite():
        raise ValueError(f"{about}: {what}{row and ' '}{row}: {number!r} is not finite")
    return found


def _given_difference(about: str, upper: Decimal, lower: Decimal) -> None:
    try:
        distance = difference(upper, lower)
    except ValueError as error:
        raise ValueError(f"{about}: upper minus lower: {error}") from None
    if limit_of(distance).is_infinite():
        raise ValueError(f"{about}: upper minus lower has size 10^20 or more")


def _check_sides(about: str, lower: Decimal, upper: Decimal) -> None:
    if lower == INFINITY or upper == -INFINITY:
        raise ValueError(f"{about}: lower is plus infinity, or upper is minus infinity")
    if lower > upper:
        raise ValueError(f"{about}: lower {lower} is above upper {upper}")


def _entries(about: str, where: str, given: Mapping[str, Number]) -> Mapping[str, Decimal]:
    """The nonzero coefficients in rows or columns."""
    for name in given:
        _check_name(name, where)
    values = ((name, _finite(about, f"entry in {where}", number, name)) for name, number in given.items())
    return Held((name, value) for name, value in values if value)


def _distinct(given: Iterable[Any] | Mapping[str, Any], wanted: type, what: str) -> dict[str, Any]:
    """Rows or columns by their names."""
    found: dict[str, Any] = {}
    for part in given.values() if isinstance(given, Mapping) else given:
        if not isinstance(part, wanted):
            raise TypeError(f"a {what} is a mpslp.{wanted.__name__}, not {type(part).__name__}")
        name: str = part.name  # type: ignore[attr-defined]
        if name in found:
            raise ValueError(f"{what} {name!r} is there twice")
        found[name] = part
    for key, part in zip(given, found.values()) if isinstance(given, Mapping) else ():
        if key != part.name:
            raise ValueError(f"the key {key!r} has the {what} {part.name!r}: the key of a {what} is its name")
    return found
