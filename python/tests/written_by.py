#!/usr/bin/python3
"""Have a library write a model, and print what the library holds: written_by.py LIBRARY MODEL FOLDER.

MODEL has the lines of held_models.py. PuLP, cvxopt and lp_solve get the model by their calls; QSopt_ex reads MODEL.mps.
Each format goes to a file of FOLDER, named as written_models.py has it. What is held is asked of the library where it
has calls for it.

It runs in a process of its own, since a library may end it.
"""

from __future__ import annotations

import ctypes
import sys
from collections.abc import Callable
from ctypes import POINTER, byref, c_char, c_char_p, c_double, c_int, c_ubyte, c_void_p
from fractions import Fraction
from pathlib import Path
from typing import Any

from held_models import Column, Held, Limit, from_lines, to_lines

LP_SOLVE = "/usr/lib/lp_solve/liblpsolve55.so"
QSOPT = "libqsopt_ex.so.2"
GMP = "libgmp.so.10"


# ---- PuLP


def by_pulp(given: Held, source: Path, folder: Path) -> Held:
    """PuLP has no ranged rows: each is given as two rows."""
    import pulp

    held = with_split_ranges(given)
    model = pulp.LpProblem("written", pulp.LpMaximize if held.sense == "maximize" else pulp.LpMinimize)
    ends = {name: (as_double(column.lower), as_double(column.upper)) for name, column in held.columns.items()}
    kinds = {"integer": "Integer", "continuous": "Continuous"}
    columns = {name: pulp.LpVariable(name, *ends[name], kinds[column.kind]) for name, column in held.columns.items()}
    costs = [
        (columns[name], float(column.cost))
        for name, column in held.columns.items()
        if column.cost or not column.entries
    ]
    model += pulp.LpAffineExpression(costs, float(held.constant))
    for name, (lower, upper) in held.rows.items():
        terms = [(columns[column], float(number)) for column, number in held.coefficients(name).items()]
        sense, side = (0, upper) if lower == upper else (-1, upper) if lower is None else (1, lower)
        model += pulp.LpConstraint(pulp.LpAffineExpression(terms), sense, name, float(side or 0))
    model.writeLP(str(folder / "pulp.lp"))
    model.writeMPS(str(folder / "pulp.mps"))
    return as_written_by_pulp(held, model)


def as_written_by_pulp(held: Held, model: Any) -> Held:
    """What PuLP holds, of its own objects; it replaces characters of names."""
    found = Held(held.sense, Fraction(model.objective.constant))
    for variable in model.variables():
        kind = {"Integer": "integer", "Continuous": "continuous"}[variable.cat]
        cost = Fraction(model.objective.get(variable, 0))
        found.columns[variable.name] = Column(kind, as_limit(variable.lowBound), as_limit(variable.upBound), cost)
    for name, row in model.constraints.items():
        side = Fraction(-row.constant)
        found.rows[name] = (side if row.sense >= 0 else None), (side if row.sense <= 0 else None)
        for variable, number in row.items():
            if number:
                found.columns[variable.name].entries[name] = Fraction(number)
    return found


def with_split_ranges(given: Held) -> Held:
    """The model without free rows, and with two rows for each ranged one."""
    held = Held(given.sense, given.constant, {}, given.columns)
    for name, (lower, upper) in given.rows.items():
        if lower is not None and upper is not None and lower != upper:
            held.rows[name], held.rows[f"{name}_up"] = (lower, None), (None, upper)
            for column in held.columns.values():
                if name in column.entries:
                    column.entries[f"{name}_up"] = column.entries[name]
        elif (lower, upper) != (None, None):
            held.rows[name] = lower, upper
    for column in held.columns.values():
        column.entries = {row: number for row, number in column.entries.items() if row in held.rows}
    return held


def as_double(number: Limit) -> float | None:
    return None if number is None else float(number)


def as_limit(number: float | None) -> Limit:
    return None if number is None else Fraction(number)


# ---- cvxopt


def by_cvxopt(given: Held, source: Path, folder: Path) -> Held:
    """cvxopt minimises, has neither bounds nor a constant in its files, and `name_0` for the only element of a column
    or row."""
    from cvxopt.modeling import op, variable

    columns = {name: variable(1, name) for name in given.columns}
    bounds = {}
    for name, column in given.columns.items():
        bounds[f"L{len(bounds)}"] = name, column.lower, None
        bounds[f"U{len(bounds)}"] = name, None, column.upper
    rows: list[Any] = []
    held = Held("minimize", given.constant)
    held.columns = {
        f"{name}_0": Column("continuous", None, None, held_double(column.cost))
        for name, column in given.columns.items()
    }
    sign = -1 if given.sense == "maximize" else 1
    objective: Any = float(given.constant)
    for name, column in given.columns.items():
        held.columns[f"{name}_0"].cost *= sign
        if column.cost:
            objective = objective + sign * float(column.cost) * columns[name]

    def add(name: str, terms: dict[str, Fraction], lower: Limit, upper: Limit) -> None:
        for label, factor, side, is_equal in (
            (name, 1, upper, lower == upper),
            (f"{name[:5]}>", -1, None if lower == upper else lower, False),
        ):
            if side is None or not terms:
                continue
            total: Any = -factor * float(side)
            for column, number in terms.items():
                total = total + factor * float(number) * columns[column]
                held.columns[f"{column}_0"].entries[f"{label}_0"] = factor * held_double(number)
            row = (total == 0) if is_equal else (total <= 0)
            row.name = label
            rows.append(row)
            limit = factor * held_double(side)
            held.rows[f"{label}_0"] = (limit if is_equal else None), limit

    for name, limits in given.rows.items():
        add(name, given.coefficients(name), *limits)
    for label, (name, lower, upper) in bounds.items():
        if lower is not None or upper is not None:
            add(label, {name: Fraction(1)}, lower, upper)
    model = op(objective, rows)
    model.tofile(str(folder / "cvxopt.mps"))
    used = {f"{each.name}_0" for each in model.variables()}
    held.columns = {name: column for name, column in held.columns.items() if name in used}
    return held


def held_double(number: Fraction) -> Fraction:
    return Fraction(float(number))


# ---- lp_solve


def by_lp_solve(given: Held, source: Path, folder: Path) -> Held:
    library = ctypes.CDLL(LP_SOLVE)
    model = lp_solve_model(library, given)
    for name in (*given.rows, *given.columns):
        assert len(name) <= 8, "fixed MPS cuts names to 8 characters"
    for call, file in ((library.write_mps, "lp_solve-fixed.mps"), (library.write_freemps, "lp_solve-free.mps")):
        call.argtypes = [c_void_p, c_char_p]
        call(model, bytes(folder / file))
    return held_by_lp_solve(library, model)


def lp_solve_model(library: Any, given: Held) -> int:
    library.make_lp.restype = c_void_p
    model: int = library.make_lp(0, len(given.columns))
    pointer = c_void_p(model)
    library.set_verbose(pointer, 1)
    if given.sense == "maximize":
        library.set_maxim(pointer)
    numbers = {name: at for at, name in enumerate(given.columns, 1)}

    def vector(terms: dict[str, Fraction]) -> tuple[int, Any, Any]:
        values = (c_double * (len(terms) + 1))(*map(float, terms.values()))
        return len(terms), values, (c_int * (len(terms) + 1))(*(numbers[name] for name in terms))

    library.set_obj_fnex(pointer, *vector({name: column.cost for name, column in given.columns.items() if column.cost}))
    library.set_rh(pointer, 0, c_double(float(given.constant)))
    for at, (name, (lower, upper)) in enumerate(given.rows.items(), 1):
        kind, side = (3, upper) if lower is not None and lower == upper else (1, upper) if lower is None else (2, lower)
        library.add_constraintex(
            pointer,
            *vector(given.coefficients(name)),
            2 if side is None else kind,
            c_double(-1e30 if side is None else float(side)),
        )
        if kind == 2 and upper is not None:
            library.set_rh_range(pointer, at, c_double(float(lower or 0)), c_double(float(upper)))
        library.set_row_name(pointer, at, name.encode())
    for name, at in numbers.items():
        column = given.columns[name]
        library.set_col_name(pointer, at, name.encode())
        lower = -1e30 if column.lower is None else float(column.lower)
        upper = 1e30 if column.upper is None else float(column.upper)
        library.set_bounds(pointer, at, c_double(lower), c_double(upper))
        if column.kind == "integer":
            library.set_int(pointer, at, c_ubyte(1))
        elif column.kind == "semi":
            library.set_semicont(pointer, at, c_ubyte(1))
    return model


def held_by_lp_solve(library: Any, model: int) -> Held:
    pointer = c_void_p(model)

    def value(call: str, *numbers: int) -> Fraction:
        found = getattr(library, call)
        found.restype = c_double
        return Fraction(found(pointer, *numbers))

    def bound(call: str, at: int) -> Limit:
        number = value(call, at)
        return None if abs(number) >= Fraction(1e30) else number

    def name(call: str, at: int) -> str:
        found = getattr(library, call)
        found.restype = c_char_p
        return str(found(pointer, at).decode())

    def flag(call: str, *numbers: int) -> bool:
        return bool(getattr(library, call)(pointer, *numbers) & 0xFF)

    held = Held("maximize" if flag("is_maxim") else "minimize", value("get_rh", 0))
    rows = [name("get_row_name", at) for at in range(1, library.get_Nrows(pointer) + 1)]
    for at, row in enumerate(rows, 1):
        lower, upper = bound("get_rh_lower", at), bound("get_rh_upper", at)
        held.rows[row] = lower, upper
    for at in range(1, library.get_Ncolumns(pointer) + 1):
        kind = "integer" if flag("is_int", at) else "semi" if flag("is_semicont", at) else "continuous"
        column = Column(kind, bound("get_lowbo", at), bound("get_upbo", at), value("get_mat", 0, at))
        column.entries = {row: number for row_at, row in enumerate(rows, 1) if (number := value("get_mat", row_at, at))}
        held.columns[name("get_col_name", at)] = column
    return held


# ---- QSopt_ex


class Integer(ctypes.Structure):
    _fields_ = [("allocated", c_int), ("size", c_int), ("limbs", c_void_p)]


class Rational(ctypes.Structure):
    _fields_ = [("numerator", Integer), ("denominator", Integer)]


def by_qsopt(given: Held, source: Path, folder: Path) -> Held:
    library = ctypes.CDLL(QSOPT)
    library.QSexactStart()
    library.mpq_QSread_prob.restype = c_void_p
    library.mpq_QSread_prob.argtypes = [c_char_p, c_char_p]
    library.mpq_QSwrite_prob.argtypes = [c_void_p, c_char_p, c_char_p]
    model = library.mpq_QSread_prob(bytes(source.with_suffix(".mps")), b"MPS")
    if not model:
        raise SystemExit("QSopt_ex rejects the model")
    library.mpq_QSwrite_prob(model, bytes(folder / "qsopt.lp"), b"LP")
    library.mpq_QSwrite_prob(model, bytes(folder / "qsopt.mps"), b"MPS")
    return held_by_qsopt(library, model)


def held_by_qsopt(library: Any, model: int) -> Held:
    gmp = ctypes.CDLL(GMP)
    gmp.__gmpq_get_str.restype = c_void_p
    pointer = c_void_p(model)

    def exact(number: Rational) -> Fraction:
        text = gmp.__gmpq_get_str(None, 10, byref(number))
        return Fraction(ctypes.string_at(text).decode())

    def bound(number: Rational) -> Limit:
        found = exact(number)
        return None if abs(found) >= 10**30 else found

    rows, columns = library.mpq_QSget_rowcount(pointer), library.mpq_QSget_colcount(pointer)
    sense = c_int()
    library.mpq_QSget_objsense(pointer, byref(sense))
    held = Held("maximize" if sense.value == -1 else "minimize")
    integers, numbers = POINTER(c_int), POINTER(Rational)
    count, begin, index = (integers() for _ in range(3))
    value, side, distance = (numbers() for _ in range(3))
    names = POINTER(c_char_p)()
    letters = POINTER(c_char)()
    library.mpq_QSget_ranged_rows(pointer, *map(byref, (count, begin, index, value, side, letters, distance, names)))
    row_names = [names[at].decode() for at in range(rows)]
    for at, name in enumerate(row_names):
        limit, kind = exact(side[at]), letters[at]
        held.rows[name] = {
            b"L": (None, limit),
            b"G": (limit, None),
            b"E": (limit, limit),
            b"R": (limit, limit + exact(distance[at])),
            b"N": (None, None),
        }[kind]
    count, begin, index, value, cost, lower, upper, names = (
        integers(),
        integers(),
        integers(),
        numbers(),
        numbers(),
        numbers(),
        numbers(),
        POINTER(c_char_p)(),
    )
    library.mpq_QSget_columns(pointer, *map(byref, (count, begin, index, value, cost, lower, upper, names)))
    flags = (c_int * max(columns, 1))()
    library.mpq_QSget_intflags(pointer, flags)
    for at in range(columns):
        column = Column("integer" if flags[at] else "continuous", bound(lower[at]), bound(upper[at]), exact(cost[at]))
        for entry in range(begin[at], begin[at] + count[at]):
            column.entries[row_names[index[entry]]] = exact(value[entry])
        held.columns[names[at].decode()] = column
    return held


LIBRARIES: dict[str, Callable[[Held, Path, Path], Held]] = {
    "pulp": by_pulp,
    "cvxopt": by_cvxopt,
    "lp_solve": by_lp_solve,
    "qsopt": by_qsopt,
}


def main() -> int:
    library, source, folder = sys.argv[1:]
    held = LIBRARIES[library](from_lines(Path(source).read_text(encoding="utf-8")), Path(source), Path(folder))
    print(to_lines(held), end="")
    return 0


if __name__ == "__main__":
    sys.exit(main())
