"""The random models of tests/shared/models.py as models of the package."""

import sys
from decimal import Decimal
from pathlib import Path

import mpslp

sys.path.insert(0, str(Path(__file__).resolve().parents[2] / "tests"))

from shared import models

INFINITY = Decimal("Infinity")


def decimal(number):
    """A number of tests/shared/models.py, where None is an infinite limit."""
    return None if number is None else Decimal(f"{number.mantissa}e{number.exponent}")


def made(drawn):
    """A model of tests/shared/models.py."""
    rows = [
        mpslp.Row(
            name,
            -INFINITY if row.lower is None else decimal(row.lower),
            INFINITY if row.upper is None else decimal(row.upper),
        )
        for name, row in drawn.rows.items()
    ]
    columns = []
    for name, column in drawn.columns.items():
        values = {row: decimal(value) for row, value in column.values.items()}
        columns.append(
            mpslp.Column(
                name,
                "semi-continuous" if column.kind == "semi" else column.kind,
                -INFINITY if column.lower is None else decimal(column.lower),
                INFINITY if column.upper is None else decimal(column.upper),
                values.pop(drawn.objective, 0),
                values,
            )
        )
    return mpslp.Model(
        "maximize" if drawn.maximise else "minimize", drawn.objective, decimal(drawn.constant), rows, columns
    )


def drawn(source):
    """A random model."""
    return made(models.drawn_model(source))
