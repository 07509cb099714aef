#!/usr/bin/env python3
r"""Files that mpslp rejects, as people write them, and the cause that the message about each has to name.

The files are short texts with what the manuals of Gurobi, CPLEX, Xpress, SCIP, HiGHS and lp_solve allow and mpslp does
not, with what is copied from a modelling language, a table or a page, and with what a person mistypes. Each family of
them has the rule of the messages that recognises it; `usual` is the cause of a kind that needs no rule. A message that
has no cause, that says no more than what may come at the place, or that says the file is truncated leads nobody to the
mend: at most 5 of 100 may.

    python3 python/tests/rejected_files.py            counts, and what is not as it has to be
    python3 python/tests/rejected_files.py --list     the rule of each file
    python3 python/tests/rejected_files.py DIRECTORY  writes the files

Every text is rejected: one that is accepted fails, too.
"""

import argparse
import sys
from collections import Counter
from collections.abc import Iterator
from pathlib import Path
from typing import NamedTuple

MOST_OF_100 = 5
VAGUE = ("", "truncated", "unexpected")
"""The rules of messages that do not lead to the mend; no rule and no cause is the first one."""
USUAL = "usual"


class File(NamedTuple):
    """A file that is rejected, its format, and the rule that its message has."""

    rule: str
    format: str
    text: bytes


def lp(objective="obj: x + y", rows="c: x + y >= 1", bounds="", lists="", head="", sense="Minimize", end="End\n"):
    """An LP file with one part that is wrong."""
    parts = [head, sense, f" {objective}", "Subject To", *(f" {row}" for row in rows.split("\n"))]
    parts += ["Bounds", *(f" {bound}" for bound in bounds.split("\n"))] if bounds else []
    parts += [lists] if lists else []
    return "lp", "\n".join(filter(None, parts)) + f"\n{end}"


def mps(
    rows=" N  COST\n L  LIM1\n G  MYG",
    columns="    X  COST  1.0  LIM1  1.0\n    Y  COST  2.0  MYG  1.0",
    rhs="    RHS  LIM1  4.0",
    tail="",
    head="NAME  plan",
    end="ENDATA\n",
):
    """An MPS file with one part that is wrong."""
    return (
        "mps",
        "\n".join(filter(None, (head, "ROWS", rows, "COLUMNS", columns, "RHS" if rhs else "", rhs, tail))) + f"\n{end}",
    )


def row(text):
    return lp(rows=text)


def rows(*texts):
    return [lp(rows=each) for each in texts]


def objectives(*texts):
    return [lp(objective=each) for each in texts]


def bounds(*texts):
    return [lp(bounds=each) for each in texts]


def lists(*texts):
    return [lp(lists=each) for each in texts]


def heads(*texts):
    return [lp(head=each) for each in texts]


def columns(*texts):
    return [mps(columns=each) for each in texts]


def tails(*texts):
    return [mps(tail=each) for each in texts]


def whole(format, *texts):
    return [(format, each) for each in texts]


FAMILIES = {
    # ---- numbers
    "space-in-number": [
        *rows(
            "c: x + y >= 1 000",
            "c: x + y >= 12 500.5\nd: x <= 4",
            "c: 1 200 x + y >= 1",
            "c: x + y >= 1_000",
            "c: x + y <= 1 000 000\nd: x <= 4",
            "c: x + y >= 1'000\nd: x <= 1",
        ),
        *objectives("obj: 1 500 x + y"),
        *bounds("x <= 10 000", "0 <= x <= 10 000\ny <= 4"),
        *columns("    X  COST  1 000  LIM1  1", "    X  COST  1 000", "    X  COST  1_000"),
        mps(rhs="    RHS  LIM1  12 500"),
        *tails("BOUNDS\n UP BND X 10 000"),
    ],
    "two-numbers": [
        *objectives("obj: 2 3 x + y", "obj: 2.5 4 x"),
        *rows("c: 2 3 x + y >= 1", "c: x + 5 5 y >= 1\nd: x <= 1", "c: x + y <= 4 5\nd: x <= 1"),
    ],
    "two-points": [
        *rows("c: x >= 1.2.3", "c: 1.2.3 x + y >= 1", "c: x >= 1..5\nd: x <= 4"),
        *objectives("obj: 3.4.5 x"),
        *bounds("x <= 10.2.1"),
        *columns("    X  COST  1.2.3"),
    ],
    "unit-after-number": [
        *rows(
            "c: x + y <= 4 tons",
            "c: x + y <= 4 tons\nd: x - y >= 2 tons",
            "c: x + y <= 4kg\nd: x <= 1",
            "c: x + y >= 10 kWh\nd: x <= 4",
            "c: 2 <= x + y <= 10 t",
        ),
        *bounds("x <= 4 h", "0 <= x <= 4 hours\ny <= 2"),
        *columns("    X  COST  4kg"),
    ],
    "currency": [
        *rows("c: x + y <= $40", "c: x + y <= $ 40\nd: x <= 4", "c: $3 x + y <= 40"),
        *objectives("obj: $ x + y", "obj: $3 x + $4 y"),
        *columns("    X  COST  $4"),
        *bounds("x <= $5"),
    ],
    "percent": [
        *rows("c: 30% x + y >= 1", "c: x - 30 % y >= 0"),
        *objectives("obj: 5% x + y"),
        *columns("    X  COST  30%"),
    ],
    "mark-after-number": [*rows("c: x + y <= 40%\nd: x <= 1", "c: x + y <= 40!\nd: x <= 2", "c: x <= 40#\nd: y <= 3")],
    "hexadecimal": [
        *objectives("obj: 0x10 x"),
        *rows("c: x + y >= 0x1F\nd: x <= 1", "c: 0xFF x + y <= 3"),
        *bounds("x <= 0x20"),
        *columns("    X  COST  0x10"),
    ],
    "fortran-exponent": [*objectives("obj: 1d5 x + y"), *rows("c: x + y <= 1d5\nd: x <= 1"), *bounds("x <= 2.5D2")],
    "other-number": [
        *columns("    X  COST  1.5D+03", "    X  COST  inf", "    X  COST  Infinity"),
        *tails("BOUNDS\n UP BND X +oo", "BOUNDS\n UP BND X unbounded", "BOUNDS\n UP BND X 1.#INF"),
    ],
    "odd-exponent": [
        *rows("c: 1e x + y >= 1", "c: x + y >= 1e\nd: x <= 1", "c: x + y >= 2e+\nd: x <= 3", "c: 1e2.5 x + y >= 1"),
        *columns("    X  COST  1e", "    X  COST  1e+", "    X  COST  2e1.5"),
    ],
    "letter-as-digit": [
        *columns("    X  COST  1O0", "    X  COST  l5", "    X  COST  1.O"),
        *rows("c: x + y <= 1O\nd: x <= 3", "c: 1OO x + y <= 5"),
    ],
    "nan": [
        *columns("    X  COST  nan", "    X  COST  NA", "    X  COST  None", "    X  COST  #N/A", "    X  COST  NULL"),
        mps(rhs="    RHS  LIM1  -nan"),
        *objectives("obj: nan x + y", "obj: 2 x + nan y"),
        *rows("c: nan x + y >= 1"),
    ],
    "nan-on-the-right": rows("c: x >= nan", "c: x >= -nan\nd: y <= 4", "c: x <= null\nd: y <= 4", "c: x <= NaN"),
    "infinite-coefficient": [
        *objectives("obj: inf x + y", "obj: x + inf"),
        *rows("c: inf x + y >= 1", "c: x - infinity y >= 1"),
    ],
    "decimal-comma": [
        *rows("c: 1,5 x + y >= 1", "c: x + y >= 1,5\nd: x <= 4", "c: x + y >= 1,000,000\nd: x <= 4"),
        *columns("    X  COST  1,5", "    X  COST  1,234.5"),
        *bounds("x <= 4,5\ny <= 2"),
    ],
    "fraction": [
        *rows("c: 1/2 x + y >= 1", "c: x + y >= 1/2\nd: x <= 2", "c: 1 / 2 x + y >= 1"),
        *columns("    X  COST  1/2", "    X  COST  3/4"),
        *objectives("obj: 3/4 x + y"),
    ],
    "product-of-numbers": [
        *rows("c: x + y >= 3*4", "c: 3 * 4 x + y >= 1", "c: x + y >= 2*3*4", "c: x + 2*2.5*y >= 3"),
        *objectives("obj: 2*3 x"),
        *bounds("x <= 2 * 5"),
        *columns("    X  COST  2*3"),
    ],
    "sum-on-the-right": [*rows("c: x + y >= 3 + 4", "c: x + y >= 10 - 2\nd: x <= 1"), *bounds("x <= 10 + 2")],
    "coefficient-after": [
        *objectives("obj: x 3 + y", "obj: x + y 2"),
        *rows("c: x 3 + y >= 1", "c: x + y 4 >= 1\nd: x <= 3"),
    ],
    "division": [*rows("c: x / 2 + y >= 1", "c: x + y / 4 <= 3"), *objectives("obj: x / 5 + y")],
    "signs-of-number": [
        *columns("    X  COST  --4", "    X  COST  +-4", "    X  COST  4-", "    X  COST  - 4"),
        mps(rhs="    RHS  LIM1  - 4"),
        *tails("BOUNDS\n LO BND X - 4"),
    ],
    # ---- relations
    "no-relation": [
        *rows("c: x + y 4\nd: x >= 1", "c: x + y 4", "c: 2 x + 3 y 10\nd: x >= 1"),
        *bounds("x 4", "x 4\ny <= 2"),
    ],
    "row-without-relation": rows("c: x + y\nd: x >= 1", "c: x + y - 4\nd: x >= 1", "c: x + y + 3 z\nd: x >= 1"),
    "relation-in-words": [
        *rows(
            "c: x le 4",
            "c: x + y ge 4",
            "c: x + y =l= 4",
            "c: x + y =g= 4\nd: x <= 3",
            "c: x + y leq 4",
            "c: x + y .le. 4",
            "c: x is 4",
            "c: x eq 4",
            "c: x + y =E= 5",
        ),
        *bounds("x le 4", "x leq 4"),
        *rows("c: x + y less than 4", "c: x + y at most 4\nd: x <= 3"),
    ],
    "latex": [
        *rows("c: x + y \\leq 4\nd: x <= 3", "c: x + y \\ge 4\nd: x <= 3", "c: 2 \\cdot x <= 3\nd: y <= 3"),
        *bounds("x \\le 4\ny <= 3"),
    ],
    "two-relations": [
        *rows(
            "c: x + y >= <= 4",
            "c: x + y <= < 4",
            "c: x + y > = 4",
            "c: x + y < = 4\nd: x >= 1",
            "c: x >== 4",
            "c: x >> 4",
            "c: x = = 4",
            "c: x =>= 4",
        ),
        *bounds("x >= <= 4", "x < = 4"),
    ],
    "other-relation": [
        *rows("c: x + y == 4", "c: x + y != 4", "c: x <> 4", "c: x === 4", "c: x ~= 4", "c: x + y /= 4"),
        *bounds("x == 4"),
    ],
    "assignment": [
        *rows("c: x := 4", "c := x + y <= 4", "c: x + y := 4"),
        *bounds("x := 4"),
        *objectives("obj := x + y", "cost := 2 x"),
    ],
    "missing-number": [
        *rows("c: x + y >=\nd: x <= 1", "c: x + y <=\nd: x <= 1", "c: x + y ="),
        *bounds("x <=\ny <= 2"),
    ],
    "second-relation": rows("c: x <= 4 <= 5", "c: x + y >= 1 <= 9\nd: x <= 3"),
    "terms-on-the-right": rows(
        "c: x >= y", "c: x + y >= 2 y + 1\nd: x <= 3", "c: 3 >= x + y + 2 z >= 2 x", "c: 12 >= 2 x + 3 y\nd: x <= 2"
    ),
    "number-on-the-left": rows("c: 5 <= x + y\nd: x <= 4", "c: 0 = x - y\nd: x <= 2"),
    "row-of-numbers": rows(
        "c: 0 >= 1", "c: 0 <= 4\nd: x <= 2", "c: 1 = 1\nd: x <= 2", "c: 0 + 0 >= 0\nd: x <= 2", "c: - 1 <= 0"
    ),
    "row-without-terms": rows("c: >= 2", "c: x <= 3\nd: <= 5"),
    "label-without-row": rows("c:\nd: x >= 1", "c: d: x >= 1", "c: x >= 1\nd:\nf: x <= 2"),
    # ---- terms
    "trailing-sign": [
        *objectives("obj: x + y +", "obj: x -"),
        *rows("c: x + y + >= 1", "c: x + y +\nd: x <= 1", "c: x - <= 3", "c: 2 x + - >= 1"),
        *bounds("x <= -\ny <= 3"),
    ],
    "keyword-as-name": [
        *objectives("obj: st + free", "obj: x + bounds", "obj: 3 bin + x"),
        *rows(
            "c: x + free >= 2",
            "c: 2 gen + x >= 2",
            "c: x + int <= 3",
            "c: x + st >= 2",
            "c: min + x <= 3",
            "c: x + end >= 1",
            "end: x + y >= 1",
            "bounds: x + y >= 1",
        ),
        *bounds("int <= 4", "free <= 4"),
    ],
    "no-sign": [*objectives("obj: x y", "obj: 2 x 3 y"), *rows("c: x y >= 1", "c: 2 x 3 y <= 1", "c: x + y z <= 4")],
    "product": [*objectives("obj: 2*x + 3*y", "obj: 2 * x"), *rows("c: 2*x + y >= 1", "c: x*2 + y >= 1")],
    "usual: products": [*objectives("obj: x*y", "obj: x * y + z"), *rows("c: x*y >= 1", "c: 2 x * y <= 3")],
    "usual: powers": [
        *objectives("obj: x^2", "obj: x + y ^ 2", "obj: 2 x**2"),
        *rows("c: x^2 + y >= 1", "c: x**2 <= 4"),
    ],
    "brackets-in-name": [
        *objectives("obj: x[1] + x[2]"),
        *rows("c: x[1] + y >= 1", "c: x[1,2] >= 1", "c: flow[a][b] <= 3"),
    ],
    "typed-character": [
        *rows(
            "c: x + y ≥ 1",
            "c: x + y ≤ 4",
            "c: x − y >= 1",
            "c: 2 × x >= 1",
            "c: x\u00a0+ y >= 1",
            "c: x ≠ 3",
            "c: 2·x + y >= 1",
            "c: “x” + y >= 1",
            "c: x – y <= 3",
        ),
        *objectives("obj: 3 € + x", "obj: ½ x"),
        *columns("    X  COST  −1", "    X\u00a0 COST  1", "    X  COST  1\u00a0000"),
    ],
    # ---- bounds and lists
    "label-in-bounds": [*bounds("b1: x <= 4", "x: free", "x: 0 <= x <= 4", "lim: x free", "b1: x <= 4\nb2: y <= 3")],
    "word-for-free": [
        *bounds(
            "x unbounded",
            "x unrestricted",
            "x: unbounded",
            "x urs",
            "x free y unbounded",
            "x Unbounded\ny <= 3",
            "x unbound",
        )
    ],
    "several-in-bounds": [*bounds("x y free", "x, y free", "x, y >= 0", "x y >= 0", "x, y <= 4", "x y z free")],
    "type-in-bounds": [*bounds("x integer", "x binary", "x int", "x bin")],
    "coefficient-in-bounds": [*bounds("2 x <= 8", "-x >= -5", "- x <= 3")],
    "row-in-bounds": [*bounds("x + y <= 4", "x <= y", "x - y >= 0")],
    "bound-in-list": [
        *lists(
            "Binary\n x = 1",
            "Binaries\n x <= 1",
            "Generals\n x <= 10",
            "General\n 0 <= x <= 5",
            "Generals\n x = 3\n y",
            "Binary\n x >= 0",
            "Generals\n 3",
            "Integers\n x : 1",
            "Generals\n -x",
        ),
        *lists("Binary\n x 1"),
    ],
    "other-keyword": [
        *lists("Boolean\n x", "Bools\n x", "Logical\n x", "Integral\n x", "Binarys\n x", "Genarals\n x"),
        *whole(
            "lp",
            "Minimise\n x\nSubject To\n c: x >= 1\nEnd\n",
            "Minimize\n x\nConstraints\n c: x >= 1\nEnd\n",
            "Minimize\n x\nSubj. To\n c: x >= 1\nEnd\n",
            "Minimize\n x\nSubject\n c: x >= 1\nEnd\n",
            "Minimze\n x\nSubject To\n c: x >= 1\nEnd\n",
            "Maximise\n x\ns.t\n c: x >= 1\nEnd\n",
            "Min\n x\nWhere\n c: x >= 1\nEnd\n",
        ),
    ],
    "no-subject-to": whole(
        "lp",
        "Minimize\n obj: x\n c: x >= 1\nEnd\n",
        "min x + y\nx + y >= 1\nend\n",
        "min\n obj: x\n\n c1: x + y >= 1\n c2: x <= 4\nend\n",
    ),
    "no-sense": whole("lp", "x + y\nst\n c: x + y >= 1\nend\n", "obj: x + y\nst\n c: x >= 1\nend\n"),
    "usual: order": whole("lp", "Subject To\n c: x >= 1\nEnd\n", lp(rows="c: x + 3 >= z + 2 w\nd: x <= 3")[1]),
    "colon-after-keyword": whole(
        "lp",
        lp(lists="Integer:\n x")[1],
        "Minimize: x\nst\n c: x >= 1\nend\n",
        "Minimize\n x\nSubject To:\n c: x >= 1\nEnd\n",
        "Minimize\n x\nst:\n c: x >= 1\nBounds:\n x <= 4\nEnd\n",
    ),
    "and-in-row": [
        *rows("c: x <= 4 and y <= 5", "c: x + y <= 4, x >= 1", "c: x <= 4 & y <= 3", "c: x <= 4 or y <= 5"),
        *bounds("x >= 0 and y >= 0"),
    ],
    "punctuation-after-row": rows(
        "c: x <= 1;", "c: x <= 1;\nd: y <= 2;", "c: x <= 1,\nd: y <= 2", "c: x <= 1 ;\nd: y <= 3"
    ),
    "free-text": [
        *heads("This is my model"),
        *rows(
            "capacity of the plant\nc: x <= 4", "The limits\nc: x <= 4", "c: x <= 4\nsee the mail of Monday\nd: y <= 3"
        ),
        *whole("lp", "Production plan 2024\nMinimize\n x\nEnd\n", "Model plan\n\nMinimize\n x\nst\n c: x >= 1\nEnd\n"),
    ],
    "space-in-label": rows("my row: x <= 1", "limit 1: x <= 1", "c: x <= 4\nmax stock: y <= 3"),
    "digit-first": rows("1st: x <= 1", "2nd: x + y >= 1\n3rd: x <= 4"),
    # ---- comments
    "other-comment": [
        *heads(
            "* a note",
            "! a note",
            "% a note",
            "-- a note",
            "# a note",
            "// a note",
            "/* a note */",
            "; a note",
            "' a note",
            "** a note",
            "--- plan ---",
            "REM a note",
            '"a note"',
        ),
        *rows(
            "* a note\nc: x <= 1",
            "! a note\nc: x <= 1",
            "c: x <= 1 ! a note",
            "c: x <= 1 # a note\nd: y <= 3",
            "c: x <= 1 // a note",
            "c: x <= 1 % a note\nd: y <= 4",
            "-- a note\nc: x <= 1",
            "c: x <= 1 -- the limit\nd: y <= 4",
            "c: x <= 1 * note\nd: x >= 0",
            "% the limits\nc: x <= 1",
            "c: x <= 1 /* a note */\nd: y <= 3",
            "c: x <= 1 ; the limit\nd: x >= 0",
        ),
        *bounds("# a note\nx <= 4", "x <= 4 ! a note\ny <= 3"),
        *[
            mps(head=f"{each}\nNAME  plan")
            for each in (
                "# a note",
                "// a note",
                "! a note",
                "% a note",
                "-- a note",
                "; a note",
                "\\ a note",
                "/* a note */",
                "' a note",
            )
        ],
        *columns(
            "    # a note\n    X  COST  1",
            "    ! costs\n    X  COST  1",
            "# costs\n    X  COST  1",
            "    X  COST  1  # a note",
            "    X  COST  1  LIM1  1  ! note",
            "    X  COST  1  // a note",
            "    * a note\n    X  COST  1",
            "    X  COST  1  * a note",
        ),
        *tails("BOUNDS\n// limits\n UP BND X 4", "BOUNDS\n UP BND X 4 # hours", "BOUNDS\n ! limits\n UP BND X 4"),
    ],
    # ---- what other readers have
    "multi-objective": whole(
        "lp",
        "Minimize multi-objectives\n  OBJ0: Priority=2 Weight=1 AbsTol=0 RelTol=0\n   x + y\n"
        "  OBJ1: Priority=1 Weight=1 AbsTol=0 RelTol=0\n   x - y\nSubject To\n c0: x + y >= 1\nEnd\n",
        "maximize multi-objectives\n obj1: priority 2 weight 1.0 abstol 0 reltol 0\n  x\n obj2: priority 1\n"
        " y\nsubject to\n c: x + y <= 3\nend\n",
        "minimize multiobjectives\n a: x\n b: y\nst\n c: x >= 1\nend\n",
        "Minimize\n cost: x + y\n time: 2 x\nSubject To\n c: x >= 1\nEnd\n",
    ),
    "general-constraints": [
        *lists(
            "General Constraints\n gc0: z = MAX ( x , y , 3 )",
            "General Constraints\n gc1: z = ABS ( x )\n gc2: b = AND ( b1 , b2 )",
            "GenCons\n z = min(x, y)",
            "General Constraints\n gc0: y = POW ( x , 2 )",
            "general constraints\n x = OR ( y )",
        ),
        *tails("GENCONS\n MAX gc0\n z", "GENCONS\n ABS gc1\n z X"),
    ],
    "piecewise-linear": [
        *lists("PWL\n f: f = x 0.5 (0,0) (2,1) 1", "PWLObj\n x: (0, 0) (1, 2)", "pwl\n p1: y = x 0 (1,1) (2,3) 2"),
        *tails("PWLOBJ\n x 0 0", "PWL\n x 0 0 1 2"),
    ],
    "scenarios": [*lists("Scenario s1\n c: 4", "Scenarios\n s1"), *tails("SCENARIOS\n s1 root 0.5", "Scenarios\n  S1")],
    "lazy-constraints": [
        *lists("Lazy Constraints\n d: x + y <= 3", "User Cuts\n d: x + y <= 3", "lazy constraints\n d: x <= 3")
    ],
    "usual: lazy": tails("LAZYCONS\n L d", "USERCUTS\n L d", "DELAYEDROWS\n L d", "MODELCUTS\n L d"),
    "usual: sets": [
        *lists(
            "SOS\n s1: S1:: x : 1 y : 2",
            "SOS2\n s2: x:1, y:2, z:3",
            "sos1\n set1: x:5,y:6\nsos2\n set2: x:1,y:2",
            "SOS\n S1:: x : 1 y : 2",
        ),
        *tails(
            "SOS\n S1 SOS s1\n    SOS X 1\n    SOS Y 2",
            "SOS2\n S2 SOS s2\n    SOS X 1\n    SOS Y 2",
            "SOS\n S1 s1\n    X 1\n    Y 2",
        ),
    ],
    "usual: quadratic": [
        *objectives("obj: x + [ 2 x ^2 + 4 x * y ] / 2", "obj: [ x^2 ]/2", "obj: x + [x*y]"),
        *rows("qc: x + [ x ^2 ] <= 3", "c: [ x * y ] >= 1"),
        *tails(
            "QUADOBJ\n    X  X  2",
            "QMATRIX\n    X  X  2",
            "QSECTION COST\n    X  X  2",
            "QCMATRIX LIM1\n    X  X  1",
            "CSECTION k 0 QUAD\n    X",
        ),
    ],
    "implication": rows("c: y = 1 => x <= 3", "c: x <= 3 <- y = 1"),
    "usual: indicators": [
        *rows("c: y = 1 -> x <= 3", "c: y = 0 -> x + z >= 2\nd: x <= 3", "c: x >= 1 <-> y = 1"),
        *tails("INDICATORS\n IF LIM1 X 1"),
    ],
    "usual: sections": [
        *tails(
            "BRANCH\n UP X 1",
            "LAZYCONS\n L  CUT",
            "PRIORITY\n X 1",
            "OPTIONS\n X",
            "START\n X 1",
            "DIRECTIVES\n X 1",
            "BASIS\n X",
        )
    ],
    # ---- MPS
    "misspelt-keyword": [
        *tails("BOUND\n UP BND X 4", "BOUDNS\n UP BND X 4", "RANGE\n    RNG LIM1 2", "RANGS\n    RNG LIM1 2"),
        mps(end="END\n"),
        mps(end="ENDDATA\n"),
        mps(end="EOF\n"),
        mps(end="END DATA\n"),
    ],
    "lower-case-keyword": [
        *tails("bounds\n UP BND X 4", "ranges\n    RNG LIM1 2"),
        mps(end="endata\n"),
        ("mps", "name plan\nrows\n N COST\ncolumns\n    X COST 1\nendata\n"),
        ("mps", "NAME\nRows\n N COST\nColumns\n    X COST 1\nEndata\n"),
    ],
    "data-in-first-column": [
        mps(rows=" N  COST\nL  LIM1\n G  MYG"),
        *columns("X  COST  1\n    Y  COST  1"),
        *tails("BOUNDS\nUP BND X 4", "RANGES\nRNG LIM1 4"),
        mps(rhs="RHS  LIM1  4"),
    ],
    "misspelt-word": [
        mps(rows=" n  COST\n l  LIM1\n g  MYG"),
        mps(rows=" N  COST\n <=  LIM1\n G  MYG"),
        mps(rows=" N  COST\n LE  LIM1\n G  MYG"),
        mps(rows=" MIN  COST\n L  LIM1\n G  MYG"),
        mps(rows=" F  COST\n L  LIM1\n G  MYG"),
        *tails(
            "BOUNDS\n up BND X 4",
            "BOUNDS\n UB BND X 4",
            "BOUNDS\n BIN BND X",
            "BOUNDS\n FREE BND X",
            "BOUNDS\n <= BND X 4",
            "BOUNDS\n EQ BND X 4",
        ),
    ],
    "usual: types": tails("BOUNDS\n INT BND X", "BOUNDS\n BN BND X"),
    "unsupported-bound": tails("BOUNDS\n SI BND X 4", "BOUNDS\n PI BND X 4"),
    "field-left-out": [
        *columns("    X  COST", "    X  COST  1  LIM1", "    X  1", "    X  1  LIM1  1", "    COST  1"),
        mps(rows=" N  COST\n LIM1\n G  MYG"),
        mps(rhs="    RHS  4"),
        mps(rhs="    RHS  LIM1"),
        *tails("BOUNDS\n UP X\n FR BND Y", "BOUNDS\n UP BND X 4\n UP BND 4", "BOUNDS\n BND X 4", "RANGES\n    RNG  4"),
    ],
    "usual: fields": [*columns("    X"), mps(rhs="    RHS"), *tails("BOUNDS\n UP")],
    "several-ways": [*columns("    X  COST  1  4", "    X  COST  1  1"), mps(rhs="    RHS  LIM1  4  4")],
    "field-too-many": [
        *columns("    X  COST  1  1  LIM1  1", "    X  X  COST  1"),
        mps(rows=" N  COST\n L  LIM1  4\n G  MYG"),
        *tails("BOUNDS\n UP BND X 4 4"),
    ],
    "text-after-fields": [*columns("    X  COST  1  as agreed"), *tails("BOUNDS\n UP BND X 4 per day")],
    "name-split": [
        *columns("    my X  COST  1  LIM1  1\n    Y  COST  1", "    X  COST  1  LIM 1  1", "    X  COST  1 .5"),
        mps(rows=" N  COST\n L  LIM 1\n G  MYG"),
        mps(rhs="    RHS  LIM 1  4"),
    ],
    "fields-out-of-order": [
        *columns(
            "    X  1  COST", "    COST  X  1", "    X  COST  1  1  LIM1", "    'MARKER'  M  'INTORG'\n    X  COST  1"
        ),
        mps(rows=" N  COST\n LIM1  L\n G  MYG"),
        mps(rhs="    LIM1  4  MYG  1\n    1  COST"),
        *tails(
            "BOUNDS\n UP BND X 4\n UP Y BND 4", "BOUNDS\n UP BND 4 X", "BOUNDS\n BND X 4 UP", "RANGES\n    RNG 4 LIM1"
        ),
    ],
    "glued-fields": [
        *columns("    XCOST  1\n    X  LIM1  1", "    X  COST1", "    X  COST  1LIM1  1"),
        mps(rows=" N  COST\n LLIM1\n G  MYG"),
        mps(rhs="    RHS  LIM14"),
        *tails("BOUNDS\n UPBND X 4", "BOUNDS\n UP BND Y 1\n UP BNDX 4", "BOUNDS\n UP BND X4"),
    ],
    "stray-mark": [
        *columns("    X  COST  1,", "    | X | COST | 1 |", "    X  COST=1", '    "X"  "COST"  "1"', "    X  1*COST"),
        mps(rows=" N  COST\n| L | LIM1 |\n G  MYG"),
        mps(rhs="    RHS  LIM1=4  MYG=1"),
        *tails("BOUNDS\n UP BND X (4)", "BOUNDS\n UP BND X; 4"),
    ],
    "lines-in-one": [
        *columns("    X  COST  1  LIM1  1  Y  COST  1"),
        mps(rows=" N  COST  L  LIM1\n G  MYG"),
        *tails("BOUNDS\n UP BND X 4 UP BND Y 3"),
    ],
    "line-broken": [*columns("    X  COST\n    1", "    X  COST  1  LIM1\n    1"), *tails("BOUNDS\n UP BND X\n 4")],
    "misspelt-set": [
        mps(rhs="    RHS  LIM1  4\n    RSH  MYG  1"),
        *tails("BOUNDS\n UP BND X 4\n UP BMD Y 3", "BOUNDS\n UP BND X 4\n UP bnd Y 3"),
    ],
    "indented-header": [
        ("mps", mps()[1].replace(f"\n{header}", f"\n {header}")) for header in ("ROWS", "COLUMNS", "RHS", "ENDATA")
    ]
    + tails(" BOUNDS\n UP BND X 4", "  RANGES\n    RNG  LIM1  4"),
    "header-with-marks": [
        ("mps", mps()[1].replace("COLUMNS", "COL UMNS")),
        *tails("BOU NDS\n UP BND X 4", "R ANGES\n    RNG LIM1 4"),
    ],
    "data-after-header": [
        ("mps", mps()[1].replace("ROWS\n", "ROWS")),
        ("mps", mps()[1].replace("RHS\n", "RHS:")),
        *tails("BOUNDS UP BND X 4", "RANGES RNG LIM1 4"),
    ],
    "lost-header": [
        ("mps", mps()[1].replace("ROWS\n", "")),
        ("mps", mps()[1].replace("COLUMNS\n", "")),
        *tails(" UP BND X 4", " FR BND X", "    RNG LIM1 2"),
    ],
    "other-section": [
        *columns("    X  COST  1\n L  CAP\n    Y  COST  1"),
        *tails("BOUNDS\n UP BND X 4\n    RHS  COST  4"),
        mps(rhs=" UP BND X 4\n    RHS  COST  4", tail="BOUNDS\n UP BND Y 4"),
    ],
    "other-field": columns("    my X  COST  LIM1  1\n    Y  COST  1"),
    "column-for-row": [mps(rhs="    RHS  X  4")],
    "row-for-column": tails("BOUNDS\n UP BND LIM1 4"),
    "special-sets-section": [
        *tails("SETS\n S1 s1\n    s1 X 1"),
        *columns("    S1  set  'MARKER'  'SOSORG'\n    X  COST  1\n    Y  COST  1\n    S1  set  'MARKER'  'SOSEND'"),
    ],
    "no-header": tails("---", "Here are the bounds of X"),
    "prefixed-lines": [
        (
            "mps",
            "".join(before.format(number) + line + after for number, line in enumerate(mps()[1].splitlines(True), 1)),
        )
        for before, after in (("> ", ""), ("+", ""), ("    ", ""), ("{}: ", ""), ("{:6}\t", ""), ("plan.mps:{}:", ""))
    ],
    "patch-file": whole(
        "mps", "diff --git a/m.mps b/m.mps\n--- a/m.mps\n+++ b/m.mps\n@@ -9 +9 @@\n-    X  COST  1\n+    X  COST  2\n"
    ),
    "text-before": whole(
        "mps", *(f"{text}\n{mps()[1]}" for text in ("```", "Reading plan.lp\nDone.", "Hello Anna,\n"))
    ),
    "second-model": whole("mps", mps(end="")[1] + mps()[1]),
    "basis-file": whole("mps", "NAME  plan\n XU X  LIM1\n LL Y\nENDATA\n", "NAME\n UL X\nENDATA\n"),
    "other-format": whole(
        "mps",
        "* #variable= 2 #constraint= 1\nmin: +1 x1 +2 x2 ;\n+1 x1 +1 x2 >= 1 ;\n",
        "[comment]\n[/comment]\n[variables]\n x y\n[/variables]\n",
        "STATISTICS\n  Problem name     : plan\n",
        "MODEL:\n MAX = 3*X;\n X <= 4;\nEND\n",
        "max: 3x + 2y;\nc1: x + y <= 4;\n",
        "Model status\nOptimal\n\n# Primal solution values\n",
        "x 1\ny 2\nz 0.5\n",
    ),
    "several-pairs": [*columns("    X  COST  1  LIM1  1  MYG  1"), mps(rhs="    RHS  LIM1  4  MYG  1  COST  2")],
    "unquoted-marker": columns(
        "    M  MARKER  INTORG\n    X  COST  1",
        "    MARKER  MARKER  INTORG\n    X  COST  1\n    MARKER  MARKER  INTEND",
        '    M  "MARKER"  "INTORG"\n    X  COST  1',
    ),
    "misspelt-marker": columns(
        "    M  'MARKER'  'INTBEG'\n    X  COST  1",
        "    M  'MARKER'  'INTSTART'\n    X  COST  1",
        "    M  'MARKER'  INTORG\n    X  COST  1",
    ),
    "sense-word": [
        mps(head="NAME\nOBJSENSE\n    MAXIMISE"),
        mps(head="NAME\nOBJSENSE\n    minimise"),
        mps(head="NAME\nOBJSENSE\n    best"),
    ],
    "sense-without-objsense": [mps(head="NAME\nMAX"), mps(head="NAME\nMINIMIZE")],
    "late-objsense": [*tails("OBJSENSE\n    MAX"), mps(end="OBJSENSE\n    MAX\nENDATA\n")],
    "set-left-out": [mps(rhs="    RHS  LIM1  4\n    MYG  1"), *tails("BOUNDS\n UP BND X 4\n UP Y 3")],
    "mps-order": [
        ("mps", "NAME\nCOLUMNS\n    X  COST  1\nROWS\n N  COST\nENDATA\n"),
        ("mps", "NAME\nROWS\n N  COST\nRHS\nCOLUMNS\n    X  COST  1\nENDATA\n"),
    ],
    "data-before-header": [("mps", " plan\n of May\nROWS\n N  COST\nENDATA\n")],
    # ---- no model files
    "html": [
        *whole(
            "mps",
            "<html>Not found</html>\n",
            "<!DOCTYPE html>\n<html><head><title>404 Not Found</title></head>\n<body></body></html>\n",
        ),
        *whole(
            "lp",
            '<!doctype html>\n<html lang="en">\n<head>\n</head></html>\n',
            "<html>\n<body>Please log in</body></html>\n",
        ),
    ],
    "xml": [
        *whole("mps", '<?xml version="1.0"?>\n<osil xmlns="os.optimizationservices.org">\n</osil>\n'),
        *whole("lp", '<?xml version="1.0" encoding="UTF-8"?>\n<osil>\n</osil>\n'),
    ],
    "table": [
        *whole("mps", "name,lower,upper\nx,0,4\ny,0,5\n", "product;cost;limit\nA;3,5;10\nB;4;12\n"),
        *whole(
            "lp",
            "name,lower,upper\nx,0,4\ny,0,5\n",
            "plant\tcost\tlimit\nA\t3\t10\nB\t4\t12\n",
            "product;cost;limit\nA;3;10\nB;4;12\n",
        ),
    ],
    "json": [
        *whole("mps", '{"variables": [1, 2]}\n', '[\n  {"name": "x"}\n]\n'),
        *whole("lp", '{\n  "objective": {"x": 1}\n}\n'),
    ],
    "zip-archive": whole("mps", "PK\x03\x04\x14\x00\x00\x00\x08\x00plan.mps\n")
    + whole("lp", "PK\x03\x04\x14\x00\x08\x08\x08\x00plan.lp\n"),
    "compressed": whole("lp", "\x1f\x8b\x08\x00\x00\n") + whole("mps", "BZh91AY&SY\x9a\n"),
    "other-file": whole(
        "lp",
        "\x89PNG\r\n\x1a\n\x00\x00\x00\rIHDR",
        "%PDF-1.4\n%\xe2\xe3\xcf\xd3\n1 0 obj\n",
        "\xff\xd8\xff\xe0\x00\x10JFIF\n",
    )
    + whole(
        "mps",
        "\x89PNG\r\n\x1a\n\x00\x00\x00\rIHDR",
        "\x7fELF\x02\x01\x01\x00\n",
        "%PDF-1.7\n1 0 obj\n",
        "GIF89a\x01\x00\n",
        "\xd0\xcf\x11\xe0\xa1\xb1\x1a\xe1\x00\n",
        "SQLite format 3\x00\n",
    ),
    "git-lfs": [
        (
            form,
            "version https://git-lfs.github.com/spec/v1\n"
            "oid sha256:4d7a214614ab2935c943f9e0ff69d22eadbb8f32b1258daaa5e2ca24d17e2393\nsize 12345\n",
        )
        for form in ("mps", "lp")
    ],
    "modelling-language": whole(
        "lp",
        "set I;\nparam c{I};\nvar x{I} >= 0;\nminimize cost: sum{i in I} c[i]*x[i];\nend;\n",
        "var x >= 0;\nvar y >= 0;\nmaximize z: x + y;\nsubject to c: x + y <= 4;\n",
        "Variables x, y, z;\nEquations e1;\ne1.. z =e= x + y;\nModel m /all/;\n",
        "var int: x;\nconstraint x <= 4;\nsolve maximize x;\n",
        "import pulp\nprob = pulp.LpProblem('plan')\n",
        "from gurobipy import Model\nm = Model()\n",
    )
    + whole("mps", "param n;\nvar x{1..n} >= 0;\n", "import highspy\nh = highspy.Highs()\n"),
    "nl-file": whole("lp", "g3 1 1 0\t# problem plan\n 2 1 1 0 0\n")
    + whole("mps", "g3 1 1 0\n 2 1 1 0 0\n", "b3 1 1 0\n 2 1 1 0 0\n"),
    "solution-file": whole(
        "lp",
        "# Solution for model plan\n# Objective value = 3\nx 1\ny 2\n",
        "Optimal - objective value 3.00000000\n      0 x 1 0\n",
        "solution status: optimal solution found\nobjective value: 3\nx 1 (obj:1)\n",
    )
    + whole("mps", "Optimal - objective value 3.00000000\n      0 x 1 0\n", "# Objective value = 3\nx 1\n"),
    "lp-solve-statements": whole(
        "lp", "max: 3x + 2y;\nc1: x + y <= 4;\nint x;\n", "min: 2x+3y;\nc1: x + y >= 2;\n", "max: x;\nc1: x<=4;\n"
    ),
    "lp-solve-comment": whole("lp", "/* plan */\nmin: x;\nx >= 1;\n"),
    "lp-as-mps": whole(
        "mps",
        "Minimize\n obj: x\nSubject To\n c: x >= 1\nEnd\n",
        "\\ plan\nmax x\nst\nx <= 1\nend\n",
        "\\Problem name: plan\n\nMinimize\n x\nEnd\n",
    ),
    "mps-as-lp": whole("lp", mps()[1], "* a note\n" + mps()[1]),
    # ---- ends
    "no-end": [lp(end=""), mps(end=""), *whole("lp", "min x\nst\nc: x >= 1\n")],
    "truncated": [
        lp(end="")[:1] + (lp(end="")[1] + "Bounds\n x <=",),
        mps(end="")[:1] + (mps(end="")[1] + "BOUNDS\n UP BN",),
        ("mps", mps(end="")[1].rstrip("\n") + "e"),
        ("mps", mps(end="")[1] + "BOUN"),
    ],
    "html-entity": [*rows("c: x + y &gt;= 1", "c: x + y &lt;= 4\nd: x <= 3")],
    # ---- what needs no rule
    USUAL: [
        *rows("c: x + 3 <= 5", "c: x + x >= 1", "c: x <= 1e999", "c: 1 <= x >= 0", "c: x <= 3\nc: y <= 4"),
        *bounds("x <= 4\nx <= 5", "4 <= x <= 3"),
        *columns(
            "    X  COST  1  LIMM  1",
            "    X  COST  1\n    X  COST  2",
            "    X  COST  1\n    Y  COST  1\n    X  LIM1  1",
        ),
        *tails(
            "BOUNDS\n UP BND Z 4",
            "BOUNDS\n UP BND X 4\n UP BND X 5",
            "RANGES\n    RNG COST 1",
            "BOUNDS\n UP BND X -4",
            "BOUNDS\n LO BND X 5\n UP BND X 4",
        ),
        mps(rhs="    RHS  LIMM  4"),
        mps(rhs="    RHS  LIM1  4\n    RHS  LIM1  5"),
        mps(rows=" N  COST\n L  LIM1\n G  LIM1"),
    ],
}
"""Texts by the rule that has to recognise them."""


def files() -> Iterator[File]:
    """All files. A text with a letter that Latin-1 has is one of bytes, unless it has one that it has not."""
    for rule, family in FAMILIES.items():
        for form, text in family:
            yield File(rule.partition(":")[0], form, text.encode("utf-8" if rule == "typed-character" else "latin-1"))


def rule_of(file: File) -> str | None:
    """The rule of the message about a file; None if it is accepted, and empty if no cause is known."""
    from mpslp import ModelFileError, is_canonical
    from mpslp._errors._explanations import causes_with_rules
    from mpslp._files._sources import read
    from mpslp._messages import _text

    try:
        is_canonical(file.text, file.format)
    except ModelFileError as error:
        cause = _text.cause_of(error, read(file.text, file.format))
        if cause is not None and "truncated" in cause.cause:
            return "truncated"
        return (
            ""
            if cause is None
            else next((rule for rule, each in causes_with_rules(error.kind) if each is cause), "") or USUAL
        )
    return None


def main() -> int:
    parser = argparse.ArgumentParser(description=__doc__, formatter_class=argparse.RawDescriptionHelpFormatter)
    parser.add_argument("--list", action="store_true", help="print the rule of each file")
    parser.add_argument("directory", nargs="?", type=Path, help="write the files there")
    options = parser.parse_args()
    every = list(files())
    if options.directory is not None:
        options.directory.mkdir(parents=True, exist_ok=True)
        for number, file in enumerate(every, 1):
            (options.directory / f"{number:03}-{file.rule}.{file.format}").write_bytes(file.text)
        return 0
    found = [(file, rule_of(file)) for file in every]
    wrong = [(file, rule) for file, rule in found if rule != file.rule]
    for file, rule in found if options.list else wrong:
        print(
            f"{file.rule}: {'accepted' if rule is None else rule or 'not recognised'}: {file.text.decode('latin-1')!r}"
        )
    rejected = [rule for _, rule in found if rule is not None]
    vague = Counter(rule for rule in rejected if rule in VAGUE)
    share = 100 * vague.total() / len(rejected)
    print(
        f"{len(rejected)} rejected files in {len(FAMILIES)} families: {vague.total()} without the mend, "
        f"{share:.1f} of 100; {len(wrong)} with another rule, or accepted"
    )
    return 0 if share <= MOST_OF_100 and not wrong else 1


if __name__ == "__main__":
    sys.exit(main())
