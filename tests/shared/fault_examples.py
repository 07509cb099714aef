"""For each kind of error a file with its usual cause, and the file with that corrected."""

COUNT = 1_048_576


def mps(columns="    X  C  1  K  1\n", tail="", rows=" N  C\n L  K\n", head="NAME\n"):
    return "mps", f"{head}ROWS\n{rows}COLUMNS\n{columns}{tail}ENDATA\n"


def rhs(lines, rows=" N  C\n L  K\n"):
    return mps(tail="RHS\n" + lines, rows=rows)


def ranges(lines, right="    R  K  4\n"):
    return mps(tail="RHS\n" + right + "RANGES\n" + lines)


def bounds(lines, columns="    X  C  1  K  1\n"):
    return mps(columns, "BOUNDS\n" + lines)


def lp(rows="c: x <= 1\n", tail="", objective="min x"):
    return "lp", f"{objective}\nst\n{rows}{tail}end\n"


OPEN, CLOSE = "    M  'MARKER'  'INTORG'\n", "    M  'MARKER'  'INTEND'\n"
X, Y = "    X  C  1\n", "    Y  C  1\n"

# kind, the files that have it, the corrected files
EXAMPLES = {
    "BadByte": (
        [mps("    \xc4  C  1\n"), lp("\xef\xbb\xbf"), lp("x <= 1\x07\n")],
        [mps("    A  C  1\n"), mps(head="* \xc4\n"), lp("\\ \xc4\nx <= 1\n")],
    ),
    "BadMarker": (
        [mps(OPEN + X + OPEN + Y), mps("    M  'MARKER'  'INTBEG'\n" + X)],
        [mps(OPEN + X + CLOSE + OPEN + Y + CLOSE)],
    ),
    "BadNumber": (
        [mps("    X  C  1,5\n"), bounds(" UP  B  X  inf\n"), mps("    X  C  1d5\n"), mps("    my X  C  K  1\n")],
        [mps("    X  C  1.5\n"), bounds(" UP  B  X  1e30\n"), mps("    X  C  1e5\n"), mps("    myX  C  1\n")],
    ),
    "BadToken": (
        [
            lp("x y <= 1\n"),
            lp("x >= 2 ( y + 1 )\n"),
            lp("x >= 2 y\n"),
            lp("x <= 1;\n"),
            lp("x >= 1,5\ny <= 1\n"),
            ("lp", mps()[1]),
            ("lp", "min x\nsubj"),
        ],
        [lp("x + y <= 1\n"), lp("x - 2 y >= 2\n"), lp("x <= 1\n")],
    ),
    "BadType": (
        [mps(rows=" n  C\n"), bounds(" XX  B  X  1\n"), mps(head="OBJSENSE\n    max\n")],
        [mps(), bounds(" UP  B  X  1\n"), mps(head="OBJSENSE\n    MAX\n")],
    ),
    "BinaryBounds": (
        [lp(tail="bounds\nx <= 5\nbinaries\nx\n")],
        [lp(tail="bounds\nx <= 5\ngenerals\nx\n"), lp(tail="binaries\nx\n")],
    ),
    "BoundsCrossed": (
        [bounds(" LO  B  X  5\n UP  B  X  4\n"), lp(tail="bounds\n5 <= x <= 4\n")],
        [bounds(" LO  B  X  3\n UP  B  X  4\n"), lp(tail="bounds\n4 <= x <= 5\n")],
    ),
    "ColumnSplit": (
        [
            mps(X + Y + "    X  K  1\n"),
            mps(X + OPEN + "    X  K  1\n" + CLOSE),
            mps(X + "    XX  K  1\n    X  J  1\n", rows=" N  C\n L  K\n L  J\n"),
        ],
        [mps(X + "    X  K  1\n" + Y), mps(X + "    X  K  1\n" + OPEN + Y + CLOSE)],
    ),
    "ConstantInRow": ([lp("x + 3 <= 5\n")], [lp("x <= 2\n")]),
    "DuplicateBound": (
        [
            bounds(" UP  B  X  4\n FX  B  X  4\n"),
            bounds(" BV  B  X\n UP  B  X  1\n"),
            bounds(" SC  B  X  4\n UP  B  X  4\n"),
            bounds(" FR  B  X\n MI  B  X\n"),
        ],
        [bounds(" FX  B  X  4\n"), bounds(" BV  B  X\n"), bounds(" SC  B  X  4\n"), bounds(" FR  B  X\n")],
    ),
    "DuplicateEntry": ([mps("    X  C  1  C  2\n"), lp("x + x <= 1\n")], [mps("    X  C  3\n"), lp("2 x <= 1\n")]),
    "DuplicateRange": ([ranges("    R  K  1\n    R  K  2\n")], [ranges("    R  K  2\n")]),
    "DuplicateRhs": (
        [rhs("    R  K  1\n    R  K  1\n"), lp(objective="min x + 1 + 2")],
        [rhs("    R  K  1\n"), lp(objective="min x + 3")],
    ),
    "DuplicateRow": (
        [mps(rows=" N  C\n L  K\n G  K\n"), mps(rows=" N  C\n L  C\n"), lp("c2: x <= 1\ny <= 1\n")],
        [mps(rows=" N  C\n L  K\n G  J\n"), lp("c2: x <= 1\nc3: y <= 1\n"), lp("a: x <= 1\ny <= 1\n")],
    ),
    "ExponentRange": ([bounds(" UP  B  X  1e999\n")], [bounds(" UP  B  X  1e30\n")]),
    "FieldCount": (
        [mps("    my X  C  1\n"), mps("    X  C  1  note\n"), mps("    X  C\n"), mps(rows=" N  C\n L  my row\n")],
        [mps("    my_X  C  1\n"), mps("* note\n    X  C  1\n"), mps(rows=" N  C\n L  my_row\n L  K\n")],
    ),
    "Indicator": (
        [mps(tail="INDICATORS\n IF  K  X  1\n"), lp("c: b = 1 -> x <= 3\n")],
        [lp("c: x + 1000 b <= 1003\n")],
    ),
    "InfiniteLimit": (
        [
            rhs("    R  K  1e30\n", " N  C\n G  K\n"),
            rhs("    R  K  -1e30\n"),
            rhs("    R  K  1e30\n", " N  C\n E  K\n"),
            ranges("    R  K  1\n", "    R  K  1e30\n"),
        ],
        [rhs("    R  K  1\n", " N  C\n G  K\n"), mps(rows=" N  C\n N  K\n"), rhs("    R  K  1e30\n")],
    ),
    "InfiniteValue": (
        [
            bounds(" LO  B  X  1e30\n"),
            bounds(" UP  B  X  -1e30\n"),
            bounds(" FX  B  X  1e30\n"),
            ranges("    R  K  1e30\n"),
            lp("x >= inf\n"),
        ],
        [
            bounds(" LO  B  X  -1e30\n"),
            bounds(" UP  B  X  1e30\n"),
            bounds(" FR  B  X\n"),
            lp("x >= -inf\n"),
            lp(tail="bounds\nx free\n"),
        ],
    ),
    "LimitTooLarge": ([ranges("    R  K  9e19\n", "    R  K  -9e19\n")], [rhs("    R  K  -9e19\n")]),
    "LimitsCrossed": ([lp("5 <= x <= 4\n")], [lp("4 <= x <= 5\n")]),
    "LineTooLong": (
        [lp("\\" + "-" * COUNT + "\n"), lp("x " * (COUNT // 2) + "+ x <= 1\n")],
        [lp("\\" + "-" * (COUNT - 1) + "\nx <= 1\n")],
    ),
    "LongNumber": ([mps("    X  C  1." + "0" * 254 + "\n")], [mps("    X  C  1.0\n")]),
    "MissingEnd": ([("mps", mps()[1].replace("ENDATA\n", "")), ("lp", "min x\n")], [mps(), ("lp", "min x\nend\n")]),
    "MixedSenses": (
        [lp("1 <= x >= 0\n"), lp(tail="bounds\n1 <= x >= 0\n")],
        [lp("x >= 1\nx >= 0\n"), lp(tail="bounds\n1 <= x\n")],
    ),
    "NameByte": ([], []),
    "NameLength": (
        [mps("    " + "x" * 256 + "  C  1\n"), lp("x" * 256 + " <= 1\n")],
        [mps("    " + "x" * 255 + "  C  1\n")],
    ),
    "NameLikeExponent": ([lp("e <= 1\n"), lp("E12 <= 1\n")], [lp("f <= 1\n"), mps("    E12  C  1\n")]),
    "NameMarker": ([mps("    'MARKER'  C  1\n"), lp("'MARKER' <= 1\n")], [mps(), lp("MARKER <= 1\n")]),
    "NegativeUpper": (
        [bounds(" UP  B  X  -1\n"), lp(tail="bounds\nx <= -1\n")],
        [
            bounds(" UP  B  X  -1\n MI  B  X\n"),
            bounds(" LO  B  X  -5\n UP  B  X  -1\n"),
            lp(tail="bounds\n-inf <= x <= -1\n"),
        ],
    ),
    "NoColumns": ([mps(""), ("lp", "min\nst\nend\n")], [mps(X), ("lp", "min\nst\nx <= 1\nend\n")]),
    "NotLp": ([mps("    x[1]  C  1\n"), mps("    2x  C  1\n")], [mps("    x(1)  C  1\n")]),
    "Quadratic": (
        [
            mps(tail="QUADOBJ\n    X  X  2\n"),
            lp("x[1] <= 1\n"),
            lp("2 * x <= 1\n"),
            lp("x ^ 2 <= 1\n"),
            ("lp", mps(head="* a comment\n")[1]),
        ],
        [mps(), lp("x(1) <= 1\n"), lp("2 x <= 1\n")],
    ),
    "RangeInexact": (
        [ranges("    R  K  1e-30\n", "    R  K  1e19\n"), lp("-1e-30 <= x <= 1e19\n")],
        [ranges("    R  K  1e-3\n", "    R  K  1e19\n"), lp("-1e-3 <= x <= 1e19\n")],
    ),
    "RangeOnFree": ([ranges("    R  C  1\n")], [rhs("    R  K  4\n")]),
    "SecondSet": (
        [rhs("    R  K  1\n    S  C  1\n"), rhs("    R  K  1\n    C  1\n")],
        [rhs("    R  K  1\n    R  C  1\n"), rhs("    K  1\n    C  1\n")],
    ),
    "SectionOrder": (
        [
            ("mps", "ROWS\n N  C\nOBJSENSE\n    MAX\n"),
            ("mps", " N  C\n"),
            ("mps", "OBJSENSE\nROWS\n"),
            ("lp", "min x\nbounds\nx <= 1\nst\nx >= 0\nend\n"),
            ("lp", "st\nx <= 1\nend\n"),
        ],
        [mps(head="OBJSENSE\n    MAX\n"), lp("x >= 0\n", "bounds\nx <= 1\n")],
    ),
    "SectionRepeated": (
        [rhs("    R  K  1\nRHS\n    R  C  1\n"), lp(tail="bounds\nx <= 1\nbounds\nx >= 0\n")],
        [rhs("    R  K  1\n    R  C  1\n"), lp(tail="bounds\nx <= 1\nx >= 0\n")],
    ),
    "SemiBounds": (
        [bounds(" SC  B  X  1e30\n"), bounds(" SC  B  X  4\n LO  B  X  -1\n"), lp(tail="semi\nx\n")],
        [bounds(" SC  B  X  4\n"), lp(tail="bounds\nx <= 4\nsemi\nx\n")],
    ),
    "SemiContinuous": (
        [bounds(" SC  B  X  4\n", OPEN + X + CLOSE), lp(tail="generals\nx\nsemi\nx\n")],
        [bounds(" SC  B  X  4\n"), lp(tail="generals\nx\n")],
    ),
    "Sos": ([mps(tail="SOS\n"), mps("    M  'MARKER'  'SOSORG'\n" + X), lp(tail="sos1\n")], [mps(), lp()]),
    "TooLong": ([], []),
    "TooManyDigits": ([mps("    X  C  0." + "3" * 37 + "\n")], [mps("    X  C  0." + "3" * 36 + "\n")]),
    "UnknownColumn": (
        [bounds(" UP  B  Y  4\n")],
        [bounds(" UP  B  X  4\n"), bounds(" UP  B  Y  4\n", X + "    Y  C  0\n")],
    ),
    "UnknownRow": (
        [mps("    X  J  1\n"), mps(head="OBJNAME\n    K\n")],
        [mps("    X  K  1\n"), mps(head="OBJNAME\n    C\n")],
    ),
    "UnknownSection": ([mps(tail="LAZYCONS\n"), ("mps", "rows\n"), ("mps", "ROWS\nN  C\n")], [mps()]),
}
