"""Small files that a reader of docs/FORMATS.md could read in two ways, each with its result: a model, or an error."""

COLUMNS = "ROWS\n N  C\n L  K\nCOLUMNS\n    X  C  1\n"
ONLY_K = "ROWS\n L  K\nCOLUMNS\n    X  obj  1\nRHS\n    obj  5\n"

CASES = (
    # Crossed limits that are far apart.
    ("lp", "min x\nst\n9e19 <= x <= -9e19\nend", "file: LimitTooLarge c1"),
    ("lp", "min x\nst\n1e19 <= x <= -1e19\nend", "file: LimitsCrossed c1"),
    # Words that open a section only with their second word.
    ("lp", "min x +\nsubject\nend", "line 2: BadToken"),
    ("lp", "min x +\nsuch\nend", "line 2: BadToken"),
    ("lp", "min x\nsubject\nthat", "line 3: BadToken"),
    ("lp", "min x\nsuch\nto", "line 3: BadToken"),
    ("lp", "min x\nsubject\nend", "line 3: BadToken"),
    ("lp", "min x\nsubject\nsubject", "line 3: SectionRepeated"),
    ("lp", "min x\nsubject\nbounds", "line 3: BadToken"),
    ("lp", "min x\nsemi -\nsemi", "line 3: SectionRepeated"),
    ("lp", "min x\nsemi -\nx\nend", "line 3: BadToken"),
    ("lp", "min x\nsemi -\nend", "line 3: BadToken"),
    ("lp", "min x\nsemis\n- continuous x", "line 3: BadToken"),
    ("lp", "min x\nSUBJECT TO x <= 1\nend", "model"),
    ("lp", "min x\nSUCH\nTHAT x <= 1 bounds x <= 1 SEMI - CONTINUOUS x\nend", "model"),
    ("lp", "min to + that + continuous\nst\nto: to <= 1\nend", "model"),
    # Errors of one line: from left to right, and before that each token by itself.
    ("lp", "min x\ngen x = semi x end", "line 2: BadToken"),
    ("lp", "min x\ngen x\nsemi y\nx = end", "line 4: SemiContinuous"),
    ("lp", "min x x e9", "line 1: NameLikeExponent"),
    ("lp", "min x x\n]", "line 1: BadToken"),
    # Numbers in rows.
    ("lp", "min x\nst\n3\n+ x <= 5\nend", "line 4: ConstantInRow"),
    ("lp", "min x\nst\n- 3\n- x <= 5\nend", "line 4: ConstantInRow"),
    ("lp", "min x\nst\n- - 3\n<= x <= 5\nend", "line 4: ConstantInRow"),
    ("lp", "min x\nst\n3\nend", "line 4: BadToken"),
    ("lp", "min x\nst\n3 <= x + y <= 5\nend", "model"),
    ("lp", "min x\nst\n3 <= + x <= 5\nend", "model"),
    # A second relation.
    ("lp", "min x\nst\nx <= 4\n>= 5\nend", "line 4: BadToken"),
    ("lp", "min x\nst\nx = 4\n= 5\nend", "line 4: BadToken"),
    ("lp", "min x\nbounds\nx <= 4\n>= 5\nend", "line 4: BadToken"),
    ("lp", "min x\nbounds\nx = 4\n= 5\nend", "line 4: BadToken"),
    ("lp", "min x\nbounds\n4 = x\n= 5\nend", "line 4: MixedSenses"),
    # Numbers in the objective.
    ("lp", "min 3 + 4\nend", "line 2: DuplicateRhs"),
    ("lp", "min 3\n4", "line 2: BadToken"),
    ("lp", "min x + 3\nend", "model"),
    # Bounds of semi-continuous columns.
    ("lp", "min x\nbounds x = 4 semi x\nend", "model"),
    ("lp", "min x\nbounds x <= 4 semi x\nend", "model"),
    # A column's lines.
    ("mps", COLUMNS + "* a comment\n \n    X  K  1\nENDATA", "model"),
    ("mps", COLUMNS + "    M  'MARKER'  'INTORG'\n    X  K  1\nENDATA", "line 7: ColumnSplit"),
    ("mps", COLUMNS + "    'MARKER'  'SOSORG'\n", "line 6: FieldCount"),
    ("mps", COLUMNS + "    M  'MARKER'  'SOSORG'  X  1\n", "line 6: Sos"),
    # The objective obj of a file without an N row.
    ("mps", ONLY_K + "ENDATA", "model"),
    ("mps", ONLY_K + "RANGES\n    obj  1\n", "line 8: RangeOnFree"),
    ("mps", ONLY_K + "    obj  5\n", "line 7: DuplicateRhs"),
    # Headers before the word of OBJSENSE or OBJNAME.
    ("mps", "OBJSENSE\nOBJSENSE\n", "line 2: SectionOrder"),
    ("mps", "OBJSENSE\nNAME\n", "line 2: SectionOrder"),
    ("mps", "OBJSENSE MAX\nOBJSENSE\n", "line 2: SectionRepeated"),
    ("mps", "OBJSENSE\nFOO\n", "line 2: UnknownSection"),
    # BOUNDS lines with several errors.
    ("mps", COLUMNS + "BOUNDS\n BV  B  X\n SC  B  X  1e\n", "line 8: SemiContinuous"),
    ("mps", COLUMNS + "BOUNDS\n BV  B  X\n SC  B  X  4  5\n", "line 8: FieldCount"),
    ("mps", COLUMNS + "BOUNDS\n XX\n", "line 7: BadType"),
    ("mps", COLUMNS + "BOUNDS\n FR  B  X  ignored\nENDATA", "model"),
    # Two pairs of one line.
    ("mps", COLUMNS + "RANGES\n    C  1  C  1\n", "line 7: DuplicateRange"),
    ("mps", COLUMNS + "RANGES\n    K  1e20  K  1\n", "line 7: DuplicateRange"),
    # What comes after the end of a file.
    ("mps", COLUMNS + "ENDATA\n\x80\n", "model"),
    ("mps", COLUMNS + "ENDATA X\n\x80\n", "line 6: FieldCount"),
    ("lp", "min x\nend\n\x80\n", "model"),
    ("lp", "min x\nend x\n\x80\n", "line 2: BadToken"),
)
