NAME
ROWS
 N  C
 L  R
 G  S
COLUMNS
    X  C  1  R  1
    Y  S  1
RHS
    A  R  1
RANGES
    A  R  2
BOUNDS
 UP  B  X  4
ENDATA
