NAME
ROWS
 N  C
 L  R
COLUMNS
    X  C  1
    X  R  1
    Y  C  1
RHS
    A  R  1
BOUNDS
 UP  B  X  4
ENDATA
