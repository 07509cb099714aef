NAME
ROWS
 N  C
 L  R
 N  S
COLUMNS
    X  C  0
    Y  S  2
RHS
    RHS  R  3
ENDATA
