NAME
ROWS
 N  C
 L  R
COLUMNS
    X  C  1
    X  R  1
    Y  C  1
RHS
    RHS  R  1
BOUNDS
 SC  BND  X  4
ENDATA
