NAME
ROWS
 N  C
 G  R
 G  S
COLUMNS
    X  C  1
    X  R  1
    Y  S  1
RHS
    RHS  R  -1
RANGES
    RNG  R  2
BOUNDS
 UP  BND  X  4
ENDATA
