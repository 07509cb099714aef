OBJSENSE
    MAX
ROWS
 N  C
 L  R
 N  S
 G  A
COLUMNS
    Z  C  -1  A  1e30
    M  'MARKER'  'INTORG'
    Y  R  3
    M  'MARKER'  'INTEND'
    X  C  1.50  R  2
RHS
    RHS  C  5  R  4
BOUNDS
 FR  BND  X
 UP  BND  Y  7
 LO  BND  Z  1
 SC  BND  Z  2.50
ENDATA
