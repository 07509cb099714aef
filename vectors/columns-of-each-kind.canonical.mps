NAME
OBJSENSE
    MAX
ROWS
 N  C
 G  A
 L  R
 N  S
COLUMNS
    X  C  1.5
    X  R  2
    Z  C  -1
    Z  A  1e30
    MARKER  'MARKER'  'INTORG'
    Y  R  3
    MARKER  'MARKER'  'INTEND'
RHS
    RHS  C  5
    RHS  R  4
BOUNDS
 FR  BND  X
 UP  BND  Y  7
 LO  BND  Z  1
 SC  BND  Z  2.5
ENDATA
