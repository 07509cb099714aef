NAME
ROWS
 N  C
 G  r
COLUMNS
    x  C  1
    y  r  1
RHS
    RHS  r  10
RANGES
    RNG  r  2
BOUNDS
 MI  BND  x
 UP  BND  x  -1
 FX  BND  y  3
ENDATA
