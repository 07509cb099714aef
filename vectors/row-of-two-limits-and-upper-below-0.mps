ROWS
 N C
 G r
COLUMNS
 x C 1
 y r 1
RHS
    R  r  10
RANGES
    R  r  2
BOUNDS
 MI B x
 UP B x -1
 FX B y 3
ENDATA
