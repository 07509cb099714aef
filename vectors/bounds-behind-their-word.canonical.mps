NAME
ROWS
 N  obj
 G  c1
COLUMNS
    x  c1  1
    y  c1  1
RHS
    RHS  c1  1
BOUNDS
 FR  BND  x
ENDATA
