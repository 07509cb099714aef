NAME
OBJSENSE
    MAX
ROWS
 N  obj
COLUMNS
    x  obj  1
RHS
    RHS  obj  -3
BOUNDS
 LO  BND  x  1
 SC  BND  x  4
ENDATA
