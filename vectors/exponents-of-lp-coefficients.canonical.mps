NAME
ROWS
 N  obj
 L  c
COLUMNS
    x  obj  300000
    x  c  1
    x1  obj  3
    y  obj  -2
RHS
    RHS  c  1
ENDATA
