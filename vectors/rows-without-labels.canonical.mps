NAME
ROWS
 N  obj
 G  c1
 L  c2
 L  c3
COLUMNS
    x  obj  1
    x  c1  1
    x  c2  1
    x  c3  1
RHS
    RHS  c1  1
    RHS  c2  5
    RHS  c3  4
ENDATA
