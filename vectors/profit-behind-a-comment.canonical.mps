NAME
OBJSENSE
    MAX
ROWS
 N  profit
 L  limit
COLUMNS
    x  profit  3
    x  limit  1
    y  profit  2
    y  limit  1
RHS
    RHS  limit  4
BOUNDS
 UP  BND  x  3
ENDATA
