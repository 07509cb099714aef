NAME
ROWS
 N  a:b
 L  E1
COLUMNS
    x-1  a:b  1
ENDATA
