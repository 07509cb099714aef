NAME
ROWS
 N  obj
COLUMNS
    x  obj  1
ENDATA
