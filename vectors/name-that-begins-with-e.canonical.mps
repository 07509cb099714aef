NAME
ROWS
 N  obj
COLUMNS
    efficiency  obj  1
ENDATA
