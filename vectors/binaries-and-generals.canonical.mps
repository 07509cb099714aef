NAME
ROWS
 N  obj
COLUMNS
    y  obj  1
    MARKER  'MARKER'  'INTORG'
    x  obj  1
    z  obj  0
    MARKER  'MARKER'  'INTEND'
BOUNDS
 FX  BND  x  1
 PL  BND  z
ENDATA
