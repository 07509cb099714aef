NAME
OBJNAME
    S
ROWS
 N  C
 L  R
 N  S
COLUMNS
    X  C  1  R  1
    X  S  2
ENDATA
