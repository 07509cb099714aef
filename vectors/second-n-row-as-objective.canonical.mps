NAME
ROWS
 N  S
 N  C
 L  R
COLUMNS
    X  S  2
    X  C  1
    X  R  1
ENDATA
