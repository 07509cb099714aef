NAME          M
ROWS
 N  C
COLUMNS
    M1        'MARKER'                 'INTORG'
    X         C                    1
    M2        'MARKER'                 'INTEND'
RHS
BOUNDS
 PL BND X
ENDATA
