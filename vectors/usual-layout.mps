* a comment
NAME          TEST
ROWS
 N  COST
 E  BAL
 G  DEM
COLUMNS
    MARKER                 'MARKER'                 'INTORG'
    A         COST         3.0000000000   BAL          1.0000000000
    A         DEM          1.0000000000
    MARKER                 'MARKER'                 'INTEND'
    B         COST         1e+00          BAL         -1
RHS
    RHS       DEM          2.5
BOUNDS
 UP BND       A            10
 UP BND       B            4.0000000000
ENDATA
