NAME          any [ thing ] 1 2 3
ROWS
 N  COST
 L  LIM1
 G  MYG
COLUMNS
    X  COST  1.0  LIM1  1
    Y  COST  2  MYG  1.50
RHS
    RHS  LIM1  4  MYG  1
ENDATA
