* sample
NAME  sample
OBJSENSE  MAX
ROWS
 N  COST
 L  LIM
 G  MYG
 E  EQ
 G  BETWEEN
 N  LAX
COLUMNS
    Y  COST  2  MYG  1.50
    M  'MARKER'  'INTORG'
    K  LIM  1
    B  COST  -1
    M  'MARKER'  'INTEND'
    S  COST  1
    X  LIM  3e0  EQ  2
    EMPTY  COST  0
RHS
    COST  5  LIM  4
    MYG  0  EQ  7
    BETWEEN  1
RANGES
    BETWEEN  2.5
BOUNDS
 SC  BND  S  4
 LO  BND  S  4
 PL  BND  K
 LO  BND  X  -1
 UP  BND  X  10
 FR  BND  Y
ENDATA
