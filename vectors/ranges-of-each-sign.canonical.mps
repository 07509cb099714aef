NAME
ROWS
 N  C
 G  E1
 G  E2
 E  E3
 G  G1
 G  L1
COLUMNS
    X  E1  1
    X  E2  1
    X  E3  1
    X  G1  1
    X  L1  1
RHS
    RHS  E1  10
    RHS  E2  7
    RHS  E3  10
    RHS  G1  10
    RHS  L1  8
RANGES
    RNG  E1  3
    RNG  E2  3
    RNG  G1  2
    RNG  L1  2
ENDATA
