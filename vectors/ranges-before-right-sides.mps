ROWS
 N  C
 E  E1
 E  E2
 E  E3
 G  G1
 L  L1
COLUMNS
    X  E1  1  E2  1
    X  E3  1  G1  1
    X  L1  1
RANGES
    RNG  E1  3  E2  -3
    RNG  E3  0  G1  -2
    RNG  L1  -2
RHS
    RHS  E1  10  E2  10
    RHS  E3  10  G1  10
    RHS  L1  10
ENDATA
