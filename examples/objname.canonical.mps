NAME
ROWS
 N  emission
 N  cost
 G  north
 G  south
 L  wagons
COLUMNS
    railN  emission  1.5
    railN  cost  11
    railN  north  1
    railN  wagons  1
    railS  emission  1.25
    railS  cost  10
    railS  south  1
    railS  wagons  1
    truckN  emission  6.5
    truckN  cost  9
    truckN  north  1
    truckS  emission  5.25
    truckS  cost  7
    truckS  south  1
RHS
    RHS  north  40
    RHS  south  30
    RHS  wagons  50
ENDATA
