* Move pallets to two towns by truck or by rail. Two rows count what it costs and what it emits; OBJNAME says which of
* them is to be least.
NAME          FREIGHT
OBJNAME
    emission
ROWS
 N  cost
 N  emission
 G  north
 G  south
 L  wagons
COLUMNS
    truckN  cost  9  emission  6.5
    truckN  north  1
    truckS  cost  7  emission  5.25
    truckS  south  1
    railN  cost  11  emission  1.5
    railN  north  1  wagons  1
    railS  cost  10  emission  1.25
    railS  south  1  wagons  1
RHS
    RHS  north  40  south  30
    RHS  wagons  50
ENDATA
