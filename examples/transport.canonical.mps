NAME
ROWS
 N  cost
 G  demand_bern
 G  demand_milan
 G  demand_munich
 G  demand_nice
 L  supply_graz
 L  supply_lyon
 L  supply_turin
COLUMNS
    graz_bern  cost  20.5
    graz_bern  demand_bern  1
    graz_bern  supply_graz  1
    graz_milan  cost  16.8
    graz_milan  demand_milan  1
    graz_milan  supply_graz  1
    graz_munich  cost  12.05
    graz_munich  demand_munich  1
    graz_munich  supply_graz  1
    graz_nice  cost  23.9
    graz_nice  demand_nice  1
    graz_nice  supply_graz  1
    lyon_bern  cost  11.4
    lyon_bern  demand_bern  1
    lyon_bern  supply_lyon  1
    lyon_milan  cost  15.1
    lyon_milan  demand_milan  1
    lyon_milan  supply_lyon  1
    lyon_munich  cost  18.25
    lyon_munich  demand_munich  1
    lyon_munich  supply_lyon  1
    lyon_nice  cost  14.35
    lyon_nice  demand_nice  1
    lyon_nice  supply_lyon  1
    turin_bern  cost  9.75
    turin_bern  demand_bern  1
    turin_bern  supply_turin  1
    turin_milan  cost  5.2
    turin_milan  demand_milan  1
    turin_milan  supply_turin  1
    turin_munich  cost  16.4
    turin_munich  demand_munich  1
    turin_munich  supply_turin  1
    turin_nice  cost  7.65
    turin_nice  demand_nice  1
    turin_nice  supply_turin  1
RHS
    RHS  demand_bern  240
    RHS  demand_milan  190
    RHS  demand_munich  310
    RHS  demand_nice  150
    RHS  supply_graz  350
    RHS  supply_lyon  420
    RHS  supply_turin  280
ENDATA
