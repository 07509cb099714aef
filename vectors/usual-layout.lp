Minimize
 COST: 3 A + B
Subject To
 BAL: A - B = 0
 DEM: A >= 2.5
Bounds
 A <= 10
 B <= 4
Generals
 A
End
