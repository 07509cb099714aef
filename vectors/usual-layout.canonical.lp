Minimize
 COST:
  + 3 A
  + 1 B
Subject To
 BAL:
  + 1 A
  - 1 B
  = 0
 DEM:
  + 1 A
  >= 2.5
Bounds
 0 <= A <= 10
 0 <= B <= 4
Generals
 A
End
