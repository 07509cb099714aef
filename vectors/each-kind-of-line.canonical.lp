Maximize
 COST:
  - 1 B
  + 0 EMPTY
  + 1 S
  + 2 Y
  - 5
Subject To
 BETWEEN:
  1 <=
  + 0 B
  <= 3.5
 EQ:
  + 2 X
  = 7
 LAX:
  + 0 B
  >= -1e20
 LIM:
  + 1 K
  + 3 X
  <= 4
 MYG:
  + 1.5 Y
  >= 0
Bounds
 0 <= B <= 1
 S = 4
 -1 <= X <= 10
 Y free
Generals
 B
 K
Semi-Continuous
 S
End
