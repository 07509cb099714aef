Minimize
 C:
  + 1 X
  + 1 Y
Subject To
Bounds
 0 <= X <= 1
 1 <= Y <= 2.5
Generals
 X
Semi-Continuous
 Y
End
