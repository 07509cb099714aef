Maximize
 obj:
  + 1 x
  + 3
Subject To
Bounds
 1 <= x <= 4
Semi-Continuous
 x
End
