Maximize
 C:
  + 1.5 X
  - 1 Z
  - 5
Subject To
 A:
  + 1e30 Z
  >= 0
 R:
  + 2 X
  + 3 Y
  <= 4
 S:
  + 0 X
  >= -1e20
Bounds
 X free
 0 <= Y <= 7
 1 <= Z <= 2.5
Generals
 Y
Semi-Continuous
 Z
End
