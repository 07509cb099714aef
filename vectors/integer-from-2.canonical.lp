Minimize
 C:
  + 1 X
Subject To
Bounds
 X >= 2
Generals
 X
End
