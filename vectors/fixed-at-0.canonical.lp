Minimize
 C:
  + 1 X
Subject To
Bounds
 X = 0
End
