Minimize
 C:
  + 1 X
Subject To
Bounds
 X = 7
End
