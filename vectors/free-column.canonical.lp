Minimize
 C:
  + 1 X
Subject To
Bounds
 X free
End
