Minimize
 C:
  + 1 X
Subject To
Bounds
 0 <= X <= 1
Generals
 X
End
