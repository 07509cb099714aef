Minimize
 C:
  + 1 X
Subject To
Bounds
 2 <= X <= 9
Generals
 X
End
