Minimize
 C:
  + 1 X
Subject To
Bounds
 -infinity <= X <= -1
End
