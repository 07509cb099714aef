Minimize
 C:
  + 1 X
  + 1 Y
Subject To
 R:
  + 1 X
  <= 1
Bounds
 0 <= X <= 4
End
