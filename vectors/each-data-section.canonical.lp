Minimize
 C:
  + 1 X
Subject To
 R:
  -1 <=
  + 1 X
  <= 1
 S:
  + 1 Y
  >= 0
Bounds
 0 <= X <= 4
End
