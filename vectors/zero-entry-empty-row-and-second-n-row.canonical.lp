Minimize
 C:
  + 0 X
Subject To
 R:
  + 0 X
  <= 3
 S:
  + 2 Y
  >= -1e20
End
