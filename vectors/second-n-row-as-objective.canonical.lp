Minimize
 S:
  + 2 X
Subject To
 C:
  + 1 X
  >= -1e20
 R:
  + 1 X
  <= 0
End
