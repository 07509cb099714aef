Minimize
 C:
  + 1 X
Subject To
 R:
  + 1 X
  <= 0
 S:
  + 2 X
  >= -1e20
End
