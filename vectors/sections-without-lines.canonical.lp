Minimize
 C:
  + 1 X
Subject To
 D:
  + 10 X
  >= -1e20
End
