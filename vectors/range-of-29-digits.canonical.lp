Minimize
 obj:
Subject To
 c1:
  0.0000000001 <=
  + 1 x
  + 1 y
  <= 1e19
End
