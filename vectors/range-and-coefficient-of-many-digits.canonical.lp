Minimize
 C:
Subject To
 c1:
  0.0000000001 <=
  + 1234567890123456789e-19 x
  <= 1e19
End
