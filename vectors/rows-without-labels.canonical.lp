Minimize
 obj:
  + 1 x
Subject To
 c1:
  + 1 x
  >= 1
 c2:
  + 1 x
  <= 5
 c3:
  + 1 x
  <= 4
End
