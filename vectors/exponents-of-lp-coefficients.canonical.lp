Minimize
 obj:
  + 300000 x
  + 3 x1
  - 2 y
Subject To
 c:
  + 1 x
  <= 1
End
