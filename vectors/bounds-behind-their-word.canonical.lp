Minimize
 obj:
Subject To
 c1:
  + 1 x
  + 1 y
  >= 1
Bounds
 x free
End
