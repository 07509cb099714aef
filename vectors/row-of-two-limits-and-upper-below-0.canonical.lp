Minimize
 C:
  + 1 x
Subject To
 r:
  10 <=
  + 1 y
  <= 12
Bounds
 -infinity <= x <= -1
 y = 3
End
