Minimize
 obj:
  + 1 x1
  + 2 x2
  + 3 x3
  + 1 x4
Subject To
 c1:
  - 1 x1
  + 1 x2
  + 1 x3
  + 10 x4
  <= 20
 c2:
  + 1 x1
  - 3 x2
  + 1 x3
  <= 30
 c3:
  + 1 x2
  - 3.5 x4
  = 0
Bounds
 0 <= x1 <= 40
 2 <= x4 <= 3
Generals
 x4
End
