Minimize
 obj:
  + 1 x
  + 1 y
  + 0 z
Subject To
Bounds
 x = 1
Generals
 x
 z
End
