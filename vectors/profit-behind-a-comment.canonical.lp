Maximize
 profit:
  + 3 x
  + 2 y
Subject To
 limit:
  + 1 x
  + 1 y
  <= 4
Bounds
 0 <= x <= 3
End
