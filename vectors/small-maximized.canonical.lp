Maximize
 COST:
  + 1 X
  + 2 Y
Subject To
 LIM1:
  + 1 X
  <= 4
 MYG:
  + 1.5 Y
  >= 1
End
