Maximize
 use:
  + 24 fuel
Subject To
 burnt:
  - 1 fuel
  <= 0
Bounds
 0.8 <= fuel <= 2
Semi-Continuous
 fuel
End
