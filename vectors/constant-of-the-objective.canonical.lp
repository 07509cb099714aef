Minimize
 C:
  + 1 X
  - 5
Subject To
End
