Minimize
 C:
  + 1 X
Subject To
Generals
 X
End
