Minimize
 obj:
Subject To
 R:
  + 1 X
  <= 0
End
