Minimize
 obj:
  + 1 efficiency
Subject To
End
