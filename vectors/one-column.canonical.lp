Minimize
 obj:
  + 1 x
Subject To
End
