\ zimplc
Minimize
 obj: 2 x1 + 3 x2
Subject To
 r1: 1 x1 + 1 x2 >= 1
Bounds
 x1 >= 0
 x2 >= 0
End
