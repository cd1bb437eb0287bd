\ zimplc
Maximize
 obj: 3 x1 + 5 x2
Subject To
 r1: 1 x1 + 2 x2 <= 14
 r2: 2 x1 + 3 x2 <= 24
Bounds
 x1 >= 0
 x2 >= 0
End
