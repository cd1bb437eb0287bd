\ zimplc
Maximize
 obj: 3 x1 + 5 x2
Subject To
 r1: 1 x1 <= 4
 r2: 2 x2 <= 12
 r3: 3 x1 + 2 x2 <= 18
Bounds
 x1 >= 0
 x2 >= 0
End
