\ zimplc
Maximize
 obj: 25 x1 + 30 x2
Subject To
 r1: 0.035 x1 + 0.05 x2 <= 280
 r2: 1 x1 <= 6000
 r3: 1 x2 <= 4000
Bounds
 x1 >= 0
 x2 >= 0
End
