\ zimplc
Minimize
 obj: 225 x1 + 153 x2 + 162 x3 + 225 x4
  + 162 x5 + 126 x6
Subject To
 r1: 1 x1 + 1 x2 + 1 x3 <= 350
 r2: 1 x4 + 1 x5 + 1 x6 <= 600
 r3: 1 x1 + 1 x4 >= 325
 r4: 1 x2 + 1 x5 >= 300
 r5: 1 x3 + 1 x6 >= 275
Bounds
 x1 >= 0
 x2 >= 0
 x3 >= 0
 x4 >= 0
 x5 >= 0
 x6 >= 0
End
