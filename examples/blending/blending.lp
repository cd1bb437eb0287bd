\ zimplc
Maximize
 obj: -330 x1 - 360 x2 - 390 x3 - 330 x4
  - 345 x5 + 450 x6 - 10000 one
Subject To
 r1: 1 x1 + 1 x2 <= 200
 r2: 1 x3 + 1 x4 + 1 x5 <= 250
 r3: 8.8 x1 + 6.1 x2 + 2 x3 + 4.2 x4
  + 5 x5 - 6 x6 <= 0
 r4: 8.8 x1 + 6.1 x2 + 2 x3 + 4.2 x4
  + 5 x5 - 3 x6 >= 0
 r5: 1 x1 + 1 x2 + 1 x3 + 1 x4
  + 1 x5 - 1 x6 = 0
Bounds
 x1 >= 0
 x2 >= 0
 x3 >= 0
 x4 >= 0
 x5 >= 0
 x6 >= 0
 1 <= one <= 1
End
