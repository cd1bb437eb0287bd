\ zimplc
Maximize
 obj: 1 x1 + 1 x2
Subject To
 r1: 1 x1 - 1 x3 + 1 x4 = 0
 r2: 1 x2 - 1 x4 - 1 x5 + 1 x6 = 0
 r3: 1 x3 - 1 x6 - 1 x7 + 1 x8 = 0
 r4: 1 x5 - 1 x8 - 1 x9 = 0
 r5: 1 x1 <= 16
 r6: 1 x2 <= 13
 r7: 1 x3 <= 12
 r8: 1 x4 <= 4
 r9: 1 x5 <= 14
 r10: 1 x6 <= 9
 r11: 1 x7 <= 20
 r12: 1 x8 <= 7
 r13: 1 x9 <= 4
Bounds
 x1 >= 0
 x2 >= 0
 x3 >= 0
 x4 >= 0
 x5 >= 0
 x6 >= 0
 x7 >= 0
 x8 >= 0
 x9 >= 0
End
