NAME zimplc
ROWS
 N obj
 E r1
 E r2
 E r3
 E r4
 L r5
 L r6
 L r7
 L r8
 L r9
 L r10
 L r11
 L r12
 L r13
COLUMNS
 x1 obj -1
 x1 r1 1
 x1 r5 1
 x2 obj -1
 x2 r2 1
 x2 r6 1
 x3 obj 0
 x3 r1 -1
 x3 r3 1
 x3 r7 1
 x4 obj 0
 x4 r1 1
 x4 r2 -1
 x4 r8 1
 x5 obj 0
 x5 r2 -1
 x5 r4 1
 x5 r9 1
 x6 obj 0
 x6 r2 1
 x6 r3 -1
 x6 r10 1
 x7 obj 0
 x7 r3 -1
 x7 r11 1
 x8 obj 0
 x8 r3 1
 x8 r4 -1
 x8 r12 1
 x9 obj 0
 x9 r4 -1
 x9 r13 1
RHS
 RHS r1 0
 RHS r2 0
 RHS r3 0
 RHS r4 0
 RHS r5 16
 RHS r6 13
 RHS r7 12
 RHS r8 4
 RHS r9 14
 RHS r10 9
 RHS r11 20
 RHS r12 7
 RHS r13 4
BOUNDS
 LO BND x1 0
 PL BND x1
 LO BND x2 0
 PL BND x2
 LO BND x3 0
 PL BND x3
 LO BND x4 0
 PL BND x4
 LO BND x5 0
 PL BND x5
 LO BND x6 0
 PL BND x6
 LO BND x7 0
 PL BND x7
 LO BND x8 0
 PL BND x8
 LO BND x9 0
 PL BND x9
ENDATA
