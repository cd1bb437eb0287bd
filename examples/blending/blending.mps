NAME zimplc
ROWS
 N obj
 L r1
 L r2
 L r3
 G r4
 E r5
COLUMNS
 x1 obj 330
 x1 r1 1
 x1 r3 8.8
 x1 r4 8.8
 x1 r5 1
 x2 obj 360
 x2 r1 1
 x2 r3 6.1
 x2 r4 6.1
 x2 r5 1
 x3 obj 390
 x3 r2 1
 x3 r3 2
 x3 r4 2
 x3 r5 1
 x4 obj 330
 x4 r2 1
 x4 r3 4.2
 x4 r4 4.2
 x4 r5 1
 x5 obj 345
 x5 r2 1
 x5 r3 5
 x5 r4 5
 x5 r5 1
 x6 obj -450
 x6 r3 -6
 x6 r4 -3
 x6 r5 -1
 one obj 10000
RHS
 RHS r1 200
 RHS r2 250
 RHS r3 0
 RHS r4 0
 RHS r5 0
BOUNDS
 LO BND x1 0
 PL BND x1
 LO BND x2 0
 PL BND x2
 LO BND x3 0
 PL BND x3
 LO BND x4 0
 PL BND x4
 LO BND x5 0
 PL BND x5
 LO BND x6 0
 PL BND x6
 LO BND one 1
 UP BND one 1
ENDATA
