NAME zimplc
ROWS
 N obj
 L r1
 L r2
 G r3
 G r4
 G r5
COLUMNS
 x1 obj 225
 x1 r1 1
 x1 r3 1
 x2 obj 153
 x2 r1 1
 x2 r4 1
 x3 obj 162
 x3 r1 1
 x3 r5 1
 x4 obj 225
 x4 r2 1
 x4 r3 1
 x5 obj 162
 x5 r2 1
 x5 r4 1
 x6 obj 126
 x6 r2 1
 x6 r5 1
RHS
 RHS r1 350
 RHS r2 600
 RHS r3 325
 RHS r4 300
 RHS r5 275
BOUNDS
 LO BND x1 0
 PL BND x1
 LO BND x2 0
 PL BND x2
 LO BND x3 0
 PL BND x3
 LO BND x4 0
 PL BND x4
 LO BND x5 0
 PL BND x5
 LO BND x6 0
 PL BND x6
ENDATA
