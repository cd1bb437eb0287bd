NAME zimplc
ROWS
 N obj
 L r1
 L r2
 L r3
COLUMNS
 x1 obj -25
 x1 r1 0.035
 x1 r2 1
 x2 obj -30
 x2 r1 0.05
 x2 r3 1
RHS
 RHS r1 280
 RHS r2 6000
 RHS r3 4000
BOUNDS
 LO BND x1 0
 PL BND x1
 LO BND x2 0
 PL BND x2
ENDATA
