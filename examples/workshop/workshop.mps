NAME zimplc
ROWS
 N obj
 L r1
 L r2
COLUMNS
 x1 obj -3
 x1 r1 1
 x1 r2 2
 x2 obj -5
 x2 r1 2
 x2 r2 3
RHS
 RHS r1 14
 RHS r2 24
BOUNDS
 LO BND x1 0
 PL BND x1
 LO BND x2 0
 PL BND x2
ENDATA
