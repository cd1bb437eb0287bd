NAME zimplc
ROWS
 N obj
 G r1
COLUMNS
 x1 obj 2
 x1 r1 1
 x2 obj 3
 x2 r1 1
RHS
 RHS r1 1
BOUNDS
 LO BND x1 0
 PL BND x1
 LO BND x2 0
 PL BND x2
ENDATA
