NAME zimplc
ROWS
 N obj
 G r1
 G r2
 G r3
 G r4
COLUMNS
 x1 obj 3.19
 x1 r1 60
 x1 r2 20
 x1 r3 10
 x1 r4 15
 x2 obj 2.59
 x2 r1 8
 x2 r3 20
 x2 r4 20
 x3 obj 2.29
 x3 r1 8
 x3 r2 10
 x3 r3 15
 x3 r4 10
 x4 obj 2.89
 x4 r1 40
 x4 r2 40
 x4 r3 35
 x4 r4 10
 x5 obj 1.89
 x5 r1 15
 x5 r2 35
 x5 r3 15
 x5 r4 15
 x6 obj 1.99
 x6 r1 70
 x6 r2 30
 x6 r3 15
 x6 r4 15
 x7 obj 1.99
 x7 r1 25
 x7 r2 50
 x7 r3 25
 x7 r4 15
 x8 obj 2.49
 x8 r1 60
 x8 r2 20
 x8 r3 15
 x8 r4 10
RHS
 RHS r1 700
 RHS r2 700
 RHS r3 700
 RHS r4 700
BOUNDS
 LO BND x1 0
 PL BND x1
 LO BND x2 0
 PL BND x2
 LO BND x3 0
 PL BND x3
 LO BND x4 0
 PL BND x4
 LO BND x5 0
 PL BND x5
 LO BND x6 0
 PL BND x6
 LO BND x7 0
 PL BND x7
 LO BND x8 0
 PL BND x8
ENDATA
