# Maximum flow from s to t, in the network of six nodes that textbooks show. Each
# variable is the flow along one edge, as s_v1 from s to v1. The most is 23.
var s_v1;
var s_v2;
var v1_v3;
var v2_v1;
var v2_v4;
var v3_v2;
var v3_t;
var v4_v3;
var v4_t;

maximize flow: s_v1 + s_v2;

# what enters an inner node leaves it
subto through_v1: s_v1 + v2_v1 - v1_v3 == 0;
subto through_v2: s_v2 + v3_v2 - v2_v1 - v2_v4 == 0;
subto through_v3: v1_v3 + v4_v3 - v3_v2 - v3_t == 0;
subto through_v4: v2_v4 - v4_v3 - v4_t == 0;

# what each edge can carry
subto most_s_v1: s_v1 <= 16;
subto most_s_v2: s_v2 <= 13;
subto most_v1_v3: v1_v3 <= 12;
subto most_v2_v1: v2_v1 <= 4;
subto most_v2_v4: v2_v4 <= 14;
subto most_v3_v2: v3_v2 <= 9;
subto most_v3_t: v3_t <= 20;
subto most_v4_v3: v4_v3 <= 7;
subto most_v4_t: v4_t <= 4;
