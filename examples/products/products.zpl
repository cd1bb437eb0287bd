# The Wyndor Glass problem: how many batches of doors and windows to make a week
# in three plants, where the profit, in thousands, is 3 a batch of doors and 5 a
# batch of windows. The best is 36.
var doors;
var windows;

maximize profit: 3*doors + 5*windows;

subto plant1: doors <= 4;
subto plant2: 2*windows <= 12;
subto plant3: 3*doors + 2*windows <= 18;
