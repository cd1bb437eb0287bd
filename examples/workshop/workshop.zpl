# A workshop makes doors and windows: what is to be made of 14 boards, in 8 hours?
var doors;
var windows;
maximize profit: 3*doors + 5*windows;
subto wood: doors + 2*windows <= 14;
subto hours: 2/3*doors + windows <= 8;
