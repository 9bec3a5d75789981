% No two days on end with the same shift but 1, which means off.
include "globals.mzn";
array[1..5] of var 1..3: shift;
constraint regular(shift, 3, 3, [| 1, 2, 3 | 1, 0, 3 | 1, 2, 0 |], 1, {1, 2, 3});
constraint count(shift, 1) = 2;
solve satisfy;
