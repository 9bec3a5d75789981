% The same, and no other value is there.
include "globals.mzn";
int: n;
array[1..n] of var 1..n: x;
constraint global_cardinality_low_up_closed(x, [1, 2, 3], [0, 1, 0], [n, 2, n]);
solve satisfy;
