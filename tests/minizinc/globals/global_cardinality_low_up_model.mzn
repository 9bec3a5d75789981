% Bounds for how often three values are there.
include "globals.mzn";
int: n;
array[1..n] of var 1..n: x;
constraint global_cardinality_low_up(x, [1, 2, 3], [0, 1, 0], [2, 2, 1]);
solve satisfy;
