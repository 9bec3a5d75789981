% All places alike.
include "globals.mzn";
int: n;
array[1..n] of var 1..n: x;
constraint all_equal(x);
solve satisfy;
