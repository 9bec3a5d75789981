% No two places alike but for those with 1 or 2.
include "globals.mzn";
int: n;
array[1..n] of var 1..n: x;
constraint all_different_except(x, {1, 2});
solve satisfy;
