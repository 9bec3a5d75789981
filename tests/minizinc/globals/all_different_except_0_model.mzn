% No two places alike but for those with 0.
include "globals.mzn";
int: n;
array[1..n] of var 0..n-1: x;
constraint all_different_except_0(x);
solve satisfy;
