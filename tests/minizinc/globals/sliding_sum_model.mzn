% Bounds for each three on end.
include "globals.mzn";
int: n;
array[1..n] of var 1..n: x;
constraint sliding_sum(n, n + 2, 3, x);
solve satisfy;
