% No two alike on end, but for 1.
include "globals.mzn";
int: n;
array[1..n] of var 1..n: x;
constraint regular(x, n, n, array2d(1..n, 1..n, [ if q = s /\ s > 1 then 0 else s endif | q, s in 1..n ]), 1, 1..n);
solve satisfy;
