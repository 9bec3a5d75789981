% No two alike on end, but for 1, and what it costs.
include "globals.mzn";
int: n;
array[1..n] of var 1..n: x;
var 0..n * n: cost;
constraint cost_regular(x, n, n, array2d(1..n, 1..n, [ if q = s /\ s > 1 then 0 else s endif | q, s in 1..n ]), 1, 1..n, array2d(1..n, 1..n, [ abs(q - s) | q, s in 1..n ]), cost);
solve satisfy;
