% Tasks on a resource whose size isn't fixed.
include "globals.mzn";
int: n;
array[1..n] of var 0..n - 1: start;
var 2..3: limit;
constraint cumulative(start, [ 1 + i mod 3 | i in 1..n ], [ 1 + i mod 2 | i in 1..n ], limit);
solve satisfy;
