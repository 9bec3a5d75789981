% Tasks on a resource of three.
include "globals.mzn";
int: n;
array[1..n] of var 0..n - 1: start;
constraint cumulative(start, [ 1 + i mod 3 | i in 1..n ], [ 1 + i mod 2 | i in 1..n ], 3);
solve satisfy;
