% Boxes that don't overlap.
include "globals.mzn";
int: n;
array[1..n] of var 1..3: x;
array[1..n] of var 1..n: y;
constraint diffn(x, y, [ 1 + i mod 2 | i in 1..n ], [ 1 + i mod 3 | i in 1..n ]);
solve satisfy;
