% Boxes in two directions that don't overlap.
include "globals.mzn";
int: n;
array[1..n, 1..2] of var 1..3: x;
constraint diffn_k(x, array2d(1..n, 1..2, [ 1 + i mod (k + 1) | i in 1..n, k in 1..2 ]));
solve satisfy;
