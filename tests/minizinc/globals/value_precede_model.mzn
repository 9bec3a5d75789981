% No 2 before the first 1.
include "globals.mzn";
int: n;
array[1..n] of var 1..n: x;
constraint value_precede(1, 2, x);
solve satisfy;
