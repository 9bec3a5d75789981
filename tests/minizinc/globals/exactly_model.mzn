% Two places have 1.
include "globals.mzn";
int: n;
array[1..n] of var 1..n: x;
constraint exactly(2, x, 1);
solve satisfy;
