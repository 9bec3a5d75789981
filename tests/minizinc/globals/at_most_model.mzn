% Two places or fewer have 1.
include "globals.mzn";
int: n;
array[1..n] of var 1..n: x;
constraint at_most(2, x, 1);
solve satisfy;
