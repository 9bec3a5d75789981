% Places that don't rise.
include "globals.mzn";
int: n;
array[1..n] of var 1..n: x;
constraint decreasing(x);
solve satisfy;
