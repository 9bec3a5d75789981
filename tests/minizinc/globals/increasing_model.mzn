% Places that don't fall.
include "globals.mzn";
int: n;
array[1..n] of var 1..n: x;
constraint increasing(x);
solve satisfy;
