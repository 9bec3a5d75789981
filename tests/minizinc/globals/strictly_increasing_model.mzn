% Places that rise.
include "globals.mzn";
int: n;
array[1..3] of var 1..n: x;
constraint strictly_increasing(x);
solve satisfy;
